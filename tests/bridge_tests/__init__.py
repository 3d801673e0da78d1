"""The cases of the programs in bridges/: each is a test of one of the classes below, by the name bridge-PROGRAM-TEST.

They wait most of the time, so `run_cases.py` runs them beside each other. One that needs what is not installed raises
TriedNothing.
"""
import unittest

from serving import TriedNothing

from . import common


class Result(unittest.TestResult):
    """The result of one test: `stop` is what it stopped at, with notes of what its programs told, and how they
    ended."""
    stop = None

    def addError(self, test, fault):
        super().addError(test, fault)
        self.take(test, fault[1])

    def addFailure(self, test, fault):
        super().addFailure(test, fault)
        self.take(test, fault[1])

    def take(self, test, stop):
        programs = {"server": test.server.process} if hasattr(test, "server") else {}
        for name, program in (programs | getattr(test, "started", {})).items():
            status = program.process.poll()
            ended = "" if status is None else f", which ended with status {status}"
            stop.add_note(f"its {name}{ended}: {program.told()[-500:]!r}")
        self.stop = self.stop or stop


def case_of(kind, method):
    """The case that a test is: a function of the built server that stops at what the test finds wrong."""
    def case(program):
        common.SERVER, result = program, Result()
        kind(method).run(result)
        if result.skipped:
            raise TriedNothing(result.skipped[0][1])
        if result.stop:
            raise result.stop

    case.__name__ = f"bridge_{getattr(kind, 'named', kind.program)}_{method.removeprefix('test_')}"
    return case


def cases_of(*kinds):
    names = unittest.defaultTestLoader.getTestCaseNames
    return tuple(case_of(kind, method) for kind in kinds for method in names(kind))


from .test_answers import OfAnswers  # noqa: E402
from .test_box import Box  # noqa: E402
from .test_box_approach import BoxOfAnApproach  # noqa: E402
from .test_box_hands import BoxWithHands  # noqa: E402
from .test_box_sections import BoxOfSections  # noqa: E402
from .test_box_tracks import BoxOfTracks  # noqa: E402
from .test_broker import MqttBesideOthers, MqttWithLimits, MqttWithTls  # noqa: E402
from .test_chromium import WebInChromium, WebInGerman  # noqa: E402
from .test_chromium_plain import WebWithoutAScript  # noqa: E402
from .test_chromium_silence import WebWithBeats, WebWithSilence  # noqa: E402
from .test_chromium_stop import WebWithADriverThatSleeps  # noqa: E402
from .test_chromium_touch import WebByTouch  # noqa: E402
from .test_confirmed import DccExTelling, Elsewhere, OfAwaited, OfDccEx, Z21Telling  # noqa: E402
from .test_dcc_ex import DccEx, DccExWithHands, DccExWithLosses, Simulated  # noqa: E402
from .test_doctor import Doctor  # noqa: E402
from .test_driving import Driving  # noqa: E402
from .test_ends import DriverThatEnds, Ends, ServerThatIsLeft  # noqa: E402
from .test_entrance import Entering, WebBesideManyConnections, WebInTheNetwork, WebWithAWord, WebWithForms  # noqa: E402
from .test_guard import Guard  # noqa: E402
from .test_hands import HandsBeforeRows, HandsBeforeStops  # noqa: E402
from .test_keep import Keep  # noqa: E402
from .test_last_words import DccExLastWords, Speaking, Z21LastWords  # noqa: E402
from .test_left_out import WebBesideADriver  # noqa: E402
from .test_log import Log  # noqa: E402
from .test_mqtt import Mqtt, MqttForHomeAssistant, MqttWithAWrongBroker, MqttWithPersistence, Payloads  # noqa: E402
from .test_orders import Orders, Stopping  # noqa: E402
from .test_phone_routes import WiThrottleWithRoutes  # noqa: E402
from .test_phone_stops import WiThrottleStops, WiThrottleWithBeats  # noqa: E402
from .test_plan import Plans  # noqa: E402
from .test_plan_in_chromium import PlanInChromium, PlanInGerman, SignalsInChromium  # noqa: E402
from .test_plan_size_in_chromium import LargePlanInChromium  # noqa: E402
from .test_program import DccExWithPrograms, Programming, Z21WithPrograms  # noqa: E402
from .test_readme import Readme  # noqa: E402
from .test_real_stations import (DccEx4, DccEx5, DccEx52, DccExAtAMega, DccExWithLostCommands,  # noqa: E402
                                 DccExWithTurnedBits, Z21Start, Z21WithDoubles, Z21WithShuffles)
from .test_simulated import SimulatedDccEx, SimulatedZ21, WhatMoves  # noqa: E402
from .test_srcp import Following, Parsing  # noqa: E402
from .test_srcpd import Srcpd, SrcpdWithADriver  # noqa: E402
from .test_stop_all import DccExStopAll, OfStopAll, Z21StopAll  # noqa: E402
from .test_upgrade import WebOfOtherFiles, WebThatIsUpgraded  # noqa: E402
from .test_watching import Watching  # noqa: E402
from .test_web import Web, WebThatSleeps, WebWithManyPages, WebWithSilentPages  # noqa: E402
from .test_withrottle import WiThrottle  # noqa: E402
from .test_z21 import Z21, Z21WithHands, Z21WithLosses  # noqa: E402

BRIDGE_CASES = cases_of(Readme, Following, MqttWithAWrongBroker, Stopping, Mqtt, MqttForHomeAssistant,
                        MqttWithPersistence, MqttBesideOthers, MqttWithLimits, MqttWithTls, Orders, Payloads,
                        WebInChromium, WebByTouch, WebInGerman, WebWithBeats, WebWithSilence, Web, WebThatSleeps,
                        WebWithAWord, WebWithManyPages, WebWithSilentPages, WebBesideManyConnections, WebInTheNetwork,
                        Entering, WiThrottle, WiThrottleStops, WiThrottleWithBeats, WiThrottleWithRoutes, Srcpd,
                        SrcpdWithADriver, DccEx, DccExWithLosses, DccExWithHands, HandsBeforeRows, HandsBeforeStops,
                        Z21, Z21WithLosses, Z21WithHands, DccExWithPrograms, Z21WithPrograms, Programming, Doctor,
                        Guard, Keep, Box, BoxWithHands, BoxOfSections, BoxOfAnApproach, BoxOfTracks, Log, Parsing,
                        Plans, PlanInChromium, LargePlanInChromium, PlanInGerman, SignalsInChromium,
                        WebBesideADriver, Simulated, SimulatedDccEx, SimulatedZ21, WhatMoves, Watching, DccEx4,
                        DccEx52, Z21WithDoubles, DccExStopAll, Z21StopAll, DccExLastWords, Z21LastWords, Speaking,
                        OfAnswers, OfStopAll, Ends, DriverThatEnds, ServerThatIsLeft, WebOfOtherFiles,
                        WebThatIsUpgraded, Driving, WebWithoutAScript, WebWithForms, Z21WithShuffles, DccExTelling,
                        Z21Telling, OfAwaited, Elsewhere, WebWithADriverThatSleeps, DccEx5, DccExAtAMega,
                        DccExWithLostCommands, DccExWithTurnedBits, Z21Start, OfDccEx)
