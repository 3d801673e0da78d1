"""What a driver's station and the registry are told as the driver is killed, or sleeps."""
import signal
import time
import unittest

from .common import until
from .stations import QUIET, STANDS, StationCase
from .test_dcc_ex import DccExCase
from .test_z21 import Z21Case


class LastWords(StationCase):
    """The table that both drivers pass."""

    def is_stopped(self):
        self.track(lambda s: s.power == 0, "the power is off")
        self.has("100 INFO 1 POWER OFF no driver")

    def test_a_driver_that_is_killed(self):
        """All stand at once, and the registry says why. As a driver comes again, nothing starts by itself."""
        killed = time.monotonic()
        self.driver.end(signal.SIGKILL)
        self.is_stopped()
        stood = max(when for when, cab, speed, *_ in self.station.moves if cab == 3 and not speed)
        self.assertLess(stood - killed, 3)  # on a busy machine
        self.throttle.order("SET 1 POWER ON")
        self.start()
        self.rests("", "server was away", "station was reset")
        self.drives()

    def test_a_driver_that_sleeps(self):
        """As it goes on, all rests until somebody commands it anew."""
        self.restarts("--asleep", 4)
        self.driver.send(signal.SIGSTOP)
        self.is_stopped()
        self.driver.send(signal.SIGCONT)
        self.has(STANDS)
        self.throttle.order("SET 1 POWER ON")
        self.track(lambda s: s.power == 1, "power is on")
        time.sleep(QUIET)
        self.assertLessEqual(self.station.cabs[3][0], 0)
        self.drives()
        self.driver.end(signal.SIGKILL)
        self.is_stopped()

    def test_nothing_is_said_while_it_drives_or_after_it_has_ended(self):
        self.restarts("--asleep", 4)
        begun = len(self.station.log)
        time.sleep(5)
        self.assertEqual([text for text in self.commands("", begun) if text[0] in "!0"], [])
        self.driver.end()
        self.has("100 INFO 1 POWER OFF no station")
        time.sleep(QUIET)
        self.has("100 INFO 1 POWER OFF no station")


class DccExLastWords(LastWords, DccExCase):
    def test_a_station_whose_cable_was_off(self):
        """The words are said over the line that is open."""
        self.station.unplug()
        self.has("100 INFO 1 POWER OFF no station")
        self.station.open()
        until(lambda: self.driver.told().count("station: iDCC") == 2, "it is back")
        self.lacks("100 INFO 1 POWER OFF no station")
        self.drives()
        self.driver.end(signal.SIGKILL)
        self.is_stopped()


class Z21LastWords(LastWords, Z21Case):
    def test_words_of_which_the_first_are_lost(self):
        self.station.loses, hears, lost = 0, self.station.hears, []
        stops = bytes((6, 0, 0x40, 0, 0x80, 0x80))
        self.station.hears = lambda client, datagram: (
            lost.append(datagram) if stops in datagram and len(lost) < 3 else hears(client, datagram))
        self.driver.end(signal.SIGKILL)
        self.is_stopped()
        self.assertEqual(len(lost), 3)

    def test_what_is_removed_while_there_is_no_driver(self):
        """The station keeps speeds while its power is off, and who comes then knows nothing of that locomotive. One of
        them a hand throttle drove, and one is the last of more than the words have room for."""
        self.station.loses, many, drive = 0, range(101, 251), (3, 77, 250)
        self.throttle.flood([f"INIT 1 GL {n} N 1 28 0" for n in many])
        self.throttle.order("SET 1 GL 250 1 14 28")
        self.station.hand(77, speed=40)
        self.has("100 INFO 1 GL 77 1 40 126")
        self.track(lambda s: all(n in s.cabs for n in many) and s.cabs[250] == (63, 1), "all have been told")
        time.sleep(QUIET)
        self.driver.end(signal.SIGKILL)
        self.is_stopped()
        self.throttle.order(*[f"TERM 1 GL {n}" for n in drive])
        self.start()
        self.throttle.order("SET 1 POWER ON")
        self.track(lambda s: s.power == 1, "power is on")
        time.sleep(QUIET)
        self.assertEqual([cab for cab in drive if self.station.cabs[cab][0] > 0], [])


class Speaking(unittest.TestCase):
    """When the words are said, as the driver's messages come."""
    program = "last_words"

    def test_when_they_are_said(self):
        from srcp_bridges.stations.last_words import ALIVE, TAKEN_BACK, WORDS, Speaker
        for messages, said in [
                ([(0, WORDS + b"!"), (1, ALIVE), (2, b"")], [2]), ([(0, WORDS + b"!"), (1, TAKEN_BACK), (2, b"")], []),
                ([(0, WORDS + b"!"), (1, None), (6, None), (7, None), (8, ALIVE), (14, None), (15, b"")], [6, 14]),
                ([(1, WORDS + b"!"), (9, ALIVE), (10, ALIVE)], [9]),
                ([(0, WORDS + b"!"), (6, None), (7, b"")], [6]), ([(0, ALIVE), (9, None), (9, b"")], []),
                ([(0, WORDS + b"!"), (1, TAKEN_BACK), (9, None)], [])]:
            speaker = Speaker(5)
            told = [now for now, message in messages
                    if (speaker.look(now) if message is None else speaker.take(message, now))]
            self.assertEqual(told, said, messages)
