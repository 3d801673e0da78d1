"""Programming decoders: program.py of examples/, with a driver and a simulated station of each kind."""
import asyncio
import os
import signal
import socket
import subprocess
import sys
import threading
import time
import types
import unittest
from unittest import mock

from serving import UNREAD, run_unread

from .common import TOP, WAIT, folder, free_port, until
from .stations import QUIET, StationCase
from .test_dcc_ex import DccExCase
from .test_z21 import Z21Case

EXAMPLE = TOP / "examples" / "program.py"


class Programs(StationCase):
    """The table: what program.py does by each station."""

    def may(self):
        """Has all be so that the station may program."""

    def programs(self, *words):
        """What program.py prints, and its status."""
        command = [sys.executable, EXAMPLE, "--port", str(self.way.port), *map(str, words)]
        done = subprocess.run(command, capture_output=True, text=True, timeout=2 * WAIT)
        return done.stdout, done.stderr, done.returncode

    def door(self):
        return os.path.join(folder.name, "srcp_bridges", f"{self.driver.pid}.door")

    def asks(self, *requests):
        """The replies of the driver to lines at its door."""
        with socket.socket(socket.AF_UNIX) as door:
            door.settimeout(2 * WAIT)
            door.connect(self.door())
            stream = door.makefile("rw", newline="\n")
            replies = []
            for request in requests:
                print(request, file=stream, flush=True)
                replies.append(stream.readline().rstrip("\n"))
            return replies

    def told(self):
        """The commands for CVs that the station was told."""
        return self.commands("R ") + self.commands("W ")

    def test_program_reads_writes_and_verifies(self):
        self.may()
        self.assertEqual(self.programs("read", 1, 29), ("CV 1 = 3\nCV 29 = 6 (steps, analog)\n", "", 0))
        self.assertEqual(self.programs("write", 29, 7), ("CV 29 = 7 (turned, steps, analog), was 6\n", "", 0))
        self.assertEqual(self.programs("write", 3, 20), ("CV 3 = 20, was 8\n", "", 0))
        self.assertEqual((self.station.decoder[29], self.station.decoder[3]), (7, 20))
        self.assertEqual(self.programs("verify", 29, 7), ("CV 29 = 7 (turned, steps, analog)\n", "", 0))
        self.assertEqual(self.programs("verify", 29, 6), ("", "CV 29 = 7, and not 6\n", 1))
        self.station.decoder |= {1024: 255, 256: 0, 257: 7}
        self.assertEqual(self.asks("READ 1024", "WRITE 1024 0", "WRITE 256 255", "READ 256", "READ 257"),
                         ["200 255", "200 0", "200 255", "200 255", "200 7"])

    def test_program_gives_an_address(self):
        """A long one, and a short one again: CV 17 and 18, or CV 1, and then the bit of CV 29 that chooses."""
        self.may()
        self.station.loses = 0
        told, wrong, status = self.programs("address", 1234)
        self.assertEqual((told.splitlines()[-2:], wrong, status),
                         (["CV 29 = 38 (steps, analog, long), was 6", "its long address is 1234"], "", 0))
        self.assertEqual([self.station.decoder[cv] for cv in (1, 17, 18, 29)], [3, 192 + 4, 210, 38])
        written = [command.split()[1] for command in self.told() if command[0] == "W"]
        self.assertEqual(list(dict.fromkeys(written)), ["17", "18", "29"])
        told, wrong, status = self.programs("address", 77)
        self.assertEqual((told.splitlines()[0::2], wrong, status),
                         (["CV 1 = 77, was 3", "its short address is 77"], "", 0))
        self.assertEqual([self.station.decoder[cv] for cv in (1, 17, 18, 29)], [77, 196, 210, 6])
        for address, cvs in ((127, {1: 127}), (128, {17: 192, 18: 128}), (10239, {17: 231, 18: 255})):
            self.assertEqual(self.programs("address", address)[2], 0)
            self.assertEqual({cv: self.station.decoder[cv] for cv in cvs}, cvs)

    def test_program_switches_a_bit(self):
        """It leaves the others as they are."""
        self.may()
        self.station.loses = 0
        self.assertEqual(self.programs("bit", "turned", "on"), ("CV 29 = 7 (turned, steps, analog), was 6\n", "", 0))
        self.assertEqual(self.programs("bit", "analog", "off"), ("CV 29 = 3 (turned, steps), was 7\n", "", 0))
        self.assertEqual(self.programs("bit", "steps", "on"), ("CV 29 = 3 (turned, steps), was 3\n", "", 0))

    def test_program_leaves_a_decoder_within_reach(self):
        """What would have it answer to no address is refused, unless it is to be written anyway."""
        self.may()
        self.station.loses = 0
        was = dict(self.station.decoder)
        for cv, value, why in ((1, 0, "0 is no short address"), (1, 128, "128 is no"), (1, 255, "255 is no"),
                               (17, 191, "191 begins no long address"), (17, 232, "232 begins"), (17, 0, "0 begins"),
                               (8, 8, "a value that is written there resets"), (29, 38, "then CV 17 counts: 0 begins")):
            self.station.decoder[17] = 0 if cv == 29 else was[17]
            out, wrong, status = self.programs("write", cv, value)
            self.assertRegex(wrong, f"^CV {cv}: {why}.*--anyway writes it\n$")
            self.assertEqual((out, status), ("", 1))
        self.station.decoder[1], self.station.decoder[29] = 200, 38
        self.assertRegex(self.programs("bit", "long", "off")[1], "^CV 29: then CV 1 counts: 200 is no short address")
        self.assertEqual([command for command in self.told() if command[0] == "W"], [])
        for cv, value, told in ((1, 127, "CV 1 = 127, was 200\n"), (17, 231, "CV 17 = 231, was 0\n")):
            self.assertEqual(self.programs("write", cv, value), (told, "", 0))
        self.assertEqual(self.programs("--anyway", "write", 17, 128), ("CV 17 = 128, was 231\n", "", 0))

    def test_program_shows_the_twenty_that_people_change(self):
        self.may()
        self.station.loses = 0
        del self.station.decoder[27]
        told, wrong, status = self.programs("table")
        lines = [line.split(None, 2) for line in told.splitlines()]
        self.assertEqual((len(lines), wrong, status), (20, "", 0))
        for cv, value, about in lines:
            self.assertEqual(value, str(self.station.decoder.get(int(cv), "-")))
            self.assertTrue(about)

    def test_program_that_nobody_reads_ends_without_a_word(self):
        self.may()
        self.assertEqual(run_unread(EXAMPLE, "--port", self.way.port, "table", seconds=2 * WAIT), (UNREAD, ""))

    def test_program_finds_no_decoder(self):
        self.may()
        self.station.loses = 0
        self.station.decoder = {}
        for words, told in ((["read", 1], {"R"}), (["write", 1, 3], {"R"}), (["table"], {"R"}),
                            (["--anyway", "write", 1, 3], {"R", "W"})):
            out, wrong, status = self.programs(*words)
            self.assertRegex(wrong, "^CV [18]: no decoder answers\n$")
            self.assertEqual((out, status), ("", 1))
            self.assertEqual({command[0] for command in self.told()}, told, words)
        self.assertNotIn("R 29", self.told())
        self.station.decoder = None
        self.assertEqual(self.asks("READ 1"), [self.no_track])

    def test_program_refuses_what_is_out_of_range(self):
        self.may()
        for request, code in [("READ 0", "412"), ("READ 1025", "412"), ("WRITE 1 256", "412"), ("WRITE 0 1", "412"),
                              ("READ 1 2", "410"), ("WRITE 1", "410"), ("", "410"), ("READ -1", "410"),
                              ("READ \u0661", "410"), ("READ 1" + " " * 99, "410"), ("x" * 9999, "410")]:
            self.assertEqual(self.asks(request)[0][:3], code, request)
        self.assertEqual(self.told(), [])


class DccExWithPrograms(Programs, DccExCase):
    no_track = "416 the station has no programming track"

    def test_program_has_wrong_words(self):
        """Also those that name no CV or no value end it with status 2, and one line."""
        for words in (["read", 0], ["read", 1025], ["write", 1, 256], ["write", 1, -1], ["write", 1], ["read"],
                      ["verify", 1, 2, 3], ["table", 1], ["erase", 1], [], ["address", 0], ["address", 10240],
                      ["address"], ["bit", "turned"], ["bit", "32", "on"], ["bit", "long", "yes"], ["read", "x"],
                      ["--bus", "x", "read", 1]):
            out, wrong, status = self.programs(*words)
            self.assertRegex(wrong, "^program.py: .+\n$")
            self.assertEqual((out, status, wrong.count("\n")), ("", 2, 1), words)
        self.assertEqual(self.told(), [])

    def test_program_needs_a_driver(self):
        out, wrong, status = self.programs("--bus", 2, "read", 1)
        self.assertEqual((out, status), ("", 1))
        self.assertRegex(wrong, "^no drivers of bus 2 are joined here")
        self.assertRegex(self.programs("--port", free_port(), "read", 1)[1], "^no drivers of bus 1 are joined here")
        self.assertTrue(os.path.exists(self.door()))
        self.driver.end(signal.SIGKILL)
        self.assertRegex(self.programs("read", 1)[1], "^no drivers of bus 1 are joined here")
        self.start()
        self.assertEqual(self.asks("READ 1"), ["200 3"])
        idle = socket.socket(socket.AF_UNIX)
        idle.connect(self.door())
        self.assertEqual(self.driver.end(), 0)
        self.assertFalse(os.path.exists(self.door()))
        self.assertNotIn("Traceback", self.driver.told())
        idle.close()

    def test_program_reads_an_address_back(self):
        """A station may say that a decoder has taken a value which it has not."""
        class KeepsItsLowByte(dict):
            def __setitem__(self, cv, value):
                super().__setitem__(cv, self[cv] if cv == 18 else value)

        self.station.decoder = KeepsItsLowByte(self.station.decoder)
        told, wrong, status = self.programs("address", 1234)
        self.assertIn("CV 18 = 210, was 232\n", told)
        self.assertEqual((wrong, status), ("CV 18 = 232, and not 210\n", 1))

    def test_program_while_trains_drive(self):
        """The station has a track for it. Requests of several are carried out one after the other."""
        self.station.late = 0.2
        replies = {}

        def reads(cv):
            replies[cv] = self.asks(f"READ {cv}")

        threads = [threading.Thread(target=reads, args=(cv,)) for cv in (1, 8, 29)]
        for thread in threads:
            thread.start()
        for thread in threads:
            thread.join(WAIT)
        self.assertEqual(replies, {1: ["200 3"], 8: ["200 13"], 29: ["200 6"]})
        moments = [moment for moment, text in self.station.log if text.startswith("R ")]
        self.assertGreater(min(moments[1] - moments[0], moments[2] - moments[1]), 0.15)
        self.assertEqual((self.station.power, self.station.cabs[3]), (1, (63, 1)))
        self.has("100 INFO 1 POWER ON", "100 INFO 1 GL 3 1 14 28")

    def test_program_loses_its_station(self):
        self.station.stalled = True
        time.sleep(0.2)
        self.assertEqual(self.asks("READ 1"), ["417 the station is away"])
        self.assertEqual(self.asks("READ 1"), ["417 the station is away"])
        self.station.stalled = False
        self.rests("")
        until(lambda: self.asks("READ 1") == ["200 3"], "it answers again")
        self.station.late = 30.0
        thread = threading.Thread(target=lambda: time.sleep(QUIET) or self.station.restart())
        thread.start()
        self.assertEqual(self.asks("READ 1"), ["417 the station is away"])  # it was reset
        thread.join()


class Z21WithPrograms(Programs, Z21Case):
    no_track = "416 a short circuit at the programming track"

    def may(self):
        self.throttle.order("SET 1 GL 3 1 0 28")
        self.track(lambda s: s.cabs[3] == (0, 1), "it stands")

    def test_program_is_refused_while_a_train_drives(self):
        """Also one that the registry has not. The power goes off as the station programs, and stays off."""
        refused = "locomotive 3 drives, and the station stops all to program"
        self.assertEqual(self.programs("read", 1), ("", f"CV 1: {refused}\n", 1))
        self.assertEqual(self.asks("WRITE 1 4"), [f"413 {refused}"])
        self.assertEqual((self.station.power, self.station.cabs[3], self.told()), (1, (63, 1), []))
        self.may()
        self.station.loses = 0
        self.throttle.order("INIT 1 GL 76 M 1 28 0")
        self.station.hand(10240, speed=40)
        until(lambda: self.asks("READ 1")[0].startswith("413 locomotive 10240 drives"), "one that is not made")
        self.station.hand(76, speed=40)
        until(lambda: self.asks("READ 1")[0].startswith("413 locomotive 76 drives"), "one that has another protocol")
        self.throttle.order("INIT 1 GL 76 N 1 28 0")  # the registry has it now, and has it stand
        self.station.hand(10240, speed=0)
        until(lambda: self.asks("READ 1") == ["200 3"], "all stand")
        self.has("100 INFO 1 POWER OFF programming", "100 INFO 1 GL 3 1 0 28")
        self.throttle.order("SET 1 GL 3 1 14 28")
        time.sleep(QUIET)
        self.assertEqual(self.asks("READ 29"), ["200 6"])  # without power nothing drives
        self.assertTrue(self.station.programs())
        self.throttle.order("SET 1 GL 3 1 0 28", "SET 1 POWER ON")
        self.track(lambda s: s.power == 1, "somebody ends the programming")

    def test_program_while_datagrams_are_lost(self):
        """The station is told again until it answers."""
        self.may()
        self.station.loses = 1
        thread = threading.Thread(target=lambda: time.sleep(QUIET) or setattr(self.station, "loses", 0))
        thread.start()
        self.assertEqual(self.asks("WRITE 3 20"), ["200 20"])
        thread.join()
        self.assertEqual((self.station.decoder[3], self.told()), (20, ["W 3 20"]))


    def test_program_finds_no_decoder_though_datagrams_are_lost(self):
        """A question; or all but the last of the five answers that its time has room for, and what comes behind may be
        one of these, late."""
        self.may()
        self.station.loses, self.station.decoder = 0, {}
        for loses, count in ((self.loses_questions, 1), (self.loses_answers, 4)):
            lost = loses(count)
            out, wrong, status = self.programs("read", 1)
            self.assertEqual((out, wrong, status), ("", "CV 1: no decoder answers\n", 1))
            self.assertEqual(len(lost), count)
            self.assertEqual(self.asks("READ 8"), ["416 no decoder answers"])
            self.station.decoder = {8: 13}
            self.assertEqual(self.asks("READ 8", "READ 1"), ["200 13", "416 no decoder answers"])
            self.station.decoder = {}

    def loses_questions(self, count):
        """Has the line lose so many commands for CVs; returns those that it has lost."""
        take, lost = type(self.station).take_cv.__get__(self.station), []
        self.station.take_cv = lambda *asked: lost.append(asked) if len(lost) < count else take(*asked)
        return lost

    def loses_answers(self, count):
        """Has the line lose so many of the answers that name no CV."""
        say, lost = type(self.station).say_bus.__get__(self.station), []
        self.station.say_bus = lambda client, *data: (
            lost.append(data) if data == (0x61, 0x13) and len(lost) < count else say(client, *data))
        return lost


class Programming(unittest.TestCase):
    """What a driver makes of what its station says, without one."""
    program = "programming"

    def setUp(self):
        self.driving: list[int] = []

    def station(self, says, repeats=0.1):
        """A station: `says` is called with each command, and with what takes its answers."""
        from srcp_bridges.stations import programming
        track = types.SimpleNamespace(driving=lambda: self.driving)
        line = types.SimpleNamespace(write=lambda command: says(command, made.take))
        ready = types.SimpleNamespace(is_set=lambda: True)
        station = types.SimpleNamespace(track=track, line=line, ready=ready, encode_cv=lambda *asked: asked)
        made = programming.Programming(station, False, repeats)
        limit = mock.patch.object(programming, "CV_TAKES", 0.5)
        limit.start()
        self.addCleanup(limit.stop)
        return made

    def answers(self, says, *requests, **more):
        async def asked():
            made = self.station(says, **more)
            return [await made.answer(request + "\n") for request in requests]
        return asyncio.run(asked())

    def test_a_station_that_says_nothing_of_it(self):
        told = []
        self.assertEqual(self.answers(lambda command, take: told.append(command), "READ 7"),
                         ["417 the station does not answer"])
        self.assertEqual(set(told), {(7, None)})
        self.assertGreater(len(told), 2)

    def test_a_train_that_starts_meanwhile(self):
        """The station is not told again then: it would stop the train."""
        told = []

        def says(command, take):
            told.append(command)
            self.driving.append(3)

        self.assertEqual(self.answers(says, "READ 7")[0][:24], "413 locomotive 3 drives,")
        self.assertEqual(told, [(7, None)])

    def test_what_is_of_another_command_is_passed_over(self):
        def says(command, take):
            cv, value = command
            for of, told in [(cv + 1, 5), (cv, 9 if value == 6 else 6), (cv, 7), (None, -1)]:
                take(of, told)

        self.assertEqual(self.answers(says, "READ 1", "WRITE 1 6", "WRITE 1 7"),
                         ["200 6", "416 no decoder answers", "200 7"])

    def test_a_late_answer_is_not_that_of_the_next(self):
        """A station that is slow answers twice what it was told twice, and names no CV if it fails."""
        def says(command, take):
            loop = asyncio.get_running_loop()
            loop.call_later(0.15 if command[0] == 1 else 0.3, take, *((None, -1) if command[0] == 1 else (2, 44)))

        self.assertEqual(self.answers(says, "READ 1", "READ 2"), ["416 no decoder answers", "200 44"])

    def test_an_answer_that_was_lost_delays_the_next_but_once(self):
        """The next request takes one answer for the one that was lost. It is told again, and then believes the next."""
        told = []

        def says(command, take):
            told.append(command[0])
            if len(told) > 1:
                take(None, -1)

        self.assertEqual(self.answers(says, *[f"READ {cv}" for cv in (1, 2, 3)]), 3 * ["416 no decoder answers"])
        self.assertLessEqual(max(told.count(cv) for cv in (2, 3)), 2)

    def test_a_request_has_its_whole_time_behind_late_answers(self):
        """While an answer may be one to the request before, none can be taken for its own."""
        began = []

        def says(command, take):
            began.append(time.monotonic())
            if command[0] == 1 and len(began) > 1:
                take(None, -1)

        self.assertEqual(self.answers(says, "READ 1", "READ 2", repeats=0.2),
                         ["416 no decoder answers", "417 the station does not answer"])
        self.assertGreater(time.monotonic() - began[2], 0.65)  # of 0.4 seconds and CV_TAKES
