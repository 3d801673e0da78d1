"""The simulated stations: what a real one does that a driver has to bear, by each of their words."""
import os
import socket
import subprocess
import sys
import time
import unittest
from typing import Any

from .common import PROGRAMS, WAIT, free_port, new_folder, until


class SimulatedCase(unittest.TestCase):
    """A station, and a line to it by which a case says and hears what a driver would."""
    program = "simulated"

    def dcc_ex(self, **words: Any):
        """Begins a DCC-EX."""
        from simulated_station import Station
        station = Station(os.path.join(new_folder(), "ttyACM0"), **words)
        self.addCleanup(station.unplug)
        self.line = os.open(station.link, os.O_RDWR | os.O_NOCTTY | os.O_NONBLOCK)
        self.addCleanup(os.close, self.line)
        return station

    def says(self, *commands: str) -> list[str]:
        """What it answers to commands, up to the answer to a question behind them."""
        os.write(self.line, "".join(f"<{command}>\n" for command in (*commands, "#")).encode())
        return self.hears("<# ")

    def hears(self, last: str) -> list[str]:
        """What comes before a line that begins so."""
        text = ""

        def more() -> bool:
            nonlocal text
            try:
                text += os.read(self.line, 10000).decode("latin-1")
            except BlockingIOError:
                pass
            return any(line.startswith(last) for line in text.split("\r\n")[:-1])

        until(more, last)
        lines = text.split("\r\n")[:-1]
        return lines[:next(place for place, line in enumerate(lines) if line.startswith(last))]


class SimulatedDccEx(SimulatedCase):
    def test_each_version_tells_its_power_in_its_order(self):
        for version, begins in (4, ["<p1>", "<iDCC"]), (5.0, ["<iDCC", "<p1>"]), (5.2, ["<iDCC", "<p1 A>", "<p1 B>"]):
            station = self.dcc_ex(version=version)
            station.sensor(7, 1)
            told = self.says("1", "s")
            told = told[next(place for place, line in enumerate(told) if line.startswith("<iDCC")) - (version == 4):]
            self.assertTrue(all(line.startswith(begin) for line, begin in zip(told, begins, strict=False)), told)
            self.assertEqual(told[-1], "<Q 7>")

    def test_the_main_track_alone_goes_off(self):
        for version, told in (5.0, ["<p1 PROG>"]), (5.2, ["<p0 A>", "<p1 B>", "<p1 PROG>"]):
            station = self.dcc_ex(version=version)
            self.says("1", "t 3 60 1")
            station.switch(0, 1)
            self.assertEqual(self.says(), told)
            self.assertEqual([move[1:] for move in station.moves], [(0, 1), (3, 60), (0, 0), (3, 0)])

    def test_what_changes_nothing_is_not_reported(self):
        for echoes, times in (False, 1), (True, 2):
            self.dcc_ex(echoes=echoes)
            self.assertEqual(self.says("t 3 60 1", "t 3 60 1"), ["<l 3 0 189 0>"] * times)
            self.assertEqual(self.says("F 3 1 1", "F 3 1 1"), ["<l 3 0 189 2>"] * times)
        self.assertEqual(self.says("t 3", "t 4"), ["<l 3 0 189 2>", "<l 4 -1 128 0>"])
        self.assertEqual(self.says("!", "- 3", "t 3"), ["<l 3 0 129 2>", "<l 3 -1 128 0>"])

    def test_a_locomotive_without_a_slot_drives_and_is_reported_by_nothing(self):
        station = self.dcc_ex()
        station.slots = 1
        self.assertEqual(self.says("t 3 60 1", "t 4 50 1"), ["<l 3 0 189 0>", "<* Too many locos *>"])
        self.assertEqual((station.cabs[4], station.known), ((50, 1), {3}))
        self.assertEqual(station.faults, ["no slot is left for 4"])

    def test_a_locomotive_whose_slot_is_given_away_makes_an_emergency_stop(self):
        station = self.dcc_ex()
        self.says("t 3 60 0", "t 4 0 0", "- 3", "- 4")
        self.assertEqual((station.cabs, station.known), ({3: (-1, 0), 4: (0, 0)}, set()))

    def test_what_does_not_fit_its_input_is_lost(self):
        """Eight commands of long addresses are twice the input of a Mega. Three with a pause after them fit."""
        commands = [f"t {cab} 126 1" for cab in range(1001, 1009)]
        for room, here in (0, 8), (64, 3):
            station = self.dcc_ex(room=room)
            os.write(self.line, "".join(f"<{command}>\n" for command in commands).encode())
            until(lambda: len(station.cabs) >= here, "it has carried out what fits")
            time.sleep(0.2)
            self.assertEqual((len(station.log) >= here, station.lost > 0), (True, bool(room)))
            self.assertEqual(len(station.log) == 8, not room)
        station = self.dcc_ex(room=64)
        for begin in (0, 3, 6):
            self.says(*commands[begin:begin + 3])
        self.assertEqual(([text for _, text in station.log if text != "#"], station.lost), (commands, 0))

    def test_its_line_loses_and_turns_by_a_seed(self):
        """The same ones of the same commands; about one in four. What was not told so is refused, and is no fault."""
        commands = [f"t 3 {speed} 1" for speed in range(100)]
        for word in "loses", "turns":
            logs = []
            for seed in (1, 1, 2):
                station = self.dcc_ex(**{word: 0.25}, seed=seed)
                os.write(self.line, "".join(f"<{command}>\n" for command in commands).encode())
                until(lambda: station.cabs.get(3, (0,))[0] > 90, "it has come to the end")
                time.sleep(0.2)
                logs.append([text for _, text in station.log])
                self.assertEqual(station.faults, [])
                self.assertTrue(10 < station.trouble.spoilt < 40, station.trouble.spoilt)
            self.assertEqual(logs[0], logs[1])
            self.assertNotEqual(logs[0], logs[2])

    def test_a_short_circuit_in_each_of_its_texts(self):
        """It tries again in a moment, and what drove goes on if nobody has switched its power off."""
        from simulated_station import SHORTS
        for says in SHORTS.values():
            station = self.dcc_ex()
            self.says("1", "t 3 60 1")
            station.overload(says)
            self.assertIn(says.strip(), self.says())
            self.assertEqual([move[1:] for move in station.moves],
                             [(0, 1), (3, 60), (0, 0), (3, 0), (0, 1), (3, 60)])

    def test_its_cable_comes_off_and_it_goes_on(self):
        station = self.dcc_ex()
        self.says("1", "t 3 60 1")
        station.unplug()
        station.hand(3, speed=50)
        station.plug()
        self.line = os.open(station.link, os.O_RDWR | os.O_NOCTTY | os.O_NONBLOCK)
        self.addCleanup(os.close, self.line)
        self.assertEqual((self.says("t 3"), station.power), (["<l 3 0 179 0>"], 1))

    def test_it_goes_on_while_nobody_reads_what_it_says(self):
        station = self.dcc_ex()
        for number in range(5000):
            station.sensor(7, number % 2)
        os.write(self.line, b"<1>\n")
        until(lambda: station.power == 1, "it carries out a command", 5)

    def test_what_is_typed_happens_at_it(self):
        link = os.path.join(new_folder(), "ttyACM0")
        words = [sys.executable, PROGRAMS / "simulated_station.py", link, "--firmware", "5.2", "--slots", "9"]
        station = subprocess.Popen(words, stdin=subprocess.PIPE, stdout=subprocess.PIPE, stderr=subprocess.PIPE)
        self.addCleanup(station.kill)
        until(lambda: os.path.exists(link), "its line")
        self.line = os.open(link, os.O_RDWR | os.O_NOCTTY | os.O_NONBLOCK)
        self.addCleanup(os.close, self.line)
        assert station.stdin
        station.stdin.write(b"7\nhand 3 60\nhand x\nprog\nfault\n9\n")
        station.stdin.flush()
        self.assertEqual(self.hears("<Q 9>"), ["<Q 7>", "<l 3 0 189 0>", "<p0 A>", "<p1 B>", "<p1 PROG>",
                                               "<* TRACK A FAULT PIN detected after 10ms. Pause 100ms *>"])
        station.terminate()
        told, faults = station.communicate(timeout=WAIT)
        self.assertEqual((told, faults.startswith(b"-- hand x: what can be typed is ")), (b"", True))


class SimulatedZ21(SimulatedCase):
    SERIAL, CODE = bytes([4, 0, 0x10, 0]), bytes([4, 0, 0x18, 0])
    DRIVE, ASK = bytes.fromhex("0a004000e4130003bd49"), bytes.fromhex("09004000e3f0000310")

    def z21(self, **words: Any):
        from simulated_z21 import Z21
        station = Z21(free_port(), **words)
        self.addCleanup(station.unplug)
        self.socket = socket.socket(socket.AF_INET, socket.SOCK_DGRAM)
        self.socket.connect(("127.0.0.1", station.port))
        self.socket.settimeout(0.3)
        self.addCleanup(self.socket.close)
        return station

    def told(self, *datagrams: bytes) -> list[bytes]:
        """What comes back, in its order."""
        for datagram in datagrams:
            self.socket.send(datagram)
        came = []
        while True:
            try:
                came.append(self.socket.recv(1000))
            except TimeoutError:
                return came

    def test_one_that_is_locked_answers_and_does_not_drive(self):
        for locked, code, cabs in (False, 0, {3: (60, 1)}), (True, 1, {}):
            station = self.z21(loses=0, locked=locked)
            self.assertEqual(len(self.told(self.DRIVE, self.ASK)), 1)
            self.assertEqual(self.told(self.CODE), [bytes([5, 0, 0x18, 0, code])])
            self.assertEqual((station.cabs, station.faults), (cabs, []))

    def test_datagrams_get_lost_come_twice_and_behind_others(self):
        whole = [bytes([8, 0, 0x10, 0, 0x40, 0xE2, 1, 0])] * 20
        self.z21(loses=0)
        self.assertEqual(self.told(*[self.SERIAL] * 20), whole)
        self.z21(loses=0, doubles=0.5)
        self.assertGreater(len(self.told(*[self.SERIAL] * 20)), 25)
        self.z21(loses=0.5)
        self.assertLess(len(self.told(*[self.SERIAL] * 20)), 15)
        station, asked = self.z21(loses=0, shuffles=0.3), [self.SERIAL, self.CODE] * 10
        came = [datagram[2] for datagram in self.told(*asked)]
        self.assertEqual(sorted(came), sorted([0x10, 0x18] * 10))
        self.assertNotEqual(came, [0x10, 0x18] * 10)
        self.assertEqual(station.faults, [])


class WhatMoves(unittest.TestCase):
    program = "simulated"

    def test_what_moves_is_noted_and_without_power_nothing_does(self):
        from simulated_z21 import Z21
        station = Z21(free_port(), loses=0)
        self.addCleanup(station.unplug)
        for act in (lambda: station.hand(3, 60), lambda: station.hand(3, 60, 0), lambda: station.hand(4, 0),
                    lambda: station.switch(0), lambda: station.hand(4, 9), lambda: station.switch(1), station.stop,
                    lambda: station.switch(1), lambda: station.hand(3, -1), station.reset):
            act()
        off, on = [(0, 0), (3, 0), (4, 0)], [(0, 1), (3, 60), (4, 9)]
        self.assertEqual([move[1:] for move in station.moves],
                         [(0, 1), (3, 60), *off[:2], *on, *off, *on, (3, 0), (4, 0)])
        moments = [move[0] for move in station.moves]
        self.assertEqual(moments, sorted(moments))
