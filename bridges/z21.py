#!/usr/bin/env python3
"""Drives a track by a Z21 of Roco and Fleischmann, or by another station that speaks its LAN protocol.

What a bus of the server holds is put on the track. What the station reports is set at the server: the sensors of its
R-BUS, its power, and what a hand throttle at it does.

Datagrams get lost: what the station does not confirm it is told again. A locomotive is driven in the 14, 28 or 128
steps of its decoder. Locomotives stop, and power goes off, if the server is away for PATIENCE seconds, if the station
is lost or begins anew, and when this program is ended: the registry says so, power stays off until somebody switches
it on, and a locomotive stands until somebody commands it anew. Decoders of the protocols M and S are left out.
"""
import argparse
import asyncio
from collections import defaultdict, deque

from srcp_bridges.limits import LEFT_STANDING, OUTPUT_ON, STRAY
from srcp_bridges.program import run, say
from srcp_bridges.srcp.rows import STOP_ALL
from srcp_bridges.stations import datasets
from srcp_bridges.stations.awaited import Part, Value
from srcp_bridges.stations.confirmed import Confirmed
from srcp_bridges.stations.datagrams import Datagrams
from srcp_bridges.stations.datasets import (ASK_STATUS, FLAGS, NOT_DRIVING, PROGRAMMING, SHORT_CIRCUIT, STOPS_ALL,
                                            dataset, xbus)
from srcp_bridges.stations.hands import OFF, PROGRAMS
from srcp_bridges.stations.line import network_place
from srcp_bridges.stations.programming import NOBODY, SHORT
from srcp_bridges.stations.registry import POWER
from srcp_bridges.stations.station import words_of_driver
from srcp_bridges.stations.thrown import Thrown

PORT = 21105


class Z21(Confirmed):
    """The datasets of the LAN protocol. After each command the station is asked whether it is so. Datagrams get lost,
    and come in any order."""
    CONFIRMED = "power", "cab", "function", "turnout"
    ANSWER = 0.2
    REPEATS: float | None = 3.0  # seconds, more than a CV takes
    ROOM, MOST, RESERVE = 180, 27, 0
    HELLO = dataset(datasets.SET_FLAGS, FLAGS) + dataset(datasets.SERIAL_NUMBER)
    SENSORS = dataset(datasets.GET_RMBUS, b"\0") + dataset(datasets.GET_RMBUS, b"\1")
    ALIVE = dataset(datasets.GET_FLAGS) + ASK_STATUS + SENSORS
    STOP_ALL = xbus(0x80)
    PROGRAMS_BESIDE = False  # its track is off while it programs
    TOPS = tuple(datasets.FORMATS)
    AT_FIRST: Value | None = (-1, None)  # it may hold a speed of before

    def __init__(self, asked: argparse.Namespace):
        super().__init__(asked)
        self.where = network_place(asked.station, "neither HOST nor HOST:PORT", PORT)
        self.asked_code = False
        self.is_known = False  # the station has said that it tells this program of all that FLAGS name
        self.is_doubted = False  # it has said once since that it does not
        self.thrown = Thrown(self.bus)
        self.pulses: dict[int, int] = {}  # turnouts of which an output is to go off, and that output
        self.on: set[int] = set()  # turnouts of which an output is on: what is reported of one says that it is off
        self.looks = 0
        self.left: list[bytes] = []  # what the last words have of each locomotive
        self.drives: defaultdict[Part, deque] = defaultdict(deque)  # what each cab that drives was told, and when

    async def connect(self) -> Datagrams:
        self.left, self.is_known, self.is_doubted = [], False, False
        return await Datagrams.open(self.where)

    # ---- what it is told

    def encode(self, part: Part, value: Value) -> bytes:
        """Returns the command that puts a part of the track so."""
        kind = part[0]
        if kind == "power":
            return xbus(0x21, 0x80 | value) + ASK_STATUS
        if kind == "turnout":
            return datasets.output(part[1], value, 1) + datasets.ask_turnout(part[1])
        if kind == "cab":
            command = datasets.drive(part[1], value[0], value[1], self.track.top_of(part[1]))
        elif kind == "function":
            command = datasets.function(part[1], part[2], value)
        else:
            return b""  # it has a place for each locomotive
        return command + datasets.ask_locomotive(part[1])

    def encode_cv(self, cv: int, value: int | None) -> bytes:
        return datasets.read_cv(cv) if value is None else datasets.write_cv(cv, value)

    def telling(self, part: Part, value: Value) -> None:
        super().telling(part, value)
        if part[0] == "turnout":
            self.on.add(part[1])
        elif part[0] == "cab" and value[0] > 0:
            self.drives[part].append((asyncio.get_running_loop().time(), value))

    def say_stop_all(self) -> None:
        """The station stops all until its power is switched on, also if that is on already."""
        super().say_stop_all()
        self.telling(POWER, 0)
        self.track.tell(POWER, 0)
        self.track.mark(POWER)

    def look(self) -> None:
        """Has outputs go off, and asks how one locomotive after the other drives, and one turnout after the other lies:
        a hand may have driven it, or thrown it."""
        is_new = not self.is_known and asyncio.get_running_loop().time() < self.began + STRAY  # it may never say so
        if is_new or self.is_doubted:
            self.line.write(self.HELLO * is_new + dataset(datasets.GET_FLAGS))
        self.thrown.look()
        self.leave_stands()
        self.looks += 1
        turnouts = sorted(part[1] for part in self.track.told if part[0] == "turnout")
        for address in {*self.thrown.seen, *turnouts[self.looks % (len(turnouts) or 1):][:1]} - self.on:
            self.line.write(datasets.ask_turnout(address))
        for address, port in self.pulses.items():
            self.line.write(datasets.output(address, port, 0) + datasets.ask_turnout(address))
        if self.bus.silent and not self.asked_code:
            self.asked_code = True
            self.line.write(dataset(datasets.GET_CODE))
        others = [address for address, (speed, *_) in self.track.others.items() if speed > 0 and self.bus.stopping]
        if others:  # it may stand, and the report of that be lost: then a STOP ALL would wait for its answer for ever
            self.line.write(datasets.ask_locomotive(others[self.looks % len(others)]))
        if known := sorted(self.track.known):
            self.line.write(datasets.ask_locomotive(known[self.looks % len(known)]))

    def unlocked(self, address: int) -> None:
        self.thrown.unlocked(address)

    def leave_stands(self) -> None:
        """Has the last words tell each locomotive to stand. The station keeps speeds while its power is off, and a
        driver that comes then does not know of what is removed meanwhile."""
        known = sorted(sorted(self.track.known, key=self.track.speed)[-LEFT_STANDING:])
        ways = [(address, self.bus.mirror.way(self.bus.number, address)) for address in known]
        stands = [datasets.drive(address, 0, way, self.track.top_of(address)) for address, way in ways]
        if stands != self.left:
            self.left = stands
            self.last_words.leave(self.line.number(), b"".join([self.STOP_ALL, self.encode(POWER, 0), *stands]))

    async def leave(self) -> None:
        await super().leave()
        self.line.write(dataset(datasets.LOGOFF))

    # ---- what it says

    def take(self, message: bytes) -> None:
        """Takes a datagram; datasets of other kinds do not matter."""
        for header, data in datasets.datasets(message):
            if header == datasets.SERIAL_NUMBER and not self.ready.is_set():
                self.greeted(f"Z21, serial number {int.from_bytes(data, 'little')}")
            elif header == datasets.GET_FLAGS and data != FLAGS and self.ready.is_set():
                self.tells_of_less()
            elif header == datasets.GET_FLAGS and data == FLAGS:
                self.is_known, self.is_doubted = True, False
            elif header == datasets.GET_CODE and data[:1] == datasets.LOCKED:
                say("station: a z21start that is locked: it drives by the network once its code is entered")
            elif header == datasets.RMBUS and len(data) == 11 and data[0] < 2:
                for number, value in datasets.sensors_of(*data):
                    self.sense(number, value)
            elif header == datasets.XBUS and self.ready.is_set():
                self.take_xbus(data[:-1])

    def tells_of_less(self) -> None:
        """The station does not tell this program of all that it asked for. If it did, it has begun anew, and knows of
        nobody: it is asked twice, since an answer may come late. If not, it is greeted until it has heard."""
        if not self.is_known:
            return self.line.write(self.HELLO)
        if not self.is_doubted:
            self.is_doubted = True
            self.line.write(dataset(datasets.GET_FLAGS))
            return
        self.is_known = self.is_doubted = False
        self.ready.clear()
        self.greeted("Z21, has forgotten this program")

    def take_xbus(self, data: bytes) -> None:
        if data in (b"\x61\x00", b"\x61\x01"):
            self.heard_power(data[1])
        elif data == b"\x81\x00":  # somebody there has it stop all
            self.heard_power(0, STOP_ALL)
        elif data == b"\x61\x02":
            self.heard_power(0, PROGRAMS)
        elif data == b"\x61\x08":
            self.hands.overload()
        elif data in (b"\x61\x12", b"\x61\x13"):
            self.programming.take(None, SHORT if data[1] == 0x12 else NOBODY)
        elif data[:2] == b"\x64\x14" and len(data) == 5:
            self.programming.take(data[2] * 256 + data[3] + 1, data[4])
        elif data[:2] == b"\x62\x22" and len(data) == 3:
            self.take_status(data[2])
        elif data[:1] == b"\x43" and len(data) == 4 and data[3] in (1, 2):
            self.turnout(data[1] * 256 + data[2] + 1, data[3] - 1)
        elif data[:1] == b"\xef" and len(data) > 5 and data[3] & 7 in datasets.REPORTED:
            on = datasets.functions_of(*data[5:])
            self.locomotive((data[1] & 63) << 8 | data[2], datasets.REPORTED[data[3] & 7], data[4], on)

    def take_status(self, status: int) -> None:
        self.alive()
        if status & SHORT_CIRCUIT and self.track.told.get(POWER) and not self.awaits(POWER):
            self.hands.overload()
        why = PROGRAMS if status & PROGRAMMING else STOP_ALL if status & NOT_DRIVING == STOPS_ALL else OFF
        self.heard_power(int(not status & NOT_DRIVING), why)

    def locomotive(self, address: int, steps: int, code: int, functions: int) -> None:
        self.track.steps[address] = steps
        top, speed = self.track.top_of(address), datasets.speed_of(code & 127, steps)
        if steps != top and speed > 0:  # a hand throttle drives it in other steps
            speed = -(-speed * top // steps)
        part, drives = ("cab", address), (speed, code >> 7)
        if self.is_stray(part, drives):
            return self.track.forgets(part)
        self.heard_locomotive(address, drives, functions)

    def is_stray(self, part: tuple, drives: tuple[int, int]) -> bool:
        """Returns whether a locomotive that was told to stand drives as it was told before that: the stop has overtaken
        that on its way, or the report comes late. A hand does that too; then it has to do so once more."""
        recent, since = self.drives[part], asyncio.get_running_loop().time() - STRAY
        while recent and recent[0][0] < since:
            recent.popleft()
        told = self.track.told.get(part)
        return told is not None and told[0] <= 0 and drives in [value for _, value in recent]

    def turnout(self, address: int, port: int) -> None:
        """Its output goes off after a while. What the station says of the turnout then confirms that. What it says
        though it was told nothing is a hand's doing."""
        if self.pulses.pop(address, None) is not None:
            self.on.discard(address)
        part = "turnout", address
        if self.confirm(part, port):
            asyncio.get_running_loop().call_later(OUTPUT_ON, self.pulses.setdefault, address, port)
        elif part not in self.awaited.parts and self.has_heard(part, port):
            self.thrown.report(address, port)


async def drive(asked: argparse.Namespace) -> None:
    await Z21(asked).run()


def main() -> None:
    words = words_of_driver(__doc__)
    words.add_argument("--station", required=True, help=f"HOST or HOST:PORT in the network (port {PORT} if not told)")
    run(drive(words.parse_args()))


if __name__ == "__main__":
    main()
