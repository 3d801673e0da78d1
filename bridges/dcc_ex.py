#!/usr/bin/env python3
"""Drives a track by a DCC-EX command station.

What a bus of the server holds is put on the track. What the station reports is set at the server: sensors, its power,
and what a hand throttle at it does.

A slow line drops middle positions of a slider and no last one. Locomotives stop, and power goes off, if the server is
away for PATIENCE seconds, if the station is lost or begins anew, and when this program is ended: the registry says so,
power stays off until somebody switches it on, and a locomotive stands until somebody commands it anew. Decoders of the
protocols M and S are left out. Decoders on the programming track are programmed by program.py.
"""
import argparse
import re

from srcp_bridges.limits import ASKS, MOST_FUNCTIONS
from srcp_bridges.program import run, say
from srcp_bridges.srcp.rows import FORWARD
from srcp_bridges.stations.awaited import Part, Value
from srcp_bridges.stations.confirmed import Confirmed
from srcp_bridges.stations.line import Line, place
from srcp_bridges.stations.station import words_of_driver

MESSAGE = re.compile(
    r"<(?:(?P<banner>iDCC.*)|(?P<sensor>[Qq]) (?P<number>\d{1,5})|# (?P<slots>\d{1,4})"
    r"|p(?P<power>[01])(?: (?P<track>MAIN|JOIN|PROG|[A-H]))?|(?P<overload>\*.*(?:OVERLOAD|FAULT|ALERT).*)"
    r"|l (?P<cab>\d{1,5}) (?P<slot>-?\d{1,5}) (?P<speed>\d{1,3}) (?P<functions>-?\d{1,10})|(?P<refused>X)"
    r"|[rv] ?(?P<cv>\d{1,4}) (?P<value>-[123]|\d{1,3}))>",
    re.ASCII | re.DOTALL)
CABS = range(1, 1 << 14)  # addresses of locomotives
BYTE = range(256)


def ask_locomotive(address: int) -> bytes:
    return f"<t {address}>\n".encode()


class DccEx(Confirmed):
    """The text of DCC-EX: commands and messages stand between < and >.

    A station reports a locomotive as that changes. So it is asked how it drives if it is told what it has reported
    already, or is told something again. Turnouts it does not report.
    """
    IN_ORDER = True
    END = b">"
    HELLO = b"<s>\n"
    ALIVE = b"<#>\n"
    STOP_ALL = b"<!>\n"
    SENSORS = b"<Q>\n"

    def __init__(self, asked: argparse.Namespace):
        super().__init__(asked)
        self.where = place(asked.station)
        self.asked: set[int] = set()  # locomotives of which the station was asked what it kept
        self.unsaid: set[int] = set()  # those of which it has not said that yet
        self.slotted: set[int] = set()  # those for which it has a slot, as far as it has said
        self.ticks = 0
        self.names_tracks = False  # it tells the power of each track by its letter: A is the main track

    async def connect(self) -> Line:
        return await Line.open(self.where)

    def greeted(self, message: str) -> None:
        """What drove before may not be in the registry: nobody could see that this stop was lost. So it is told
        twice."""
        super().greeted(message)
        self.line.write(self.STOP_ALL)
        self.asked.clear()
        self.unsaid.clear()
        self.slotted.clear()

    def look(self) -> None:
        """Tells a STOP ALL again that has not stopped what a hand drives and the registry does not have. Asks of one
        locomotive after the other what the station may have kept, or reported in vain."""
        others = [address for address, (speed, *_) in self.track.others.items() if speed > 0]
        if self.bus.stopping and others:
            self.say_stop_all()
            self.line.write(ask_locomotive(others[0]))  # a report that the line damaged may have made it up
        self.ticks += 1
        ours = self.bus.addresses()
        new, known = ours - self.asked, sorted(self.track.known | self.unsaid & ours)
        if not self.ahead.fits(urgent=False) or self.ticks % ASKS and not new:
            return
        if new:
            address = min(new)
            self.asked.add(address)
            self.unsaid.add(address)
        elif known:
            address = known[self.ticks // ASKS % len(known)]
        else:
            return
        question = ask_locomotive(address)
        self.ahead.tell(len(question))
        self.line.write(question)
        if not self.ahead.fits(urgent=False):
            self.track.changed.set()  # has the station asked whether it has read that

    def encode(self, part: Part, value: Value) -> bytes:
        """Returns the command that puts a part of the track so."""
        words = {"power": "{value}", "cab": "t {} {value[0]} {value[1]}", "function": "F {} {} {value}",
                 "turnout": "a {} {value}", "forget": "- {}"}
        return f"<{words[part[0]].format(*part[1:], value=value)}>\n".encode()

    def command(self, part: Part, value: Value) -> bytes:
        """Returns the command, and a question for what it may not report."""
        usual = (0, FORWARD) if part[0] == "cab" else 0
        is_again = part in self.awaited.since and part not in self.awaited.parts
        is_quiet = is_again or self.hands.reports.reported.get(part, usual) == value
        asks = part[0] in ("cab", "function") and is_quiet
        return self.encode(part, value) + (ask_locomotive(part[1]) if asks else b"")

    def encode_cv(self, cv: int, value: int | None) -> bytes:
        """Returns the command that reads a CV, or writes a value into it, at the programming track."""
        return f"<R {cv}>\n".encode() if value is None else f"<W {cv} {value}>\n".encode()

    def take(self, message: bytes) -> None:
        """Takes a message; others than these do not matter."""
        text = message.decode("latin-1")
        found = MESSAGE.fullmatch(text[max(0, text.rfind("<")):])
        if not found:
            return
        if found["banner"]:
            self.greeted(found["banner"])
        elif found["sensor"]:
            self.sensor(int(found["number"]), int(found["sensor"] == "Q"))
        elif found["slots"]:
            self.track.slots = int(found["slots"])
            self.alive()
        elif found["cv"]:
            self.programming.take(int(found["cv"]), int(found["value"]))
        elif found["refused"]:
            say("station: refused a command")
            self.awaited.hasten()
        elif self.ready.is_set():
            self.reported(found)

    def reported(self, found: re.Match[str]) -> None:
        """Takes what may be an echo of what the station was told, or not."""
        if found["power"]:
            self.take_power(int(found["power"]), found["track"])
        elif found["overload"]:
            self.hands.overload()
        elif int(found["cab"]) in CABS and int(found["speed"]) in BYTE:  # else the line has damaged it
            self.take_cab(*(int(found[name]) for name in ("cab", "slot", "speed", "functions")))

    def take_cab(self, cab: int, slot: int, byte: int, functions: int) -> None:
        """Takes how a locomotive drives: the byte has its speed and direction. `functions` is below 0 if F31 is on."""
        code = byte & 127  # 0 stands, 1 is an emergency stop, 2 is the first step
        speed = code - 1 if code > 1 else -code
        if slot >= 0:
            self.slotted.add(cab)
            self.heard_locomotive(cab, (speed, byte >> 7), functions)
        else:
            self.heard_of_no_slot(cab)
        self.unsaid.discard(cab)  # without a slot the station has kept nothing of it

    def heard_of_no_slot(self, address: int) -> None:
        """The station keeps nothing of a locomotive. If it did, another throttle there has given the slot away: it
        stands, and nobody here knows in which direction the decoder would start."""
        if address in self.slotted & self.track.known and ("cab", address) not in self.awaited.parts:
            say(f"station: has forgotten locomotive {address}: another throttle there gave its slot away")
            _, way = self.hands.reports.reported.get(("cab", address), (0, FORWARD))
            self.heard_locomotive(address, (0, way), 0)
            self.track.known.discard(address)
            self.hands.forgotten.add(address)
        self.slotted.discard(address)
        self.track.others.pop(address, None)

    def heard_locomotive(self, address: int, drives: tuple[int, int], functions: int) -> None:
        is_first = address in self.unsaid or address not in self.asked and drives[0] < 0  # an echo of the first stop
        if is_first and self.track.locomotive(address)[0]:
            self.take_kept(address, drives, functions)
        self.asked.add(address)  # what it reports from now on is new
        self.unsaid.discard(address)
        super().heard_locomotive(address, drives, functions)

    def take_kept(self, address: int, drives: tuple[int, int], functions: int) -> None:
        """Takes what a station has kept, of before this driver, or as the line lost its stops: a locomotive that drives
        is told to stand, and functions are put as the registry has them."""
        kept: dict[Part, Value] = {("cab", address): drives} if drives[0] > 0 else {}
        kept |= {("function", address, number): 1 for number in range(MOST_FUNCTIONS) if functions >> number & 1}
        for part, value in kept.items():
            if part not in self.track.told:
                self.track.told[part] = self.hands.reports.reported[part] = value
                self.track.mark(part)

    def take_power(self, on: int, track: str | None) -> None:
        """Takes the power of a track. If a station does not name tracks by letters, a lone `<p1 PROG>` says that the
        main track is off."""
        self.names_tracks |= len(track or "") == 1
        if track == "PROG":
            if not on or self.names_tracks:
                return
            on = 0
        if track in (None, "MAIN", "JOIN", "PROG", "A"):
            self.heard_power(on)


async def drive(asked: argparse.Namespace) -> None:
    await DccEx(asked).run()


def main() -> None:
    words = words_of_driver(__doc__)
    words.add_argument("--station", required=True, help="a serial line (/dev/ttyACM0), or HOST:PORT in the network")
    run(drive(words.parse_args()))


if __name__ == "__main__":
    main()
