#!/usr/bin/env python3
"""A DCC-EX command station without hardware, on a pseudo-terminal, to try dcc_ex.py with.

LINK is made to lead to its line, and goes as it ends. It prints each command that changes the track, and refuses what
is not in its grammar. A decoder is on its programming track.

What is typed happens at the station itself. A number turns the sensor of that number. `on` and `off` are its button,
`prog` leaves power to the programming track alone. `overload`, `fault` and `alert` are a short circuit, as the current
tells it or a pin. `hand CAB SPEED [DIRECTION]` is a throttle at the station, `stop` is its button that stops all, and
`forget CAB` has it give a slot away. `reset` is its other button; `hang` begins a hang, and ends it.
"""
import os
import re
import threading
import time
from collections.abc import Callable
from functools import partial

from srcp_bridges.simulated import Acts, Line, Simulated, Trouble, serves, show, words_of_station

NUMBER = r"(0|[1-9]\d*)"
SYNTAX = {"power": r"([01])", "throttle": rf"t {NUMBER} (-1|{NUMBER}) ([01])", "accessory": rf"a {NUMBER} ([01])",
          "function": rf"F {NUMBER} {NUMBER} ([01])", "forget": rf"- {NUMBER}", "sensors": "Q", "status": "s",
          "cabs": "#", "stop": "!", "read": rf"R {NUMBER}", "write": rf"W {NUMBER} {NUMBER}", "cab": rf"t {NUMBER}"}
QUESTIONS = "status", "cabs", "sensors", "cab"
BANNER = "<iDCC-EX V-5.0.7 / MEGA / STANDARD_MOTOR_SHIELD G-sim>\r\n"
LOOP = 0.01  # seconds between two looks of a small station at its input
BAUD = 115200
INPUT = 64  # bytes that wait for it at a Mega
SHORTS = {"overload": "<* TRACK A POWER OVERLOAD 3200mA (max 1500mA) detected after 100ms. Pause 100ms *>\r\n",
          "fault": "<* TRACK A FAULT PIN detected after 10ms. Pause 100ms *>\r\n",
          "alert": "<* TRACK A ALERT FAULT *>\r\n"}
RESTS = 128, 0  # what a slot has at first: speed 0 forwards, no function


class Station(Simulated):
    """What a station knows, and its line. `known` has the locomotives that have a slot.

    `hand`, `switch`, `overload` and `forgets` are what happens at the station itself. `late`: seconds until it reports.
    `decoder` has the CVs of the one on the programming track; None: there is no such track. `rate`: commands that it
    takes in a second, 0 for no limit. While it is `stalled` it hangs.

    A `version` below 5 tells its power before its banner, and one from 5.2 on tells it of each track. One that `echoes`
    reports also what changes nothing. `room`: bytes of its input, 0 for no limit; `lost` counts those that did not fit.
    `loses` and `turns` are of commands.
    """

    def __init__(self, link: str, show: Callable[[str], None] = lambda text: None, version: float = 5.0, room: int = 0,
                 slots: int = 50, echoes: bool = False, loses: float = 0.0, turns: float = 0.0, seed: int = 1):
        super().__init__(show, Trouble(seed, loses, turns))
        self.link = link
        self.version = version
        self.room = room
        self.echoes = echoes
        self.lost = 0
        self.boot = 0.0
        self.ids: dict[int, int] = {}
        self.stalled = False
        self.rate = 0
        self.late = 0.0
        self.slots = slots
        self.line: Line | None = None
        self.open()

    # ---- its line

    def open(self) -> None:
        """Its power comes by its line."""
        self.reset()
        self.plug()

    def plug(self) -> None:
        """Its cable is on. What it knows it has kept."""
        self.line, self.running = Line(self.link), True
        self.thread = threading.Thread(target=self.run, args=(self.line,), daemon=True)
        self.thread.start()

    def unplug(self) -> None:
        """Its cable is off. With a power supply of its own it goes on."""
        self.running = False
        self.thread.join()
        line, self.line = self.line, None
        if line:
            line.close()

    @property
    def master(self) -> int:
        assert self.line
        return self.line.master

    def say(self, text: str) -> None:
        if line := self.line:
            line.say(text)

    def report(self, text: str) -> None:
        if self.late:
            self.reports.append((time.monotonic() + self.late, text))
        else:
            self.say(text)

    def tell_late(self) -> None:
        while self.reports and self.reports[0][0] <= time.monotonic():
            self.say(self.reports.pop(0)[1])

    def run(self, line: Line) -> None:
        begun = b""
        while self.running:
            if not self.stalled:
                self.tell_late()
            if self.stalled or not line.waits(0.01 if self.reports else 0.05):
                time.sleep(0.01 if self.stalled else 0)
                continue
            more = self.hears(line)
            if time.monotonic() < self.deaf_until:
                continue
            begun += more
            while b">" in begun:
                command, _, begun = begun.partition(b">")
                self.trouble.passes(command.lstrip(b"\r\n"), self.take)
                if self.rate:
                    time.sleep(1 / self.rate)

    def hears(self, line: Line) -> bytes:
        """Returns what comes. A small station loses the bytes that do not fit between two looks at its input."""
        if not self.room:
            return os.read(line.master, INPUT)
        time.sleep(LOOP)
        came = os.read(line.master, int(BAUD / 10 * LOOP))
        self.lost += max(0, len(came) - self.room)
        return came[:self.room]

    # ---- what happens at the station itself

    @property
    def power(self) -> int:
        return self.is_on

    def turn(self, main: int, prog: int | None = None) -> None:
        """Turns the power of the main track, and of the programming track; None: as the main track's."""
        self.is_on, self.is_on_prog = main, main if prog is None else prog
        self.look()

    def power_text(self) -> str:
        """Returns what it says of its power: the main track is track A."""
        main, prog = self.is_on, self.is_on_prog
        if self.version < 5.2:
            return f"<p{main}>\r\n" if main == prog else f"<p1 {'MAIN' if main else 'PROG'}>\r\n"
        both = f"<p{main}>\r\n" if main == prog else ""
        return f"<p{main} A>\r\n<p{prog} B>\r\n{both}" + "<p1 MAIN>\r\n" * main + "<p1 PROG>\r\n" * prog

    def reset(self) -> None:
        """Knows what a station knows when its power comes: nothing."""
        self.cabs, self.functions, self.turnouts = {}, {}, {}
        self.turn(0)
        self.log = []
        self.reports: list[tuple[float, str]] = []  # what is told late
        self.table: dict[int, tuple[int, int]] = {}  # the byte of speed and direction, and the functions, of each slot
        self.deaf_until = time.monotonic() + self.boot

    def restart(self) -> None:
        """Does what its reset button does: the line stays open."""
        self.reset()
        time.sleep(self.boot)
        self.say(BANNER)

    def hang(self) -> None:
        self.stalled = not self.stalled

    def sensor(self, number: int, on: int | None = None) -> None:
        """A sensor is occupied, or free; None: the other of both."""
        self.ids[number] = on = 1 - self.ids.get(number, 0) if on is None else on
        self.say(f"<{'Q' if on else 'q'} {number}>\r\n")

    def hand(self, cab: int, speed: int | None = None, way: int = 1, **functions: int) -> None:
        """A throttle at the station drives a locomotive, or switches functions: f0=1."""
        if speed is not None:
            self.put(cab, speed, way)
        for name, on in functions.items():
            self.functions[cab, int(name[1:])] = on
        self.keep(cab)

    def switch(self, main: int, prog: int | None = None) -> None:
        """Its own button turns its power."""
        self.turn(main, prog)
        self.report(self.power_text())

    def overload(self, says: str = SHORTS["overload"]) -> None:
        """It cuts its power, and tries again in a moment if nobody has told it to stay off."""
        begun = len(self.log)
        self.turn(0)
        self.report(says)
        time.sleep(0.2)
        self.turn(int("0" not in [text for _, text in self.log[begun:]]))

    def forgets(self, cab: int) -> None:
        """A locomotive gives its slot away: one that drives makes an emergency stop."""
        self.table.pop(cab, None)
        speed, way = self.cabs.get(cab, (0, 1))
        if speed > 0:
            self.put(cab, -1, way)

    def acts(self) -> Acts:
        shorts = {word: partial(self.overload, says) for word, says in SHORTS.items()}
        return shorts | {"sensor": self.sensor, "on": partial(self.switch, 1), "off": partial(self.switch, 0),
                         "prog": partial(self.switch, 0, 1), "hand": self.hand, "stop": self.stop_all,
                         "forget": self.forgets, "reset": self.restart, "hang": self.hang}

    # ---- its slots

    @property
    def known(self) -> set[int]:
        return set(self.table)

    def keep(self, cab: int) -> bool:
        """Keeps in its slot what a locomotive does, and reports that if it has changed; returns whether it has one."""
        speed, way = self.cabs.get(cab, (0, 1))
        code = 1 if speed < 0 else speed + 1 if speed else 0
        on = sum(1 << number for (address, number), value in self.functions.copy().items() if address == cab and value)
        if cab not in self.table and len(self.table) >= self.slots:
            self.say("<* Too many locos *>\r\n")
            return False
        before, self.table[cab] = self.table.get(cab, RESTS), (128 * way + code, on)
        if self.echoes or before != self.table[cab]:
            self.report(self.slot(cab))
        return True

    def slot(self, cab: int) -> str:
        """Returns what it says of a locomotive."""
        if cab not in self.table:
            return f"<l {cab} -1 128 0>\r\n"
        speed, functions = self.table[cab]
        return f"<l {cab} {list(self.table).index(cab)} {speed} {functions}>\r\n"

    # ---- what it is told

    def is_noisy(self) -> bool:
        """Returns whether a command that is wrong may have been right as it was told."""
        return bool(self.trouble.loses or self.trouble.turns or self.lost)

    def fault(self, text: str) -> None:
        if not self.is_noisy():
            self.faults.append(text)

    def take(self, command: bytes) -> None:
        """Carries out a command `<text`. The log has it before the track shows it."""
        text = command.decode("latin-1")
        if self.is_noisy():
            text = text[text.rfind("<"):]  # what stands between commands does not matter
        for name, syntax in SYNTAX.items():
            if found := re.fullmatch("<" + syntax, text):
                log = self.log
                log.append((time.monotonic(), found[0][1:]))
                if self.obey(name, *found.groups()):
                    if name not in QUESTIONS:
                        self.show(found[0] + ">")
                    return
                log.pop()
        self.fault(text)
        self.say("<X>\r\n")

    def obey(self, name: str, *words: str) -> bool:
        """Returns whether the numbers are within their limits."""
        if name == "power":
            self.switch(int(words[0]))
        elif name in ("throttle", "function"):
            return self.obey_cab(name, *(int(word) for word in words if word))
        elif name == "forget":
            self.forgets(int(words[0]))
        elif name == "accessory":
            if not 1 <= int(words[0]) <= 2044:
                return False
            self.turnouts[int(words[0])] = int(words[1])
        elif name == "stop":
            self.stop_all()
        elif name in ("read", "write"):
            return self.program(*map(int, words))
        else:
            self.answer(name, *words)
        return True

    def answer(self, name: str, *words: str) -> None:
        """Answers a question."""
        sensors = "".join(f"<{'Q' if on else 'q'} {number}>\r\n" for number, on in self.ids.copy().items())
        if name == "status":
            power = self.power_text()
            self.say((BANNER + power if self.version >= 5 else power + BANNER) + sensors)
        elif name == "sensors":
            self.say(sensors)
        elif name == "cabs":
            self.say(f"<# {self.slots}>\r\n")
        else:
            self.report(self.slot(int(words[0])))

    def program(self, cv: int, value: int | None = None) -> bool:
        """Reads a CV, or writes a value into it; returns whether the numbers are right."""
        if not 1 <= cv <= 1024 or (value or 0) > 255:
            return False
        cvs = self.decoder or {}
        found = -3 if self.decoder is None and value is None else cvs.get(cv, -1)
        if found >= 0 and value is not None:
            found = cvs[cv] = value
        self.report(f"<{'v' if value is None else 'r'} {cv} {found}>\r\n")
        return True

    def obey_cab(self, name: str, cab: int, first: int, *rest: int) -> bool:
        """Drives a cab, or switches a function of it; returns whether the numbers are right."""
        if not 1 <= cab <= 10239 or first > (126 if name == "throttle" else 68):
            return False
        if name == "throttle":
            self.put(cab, first, rest[-1])
        else:
            self.functions[cab, first] = rest[0]
        if not self.keep(cab):
            self.fault(f"no slot is left for {cab}")
        return True

    def stop_all(self) -> None:
        """Each locomotive makes an emergency stop, and keeps its direction."""
        for cab in {*self.known, *self.cabs}:
            self.cabs[cab] = -1, self.cabs.get(cab, (0, 1))[1]
        self.look()
        for cab in self.known:
            self.keep(cab)


def main() -> None:
    words = words_of_station(__doc__, loses=(0, "commands that are lost"), turns=(0, "commands with a bit turned"))
    words.add_argument("link", metavar="LINK")
    words.add_argument("--firmware", dest="version", type=float, default=5.0, metavar="NUMBER",
                       help="4, 5.0 or 5.2 (%(default)s)")
    words.add_argument("--room", type=int, default=0, metavar="BYTES", help=f"of its input: {INPUT} at a Mega; 0: all")
    words.add_argument("--slots", type=int, default=50, metavar="NUMBER", help="of locomotives (%(default)s)")
    words.add_argument("--echoes", action="store_true", help="report also what changes nothing")
    serves(partial(Station, show=show, **vars(words.parse_args())))


if __name__ == "__main__":
    main()
