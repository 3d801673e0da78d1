"""A simulated station on a bus, its driver, and the observer of what moves there."""
import re
import time
from collections.abc import Callable, Iterator
from contextlib import contextmanager
from typing import Any

from bridge_tests.common import Process
from bridge_tests.watching import STANDS, Command, Loss, Watch

SPEED = re.compile(r"SET (\d+) GL (\d+) ([012]) (\d+) ")
POWER = re.compile(r"SET (\d+) POWER (ON|OFF)")
ALL = 0  # the locomotive as which an observer knows the power
LOSSES = 0, 0, 0.02, 0.1  # of what a line carries
REST = 4.0  # seconds after a loss until all that it stops stands
AGAIN = 1.0  # seconds within which all stand at a STOP ALL, if the line loses some of what it carries
BEFORE = 3.0  # seconds before a breach of which is told what the station was told
TOPS = 14, 28, 126  # the numbers of steps in which a Z21 drives


class Rails:
    """`away` counts the troubles for which the station or its driver may not hear a STOP ALL at this moment; `since` is
    when that was so last."""

    def __init__(self, bus: int, station: Any, program: str, words: list[Any], tell: Callable[[str], None]) -> None:
        self.bus = bus
        self.station = station
        self.program = program
        self.words = ["--bus", bus, "--silence", 4, *words]
        self.is_z21 = program == "z21"
        self.watch = Watch(f"bus {bus} ({program})", tell, knows_power=not self.is_z21)  # a Z21 comes with power on
        self.driver: Process
        self.away = 0
        self.since = 0.0
        self.was_lossy = False

    @contextmanager
    def trouble(self) -> Iterator[None]:
        """A trouble, during which the station may not hear."""
        self.away += 1
        began = time.monotonic()
        try:
            yield
        finally:
            self.away -= 1
            self.since = time.monotonic()
            self.watch.deaf.append((began, self.since))

    @contextmanager
    def lost(self, what: str) -> Iterator[Loss]:
        """A loss: what drives stands, and what was commanded before does not start."""
        with self.trouble():
            loss = self.watch.loses(what)
            try:
                yield loss
            finally:
                self.watch.found(loss, REST)

    @contextmanager
    def commanded(self, cab: int, drives: bool, has_reply: bool = True) -> Iterator[Command]:
        """Notes a command to a locomotive while it is carried out."""
        command = self.watch.drives(cab) if drives else self.watch.stands(cab)
        try:
            yield command
        finally:
            self.watch.done(command, has_reply)

    def stopped(self, stop: Command, reply: str) -> None:
        """The reply to a STOP ALL has come, or none. It is looked at if the station could hear it, and confirmed it."""
        is_heard = reply.startswith("200") and not self.away and self.since < stop.sent - REST
        has_reply = reply.startswith(("200", "1 ", "2 "))  # all stand; or a bus does not confirm that
        self.watch.stopped(stop, is_heard, AGAIN if self.station.loses else STANDS, has_reply)

    def look(self) -> None:
        loses = self.station.loses > 0
        self.watch.is_lossy, self.was_lossy = loses or self.was_lossy, loses  # it may have changed since the last look
        begun = len(self.watch.breaches)
        self.watch.look(self.station.moves)
        for moment, cab in self.watch.found_at[begun:]:
            told = [f"{self.watch.at(when)} {text}" for when, text in list(self.station.log)
                    if moment - BEFORE < when < moment + 1 and re.match(rf"[t!01a-]( {cab} .*)?$", text)]
            self.watch.tell(f"  {self.watch.name} was told: {', '.join(told)}")

    # ---- what it should do

    def speed_of(self, row: Any, steps: int) -> int:
        """Returns the speed of 126 at which a locomotive drives whose row that is."""
        most = row.v_max or steps
        top = next(top for top in TOPS if steps <= top) if self.is_z21 else 126
        step = min(top, -(-row.v * top // most))
        return -(-step * 126 // top)

    def differences(self, rows: dict) -> Iterator[str]:
        """Yields what the track does otherwise than the registry says."""
        station, functions, unknown, made = self.station, set(), dict(self.station.cabs), set()
        power = int(rows[self.bus, "POWER", 0, "does"].on)
        if station.power != power:
            yield f"power is {station.power}, and not {power}"
        for (bus, group, address, part), row in rows.items():
            if (bus, group, part) == (self.bus, "GL", "does"):
                speed, drives = self.speed_of(row, rows[bus, group, address, "is"].steps), unknown.pop(address, (0, 1))
                if max(0, drives[0]) != (speed if drives[0] > 0 or self.watch.is_commanded(address) else 0):
                    yield f"locomotive {address} drives at {drives[0]}, and not {speed}"
                made.add(address)
                functions |= {(address, number) for number, value in enumerate(row.functions) if value}
        if driving := {cab: drives for cab, drives in unknown.items() if drives[0] > 0}:
            yield f"it drives what is gone: {driving}"
        on = {key for key, value in station.functions.copy().items() if value and key[0] in made}
        if on != functions:
            yield f"functions: {sorted(on ^ functions)[:5]} are otherwise"
        if station.faults:
            yield f"it refused {station.faults[:3]}"
