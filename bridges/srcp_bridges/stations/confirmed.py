"""A driver of a station that may miss commands: it is told again what it does not confirm."""
import argparse
import asyncio
from collections.abc import Coroutine

from srcp_bridges.limits import CONFIRMS, LEAVING, MOST_FUNCTIONS, PACE, SLEPT, TICK
from srcp_bridges.srcp.rows import FORWARD
from srcp_bridges.stations.awaited import Awaited, Part, Value
from srcp_bridges.stations.hands import OFF
from srcp_bridges.stations.registry import POWER
from srcp_bridges.stations.station import Station
from srcp_bridges.stations.track import DRIVING, URGENT


class Confirmed(Station):
    """A part of the track is told one value at a time: the next once the station has confirmed that.

    The driver of one kind of station calls `heard_power`, `heard_locomotive` and `confirm` with what reports say. It
    gives also `look`, which asks for what the station may have reported in vain.
    """
    IN_ORDER = False  # what it is told comes in order, or not at all: then a stop waits for no speed to be confirmed
    CONFIRMED: tuple[str, ...] = "power", "cab", "function"  # the kinds of parts that it confirms

    def __init__(self, asked: argparse.Namespace):
        super().__init__(asked)
        self.awaited = Awaited(CONFIRMS)
        self.sensed: dict[int, int] = {}

    def look(self) -> None:
        """Asks for what the station may have reported in vain."""

    def awaits(self, part: Part) -> bool:
        """Returns whether a part is told nothing yet. A locomotive is forgotten after all of its parts are confirmed,
        and power comes after all stops are."""
        if part[0] == "forget":
            return any(other[:2] in (("cab", part[1]), ("function", part[1])) for other in self.awaited.parts)
        urgency, value = self.track.wanted(part)
        if part == POWER and value and self.is_stopping():
            return True
        if self.IN_ORDER and (urgency == URGENT or part[0] == "cab" and urgency < DRIVING):
            return urgency > URGENT and self.awaited.is_emergency(part)  # it may be lost: then no 0 takes its place
        return part in self.awaited.parts

    def is_stopping(self) -> bool:
        """Returns whether a locomotive is still to be told to stand, or has not confirmed that it does."""
        waits = any(part[0] == "cab" for waiting in self.track.waiting[:DRIVING] for part in waiting)
        return waits or self.awaited.stops(asyncio.get_running_loop().time())

    def telling(self, part: Part, value: Value) -> None:
        super().telling(part, value)
        if part[0] in self.CONFIRMED:
            self.awaited.tell(part, value, asyncio.get_running_loop().time())

    def has_heard(self, part: Part, value: Value) -> bool:
        """Returns whether a report may tell what a hand does: not if the station is to be told something else."""
        if part in self.awaited.parts:
            return value == self.awaited.parts[part][1]
        return all(value == waiting.get(part, value) for waiting in self.track.waiting)

    def confirm(self, part: Part, value: Value) -> bool:
        """Takes in that a part is so; returns whether that was awaited."""
        if is_so := self.awaited.confirm(part, value):
            self.hands.reports.sent[part].clear()
            self.hands.reports.reported[part] = value
            self.track.changed.set()
        return is_so

    def heard_power(self, on: int, why: str = OFF) -> None:
        """Takes a report of the power, and why it is off. That it is on as it was told is no button, however late that
        comes: this program may have slept."""
        if on and self.confirm(POWER, on):
            return
        if not on or self.has_heard(POWER, on):
            self.hands.power(on, why)
        self.confirm(POWER, on)

    def heard_locomotive(self, address: int, drives: tuple[int, int], functions: int) -> None:
        """Takes a report of a locomotive: its speed and direction, and a bit for each function."""
        part = "cab", address
        before = self.hands.reports.reported.get(part, (0, FORWARD))
        speed, way = drives if drives[0] <= 0 or self.has_heard(part, drives) else before
        self.hands.locomotive(address, speed, way, functions)
        is_stop = self.IN_ORDER and drives[0] < 0 and part not in self.awaited.parts  # none of before
        if is_stop and drives == self.track.waiting[URGENT].get(part):
            self.track.told[part] = drives  # it has made the stop of all, and need not be told it by itself
            self.track.mark(part)
        self.confirm(part, drives)
        for number in range(MOST_FUNCTIONS):
            self.confirm(("function", address, number), functions >> number & 1)

    def greeted(self, message: str) -> None:
        self.awaited.clear()
        super().greeted(message)

    def stands(self) -> bool:
        """All have confirmed that they stand, also those that a hand drives and that the registry does not have."""
        hands = any(speed > 0 for speed, *_ in self.track.others.values())
        return super().stands() and not hands and not self.is_stopping() and not self.bus.silent

    def ask_sensors(self) -> None:
        """A server that was started anew knows of no sensor."""
        self.sensed.clear()
        super().ask_sensors()

    def sense(self, address: int, value: int) -> None:
        """Takes what is reported of a sensor again and again. A change is told, unless too many wait."""
        row = self.bus.mirror.rows.get((self.bus.number, "FB", address, "does"))
        if value != self.sensed.get(address, row.value if row else 0) and not self.sensors.full():
            self.sensed[address] = value
            self.sensor(address, value)

    def tell_again(self) -> None:
        """Has the station told again what it has not confirmed for a while."""
        for part, value in self.awaited.take_late(asyncio.get_running_loop().time()):
            if part[0] == "cab" and value[0] < 0:
                self.track.stops.add(part[1])
            self.track.forgets(part)

    def ask_again(self) -> None:
        """Asks a station again that has not answered since a STOP ALL: the question was lost, or its answer."""
        if self.bus.stopping and not self.heard and asyncio.get_running_loop().time() > self.stop_asked + CONFIRMS:
            self.ask_whether_heard()

    async def tend(self) -> None:
        now = looked = asyncio.get_running_loop().time()
        while True:
            looked, now = now, asyncio.get_running_loop().time()
            if now > looked + SLEPT:
                self.awaited.has_slept(now)
            if self.ready.is_set():
                self.bus.tell_silent(self.awaited.silent(now))
                self.tell_again()
                self.ask_again()
                self.look()
                self.look_whether_all_stand()
            await asyncio.sleep(TICK)

    def tasks(self) -> list[Coroutine[object, object, None]]:
        return [*super().tasks(), self.tend()]

    async def leave(self) -> None:
        """Has all stand, and takes the power off, until the station has confirmed that."""
        self.bus.station_goes()
        if self.IN_ORDER:
            self.line.write(self.STOP_ALL)
        self.track.mark_all()
        hearing, now = asyncio.create_task(self.hear()), asyncio.get_running_loop().time
        ends = now() + LEAVING
        try:
            while now() < ends and not hearing.done() and (self.tell_one() or self.awaited.parts):
                self.tell_again()
                await asyncio.sleep(PACE)
        finally:
            hearing.cancel()
            await asyncio.wait([hearing])
