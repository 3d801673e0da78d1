"""What a bus of the server wants of a track, what its command station was told, and what differs.

The parts of a track are POWER, cabs (speed and direction of locomotives), functions and turnouts. What differs is
marked as it changes. The most urgent is told first; of a part that changes faster than the station takes it, the last
value is told alone.
"""
import asyncio
from collections.abc import Callable
from typing import NamedTuple

from srcp_bridges.limits import MOST_FUNCTIONS
from srcp_bridges.srcp.mirrors import Mirror
from srcp_bridges.srcp.rows import EMERGENCY_STOP, FORWARD, Drive, Locomotive, position
from srcp_bridges.stations.awaited import Part, Value
from srcp_bridges.stations.holds import Holds, Seen
from srcp_bridges.stations.registry import POWER

URGENT, STOPPING, DRIVING, LATER, TURNOUTS = range(5)
Known = tuple[Locomotive | None, Drive]
Report = tuple[int, int, int, Seen]  # of a locomotive: speed, direction, and a bit for each function
NOBODY: Known = None, Drive(0, FORWARD, 0, 0, ())


class Hooks(NamedTuple):
    """What the driver of one kind of station gives, for what all kinds have in common.

    `stop_at_once` is called as a STOP ALL comes, `unlocked` as nobody has a turnout locked any more. `awaits` returns
    whether a part is told nothing else meanwhile. `drive_on` takes again what was reported of a locomotive that was
    made. `tops` has the numbers of steps in which the station is told speeds. `at_first` is what a locomotive does of
    which the station was told nothing, if the station keeps speeds.
    """
    stop_at_once: Callable[[], None]
    unlocked: Callable[[int], None]
    awaits: Callable[[Part], bool]
    drive_on: Callable[[int, int, int, int, Seen], None]
    tops: tuple[int, ...]
    at_first: Value | None


class Track:
    """`told` has what the station was told, by part. `waiting` has what is to be told, by urgency and part.

    `known` has the locomotives that have a slot at the station; `full` is called with one for which there is none left.
    """

    def __init__(self, bus: int, mirror: Mirror, holds: Holds, turnout_pace: float, full: Callable[[int], None],
                 hooks: Hooks):
        self.bus = bus
        self.mirror = mirror
        self.holds = holds
        self.turnout_pace = turnout_pace
        self.full = full
        self.hooks = hooks
        self.told: dict[Part, Value] = {}
        self.waiting: list[dict[Part, Value]] = [{} for _ in range(5)]
        self.not_before = [0.0] * 5
        self.stops: set[int] = set()  # locomotives of whose emergency stop the station is still to be told
        self.known: set[int] = set()
        self.others: dict[int, Report] = {}  # what the station reports of locomotives that the registry has not
        self.making: set[int] = set()  # locomotives that this program makes, since a hand drives them
        self.steps: dict[int, int] = {}  # the numbers of steps in which the station reports locomotives
        self.slots: int | None = None
        self.changed = asyncio.Event()

    # ---- what is wanted: how urgent a part is, and its value, or None if any will do

    def wanted(self, part: Part) -> tuple[int, Value]:
        kind, *numbers = part
        return getattr(self, kind)(*numbers)

    def power(self) -> tuple[int, int]:
        row = self.mirror.rows.get((self.bus, "POWER", 0, "does"))
        return (STOPPING, 1) if row and row.on and POWER not in self.holds.held else (URGENT, 0)

    def cab(self, address: int) -> tuple[int, Value]:
        """A locomotive's speed, -1 for an emergency stop, and direction. One that has not driven yet is not told."""
        made, drive = self.locomotive(address)
        told, way = self.told.get(("cab", address), made and self.hooks.at_first), self.mirror.way(self.bus, address)
        if address in self.stops or drive.mode == EMERGENCY_STOP or address in self.holds.halted:
            return URGENT, told and (-1, way)
        if not drive.v or ("cab", address) in self.holds.held:
            return STOPPING, told and (0, way)
        assert made
        top = self.top(made)
        return DRIVING, (min(top, -(-drive.v * top // (drive.v_max or made.steps))), way)  # Vmax 0: V is a step

    def function(self, address: int, number: int) -> tuple[int, int | None]:
        """A station begins with all functions off."""
        functions = self.locomotive(address)[1].functions
        value = functions[number] if number < len(functions) else 0
        return LATER, value if value or ("function", address, number) in self.told else None

    def turnout(self, address: int) -> tuple[int, int | None]:
        made = self.mirror.rows.get((self.bus, "GA", address, "is"))
        port = position(self.mirror.rows, self.bus, address) if made and made.protocol in "NP" else None
        return TURNOUTS, None if port is None else int(port > 0)

    def forget(self, address: int) -> tuple[int, int | None]:
        """A locomotive that is gone gives its slot back, after all else."""
        return LATER, 1 if address in self.known and not self.locomotive(address)[0] else None

    def locomotive(self, address: int) -> Known:
        """Returns what a locomotive is and does; NOBODY if it is gone or cannot be driven."""
        made = self.mirror.rows.get((self.bus, "GL", address, "is"))
        drive = self.mirror.rows.get((self.bus, "GL", address, "does"))
        return (made, drive) if made and drive and made.protocol in "NP" else NOBODY

    def top(self, made: Locomotive | None) -> int:
        """Returns the fastest step of a locomotive at the station."""
        return next((top for top in self.hooks.tops if made and made.steps <= top), self.hooks.tops[-1])

    def top_of(self, address: int) -> int:
        """Returns the fastest step of a locomotive: as the registry has it, else as the station reports it."""
        made, _ = self.locomotive(address)
        return self.top(made) if made else self.steps.get(address, self.hooks.tops[-1])

    # ---- what differs

    def mark(self, part: Part) -> None:
        """Notes whether a part is to be told, and how urgently. One that waits already keeps its place."""
        urgency, value = self.wanted(part)
        if part[0] == "cab" and urgency == URGENT and value in (None, self.told.get(part)):
            self.stops.discard(part[1])  # it has made that stop, and may have been told to stand since
            urgency, value = self.wanted(part)
        differs = value is not None and value != self.told.get(part)
        for level, waiting in enumerate(self.waiting):
            if part in waiting and not (differs and level == urgency):
                del waiting[part]
        if differs:
            self.waiting[urgency][part] = value
            self.changed.set()

    def mark_locomotive(self, address: int) -> None:
        functions = [("function", address, number) for number in range(MOST_FUNCTIONS)]
        for part in [("cab", address), *functions, ("forget", address)]:
            self.mark(part)

    def take_in(self, address: int) -> None:
        """A locomotive is made that a hand may have driving already. One that this program makes drives on. If somebody
        else makes it, the station is told to do as its row says."""
        report, is_ours = self.others.pop(address, None), address in self.making
        self.making.discard(address)
        if report and is_ours:
            return self.hooks.drive_on(address, *report)
        if report and report[0] > 0:
            self.told["cab", address] = report[0], None
        self.mark_locomotive(address)

    def mark_all(self) -> None:
        ours = [key for key in self.mirror.rows if key[0] == self.bus]
        self.mark(POWER)
        for address in {key[2] for key in ours if key[1] == "GL"} | self.known:
            self.mark_locomotive(address)
        for address in [key[2] for key in ours if key[1] == "GA" and key[3] == "is"]:
            self.mark(("turnout", address))

    def begin_anew(self) -> None:
        """The station has forgotten all. How turnouts lie has not changed. One that keeps speeds may still have what is
        gone from the registry drive: that stands."""
        driven = [part for part in self.told if part[0] == "cab"] if self.hooks.at_first else []
        self.told = {part: value for part, value in self.told.items() if part[0] == "turnout"}
        self.told |= dict.fromkeys(driven, self.hooks.at_first)
        self.known.clear()
        self.others.clear()
        self.stops.clear()
        self.mark_all()
        for part in driven:
            self.mark(part)

    def next(self) -> tuple[Part, Value] | None:
        """Returns the most urgent part that is to be told at this moment, and its value, or None."""
        now = asyncio.get_running_loop().time()
        for waiting, begin in zip(self.waiting, self.not_before):
            while now >= begin and (part := next((part for part in waiting if not self.hooks.awaits(part)), None)):
                if self.has_slot(part):
                    return part, waiting.pop(part)
                idle = [address for address in self.known if not self.is_busy(address)]
                if ready := [address for address in idle if not self.hooks.awaits(("forget", address))]:
                    return ("forget", ready[0]), 1
                if idle:
                    break  # its slot is free once it has confirmed that it rests
                del waiting[part]
                self.full(part[1])
        return None

    def has_slot(self, part: Part) -> bool:
        """Returns whether the station has a slot for a part, or needs none."""
        return (part[0] not in ("cab", "function") or part[1] in self.known or self.slots is None
                or len(self.known) < self.slots)

    def is_busy(self, address: int) -> bool:
        """Returns whether a locomotive drives, has a function on, or is about to: it needs its slot."""
        functions = [("function", address, number) for number in range(MOST_FUNCTIONS)]
        about_to = any(part in waiting for waiting in self.waiting for part in [("cab", address), *functions])
        return about_to or self.speed(address) > 0 or any(self.told.get(part) for part in functions)

    def speed(self, address: int) -> int:
        """Returns the speed that the station was told last."""
        return (self.told.get(("cab", address)) or (0,))[0]

    def driving(self) -> list[int]:
        """Returns the locomotives that drive, or are about to: none if the power is off."""
        told = [part[1] for part in self.told if part[0] == "cab" and self.speed(part[1]) > 0]
        waiting = [part[1] for part in self.waiting[DRIVING]]
        others = [address for address, (speed, *_) in self.others.items() if speed > 0]
        return sorted(told + waiting + others) if self.told.get(POWER) else []

    def tell(self, part: Part, value: Value) -> None:
        """Notes that the station is told of a part."""
        kind, *numbers = part
        if kind == "forget":
            self.known.discard(numbers[0])
            for old in [old for old in self.told if old[0] in ("cab", "function") and old[1] == numbers[0]]:
                del self.told[old]
            return
        self.told[part] = value
        if kind in ("cab", "function"):
            self.known.add(numbers[0])
        if kind == "cab" and value[0] < 0:
            self.stops.discard(numbers[0])
            self.mark(part)  # it may have been told to stand since
        elif kind == "turnout":
            self.pause(TURNOUTS, 1 / self.turnout_pace)

    def pause(self, urgency: int, seconds: float) -> None:
        """Has what is as urgent as that wait for a while."""
        loop = asyncio.get_running_loop()
        self.not_before[urgency] = loop.time() + seconds
        loop.call_later(seconds + 0.001, self.changed.set)

    def forgets(self, part: Part) -> None:
        """The station may do something else than it was told of a part: it is told again."""
        self.told[part] = (-1, None) if part[0] == "cab" else None  # (-1, None): in whatever direction
        self.mark(part)
