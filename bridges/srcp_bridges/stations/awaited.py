"""What a command station was told and has not confirmed yet, and how much of it may still wait in its input.

No clock and no line is asked for here: who calls tells the moment, and tells the station what these return.
"""
from typing import Any

from srcp_bridges.limits import SILENT

Part = tuple  # ("power",), ("cab", 3), ("function", 3, 0), ("turnout", 5)
Value = Any  # of a cab its speed and direction, of another part a number


class Awaited:
    """`parts` has by part what the station was told last, and when; `since` from when on it has confirmed nothing."""

    def __init__(self, confirms: float):
        self.confirms = confirms  # seconds within which the station confirms what it was told
        self.parts: dict[Part, tuple[float, Value]] = {}
        self.since: dict[Part, float] = {}

    def tell(self, part: Part, value: Value, now: float) -> None:
        self.parts[part] = now, value
        self.since.setdefault(part, now)

    def confirm(self, part: Part, value: Value) -> bool:
        """Takes in that a part is so; returns whether that was awaited."""
        if part not in self.parts or self.parts[part][1] != value:
            return False
        del self.parts[part], self.since[part]
        return True

    def is_emergency(self, part: Part) -> bool:
        """Returns whether a locomotive has not confirmed its emergency stop."""
        return part in self.parts and self.parts[part][1][0] < 0

    def take_late(self, now: float) -> list[tuple[Part, Value]]:
        """Returns what is to be told again. It is awaited no more until it has been."""
        late = [(part, value) for part, (moment, value) in self.parts.items() if moment < now - self.confirms]
        for part, _ in late:
            del self.parts[part]
        return late

    def hasten(self) -> None:
        """The station has refused a command, and does not say which: all is late."""
        self.parts = {part: (-self.confirms, value) for part, (_, value) in self.parts.items()}

    def has_slept(self, now: float) -> None:
        """Nobody has looked for a while, so no report was taken: what is awaited has its time anew."""
        self.parts = {part: (now, value) for part, (_, value) in self.parts.items()}
        self.since = dict.fromkeys(self.since, now)

    def silent(self, now: float) -> frozenset[int]:
        """Returns the locomotives of which the station has confirmed nothing for too long."""
        return frozenset(part[1] for part in self.parts if part[0] == "cab" and self.since[part] < now - SILENT)

    def stops(self, now: float) -> bool:
        """Returns whether a stop is to be confirmed that may still be."""
        silent = self.silent(now)
        return any(part[0] == "cab" and value[0] <= 0 and part[1] not in silent
                   for part, (_, value) in self.parts.items())

    def clear(self) -> None:
        self.parts.clear()
        self.since.clear()


class Ahead:
    """Counts the bytes that a station has perhaps not read yet: what does not fit into its input is lost.

    `room` is what it may be told before it is asked whether it has read that, and `most` the longest that one telling
    takes. What is urgent may use `reserve` more.
    """

    def __init__(self, room: int, most: int, reserve: int):
        self.room = room
        self.most = most
        self.reserve = reserve
        self.unread = 0

    def fits(self, urgent: bool) -> bool:
        return self.unread + self.most <= self.room + (self.reserve if urgent else 0)

    def tell(self, size: int) -> None:
        self.unread += size

    def has_read(self) -> None:
        self.unread = 0
