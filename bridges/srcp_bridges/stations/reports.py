"""What a station reports: the echo of what it was told, or what a hand throttle at it has done."""
import asyncio
from collections import defaultdict, deque

from srcp_bridges.limits import LATE
from srcp_bridges.stations.awaited import Part, Value
REPORTED = "power", "cab", "function"


class Reports:
    """`sent` has, by part, the values that the station was told and has not echoed yet, with their moments."""

    def __init__(self) -> None:
        self.sent: defaultdict[Part, deque[tuple[float, Value]]] = defaultdict(deque)
        self.reported: dict[Part, Value] = {}
        self.all_stop = -LATE  # when it was told to stop all
        self.stopped: set[Part] = set()  # the cabs that have echoed that

    def clear(self) -> None:
        self.sent.clear()
        self.reported.clear()

    def telling_all_to_stop(self) -> None:
        self.all_stop, self.stopped = asyncio.get_running_loop().time(), set()

    def telling(self, part: Part, value: Value) -> None:
        if part[0] in REPORTED:
            self.awaited(part).append((asyncio.get_running_loop().time(), value))

    def awaited(self, part: Part) -> deque[tuple[float, Value]]:
        """Returns what the station is still to echo of a part. What it does not echo in time it never will."""
        sent, now = self.sent[part], asyncio.get_running_loop().time()
        while sent and sent[0][0] < now - LATE:
            sent.popleft()
        return sent

    def is_news(self, part: Part, value: Value, usual: Value = None) -> bool:
        """Returns whether a reported value is the doing of a hand throttle. `usual`: what a part is at first."""
        sent, now = self.awaited(part), asyncio.get_running_loop().time()
        if value == self.reported.get(part):
            return False
        is_usual = part not in self.reported and value == usual
        self.reported[part] = value
        if value in [told for _, told in sent]:
            moment, told = sent.popleft()
            while told != value:
                moment, told = sent.popleft()
            if moment > self.all_stop:
                self.stopped.add(part)  # what it echoes later is of later
            return False
        if part[0] == "cab" and value[0] < 0 and part not in self.stopped and now < self.all_stop + LATE:
            self.stopped.add(part)
            return False
        return not is_usual
