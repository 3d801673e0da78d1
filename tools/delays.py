"""How long the machine had programs wait for a processor: what comes too late by less is the machine's doing."""
import threading
import time
from bisect import bisect_left, bisect_right
from collections.abc import Callable, Iterable
from operator import itemgetter
from pathlib import Path

EACH = 0.02  # seconds between two looks


class Delays:
    """Looks again and again at what the kernel counts for each of some threads (`/proc/THREAD/schedstat`)."""

    def __init__(self, threads: Callable[[], Iterable[int]]) -> None:
        self.threads = threads
        self.looks: list[tuple[float, dict[int, int]]] = [(time.monotonic(), {})]  # the nanoseconds of each until then

    def run(self, ended: threading.Event) -> None:
        while not ended.wait(EACH):
            self.look()

    def look(self) -> None:
        waited: dict[int, int] = {}
        now = time.monotonic()
        for thread in self.threads():
            try:
                waited[thread] = int(Path(f"/proc/{thread}/schedstat").read_text().split()[1])
            except (OSError, IndexError):
                pass  # it has ended
        self.looks.append((now, waited))

    def between(self, begin: float, end: float) -> float:
        """Returns the seconds for which one of these threads waited within that time, at most."""
        _, before = self.looks[max(0, bisect_right(self.looks, begin, key=itemgetter(0)) - 1)]
        _, after = self.looks[min(len(self.looks) - 1, bisect_left(self.looks, end, key=itemgetter(0)))]
        return max((after[thread] - before[thread] for thread in before.keys() & after.keys()), default=0) / 1e9
