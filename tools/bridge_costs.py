"""What the programs of bridges/ cost beside a server, and how long a change takes on its way: `bench.py bridges`."""
import os
import random
import re
import signal
import statistics
import threading
import time
from collections.abc import Callable
from pathlib import Path

from bridge_tests import common, test_withrottle
from bridge_tests.common import Process, until
from evening import Evening
from loads import TICKS

TIMES = 200  # that each latency is measured
IDLE = 20  # seconds without a change
SEED = 40
SUBSCRIBERS = 200
CHANGES = 5000  # of which each subscriber is told
ROUNDS = 100
TRAINS = (50, 99)
DRIVERS = 4
EACH = 0.02  # seconds between two commands of a driver


class Measured(Evening):
    """The programs of an evening on which nothing happens but what is measured: at a station, by a session of a
    throttle, by the page, and by the `app` of a phone."""

    def __init__(self, program: str) -> None:
        super().__init__(program, SEED)
        self.station = self.rails[1].station
        self.session = common.Session(self.server.port)
        self.app = test_withrottle.Phone(self.phones)


def waited(act: Callable[[], object], true: Callable[[], object]) -> float:
    """Milliseconds until it is true."""
    begun = time.perf_counter()
    act()
    while not true():
        if time.perf_counter() > begun + 10:
            raise AssertionError("not within 10 s")
        time.sleep(0.0002)
    return (time.perf_counter() - begun) * 1000


def told(name: str, times: list[float]) -> None:
    print(f"| {name} | {statistics.median(times):.1f} ms; {max(times):.0f} ms at most, of {len(times)} |", flush=True)


def cost(process: Process) -> tuple[float, float]:
    """Seconds of processor that a process has used, and its MB of memory."""
    ticks = Path(f"/proc/{process.pid}/stat").read_text().rpartition(")")[2].split()[11:13]
    status = Path(f"/proc/{process.pid}/status").read_text()
    found = re.search(r"VmRSS:\s+(\d+)", status)
    assert found
    return sum(map(int, ticks)) / TICKS, int(found[1]) / 1024


def latencies(evening: Measured) -> None:
    station, page = evening.station, evening.page
    evening.app.send("M0+S3<;>S3")
    evening.session.order("INIT 1 GL 4 N 1 126 5")
    until(lambda: page.rows.get((1, "GL", 3, "does")) and page.rows.get((1, "GL", 4, "does")), "the page knows both")
    speeds = [n % 100 + 1 for n in range(TIMES)]

    def drives(cab: int, v: int) -> bool:
        return station.cabs.get(cab, (0, 1))[0] == v

    told("phone to station", [waited(lambda: evening.app.send(f"M0A*<;>V{v}"), lambda: drives(3, v)) for v in speeds])
    told("page to station", [waited(lambda: page.post(f"SET 1 GL 4 1 {v} 126"), lambda: drives(4, v)) for v in speeds])
    told("sensor to page", [waited(lambda: station.sensor(7, v), lambda: page.rows[1, "FB", 7, "does"]["value"] == v)
                            for v in [n % 2 for n in range(1, TIMES)]])
    told("STOP ALL to station, behind a command", [stop_of_one(evening, v) for v in range(1, 21)])


def stop_of_one(evening: Measured, v: int) -> float:
    """Returns the milliseconds from a command and a STOP ALL behind it until the station is told to stop."""
    evening.station.log.clear()
    begun = time.monotonic()
    evening.page.post(f"SET 1 GL 4 1 {v} 126"), evening.page.post("", "/stop")
    until(lambda: reached(evening.station.log.copy(), [4], begun), "the station is told")
    return reached(evening.station.log.copy(), [4], begun)[4]


class Traffic:
    """Four drivers, who set the speeds of trains 200 times a second."""

    def __init__(self, port: int, trains: list[int]):
        self.port = port
        self.trains = trains
        self.goes = threading.Event()
        self.ends = False
        self.threads = [threading.Thread(target=self.drive, args=(number,)) for number in range(DRIVERS)]
        for thread in self.threads:
            thread.start()

    def drive(self, number: int) -> None:
        session, draw = common.Session(self.port), random.Random(number)
        while not self.ends:
            if self.goes.wait(0.1):
                session.ask(f"SET 1 GL {draw.choice(self.trains)} 1 {draw.randint(1, 126)} 126")
                time.sleep(EACH)
        session.close()

    def end(self) -> None:
        self.ends = True
        for thread in self.threads:
            thread.join()


def reached(log: list[tuple[float, str]], trains: list[int], begun: float) -> dict[int, float]:
    """Returns for each train the milliseconds from `begun` until the station was told to stop it, or all."""
    moments: dict[int, float] = {}
    for moment, text in log:
        stopped = trains if text == "!" else [int(text.split()[1])] if text.startswith("t ") and " -1 " in text else []
        for train in stopped:
            moments.setdefault(train, (moment - begun) * 1000)
    return moments


def stops_of_all(evening: Measured, count: int) -> None:
    """STOP ALL of so many trains, by the page, 100 times."""
    station = evening.station
    trains = list(range(101, 101 + count))
    first = []
    last = []
    station.slots = 2 * count
    evening.session.order(*[f"INIT 1 GL {train} N 1 126 28" for train in trains])
    traffic = Traffic(evening.server.port, trains)
    for _ in range(ROUNDS):
        evening.session.flood([f"SET 1 GL {train} 1 60 126" for train in trains])
        until(lambda: all(station.cabs.get(train, (0, 1))[0] > 0 for train in trains), "all drive")
        traffic.goes.set()
        time.sleep(0.3)
        station.log.clear()
        begun = time.monotonic()
        evening.page.post("", "/stop")
        traffic.goes.clear()
        until(lambda: len(reached(station.log.copy(), trains, begun)) == count, "all are stopped")
        times = sorted(reached(station.log.copy(), trains, begun).values())
        first.append(times[0])
        last.append(times[-1])
        time.sleep(0.3)
    traffic.end()
    evening.session.order(*[f"TERM 1 GL {train}" for train in trains])
    for name, times in (("first", sorted(first)), ("last", sorted(last))):
        print(f"| STOP ALL to the {name} of {count} trains, beside 200 commands a second | "
              f"{times[ROUNDS // 2]:.1f} ms; "
              f"{times[ROUNDS * 99 // 100 - 1]:.0f} ms at the 99th of {ROUNDS} |", flush=True)


def idle_programs(evening: Measured) -> None:
    processes = {"srcp_server": evening.server.process, "mosquitto": evening.broker.process} | {
        name + ".py": process for name, process in evening.programs.items()}
    before = {name: cost(process)[0] for name, process in processes.items()}
    time.sleep(IDLE)
    for name, process in processes.items():
        seconds, memory = cost(process)
        share = (seconds - before[name]) / IDLE
        print(f"| `{name}` while nothing happens | {share:.2%} of a processor, {memory:.0f} MB |", flush=True)


def many(evening: Measured) -> None:
    """All subscribers get all changes, in order."""
    words = ["mosquitto_sub", "-h", "127.0.0.1", "-p", evening.broker.port, "-t", "srcp/1/FB/+", "-F", "%r %t %p"]
    subscribers = [Process(*words) for _ in range(SUBSCRIBERS)]
    try:
        until(lambda: all(process.told().count("\n") == 32 for process in subscribers), "what is retained", 60)
        expected = [f"0 srcp/1/FB/{n % 32 + 1} {n // 32 % 2}" for n in range(CHANGES)]
        size = os.path.getsize(subscribers[0].log) + sum(len(line) + 1 for line in expected)
        begun = time.monotonic()
        evening.session.flood([f"SET 1 FB {n % 32 + 1} {n // 32 % 2}" for n in range(CHANGES)])
        made = time.monotonic() - begun
        until(lambda: all(os.path.getsize(process.log) >= size for process in subscribers), "all have all", 180)
        took = time.monotonic() - begun
        came = [[line for line in process.told().splitlines() if line.startswith("0 ")] for process in subscribers]
        print(f"| {CHANGES} changes, made in {made:.1f} s, to {SUBSCRIBERS} subscribers | {took:.1f} s until all have "
              f"all; {sum(lines != expected for lines in came)} have them in another order |", flush=True)
        for name, process in [("mqtt.py", evening.programs["mqtt"]), ("mosquitto", evening.broker.process)]:
            seconds, memory = cost(process)
            print(f"| `{name}` by then | {seconds:.1f} s of processor, {memory:.0f} MB |", flush=True)
    finally:
        for process in subscribers:
            process.end(signal.SIGKILL)


def bridges(program: str) -> None:
    evening = Measured(program)
    try:
        print("| What | Measured |\n|---|---|", flush=True)
        time.sleep(2)
        latencies(evening)
        for count in TRAINS:
            stops_of_all(evening, count)
        idle_programs(evening)
        many(evening)
    finally:
        evening.ends()
