"""A signal box beside throttles that try to move what its routes have locked, and a panel that checks what happens."""
import contextlib
import random
import signal
import subprocess
import threading
import time
import tomllib
from collections import Counter
from pathlib import Path
from typing import Any

from bridge_tests import common
from bridge_tests.common import until
from srcp_bridges.srcp.replies import Code
from srcp_bridges.srcp.rows import Lock, Port, parse

Accessory = tuple[int, int]  # bus and address
OWN = 9  # the routes' own bus
BUSES = (1, 2)  # those of the devices of a route
ROUTES = 8  # how many there are
DEVICES = [(bus, address) for bus in BUSES for address in range(1, 6)]  # turnouts, and as many sensors
SIGNALS = [(bus, address) for bus in BUSES for address in (11, 12)]
LAYOUT = "port = {port}\n" + "".join(
    f'[[bus]]\nnumber = {bus}\ngroups = ["GA", "FB"]\nga_max = 12\nfb_ports = 12\n' for bus in (*BUSES, OWN))
PACE = 0.005  # seconds between two commands of a throttle
TROUBLE = 6.0  # seconds between two troubles
THROTTLES = 3
READY = f"none of {ROUTES} routes is set"
# At three turnouts a second the throttles give nearly each route back before the box sets the route.
TURNOUT_PACES = 3, 100, 1000


def plan_of(draw: random.Random) -> str:
    """A plan of routes, many of which conflict."""
    lines = [f"bus = {OWN}"]
    for number in range(1, ROUTES + 1):
        turnouts = [[*each, draw.randint(0, 1)] for each in draw.sample(DEVICES, draw.randint(1, 3))]
        lines += ["[[route]]", f"number = {number}", f"turnouts = {turnouts}",
                  f"blocks = {[list(draw.choice(DEVICES))]}", f"frees = {list(draw.choice(DEVICES))}",
                  f"signal = {[*draw.choice(SIGNALS), 1, 0]}"]
    return "\n".join(lines) + "\n"


class Route:
    def __init__(self, given: dict[str, Any]):
        self.turnouts = {(bus, address): port for bus, address, port in given["turnouts"]}
        self.signal = tuple(given["signal"][:2])
        self.blocks = {tuple(block) for block in given["blocks"]}

    def conflicts(self, other: "Route") -> bool:
        return bool(self.turnouts.keys() & other.turnouts.keys() or self.blocks & other.blocks
                    or self.signal == other.signal)


class Watch:
    """What a panel is told, and what of it may not be. `lies` has by accessory the port that was set to 1 last,
    `locked` by accessory which session has its lock, and `shown` by signal the routes over which it shows go. `lost`:
    the box has lost its session, and has not begun again."""

    def __init__(self, plan: dict[str, Any]):
        self.routes = {given["number"]: Route(given) for given in plan["route"]}
        self.throttles: set[int] = set()
        self.wrong: list[str] = []
        self.count: Counter[str] = Counter()
        self.lost = False
        self.begins()

    def begins(self) -> None:
        """A server has begun."""
        self.lies: dict[tuple[int, int], int] = {}
        self.locked: dict[tuple[int, int], int] = {}
        self.shown: dict[tuple[int, int], set[int]] = {}
        self.set: set[int] = set()

    def fault(self, text: str) -> None:
        self.wrong.append(text)
        print(f"WRONG: {text}", flush=True)

    def is_safe(self, number: int) -> bool:
        """Returns whether the turnouts of a route are locked by one that is no throttle, and lie as it wants them."""
        turnouts = self.routes[number].turnouts
        holders = {self.locked.get(each) for each in turnouts}
        lies = all(self.lies.get(each) == port for each, port in turnouts.items())
        return lies and len(holders) == 1 and not holders & {None, *self.throttles}

    def takes(self, line: str) -> None:
        (bus, group, address, part), row = parse(line)
        match group, part, row:
            case "FB", "does", Port(value=value) if bus == OWN and address in self.routes:
                self.reports(address, value == 1)
            case "GA", int(port), Port(value=1) if bus != OWN:
                self.moves((bus, address), port)
            case "GA", "lock", Lock(session=session):
                self.locked[bus, address] = session
            case "GA", "lock", None:
                self.unlocks((bus, address))

    def reports(self, number: int, is_set: bool) -> None:
        self.count["set" if is_set else "reported as not set"] += 1
        if not is_set:
            return self.set.discard(number)
        route = self.routes[number]
        if both := [other for other in self.set if other != number and route.conflicts(self.routes[other])]:
            self.fault(f"route {number} is set beside {both}")
        if not self.is_safe(number):
            self.fault(f"route {number} is set, and its turnouts are not locked, or lie wrong")
        self.set.add(number)

    def moves(self, device: Accessory, port: int) -> None:
        """A port of a turnout or of a signal was set to 1."""
        self.lies[device] = port
        self.loses("thrown", device, {number for number, route in self.routes.items()
                                      if route.turnouts.get(device, port) != port})
        if device in SIGNALS:
            self.count["shown" if port else "stopped"] += 1
            over = [number for number, route in self.routes.items() if route.signal == device and self.is_safe(number)]
            self.shown[device] = {*over} if port else set()
            if port and not over:
                self.fault(f"{device} shows go over no route whose turnouts are locked and thrown")

    def unlocks(self, device: Accessory) -> None:
        session = self.locked.pop(device, None)
        over = {number for number, route in self.routes.items() if device in route.turnouts}
        self.loses("unlocked", device, over, is_right=self.lost or session in self.throttles)

    def loses(self, what: str, device: Accessory, routes: set[int], is_right: bool = False) -> None:
        """A turnout is lost to these routes. None of them may be set, or be the last over which a signal shows go."""
        set_ones = self.set & routes
        signals = [each for each, over in self.shown.items() if over and over <= routes]
        if (set_ones or signals) and not is_right:
            self.fault(f"{device} is {what} under routes {set_ones}, and under signals {signals}")
        self.set -= routes
        for over in self.shown.values():
            over -= routes


class Soak:
    def __init__(self, program: str, seed: int):
        common.SERVER = program
        self.draw = random.Random(seed)
        self.program = program
        text = plan_of(self.draw)
        self.path = Path(common.new_folder(), "plan.toml")
        self.path.write_text(text)
        self.watch = Watch(tomllib.loads(text))
        self.server = common.Server(LAYOUT)
        self.way = common.Way(self.server)
        self.running = True
        self.troubles = 0
        self.threads = [threading.Thread(target=work, daemon=True) for work in (self.look, *[self.drive] * THROTTLES)]
        for thread in self.threads:
            thread.start()
        self.begin()

    def begin(self) -> None:
        self.box = common.program("box.py", "--plan", self.path, "--program", self.program, "--port", self.way.port,
                                  "--turnout-pace", self.draw.choice(TURNOUT_PACES))
        self.is_ready(0)

    def is_ready(self, before: int) -> None:
        """Waits until the box has begun once more. Then a lock that goes under a route is wrong again."""
        until(lambda: self.box.told().count(READY) > before, "the box has begun")
        self.watch.lost = False

    def look(self) -> None:
        """Follows the server: after a restart, another one."""
        while self.running:
            with contextlib.suppress(OSError):
                panel = common.Session(self.server.port, "INFO")
                self.watch.begins()
                while self.running:
                    self.watch.takes(panel.line().decode().rstrip("\n"))

    def drive(self) -> None:
        """A throttle that asks for routes, and commands what it likes."""
        draw = random.Random(self.draw.random())
        while self.running:
            with contextlib.suppress(OSError):
                throttle = common.Session(self.server.port)
                self.watch.throttles.add(throttle.session)
                while self.running:
                    reply = throttle.ask(self.command(draw))
                    self.watch.count["throws that were refused"] += reply.startswith(f"{Code.LOCKED:d} ")
                    time.sleep(PACE)

    def command(self, draw: random.Random) -> str:
        (bus, address), route = draw.choice(DEVICES), draw.randint(1, ROUTES)
        commands = [f"SET {OWN} GA {route} 1 1 250", f"SET {OWN} GA {route} 0 1 250",
                    f"SET {bus} GA {address} {draw.randint(0, 1)} 1 250",
                    f"SET {bus} FB {address} {draw.randint(0, 1)}", f"SET {bus} FB {address} 0",
                    f"SET {bus} LOCK GA {address} 1", f"TERM {bus} LOCK GA {address}", f"TERM {bus} GA {address}",
                    f"INIT {bus} GA {address} N"]
        return draw.choices(commands, [20, 4, 20, 4, 12, 1, 1, 1, 8])[0]

    # ---- troubles

    def killed(self) -> None:
        self.watch.lost = True
        self.box.end(signal.SIGKILL)
        time.sleep(self.draw.random())
        self.begin()

    def ended(self) -> None:
        if status := self.box.end():
            self.watch.fault(f"the box ended with status {status}")
        self.begin()

    def panel_lost(self) -> None:
        before = self.box.told().count(READY)
        self.way.cut()
        time.sleep(self.draw.random())
        self.way.free()
        self.is_ready(before)

    def interlock_lost(self) -> None:
        before = self.box.told().count(READY)
        for pid in subprocess.run(["pgrep", "-P", str(self.box.pid)], capture_output=True, text=True).stdout.split():
            subprocess.run(["kill", "-9", pid])
        self.is_ready(before)

    def hung(self) -> None:
        before, self.watch.lost = self.box.told().count(READY), True
        self.server.process.send(signal.SIGSTOP)
        time.sleep(5)
        self.server.process.send(signal.SIGCONT)
        self.is_ready(before)

    def restarted(self) -> None:
        before, self.watch.lost = self.box.told().count(READY), True
        self.server.restart()
        self.is_ready(before)

    def run(self, seconds: int) -> None:
        end = time.monotonic() + seconds
        while time.monotonic() < end:
            time.sleep(TROUBLE)
            troubles = [self.killed, self.ended, self.panel_lost, self.interlock_lost, self.hung, self.restarted]
            trouble = self.draw.choices(troubles, [4, 3, 3, 2, 1, 1])[0]
            self.troubles += 1
            print(f"{dict(self.watch.count)}; {trouble.__name__}", flush=True)
            trouble()

    def ends(self) -> None:
        self.running = False
        self.box.end()
        self.server.stop()
