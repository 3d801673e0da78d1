"""The program `srcp_server interlock`, which says what is ordered for the routes of a plan, and when."""
import asyncio
import re
import shutil
import subprocess
import tomllib
from asyncio.subprocess import PIPE
from pathlib import Path
from typing import Any

from srcp_bridges.plan.occupancy import Sensor
from srcp_bridges.plan.plan import read_plan
from srcp_bridges.program import Wrong, unread
from srcp_bridges.srcp.rows import THROWN, Key, Port, Power, Row

RUN = Path(__file__).resolve().parent.parent.parent.parent / "run"  # that of the repository, if this file is in it
FAULT = re.compile(r"^(?:srcp_server: plan|srcp_server|error): (.*)", re.M)
NO_KEY = "a key that is none of "
LOCK = re.compile(r"SET (\d+) LOCK GA (\d+) 0")
PORT = re.compile(r"SET (\d+) GA (\d+) \d+ 1 \d+")
BY_HAND = re.compile(re.escape(THROWN) + r" (\d+) (\d+)")
REPORT = re.compile(r"SET \d+ FB (\d+) ([01])")
Accessory = tuple[int, int]  # bus, address
Signal = tuple[int, int, int, int]  # bus, address, port of go, port of stop


def server_program() -> str:
    """Returns the program of the server."""
    return str(RUN) if RUN.exists() else shutil.which("srcp_server") or "srcp_server"


class RoutePlan:
    """The routes of a file in which neither the program nor the page finds a fault: their bus, and by their
    numbers their names, turnouts, blocks, signals, the sensors that free them, their sections and their approaches.
    `signals` has the accessories of all signals."""

    def __init__(self, program: str, path: str):
        self.program = program
        self.path = path
        words = program, "interlock", "--plan", path
        try:
            open(path, "rb").close()
        except OSError as fault:  # of which the program tells neither the file nor the reason
            raise Wrong(f"--plan {path}: {unread(path, fault)}") from None
        try:
            done = subprocess.run(words, stdin=subprocess.DEVNULL, capture_output=True, text=True)
        except OSError as fault:
            raise Wrong(f"--program {program}: {fault.strerror}") from None
        if done.returncode:
            found = FAULT.search(done.stderr)
            if found and NO_KEY in found[1]:
                read_plan(path)  # names the key and its line, which the program does not
            raise Wrong(f"--plan {path}: {found[1] if found else f'{program} ended with status {done.returncode}'}")
        try:
            document: dict[str, Any] = tomllib.loads(Path(path).read_text("utf-8"))
        except ValueError as fault:  # the program takes a mark of the byte order before it
            raise Wrong(f"--plan {path}: {fault}") from None
        routes, self.bus = read_plan(path).routes, document["bus"]
        self.names: dict[int, str] = {route["number"]: str(route.get("name", "")) for route in routes}
        self.turnouts: dict[int, set[Accessory]] = {
            route["number"]: {(bus, address) for bus, address, _ in route.get("turnouts", [])} for route in routes}
        self.blocks: dict[int, set[Sensor]] = {
            route["number"]: {(bus, address) for bus, address in route.get("blocks", [])} for route in routes}
        self.sections: dict[int, list[Sensor]] = {
            route["number"]: [(bus, address) for bus, address in route.get("sections", [])] for route in routes}
        self.approach: dict[int, set[Sensor]] = {
            route["number"]: {(bus, address) for bus, address in route.get("approach", [])} for route in routes}
        self.frees: dict[int, Sensor] = {
            route["number"]: (route["frees"][0], route["frees"][1]) for route in routes if "frees" in route}
        self.signal: dict[int, Signal] = {
            route["number"]: (bus, address, go, stop) for route in routes
            for bus, address, go, stop in ([route["signal"]] if "signal" in route else [])}
        self.signals: set[Accessory] = {(bus, address) for bus, address, _, _ in self.signal.values()}

    def accessories(self) -> list[Accessory]:
        """Returns all that it names, those that ask for routes first."""
        return [*((self.bus, number) for number in self.names), *sorted(self.signals.union(*self.turnouts.values()))]

    def sensors(self) -> set[Sensor]:
        """Returns all sensors that it names."""
        return set(self.frees.values()).union(*self.blocks.values(), *self.sections.values(), *self.approach.values())

    def over(self, turnout: Accessory) -> list[int]:
        """Returns the routes that lead over a turnout."""
        return [number for number, turnouts in self.turnouts.items() if turnout in turnouts]


def locked(order: str) -> Accessory | None:
    """Returns the turnout that an order locks."""
    return (int(found[1]), int(found[2])) if (found := LOCK.fullmatch(order)) else None


def thrown(order: str, plan: RoutePlan) -> Accessory | None:
    """Returns the turnout that an order throws."""
    found = PORT.fullmatch(order)
    accessory = (int(found[1]), int(found[2])) if found else None
    return None if accessory in plan.signals else accessory


def thrown_by_hand(row: Row | None) -> tuple[int, int] | None:
    """Returns the turnout of which the power of its bus tells that a hand has thrown it, and to which port."""
    found = BY_HAND.fullmatch(row.text) if isinstance(row, Power) else None
    return (int(found[1]), int(found[2])) if found else None


def reported(order: str) -> tuple[int, bool] | None:
    """Returns the route of which an order tells whether it is set, and whether it is."""
    return (int(found[1]), found[2] == "1") if (found := REPORT.fullmatch(order)) else None


class Interlock:
    """A run of that program for a command session: it is told first that this has begun, and how the sensors are."""

    def __init__(self, process: asyncio.subprocess.Process, bus: int):
        assert process.stdin and process.stdout
        self.process = process
        self.input = process.stdin
        self.output = process.stdout
        self.bus = bus

    @classmethod
    async def begin(cls, plan: RoutePlan, session: int, sensors: dict[Sensor, Row]) -> "Interlock":
        words = plan.program, "interlock", "--plan", plan.path
        begun = cls(await asyncio.create_subprocess_exec(*words, stdin=PIPE, stdout=PIPE), plan.bus)
        begun.tell(f"200 OK GO {session}")
        for (bus, address), row in sensors.items():
            begun.tell_row((bus, "FB", address, "does"), row)
        return begun

    def tell(self, words: str) -> None:
        """Tells a reply of the command session, or a line of a panel."""
        self.input.write(f"0.000 {words}\n".encode())

    def tell_row(self, key: Key, row: Row | None) -> None:
        """Tells a row, if it is that of a sensor, or of a port of an accessory that asks for a route."""
        bus, group, address, part = key
        if isinstance(row, Port) and (group == "FB" or bus == self.bus):
            port = f"{part} " if group == "GA" else ""
            self.tell(f"100 INFO {bus} {group} {address} {port}{row.value}")

    def tell_unknown(self, sensor: Sensor) -> None:
        """Tells that nothing is known of a sensor any more."""
        self.tell("102 INFO {} FB {}".format(*sensor))

    def tell_second(self) -> None:
        """Tells that a second has passed."""
        self.tell("100 INFO 0 TIME")

    async def order(self) -> str:
        """Returns the next order, or an empty text if the program has ended."""
        return (await self.output.readline()).decode().rstrip("\n")

    def end(self) -> None:
        """Ends it: then there is no further order."""
        self.input.close()

    async def gone(self) -> None:
        """Ends it, and waits until it is gone."""
        self.end()
        await self.output.read()
        await self.process.wait()
