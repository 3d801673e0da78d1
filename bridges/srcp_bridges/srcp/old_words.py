"""What SRCP 0.8.4 has and the server leaves out: descriptions, waiting for a sensor, the time, messages."""
import argparse
import asyncio
import re
import time
from collections.abc import Callable

from srcp_bridges.limits import LISTED, POLL
from srcp_bridges.srcp.mirrors import Mirror
from srcp_bridges.srcp.replies import Code, Reason, Refused, error
from srcp_bridges.srcp.rows import Change, Key, Port, position

NUMBER = re.compile("[0-9]{1,9}")
GROUPS = {"POWER": "POWER", "GL": "GL 1", "GA": "GA 1 0", "FB": "FB 1"}  # and a question for each
SHORT = error(Code.TOO_SHORT)
LONG = error(Code.TOO_LONG)
WRONG = error(Code.WRONG_VALUE)
NO_DATA = error(Code.NO_DATA)
LATE = error(Code.TIMEOUT)
FORBIDDEN = error(Code.FORBIDDEN)
UNSUPPORTED = error(Code.NO_OPERATION)
DAY = 99999, 23, 59, 59  # the most that the words of a time may be


def fault(words: list[str], *most: int) -> str | None:
    """Returns the fault of words that have to be numbers, each up to a limit; or None."""
    if len(words) != len(most):
        return SHORT if len(words) < len(most) else LONG
    is_right = all(NUMBER.fullmatch(word) and int(word) <= top for word, top in zip(words, most))
    return None if is_right else WRONG


def seconds(words: list[str]) -> int:
    """Returns the time that is told as day, hour, minute and second."""
    day, hour, minute, second = map(int, words)
    return ((day * 24 + hour) * 60 + minute) * 60 + second


class Clock:
    """The time of the layout, in seconds. The clock stands until a client sets the speed."""

    def __init__(self) -> None:
        self.at = 0.0
        self.since = 0.0
        self.speed = 0.0
        self.is_set = False
        self.turned = asyncio.Event()

    def now(self) -> float:
        return self.at + (time.monotonic() - self.since) * self.speed

    def turn(self, at: float, speed: float, is_set: bool = True) -> None:
        self.at = at
        self.since = time.monotonic()
        self.speed = speed
        self.is_set = is_set
        self.turned.set()

    def row(self, at: float | None = None) -> str:
        minutes, second = divmod(int(self.now() if at is None else at), 60)
        return f"100 INFO 0 TIME {minutes // 1440} {minutes // 60 % 24} {minutes % 60} {second}"


class Answers:
    """Answers for all clients. An answer is a line without a stamp. `tell` is called with a line for the information
    sessions that asked for the time."""

    def __init__(self, asked: argparse.Namespace, tell: Callable[[str], None]):
        self.mirror = Mirror(asked, self.on_change)
        self.tell = tell
        self.clock = Clock()
        self.waits: set[asyncio.Queue[Change]] = set()  # the changes that come to each WAIT

    def on_change(self, change: Change) -> None:
        for changes in self.waits:
            changes.put_nowait(change)

    async def refused(self, command: str) -> Refused | None:
        """Returns why the server refuses a command, or None."""
        if not self.mirror.session:
            raise ConnectionError(Reason.AWAY)
        try:
            await self.mirror.session.ask(command)
            return None
        except Refused as refused:
            return refused

    async def describe(self, bus: int, words: list[str], programs: bool) -> str:
        """Answers GET b DESCRIPTION; with GL or GA and an address also the device's row. `programs`: decoders can be
        programmed."""
        if words:
            return fault(words[1:], 99999) or await self.describe_device(bus, words[0].upper(), int(words[1]))
        if bus == 0:
            return "100 INFO 0 DESCRIPTION SESSION SERVER TIME GM DESCRIPTION"
        refused = {group: await self.refused(f"GET {bus} {question}") for group, question in GROUPS.items()}
        codes = {group: each.code for group, each in refused.items() if each}
        if codes.get("POWER") == Code.WRONG_VALUE:
            return WRONG
        groups = [group for group in GROUPS if codes.get(group) != Code.NO_GROUP]
        groups += ["LOCK"] * ("GL" in groups or "GA" in groups) + ["SM"] * programs
        return " ".join([f"100 INFO {bus} DESCRIPTION", *groups, "DESCRIPTION"])

    async def describe_device(self, bus: int, group: str, address: int) -> str:
        """Tells how a locomotive or an accessory was made. The row may come after the reply to the command that made
        the device."""
        if group not in ("GL", "GA"):
            return NO_DATA
        refused = await self.refused(f"GET {bus} {group} {address}" + " 0" * (group == "GA"))
        end = time.monotonic() + LISTED
        while not refused and time.monotonic() < end:
            if row := self.mirror.rows.get((bus, group, address, "is")):
                return f"101 INFO {bus} {group} {address} {' '.join(map(str, row[1:]))}"
            await asyncio.sleep(0.01)
        return str(refused or NO_DATA)

    async def lies(self, bus: int, address: str) -> str:
        """Answers GET b GA a 0 for a client that knows port 0 alone: the port to which the turnout was put last."""
        if refused := await self.refused(f"GET {bus} GA {address} 0"):
            return str(refused)
        await self.mirror.catches_up((bus, "GA", int(address), False))
        return f"100 INFO {bus} GA {address} 0 {position(self.mirror.rows, bus, int(address)) or 0}"

    async def wait_sensor(self, bus: int, words: list[str]) -> str:
        """Answers WAIT b FB a value seconds."""
        if wrong := fault(words, 99999, 9, 86400):
            return wrong
        address, value, most = map(int, words)
        if refused := await self.refused(f"CHECK {bus} FB {address} {value}"):
            return str(refused)
        key: Key = bus, "FB", address, "does"
        changes: asyncio.Queue[Change] = asyncio.Queue()
        self.waits.add(changes)
        try:
            begun = await self.mirror.get(key)
            assert isinstance(begun, Port)
            row = begun
            async with asyncio.timeout(most):
                while row.value != value:
                    change = await changes.get()
                    if change.key == key and isinstance(change.row, Port) and change.row.stamp > begun.stamp:
                        row = change.row
            return f"100 INFO {bus} FB {address} {value}"
        except TimeoutError:
            return LATE
        finally:
            self.waits.discard(changes)

    async def wait_time(self, words: list[str]) -> str:
        """Answers WAIT 0 TIME day hour minute second."""
        if wrong := fault(words, *DAY):
            return wrong
        while (left := seconds(words) - self.clock.now()) > 0:
            if not self.clock.speed:
                return NO_DATA
            await asyncio.sleep(min(left / self.clock.speed, POLL))
        return self.clock.row()

    def time(self, command: str, words: list[str]) -> str:
        """Answers INIT, SET, GET and TERM 0 TIME."""
        clock = self.clock
        if command not in ("INIT", "SET", "GET", "TERM"):
            return UNSUPPORTED
        if wrong := fault(words, *{"INIT": (1000, 1000), "SET": DAY}.get(command, ())):
            return wrong
        if command in ("GET", "TERM") and not clock.is_set:
            return NO_DATA
        if command == "GET":
            return clock.row()
        if command == "INIT":
            if not int(words[1]):
                return WRONG
            clock.turn(clock.now(), int(words[0]) / int(words[1]))
            self.tell(f"101 INFO 0 TIME {int(words[0])} {int(words[1])}")
        elif command == "SET":
            clock.turn(seconds(words), clock.speed)
            self.tell(clock.row())
        else:
            clock.turn(0.0, 0.0, False)
            self.tell("102 INFO 0 TIME")
        return "200 OK"

    async def tell_minutes(self) -> None:
        """Tells each minute of the clock as it begins."""
        clock = self.clock
        while True:
            clock.turned.clear()
            minute = clock.now() // 60
            while not clock.turned.is_set():
                minute += 1
                try:
                    left = (60 * minute - clock.now()) / clock.speed if clock.speed else None
                    async with asyncio.timeout(left):
                        await clock.turned.wait()
                except TimeoutError:
                    self.tell(clock.row(60 * minute))
