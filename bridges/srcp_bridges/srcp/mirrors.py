"""A mirror of the registry of an srcp_server, for programs that are one thread of asyncio."""
import argparse
import asyncio
import contextlib
from collections import defaultdict, deque
from collections.abc import Callable, Iterable
from typing import overload

from srcp_bridges.limits import ANSWER, BEAT, MOST_PORTS, RECENT, SOON, UNLISTED
from srcp_bridges.program import Wrong, say
from srcp_bridges.srcp.replies import Code, Reason, Refused
from srcp_bridges.srcp.rows import (EMERGENCY_STOP, FORWARD, NOT_SRCP, STOP_ALL, Change, Device, Drive, Key, Lock,
                                    LockKey, Power, PowerKey, Reply, Row, Rows, devices, is_of_driver, keys_of, parse)
from srcp_bridges.srcp.sessions import ServerIsFull, Session, Take
from srcp_bridges.srcp.stop import Stops
from srcp_bridges.state import driven


class Mirror:
    """The registry, row by row, and a command session beside, which ends with the server alone.

    `told` is called with each Change, `joined` with whether the server was started anew, `left` when it is gone. After
    a restart all rows of before go; after an overrun the rows that the server has not. Rows listed as before are not
    told. `here`: the panel is open. `anew`: the listed server was started anew. By (bus, address) of a locomotive,
    `ways` has the direction told last, `recent` the last rows, and `stops` how often it was stopped. `drivers` has the
    buses whose power had a text of a driver. `keeps_place` is for a further connection, in case the panel is lost while
    the server is full.
    """

    def __init__(self, asked: argparse.Namespace, told: Callable[[Change], None] = lambda change: None,
                 joined: Callable[[bool], None] = lambda anew: None, left: Callable[[], None] = lambda: None,
                 keeps_place: bool = False):
        self.server = (asked.host, asked.port)
        self.again = asked.again
        self.here = False
        self.anew = True
        self.keeps_place = keeps_place
        self.spare: Session | None = None
        self.told = told
        self.joined = joined
        self.left = left
        self.rows = Rows()
        self.ways: dict[tuple[int, int], int] = {}
        self.recent: defaultdict[tuple[int, int], deque[Drive]] = defaultdict(lambda: deque(maxlen=RECENT))
        self.stops = Stops()
        self.stopped: defaultdict[int, float] = defaultdict(float)  # the stamp of the last STOP ALL, by bus
        self.drivers: set[int] = set()
        self.stale: dict[Key, None] = {}
        self.session: Session | None = None

    async def run(self) -> None:
        """Follows the server for ever."""
        while True:
            try:
                await self.follow()
            except (OSError, Refused) as fault:
                say(f"server: {str(fault) or 'no answer'}")
            was_here = self.here
            self.here = False
            if was_here:
                self.left()
            await asyncio.sleep(self.again)

    async def join(self) -> Session:
        """Returns the session at the server. If the server was started anew, all rows of before go."""
        try:
            if self.session and await self.session.ask(f"GET 0 SESSION {self.session.id}"):
                self.anew = False
                return self.session
        except ConnectionError:
            pass  # that server is gone
        session = await self.begin()
        self.anew = True
        self.drivers.clear()
        self.stopped.clear()
        for device in reversed(devices(self.rows)):  # so sessions go last, as at the server
            self.drop(device)
        self.session = session
        return session

    async def follow(self) -> None:
        """Joins, and follows until the panel is closed or the server does not answer."""
        session = await self.join()
        self.stale = dict.fromkeys(self.rows)
        panel = await self.begin(self.take)
        keeping = asyncio.create_task(self.keep_place())
        try:
            await session.ask(f"GET 0 SESSION {panel.id}")  # so both are of one server
            say(f"server: joined, {'started anew' if self.anew else 'as before'}")
            self.here = True
            self.stops.due.clear()
            self.joined(self.anew)
            while not panel.ended.done():
                await asyncio.wait([panel.ended], timeout=UNLISTED if self.stale else BEAT)
                for device in reversed(devices(self.stale)):
                    if not await self.has(device) and any(key in self.stale for key in keys_of(device)):
                        self.drop(device)
                await session.ask(f"GET 0 SESSION {session.id}")
            raise ConnectionError("closed the panel")
        finally:
            keeping.cancel()
            panel.transport.abort()

    async def begin(self, take: Take | None = None) -> Session:
        """Begins a session, at a full server by the kept connection."""
        try:
            return await Session.begin(self.server, take)
        except ServerIsFull:
            spare = self.spare
            self.spare = None
            if not spare or spare.ended.done():
                raise
            return await spare.go(take)

    async def keep_place(self) -> None:
        """Keeps a connection, if this mirror is to have one. If the server closes the connection, another is opened."""
        while self.keeps_place:
            if not self.spare or self.spare.ended.done():
                with contextlib.suppress(OSError):
                    self.spare = await Session.connect(self.server)
            await asyncio.sleep(BEAT)

    async def ask(self, command: str) -> Reply:
        """Carries out a command by the session beside the panel."""
        if not self.session:
            raise ConnectionError(Reason.AWAY)
        return await self.session.ask(command)

    async def look_for_bus(self, number: int, named: str = "--bus") -> None:
        """Raises Wrong if the server has no bus of this number. `named` says which of this program's words names the
        bus."""
        try:
            await self.ask(f"GET {number} POWER")
        except Refused as reply:
            if reply.code == Code.WRONG_VALUE:
                raise Wrong(f"{named} {number}: the server has no such bus") from None

    def way(self, bus: int, address: int) -> int:
        """Returns the direction of a locomotive, as told last by a row. An emergency stop tells none."""
        return self.ways.get((bus, address), FORWARD)

    async def way_by(self, bus: int, address: int, row: Drive) -> int:
        """Returns the direction of a locomotive whose row the server has just told. An emergency stop keeps the
        direction of before. The panel may be late, so the panel is awaited until it has told the row too."""
        ends = asyncio.get_running_loop().time() + ANSWER
        while row.mode == EMERGENCY_STOP and self.here and asyncio.get_running_loop().time() < ends:
            told = self.rows.get((bus, "GL", address, "does"))
            if told and (told == row or told.stamp > row.stamp):
                break
            await asyncio.sleep(SOON)
        return self.way(bus, address) if row.mode == EMERGENCY_STOP else row.mode

    def has_stood(self, bus: int, address: int, since: Drive) -> bool:
        """Returns whether the panel has told that a locomotive stood, or that all were to stand, after a row told by
        the server."""
        told = list(self.recent[bus, address])
        later = told[told.index(since) + 1:] if since in told else [row for row in told if row.stamp > since.stamp]
        return any(not row.v for row in later) or since.stamp <= self.stopped[bus]

    @overload
    async def get(self, key: PowerKey) -> Power | None: ...
    @overload
    async def get(self, key: LockKey) -> Lock | None: ...
    @overload
    async def get(self, key: Key) -> Row | None: ...

    async def get(self, key: Key) -> Row | None:
        """Returns the server's row of this moment, or None. The server tells no row whose part is `is`."""
        bus, group, address, part = key
        words = f"LOCK {group} {address}" if part == "lock" else "POWER" if group == "POWER" else f"{group} {address}"
        try:
            row = await self.ask(f"GET {bus} {words}" + f" {part}" * (group == "GA" and part != "lock"))
        except Refused:
            return None
        return None if isinstance(row, str) else row

    async def has(self, device: Device) -> bool:
        """Returns whether the server has a device, or a lock, at this moment."""
        return bool(await self.get((*device[:3], "lock" if device[3] else 0)))

    async def shows(self, device: Device) -> bool:
        """Returns whether the panel has told all that a device does at this moment."""
        parts: Iterable[str | int] = [*range(MOST_PORTS)] if device[1] == "GA" else ["does"]
        for part in parts:
            key = (*device[:3], part)
            if await self.get(key) != self.rows.get(key):
                return False
        return True

    async def catches_up(self, device: Device) -> None:
        """Waits until the panel, which may be late, has told all that a device does."""
        ends = asyncio.get_running_loop().time() + ANSWER
        with contextlib.suppress(OSError):  # the server is gone
            while self.here and asyncio.get_running_loop().time() < ends and not await self.shows(device):
                await asyncio.sleep(SOON)

    def take(self, line: str) -> None:
        """Takes in what a line of the panel tells."""
        try:
            key, row = parse(line)
        except NOT_SRCP:
            return say(f"server: a line that is not understood: {line[:100]}")
        if not row:
            return self.drop((*key[:3], key[3] == "lock"), float(line.split(" ")[0]))
        before = self.rows.enter(key, row, key in self.stale)
        if key not in self.stale or before != row:  # one that is listed again as it was is no change
            if isinstance(row, Drive):
                self.drives(key[0], key[2], row)
            elif isinstance(row, Power):
                self.powers(key[0], row)
            self.told(Change(row.stamp, key, row, before))
        self.stale.pop(key, None)

    def drives(self, bus: int, address: int, row: Drive) -> None:
        """Notes the direction of a locomotive, or a stop."""
        self.recent[bus, address].append(row)
        if row.mode == EMERGENCY_STOP:
            self.stops.stopped(bus, address)
        else:
            self.ways[bus, address] = row.mode

    def powers(self, bus: int, row: Power) -> None:
        """Notes a STOP ALL, or a driver of the bus."""
        if row.text == STOP_ALL:
            self.stops.stopped_all(bus)
            self.stopped[bus] = row.stamp
        elif is_of_driver(row.text):
            self.drivers.add(bus)

    def driven(self) -> set[int]:
        """Returns the buses that have a driver: of this machine, or as far as this mirror was told."""
        return self.drivers | driven(self.server[1])

    def drop(self, device: Device, stamp: float | None = None) -> None:
        """Takes out all rows of a device."""
        for key in keys_of(device):
            self.stale.pop(key, None)
            if before := self.rows.remove(key):
                self.told(Change(stamp, key, None, before))
