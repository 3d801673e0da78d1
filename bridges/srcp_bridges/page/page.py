"""An open page of a browser: the page's events, its commands, and the locomotives that stand as the page goes."""
import asyncio
import collections
import json
from collections.abc import Awaitable, Callable

from srcp_bridges.limits import BEHIND
from srcp_bridges.srcp.driving import switch
from srcp_bridges.srcp.mirrors import Mirror
from srcp_bridges.srcp.replies import Code, Reason, Refused, refusal
from srcp_bridges.srcp.rows import Key, Lock, Reply, Row, drive_told, position
from srcp_bridges.srcp.sessions import ServerIsFull, Session
from srcp_bridges.srcp.stop import Locomotive, send, stop_one

Told = tuple[int, int, int]  # how a locomotive is told to drive: mode, V and Vmax


def event(name: str, data: object) -> str:
    """Returns the text by which a page is sent an event."""
    return f"event: {name}\ndata: {json.dumps(data)}\n\n"


def row_event(mirror: Mirror, key: Key, row: Row | None) -> str:
    """Returns the event of a row, with what earlier rows tell: a locomotive's direction and how often the locomotive
    was stopped, and how an accessory lies."""
    bus, group, address, part = key
    told: dict[str, object] = {"key": key, "row": row and row._asdict()}
    if row and (group, part) == ("GL", "does"):
        told |= {"way": mirror.way(bus, address), "stops": mirror.stops.count(bus, address)}
    elif row and group == "GA" and isinstance(part, int):
        told["lies"] = position(mirror.rows, bus, address)
    return event("row", told)


class Page:
    """The events that wait for a page, and the page's session, once the page has taken a locomotive.

    `taken` has the locomotives locked by the page. `drives` has, by locomotive, the page's last command to drive.
    """

    def __init__(self, mirror: Mirror, browser: str | None):
        self.mirror = mirror
        self.browser = browser
        self.session: Session | None = None
        self.taken: set[Locomotive] = set()
        self.drives: dict[Locomotive, Told | None] = {}
        self.events: collections.deque[str] = collections.deque()
        self.more = asyncio.Event()
        self.turn = asyncio.Lock()
        self.open = True
        self.heard = asyncio.get_running_loop().time()

    def tell(self, text: str) -> None:
        if len(self.events) <= BEHIND:
            self.events.append(text)
        self.more.set()

    def commander(self) -> Session:
        """Returns the session that commands for this page: the page's own, if any, else the session of all pages."""
        if self.session and not self.session.ended.done():
            return self.session
        if not self.mirror.session:
            raise ConnectionError(Reason.AWAY)
        return self.mirror.session

    async def refusal_of(self, act: Callable[[], Awaitable[object]]) -> Refused | None:
        """Carries out an act; returns its refusal, or None."""
        if not self.mirror.session or self.mirror.session.ended.done():
            return refusal(Reason.AWAY)
        try:
            await act()
            return None
        except Refused as refused:
            return refused
        except OSError as fault:
            return Refused(Reason.FULL if isinstance(fault, ServerIsFull) else None, str(fault))

    async def ask(self, command: str, seen: int = 0) -> Refused | None:
        """Carries out a command, one at a time; returns its refusal. `seen`: the stops that the page was told of."""
        words = command.upper().split()
        if words[2:3] == ["SESSION"]:
            return refusal(Code.FORBIDDEN)  # that session is the one of all pages
        if words[2:3] == ["POWER"]:  # behind nothing else
            return await self.refusal_of(lambda: self.mirror.ask(command))
        return await self.refusal_of(lambda: self.carry_out(command, words, seen))

    async def switch(self, bus: int, address: int, function: int, value: int) -> Refused | None:
        """Changes one function of a locomotive; returns the refusal."""
        async def ask(command: str, seen: int | None) -> Reply:
            return await send(self.mirror.stops, self.commander(), command, seen)

        async def in_turn() -> None:
            async with self.turn:
                await switch(self.mirror, ask, bus, address, {function: value})

        return await self.refusal_of(in_turn)

    async def stop(self, bus: int, address: int) -> Refused | None:
        """Has a locomotive make an emergency stop, behind nothing else; returns the refusal."""
        return await self.refusal_of(lambda: stop_one(self.mirror, self.commander().ask, bus, address))

    async def carry_out(self, command: str, words: list[str], seen: int) -> None:
        """Notes the locomotive before the command is sent: the page may be closed before the reply has come."""
        async with self.turn:
            if not self.open:
                raise Refused(None, "this page is closed")
            if self.session and self.session.ended.done():
                self.session = None
                self.taken = set()
            if not self.session and words[2:3] == ["LOCK"]:
                self.session = await Session.begin(self.mirror.server, whose="a page")
            drives = words[1:2] + words[3:7]
            if words[:1] + words[2:3] == ["SET", "GL"] and len(drives) == 5 and all(map(str.isdecimal, drives)):
                bus, address, mode, v, v_max = map(int, drives)
                return await self.drive(command, (bus, address), (mode, v, v_max), seen)
            await self.commander().ask(command)
            if words[:1] + words[2:4] == ["SET", "LOCK", "GL"]:
                self.taken.add((int(words[1]), int(words[4])))

    async def drive(self, command: str, locomotive: Locomotive, told: Told, seen: int) -> None:
        """Carries out a command by which a locomotive drives as `told`: mode, V and Vmax."""
        bus, address = locomotive
        row = self.mirror.rows.get((bus, "GL", address, "does"))
        before = self.drives.get(locomotive)
        if before or not row or row[1:4] != told:  # if not, this switches functions alone, and another drives
            self.drives[locomotive] = told
        try:
            await send(self.mirror.stops, self.commander(), command, seen)
        except Refused:
            self.drives[locomotive] = before
            raise

    async def close(self) -> None:
        """Has each locomotive stand that the page has taken, or that drives as the page told last; ends the page's
        session."""
        async with self.turn:
            self.open = False
            for bus, address in self.taken | self.drives.keys():
                try:
                    await self.leave(bus, address)
                except (Refused, OSError):
                    pass  # it is gone, or another has it, or the server is away
        if self.session:
            self.session.transport.close()

    async def leave(self, bus: int, address: int) -> None:
        """Asks the server how the locomotive drives and who has locked it, since a row of the mirror may be on its way.
        """
        session = self.commander()
        drive = drive_told(await session.ask(f"GET {bus} GL {address}"))
        is_own = drive[1:4] == self.drives.get((bus, address))
        if not is_own and (bus, address) in self.taken:
            lock = await session.ask(f"GET {bus} LOCK GL {address}")
            is_own = isinstance(lock, Lock) and lock.session == session.id
        if is_own and drive.v:
            await session.ask(f"SET {bus} GL {address} {drive.mode} 0 {drive.v_max}")
