"""A session that drives locomotives for somebody: a taken locomotive is locked, and stands when given back."""
import asyncio
import contextlib
from collections.abc import Awaitable, Callable, Collection, Iterable, Mapping

from srcp_bridges.limits import MOST_FUNCTIONS, TOP
from srcp_bridges.srcp.mirrors import Mirror
from srcp_bridges.srcp.replies import Reason, Refused, refusal
from srcp_bridges.srcp.rows import Drive, Reply, drive_told
from srcp_bridges.srcp.sessions import Ask, ServerIsFull, Session
from srcp_bridges.srcp.stop import Fault, send, stop_several


Which = tuple[str, str]  # the name under which a locomotive is taken: a throttle of a phone, and a key: ("0", "S3")
Words = Callable[[int, Drive], Iterable[int]]  # makes mode, V, Vmax and functions of a direction and a row
AskUnlessStopped = Callable[[str, int | None], Awaitable[Reply]]  # carries out a command, as `send`


async def change(mirror: Mirror, ask: AskUnlessStopped, bus: int, address: int, words: Words, seen: int,
                 keeps_speed: bool = True) -> None:
    """Commands a locomotive by the words that `words` makes of the direction and the row: mode, V, Vmax and functions.

    `ask` carries out a command, and is told how many stops were counted as it was wanted: `seen`. A stop that comes
    meanwhile is not undone. If the speed is kept, a V of 0 that another sets meanwhile is not undone either: the server
    takes whole rows alone, so a V of 0 may be overwritten. The panel tells the 0, and then the locomotive is put to 0
    again.
    """
    now = drive_told(await ask(f"GET {bus} GL {address}", seen))
    mode, v, *others = words(await mirror.way_by(bus, address, now), now)
    v = 0 if keeps_speed and mirror.has_stood(bus, address, now) else v  # the panel may be faster than the reply
    await ask(f"SET {bus} GL {address} {' '.join(map(str, (mode, v, *others)))}", seen)
    if keeps_speed and v:
        await mirror.catches_up((bus, "GL", address, False))
        last = mirror.rows.get((bus, "GL", address, "does"))
        if last and (last.mode, last.v) == (mode, v) and mirror.has_stood(bus, address, now):
            await ask(f"SET {bus} GL {address} {mode} 0 {now.v_max}", seen)


async def switch(mirror: Mirror, ask: AskUnlessStopped, bus: int, address: int,
                 changes: Mapping[int, int | None]) -> None:
    """Changes functions of a locomotive, and nothing else: the server is asked first how it drives.

    `changes` has by number the new value, or None for the other one than it has. `ask` is that of `change`.
    """
    def words(way: int, now: Drive) -> Iterable[int]:
        return way, now.v, now.v_max, *(old if number not in changes else 1 - old if (new := changes[number]) is None
                                        else new for number, old in enumerate(now.functions))

    await change(mirror, ask, bus, address, words, mirror.stops.count(bus, address))


def used(command: str) -> int:
    """Returns the address of the locomotive that a command drives, or whose functions a command switches, or 0."""
    words = command.split()
    is_used = words[:1] + words[2:3] == ["SET", "GL"] and (words[5] != "0" or len(words) > 7)
    return int(words[3]) if is_used else 0


class Driver:
    """Begins a session at the first need. `taken` has addresses by the names under which they were taken, and `unused`
    the addresses of locomotives made here and driven by no one yet. `name` is that of whoever drives.
    """

    def __init__(self, mirror: Mirror, bus: int):
        self.mirror = mirror
        self.bus = bus
        self.taken: dict[Which, int] = {}
        self.name = ""
        self.beginning = asyncio.Lock()
        self.session: Session | None = None
        self.unused: set[int] = set()

    async def ask(self, command: str, seen: int | None = None) -> Reply:
        """Carries out a command, as `send`."""
        for last in (False, True):
            session = None
            try:
                session = await self.joined()
                if locomotive := used(command):
                    self.unused.discard(locomotive)
                return await send(self.mirror.stops, session, command, seen)
            except Refused as reply:
                raise Refused(reply.code, f"{command}: {reply}") from None
            except OSError as fault:
                if self.session is session:
                    self.session = None
                    self.unused.clear()  # another may have made them at a server that began anew
                if last:
                    raise refusal(Reason.FULL if isinstance(fault, ServerIsFull) else Reason.AWAY) from None
        raise AssertionError("the last try has returned, or raised")

    async def joined(self) -> Session:
        """Returns the session. A session that begins anew first takes the taken locomotives."""
        async with self.beginning:
            if not self.session:
                session = await Session.begin(self.mirror.server, whose=self.name)
                for address in set(self.taken.values()):
                    with contextlib.suppress(Refused):
                        await self.lock(session.ask, address)
                self.session = session
            return self.session

    async def make(self, ask: Ask, device: str, asks: str, makes: str) -> bool:
        """Makes a device that is not there; returns whether it was made. `ask` carries out a command."""
        try:
            await ask(f"GET {self.bus} {device} {asks}")
            return False
        except Refused:
            await ask(f"INIT {self.bus} {device} {makes}")
            return True

    async def lock(self, ask: Ask, address: int, version: int = 1) -> None:
        """Locks a locomotive, made first if it is not there. `ask` carries out a command."""
        is_made = await self.make(ask, f"GL {address}", "", f"N {version} {TOP} {MOST_FUNCTIONS}")
        await ask(f"SET {self.bus} LOCK GL {address} 0")
        if is_made:
            self.unused.add(address)

    async def take(self, name: Which, address: int, version: int) -> Drive:
        """Takes a locomotive; returns how it drives."""
        await self.lock(self.ask, address, version)
        self.taken[name] = address
        return drive_told(await self.ask(f"GET {self.bus} GL {address}"))

    async def drive(self, address: int, mode: int | None = None, v: int | None = None, seen: int | None = None) -> None:
        """Changes direction or speed of a locomotive. `seen`: the stops that were counted as this was asked for."""
        def words(way: int, now: Drive) -> Iterable[int]:
            return way if mode is None else mode, *((now.v, now.v_max) if v is None else (v, TOP))

        seen = self.mirror.stops.count(self.bus, address) if seen is None else seen
        await change(self.mirror, self.ask, self.bus, address, words, seen, v is None)

    async def switch(self, address: int, changes: Mapping[int, int | None]) -> None:
        """Changes functions of a locomotive, and nothing else."""
        await switch(self.mirror, self.ask, self.bus, address, changes)

    async def give_back(self, name: Which) -> None:
        """Has a locomotive stand, unless it is taken under another name too, and unlocks it; an unused one goes."""
        address = self.taken.pop(name)
        if address in self.taken.values():
            return
        if address in self.unused and self.session:
            self.unused.discard(address)
            with contextlib.suppress(OSError):  # by this session alone: for another it may be somebody else's
                await self.session.ask(f"TERM {self.bus} GL {address}")
        else:
            await self.drive(address, v=0)
            await self.ask(f"TERM {self.bus} LOCK GL {address}")

    async def yield_to(self, other: "Driver", address: int) -> None:
        """Unlocks a locomotive that another driver is about to take. The locomotive drives on unchanged."""
        for name in [name for name, taken in self.taken.items() if taken == address]:
            del self.taken[name]
        if address in self.unused:
            self.unused.discard(address)
            other.unused.add(address)
        with contextlib.suppress(Refused):  # it has none any more
            await self.ask(f"TERM {self.bus} LOCK GL {address}")

    async def stop(self, addresses: Collection[int] | None = None) -> list[Fault]:
        """Has these, or all that is taken, make an emergency stop; returns all refusals."""
        addresses = set(self.taken.values()) if addresses is None else addresses
        return await stop_several(self.mirror, self.ask, [(self.bus, address) for address in addresses])

    async def end(self) -> None:
        """Has all that is taken stand, and ends the session."""
        for name in list(self.taken):
            with contextlib.suppress(Refused):
                await self.give_back(name)
        if self.session:
            self.session.transport.close()
