"""Stopping: what counts as a stop, which commands are refused after a stop, and STOP ALL, for every program with a
button.

A STOP ALL is a fact of the registry: the text `stop all` of each bus's power. The driver of a bus has all stand at this
text, and confirms by `all stood`. The rows of locomotives follow.
"""
import asyncio
import contextlib
from collections import Counter
from collections.abc import Callable, Collection, Iterable, Iterator, Mapping
from typing import TYPE_CHECKING, NamedTuple

from srcp_bridges.limits import ALL_CONFIRM, SETTLED, SOON
from srcp_bridges.srcp.replies import Code, Reason, Refused, refusal
from srcp_bridges.srcp.rows import EMERGENCY_STOP, STOP_ALL, Drive, Power, Reply, may_drive

if TYPE_CHECKING:
    from srcp_bridges.srcp.mirrors import Mirror
    from srcp_bridges.srcp.sessions import Ask, Session


Locomotive = tuple[int, int]  # bus and address
Holders = Mapping[int, "Session"]  # sessions by their ids


class Fault(NamedTuple):
    """A stop that failed: of which device, by the words of a command (`1 GL 3`, `1 POWER`; none: of all), and why."""
    whose: str
    why: Refused

    def __str__(self) -> str:
        return f"{self.whose}: {self.why}" if self.whose else str(self.why)


class Stops:
    """How often each locomotive was stopped, as far as this program knows. Counts rise, and never fall.

    `due` has the rows to come of stops that are counted already; address 0 stands for all. `under_way` has the commands
    to drive that wait for their reply. Both are by (bus, address).
    """

    def __init__(self) -> None:
        self.all = 0
        self.running = 0
        self.each: Counter[Locomotive] = Counter()
        self.due: Counter[Locomotive] = Counter()
        self.under_way: Counter[Locomotive] = Counter()

    def count(self, bus: int, address: int) -> int:
        """Returns how often a locomotive was stopped, each STOP ALL included."""
        return self.all + self.each[bus, address]

    def now(self) -> Callable[[int, int], int]:
        """Returns a function that counts as `count` does at this moment."""
        every = self.all
        each = self.each.copy()
        return lambda bus, address: every + each[bus, address]

    def refuse(self, bus: int, address: int, seen: int) -> None:
        """Refuses a command that was made as `seen` stops were counted, if there were more since."""
        if self.running or self.count(bus, address) > seen:
            raise refusal(Reason.STOPPED)

    def order_one(self, bus: int, address: int) -> None:
        """Counts a stop ordered here: the row, which comes later, is not counted again."""
        self.each[bus, address] += 1
        self.due[bus, address] += 1

    def stopped(self, bus: int, address: int) -> None:
        """Counts a stop that a row tells."""
        if self.due[bus, address]:
            self.due[bus, address] -= 1
        else:
            self.each[bus, address] += 1

    def stopped_all(self, bus: int) -> None:
        """Counts a STOP ALL that a row tells."""
        if self.due[bus, 0]:
            self.due[bus, 0] -= 1
        else:
            self.all += 1

    def is_all_due(self) -> bool:
        """Returns whether a row of a STOP ALL that is ordered here is still to come."""
        return any(count for (_, address), count in self.due.items() if not address)

    @contextlib.contextmanager
    def driving(self, bus: int, address: int, seen: int) -> Iterator[None]:
        """Refuses as `refuse`, and counts the command as on its way until its reply has come."""
        self.refuse(bus, address, seen)
        self.under_way[bus, address] += 1
        try:
            yield
        finally:
            self.under_way[bus, address] -= 1

    @contextlib.contextmanager
    def stopping_all(self) -> Iterator[None]:
        """Counts a STOP ALL. Until it is done, nothing here drives a locomotive."""
        self.all += 1
        self.running += 1
        try:
            yield
        finally:
            self.running -= 1


def driven(command: str) -> Locomotive | None:
    """Returns the bus and address of the locomotive that a command has drive (V above 0), or None."""
    words = command.upper().split()
    numbers = words[1:2] + words[3:6]  # bus, address, mode, V
    if words[:1] + words[2:3] != ["SET", "GL"] or len(numbers) < 4 or not all(map(str.isdecimal, numbers)):
        return None
    bus, address, mode, v = map(int, numbers)
    return (bus, address) if v and mode != EMERGENCY_STOP else None


async def send(stops: Stops, session: "Session | Mirror", command: str, seen: int | None) -> Reply:
    """Carries out a command made as `seen` stops of the locomotive were counted, as Session.ask.

    Refuses a command to drive a locomotive that was stopped since. `seen` None: stops are counted as the command is
    sent.
    """
    if not (locomotive := driven(command)):
        return await session.ask(command)
    with stops.driving(*locomotive, stops.count(*locomotive) if seen is None else seen):
        return await session.ask(command)


async def halt(mirror: "Mirror", ask: "Ask", bus: int, address: int) -> None:
    """Has a locomotive make an emergency stop, and then stand in the same direction. The server is asked for the
    direction just before, since the stop takes it out of the row. A session's `ask` carries out the commands."""
    most = (mirror.rows.get((bus, "GL", address, "does")) or Drive(0, 0, 0, 0, ())).v_max
    commands = f"GET {bus} GL {address}", f"SET {bus} GL {address} {EMERGENCY_STOP} 0 {most}"
    now, reply = await asyncio.gather(*map(ask, commands), return_exceptions=True)
    if isinstance(reply, BaseException):
        mirror.stops.due[bus, address] -= 1  # no row comes of it
        raise reply
    way = await mirror.way_by(bus, address, now) if isinstance(now, Drive) else mirror.way(bus, address)
    with contextlib.suppress(Refused):  # it stands
        await ask(f"SET {bus} GL {address} {way} 0 {most}")


async def stop_one(mirror: "Mirror", ask: "Ask", bus: int, address: int) -> None:
    """Has one locomotive make an emergency stop."""
    mirror.stops.order_one(bus, address)
    await halt(mirror, ask, bus, address)


async def stop_several(mirror: "Mirror", ask: "Ask", locomotives: Collection[Locomotive]) -> list[Fault]:
    """Has each of these (bus, address) make an emergency stop, all at once; returns all refusals."""
    stops = [stop_one(mirror, ask, *locomotive) for locomotive in locomotives]
    return faults(locomotives, await asyncio.gather(*stops, return_exceptions=True))


def faults(locomotives: Iterable[Locomotive], replies: Iterable[BaseException | None]) -> list[Fault]:
    """Returns the stops that failed. A locomotive that is gone stands."""
    found = [Fault(f"{bus} GL {address}", reply if isinstance(reply, Refused) else Refused(None, str(reply)))
             for (bus, address), reply in zip(locomotives, replies) if reply]
    return [fault for fault in found if fault.why.code != Code.NO_DATA]


async def stop_all(mirror: "Mirror", holders: Holders | None = None) -> list[Fault]:
    """Has all stand: tells each driver at once, and has all locomotives that drive make an emergency stop.

    If another session has a locomotive locked, the power of the bus goes off. `holders` has sessions by their ids,
    which command the locomotives locked by them. Returns the stops that failed, and the drivers that have not confirmed
    that all stand.
    """
    if holders is None:
        holders = {}
    with mirror.stops.stopping_all():
        if not mirror.session or mirror.session.ended.done():
            return [Fault("", refusal(Reason.AWAY))]
        under_way = {locomotive for locomotive, commands in mirror.stops.under_way.items() if commands}
        first = driving(mirror, not mirror.here) | under_way
        cut = {bus: asyncio.create_task(tell_stop(mirror, bus, False)) for bus in locked(mirror, holders, first)}
        told = [asyncio.create_task(tell_stop(mirror, bus, row.on))
                for (bus, *_), row in mirror.rows.items() if isinstance(row, Power) and bus not in cut]
        refusals = await stop_those(mirror, holders, cut, first)
        await asyncio.gather(*told, *cut.values(), return_exceptions=True)
        while any(mirror.stops.under_way.values()):
            await asyncio.sleep(SOON)
        await asyncio.sleep(SETTLED)
        await catches_up(mirror)
        refusals += await stop_those(mirror, holders, {}, driving(mirror) | under_way)
        return refusals + [Fault(f"{bus} POWER", refusal(Reason.UNSURE)) for bus in await unsure(mirror)]


def locked(mirror: "Mirror", holders: Holders, locomotives: Iterable[Locomotive]) -> set[int]:
    """Returns the buses on which another session has one of these locomotives locked."""
    assert mirror.session
    locks = {locomotive: mirror.rows.get((locomotive[0], "GL", locomotive[1], "lock")) for locomotive in locomotives}
    return {bus for (bus, _), lock in locks.items() if lock and lock.session not in (*holders, mirror.session.id)}


async def tell_stop(mirror: "Mirror", bus: int, on: bool) -> None:
    """Tells all who follow a bus, the driver first of all, that all are to stand."""
    assert mirror.session
    mirror.stops.due[bus, 0] += 1
    try:
        await mirror.session.ask(f"SET {bus} POWER {'ON' if on else 'OFF'} {STOP_ALL}")
    except BaseException:
        mirror.stops.due[bus, 0] -= 1  # no row comes of it
        raise


async def catches_up(mirror: "Mirror") -> None:
    """Waits until the panel, which may be late, has told the STOP ALL, and so all earlier commands to drive."""
    ends = asyncio.get_running_loop().time() + ALL_CONFIRM
    while mirror.here and mirror.stops.is_all_due() and asyncio.get_running_loop().time() < ends:
        await asyncio.sleep(SOON)


async def unsure(mirror: "Mirror") -> list[int]:
    """Waits until the drivers have confirmed the last STOP ALL; returns the buses of drivers that do not in time."""
    ends = asyncio.get_running_loop().time() + ALL_CONFIRM
    late = sorted(mirror.driven())
    try:
        while late := [bus for bus in late if may_drive(await mirror.get((bus, "POWER", 0, "does")))]:
            if asyncio.get_running_loop().time() > ends:
                break
            await asyncio.sleep(SOON)
    except ConnectionError:
        pass  # who knows how trains drive is away
    return late


def driving(mirror: "Mirror", all_of_them: bool = False) -> set[Locomotive]:
    """Returns the locomotives that drive; or all, while no panel tells which."""
    return {(bus, address) for (bus, _, address, _), row in mirror.rows.items()
            if isinstance(row, Drive) and (row.v or all_of_them)}


async def stop_those(mirror: "Mirror", holders: Holders, cut: dict[int, asyncio.Task[None]],
                     locomotives: Collection[Locomotive]) -> list[Fault]:
    """Stops these at once, as stop_all; `cut` has the tasks that take the power of a bus off."""
    async def stop(bus: int, address: int) -> None:
        lock = mirror.rows.get((bus, "GL", address, "lock"))
        assert (own := mirror.session)
        session = holders.get(lock.session, own) if lock else own
        session = own if session.ended.done() else session
        try:
            mirror.stops.due[bus, address] += 1
            await halt(mirror, session.ask, bus, address)
        except Refused as reply:
            if reply.code != Code.LOCKED:
                raise
            if bus not in cut:
                cut[bus] = asyncio.create_task(tell_stop(mirror, bus, False))
            await asyncio.shield(cut[bus])

    stops = [stop(*locomotive) for locomotive in locomotives]
    return faults(locomotives, await asyncio.gather(*stops, return_exceptions=True))
