#!/usr/bin/env python3
"""Sets the routes of a plan: locks and throws their turnouts, shows their signals, and tells that they are set.

Port 1 of accessory n of the routes' bus asks for route n, port 0 gives it back, and sensor n tells that it is set. Port
2, if it has one, stops the signal of a set route, which stays set. What is ordered, and when, is said by `srcp_server
interlock`: this program carries it out. It holds the locks of all signals of the plan, and stops them as it begins, as
it ends, and once its panel is lost. What was asked for before that is not set. A signal of a set route is stopped too
as soon as a block of the route is not free any more.
"""
import argparse
import asyncio
import contextlib
from collections.abc import Awaitable, Callable, Coroutine
from typing import Any

from srcp_bridges.limits import ANSWER, PORTS_APART, PULSE, SECOND, SOON, STOPS, TURNOUT_PACE
from srcp_bridges.plan.interlock import (Accessory, Interlock, RoutePlan, Sensor, locked, reported, server_program,
                                         thrown, thrown_by_hand)
from srcp_bridges.plan.occupancy import Occupancy
from srcp_bridges.plan.trains import Train
from srcp_bridges.program import Wrong, arguments, run, say
from srcp_bridges.srcp.mirrors import Mirror
from srcp_bridges.srcp.replies import Code, Refused
from srcp_bridges.srcp.rows import Change, Port, Row, position
from srcp_bridges.srcp.sessions import Session


class Box:
    """`interlock` is told what the panel tells. `joined` has the sessions that were begun, and `set` the routes that
    are set, or about to be told so. `trains` has the trains of these that are followed. `wanted` has the routes that
    are asked for, and `own` the ports that this program itself put to 1 and its panel has not told yet."""

    def __init__(self, asked: argparse.Namespace) -> None:
        self.asked = asked
        self.plan = RoutePlan(asked.program, asked.plan)
        self.interlock: Interlock | None = None
        self.joined: asyncio.Queue[Session] = asyncio.Queue()
        self.set: set[int] = set()
        self.trains: dict[int, Train] = {}
        self.stopped: set[int] = set()  # routes that are set, and whose signal was stopped since
        self.thrown: set[Accessory] = set()  # turnouts that a hand has thrown since this program did
        self.wanted: set[int] = set()
        self.own: list[tuple[int, int]] = []  # route, port
        self.tasks: set[asyncio.Task[None]] = set()
        self.mirror: Mirror = Mirror(asked, self.told, lambda anew: self.begin_anew(), self.left)
        self.occupancy = Occupancy({bus for bus, _ in self.plan.sensors()}, self.mirror.rows)

    async def run(self) -> None:
        following = asyncio.create_task(self.mirror.run())
        self.begin(self.tell_seconds())
        while not following.done():
            session = await self.joined.get()
            with contextlib.suppress(ConnectionError):  # the mirror tells of it
                await self.look_at_layout()
                await self.make()
                await self.hold_signals(session)
                await self.set_routes(session)
            session.transport.abort()

    async def set_routes(self, session: Session) -> None:
        """Sets routes until the session ends; then the signals stop while their turnouts are locked."""
        try:
            await self.carry_out(session)
        finally:
            with contextlib.suppress(OSError, TimeoutError):
                async with asyncio.timeout(ANSWER):
                    await self.carry_out(session, to_rest=True)

    def begin_anew(self) -> None:
        if self.mirror.session:
            self.joined.put_nowait(self.mirror.session)

    def left(self) -> None:
        """The panel is lost, and nobody knows what it did not tell: so all begins anew."""
        if self.interlock:
            self.interlock.end()
        elif session := self.mirror.session:
            session.transport.abort()

    # ---- what the panel tells

    def told(self, change: Change) -> None:
        bus, group, address, part = change.key
        if group == "POWER":
            self.look_at_buses()
            if by_hand := thrown_by_hand(change.row):
                self.take_thrown((bus, by_hand[0]), by_hand[1])
        if (bus, group, part) == (self.plan.bus, "GA", STOPS):
            if address in self.set and isinstance(change.row, Port) and change.row.value:
                self.stop(address, "by hand")
            return
        is_event = group == "GA" and bus == self.plan.bus or group == "FB" and bus not in self.occupancy.away
        if not is_event or isinstance(part, int) and not self.is_from_others(address, part, change):
            return
        if self.interlock:
            self.interlock.tell_row(change.key, change.row)
        if group == "FB":
            self.sensed((bus, address), change)

    def is_from_others(self, route: int, port: int, change: Change) -> bool:
        """Returns whether the port of a route's accessory was put by others. The accessory is put once more, so that
        displays show the route as it is asked for: if this program put it back as somebody asked again, and if both
        ports were put in one moment, whose stamps do not tell which was the last."""
        if not isinstance(change.row, Port) or not change.row.value:
            return True
        if is_own := (route, port) in self.own:
            self.own.remove((route, port))
        elif port == 1:
            self.wanted.add(route)
        else:
            self.give_up(route)
        wanted, other = int(route in self.wanted), self.mirror.rows.get((self.plan.bus, "GA", route, 1 - port))
        if port != wanted or other and other.value and other.stamp == change.row.stamp:
            self.begin(self.put_again(route, wanted))
        return not is_own

    def sensed(self, sensor: Sensor, change: Change) -> None:
        """A train comes into a block, or has passed the sensor that frees its route, or the sections of its route."""
        is_on = isinstance(change.row, Port) and change.row.value
        was_on = isinstance(change.before, Port) and change.before.value
        for route in self.set:
            self.look_at_blocks(route)
            if was_on and not is_on and self.plan.frees.get(route) == sensor:
                self.give_up(route)
        self.look_at_trains(sensor, change.row)

    def look_at_trains(self, sensor: Sensor, row: Row | None) -> None:
        """Follows the trains of set routes by what a sensor says."""
        for route, train in [*self.trains.items()]:
            if isinstance(row, Port) and train.told(sensor, bool(row.value), self.occupancy.is_occupied):
                self.give_up(route)

    def give_up(self, route: int) -> None:
        """A route is asked for no more, and its train is followed no more."""
        self.wanted.discard(route)
        self.trains.pop(route, None)

    def look_at_blocks(self, route: int) -> None:
        """Stops the signal of a set route that has a block which is not known to be free."""
        for bus, address in sorted(self.plan.blocks[route]):
            if not self.occupancy.is_free((bus, address)):
                how = "not known" if bus in self.occupancy.away else "occupied"
                self.stop(route, f"sensor {bus} {address} is {how}")

    def take_thrown(self, turnout: Accessory, port: int) -> None:
        """A hand at the station has thrown a turnout that this program has locked. Its row follows: no display shows
        the route as set then. It is not thrown back, since a train may be on it."""
        lock = self.mirror.rows.get((turnout[0], "GA", turnout[1], "lock"))
        if lock and self.mirror.session and lock.session == self.mirror.session.id:
            say(f"turnout {turnout[0]} {turnout[1]} was thrown by hand to port {port}, and stays locked")
            self.thrown.add(turnout)
            for route in self.set:
                self.look_at_turnouts(route)
            self.begin(self.enter(turnout, port))

    def look_at_turnouts(self, route: int) -> None:
        """Stops the signal of a set route that has a turnout which a hand has thrown."""
        for bus, address in sorted(self.plan.turnouts[route] & self.thrown):
            self.stop(route, f"turnout {bus} {address} was thrown by hand")

    async def enter(self, turnout: Accessory, port: int) -> None:
        """Has the row of a turnout say how it lies. An older port that is still 1 would say otherwise, to who comes
        later. It is put back afterwards: before, the driver would throw the turnout back."""
        bus, address = turnout
        await self.order(self.mirror, f"SET {bus} GA {address} {port} 1 {PULSE}")
        for (_, _, _, other), row in [item for item in self.mirror.rows.items() if item[0][:3] == (bus, "GA", address)]:
            if isinstance(row, Port) and row.value and other != port:
                await self.order(self.mirror, f"SET {bus} GA {address} {other} 0 -1")

    def look_at_buses(self) -> None:
        """Tells which sensors are not known any more, and how those are that are known again."""
        for bus, is_away in self.occupancy.look().items():
            say(f"bus {bus}: its sensors are {'not known' if is_away else 'known again'}")
            for sensor in sorted(sensor for sensor in self.plan.sensors() if sensor[0] == bus):
                if self.interlock and is_away:
                    self.interlock.tell_unknown(sensor)
                elif self.interlock:
                    self.interlock.tell_row((bus, "FB", sensor[1], "does"), self.occupancy.known(sensor))
                    self.look_at_trains(sensor, self.occupancy.known(sensor))
        for route in self.set:
            self.look_at_blocks(route)

    async def tell_seconds(self) -> None:
        """Tells each second, by which delays run: none is told before it has passed."""
        while True:
            await asyncio.sleep(SECOND)
            if self.interlock:
                self.interlock.tell_second()

    # ---- what it does by itself

    async def put(self, route: int, port: int) -> None:
        """Puts the accessory of a route to a port, as this program's own doing."""
        self.own.append((route, port))
        if await self.order(self.mirror, f"SET {self.plan.bus} GA {route} {port} 1 {PULSE}"):
            self.own.remove((route, port))

    async def put_again(self, route: int, port: int) -> None:
        """Puts the accessory of a route to a port in a later moment than the one that was told."""
        await asyncio.sleep(PORTS_APART)
        await self.put(route, port)

    def stop(self, route: int, why: str) -> None:
        """Stops the signal of a route that stays set."""
        if route in self.plan.signal and route not in self.stopped:
            self.stopped.add(route)
            bus, address, _, port = self.plan.signal[route]
            say(f"route {route}: its signal is stopped, {why}")
            self.begin(self.order(self.mirror, f"SET {bus} GA {address} {port} 1 {PULSE}"))

    def begin(self, doing: Coroutine[Any, Any, Any]) -> None:
        """Does something while all else goes on."""
        async def done() -> None:
            with contextlib.suppress(ConnectionError):  # the mirror tells of it
                await doing

        task = asyncio.create_task(done())
        self.tasks.add(task)
        task.add_done_callback(self.tasks.discard)

    async def look_at_layout(self) -> None:
        """Raises Wrong if the server has no such bus or no such sensor as the plan names."""
        for bus in sorted({bus for bus, _ in self.plan.accessories()}):
            await self.mirror.look_for_bus(bus, f"--plan {self.asked.plan}: bus")
        for bus, address in sorted({*self.plan.sensors(), *((self.plan.bus, route) for route in self.plan.names)}):
            if not await self.mirror.get((bus, "FB", address, "does")):
                raise Wrong(f"--plan {self.asked.plan}: the server has no sensor {address} on bus {bus}")

    async def make(self) -> None:
        """Has the server make what it does not have, and waits until the panel has told how the routes lie."""
        devices = [(bus, "GA", address, False) for bus, address in self.plan.accessories()]
        for wait in 2 * self.mirror.again, 0:  # in which keep.py makes them as they were
            absent = [device for device in devices if not await self.mirror.has(device)]
            await asyncio.sleep(wait if absent else 0)
        for bus, group, address, _ in absent:
            await self.order(self.mirror, f"INIT {bus} {group} {address} N")
        for device in devices[:len(self.plan.names)]:
            while not await self.mirror.shows(device):
                await asyncio.sleep(SOON)

    async def hold_signals(self, session: Session) -> None:
        """Locks all signals of the plan, so that nobody else shows one, and no second box of the plan begins. Waits
        while another session has one: at first without a word, since this program's own last session may."""
        before = said = None
        while taken := await self.lock_signals(session):
            if taken == before != said:
                say(f"{taken}. Does another box.py set the routes of this plan? This one waits")
                said = taken
            before = taken
            await asyncio.sleep(self.mirror.again)

    async def lock_signals(self, session: Session) -> str | None:
        """Locks all signals, and leaves no port of them at 1; or, if one cannot be locked, none. Says why not."""
        held: list[str] = []
        for bus, address in sorted(self.plan.signals):
            try:
                await session.ask(f"SET {bus} LOCK GA {address} 0")
            except Refused as refusal:
                lock = await self.mirror.get((bus, "GA", address, "lock"))
                for each in held:
                    await session.ask(f"TERM {each}")
                return f"signal {bus} {address} is locked by session {lock.session}" if lock else f"{refusal}"
            held.append(f"{bus} LOCK GA {address}")
        for key, row in [*self.mirror.rows.items()]:  # or a display that comes later takes that port for the last one
            if key[1] == "GA" and (key[0], key[2]) in self.plan.signals and isinstance(row, Port) and row.value:
                await self.order(session, f"SET {key[0]} GA {key[2]} {key[3]} 0 -1")
        return None

    # ---- what it is ordered

    async def order(self, session: Mirror | Session, command: str) -> Refused | None:
        """Has the server carry out a command; returns its refusal, and tells of that."""
        try:
            await session.ask(command)
            return None
        except Refused as refused:
            say(f"{command}: {refused}")
            return refused

    async def carry_out(self, session: Session, to_rest: bool = False) -> None:
        """Carries out what a new `interlock` orders, until it ends; `to_rest`: until all routes are at rest."""
        sensors = {sensor: row for sensor in sorted(self.plan.sensors()) if (row := self.occupancy.known(sensor))}
        interlock = await Interlock.begin(self.plan, session.id or 0, sensors)
        self.interlock, left = None if to_rest else interlock, len(self.plan.names)
        self.wanted.clear()
        self.trains.clear()
        self.own.clear()
        try:
            while (left or not to_rest) and (order := await interlock.order()):
                refused = await self.carry(session, order)
                interlock.tell(str(refused or "200 OK"))
                comes_to_rest = await self.follow(order, not refused)
                left -= comes_to_rest
                if comes_to_rest and left == 0 and not to_rest:
                    say(f"none of {len(self.plan.names)} routes is set")
        finally:
            self.interlock = None
            await interlock.gone()

    async def carry(self, session: Session, order: str) -> Refused | None:
        """Carries out an order; returns its refusal. A turnout that somebody has removed is made again, and one that is
        thrown is given the time that its station takes for it."""
        route, is_set = reported(order) or (None, False)
        self.thrown.discard(thrown(order, self.plan) or (0, 0))
        if route and is_set:
            self.set.add(route)
            if route in self.wanted:
                self.trains[route] = Train(self.plan.sections[route])
        elif route:
            self.trains.pop(route, None)
        if route and not is_set and route not in self.wanted:  # before anybody hears that the route is free
            await self.put_back([route], self.put)
        refused = await self.order(session, order)
        if refused and refused.code == Code.NO_DATA and (turnout := locked(order)):
            await self.order(session, "INIT {} GA {} N".format(*turnout))
            refused = await self.order(session, order)
        if turnout := thrown(order, self.plan):
            await asyncio.sleep(1 / self.asked.turnout_pace)
        return refused

    async def follow(self, order: str, is_accepted: bool) -> bool:
        """Follows what becomes of a route. Returns whether it comes to rest by this order, if all begins."""
        turnout, report = locked(order), reported(order)
        if turnout and not is_accepted:  # whatever route asked for it: none of those over it can be set
            await self.put_back(self.plan.over(turnout), self.give_back)
        if report and is_accepted:
            number, is_set = report
            if number in self.set:
                say(f"route {number} {'set' if is_set else 'given back'}: {self.plan.names[number]}")
            self.stopped.discard(number)
            if is_set:
                self.look_at_blocks(number)
                self.look_at_turnouts(number)
            else:
                self.set.discard(number)
        return bool(report) or not is_accepted

    async def put_back(self, routes: list[int], put: Callable[[int, int], Awaitable[None]]) -> None:
        """Puts the accessories of routes back, if they lie as those of routes that are asked for."""
        for number in [number for number in routes if position(self.mirror.rows, self.plan.bus, number) == 1]:
            await self.order(self.mirror, f"SET {self.plan.bus} GA {number} 1 0 -1")
            await put(number, 0)

    async def give_back(self, route: int, port: int) -> None:
        """Puts the accessory of a route to a port, as anybody may."""
        await self.order(self.mirror, f"SET {self.plan.bus} GA {route} {port} 1 {PULSE}")


async def begin(asked: argparse.Namespace) -> None:
    await Box(asked).run()


if __name__ == "__main__":
    words = arguments(__doc__)
    words.add_argument("--plan", required=True, metavar="FILE", help="its routes; web.py reads the same file")
    words.add_argument("--program", default=server_program(), metavar="FILE", help="that of the server (%(default)s)")
    words.add_argument("--turnout-pace", type=float, default=TURNOUT_PACE, metavar="NUMBER",
                       help="turnouts that a station moves in a second (%(default)s): a signal shows go later")
    run(begin(words.parse_args()))
