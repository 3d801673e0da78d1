"""The commands of topics: the order in which commands are carried out, and which a stop refuses."""
import asyncio
from collections.abc import Awaitable, Callable
from functools import partial
from typing import NamedTuple

from srcp_bridges.limits import COMMANDS_WAITING
from srcp_bridges.page.topics import Wanted, commands_for, locomotive_of, wanted_of
from srcp_bridges.srcp.driving import change, switch
from srcp_bridges.srcp.mirrors import Mirror
from srcp_bridges.srcp.replies import Reason, Refused, refusal
from srcp_bridges.srcp.rows import EMERGENCY_STOP, Drive
from srcp_bridges.srcp.sessions import Session
from srcp_bridges.srcp.stop import Locomotive, send, stop_all, stop_one


class Order(NamedTuple):
    """A command at a `place`. A command to a `locomotive` has what is `wanted`, and how often the locomotive was
    stopped before (`seen`).
    """
    place: str
    text: str
    session: Session | None
    locomotive: Locomotive | None
    wanted: Wanted | None
    seen: int


Work = Callable[[Order], Awaitable[None]]


class TopicQueue:
    """Carries out commands that wait in order; `stops`, and commands `beside` the others, as they come.

    A command goes by the session of the moment at which the command came, so no command outlives the server meant. A
    STOP ALL drops commands that wait; all others go on when a stop is done. `refused` is called with the place and the
    text of each command that is not carried out, and with the reason.
    """

    def __init__(self, mirror: Mirror, refused: Callable[[str, str, Exception | str], None]):
        self.mirror = mirror
        self.refused = refused
        self.waits: asyncio.Queue[Order] = asyncio.Queue(COMMANDS_WAITING)
        self.stops: set[asyncio.Task[None]] = set()
        self.beside: set[asyncio.Task[None]] = set()

    def on_message(self, place: str, text: str) -> None:
        """Takes in a command, in the order in which it came."""
        try:
            locomotive = locomotive_of(place)
            wanted = wanted_of(text) if locomotive else None
            order = Order(place, text, self.mirror.session, locomotive, wanted, 0)
            if place == "stop":
                self.begin(self.stops, self.stop_all, order)
            elif place.endswith("/POWER") and order.session:
                self.begin(self.beside, self.obey, order)
            elif wanted and wanted.mode == EMERGENCY_STOP and order.session:  # also while the panel is lost
                self.begin(self.stops, self.stop_one, order)
            elif not self.mirror.here:
                raise refusal(Reason.AWAY)
            else:  # in its turn: a stop that came before it has begun by then, and is counted
                asyncio.get_running_loop().call_soon(self.wait, order)
        except Exception as fault:  # whatever was sent, this program goes on
            self.refused(place, text, fault)

    def begin(self, tasks: set[asyncio.Task[None]], work: Work, order: Order) -> None:
        if len(tasks) >= COMMANDS_WAITING:
            raise Refused(None, "too many commands wait")
        task = asyncio.create_task(self.carry_out(work, order))
        tasks.add(task)
        task.add_done_callback(tasks.discard)

    def wait(self, order: Order) -> None:
        if self.waits.full():
            self.refused(order.place, order.text, "too many commands wait")
        else:
            seen = self.mirror.stops.count(*order.locomotive) if order.locomotive else 0
            self.waits.put_nowait(order._replace(seen=seen))

    async def run(self) -> None:
        """Carries out in turn the commands that wait."""
        while True:
            order = await self.waits.get()
            while self.stops:
                await asyncio.wait(self.stops)
            await self.carry_out(self.drive if order.locomotive else self.obey, order)

    async def carry_out(self, work: Work, order: Order) -> None:
        try:
            await work(order)
        except Exception as fault:
            self.refused(order.place, order.text, Reason.AWAY if isinstance(fault, OSError) else fault)

    async def stop_all(self, _: Order) -> None:
        while not self.waits.empty():
            order = self.waits.get_nowait()
            self.refused(order.place, order.text, "all was stopped meanwhile")
        if faults := await stop_all(self.mirror):
            raise Refused(None, "; ".join(map(str, faults)))

    async def stop_one(self, order: Order) -> None:
        assert order.session and order.locomotive
        await stop_one(self.mirror, order.session.ask, *order.locomotive)
        await self.switch(order)

    async def obey(self, order: Order) -> None:
        assert order.session
        for command in commands_for(self.mirror.rows, order.place, order.text):
            await order.session.ask(command)

    async def drive(self, order: Order) -> None:
        """Changes the wanted parts of a locomotive, and leaves the other parts as the server has them."""
        assert order.session and order.locomotive and order.wanted
        wanted = order.wanted
        await self.switch(order)
        if order.wanted[:3] == (None, None, None):
            return
        bus, address = order.locomotive
        steps = getattr(self.mirror.rows.get((bus, "GL", address, "is")), "steps", 0)

        def words(way: int, now: Drive) -> list[int]:
            is_now = way, now.v, now.v_max or steps
            return [old if new is None else new for new, old in zip(wanted[:3], is_now)]

        ask = partial(send, self.mirror.stops, order.session)
        await change(self.mirror, ask, bus, address, words, order.seen, order.wanted.v is None)

    async def switch(self, order: Order) -> None:
        """Switches the wanted functions; none if the locomotive lacks any."""
        assert order.session and order.locomotive and order.wanted
        functions = order.wanted.functions
        bus, address = order.locomotive
        made = self.mirror.rows.get((bus, "GL", address, "is"))
        if beyond := [number for number in functions if made and not 0 <= number < made.functions]:
            raise Refused(None, f"it has no function {beyond[0]}")
        if functions:
            ask = partial(send, self.mirror.stops, order.session)
            await switch(self.mirror, ask, bus, address, functions)
