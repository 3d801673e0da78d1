"""What changes a locomotive and keeps its speed: a speed of 0 that comes just before its command stays."""
import argparse
import asyncio
from collections.abc import Awaitable, Callable
from unittest import mock

from .common import WAIT, Case


class Driving(Case):
    program = "driving"

    def after(self, act: Callable[..., Awaitable[object]], before="", behind="", first="") -> list[str]:
        """The row of locomotive 3 once that was done by a mirror. Another throttle commands something `first`,
        something just before the first SET of it is sent, and something just behind its reply."""
        from srcp_bridges.srcp import mirrors, sessions
        self.throttle.order("INIT 1 GL 3 N 1 126 2", "SET 1 GL 3 1 60 126 0 0", *filter(None, [first]))
        asks = sessions.Session.ask
        others: list[list[str | None]] = [[before], [behind]]

        async def ask(session: sessions.Session, command: str) -> object:
            is_first = command.startswith("SET 1 GL 3 ") and bool(others)
            for command_of_other in filter(None, others.pop(0) if is_first else []):
                await asyncio.to_thread(self.throttle.order, command_of_other)
            reply = await asks(session, command)
            for command_of_other in filter(None, others.pop(0) if is_first else []):
                await asyncio.to_thread(self.throttle.order, command_of_other)
            return reply

        async def run() -> None:
            mirror = mirrors.Mirror(argparse.Namespace(host="127.0.0.1", port=self.server.port, again=0.05))
            runs = asyncio.create_task(mirror.run())
            while not mirror.here or not await mirror.shows((1, "GL", 3, False)):
                await asyncio.sleep(0.02)
            with mock.patch.object(sessions.Session, "ask", ask):
                await act(mirror)
            runs.cancel()

        with mock.patch.object(mirrors, "say"):
            asyncio.run(run())
        return self.throttle.ask("GET 1 GL 3").split()[5:]

    def test_a_speed_of_0_of_the_same_moment_stays(self) -> None:
        """A function, and a direction by a phone and by a topic, leave a train at rest that another put to rest, or a
        STOP ALL that its row does not show yet."""
        from srcp_bridges.srcp.driving import Driver, switch
        from srcp_bridges.page.orders import TopicQueue

        async def by_function(mirror):
            await switch(mirror, lambda command, seen: mirror.ask(command), 1, 3, {1: 1})

        async def by_phone(mirror):
            await Driver(mirror, 1).drive(3, mode=0)

        async def by_topic(mirror):
            orders, is_done = TopicQueue(mirror, lambda *told: self.fail(told)), asyncio.Event()
            carries_out = orders.carry_out

            async def carry_out(*what):
                await carries_out(*what)
                is_done.set()

            with mock.patch.object(orders, "carry_out", carry_out):
                running = asyncio.create_task(orders.run())
                orders.on_message("1/GL/3", '{"mode": 0}')
                async with asyncio.timeout(WAIT):
                    await is_done.wait()
            running.cancel()

        for act, mode, functions in ((by_function, "1", ["0", "1"]), (by_phone, "0", ["0", "0"]),
                                     (by_topic, "0", ["0", "0"])):
            for stop in ("SET 1 GL 3 1 0 126", "SET 1 GL 3 2 0 126", "SET 1 POWER ON stop all"):
                self.assertEqual(self.after(act, stop), [mode, "0", "126", *functions], act)
            self.assertEqual(self.after(act, first="SET 1 POWER ON stop all"), [mode, "0", "126", *functions], act)
            self.assertEqual(self.after(act), [mode, "60", "126", *functions], act)
            self.assertEqual(self.after(act, "SET 1 GL 3 1 0 126", "SET 1 GL 3 1 20 126")[1], "20", act)
