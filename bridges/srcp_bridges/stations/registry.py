"""What the registry is told of the track: what was put to rest, and what the station reports."""
import asyncio
from collections.abc import Awaitable, Callable

from srcp_bridges.program import say
from srcp_bridges.srcp.mirrors import Mirror
from srcp_bridges.srcp.replies import Refused
from srcp_bridges.stations.awaited import Part

Act = Callable[[], Awaitable[object]]
POWER = ("power",)  # a part of the track; the others are ("cab", 3), ("function", 3, 0), ("turnout", 5)


class Orders:
    """Carries out what the registry is to be told: of each part the newest, power first."""

    def __init__(self, mirror: Mirror):
        self.mirror = mirror
        self.more = asyncio.Event()
        self.due: dict[Part, tuple[Act, Callable[[], None] | None]] = {}

    def put(self, part: Part, act: Act, refused: Callable[[], None] | None = None) -> None:
        """Has `act` carried out, which sends commands by the mirror's session. `refused` is called if one is
        refused."""
        self.due[part] = act, refused
        self.more.set()

    def command(self, part: Part, command: str, refused: Callable[[], None] | None = None) -> None:
        self.put(part, lambda: self.mirror.ask(command), refused)

    async def run(self) -> None:
        while True:
            await self.more.wait()
            self.more.clear()
            await self.carry_out()

    async def carry_out(self) -> None:
        while self.due and self.mirror.session:
            part = POWER if POWER in self.due else next(iter(self.due))
            act, refused = self.due.pop(part)
            try:
                await act()
            except Refused as reply:
                say(f"server: {' '.join(map(str, part))}: {reply}")
                if refused:
                    refused()
            except ConnectionError:
                pass  # what is held is ordered again when the server is back
