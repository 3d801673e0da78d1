"""Turnouts that a hand throws at the station: their rows follow, or every display is told that they cannot.

A station reports each turnout that is thrown. Reports are lost, and come late. So one that differs from what the
station was told is a hand's doing only if the station, asked again and again, still says the same after a while.
"""
import asyncio
from functools import partial
from typing import Literal
from srcp_bridges.limits import ANSWERED, PULSE, STAYS
from srcp_bridges.program import say
from srcp_bridges.srcp.rows import CONFIRMED, STOP_ALL, THROWN, UNCONFIRMED, Port
from srcp_bridges.stations.bus import Bus
from srcp_bridges.stations.registry import POWER

TOLD = ("thrown",)  # as a part, for orders
POWER_ROW: tuple[Literal["POWER"], int, Literal["does"]] = "POWER", 0, "does"


class Thrown:
    """`seen` has what is reported of turnouts and differs, and since when. `locked` has how turnouts lie whose rows say
    otherwise, since another session has locked them. `untold`: of these displays are still to be told. `stopping` is
    when a STOP ALL was last to be answered."""

    def __init__(self, bus: Bus) -> None:
        self.bus = bus
        self.seen: dict[int, tuple[int, float]] = {}
        self.locked: dict[int, int] = {}
        self.untold: dict[int, int] = {}
        self.stopping = -ANSWERED

    def report(self, address: int, port: int) -> None:
        """Takes a report of a turnout of which nothing is awaited."""
        part, now = ("turnout", address), asyncio.get_running_loop().time()
        made = self.bus.mirror.rows.get((self.bus.number, "GA", address, "is"))
        _, wanted = self.bus.track.wanted(part)
        if not made or made.protocol not in "NP" or port == self.bus.track.told.get(part, wanted):
            self.seen.pop(address, None)
            return
        was, since = self.seen.get(address, (None, now))
        self.seen[address] = port, since if was == port else now
        if was == port and now > since + STAYS:
            del self.seen[address]
            self.bus.track.told[part] = port
            self.lies(address, port, wanted)

    def lies(self, address: int, port: int, wanted: int | None) -> None:
        """A hand has thrown a turnout: its row follows, unless it says so already."""
        if port == wanted:
            return self.is_right(address)
        refused = partial(self.refused, address, port)
        self.bus.orders.put(("turnout", address), partial(self.enter, address, port), refused)

    async def enter(self, address: int, port: int) -> None:
        """Has the row of a turnout say how it lies. An older port that is still 1 would say otherwise, to who comes
        later. It is put back afterwards: before, the turnout would still lie as that port, and be thrown back."""
        await self.bus.mirror.ask(f"SET {self.bus.number} GA {address} {port} 1 {PULSE}")
        for other in [key[3] for key, row in self.bus.mirror.rows.items() if key[:3] == (self.bus.number, "GA", address)
                      and isinstance(key[3], int) and key[3] != port and isinstance(row, Port) and row.value]:
            await self.bus.mirror.ask(f"SET {self.bus.number} GA {address} {other} 0 -1")

    def refused(self, address: int, port: int) -> None:
        """Another session has it locked. The station is not told its row again: a train may be on it."""
        say(f"a hand at the station has thrown turnout {address} to port {port}, and another session has it locked")
        self.locked[address] = self.untold[address] = port

    def unlocked(self, address: int) -> None:
        """Nobody has it locked any more: its row follows now."""
        if (port := self.locked.get(address)) is not None:
            self.is_right(address)
            _, wanted = self.bus.track.wanted(("turnout", address))
            if wanted != port:
                self.lies(address, port, wanted)

    def is_right(self, address: int) -> None:
        """A turnout lies as its row says, or its row follows. Displays say so once that is true of all."""
        self.untold.pop(address, None)
        if self.locked.pop(address, None) is not None and not self.locked:
            self.bus.orders.put(TOLD, partial(self.tell, CONFIRMED))

    def look(self) -> None:
        """Tells displays of the next turnout, unless they wait for the answer to a STOP ALL, or the power is off."""
        now, power = asyncio.get_running_loop().time(), self.bus.mirror.rows.get((self.bus.number, *POWER_ROW))
        self.stopping = now if self.bus.stopping else self.stopping
        is_free = power and power.on and now > self.stopping + ANSWERED and TOLD not in self.bus.orders.due
        if self.untold and is_free:
            address, port = next(iter(self.untold.items()))
            self.bus.orders.put(TOLD, partial(self.tell_of, address, port))

    async def tell_of(self, address: int, port: int) -> None:
        """Tells displays of a turnout. If the row of power cannot say so, `look` tries again."""
        is_told = self.untold.get(address) == port and await self.tell(f"{THROWN} {address} {port}")
        if is_told and self.untold.get(address) == port:
            del self.untold[address]

    async def tell(self, text: str) -> bool:
        """Has the row of power say something, if it is on; what it says of locomotives it says again then. Returns
        whether it has."""
        row = await self.bus.mirror.get((self.bus.number, *POWER_ROW))
        if not row or not row.on or POWER in self.bus.holds.held or self.bus.stopping or row.text == STOP_ALL:
            return False
        if text == CONFIRMED and not row.text.startswith(THROWN):
            return False
        await self.bus.mirror.ask(f"SET {self.bus.number} POWER ON {text}")
        if row.text.startswith(UNCONFIRMED):
            await self.bus.mirror.ask(f"SET {self.bus.number} POWER ON {row.text}")
        return True
