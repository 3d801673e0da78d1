"""After a loss nothing starts by itself: what rests, and until when."""
from collections.abc import Callable, Iterator
from functools import partial

from srcp_bridges.srcp.mirrors import Mirror
from srcp_bridges.srcp.rows import NO_DRIVER, NO_STATION, Drive, Power
from srcp_bridges.stations.awaited import Part
from srcp_bridges.stations.registry import POWER, Orders

Moving = Power | Drive  # a row of what can be held
Seen = tuple[int, int]  # the stops and losses that were counted


class Holds:
    """`held` has the parts of the track that rest until somebody commands them anew: their rows are set to rest.

    `refused` has the rows that stayed as they were, since another session has the locomotive locked, or of before a
    STOP ALL. `halted` has the locomotives that are told an emergency stop for that: until a row that is newer.
    `starting` has the locomotives that this program has drive for a hand, with what was seen as the hand did so, until
    the panel has told their rows. `changed` is called with a part that rests in another way.
    """

    AWAY = "server was away"
    RESET = "station was reset"

    def __init__(self, bus: int, mirror: Mirror, orders: Orders, changed: Callable[[Part], None]):
        self.bus = bus
        self.mirror = mirror
        self.orders = orders
        self.held: set[Part] = set()
        self.refused: dict[Part, Moving | None] = {}
        self.halted: set[int] = set()
        self.starting: dict[Part, Seen] = {}
        self.changed = changed
        self.stopped = 0.0  # the stamp of the last STOP ALL
        self.why = self.AWAY
        self.station = False  # the station is there
        self.lost = False  # the server was away for too long
        self.losses = 0  # how often something was lost

    def seen(self, address: int) -> Seen:
        """Returns how often a locomotive was stopped, and something was lost, as far as the panel has told."""
        return self.mirror.stops.count(self.bus, address), self.losses

    def rows(self) -> Iterator[tuple[Part, Moving]]:
        """Yields the parts of this bus that can be held, and their rows."""
        for (bus, group, address, part), row in self.mirror.rows.items():
            if bus == self.bus and isinstance(row, (Power, Drive)):
                yield (POWER if group == "POWER" else ("cab", address)), row

    def take(self, part: Part, row: Moving, listed: bool) -> None:
        """Takes in a new row; `listed`: it came with a listing, so it may be of before a loss of the server."""
        if not moves(row):
            self.free(part)
            self.clear_text(part, row, listed)
        elif part in self.starting and self.starting[part] != self.seen(part[1]):
            self.hold(part, row, "")  # the stop overtook that command: a hand had it drive before
        elif listed and part != POWER and row.stamp <= self.stopped:
            self.stop(part, row)
        elif not self.station or listed and (self.lost or self.mirror.anew):
            self.hold(part, row, self.AWAY)
        elif self.is_commanded(part, row):
            self.free(part)

    def free(self, part: Part) -> None:
        self.held.discard(part)
        self.halted.discard(part[-1])

    def is_commanded(self, part: Part, row: Moving) -> bool:
        """Returns whether a row is a new command of who has the locomotive locked: one for functions alone is none. It
        may be the row of before, stamp and all: then both were commanded in one millisecond."""
        old = self.refused.get(part)
        if not isinstance(row, Drive) or not isinstance(old, Drive):
            return False
        self.refused[part] = row
        return row[1:4] != old[1:4] or row.functions == old.functions

    def stop_all(self, stamp: float) -> None:
        """Holds all that drives, until it is commanded anew: a row that is newer than that of the STOP ALL."""
        self.losses += 1
        self.stopped = stamp
        for part, row in self.rows():
            if part != POWER and moves(row):
                self.stop(part, row)

    def stop(self, part: Part, row: Moving) -> None:
        self.held.add(part)
        self.halted.add(part[1])
        self.refused[part] = row

    def rest_all(self) -> None:
        """Sets the rows to rest that nobody has since a STOP ALL."""
        for part, row in self.rows() if self.mirror.here else ():
            if part[-1] in self.halted and moves(row):
                self.orders.put(part, partial(self.rest, part, row), partial(self.keep_held, part))

    async def rest(self, part: Part, row: Moving) -> None:
        if part[1] in self.halted:  # nobody has commanded it anew meanwhile
            await self.mirror.ask(self.at_rest(part, row))

    def at_rest(self, part: Part, row: Moving) -> str:
        """Returns the command that has a locomotive stand in its direction."""
        assert isinstance(row, Drive)
        return f"SET {self.bus} GL {part[1]} {self.mirror.way(self.bus, part[1])} 0 {row.v_max}"

    def lose(self, why: str) -> None:
        """Holds all that is on or drives: something was lost."""
        self.losses += 1
        for part, row in self.rows():
            if moves(row):
                self.hold(part, row, why)
            elif isinstance(row, Power) and not self.station and row.text != NO_STATION:
                self.set_power(NO_STATION)

    def hold(self, part: Part, row: Moving, why: str) -> None:
        """Holds a part, and has its row say so. Of power the first reason stays, or that there is no station."""
        if part == POWER and part not in self.held:
            self.why = why
        self.held.add(part)
        self.refused.pop(part, None)
        if not self.mirror.here:
            return  # it is ordered when the server is back
        if part == POWER:
            self.set_power(self.why if self.station else NO_STATION)
        else:
            self.orders.command(part, self.at_rest(part, row), partial(self.keep_held, part))

    def keep_held(self, part: Part) -> None:
        """The server refused to set a row to rest: as `keep`, unless its locomotive was commanded anew meanwhile."""
        if part in self.held:
            self.keep(part)

    def keep(self, part: Part) -> None:
        """Holds a locomotive whose row may not be changed: until a new command of who has it locked."""
        self.held.add(part)
        self.refused[part] = self.mirror.rows.get((self.bus, "GL", part[1], "does"))
        if part[1] in self.halted:
            self.halted.discard(part[1])
            self.changed(part)

    def set_power(self, why: str) -> None:
        self.orders.command(POWER, f"SET {self.bus} POWER OFF {why}".rstrip())

    def station_comes(self) -> None:
        """The station has begun, or began anew."""
        self.station = True
        self.lose(self.RESET)
        for part, row in self.rows():
            self.clear_text(part, row, True)

    def clear_text(self, part: Part, row: Moving, listed: bool) -> None:
        """The row of power says no more that there is no station, or was no driver."""
        if not isinstance(row, Power) or not self.station or row.on:
            return
        if row.text in (NO_STATION, NO_DRIVER if listed else None):
            self.orders.put(POWER, partial(self.clear, row.text))

    async def clear(self, text: str) -> None:
        """Takes a text of power away, unless somebody has switched that on meanwhile: the panel may be late."""
        row = await self.mirror.get((self.bus, "POWER", 0, "does"))
        if row and not row.on and row.text == text:
            await self.mirror.ask(f"SET {self.bus} POWER OFF")

    def station_goes(self) -> None:
        self.station = False
        self.lose(NO_STATION)

    def server_comes(self) -> None:
        """The server is there: after a loss all is held that it has, and will list, as on or driving."""
        self.rest_all()
        if self.lost or self.mirror.anew:
            self.lose(self.AWAY)

    def server_leaves(self) -> None:
        """The server is away, perhaps for a moment."""
        self.lost = False

    def server_goes(self) -> None:
        """The server has been away for too long."""
        self.lost = True
        self.lose(self.AWAY)


def moves(row: Moving) -> bool:
    """Returns whether a row of power is on, or one of a locomotive drives."""
    return row.on if isinstance(row, Power) else row.v > 0
