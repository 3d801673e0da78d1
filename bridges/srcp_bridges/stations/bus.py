"""A bus of the server, and the track that it stands for."""
import argparse
import asyncio
from collections.abc import Mapping
from functools import partial
from typing import NamedTuple

from srcp_bridges.limits import COLLECTED, FOLLOWS, SILENT_NAMED
from srcp_bridges.program import say
from srcp_bridges.srcp.mirrors import Mirror
from srcp_bridges.srcp.rows import (ALL_STOOD, CONFIRMED, EMERGENCY_STOP, NO_DRIVER, NO_STATION, STOP_ALL, THROWN,
                                    UNCONFIRMED, Accessory, Change, Drive, Locomotive, Power, switches)
from srcp_bridges.state import driven
from srcp_bridges.stations.holds import Holds
from srcp_bridges.stations.registry import POWER, Orders
from srcp_bridges.stations.track import Hooks, Track

# Texts of a driver, or of its last words, that answer no STOP ALL: one that waits for its answer waits on.
NO_ANSWERS = UNCONFIRMED, CONFIRMED, THROWN, NO_DRIVER
LEFT_OUT = {"bus": "not on bus {}", "protocol": "protocol {}", "slots": "the station has {} slots"}


class LeftOut(NamedTuple):
    """Why a device is not driven: the `bus` that alone is driven, the `protocol` of its decoder, or how many `slots`
    the station has, all of which were taken. As a text it is what people are told."""
    by: str
    value: int | str | None

    def __str__(self) -> str:
        return LEFT_OUT[self.by].format(self.value)


class Bus:
    """Takes in the rows of a bus: marks what differs on its track, and holds what moves after a loss.

    `stopping`: a STOP ALL is still to be confirmed. `silent` has the locomotives that do not confirm what they are
    told.
    """

    def __init__(self, asked: argparse.Namespace, names: Mapping[str, str], hooks: Hooks):
        self.number = asked.bus
        self.patience = asked.patience
        self.names = names
        self.hooks = hooks
        self.stopping = False
        self.silent: frozenset[int] = frozenset()
        self.unconfirmed = UNCONFIRMED  # the last text of power by which this driver has told of them
        self.mirror = Mirror(asked, self.take, self.join, self.leave, keeps_place=True)
        self.orders = Orders(self.mirror)
        self.holds = Holds(self.number, self.mirror, self.orders, lambda part: self.track.mark(part))
        self.track = Track(self.number, self.mirror, self.holds, asked.turnout_pace, self.full, hooks)
        self.elsewhere: set[int] = set()  # other buses, which drivers of this machine drive
        self.told_of: set[str] = set()  # devices that cannot be driven
        self.untold: list[str] = []
        self.slotless: set[int] = set()  # locomotives for which there was no slot as they were to drive
        self.patience_ends: asyncio.TimerHandle | None = None
        self.joined = asyncio.Event()

    # ---- rows

    def take(self, change: Change) -> None:
        bus, group, address, part = change.key
        if isinstance(change.row, (Locomotive, Accessory)):
            self.look_at(bus, group, address, change.row)
        if bus != self.number:
            return
        if group == "GA" and part != "lock":
            self.track.mark(("turnout", address))
        elif group == "GA" and not change.row:
            self.hooks.unlocked(address)
        elif group == "POWER":
            if change.row:
                self.power(change)
            self.track.mark(POWER)
        elif group == "GL" and part == "does" and change.row:
            self.locomotive(address, change)
        elif group == "GL" and part != "lock":
            if not change.row and self.hooks.at_first:  # a hand may have it drive, and its report be lost
                self.track.forgets(("cab", address))
            self.gone(address)

    def is_listed(self, change: Change) -> bool:
        """Returns whether a row comes with a listing: it may have been commanded long ago."""
        return change.before is None or change.key in self.mirror.stale

    def power(self, change: Change) -> None:
        row, before = change.row, change.before
        assert isinstance(row, Power)
        self.holds.take(POWER, row, self.is_listed(change))
        if row.on and isinstance(before, Power) and not before.on and not switches(row):
            # The power went off as that row was on its way.
            self.holds.hold(POWER, row, STOP_ALL if row.text == STOP_ALL else before.text)
        if row.text == STOP_ALL:
            self.stop_all(row)
        elif not row.text.startswith(NO_ANSWERS):
            self.stopping = False
        if not row.on and row.text == NO_DRIVER:  # this program slept
            self.lose(NO_DRIVER)

    def stop_all(self, row: Power) -> None:
        """Has all stand at once, until a command that is newer than that row."""
        self.stopping = True
        self.hooks.stop_at_once()
        self.holds.stop_all(row.stamp)
        if not self.holds.station and not row.on:
            self.holds.set_power(NO_STATION)
        self.mark_held()
        self.stop_unseen()
        asyncio.get_running_loop().call_later(FOLLOWS, self.holds.rest_all)

    def all_stood(self) -> None:
        """The station has confirmed that all stand: the row of power is to say so. This is called until it does."""
        if self.may_say():
            self.orders.put(POWER, partial(self.answer, self.holds.stopped))

    async def answer(self, stopped: float) -> None:
        """Has the row of power say that all stood since the STOP ALL with that stamp, unless there is a newer one. If
        one comes while that is on its way, the answer takes its place: then it is told anew."""
        row = await self.get_power()
        if not row or not row.text.startswith((STOP_ALL, *NO_ANSWERS)):
            return
        if self.holds.stopped > stopped or row.text == STOP_ALL and row.stamp > stopped:  # the panel may be late
            return
        await self.set_text(row, ALL_STOOD)
        await self.mirror.catches_up((self.number, "POWER", 0, False))
        row = await self.get_power() if self.holds.stopped > stopped else None
        if row and row.text == ALL_STOOD:
            await self.set_text(row, STOP_ALL)

    def tell_silent(self, silent: frozenset[int]) -> None:
        """Tells every display which locomotives do not confirm what they are told, and when they do again: until the
        row of power says so."""
        addresses = " ".join(map(str, sorted(silent)[:SILENT_NAMED]))
        if silent != self.silent:
            say(f"the station does not confirm: {addresses}" if silent else "the station confirms again")
        self.silent = silent
        if self.may_say() and self.is_untold(text := f"{UNCONFIRMED} {addresses}" if silent else ""):
            self.unconfirmed = text or self.unconfirmed
            self.tell_power(f"{UNCONFIRMED} {addresses}" if silent else CONFIRMED)

    def is_untold(self, text: str) -> bool:
        """Returns whether the row of power is to say that text of this driver; "": that all confirm again. What another
        driver of the bus says of locomotives stays."""
        row = self.mirror.rows.get((self.number, "POWER", 0, "does"))
        is_own = row is not None and row.text == self.unconfirmed
        if not text or not row or row.text == text:
            return is_own and not text and not self.stopping
        if row.text.startswith(UNCONFIRMED):
            return is_own
        return row.on or row.text == STOP_ALL

    def may_say(self) -> bool:
        """Returns whether the row of power is free to say something: it is not about to say something else."""
        return POWER not in self.orders.due and POWER not in self.holds.held

    def tell_power(self, text: str) -> None:
        """Has the row of power say something, if it is free to."""
        if self.may_say():
            self.orders.put(POWER, partial(self.say_power, text))

    async def say_power(self, text: str) -> None:
        """Has the row of power say something. That a locomotive confirms again takes the place of no STOP ALL."""
        row = await self.get_power()
        before = (UNCONFIRMED,) if text == CONFIRMED else (STOP_ALL, UNCONFIRMED)
        if not row or row.text == text != STOP_ALL:
            return
        if row.text.startswith(before) or row.on and text.startswith((STOP_ALL, UNCONFIRMED)):
            await self.set_text(row, text)

    async def get_power(self) -> Power | None:
        """Returns the row of power that the server has at this moment: what the panel told may be of before."""
        return await self.mirror.get((self.number, "POWER", 0, "does"))

    async def set_text(self, row: Power, text: str) -> None:
        await self.mirror.ask(f"SET {self.number} POWER {'ON' if row.on else 'OFF'} {text}")

    def locomotive(self, address: int, change: Change) -> None:
        row = change.row
        before = change.before
        assert isinstance(row, Drive)
        part = ("cab", address)
        made, _ = self.track.locomotive(address)
        if row.mode == EMERGENCY_STOP and part in self.track.told:
            self.track.stops.add(address)
        if made:
            self.holds.take(part, row, self.is_listed(change))
        elif row.v:
            self.holds.hold(part, row, "")
        if not isinstance(before, Drive):
            return self.track.take_in(address)
        self.track.mark(part)
        for number, (old, new) in enumerate(zip(before.functions, row.functions)):
            if old != new:
                self.track.mark(("function", address, number))

    def gone(self, address: int) -> None:
        self.holds.free(("cab", address))
        self.track.stops.discard(address)
        self.slotless.discard(address)
        self.track.mark_locomotive(address)

    def addresses(self) -> set[int]:
        """Returns the locomotives that the registry has and that can be driven."""
        made = {key[2] for key in self.mirror.rows if key[::3] == (self.number, "is") and key[1] == "GL"}
        return {address for address in made if self.track.locomotive(address)[0]}

    # ---- what cannot be driven

    def look_at(self, bus: int, group: str, address: int, row: Locomotive | Accessory) -> None:
        if why := self.fault_of(bus, group, address, row):
            self.leave_out(f"{bus} {group} {address}", why)

    def fault_of(self, bus: int, group: str, address: int, row: Locomotive | Accessory) -> LeftOut | None:
        """Returns why a device is not driven, or None."""
        if bus != self.number:
            return None if bus in self.elsewhere else LeftOut("bus", self.number)
        if row.protocol not in "NP":
            return LeftOut("protocol", row.protocol)
        return LeftOut("slots", self.track.slots) if group == "GL" and address in self.slotless else None

    def left_out(self) -> dict[str, LeftOut]:
        """Returns why devices are not driven, by their names."""
        self.slotless -= self.track.known
        self.elsewhere = driven(self.mirror.server[1])
        made = [(key, row) for key, row in self.mirror.rows.items() if isinstance(row, (Locomotive, Accessory))]
        faults = {f"{bus} {group} {address}": self.fault_of(bus, group, address, row)
                  for (bus, group, address, _), row in made}
        return {name: why for name, why in faults.items() if why}

    def full(self, address: int) -> None:
        """The station has no slot left for a locomotive: it stands, and its row says so."""
        self.slotless.add(address)
        made = self.mirror.rows.get((self.number, "GL", address, "is"))
        row = self.mirror.rows.get((self.number, "GL", address, "does"))
        assert made and row
        self.look_at(self.number, "GL", address, made)
        if row.v:
            self.holds.hold(("cab", address), row, "")

    def leave_out(self, name: str, why: LeftOut) -> None:
        """Tells of a device that is not driven, once; those of one moment together."""
        if name in self.told_of:
            return
        if not self.untold:
            asyncio.get_running_loop().call_later(COLLECTED, self.tell_left_out)
        self.told_of.add(name)
        called = f" {self.names[name]}" if name in self.names else ""
        self.untold.append(f"{name}{called} ({why})")

    def tell_left_out(self) -> None:
        say(f"not driven: {', '.join(self.untold)}")
        self.untold.clear()

    # ---- losses

    def join(self, anew: bool) -> None:
        if self.patience_ends:
            self.patience_ends.cancel()
        self.elsewhere = driven(self.mirror.server[1])
        self.holds.server_comes()
        for address in list(self.track.others if anew else ()):  # while it was away, hands had them drive: they stand
            self.track.take_in(address)
        self.track.mark_all()
        self.joined.set()

    def leave(self) -> None:
        self.holds.server_leaves()
        self.patience_ends = asyncio.get_running_loop().call_later(self.patience, self.lose_server)

    def lose_server(self) -> None:
        self.holds.server_goes()
        self.mark_held()
        self.stop_unseen()

    def lose(self, why: str) -> None:
        """Has all rest that is on or drives, until somebody commands it anew."""
        self.holds.lose(why)
        self.mark_held()
        self.stop_unseen()

    def stop_unseen(self) -> None:
        """Has those stand too whose rows say that they do, if the station keeps speeds while all stand: the report of a
        hand may be lost, and what it drives would start with the power."""
        for address in sorted(self.addresses() - {part[-1] for part in self.holds.held} if self.hooks.at_first else ()):
            self.track.forgets(("cab", address))

    def mark_held(self) -> None:
        for part in list(self.holds.held):
            self.track.mark(part)

    def station_comes(self) -> None:
        self.holds.station_comes()
        self.track.begin_anew()

    def station_goes(self) -> None:
        self.stopping, self.silent = False, frozenset()
        self.holds.station_goes()
