"""The layout as phones are told of it, in the texts of WiThrottle."""
from __future__ import annotations

import argparse
import asyncio
import contextlib
import re
from typing import TYPE_CHECKING

from srcp_bridges.limits import GATHERED, PHONES, PHONES_OF_ONE
from srcp_bridges.page.phone_routes import NO_ROUTES, Routes
from srcp_bridges.page.places import Places
from srcp_bridges.plan.plan import read_plan
from srcp_bridges.program import names
from srcp_bridges.srcp.mirrors import Mirror
from srcp_bridges.srcp.rows import ALL_STOOD, CONFIRMED, THROWN as BY_HAND, UNCONFIRMED, Change, Drive, Power, position

if TYPE_CHECKING:
    from srcp_bridges.page.phone import Phone

CONFIRMING = (ALL_STOOD, UNCONFIRMED, CONFIRMED, BY_HAND)  # texts of the power that tell of no new stop
STAND_EVERY = "M*A*<;>V0"  # as a phone says that all stands that it has taken
ROUTES = "routes"  # a list, beside those of the groups GL and GA
UNKNOWN = "1"
CLOSED = "2"
THROWN = "4"
KINDS = "PTT]\\[Turnouts}|{Turnout]\\[Closed}|{2]\\[Thrown}|{4]\\[Unknown}|{1"


class Layout:
    """The rows of the bus, and the phones that follow these rows."""

    def __init__(self, asked: argparse.Namespace):
        plan = read_plan(asked.plan)
        self.asked = asked
        self.bus = asked.bus
        self.places = Places(PHONES, PHONES_OF_ONE)
        self.names = plan.names | names(asked.names)
        self.phones: set[Phone] = set()
        self.due: set[str] = set()  # the lists that are about to be told anew
        self.joined = asyncio.Event()
        self.mirror = Mirror(asked, self.on_change, lambda anew: self.joined.set())
        self.routes = Routes(self.mirror, plan)

    def on_change(self, change: Change) -> None:
        bus, group, address, part = change.key
        if bus == self.routes.bus and address in self.routes.names:
            self.told_of_route(group, address, part)
        if bus != self.bus or part == "lock":
            return
        if part == "is" and not (change.row and change.before):
            self.list_anew(group)
        elif change.row:
            if isinstance(change.row, Power):
                self.power_changed(change.before if isinstance(change.before, Power) else None, change.row)
            for phone in self.phones:
                phone.view.changed(group, address)

    def told_of_route(self, group: str, number: int, part: str | int) -> None:
        if (group, part) == ("GA", "is"):
            self.list_anew(ROUTES)
        elif group == "FB":
            for phone in self.phones:
                phone.view.route(number)

    def power_changed(self, before: Power | None, row: Power) -> None:
        """As the power goes off, refuses earlier lines of phones. A reason means a loss, or a STOP ALL that could not
        stop the phones' locked locomotives: these are put to rest, so none drives as the power comes back. Of a server
        started anew only the reason tells."""
        is_new = bool(row.text) and (not before or before.text != row.text) and not row.text.startswith(CONFIRMING)
        if row.on or not (before and before.on or is_new):
            return
        self.mirror.stops.all += 1
        if row.text:
            for phone in self.phones:
                phone.on_line(STAND_EVERY, by_phone=False)

    async def look_for_bus(self) -> None:
        """Asks each joined server whether it has the bus."""
        while True:
            await self.joined.wait()
            self.joined.clear()
            with contextlib.suppress(OSError):  # it has gone again
                await self.mirror.look_for_bus(self.bus)

    def list_anew(self, group: str) -> None:
        """Tells phones a list within a moment, once for all that changes until then."""
        if group not in self.due:
            self.due.add(group)
            asyncio.get_running_loop().call_later(GATHERED, self.tell_list, group)

    def tell_list(self, group: str) -> None:
        self.due.discard(group)
        if group == "GL":
            texts = [self.roster()]
        else:
            texts = [self.turnouts()] if group == "GA" else self.routes.told() or [NO_ROUTES]
        for phone in self.phones:
            phone.view.shown |= self.routes.shown() if group == ROUTES else {}
            for text in texts:
                phone.say(text)

    def drive(self, address: int) -> Drive | None:
        return self.mirror.rows.get((self.bus, "GL", address, "does"))

    def name(self, group: str, address: int) -> str:
        name = self.names.get(f"{self.bus} {group} {address}", str(address))
        return re.sub(r"[\]\[{}|\\<>;]", " ", name)  # which the protocol puts between names

    def addresses(self, group: str) -> list[int]:
        return sorted(key[2] for key in self.mirror.rows if (key[0], key[1], key[3]) == (self.bus, group, "is"))

    def address(self, key: str, entry: str = "") -> int | None:
        """Returns the address in a key (S3, L341), or the address of a name in the roster, if the key has none."""
        if number := re.fullmatch("[SL]([0-9]{1,5})", key):
            return int(number[1])
        named = (address for address in self.addresses("GL") if self.name("GL", address) == entry)
        return next(named, None)

    def lies(self, address: int) -> str:
        port = position(self.mirror.rows, self.bus, address)
        return UNKNOWN if port is None else THROWN if port else CLOSED

    def power(self) -> tuple[str, str]:
        """Returns the lines of the power for phones, and why the power is off, or its fault, if known."""
        power = self.mirror.rows.get((self.bus, "POWER", 0, "does"))
        if power and power.on:
            return "PPA1", power.text if power.text.startswith(UNCONFIRMED) else ""
        return "PPA0", f"power off: {power.text}" if power and power.text else ""

    def roster(self) -> str:
        entries = [f"{self.name('GL', address)}}}|{{{address}}}|{{{'S' if address < 128 else 'L'}"
                   for address in self.addresses("GL")]
        return "]\\[".join([f"RL{len(entries)}", *entries])

    def turnouts(self) -> str:
        entries = [f"{address}}}|{{{self.name('GA', address)}}}|{{{self.lies(address)}"
                   for address in self.addresses("GA")]
        return "]\\[".join(["PTL", *entries])

    def beat(self) -> str:
        return f"*{self.asked.heartbeat:g}"

    def greeting(self) -> list[str]:
        lists = [self.roster(), self.power()[0], KINDS, self.turnouts(), *self.routes.told()]
        return ["VN2.0", "HTsrcp", *lists, self.beat()]

    def holder(self, address: int) -> Phone | None:
        """Returns the phone that has taken a locomotive."""
        return next((phone for phone in self.phones if address in phone.driver.taken.values()), None)
