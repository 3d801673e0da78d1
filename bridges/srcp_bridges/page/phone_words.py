"""The lines of a phone, and what is done for each."""
from __future__ import annotations

import re
from collections import Counter
from collections.abc import Awaitable, Callable
from typing import NamedTuple

from srcp_bridges.limits import PULSE, TOP
from srcp_bridges.page.phone_layout import CLOSED, Layout
from srcp_bridges.page.phone_view import View, speed_of
from srcp_bridges.srcp.driving import Driver, Which
from srcp_bridges.srcp.replies import Code, Refused
from srcp_bridges.srcp.stop import stop_one

HORN = 2  # the function that is on for as long as it is pressed, if a phone says nothing else; others toggle
STEPS = "s1"  # the protocol's name for 126 steps, and a stop
URGENT = 0  # what stops goes before what waits
USUAL = 1
STOPS = re.compile(r"M(.)A([^<]*)<;>(?:X|I|Q|V-[0-9]{1,5}|V0{1,5})")
EVERY = "*"  # throttle, or key
OLD = "not done, since this program was stopped meanwhile"
POWER = ("", "power")


class Line(NamedTuple):
    """A line of a phone. Lines are carried out in their sorted order. `stops` gives how often others had stopped the
    locomotive of an address as the line came in. `is_old`: this program was stopped then, so a stop by others may be
    newer than the line. `by_phone`: if not, this program says the line, as for a silent phone. `is_held`: the network
    may have held the line back for as long as the phone was silent."""
    turn: int
    number: int
    text: str
    stops: Callable[[int], int]
    is_old: bool
    by_phone: bool
    is_held: bool


class Words:
    """Carries out what the lines of a phone say. `stopped` has the number of the last line with a stop: by throttle and
    key, and by address. `answered` has, by address, the stops by others that the phone has answered by a stop, or that
    came before the phone took the locomotive. After any other stop the phone's lines may be older, since the network
    holds lines back. So these lines make no locomotive faster.
    """

    def __init__(self, layout: Layout, driver: Driver, view: View, say: Callable[[str], None]):
        self.layout = layout
        self.bus = layout.bus
        self.driver = driver
        self.view = view
        self.say = say
        self.lines = 0
        self.stopped: dict[Which | int, int] = {}
        self.own: Counter[int] = Counter()  # stops that this phone ordered, by address
        self.momentary: dict[Which, set[int]] = {}  # functions, by locomotive
        self.answered: dict[int, int] = {}
        self.told: dict[Which, list[tuple[int, int]]] = {}  # the stops that the phone was told of, by locomotive

    def line(self, text: str, is_old: bool = False, by_phone: bool = True, is_held: bool = False) -> Line:
        """Takes note of a new line. Waiting lines do not start again what the line stops."""
        self.lines += 1
        turn = URGENT if (found := STOPS.fullmatch(text)) or text == "PPA0" else USUAL
        if turn == URGENT:
            self.stopped[(found[1], found[2]) if found else POWER] = self.lines
        counted = self.layout.mirror.stops.now()
        own = self.own.copy()
        return Line(turn, self.lines, text, lambda address: counted(self.bus, address) - own[address], is_old,
                    by_phone, is_held)

    def others(self, address: int) -> int:
        """Returns how often others have stopped a locomotive, or this program has as the phone was silent."""
        return self.layout.mirror.stops.count(self.bus, address) - self.own[address]

    def is_late(self, line: Line, *names: Which | int) -> bool:
        """Returns whether the phone itself stopped any of these after the line was sent."""
        return any(self.stopped.get(name, 0) > line.number for name in names)

    def refuse_old(self, line: Line) -> None:
        """Refuses a line that may be out of date. A stop never is."""
        if line.is_old and line.turn == USUAL:
            raise Refused(None, OLD)

    async def carry_out(self, line: Line) -> None:
        """Carries out a line; tells the phone what is refused."""
        try:
            if found := re.fullmatch(r"M(.)([-+AS])([^<]*)<;>(.*)", line.text):
                await self.multi(line, *found.groups())
            elif line.text in ("PPA0", "PPA1"):
                await self.power(line)
            elif found := re.fullmatch(r"PTA([TC2])(.*)", line.text):
                await self.turnout(line, *found.groups())
            elif line.text.startswith("PRA"):
                self.refuse_old(line)
                await self.route(line.text[4:])
        except Refused as reply:
            self.say(f"HM{reply}")

    async def multi(self, line: Line, throttle: str, act: str, key: str, words: str) -> None:
        """M<throttle><act><key><;><words>: for one locomotive, or with the key * for all of the throttle."""
        if act == "+":
            await self.add((throttle, key), words, line)
        elif act == "S":
            await self.steal((throttle, key), line)
        else:
            await self.each(throttle, key, lambda which: self.give_back(which) if act == "-" else
                            self.action(which, words, line))

    async def each(self, throttle: str, key: str, act: Callable[[Which], Awaitable[None]]) -> None:
        """Does the same for each locomotive that a line names. Once each was tried, Refused has all refusals."""
        refusals = []
        for which in list(self.driver.taken):
            is_named = throttle in (EVERY, which[0]) and key in (EVERY, which[1])
            try:
                if is_named and which in self.driver.taken:  # meanwhile another phone may have taken it over
                    await act(which)
            except Refused as reply:
                refusals.append(str(reply))
                self.view.anew(which)
        if refusals:
            raise Refused(None, "; ".join(dict.fromkeys(refusals)))

    async def add(self, which: Which, words: str, line: Line) -> None:
        """Takes a locomotive, by the address in the key. A locomotive of another phone is offered instead."""
        throttle, key = which
        if not (address := self.layout.address(key, words[1:] if words[:1] == "E" else "")):
            raise Refused(None, f"no locomotive {words or key}")
        if address not in self.driver.taken.values():  # what a line of before the silence takes has to be answered too
            self.answered[address] = line.stops(address) - line.is_held
        try:
            drive = await self.driver.take(which, address, 1 + (key[:1] == "L"))
        except Refused as reply:
            if reply.code == Code.LOCKED and self.layout.holder(address):
                return self.say(f"M{throttle}S{key}<;>{key}")  # the phone asks its user, and says the same
            raise
        self.momentary[which] = {HORN}
        self.say(f"M{throttle}+{key}<;>")
        self.say(f"M{throttle}L{key}<;>]\\[" + "]\\[".join(f"F{number}" for number in range(len(drive.functions))))
        self.view.forget(which)
        self.view.drive(which, drive)
        self.say(self.about(which, STEPS))

    async def steal(self, which: Which, line: Line) -> None:
        """Takes the locomotive of another phone. The locomotive drives on unchanged."""
        address = self.layout.address(which[1])
        if address and (holder := self.layout.holder(address)):
            await holder.words.yield_to(self.driver, address)
        await self.add(which, which[1], line)

    async def yield_to(self, other: Driver, address: int) -> None:
        """Lets another phone have a locomotive, and tells this one."""
        for which in [which for which, taken in self.driver.taken.items() if taken == address]:
            self.say(f"M{which[0]}-{which[1]}<;>")
        await self.driver.yield_to(other, address)

    async def give_back(self, which: Which) -> None:
        await self.driver.give_back(which)
        self.say(f"M{which[0]}-{which[1]}<;>")

    def about(self, which: Which, words: str) -> str:
        return f"M{which[0]}A{which[1]}<;>{words}"

    async def action(self, which: Which, words: str, line: Line) -> None:
        """Has a locomotive do what a line says."""
        address = self.driver.taken[which]
        if line.turn == URGENT:
            await self.stop(address, line, words)
        elif found := re.fullmatch(r"V([0-9]{1,5})|R([01])", words):
            self.refuse_old(line)
            v, mode = (int(word) if word else None for word in found.groups())
            await self.move(which, line, mode, None if v is None else min(v, TOP))
        elif found := re.fullmatch(r"([FfmM])([01])([0-9]{1,2})", words):
            self.refuse_old(line)
            await self.function(which, found[1], int(found[3]), int(found[2]))
        else:
            self.answer(which, address, words)

    async def stop(self, address: int, line: Line, words: str) -> None:
        """Has a locomotive stand (V0, I, Q), or make an emergency stop."""
        self.stopped[address] = line.number
        if line.by_phone and not line.is_held:  # or the app, as it is told of a stop: by then all has come of before
            self.answered[address] = line.stops(address)
        if words[0] in "IQ" or words[:2] == "V0":
            return await self.driver.drive(address, v=0)
        self.own[address] += line.by_phone
        await stop_one(self.layout.mirror, self.driver.ask, self.bus, address)

    async def move(self, which: Which, line: Line, mode: int | None, v: int | None) -> None:
        """Changes speed or direction, unless the phone has stopped the locomotive since. While stops by others are not
        answered, a locomotive that drives is only made slower, and a locomotive that stands is turned."""
        address = self.driver.taken[which]
        if self.is_late(line, address, which, (which[0], EVERY), (EVERY, EVERY), POWER):
            return
        now = speed_of(self.layout.drive(address))
        if (stopped := self.unanswered(which[0])) and (now if v is None else v > now):
            return self.refuse(which, stopped)
        await self.driver.drive(address, mode, v)

    def unanswered(self, throttle: str) -> list[tuple[int, int]]:
        """Returns which locomotives of a throttle others have stopped, and how often, if the phone has not answered.
        The locomotives of a throttle are coupled: if one is to stand, the others do not push."""
        together = sorted({address for which, address in self.driver.taken.items() if which[0] == throttle})
        stops = [(address, self.others(address)) for address in together]
        return [(address, count) for address, count in stops if count > self.answered[address]]

    def refuse(self, which: Which, stopped: list[tuple[int, int]]) -> None:
        """Tells the phone once why the locomotive does not drive, and each time how the locomotive drives."""
        if self.told.get(which) == stopped:
            return self.view.anew(which)
        self.told[which] = stopped
        addresses = ", ".join(str(address) for address, _ in stopped)
        raise Refused(None, f"{addresses}: stopped by others: press stop, or go to 0, before you drive on")

    async def function(self, which: Which, act: str, number: int, on: int) -> None:
        """F is the button of a function, pressed or let go; f sets the function; m says which buttons do not toggle."""
        momentary = self.momentary[which]
        address = self.driver.taken[which]
        if act == "m":
            (momentary.add if on else momentary.discard)(number)
            self.say(self.about(which, f"m{on}{number}"))
        elif act == "f" or number in momentary:
            await self.driver.switch(address, {number: on})
        elif on:
            await self.driver.switch(address, {number: None})

    def answer(self, which: Which, address: int, words: str) -> None:
        """Tells a phone an asked value. No phone can choose the steps (s): V goes to 126 for every locomotive."""
        if words in ("qV", "qR"):
            self.view.anew(which, words[1])
        elif words == "qs" or re.fullmatch("s[0-9]{1,2}", words):
            self.say(self.about(which, STEPS))
        elif words == "qm":
            drive = self.layout.drive(address)
            for number in range(len(drive.functions) if drive else 0):
                self.say(self.about(which, f"m{int(number in self.momentary[which])}{number}"))

    async def power(self, line: Line) -> None:
        """Switches the power. Off is a stop of the phone's own, which the panel tells as one by others."""
        is_on = self.layout.power()[0] == "PPA1"
        if line.text == "PPA1" and self.is_late(line, POWER):
            return
        try:
            self.refuse_old(line)
            await self.driver.ask(f"SET {self.bus} POWER {'ON' if line.text == 'PPA1' else 'OFF'}")
        except Refused:
            self.view.again("power", "POWER", 0)
            raise
        if line.text == "PPA0" and not line.is_held:
            await self.layout.mirror.catches_up((self.bus, "POWER", 0, False))
            self.answered |= {address: line.stops(address) + is_on for address in self.driver.taken.values()}

    async def route(self, name: str) -> None:
        """Asks for a route, or gives back a route that is set or waits."""
        routes = self.layout.routes
        if not name.isdecimal() or not routes.is_there(int(name)):
            raise Refused(None, f"no route {name}" if routes.told() else "this layout has no routes")
        port = int(not routes.is_wanted(int(name)))
        await self.driver.ask(f"SET {routes.bus} GA {int(name)} {1 - port} 0 -1")
        await self.driver.ask(f"SET {routes.bus} GA {int(name)} {port} 1 {PULSE}")

    async def turnout(self, line: Line, what: str, name: str) -> None:
        """T throws, C closes, 2 does the other. A name is a number, or one of JMRI's, as LT5."""
        if not (found := re.fullmatch("(?:[A-Z]T)?([0-9]{1,4})", name)):
            raise Refused(None, f"turnouts are numbers here, not {name}")
        address = int(found[1])
        try:
            self.refuse_old(line)
            await self.driver.make(self.driver.ask, f"GA {address}", "0", "N")
            thrown = int(what == "T" or what == "2" and self.layout.lies(address) == CLOSED)
            await self.driver.ask(f"SET {self.bus} GA {address} {1 - thrown} 0 -1")
            await self.driver.ask(f"SET {self.bus} GA {address} {thrown} 1 {PULSE}")
        except Refused:
            if self.layout.mirror.rows.get((self.bus, "GA", address, "is")):
                self.view.again(("GA", address), "GA", address)
            raise
