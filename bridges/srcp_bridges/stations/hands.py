"""What a station reports of its own: its power, and what a hand throttle at it does, as rows of the registry."""
import asyncio
from functools import partial

from srcp_bridges.limits import MOST_FUNCTIONS, TOGETHER
from srcp_bridges.program import say
from srcp_bridges.srcp.driving import switch
from srcp_bridges.srcp.replies import Code, Refused
from srcp_bridges.srcp.rows import FORWARD, STOP_ALL, Drive
from srcp_bridges.srcp.stop import send, stop_one
from srcp_bridges.stations.awaited import Part, Value
from srcp_bridges.stations.bus import Bus
from srcp_bridges.stations.holds import Seen
from srcp_bridges.stations.registry import POWER
from srcp_bridges.stations.reports import Reports

# Why the power is off.
OFF = "station says off"
PROGRAMS = "programming"


class Hands:
    """An echo of what the station was told changes nothing; what else it reports is ordered at the registry.

    `refused` has the locomotives that a hand drives and that the server does not make. `driven` has the speed, the
    direction and the time of what the station was told last of each locomotive; nothing, if a hand drives it since.
    `forgotten` has those that the station has forgotten since.
    """

    def __init__(self, bus: Bus):
        self.bus = bus
        self.track = bus.track
        self.orders = bus.orders
        self.mirror = bus.mirror
        self.reports = Reports()
        self.refused: set[int] = set()
        self.stopped: dict[int, float] = {}  # when a hand had a locomotive make an emergency stop
        self.driven: dict[int, tuple[float, ...]] = {}
        self.forgotten: set[int] = set()

    def is_news(self, part: Part, value: Value, usual: Value = None) -> bool:
        """Returns whether a report is no echo; what the station was told last is then what it reports."""
        if not self.reports.is_news(part, value, usual):
            return False
        if not self.reports.awaited(part):
            self.track.told[part] = value
        return True

    def power(self, on: int, why: str = OFF) -> None:
        """Takes a report of the power. What is off stays off until somebody switches it on."""
        if not self.is_news(POWER, on):
            return
        if on:
            self.orders.command(POWER, f"SET {self.bus.number} POWER ON")
        else:
            self.bus.lose(why)

    def overload(self) -> None:
        """The station has cut its power. It would try again by itself: so it is told to stay off."""
        self.bus.lose("overload")

    def locomotive(self, address: int, speed: int, way: int, functions: int, seen: Seen | None = None) -> None:
        """Takes a report of a locomotive; `functions` has a bit for each. `seen`: the stops and losses counted then."""
        made, drive = self.track.locomotive(address)
        seen = seen or self.bus.holds.seen(address)
        part, value = ("cab", address), (speed, way)
        if not made:
            self.track.others[address] = speed, way, functions, seen
            if self.reports.is_news(part, value, (0, FORWARD)):
                del self.reports.reported[part]  # it is news again once the registry has that locomotive
                if speed > 0:
                    self.orders.put(part, partial(self.make, address))
            return
        self.track.known.add(address)
        if self.is_news(part, value, (0, FORWARD)):
            self.drives(address, speed, way, drive, seen)
        for number in range(len(drive.functions)):
            on = functions >> number & 1
            if self.is_news(("function", address, number), on, 0):
                ask = partial(send, self.mirror.stops, self.mirror)
                act = partial(switch, self.mirror, ask, self.bus.number, address, {number: on})
                self.orders.put(("function", address, number), act)

    async def make(self, address: int) -> None:
        """Makes a locomotive that a hand drives, unless it is there. Once its row is told, that is set as it drives."""
        if await self.mirror.has((self.bus.number, "GL", address, False)):
            return
        self.track.making.add(address)
        made = f"GL {address} N 1 {self.track.top_of(address)} {MOST_FUNCTIONS}"
        try:
            await self.mirror.ask(f"INIT {self.bus.number} {made}")
            return
        except ConnectionError:
            pass  # it stands when the server is back
        except Refused as reply:
            if address not in self.refused and reply.code != Code.LOCKED:  # another made it, and has it locked
                say(f"STOP ALL does not reach locomotive {address}, which a hand throttle drives: "
                    f"the server says {reply}")
            self.refused.add(address)
        self.track.making.discard(address)

    def drives(self, address: int, speed: int, way: int, drive: Drive, seen: Seen) -> None:
        """A hand throttle drives a locomotive. If its row may not be changed, or was stopped meanwhile, the station is
        told the row again, but a stop stays."""
        self.driven[address] = ()
        part, command = ("cab", address), f"SET {self.bus.number} GL {address} {way}"
        stays = partial(self.bus.holds.keep, part)
        if speed > 0:
            command = f"{command} {speed} {self.track.top_of(address)}"
            self.orders.put(part, partial(self.start, part, command, seen), partial(self.track.mark, part))
        elif drive.v and speed < 0:
            self.orders.put(part, partial(stop_one, self.mirror, self.mirror.ask, self.bus.number, address), stays)
            if self.stops_all(address):
                self.bus.tell_power(STOP_ALL)
        elif drive.v or way != self.mirror.way(self.bus.number, address):
            self.orders.command(part, f"{command} 0 {drive.v_max}", stays)

    def stops_all(self, address: int) -> bool:
        """Returns whether the stop of a locomotive is one of all: none drives any more, and several were stopped in one
        moment. A DCC-EX station reports each by itself, and no button."""
        now = asyncio.get_running_loop().time()
        recent = {other: moment for other, moment in self.stopped.items() if moment > now - TOGETHER}
        self.stopped = recent | {address: now}
        return len(self.stopped) > 1 and not self.track.driving()

    async def start(self, part: Part, command: str, seen: Seen) -> None:
        """Has a locomotive drive, if it was not stopped and nothing was lost since a hand had it drive. A stop that
        comes while the command is on its way may overtake that at the server: then the row is held."""
        holds = self.bus.holds
        if holds.seen(part[1]) != seen:
            raise Refused(None, "it was stopped, or something was lost meanwhile")
        holds.starting[part] = seen
        try:
            await self.mirror.ask(command)
            await self.mirror.catches_up((self.bus.number, "GL", part[1], False))
        finally:
            del holds.starting[part]
