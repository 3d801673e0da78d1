"""What every driver of a command station does: tells it what differs, and the registry what the track does."""
import argparse
import asyncio
import contextlib
import time
from collections.abc import Coroutine

from srcp_bridges.limits import (AGAIN, ANSWERS, ASK, PACE, SENSORS_WAITING, STATE_TOLD, TOP, TURNOUT_PACE,
                                 UNANSWERED)
from srcp_bridges.program import BUS, Arguments, arguments, names, say
from srcp_bridges.srcp.replies import Refused
from srcp_bridges.state import SELF
from srcp_bridges.stations.awaited import Ahead, Part, Value
from srcp_bridges.stations.bus import Bus
from srcp_bridges.stations.datagrams import Datagrams
from srcp_bridges.stations.hands import Hands
from srcp_bridges.stations.holds import Seen
from srcp_bridges.stations.last_words import LastWords
from srcp_bridges.stations.line import Line
from srcp_bridges.stations.programming import Programming
from srcp_bridges.stations.registry import POWER
from srcp_bridges.stations.track import URGENT, Hooks


class Station:
    """The line to a command station, which is opened again and again.

    The driver of one kind of station gives: `connect`, which opens a line; `take`, which takes a message that ends in
    END; `encode`, which returns the command for a part of the track and its value; `encode_cv`, which returns the
    one for a CV; and the four commands.
    """
    END = b"\n"
    ANSWER = ASK  # seconds for which an answer is waited for
    HELLO = b""
    ALIVE = b""
    STOP_ALL = b""
    SENSORS = b""
    PROGRAMS_BESIDE = True  # as Programming has it
    REPEATS: float | None = None
    ROOM, MOST, RESERVE = 48, 27, 16  # as Ahead has them: an Arduino Mega has 64 bytes for what comes in
    TIMES = 5  # how often the last words are said, since some may be lost
    TOPS: tuple[int, ...] = (TOP,)  # as Hooks has them
    AT_FIRST: Value | None = None

    def __init__(self, asked: argparse.Namespace):
        self.name = asked.station
        self.silence = asked.silence
        self.again = asked.again
        hooks = Hooks(self.stop_at_once, self.unlocked, self.awaits, self.drive_on, self.TOPS, self.AT_FIRST)
        self.bus = Bus(asked, names(asked.names), hooks)
        self.track = self.bus.track
        self.hands = Hands(self.bus)
        self.sensors: asyncio.Queue[tuple[int, int]] = asyncio.Queue(SENSORS_WAITING)
        self.ready = asyncio.Event()
        self.answered = asyncio.Event()
        self.unanswered = 0
        self.questions = 0
        self.began = 0.0
        self.heard = False  # since it was told to stop all
        self.stop_asked = 0.0  # when it was asked last whether it has heard that
        self.ahead = Ahead(self.ROOM, self.MOST, self.RESERVE)
        self.last_words = LastWords(asked, self.TIMES)
        self.line: Line | Datagrams
        self.programming = Programming(self, self.PROGRAMS_BESIDE, self.REPEATS)

    async def connect(self) -> Line | Datagrams:
        raise NotImplementedError

    def take(self, message: bytes) -> None:
        raise NotImplementedError

    def encode(self, part: Part, value: Value) -> bytes:
        raise NotImplementedError

    def encode_cv(self, cv: int, value: int | None) -> bytes:
        raise NotImplementedError

    # ---- what the bus and its track call, beside `stop_at_once`

    def unlocked(self, address: int) -> None:
        """Nobody has a turnout locked any more."""

    def awaits(self, part: Part) -> bool:
        """Returns whether a part is told nothing else meanwhile."""
        return False

    def drive_on(self, address: int, speed: int, way: int, functions: int, seen: Seen) -> None:
        """Takes again what was reported of a locomotive that was made."""
        self.hands.locomotive(address, speed, way, functions, seen)

    # ---- what `take` calls

    def greeted(self, message: str) -> None:
        """The station has just started, or answers the first question: it stops all, and nothing starts by itself."""
        say(f"station: {message}")
        self.programming.lose()
        self.hands.reports.clear()
        self.say_stop_all()
        now = asyncio.get_running_loop().time()
        if self.ready.is_set() and self.questions > 1 and now < self.began + ANSWERS:
            self.track.begin_anew()
        else:
            self.began = now
            self.ready.set()
            self.bus.station_comes()
        self.ask_sensors()

    def say_stop_all(self) -> None:
        self.hands.reports.telling_all_to_stop()
        self.line.write(self.STOP_ALL)

    def stop_at_once(self) -> None:
        """Tells the station to stop all, before anything that waits: the answer to a question too."""
        self.heard = False
        if self.ready.is_set():
            with contextlib.suppress(OSError):  # another task sees to that
                self.say_stop_all()
                self.ask_whether_heard()

    def ask_whether_heard(self) -> None:
        """Asks for something small, whose answer shows that the station has heard a STOP ALL."""
        self.stop_asked = asyncio.get_running_loop().time()
        self.line.write(self.ALIVE)

    def stands(self) -> bool:
        """Returns whether all stand, as far as the station says."""
        return self.ready.is_set() and self.heard

    def look_whether_all_stand(self) -> None:
        """Answers a STOP ALL once all stand."""
        if self.bus.stopping and self.stands():
            self.bus.all_stood()

    def ask_sensors(self) -> None:
        self.line.write(self.SENSORS)

    def alive(self) -> None:
        self.heard = True
        self.answered.set()

    def sensor(self, address: int, value: int) -> None:
        self.sensors.put_nowait((address, value))

    # ---- tasks

    async def hear(self) -> None:
        """Takes what the station says, until its line is lost."""
        while True:
            message = await self.line.read(self.END)
            self.unanswered = 0
            self.take(message)
            self.look_whether_all_stand()
            while self.sensors.full():
                await asyncio.sleep(PACE)

    async def tell(self) -> None:
        """Asks the station who it is until it answers, and then tells it what differs."""
        self.questions = 0
        self.ahead.has_read()
        while not self.ready.is_set():
            self.questions += 1
            await self.ask(self.HELLO, self.ready)
        while True:
            self.track.changed.clear()
            while not self.ahead.fits(urgent=False) or self.tell_one():
                await self.line.drain()
                await asyncio.sleep(PACE)
                if not self.ahead.fits(urgent=False):
                    await self.wait_until_read()
            await self.track.changed.wait()

    async def wait_until_read(self) -> None:
        """Waits until the station has read what it was told. What is urgent is told meanwhile, as far as that fits."""
        now = asyncio.get_running_loop().time
        ends = ask = now() + self.ANSWER
        self.answered.clear()
        while not self.answered.is_set() and now() < ends:
            while self.track.waiting[URGENT] and self.ahead.fits(urgent=True) and self.tell_one():
                pass
            if now() >= ask or ask == ends:  # also if the question was lost
                self.line.write(self.ALIVE)
                ask = now() + AGAIN
            await self.answer_or_change(ask - now())
        self.ahead.has_read()

    async def answer_or_change(self, seconds: float) -> None:
        """Waits until the station answers, or what it is to be told has changed; a while at most."""
        self.track.changed.clear()
        waits = [asyncio.create_task(event.wait()) for event in (self.answered, self.track.changed)]
        try:
            await asyncio.wait(waits, timeout=max(0, seconds), return_when=asyncio.FIRST_COMPLETED)
        finally:
            for task in waits:
                task.cancel()

    def tell_one(self) -> bool:
        """Tells the station the most urgent of what differs; returns whether there was something."""
        if not (found := self.track.next()):
            return False
        command = self.command(*found)
        self.telling(*found)
        self.line.write(command)
        self.ahead.tell(len(command))
        self.track.tell(*found)
        (kind, *numbers), value = found
        if kind == "cab":
            self.hands.driven[numbers[0]] = *value, time.monotonic()  # which is that of all programs of this machine
            self.hands.forgotten.discard(numbers[0])
        return True

    def command(self, part: Part, value: Value) -> bytes:
        """Returns what the station is told of a part, and asked with it."""
        return self.encode(part, value)

    def telling(self, part: Part, value: Value) -> None:
        """Notes what the station is told, for what it reports then."""
        self.hands.reports.telling(part, value)

    async def ask(self, question: bytes, answered: asyncio.Event) -> None:
        """Asks the station something, and waits a while for its answer."""
        answered.clear()
        self.line.write(question)
        with contextlib.suppress(TimeoutError):
            async with asyncio.timeout(self.ANSWER):  # wait_for of Python 3.11 loses a cancellation
                await answered.wait()

    async def beat(self) -> None:
        """Asks for something small now and then: one that answers nothing is gone."""
        while True:
            await asyncio.sleep(self.silence / (UNANSWERED + 1))
            if self.unanswered == UNANSWERED:
                raise ConnectionError("silent")
            self.unanswered += 1
            self.line.write(self.ALIVE)

    async def serve(self) -> None:
        """Serves the station over one opening of its line; has all stand, and takes the power off, at the end."""
        self.line, self.unanswered = await self.connect(), 0
        self.last_words.leave(self.line.number(), self.STOP_ALL + self.encode(POWER, 0))
        say(f"station: {self.name} is open")
        tasks = [asyncio.create_task(task) for task in self.tasks()]
        try:
            await asyncio.gather(*tasks)
        finally:
            for task in tasks:
                task.cancel()
            with contextlib.suppress(OSError):
                await self.leave()
            self.ready.clear()
            self.programming.lose()
            self.last_words.take_back()
            self.line.close()

    def tasks(self) -> list[Coroutine[object, object, None]]:
        """Returns what is done over one opening of the line."""
        return [self.hear(), self.tell(), self.beat(), self.last_words.run()]

    async def leave(self) -> None:
        """Has all stand, and takes the power off."""
        self.line.write(self.STOP_ALL + self.encode(POWER, 0))
        async with asyncio.timeout(ASK):
            await self.line.drain()

    async def keep_line(self) -> None:
        while True:
            try:
                await self.serve()
            except OSError as fault:
                say(f"station: {fault}")
                if (task := asyncio.current_task()) and task.cancelling():
                    raise asyncio.CancelledError from None  # gather told of the fault in place of the program's end
            finally:
                self.bus.station_goes()
            await asyncio.sleep(self.again)

    async def on_join(self) -> None:
        """A server that was started anew knows of no sensor: has the station tell of all."""
        while True:
            await self.bus.joined.wait()
            self.bus.joined.clear()
            with contextlib.suppress(OSError):  # another task sees to that
                if self.ready.is_set():
                    self.ask_sensors()
                await self.bus.mirror.look_for_bus(self.bus.number)

    async def feedback(self) -> None:
        """Sets what the sensors report."""
        while True:
            address, value = await self.sensors.get()
            try:
                await self.bus.mirror.ask(f"SET {self.bus.number} FB {address} {value}")
            except Refused as reply:
                say(f"station: sensor {address}: {reply}")
            except ConnectionError:
                pass  # all sensors are asked for when the server is back

    async def tell_of_itself(self) -> None:
        """Tells doctor.py how the station is, what is not driven, and what was told last of each locomotive."""
        while True:
            left_out = self.bus.left_out()
            SELF.tell_station(bus=self.bus.number, name=self.name, here=self.ready.is_set(), slots=self.track.slots,
                              taken=len(self.track.known), left_out={name: str(why) for name, why in left_out.items()},
                              left_out_by={name: {why.by: why.value} for name, why in left_out.items()},
                              told=dict(self.hands.driven), forgotten=sorted(self.hands.forgotten),
                              door=self.programming.path)
            await asyncio.sleep(STATE_TOLD)

    async def run(self) -> None:
        """Drives until this program is ended. The registry then says that no station is driven."""
        runs = (self.bus.mirror.run(), self.bus.orders.run(), self.keep_line(), self.on_join(), self.feedback(),
                self.tell_of_itself(), self.programming.run())
        tasks = [asyncio.create_task(task) for task in runs]
        try:
            await asyncio.gather(*tasks)
        finally:
            for task in tasks:
                if not task.cancelling():  # once: who leaves a station needs a while
                    task.cancel()
            await asyncio.wait(tasks)
            with contextlib.suppress(OSError):
                async with asyncio.timeout(ASK):
                    await self.bus.orders.carry_out()


def words_of_driver(about: str | None) -> Arguments:
    """Returns a parser of what every driver can be told."""
    words = arguments(about)
    words.add_argument("--bus", type=BUS, default=1, help="the bus that is put on the track (%(default)s)")
    words.add_argument("--patience", type=float, default=3.0, metavar="SECONDS", help="without a server: all stand")
    words.add_argument("--silence", type=float, default=9.0, metavar="SECONDS", help="of a station: opened anew")
    words.add_argument("--asleep", type=float, default=5.0, metavar="SECONDS",
                       help="that this program sleeps until all stand (%(default)s)")
    words.add_argument("--turnout-pace", type=float, default=TURNOUT_PACE, metavar="NUMBER",
                       help="of turnouts that are thrown in a second, at most (%(default)s)")
    words.add_argument("--names", metavar="FILE", help="names of devices, for what is told of them")
    return words
