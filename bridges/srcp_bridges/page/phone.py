"""A connected phone: lines come in, wait, and are carried out."""
import asyncio
import socket

from srcp_bridges.limits import (CLOCK_LOOK, LINES_WAITING, LONGEST_NAME, NAMELESS, PHONE_BEHIND, READ_AT_ONCE,
                                 WAS_STOPPED)
from srcp_bridges.page.phone_layout import STAND_EVERY, Layout
from srcp_bridges.page.phone_view import View
from srcp_bridges.page.phone_words import USUAL, Line, Words
from srcp_bridges.page.places import Full
from srcp_bridges.program import say
from srcp_bridges.srcp.driving import Driver

VANISHED = {socket.TCP_KEEPIDLE: 5, socket.TCP_KEEPINTVL: 2, socket.TCP_KEEPCNT: 3,
            socket.TCP_USER_TIMEOUT: 11000}  # type: ignore[attr-defined]
STOP_EVERY = "M*A*<;>X"
END = "Q"


class Phone:
    """The connection of a phone. `waiting` has its lines in the order in which they are carried out."""

    def __init__(self, layout: Layout, reader: asyncio.StreamReader, writer: asyncio.StreamWriter):
        self.layout = layout
        self.reader = reader
        self.writer = writer
        self.driver = Driver(layout.mirror, layout.bus)
        self.watched = False
        self.looked = asyncio.get_running_loop().time()
        self.went_on = self.looked - WAS_STOPPED
        self.is_silent = False
        self.came_back = self.looked - WAS_STOPPED
        self.view = View(layout, self.driver.taken, self.say)
        self.words = Words(layout, self.driver, self.view, self.say)
        self.waiting: asyncio.PriorityQueue[Line] = asyncio.PriorityQueue()

    def say(self, text: str) -> None:
        if self.writer.transport.get_write_buffer_size() > PHONE_BEHIND:
            self.writer.transport.abort()
        elif not self.writer.is_closing():
            self.writer.write(text.encode() + b"\r\n")

    def on_line(self, text: str, by_phone: bool = True) -> None:
        """Takes in a line, of the phone or, if it is silent, of this program."""
        if text in ("*+", "*-"):
            self.watched = text == "*+"
        elif text.startswith("N"):
            self.driver.name = "phone " + "".join(letter for letter in text[1:LONGEST_NAME] if letter.isprintable())
            self.say(self.layout.beat())
        elif text != END:
            line = self.words.line(text, self.was_stopped(), by_phone, self.was_silent())
            if self.waiting.qsize() < (LINES_WAITING if line.turn == USUAL else 2 * LINES_WAITING):
                self.waiting.put_nowait(line)
            else:
                self.say("HMtoo many lines wait")

    async def look_at_the_clock(self) -> None:
        while True:
            now = asyncio.get_running_loop().time()
            if now - self.looked > WAS_STOPPED:
                self.went_on = now
            self.looked = now
            await asyncio.sleep(CLOCK_LOOK)

    def was_stopped(self) -> bool:
        """Returns whether this program has just gone on after a stop."""
        now = asyncio.get_running_loop().time()
        return now - self.looked > WAS_STOPPED or now - self.went_on < WAS_STOPPED

    def was_silent(self) -> bool:
        """Returns whether the phone has just come back after a silence: a line that comes in then may be as old as the
        silence."""
        return asyncio.get_running_loop().time() - self.came_back < WAS_STOPPED

    async def next_line(self) -> str:
        """Returns the next line. A silent phone is stopped, and counts as gone after a while."""
        if self.waiting.qsize() >= LINES_WAITING and self.words.lines % READ_AT_ONCE == 0:
            await asyncio.sleep(0)  # other phones have their turn
        for seconds in (self.layout.asked.heartbeat if self.watched else None, self.layout.asked.patience):
            try:
                async with asyncio.timeout(seconds):
                    line = (await self.reader.readuntil(b"\n")).decode("utf-8", "replace").strip()
            except TimeoutError:
                self.is_silent = True
                self.on_line(STOP_EVERY, by_phone=False)
                continue
            if self.is_silent:
                self.is_silent = False
                self.came_back = asyncio.get_running_loop().time()
            return line
        raise ConnectionError("silent for too long")

    async def read(self) -> str:
        """Takes in the lines of a phone until it has gone; returns why."""
        text = ""
        try:
            async with asyncio.timeout(NAMELESS):
                while text != END and not text.startswith("N"):
                    self.on_line(text := await self.next_line())
        except TimeoutError:
            return "told no name"
        while text != END:
            self.on_line(text := await self.next_line())
        return "said good-bye"

    async def read_all(self) -> None:
        """Takes in all lines. At the end all locomotives taken by the phone stand at once, and then the waiting lines
        are done."""
        why = "this program is ended"
        try:
            why = await self.read()
        except EOFError:
            why = "closed the connection"
        except (OSError, asyncio.LimitOverrunError) as fault:
            why = str(fault)
        finally:
            say(f"phone {self.peer}: {why}")
            self.on_line(STAND_EVERY, by_phone=False)
            self.waiting.put_nowait(self.words.line(END))

    async def carry_out(self) -> None:
        """Carries out the lines that wait, until the last."""
        while (line := await self.waiting.get()).text != END:
            await self.words.carry_out(line)

    async def serve(self) -> None:
        self.peer = self.writer.get_extra_info("peername")[0]
        try:
            with self.layout.places.place(self.peer):
                await self.drive()
        except Full as full:
            say(f"phone {self.peer}: turned away, {full}")
            self.say(f"HMno place for this phone: {full}")
        finally:
            self.writer.close()

    async def drive(self) -> None:
        """Has a phone drive until the phone has gone; then the locomotives that it had taken stand."""
        say(f"phone {self.peer}: joined")
        connection = self.writer.get_extra_info("socket")
        connection.setsockopt(socket.SOL_SOCKET, socket.SO_KEEPALIVE, 1)
        for option, value in VANISHED.items():
            connection.setsockopt(socket.IPPROTO_TCP, option, value)
        self.view.begin()
        self.layout.phones.add(self)
        looking = asyncio.create_task(self.look_at_the_clock())
        reading = asyncio.create_task(self.read_all())
        try:
            await self.carry_out()
            await reading
        except asyncio.CancelledError:
            pass  # this program is ended: what the phone had taken stands, as ever
        finally:
            self.layout.phones.discard(self)
            looking.cancel()
            reading.cancel()
            await self.driver.end()
