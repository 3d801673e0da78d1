#!/usr/bin/env python3
"""A port for programs that were written for srcpd: it passes all to the server, and answers what the server leaves out.

Each client has a session of its own at the server, which is sent its lines as they are and answers them. This program
answers these, by SRCP 0.8.4:

  GET b DESCRIPTION                       the groups of a bus
  GET b DESCRIPTION GL a, or GA a         what a locomotive, or an accessory, is
  GET 0 SERVER                            RUNNING; it can neither be reset nor ended
  INIT, SET, GET, TERM and WAIT 0 TIME    a clock: INIT 0 TIME 6 1 has it go six times as fast as the day
  WAIT b FB a value seconds               the sensor, once it has that value
  SET 0 GM to from type text              a message for the information session `to` that came this way; 0: for each
  INIT b GL a L .., or INIT b GA a L      as P, which leaves the protocol to the server; so A, F and Z
  INIT b SM NMRA, GET b SM 0 CV cv        a CV, if a driver on this machine has that bus; so SET, VERIFY and TERM

An information session that sends GET 0 SERVER, GET 0 TIME or GET b DESCRIPTION is told that between its other lines,
and after GET 0 TIME each minute of the clock. Functions that a locomotive does not have are left out of its SET.

With --one-port all clients throw turnouts by port 0 alone, as JMRI does: 1 is the branch, and 0 is straight.
"""
import argparse
import asyncio
import re
import time
from collections.abc import Callable, Coroutine

from srcp_bridges.limits import CLIENTS, CLIENTS_OF_ONE, LINES_WAITING, LINGER, LONGEST_READ, PULSE
from srcp_bridges.page.places import Full, Places, add_arguments, listen
from srcp_bridges.program import arguments, run, say
from srcp_bridges.srcp.old_words import FORBIDDEN, LATE, NO_DATA, NUMBER, SHORT, UNSUPPORTED, Answers, fault
from srcp_bridges.srcp.replies import Code
from srcp_bridges.srcp.service_mode import ServiceMode
from srcp_bridges.state import SELF

PORTS = re.compile(rb"(\S+ 100 INFO \d+ GA \d+ )([01]) ([01])\n")  # what a panel is told of a turnout
FOREIGN = re.compile(rb"([ \t]*INIT[ \t]+\d+[ \t]+G[LA][ \t]+\d+[ \t]+)[AFLZ](?=[ \t\r]|$)", re.I)


class Proxy:
    """The clients, and what they share."""

    def __init__(self, asked: argparse.Namespace):
        self.asked = asked
        self.places = Places(CLIENTS, CLIENTS_OF_ONE)
        self.clients: set[Client] = set()
        self.answers = Answers(asked, lambda text: self.tell(text, lambda client: client.asked_time))

    def tell(self, text: str, is_for: Callable[["Client"], bool]) -> None:
        """Tells a line of this program's own to information sessions."""
        for client in self.clients:
            if client.is_panel and is_for(client):
                client.say(text)

    def message(self, words: list[str]) -> str:
        """Answers SET 0 GM to from type text."""
        if len(words) < 4:
            return SHORT
        if wrong := fault(words[:2], 1 << 32, 1 << 32):
            return wrong
        to = int(words[0])
        if to and to not in [client.id for client in self.clients if client.is_panel]:
            return NO_DATA
        self.tell(f"100 INFO 0 GM {' '.join(words)}", lambda client: to in (0, client.id))
        return "200 OK"

    async def run(self) -> None:
        async with listen(lambda *ends: Client(self, *ends).serve(), self.asked.bind, self.asked.listen):
            await asyncio.gather(self.answers.mirror.run(), self.answers.tell_minutes())


class Client:
    """The connection of a client, and another for the client to the server. The client's lines are carried out in turn.
    """

    def __init__(self, proxy: Proxy, reader: asyncio.StreamReader, writer: asyncio.StreamWriter):
        self.proxy = proxy
        self.reader = reader
        self.writer = writer
        self.lines: asyncio.Queue[bytes | None] = asyncio.Queue(LINES_WAITING)
        self.replies: asyncio.Queue[bytes] = asyncio.Queue()  # those that came, and an empty one at the end
        self.keeps = False  # replies from the client: this program has asked
        self.mode = "COMMAND"
        self.id = 0
        self.is_panel = False
        self.asked_time = False
        self.peer = writer.get_extra_info("peername")[0]
        self.port = proxy.answers.mirror.server[1]
        self.service_mode = ServiceMode(self.port)

    def say(self, text: str) -> None:
        self.writer.write(f"{time.time():.3f} {text}\n".encode("latin-1"))

    async def read(self) -> None:
        """Takes in the lines of the client. A line that is too long keeps as many bytes as the server needs for its
        refusal."""
        begun = b""
        try:
            while more := await self.reader.read(1 << 16):
                *lines, begun = (begun + more).split(b"\n")
                for line in lines:
                    await self.lines.put(line[:LONGEST_READ + 9])
                begun = begun[:LONGEST_READ + 9]
        except OSError:
            pass  # it has gone
        await self.lines.put(None)

    async def hear(self, upstream: asyncio.StreamReader) -> None:
        """Passes the server's lines on, and takes the replies until the lines of a panel begin."""
        try:
            while line := await upstream.readline():
                if not self.keeps:
                    self.writer.write(self.as_told(line))
                    await self.writer.drain()
                if not self.is_panel:
                    words = line.split()
                    if not self.id and words[1:4] == [b"200", b"OK", b"GO"]:
                        self.id = int(words[4])
                        self.is_panel = self.mode == "INFO"
                        SELF.begins(self.port, self.id, f"client {self.peer}")
                    self.replies.put_nowait(line)
        finally:
            self.replies.put_nowait(b"")

    def as_told(self, line: bytes) -> bytes:
        """Returns the client's lines for a line of the server. With --one-port a panel is told each throw, and by port
        0 alone."""
        is_port = self.is_panel and self.proxy.asked.one_port and PORTS.fullmatch(line)
        if not is_port:
            return line
        begin, port, value = is_port.groups()
        return begin + b"0 " + port + b"\n" if value == b"1" else b""

    async def serve(self) -> None:
        try:
            with self.proxy.places.place(self.peer):
                await self.carry_out_all()
        except (OSError, Full) as why:
            say(f"client {self.peer}: {why}")
        finally:
            self.writer.close()

    async def carry_out_all(self) -> None:
        """Carries out the client's lines, until the client has gone and all is answered, or the server has gone."""
        upstream, self.server = await asyncio.open_connection(*self.proxy.answers.mirror.server)
        self.hearing = asyncio.create_task(self.hear(upstream))
        self.reading = asyncio.create_task(self.read())
        self.proxy.clients.add(self)
        try:
            await self.replies.get()  # the welcome line
            while (line := await self.next_line()) is not None:
                await self.carry_out(line)
            self.server.write_eof()
            await self.hearing
        finally:
            self.proxy.clients.discard(self)
            SELF.ends(self.port, self.id)
            self.hearing.cancel(), self.reading.cancel()
            self.server.close()

    async def next_line(self) -> bytes | None:
        """Returns the next line of the client; None if there is none, or the server has gone."""
        line = asyncio.create_task(self.lines.get())
        await asyncio.wait([line, self.hearing], return_when=asyncio.FIRST_COMPLETED)
        if self.hearing.done():
            line.cancel()
            return None
        return line.result()

    async def carry_out(self, line: bytes) -> None:
        """Answers a line, or has the server answer it."""
        words = [word.decode("latin-1") for word in re.findall(rb"[^ \t]+", line.removesuffix(b"\r"))]
        keywords = [word.upper() for word in words]
        if not self.id and re.fullmatch("SET CONNECTIONMODE SRCP (COMMAND|INFO)", " ".join(keywords)):
            self.mode = keywords[3]
        if self.id and len(line) <= LONGEST_READ and len(words) > 2 and NUMBER.fullmatch(words[1]):
            if reply := await self.answer(keywords[0], int(words[1]), keywords[2], words[3:]):
                if not self.is_panel or " ERROR " not in reply:
                    self.say(reply)
                    await self.writer.drain()
                return
            line = FOREIGN.sub(rb"\1P", line)
            if self.proxy.asked.one_port and keywords[0::2][:2] == ["SET", "GA"]:
                line = by_its_own_port(line, words)
            if keywords[0] in ("SET", "CHECK") and keywords[2] == "GL" and not self.is_panel:
                return await self.drive(line, words)
        self.server.write(line + b"\n")
        if not self.is_panel:
            await self.replies.get()

    async def drive(self, line: bytes, words: list[str]) -> None:
        """Has the server carry out SET or CHECK of a locomotive. Functions beyond the locomotive's are left out, since
        the server refuses even a stop with too many."""
        reply = await self.ask(line)
        if reply.split()[1:2] == [b"%d" % Code.TOO_LONG]:
            row = (await self.ask(f"GET {words[1]} GL {words[3]}".encode("latin-1"))).split()
            if row[1:2] == [b"100"] and len(words) > len(row) - 2:  # a row has two words more than its SET
                reply = await self.ask(" ".join(words[:len(row) - 2]).encode("latin-1"))
        self.writer.write(reply)
        await self.writer.drain()

    async def ask(self, line: bytes) -> bytes:
        """Returns the server's reply to a line of this program, which the client is not told; empty if the server has
        gone."""
        if self.hearing.done():
            return b""
        self.keeps = True
        self.server.write(line + b"\n")
        try:
            return await self.replies.get()
        finally:
            self.keeps = False

    async def answer(self, command: str, bus: int, group: str, words: list[str]) -> str | None:
        """Returns the answer to a line that is answered here. An information session asks by GET alone."""
        answers = self.proxy.answers
        if self.is_panel and command != "GET":
            return None
        if (command, group) == ("GET", "DESCRIPTION"):
            return await answers.describe(bus, words, self.service_mode.is_there(bus))
        if self.proxy.asked.one_port and (command, group) == ("GET", "GA") and words[1:] == ["0"] and not self.is_panel:
            return await answers.lies(bus, words[0])
        if (command, group) == ("WAIT", "FB"):
            return await self.waited(answers.wait_sensor(bus, words))
        if bus == 0 and group == "TIME":
            self.asked_time = True
            return await self.waited(answers.wait_time(words)) if command == "WAIT" else answers.time(command, words)
        if bus == 0 and group == "SERVER":
            return "100 INFO 0 SERVER RUNNING" if command == "GET" else FORBIDDEN
        if bus == 0 and group == "GM":
            return self.proxy.message(words) if command == "SET" else UNSUPPORTED
        return await self.service_mode.answer(command, bus, words) if group == "SM" else None

    async def waited(self, wait: Coroutine[object, object, str]) -> str:
        """Returns the answer of a WAIT, which does not go on for long once the client has closed its side."""
        task = asyncio.create_task(wait)
        try:
            await asyncio.wait([task, self.reading, self.hearing], return_when=asyncio.FIRST_COMPLETED)
            await asyncio.wait([task], timeout=0 if self.hearing.done() else LINGER)
            return task.result() if task.done() else LATE
        finally:
            task.cancel()


def by_its_own_port(line: bytes, words: list[str]) -> bytes:
    """Returns the line to throw a turnout, for a line that sets port 0 to where the turnout is to lie."""
    bus = words[1]
    place = words[3:]
    if len(place) != 4 or place[1] != "0" or place[2] not in ("0", "1"):
        return line
    return f"SET {bus} GA {place[0]} {place[2]} 1 {PULSE}".encode("latin-1")


def main() -> None:
    words = arguments(__doc__)
    add_arguments(words, "--listen", 4304, "clients")
    words.add_argument("--one-port", action="store_true", help="clients throw turnouts by port 0 alone")
    run(Proxy(words.parse_args()).run())


if __name__ == "__main__":
    main()
