"""Sessions at an srcp_server, for programs that are one thread of asyncio."""
import asyncio
import socket
from collections import deque
from collections.abc import Awaitable, Callable
from typing import cast

from srcp_bridges.limits import ANSWER, LONGEST_BEGUN
from srcp_bridges.srcp.replies import Reason, Refused
from srcp_bridges.srcp.rows import NOT_SRCP, Reply, parse
from srcp_bridges.state import SELF

Server = tuple[str, int]  # where it is: host and port
Take = Callable[[str], None]  # takes a line of a panel
Ask = Callable[[str], Awaitable[Reply]]  # carries out a command


class ServerIsFull(ConnectionError):
    """The server closed a connection without a word, as a full server does."""


class Session(asyncio.Protocol):
    """A session at the server. `ended` is done once its connection is closed."""

    def __init__(self, port: int):
        loop = asyncio.get_running_loop()
        self.on_line: Take | None = None
        self.port = port
        self.begun = b""
        self.id: int | None = None
        self.ended: asyncio.Future[str | None] = loop.create_future()
        self.waiting: deque[asyncio.Future[str | None]] = deque([loop.create_future()])  # for the welcome line
        self.transport: asyncio.Transport

    @classmethod
    async def begin(cls, server: Server, take: Take | None = None, whose: str = "") -> "Session":
        """Begins a session, as `go`."""
        return await (await cls.connect(server)).go(take, whose)

    @classmethod
    async def connect(cls, server: Server) -> "Session":
        """Opens a connection, which has a place at the server, and no session until `go`."""
        async with asyncio.timeout(ANSWER):
            _, session = await asyncio.get_running_loop().create_connection(lambda: cls(server[1]), *server)
        try:
            welcome = await session.reply(session.waiting[0])
        except asyncio.CancelledError:
            session.transport.abort()
            raise
        except ConnectionError as fault:
            is_full = session.ended.done() and not session.begun
            raise ServerIsFull(Reason.FULL) if is_full else fault
        if "SRCP" in welcome:
            return session
        session.transport.abort()
        raise ConnectionError("does not speak SRCP")

    async def go(self, take: Take | None = None, whose: str = "") -> "Session":
        """Begins a command session; or a panel's, if there is a function to `take` the lines. `whose` names whom the
        session is for, if not this program."""
        self.on_line = take
        try:
            await self.ask(f"SET CONNECTIONMODE SRCP {'INFO' if take else 'COMMAND'}")
            self.id = int(str(await self.ask("GO")).removeprefix("OK GO "))
            SELF.begins(self.port, self.id, whose)
            return self
        except BaseException as fault:
            self.transport.abort()
            raise ConnectionError("does not speak SRCP") if isinstance(fault, ValueError) else fault

    def connection_made(self, transport: asyncio.BaseTransport) -> None:
        self.transport = cast(asyncio.Transport, transport)
        # A transport keeps little of what was told while this program sleeps.
        transport.get_extra_info("socket").setsockopt(socket.SOL_SOCKET, socket.SO_RCVBUF, 1 << 17)

    def data_received(self, data: bytes) -> None:
        *lines, self.begun = (self.begun + data).split(b"\n")  # a panel's last line may be cut: it stays here
        for line in lines:
            if self.waiting:
                if not (reply := self.waiting.popleft()).done():  # it is, if whoever asked has been cancelled
                    reply.set_result(line.decode("latin-1"))
            elif self.on_line:
                self.on_line(line.decode("latin-1"))
        if len(self.begun) > LONGEST_BEGUN:
            self.transport.abort()

    def connection_lost(self, fault: Exception | None) -> None:
        SELF.ends(self.port, self.id)
        for future in [self.ended, *self.waiting]:
            if not future.done():
                future.set_result(None)

    async def ask(self, command: str) -> Reply:
        """Carries out a command. Returns the row that GET tells, or the rest of a 200; Refused tells an error reply."""
        line = command.encode("latin-1", "replace")
        if b"\n" in line:
            raise Refused(None, "more than one line")
        if self.ended.done():
            raise ConnectionError("closed the connection")
        self.waiting.append(asyncio.get_running_loop().create_future())
        self.transport.write(line + b"\n")
        reply = await self.reply(self.waiting[-1])
        try:
            _, code, rest = reply.split(" ", 2)
            if rest.startswith("ERROR"):
                raise Refused(int(code), f"{code} {rest}")
            return parse(reply)[1] if rest.startswith("INFO") else rest
        except NOT_SRCP:
            self.transport.abort()
            raise ConnectionError("does not speak SRCP") from None

    async def reply(self, coming: asyncio.Future[str | None]) -> str:
        """Returns the line that comes; if none does, the connection is closed."""
        await asyncio.wait([coming], timeout=ANSWER)  # a line that came while this program slept is not late
        if coming.done() and (line := coming.result()) is not None:
            return line
        why = "closed the connection" if self.ended.done() else "does not answer"
        self.transport.abort()
        raise ConnectionError(why)
