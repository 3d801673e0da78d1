"""How many connections a program serves at once: in all, and of each address, since a machine could take all places."""
import argparse
import asyncio
import collections
import contextlib
import socket
from collections.abc import AsyncIterator, Awaitable, Callable, Iterator

from srcp_bridges.limits import LONGEST_IN_STREAM
from srcp_bridges.program import PORT, Wrong

Serve = Callable[[asyncio.StreamReader, asyncio.StreamWriter], Awaitable[None]]


class Full(Exception):
    """There is no place for one more connection."""


class Places:
    """Counts the connections that are open, by address."""

    def __init__(self, most: int, most_of_one: int):
        self.most = most
        self.most_of_one = most_of_one
        self.open: collections.Counter[str] = collections.Counter()

    @contextlib.contextmanager
    def place(self, address: str) -> Iterator[None]:
        """Keeps a place for a connection from this address; raises Full if there is none."""
        if self.open[address] >= self.most_of_one:
            raise Full(f"{self.most_of_one} connections of {address} are open")
        if self.open.total() >= self.most:
            raise Full(f"{self.most} connections are open")
        self.open[address] += 1
        try:
            yield
        finally:
            self.open[address] -= 1
            self.open += collections.Counter()  # drops the addresses that have none


def add_arguments(words: argparse.ArgumentParser, option: str, default: int, whom: str) -> None:
    """Adds the arguments that say where a program serves others."""
    words.add_argument(option, type=PORT, default=default, metavar="PORT", help=f"where {whom} connect (%(default)s)")
    words.add_argument("--bind", default="127.0.0.1", metavar="ADDRESS", help="this machine's address (%(default)s)")


async def look_after(writer: asyncio.StreamWriter) -> None:
    """Waits until a connection has ended. Else asyncio may tell a traceback of each that broke off."""
    with contextlib.suppress(OSError):
        await writer.wait_closed()


@contextlib.asynccontextmanager
async def listen(serve: Serve, bind: str, port: int, limit: int = LONGEST_IN_STREAM) -> AsyncIterator[asyncio.Server]:
    """Serves connections at an address of this machine. As the server ends it takes no more connections, and waits for
    none."""
    async def served(reader: asyncio.StreamReader, writer: asyncio.StreamWriter) -> None:
        asyncio.create_task(look_after(writer))  # ends with the connection, or with this program
        with contextlib.suppress(asyncio.CancelledError):  # this program is ended, of which asyncio tells a traceback
            await serve(reader, writer)

    try:
        server = await asyncio.start_server(served, bind, port, limit=limit)
    except socket.gaierror as fault:
        raise Wrong(f"--bind {bind}: {fault}") from None
    try:
        yield server
    finally:
        server.close()  # asyncio's own exit waits for each client, from Python 3.12 on: trains would drive on
