"""Datagrams to and from a command station, by UDP."""
import asyncio
from typing import cast

from srcp_bridges.limits import UNREAD
from srcp_bridges.stations.line import Place


class Datagrams(asyncio.DatagramProtocol):
    """What a Line is to bytes, for datagrams: `write` and `drain`, `read`, which returns one of them, and `close`."""

    def __init__(self) -> None:
        self.unread: asyncio.Queue[bytes | Exception] = asyncio.Queue(UNREAD)
        self.transport: asyncio.DatagramTransport

    @classmethod
    async def open(cls, where: Place) -> "Datagrams":
        """Opens the way to a host and port."""
        return (await asyncio.get_running_loop().create_datagram_endpoint(cls, remote_addr=where))[1]

    def connection_made(self, transport: asyncio.BaseTransport) -> None:
        self.transport = cast(asyncio.DatagramTransport, transport)  # which Python 3.11 does not make one by its class

    def datagram_received(self, data: bytes | Exception, _: object) -> None:
        if not self.unread.full():
            self.unread.put_nowait(data)

    def error_received(self, fault: Exception) -> None:
        """Nobody listens there, or the network is gone."""
        self.datagram_received(fault, None)

    def number(self) -> int:
        """Returns the number by which the system knows the socket."""
        return self.transport.get_extra_info("socket").fileno()

    def write(self, data: bytes) -> None:
        if data and not self.transport.is_closing():
            self.transport.sendto(data)

    async def drain(self) -> None:
        """Datagrams wait for nothing."""

    async def read(self, _: bytes) -> bytes:
        """Returns what comes next. Each is whole: they need no end."""
        if isinstance(data := await self.unread.get(), Exception):
            raise data
        return data

    def close(self) -> None:
        self.transport.close()
