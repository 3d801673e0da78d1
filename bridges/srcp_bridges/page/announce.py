"""Announces a server in the network by multicast DNS (DNS-SD), if python3-zeroconf is installed."""
import asyncio
import contextlib
import ipaddress
import socket
from collections.abc import AsyncIterator

from srcp_bridges.limits import ADDRESSES_LOOK, LONGEST_HOST
from srcp_bridges.program import say

try:
    import zeroconf
    from zeroconf.asyncio import AsyncServiceInfo, AsyncZeroconf
except ImportError:
    zeroconf = None  # type: ignore[assignment]


def addresses(server: asyncio.Server) -> list[str]:
    """Returns the IPv4 addresses by which others reach a server."""
    bound = {end.getsockname()[0] for end in server.sockets}
    if not any(ipaddress.ip_address(address).is_unspecified for address in bound):
        return sorted(address for address in bound if ":" not in address)
    return sorted(address for address in zeroconf.get_all_addresses() if not ipaddress.ip_address(address).is_loopback)


@contextlib.asynccontextmanager
async def announced(kind: str, server: asyncio.Server, where: list[str]) -> AsyncIterator[None]:
    """Has a server be announced at these addresses as of a kind, such as `_withrottle._tcp`."""
    host = socket.gethostname().partition(".")[0]
    port = server.sockets[0].getsockname()[1]
    name = f"srcp on {host.encode()[:LONGEST_HOST].decode('utf-8', 'ignore')}, port {port}"
    info = AsyncServiceInfo(f"{kind}.local.", f"{name}.{kind}.local.", port=port, server=f"{host}.local.",
                            parsed_addresses=where)
    responder = AsyncZeroconf(interfaces=where)
    try:
        await (await responder.async_register_service(info, allow_name_change=True))
        say(f"announced at {', '.join(where)} as {info.get_name()}")
        yield
    finally:
        await responder.async_close()  # tells that it has ended


async def announce(kind: str, server: asyncio.Server) -> None:
    """Announces a server while the server runs, at the addresses of this machine."""
    told = ""
    while zeroconf:
        try:
            if where := addresses(server):
                async with announced(kind, server, where):
                    while where == addresses(server):
                        await asyncio.sleep(ADDRESSES_LOOK)
        except (OSError, RuntimeError, zeroconf.Error) as fault:
            if told != (told := f"not announced: {fault}"):
                say(told)
        await asyncio.sleep(ADDRESSES_LOOK)
