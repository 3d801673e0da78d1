"""Has a program of an older Python wait for its clients, as asyncio's servers do from Python 3.12 on."""
import asyncio.base_events
import sys


async def wait_closed(server: asyncio.base_events.Server) -> None:
    """Waits until each connection of a server has ended."""
    while server._active_count:  # type: ignore[attr-defined]
        await asyncio.sleep(0.01)


if sys.version_info < (3, 12):
    setattr(asyncio.base_events.Server, "wait_closed", wait_closed)
