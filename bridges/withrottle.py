#!/usr/bin/env python3
"""Phones as throttles, by the protocol WiThrottle, as JMRI offers it to the apps Engine Driver and WiThrottle.

Each phone has a command session of its own. A locomotive that a phone takes is locked for it, and made if it is not
there. It stands when the phone gives it back, when its connection ends, and when nothing came of it for HEARTBEAT
seconds; after PATIENCE more the phone counts as gone. `--bind 0.0.0.0` serves the home network: whoever reaches it may
drive, since the protocol has no password. FILE (TOML) names devices: "1 GL 3" = "V 100".
Phones find this program by themselves if python3-zeroconf is installed.
"""
import argparse
import asyncio
from collections.abc import Coroutine

from srcp_bridges.program import BUS, arguments, run

from srcp_bridges.limits import LONGEST_OF_PHONE
from srcp_bridges.page.announce import announce
from srcp_bridges.page.phone import Phone
from srcp_bridges.page.phone_layout import Layout
from srcp_bridges.page.places import add_arguments, listen


async def serve(asked: argparse.Namespace) -> None:
    """Serves phones for ever."""
    layout = Layout(asked)
    def serve_one(reader: asyncio.StreamReader, writer: asyncio.StreamWriter) -> Coroutine[object, object, None]:
        return Phone(layout, reader, writer).serve()

    async with listen(serve_one, asked.bind, asked.listen, LONGEST_OF_PHONE) as server:
        announcing = asyncio.create_task(announce("_withrottle._tcp", server))  # ended with this program's other tasks
        await asyncio.gather(layout.mirror.run(), layout.look_for_bus())
        announcing.cancel()


def main() -> None:
    words = arguments(__doc__)
    add_arguments(words, "--listen", 12090, "phones")
    words.add_argument("--bus", type=BUS, default=1, help="the bus that they drive (%(default)s)")
    words.add_argument("--names", metavar="FILE", help="names of devices")
    words.add_argument("--plan", metavar="FILE", help="names, and the routes of a track plan")
    words.add_argument("--heartbeat", type=float, default=10.0, metavar="SECONDS",
                       help="of silence until an emergency stop (%(default)s)")
    words.add_argument("--patience", type=float, default=60.0, metavar="SECONDS",
                       help="more until a phone is gone (%(default)s)")
    run(serve(words.parse_args()))


if __name__ == "__main__":
    main()
