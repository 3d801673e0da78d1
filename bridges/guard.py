#!/usr/bin/env python3
"""Stops the locomotives of a throttle that is gone.

The server keeps a locomotive's speed when the session that drove it ends. If a session ends while it holds the lock of
a locomotive, this program sets that locomotive's speed to 0. Whoever wants it to drive on gives the lock back first.
"""
import argparse
import asyncio

from srcp_bridges.program import arguments, run, say
from srcp_bridges.srcp.mirrors import Mirror
from srcp_bridges.srcp.replies import Refused
from srcp_bridges.srcp.rows import Change, Lock
from srcp_bridges.srcp.stop import Locomotive


class Guard:
    """`freed` has, by locomotive, when the lock went (None: no one told the moment), and whose lock."""

    def __init__(self, asked: argparse.Namespace):
        self.mirror = Mirror(asked, self.on_change)
        self.freed: dict[Locomotive, tuple[float | None, int]] = {}
        self.stops: set[asyncio.Task[None]] = set()

    def on_change(self, change: Change) -> None:
        """As a session ends, the session's locks go at the same moment. After an overrun the moment is not known: in
        doubt the locomotive is stopped."""
        bus, group, address, part = change.key
        if group == "GL" and part == "lock":
            self.freed.pop((bus, address), None)
            if not change.row and isinstance(change.before, Lock):
                self.freed[bus, address] = change.stamp, change.before.session
        elif group == "SESSION" and not change.row:
            for locomotive, (stamp, session) in list(self.freed.items()):
                if session == address:
                    del self.freed[locomotive]
                    if stamp == change.stamp or None in (stamp, change.stamp):
                        self.stops.add(asyncio.create_task(self.stop(*locomotive)))

    async def stop(self, bus: int, address: int) -> None:
        drive = self.mirror.rows.get((bus, "GL", address, "does"))
        if drive and drive.v:
            try:
                await self.mirror.ask(f"SET {bus} GL {address} {drive.mode} 0 {drive.v_max}")
                say(f"{bus} GL {address}: stopped")
            except (Refused, ConnectionError) as fault:
                say(f"{bus} GL {address}: {fault}")
        if task := asyncio.current_task():
            self.stops.discard(task)


if __name__ == "__main__":
    run(Guard(arguments(__doc__).parse_args()).mirror.run())
