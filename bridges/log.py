#!/usr/bin/env python3
"""Writes each change of the registry, and each session that comes and goes, to standard output, with the time of day.

The server keeps no log. As a unit (`srcp_bridge@log`) this one has the journal keep it. FILE (TOML) names devices:
"1 GL 3" = "V 100". At the start the sessions that are there are written, and no other row that is there. A session has
the name of its program behind it, if that is one of bridges/ on this machine: a line of its own tells it.
"""
import argparse
import asyncio
import time

from srcp_bridges import state
from srcp_bridges.limits import SESSION_TOLD
from srcp_bridges.program import arguments, names, run, tell
from srcp_bridges.srcp.mirrors import Mirror
from srcp_bridges.srcp.rows import BACKWARD, EMERGENCY_STOP, FORWARD, Change, Drive, Lock, Peer, Port, Power

MODES = {BACKWARD: "backward", FORWARD: "forward", EMERGENCY_STOP: "emergency stop"}
KINDS = {"GL": "locomotive", "GA": "accessory"}


def words_of(change: Change, whose: dict[int, str]) -> str:
    """Returns in words the effect of a change on the device. `whose` names sessions."""
    _, group, _, part = change.key
    row = change.row
    if not row:
        return "ends" if group == "SESSION" else "unlocked" if part == "lock" else f"the {KINDS[group]} is gone"
    if isinstance(row, Peer):
        return f"{row.mode} begins"
    if isinstance(row, Lock):
        return f"locked by session {row.session}" + named(row.session, whose)
    if isinstance(row, Power):
        return f"{'ON' if row.on else 'OFF'} {row.text}".rstrip()
    if isinstance(row, Drive):
        on = [f"F{number}" for number, value in enumerate(row.functions) if value]
        return f"{MODES[row.mode]} {row.v} of {row.v_max} {' '.join(on)}".rstrip()
    if isinstance(row, Port):
        return str(row.value) if group == "FB" else f"port {part}: {row.value}"
    return f"made: {' '.join(map(str, row[1:]))}"


def named(session: int, whose: dict[int, str]) -> str:
    """Returns the words behind a session: whose the session is, if known."""
    return f" ({whose[session]})" if session in whose else ""


class Log:
    """`since` is when the newest session began. An older row was listed as this program's panel began. `whose` names
    the present sessions."""

    def __init__(self, asked: argparse.Namespace):
        self.names = names(asked.names)
        self.since = 0.0
        self.whose: dict[int, str] = {}
        self.mirror = Mirror(asked, self.on_change, self.joined, self.left)

    def joined(self, anew: bool) -> None:
        self.write("joined a server that was started" if anew else "joined the server again")

    def left(self) -> None:
        self.since = 0.0
        self.write("the server is away")

    def on_change(self, change: Change) -> None:
        """A device that is gone is told once, by the row of its making."""
        bus, group, address, part = change.key
        if group == "SESSION" and change.row:
            self.since = max(self.since, change.row.stamp)
        stamp = self.since if change.stamp is None else change.stamp
        if stamp >= self.since and (change.row or part in ("is", "lock")):
            device = f"{bus} {group}" + f" {address}" * (group != "POWER")
            whose = named(address, self.whose) if group == "SESSION" else ""
            self.write(f"{self.names.get(device, device)}{whose}: {words_of(change, self.whose)}")
        if group == "SESSION":
            self.follow(address, bool(change.row))

    def follow(self, session: int, is_there: bool) -> None:
        """Has the name of a new session looked up soon, and forgets the name of an ended one."""
        if is_there and session not in self.whose:
            asyncio.get_running_loop().call_later(SESSION_TOLD, self.look_up, session)
        elif not is_there:
            self.whose.pop(session, None)

    def look_up(self, session: int) -> None:
        """Writes whose a session is, if a program of this machine tells it, and the session is still there."""
        name = state.names(self.mirror.server[1]).get(session)
        if name and self.mirror.here and (0, "SESSION", session, "is") in self.mirror.rows:
            self.whose[session] = name
            self.write(f"0 SESSION {session}: it is of {name}")

    def write(self, text: str) -> None:
        moment = time.time()
        day = time.strftime("%Y-%m-%d %H:%M:%S", time.localtime(moment))
        tell(f"{day}.{int(moment * 1000) % 1000:03} {text}")


async def follow(asked: argparse.Namespace) -> None:
    await Log(asked).mirror.run()


def main() -> None:
    words = arguments(__doc__)
    words.add_argument("--names", metavar="FILE", help="names of devices")
    run(follow(words.parse_args()))


if __name__ == "__main__":
    main()
