#!/usr/bin/env python3
"""status.py [--host HOST] [--port PORT] [--seconds SECONDS]: who is connected to the server, and what it holds.

All comes from one snapshot, which takes a place at the server for a moment. The exit status is 1 if no server answers,
so it serves as a health check. A session has the name of its program, if that is one of bridges/ on this machine.
"""
import argparse
import json
import os
import socket
import sys
from collections.abc import Iterator, Mapping
from contextlib import closing, suppress
from pathlib import Path
from typing import Any

from panel import add_version, tell
from srcp_client import Closed, Full, Rows, Session, apply

COUNTED = {"GL": "locomotives", "GA": "turnouts", "FB": "sensors"}
Told = dict[str, Any]  # what a program tells of itself, as JSON


def snapshot(host: str, port: int, seconds: float) -> tuple[int, Rows]:
    """Returns the id of the session that looks, and all rows. Full: the server has no place."""
    rows: Rows = {}
    with closing(Session(host, port, "INFO", seconds)) as session, suppress(Closed):
        session.socket.shutdown(socket.SHUT_WR)  # so the server sends the whole listing, and closes
        while True:
            apply(rows, session.line())
    return session.id, rows


def programs() -> Iterator[Told]:
    """Yields what each program of bridges/ on this machine tells of itself (bridges/srcp_bridges/state.py), and its
    process as `pid`."""
    own = Path(os.environ.get("XDG_RUNTIME_DIR") or Path.home() / ".local" / "state", "srcp_bridges")
    for file in [*Path("/run").glob("srcp_bridge_*/*.json"), *own.glob("*.json")]:
        try:
            if Path("/proc", file.stem).exists():
                yield json.loads(file.read_text()) | {"pid": int(file.stem)}
        except (OSError, ValueError):
            pass  # it ended meanwhile, or belongs to somebody else


def names(port: int) -> dict[str, str]:
    """Returns whose sessions are, by their ids, as far as programs of this machine tell."""
    return {session: name for told in programs() for session, name in told["sessions"].get(str(port), {}).items()}


def summary(rows: Rows, own: str, names: Mapping[str, str]) -> Iterator[str]:
    """Yields what there is to tell of the rows; the session `own` asks, and does not count."""
    told = {device: line.split(" ") for (device, _, _), line in rows.items()}
    sessions = [f"{device[2]} {words[-1]}" + f" ({names.get(device[2])})" * (device[2] in names)
                for device, words in told.items() if device[1] == "SESSION" and device[2] != own]
    yield f"sessions: {', '.join(sessions) or 'none'}"
    for bus in sorted({int(device[0]) for device in told} - {0}):
        power = [f"power {' '.join(words[5:])}" for device, words in told.items() if device == (str(bus), "POWER")]
        counts = [f"{sum(device[:2] == (str(bus), group) for device in told)} {name}"
                  for group, name in COUNTED.items()]
        yield f"bus {bus}: {', '.join(power + counts)}"
    locks = [f"bus {device[0]} {device[2]} {device[3]} by session {words[-1]}" for device, words in told.items()
             if device[1] == "LOCK"]
    yield f"locks: {', '.join(locks) or 'none'}"


def main() -> None:
    words = argparse.ArgumentParser(description="Tells who is connected to a server, and what it holds.")
    add_version(words)
    words.add_argument("--host", default="127.0.0.1")
    words.add_argument("--port", type=int, default=4303)
    words.add_argument("--seconds", type=float, default=5, help="how long it waits for an answer")
    asked = words.parse_args()
    try:
        own, rows = snapshot(asked.host, asked.port, asked.seconds)
    except Full as fault:
        return tell(str(fault))  # a server that is there
    except OSError as fault:
        sys.exit(f"no server answers at {asked.host}, port {asked.port}: {fault}")
    tell("\n".join(summary(rows, str(own), names(asked.port))))


if __name__ == "__main__":
    main()
