"""What a program tells of itself to examples/status.py and doctor.py: whose its sessions are, and how its station is.

It stands in a file: in the folder that systemd gives to a unit, or in one of the user. No program depends on that file.
"""
import atexit
import json
import os
import sys
from collections.abc import Iterator
from pathlib import Path


def folder() -> Path:
    """Returns the folder of these files: of the unit, of the user's log-in, or of the user."""
    if unit := os.environ.get("RUNTIME_DIRECTORY"):
        return Path(unit)
    return Path(os.environ.get("XDG_RUNTIME_DIR") or Path.home() / ".local" / "state", "srcp_bridges")


def told_at(port: int) -> Iterator[dict]:
    """Yields what the programs of this machine tell of themselves that have sessions at the server of that port.

    The folder of a unit goes as it ends. Another program may have been killed, and its file be left.
    """
    own = [file for file in folder().glob("*.json") if Path("/proc", file.stem).exists()]
    for file in [*Path("/run").glob("srcp_bridge_*/*.json"), *own]:
        try:
            told = json.loads(file.read_text())
            if told["sessions"].get(str(port)):
                yield told
        except (OSError, ValueError):
            pass  # it ended meanwhile, or belongs to somebody else


def stations(port: int) -> list[dict]:
    """Returns the states of the stations of this machine's drivers at the server of this port."""
    return [told["station"] for told in told_at(port) if told["station"]]


def names(port: int) -> dict[int, str]:
    """Returns whose the sessions at the server of this port are, as far as programs of this machine tell."""
    return {int(session): name for told in told_at(port) for session, name in told["sessions"][str(port)].items()}


def driven(port: int) -> set[int]:
    """Returns the buses with a driver of this machine at the server of this port."""
    return {int(station["bus"]) for station in stations(port)}


class State:
    """`sessions` has whose each session is, by the server's port and the session's id; `station` the state of a driver.
    """

    def __init__(self) -> None:
        self.sessions: dict[int, dict[int, str]] = {}
        self.station: dict[str, object] = {}
        self.path = folder() / f"{os.getpid()}.json"
        atexit.register(self.remove)

    def begins(self, port: int, session: int, whose: str) -> None:
        """Tells that a session is this program's. `whose` names whom the session is for, if somebody else."""
        name = Path(sys.argv[0]).name
        self.sessions.setdefault(port, {})[session] = f"{name}: {whose}" if whose else name
        self.write()

    def ends(self, port: int, session: int | None) -> None:
        if session and self.sessions.get(port, {}).pop(session, None):
            self.write()

    def tell_station(self, **station: object) -> None:
        """Tells how a driver's station is, if changed since the last time."""
        if self.station != station:
            self.station = station
            self.write()

    def write(self) -> None:
        """Writes the file anew, whole or not at all."""
        try:
            self.path.parent.mkdir(parents=True, exist_ok=True)
            new = self.path.with_suffix(".new")
            new.write_text(json.dumps({"sessions": self.sessions, "station": self.station}))
            new.chmod(0o644)
            new.replace(self.path)
        except OSError:
            pass

    def remove(self) -> None:
        try:
            self.path.unlink(missing_ok=True)
        except OSError:
            pass


SELF = State()
