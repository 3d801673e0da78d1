"""The group SM of SRCP 0.8.4: reads and writes the CVs of a decoder, by the driver that this machine has for a bus."""
import asyncio
import json
import socket
from pathlib import Path

from srcp_bridges.limits import CV_PATIENCE
from srcp_bridges.srcp.old_words import NO_DATA, SHORT, UNSUPPORTED, WRONG, fault
from srcp_bridges.srcp.replies import Code, error
from srcp_bridges.state import folder

TEXTS = {str(code): error(code) for code in (Code.WRONG_VALUE, Code.PROHIBITED, Code.NO_DATA, Code.TIMEOUT)}


def is_open(door: str) -> bool:
    """Returns whether a driver listens at its socket: a killed driver leaves a socket without."""
    with socket.socket(socket.AF_UNIX) as trial:
        trial.setblocking(False)
        return trial.connect_ex(door) == 0


def doors(port: int, bus: int) -> list[str]:
    """Returns the sockets by which drivers of a bus of the server at a port take what is to be programmed."""
    found = []
    for file in [*Path("/run").glob("srcp_bridge_*/*.json"), *folder().glob("*.json")]:
        try:
            told = json.loads(file.read_text())
            if told["station"].get("bus") == bus and told["sessions"].get(str(port)):
                found.append(told["station"]["door"])
        except (OSError, ValueError, KeyError):
            pass  # it ended meanwhile, or is somebody else's
    return [door for door in set(found) if is_open(door)]


async def ask(door: str, request: str) -> tuple[str, str]:
    """Has a driver carry out a request; returns the code of the reply, and the value or the fault."""
    reader, writer = await asyncio.open_unix_connection(door)
    try:
        async with asyncio.timeout(CV_PATIENCE):
            writer.write(f"{request}\n".encode())
            code, _, told = (await reader.readline()).decode("latin-1").strip().partition(" ")
        return code, told
    except TimeoutError:
        return str(Code.TIMEOUT), ""
    finally:
        writer.close()


class ServiceMode:
    """Answers the lines of a client. `begun` has the buses for which the client has sent INIT."""

    def __init__(self, port: int):
        self.port = port
        self.begun: set[int] = set()

    def is_there(self, bus: int) -> bool:
        """Returns whether a driver programs decoders for this bus, and one alone."""
        return len(doors(self.port, bus)) == 1

    async def answer(self, command: str, bus: int, words: list[str]) -> str | None:
        """Returns the answer to a line; None if there is not a single driver: the server then refuses the line."""
        if len(found := doors(self.port, bus)) != 1:
            return None
        words = [word.upper() for word in words]
        if command == "INIT":
            return self.begin(bus, words)
        if command not in ("GET", "SET", "VERIFY", "TERM"):
            return UNSUPPORTED
        if bus not in self.begun:
            return NO_DATA
        if command == "TERM":
            self.begun.discard(bus)
            return "200 OK"
        try:
            return await self.program(found[0], command, bus, words)
        except OSError:
            return None  # it has just ended

    def begin(self, bus: int, words: list[str]) -> str:
        """Answers INIT b SM NMRA."""
        if words[:1] != ["NMRA"]:
            return error(Code.NO_PROTOCOL) if words else SHORT
        self.begun.add(bus)
        return "200 OK"

    async def program(self, door: str, command: str, bus: int, words: list[str]) -> str:
        """Answers GET b SM 0 CV cv, SET b SM 0 CV cv value, and VERIFY b SM 0 CV cv value."""
        if words[1:2] not in ([], ["CV"]):
            return UNSUPPORTED
        if wrong := fault(words[:1] + words[2:], *[0, 9999, 999][:2 + (command != "GET")]):
            return wrong
        cv = int(words[2])
        value = None if command == "GET" else int(words[3])
        code, told = await ask(door, f"WRITE {cv} {value}" if command == "SET" else f"READ {cv}")
        if code != "200":
            return TEXTS.get(code, NO_DATA)
        if command == "GET":
            return f"100 INFO {bus} SM 0 CV {cv} {told}"
        return "200 OK" if told == str(value) else WRONG
