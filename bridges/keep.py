#!/usr/bin/env python3
"""Keeps locomotives and accessories over restarts of the server.

FILE holds the commands that make them again, to read, and to edit while this program is not running. They are sent to a
server that has started, for each device that it does not have. From then on FILE follows what changes. Locomotives come
back standing, with their direction and functions; accessories as they were put; power only with --power. Sensors and
locks do not: others set them anew. What the server refuses stays in FILE~.
"""
import argparse
import asyncio
import os
import shutil
from collections.abc import Callable
from srcp_bridges.limits import MOST_PORTS, PORTS_APART, SOON
from srcp_bridges.program import CannotGoOn, arguments, run, say
from srcp_bridges.srcp.mirrors import Mirror
from srcp_bridges.srcp.replies import Refused
from srcp_bridges.srcp.rows import (EMERGENCY_STOP, FORWARD, STOP_ALL, Device, Drive, Port, Power, Rows, is_of_driver,
                                    position)
from srcp_bridges.srcp.sessions import Session

GROUPS = ["POWER", "GL", "GA"]


def commands_of(rows: Rows, power: bool, way: Callable[[int, int], int] = lambda bus, address: FORWARD) -> list[str]:
    """Returns the commands by which these rows are made again. `way` tells the direction of a stopped locomotive."""
    commands = []
    wanted = [key for key in rows if key[1] == "POWER" and power or key[1] in ("GL", "GA") and key[3] == "is"]
    for bus, group, address, part in sorted(wanted, key=lambda key: (key[0], GROUPS.index(key[1]), key[2])):
        row = rows[bus, group, address, part]
        if isinstance(row, Power):
            text = "" if row.text == STOP_ALL or is_of_driver(row.text) else row.text  # that was of its moment
            commands.append(f"SET {bus} POWER {'ON' if row.on else 'OFF'} {text}".rstrip(" "))
            continue
        commands.append(f"INIT {bus} {group} {address} {' '.join(map(str, row[1:]))}")
        if isinstance(drive := rows.get((bus, group, address, "does")), Drive):
            mode = way(bus, address) if drive.mode == EMERGENCY_STOP else drive.mode
            words = [mode, 0, drive.v_max, *drive.functions]
            commands.append(f"SET {bus} GL {address} {' '.join(map(str, words))}")
        told = [(number, rows.get((bus, group, address, number))) for number in range(MOST_PORTS)]
        ports = [(number, port) for number, port in told if isinstance(port, Port)]
        put = position(rows, bus, address)
        for number, (stamp, value) in sorted(ports, key=lambda port: (port[0] == put, port[1])):  # it comes last
            if stamp > row.stamp or value:
                commands.append(f"SET {bus} GA {address} {number} {value} -1")
    return commands


def device_of(command: str) -> Device | None:
    """Returns the device of a command, or None if the command names none."""
    try:
        _, bus, group, *address = command.upper().split()
        return int(bus), group, 0 if group == "POWER" else int(address[0]), False
    except (ValueError, IndexError):
        return None


def standing(command: str) -> str:
    """Returns a command with 0 for the speed of a locomotive: a person may have written one into FILE."""
    words = command.split()
    if [word.upper() for word in words[0:3:2]] != ["SET", "GL"] or len(words) < 6:
        return command
    return " ".join([*words[:5], "0", *words[6:]])


def makes(command: str) -> bool:
    return command.upper().split()[:1] == ["INIT"]


class Keeper:
    def __init__(self, asked: argparse.Namespace):
        self.path = asked.file
        self.power = asked.power
        self.rest = asked.rest
        self.changed = asyncio.Event()
        self.session: Session | None = None
        self.written: list[str] = []
        self.mirror = Mirror(asked, lambda change: self.changed.set(), lambda anew: self.changed.set())

    async def run(self) -> None:
        self.held()  # a FILE that cannot be read ends this program, before anything is made
        await asyncio.gather(self.mirror.run(), self.keep())

    async def keep(self) -> None:
        while True:
            await self.changed.wait()
            self.changed.clear()
            try:
                session = self.mirror.session
                if session and self.session is not session:  # a server that was started anew
                    await self.restore(session)
                    self.session = session
                await self.follow()
            except ConnectionError:
                self.changed.set()
            await asyncio.sleep(self.rest)

    async def restore(self, session: Session) -> None:
        """Has the server make the devices of FILE that it does not have, and waits until the panel has told all of
        these."""
        self.written = self.held()
        absent: set[Device] = set()
        ordered: set[Device] = set()
        for command in self.written:
            device = device_of(command)
            if device and makes(command) and not await self.mirror.has(device):
                absent.add(device)
            if device and (device in absent or self.power and device[1] == "POWER"):
                if not await self.order(session, command) and makes(command):
                    absent.discard(device)  # it is not made
                ordered.add(device)
            elif not device:
                self.refused(command, "names no device")
        say(f"made {len(absent)} devices")
        for device in ordered:
            while not await self.mirror.shows(device):
                await asyncio.sleep(SOON)

    async def order(self, session: Session, command: str) -> bool:
        """Returns whether the server has carried out a command."""
        try:
            await session.ask(standing(command))
        except Refused as reply:
            self.refused(command, reply)
            return False
        await asyncio.sleep(PORTS_APART if command.upper().split()[2:3] == ["GA"] else 0)
        return True

    def refused(self, command: str, why: object) -> None:
        """Says why a command is refused, and keeps the present FILE as FILE~, since the command will not be written
        again."""
        say(f"{command}: {why}; {self.path}~ keeps it")
        shutil.copyfile(self.path, self.path + "~")

    async def follow(self) -> None:
        """Writes FILE, if each device that FILE would lose is gone from the very server to which FILE was restored."""
        if self.mirror.session is not self.session:
            return self.changed.set()
        commands = commands_of(self.mirror.rows, self.power, self.mirror.way)
        kept = {device_of(command) for command in commands if makes(command)}
        for device in [device_of(command) for command in self.written if makes(command)]:
            if device and device not in kept and await self.mirror.has(device):
                return self.changed.set()  # it is there, and has not been told yet
        if commands != self.written and self.mirror.session is self.session:
            self.write(commands)

    def held(self) -> list[str]:
        """Returns the commands in FILE; none if there is no such file yet."""
        try:
            with open(self.path, encoding="latin-1") as file:
                return [line for line in file.read().split("\n") if line.strip()]
        except FileNotFoundError:
            return []

    def write(self, commands: list[str]) -> None:
        """Puts the commands into FILE: all, or none if the machine fails meanwhile."""
        try:
            with open(self.path + ".new", "w", encoding="latin-1") as file:
                file.writelines(command + "\n" for command in commands)
                file.flush()
                os.fsync(file.fileno())
            os.replace(self.path + ".new", self.path)
        except OSError as fault:  # that of a full disk names no file
            raise CannotGoOn(f"{self.path}: cannot be written: {fault.strerror}") from None
        self.written = commands


def main() -> None:
    words = arguments(__doc__)
    words.add_argument("file", metavar="FILE")
    words.add_argument("--power", action="store_true", help="keep power too")
    words.add_argument("--rest", type=float, default=1.0, metavar="SECONDS",
                       help="from one writing to the next (%(default)s)")
    run(Keeper(words.parse_args()).run())


if __name__ == "__main__":
    main()
