#!/usr/bin/env python3
"""lint.py FILE: tells all faults of a configuration at once, each with its line, and last what `check` says of it. It
also tells keys that the server does not read, and a port that cannot be had. Status 2 if `check` refuses it."""
import argparse
import json
import re
import socket
import sys
from collections.abc import Iterable, Sequence
from dataclasses import dataclass
from difflib import get_close_matches
from typing import Any

if sys.version_info < (3, 11):
    sys.exit("this takes Python 3.11 or later")

import tomllib

from panel import add_version, tell

# The whole numbers that each key may have, and those that it has if it is not there.
NUMBERS = {
    "port": range(1, 65536),
    "number": range(1, 251),
    "gl_max": range(1, 10240),
    "ga_max": range(1, 2045),
    "ga_ports": range(2, 9),
    "fb_ports": range(1, 4097),
}
UNLESS_GIVEN = {"port": 4303, "ga_ports": 2}
# The keys that each group asks for.
GROUPS: dict[str, list[str]] = {"POWER": [], "GL": ["gl_max"], "GA": ["ga_max", "ga_ports"], "FB": ["fb_ports"]}
NUMBERS_OF_TOML = range(-1 << 63, 1 << 63)
Table = dict[str, Any]  # of TOML: each value may be of any kind


@dataclass
class Fault:
    """What is wrong with a key: what `check` says of it, or "" if it says nothing, and what else there is to say."""
    key: str
    said: str
    more: str = ""


def hint(word: str, known: Iterable[str]) -> str:
    """Returns what was meant by a word that is not known, if one is near."""
    return "".join(f": did you mean {near}?" for near in get_close_matches(word, known, 1))


def fault_of_key(table: Table, key: str) -> Fault | None:
    """Returns the fault of a key of a table, or None."""
    value = table.get(key, UNLESS_GIVEN.get(key))
    if value is None:
        return Fault(key, f"{key} missing")
    if key in NUMBERS:
        numbers = NUMBERS[key]
        if type(value) is int and value in numbers:
            return None
        return Fault(key, f"{key} out of range", f": not {numbers[0]} to {numbers[-1]}")
    if isinstance(value, list):
        return None
    meant = ": a bus begins with [[bus]]" if key == "bus" and isinstance(value, dict) else ""
    return Fault(key, f"{key} out of range", f": not an array{meant}")


def faults_of_keys(table: Table, *keys: str) -> list[Fault]:
    """Returns the faults of these keys of a table."""
    return [fault for key in keys if (fault := fault_of_key(table, key))]


def unread(table: Table, *keys: str) -> list[Fault]:
    """Returns the keys of a table that the server does not read: `check` says nothing of them. One that is there
    already was not meant."""
    absent = [key for key in keys if key not in table]
    return [Fault(key, "", f"{key} is not read{hint(key, absent)}") for key in table if key not in keys]


def fault_of_group(group: object) -> Fault | None:
    """Returns the fault of an item of `groups`, or None."""
    if group in list(GROUPS):
        return None
    if isinstance(group, str):
        return Fault("groups", "unknown group", f": {group!r}{hint(group.upper(), GROUPS)}")
    return Fault("groups", "groups out of range", f": {group!r}")


def is_twice(bus: Table, earlier: Iterable[object]) -> bool:
    """Returns whether an earlier bus has the number of this one."""
    return any(isinstance(other, dict) and other.get("number", 0) == bus.get("number") for other in earlier)


def faults_of_bus(bus: object, earlier: Iterable[object]) -> list[Fault]:
    """Returns the faults of a bus in the order of `check`, and the keys of it that are not read."""
    if not isinstance(bus, dict):
        return [Fault("bus", "bus out of range", ": not a table")]
    faults = faults_of_keys(bus, "number")
    if is_twice(bus, earlier):
        faults.append(Fault("number", f"bus {bus['number']} twice"))
    faults += faults_of_keys(bus, "groups")
    groups = bus["groups"] if isinstance(bus.get("groups"), list) else []
    faults += [fault for group in groups if (fault := fault_of_group(group))]
    limits = [key for group in GROUPS if group in groups for key in GROUPS[group]]
    return faults + faults_of_keys(bus, *limits) + unread(bus, "number", "groups", *limits)


def line_of(lines: Sequence[str], place: int, key: str) -> int:
    """Returns the line of a key of the document (place 0) or of a bus; that of the bus, if it finds no such key."""
    heads = [at for at, line in enumerate(lines) if re.match(r"\s*\[\[\s*bus\s*\]\]", line)]
    bounds = [0, *heads, len(lines)]
    if place + 1 >= len(bounds):  # buses in one line: the key of all of them
        place = 0
        key = "bus"
    first = bounds[place]
    found = (at for at in range(first, bounds[place + 1]) if re.match(rf"\W*{re.escape(key)}\W*[=\]]", lines[at]))
    return next(found, first) + 1


def fault_of_port(port: Any) -> Exception | None:
    """Returns why a server cannot have the port, or None. If a server has it, that is started anew with this file."""
    try:
        socket.create_server(("127.0.0.1", port)).close()
        return None
    except (OSError, OverflowError, TypeError) as met:
        why = met
    try:
        with socket.create_connection(("127.0.0.1", port), 1) as connection:
            return None if connection.recv(12) == b"srcp_server " else why
    except (OSError, OverflowError, TypeError):
        return why


def parsed(content: str) -> Table:
    """Returns the document. ValueError if it is no TOML, or has a number of more than 64 bits."""
    if found := re.search("[\udc80-\udcff]", content):  # a byte that is no text
        before = content[:found.start()]
        line, column = before.count("\n") + 1, found.start() - before.rfind("\n")
        raise ValueError(f"This byte is no UTF-8 (at line {line}, column {column}): save the file as UTF-8")
    document = tomllib.loads(content)
    json.loads(json.dumps(document, default=str), parse_int=lambda text: NUMBERS_OF_TOML.index(int(text)))
    return document


def place_names(buses: Iterable[object]) -> list[str]:
    """Returns what stands behind the line of a fault, for the document and for each bus."""
    return ["", *(f", bus {bus.get('number')}" if isinstance(bus, dict) else "" for bus in buses)]


def lint(content: str) -> str | None:
    """Prints the faults of a document. Returns what `check` says of it, or None if that accepts it."""
    try:
        document = parsed(content)
    except ValueError as met:
        tell(str(met))
        return "not TOML"
    buses = document["bus"] if isinstance(document.get("bus"), list) else []
    faults = [(0, fault) for fault in faults_of_keys(document, "port", "bus") + unread(document, "port", "bus")]
    for place, bus in enumerate(buses, 1):
        faults += [(place, fault) for fault in faults_of_bus(bus, buses[:place - 1])]
    lines = content.splitlines()
    names = place_names(buses)
    for place, fault in faults:
        tell(f"line {line_of(lines, place, fault.key)}{names[place]}: {fault.said}{fault.more}")
    if why := fault_of_port(document.get("port", UNLESS_GIVEN["port"])):
        tell(f"the port cannot be had: {why}")
    return next((fault.said for _, fault in faults if fault.said), None)


def main() -> int:
    words = argparse.ArgumentParser(description="Tells all faults of a configuration at once.")
    add_version(words)
    words.add_argument("file", type=argparse.FileType("rb"))
    content = words.parse_args().file.read().decode(errors="surrogateescape").removeprefix("\ufeff")
    refused = lint(content)
    tell(f"srcp_server: config: {refused}" if refused else "check accepts it")
    return 2 if refused else 0


if __name__ == "__main__":
    sys.exit(main())
