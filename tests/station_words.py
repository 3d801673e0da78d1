"""The words of stations: the programs of bridges/ read and write what the crate `srcp_stations` does, over the rows of
the crate's tests. While both live, neither changes alone."""
import re
import types
from typing import Any
from unittest import mock

from bridge_tests.common import TOP  # it says first which programs these are
from dcc_ex import DccEx, ask_locomotive
from srcp_bridges.stations.datasets import XBUS, check, datasets, xbus

ROWS = TOP / "crates" / "srcp_stations_tests" / "src" / "rows.rt"

TRACKS = {None: "Track::All", "MAIN": "Track::Main", "JOIN": "Track::Join", "PROG": "Track::Prog"} | {
    letter: f"Track::Letter({place})" for place, letter in enumerate("ABCDEFGH")}
BELOW = {-1: "CvValue::Nobody", -2: "CvValue::CannotMeasure", -3: "CvValue::NoTrack"}
BYTES = r'b"((?:[^"\\]|\\.)*)"'


def rust(value: object) -> str:
    """Returns a value as a row of the tests writes it."""
    return str(value).lower() if isinstance(value, bool) else str(value)


def speed_of(step: int) -> str:
    return {-1: "Speed::Halt", 0: "Speed::Stand"}.get(step, f"Speed::Step({step})")


class Reader(DccEx):
    """The driver, which notes what it takes a message for, as a row of the tests has it."""

    def __init__(self) -> None:
        self.said: list[str] = []
        self.ready: Any = types.SimpleNamespace(is_set=lambda: True)
        self.track: Any = types.SimpleNamespace(slots=None)
        self.programming: Any = types.SimpleNamespace(take=self.take_cv)
        self.hands: Any = types.SimpleNamespace(overload=lambda: self.said.append("Said::Overload"))
        self.awaited: Any = types.SimpleNamespace(hasten=lambda: self.said.append("Said::Refused"))
        self.slotted = set()
        self.unsaid = set()
        self.slot, self.message = 0, b""

    def read(self, message: bytes) -> list[str]:
        self.said, self.message = [], message
        with mock.patch("dcc_ex.say"):
            self.take(message)
        return self.said

    def greeted(self, message: str) -> None:
        self.said.append("Said::Banner")

    def sensor(self, address: int, value: int) -> None:
        self.said.append(f"Said::Sensor({address}, {rust(value == 1)})")

    def alive(self) -> None:
        self.said.append(f"Said::Slots({self.track.slots})")

    def take_power(self, on: int, track: str | None) -> None:
        self.said.append(f"Said::Power({TRACKS.get(track, track)}, {rust(on == 1)})")

    def take_cv(self, cv: int, value: int) -> None:
        self.said.append(f"Said::Cv({rust(b'<v' in self.message)}, {cv}, {BELOW.get(value, f'CvValue::Is({value})')})")

    def take_cab(self, cab: int, slot: int, byte: int, functions: int) -> None:
        """Reads a locomotive that has no slot as if it had one, since the driver asks then for nothing else."""
        self.slot = slot
        super().take_cab(cab, max(0, slot), byte, functions)

    def heard_locomotive(self, address: int, drives: tuple[int, int], functions: int) -> None:
        slot = f"Some({self.slot})" if self.slot >= 0 else "None"
        self.said.append(f"report({address}, {slot}, {speed_of(drives[0])}, {rust(drives[1] == 1)}, "
                         f"{functions & 0xFFFFFFFF})")


def unescaped(text: str) -> bytes:
    return text.encode().decode("unicode_escape").encode("latin-1")


def rows_of(test: str) -> list[tuple[bytes, str]]:
    """Returns the rows of a test: the bytes, and what stands beside them, without the breaks of its lines."""
    body = re.findall(rf"^fn {test}\(.*?^\}}", ROWS.read_text(), re.M | re.S)[0]
    flat = re.sub(r"(?<=\()\s+|,?\s+(?=\))", "", body)
    rows = re.findall(rf"\({BYTES},\s+(.*?)\),?\n|^\s+{BYTES},\n", flat, re.M)
    return [(unescaped(one or other), re.sub(r"\s+", " ", said)) for one, said, other in rows]


def told(row: str) -> bytes:
    """Returns the command by which the driver tells what a row of the tests names."""
    driver = Reader()
    name, _, words = row.removeprefix("Tell::").removesuffix(")").partition("(")
    asked = [int({"true": "1", "false": "0"}.get(word, word)) for word in re.findall(r"\d+|true|false", words)]
    if name == "cab":
        speed = -1 if "Halt" in words else 0 if "Stand" in words else asked[1]
        return driver.encode(("cab", asked[0]), (speed, asked[-1]))
    if name in ("Function", "Turnout", "Power"):
        return driver.encode((name.lower(), *asked[:-1]), asked[-1])
    if name in ("ReadCv", "WriteCv"):
        return driver.encode_cv(asked[0], asked[1] if name == "WriteCv" else None)
    alone = {"StopAll": driver.STOP_ALL, "Hello": driver.HELLO, "Alive": driver.ALIVE, "Sensors": driver.SENSORS}
    return alone[name] if name in alone else ask_locomotive(*asked) if name == "Ask" else driver.encode(
        (name.lower(), *asked), 0)


def words_of_a_dcc_ex(_: str) -> str | None:
    """dcc_ex.py reads each message of the tests of `srcp_stations` as the crate does, and writes each command so. What
    the program alone reads stands in a test of its own."""
    reader, faults, count = Reader(), [], 0
    for test in ("messages", "messages_with_text_or_noise"):
        for message, said in rows_of(test):
            count += 1
            faults += [f"{message!r}: {got}, and {said} in the crate"
                       for got in [reader.read(message)] if got != [said]]
    for message, _said in rows_of("messages_that_say_nothing"):
        count += 1
        faults += [f"{message!r}: {got}, and nothing in the crate" for got in [reader.read(message)] if got]
    for message, _said in rows_of("messages_that_the_program_alone_reads"):
        count += 1
        faults += [f"{message!r}: read by neither"] * (not reader.read(message))
    for command, row in rows_of("commands"):
        count += 1
        faults += [f"{row}: {got!r}, and {command!r} in the crate" for got in [told(row)] if got != command]
    listed = len(re.findall(rf"^\s+\(?{BYTES}", ROWS.read_text().partition("\nfn datasets(")[0], re.M))
    if faults:
        return "; ".join(faults)
    return None if count == listed > 70 else f"{count} rows of {listed}"


def datasets_of_a_z21(_: str) -> str | None:
    """z21.py makes of each command of the tests the dataset that the crate makes, and finds that again. In a datagram
    that has none for the crate, z21.py finds none either."""
    rows = [(dataset, unescaped(command.removeprefix('b"').removesuffix('"')))
            for dataset, command in rows_of("datasets")]
    faults = [f"{command!r}: {got!r}, and {dataset!r} in the crate" for dataset, command in rows
              if (got := xbus(*command)) != dataset]
    faults += [f"{dataset!r}: {found}" for dataset, command in rows
               if (found := list(datasets(dataset))) != [(XBUS, command + bytes([check(command)]))]]
    none = [datagram for datagram, _said in rows_of("datagrams_without_a_dataset")]
    faults += [f"{datagram!r}: {found}, and nothing in the crate" for datagram in none
               if (found := list(datasets(datagram)))]
    return "; ".join(faults) or (None if len(rows) > 3 and len(none) > 4 else f"{len(rows)} and {len(none)} rows")


STATION_WORD_CASES = (words_of_a_dcc_ex, datasets_of_a_z21)
