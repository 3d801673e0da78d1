#!/usr/bin/env python3
"""program.py [--bus BUS] [--port PORT] [--anyway] read CV .. | write CV VALUE | verify CV VALUE | address NUMBER |
bit NAME on | bit NAME off | table: programs a decoder.

The driver of that bus on this machine (bridges/dcc_ex.py, z21.py) has its station do it. `table` reads the CVs that
people change. Status 1: it was not done, or the decoder has another value than `verify` names.
"""
import argparse
import socket
import sys
from typing import NoReturn

from panel import add_version, tell
from status import programs

if sys.version_info < (3, 11):
    sys.exit("this takes Python 3.11 or later")
SECONDS = 60  # for one CV: others may have asked before
SHORT, MAKER, HIGH, LOW, SETTINGS = 1, 8, 17, 18, 29  # CVs: the short address; who made it; the long address; its bits
SHORTEST, LONGEST = 127, 10239  # the greatest short address, and the greatest of all
FIRST = 192  # what CV 17 has of the long address 0
CVS = {SHORT: "short address, 1 to 127", 2: "voltage at the first step", 3: "acceleration: the more, the slower",
       4: "braking: the more, the slower", 5: "voltage at the last step", 6: "voltage at the middle step",
       MAKER: "maker; a value that is written there resets most decoders", 13: "functions 1 to 8 on an analog track",
       HIGH: "long address, high byte: 192 + address // 256", LOW: "long address, low byte: address % 256",
       19: "consist address, + 128 if it is turned; 0: none", 21: "functions 1 to 8 that follow the consist",
       22: "light and functions 9 to 12 that follow the consist", 27: "sections in which it stops by itself",
       28: "RailCom, sum of: 1 its address, 2 what it is asked for",
       SETTINGS: "sum of: 1 turned, 2 steps, 4 analog, 8 railcom, 16 curve, 32 long",
       33: "outputs of the light forward", 34: "outputs of the light backward", 66: "speed forward, 128: as it is",
       95: "speed backward, 128: as it is"}
BITS = {"turned": (1, "it drives the other way round"), "steps": (2, "28 steps or more, and not 14"),
        "analog": (4, "it drives without a digital signal too"), "railcom": (8, "it says where it is"),
        "curve": (16, "speeds by the table of CV 67 to 94"), "long": (32, "the long address counts, and not CV 1")}
ABOUT = """Reads and writes the CVs of a decoder, by the station that a driver on this machine has.

  read CV ..         prints values, and what the bits of CV 29 are
  write CV VALUE     reads the CV, writes it, and prints what was there; what makes a decoder unreachable is refused
  verify CV VALUE    compares
  address NUMBER     gives the decoder a short address (1 to 127), or a long one (128 to 10239), and reads that back
  bit NAME on|off    switches a bit of CV 29: {bits}
  table              prints the CVs that people change

A station with a programming track (DCC-EX) programs the decoder there, and trains drive on. One that switches its track
off to program (Z21) is told nothing while a train drives. If it has no programming track, it programs each decoder on
its track: take all others off first."""
WORDS = "read CV .., write CV VALUE, verify CV VALUE, address NUMBER, bit NAME on|off, or table: a CV is 1 to 1024, " \
    "a value 0 to 255, an address 1 to 10239"


class Arguments(argparse.ArgumentParser):
    def error(self, message: str) -> NoReturn:
        """Ends the program with status 2, and one line."""
        self.exit(2, f"{self.prog}: {message}\n")


def door_of(bus: int, port: int) -> str:
    """Returns the socket by which the driver of a bus takes what is to be programmed."""
    doors = [told["station"]["door"] for told in programs()
             if told["station"].get("bus") == bus and "door" in told["station"] and told["sessions"].get(str(port))]
    if len(doors) != 1:
        sys.exit(f"{len(doors) or 'no'} drivers of bus {bus} are joined here to a server at port {port}: one has to be")
    return str(doors[0])


def bits_of(value: int) -> str:
    """Returns the names of the bits of CV 29 that are on."""
    return ", ".join(name for name, (bit, _) in BITS.items() if value & bit) or "none"


def shown(cv: int, value: int) -> str:
    """Returns how the value of a CV is printed."""
    return f"CV {cv} = {value}" + f" ({bits_of(value)})" * (cv == SETTINGS)


class Decoder:
    """The decoder that a driver's station programs. `anyway`: also what makes it unreachable, or cannot be read."""

    def __init__(self, door: str, anyway: bool) -> None:
        connection = socket.socket(socket.AF_UNIX)
        connection.settimeout(SECONDS)
        connection.connect(door)
        self.stream = connection.makefile("rw", encoding="latin-1", newline="\n")
        self.anyway = anyway

    def ask(self, *words: object) -> tuple[str, str]:
        """Has the station read or write a CV. Returns the code of its reply, and the value or what is wrong."""
        print(*words, file=self.stream, flush=True)
        code, _, told = self.stream.readline().rstrip("\n").partition(" ")
        return code or "417", told or "the driver has ended"

    def value(self, *words: object) -> int:
        """Returns the value that a CV then has; ends the program if it was not done."""
        code, told = self.ask(*words)
        return int(told) if code == "200" else sys.exit(f"CV {words[1]}: {told}")

    def fault(self, cv: int, value: int, old: int | None) -> str | None:
        """Returns why a decoder is out of reach with that value of a CV, or None. `old`: what was there, if known; only
        then what else the decoder has is looked at."""
        if cv == MAKER:
            return "a value that is written there resets most decoders, their address too"
        if cv == SHORT and not 1 <= value <= SHORTEST:
            return f"{value} is no short address: that is 1 to {SHORTEST}; `address` writes a long one"
        if cv == HIGH and not FIRST <= value <= FIRST + LONGEST // 256:
            return f"{value} begins no long address: that is {FIRST} to {FIRST + LONGEST // 256}"
        if cv == SETTINGS and old is not None and (value ^ old) & BITS["long"][0]:
            counts = HIGH if value & BITS["long"][0] else SHORT
            why = self.fault(counts, self.value("READ", counts), None)
            return why and f"then CV {counts} counts: {why}"
        return None

    def refuse(self, cv: int, value: int, old: int | None) -> None:
        """Ends the program if a decoder is out of reach with that value of a CV, unless it is to be so."""
        if not self.anyway and (why := self.fault(cv, value, old)):
            sys.exit(f"CV {cv}: {why}. --anyway writes it")

    def put(self, cv: int, value: int) -> None:
        """Writes a value, and prints what was there. A decoder that cannot be read is not written to."""
        self.refuse(cv, value, None)
        code, told = self.ask("READ", cv)
        old = int(told) if code == "200" else None
        if old is None and not self.anyway:
            sys.exit(f"CV {cv}: {told}")
        self.refuse(cv, value, old)
        if (found := self.value("WRITE", cv, value)) != value:
            sys.exit(f"CV {cv} = {found}, and not {value}")
        tell(f"{shown(cv, value)}, was {'not read' if old is None else old}")

    def verify(self, cv: int, wanted: int) -> None:
        """Ends the program if a CV has another value."""
        if (value := self.value("READ", cv)) != wanted:
            sys.exit(f"CV {cv} = {value}, and not {wanted}")

    def address(self, address: int) -> None:
        """Gives the decoder an address. It answers to the new one only once the bit that chooses is written, last."""
        settings, is_long = self.value("READ", SETTINGS), address > SHORTEST
        long = BITS["long"][0]
        settings = settings | long if is_long else settings & ~long
        high, low = divmod(address, 256)
        wanted = {HIGH: FIRST + high, LOW: low} if is_long else {SHORT: address}
        for cv, value in (wanted | {SETTINGS: settings}).items():
            self.put(cv, value)
        for cv, value in (wanted | {SETTINGS: settings}).items():
            self.verify(cv, value)
        tell(f"its {'long' if is_long else 'short'} address is {address}")

    def switch(self, name: str, is_on: bool) -> None:
        """Switches a bit of CV 29, and leaves the others."""
        settings, bit = self.value("READ", SETTINGS), BITS[name][0]
        self.put(SETTINGS, settings | bit if is_on else settings & ~bit)

    def table(self) -> None:
        """Prints what the CVs are that people change; a line without a value is of one that this decoder has not."""
        self.value("READ", MAKER)
        for cv, about in CVS.items():
            code, told = self.ask("READ", cv)
            if code not in ("200", "416"):
                sys.exit(f"CV {cv}: {told}")
            here = f": {bits_of(int(told))}" if cv == SETTINGS and code == "200" else ""
            tell(f"{cv:4} {told if code == '200' else '-':>4}  {about}{here}")


def carry_out(decoder: Decoder, what: str, words: list[str]) -> None:
    """Does what is asked for."""
    if what == "table":
        return decoder.table()
    if what == "bit":
        return decoder.switch(words[0], words[1] == "on")
    numbers = [int(word) for word in words]
    if what == "address":
        decoder.address(numbers[0])
    elif what == "write":
        decoder.put(*numbers)
    elif what == "verify":
        decoder.verify(*numbers)
        tell(shown(*numbers))
    else:
        for cv in numbers:
            tell(shown(cv, decoder.value("READ", cv)))


def is_right(what: str, words: list[str]) -> bool:
    """Returns whether what is asked for has all its words, and numbers within their limits."""
    if what == "bit":
        return len(words) == 2 and words[0] in BITS and words[1] in ("on", "off")
    if not all(word.isascii() and word.isdecimal() for word in words):
        return False
    numbers = [int(word) for word in words]
    if what == "address":
        return len(numbers) == 1 and 1 <= numbers[0] <= LONGEST
    cvs, values = (numbers, []) if what == "read" else (numbers[:1], numbers[1:])
    is_count = len(numbers) > 0 if what == "read" else len(numbers) == (0 if what == "table" else 2)
    return is_count and all(1 <= cv <= 1024 for cv in cvs) and all(0 <= value <= 255 for value in values)


def main() -> None:
    listed = "The CVs that people change:\n" + "\n".join(f"  {cv:4}  {about}" for cv, about in CVS.items())
    about = ABOUT.format(bits="".join(f"\n    {name:8} {what}" for name, (_, what) in BITS.items()))
    words = Arguments(description=about, epilog=listed, formatter_class=argparse.RawDescriptionHelpFormatter)
    add_version(words)
    words.add_argument("--bus", type=int, default=1, help="the bus of the station")
    words.add_argument("--port", type=int, default=4303, help="the server's port, by which its driver is found")
    words.add_argument("--anyway", action="store_true", help="write also what makes the decoder unreachable")
    words.add_argument("what", choices=("read", "write", "verify", "address", "bit", "table"))
    words.add_argument("words", metavar="WORD", nargs="*", help="as above")
    asked = words.parse_args()
    if not is_right(asked.what, asked.words):
        words.error(WORDS)
    try:
        carry_out(Decoder(door_of(asked.bus, asked.port), asked.anyway), asked.what, asked.words)
    except OSError as fault:
        sys.exit(f"the driver of bus {asked.bus}: {fault}")


if __name__ == "__main__":
    main()
