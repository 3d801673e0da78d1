"""What the simulated stations share: what moves on their tracks, the trouble on their lines, and their words."""
import argparse
import os
import pty
import random
import select
import signal
import sys
import threading
import time
import tty
from collections.abc import Callable, Mapping
from functools import partial
from operator import itemgetter

from srcp_bridges.program import Arguments, parser, tell

DECODER = {1: 3, 2: 4, 3: 8, 4: 6, 5: 255, 6: 88, 7: 3, 8: 13, 13: 1, 17: 195, 18: 232, 19: 0, 21: 0, 22: 0, 27: 0,
           28: 3, 29: 6, 33: 1, 34: 2, 66: 128, 95: 128}  # the CVs of a decoder
ENDS = {signal.SIGTERM, signal.SIGINT}
Acts = Mapping[str, Callable[..., None]]  # what is done, by the word that is typed for it
LATER = 0.15  # seconds, at most, by which a message comes behind others


class Trouble:
    """What happens to a message on its way, by chance and by a seed: each to a share of them, from 0 to 1.

    `loses`: it never comes. `turns`: a bit of it is turned. `doubles`: it comes twice. `shuffles`: it comes later, and
    so behind others. `spoilt` counts what was lost or turned.
    """

    def __init__(self, seed: int, loses: float = 0.0, turns: float = 0.0, doubles: float = 0.0, shuffles: float = 0.0):
        self.chance = random.Random(seed)
        self.loses = loses
        self.turns = turns
        self.doubles = doubles
        self.shuffles = shuffles
        self.spoilt = 0
        self.late: list[tuple[float, Callable[[], object]]] = []  # when something comes later, and what it does
        self.giving = threading.RLock()  # so that nothing is answered between a message and its double

    def happens(self, share: float) -> bool:
        return self.chance.random() < share

    def passes(self, message: bytes, give: Callable[[bytes], object]) -> None:
        """Gives what comes of a message. What comes later is given by `come_late`."""
        if self.happens(self.loses):
            self.spoilt += 1
            return
        if self.happens(self.turns):
            self.spoilt += 1
            message = self.turned(message)
        with self.giving:
            for _ in range(2 if self.happens(self.doubles) else 1):
                if self.happens(self.shuffles):
                    self.late.append((time.monotonic() + self.chance.uniform(0, LATER), partial(give, message)))
                else:
                    give(message)

    def come_late(self) -> None:
        """Gives what is due."""
        now = time.monotonic()
        for each in sorted((each for each in self.late if each[0] <= now), key=itemgetter(0)):
            self.late.remove(each)
            each[1]()

    def turned(self, message: bytes) -> bytes:
        bits = bytearray(message)
        bits[self.chance.randrange(len(bits))] ^= 1 << self.chance.randrange(8)
        return bytes(bits)


class Line:
    """The station's end of a pseudo-terminal. `link` is made to lead to the other end."""

    def __init__(self, link: str) -> None:
        self.master, self.slave = pty.openpty()  # the slave stays open, so that the line is not hung up
        tty.setraw(self.slave)
        self.link = link
        if os.path.islink(link):
            os.unlink(link)
        os.symlink(os.ttyname(self.slave), link)

    def waits(self, seconds: float) -> bool:
        """Returns whether something came within so many seconds."""
        return bool(select.select([self.master], [], [], seconds)[0])

    def say(self, text: str) -> None:
        """Sends a text. If nobody reads, and the line is full, it is lost, as it is on a wire."""
        if select.select([], [self.master], [], 0)[1]:
            os.write(self.master, text.encode())

    def close(self) -> None:
        os.close(self.master)
        os.close(self.slave)
        os.unlink(self.link)


class Simulated:
    """A station whose track is watched. `cabs` has the speed of each locomotive (-1: it made an emergency stop) and its
    direction, `functions` and `turnouts` what they were put to.

    `moves` has what began to move, moves at another speed, or came to a stop: the moment, the locomotive, its speed.
    Its     power is there as locomotive 0, which moves at 1.
    `log` has all commands with their moments, each before what it moves, and `faults` what was refused.
    """

    def __init__(self, show: Callable[[str], None], trouble: Trouble) -> None:
        self.show = show
        self.trouble = trouble
        self.faults: list[str] = []
        self.log: list[tuple[float, str]] = []
        self.cabs: dict[int, tuple[int, int]] = {}
        self.functions: dict[tuple[int, int], int] = {}
        self.turnouts: dict[int, int] = {}
        self.decoder: dict[int, int] | None = dict(DECODER)
        self.moves: list[tuple[float, int, int]] = []
        self.moving: dict[int, int] = {}
        self.looking = threading.Lock()

    @property
    def power(self) -> int:
        raise NotImplementedError

    def unplug(self) -> None:
        raise NotImplementedError

    def acts(self) -> Acts:
        """Returns what can be typed."""
        raise NotImplementedError

    @property
    def loses(self) -> float:
        """The share of messages that its line loses."""
        return self.trouble.loses

    @loses.setter
    def loses(self, share: float) -> None:
        self.trouble.loses = share

    def look(self) -> None:
        """Notes what moves otherwise than before. Without power nothing does."""
        with self.looking:
            now = time.monotonic()
            for cab in sorted({0, *self.moving, *self.cabs}):
                speed = max(0, self.cabs.get(cab, (int(cab == 0), 1))[0]) if self.power else 0
                if speed != self.moving.get(cab, 0):
                    self.moving[cab] = speed
                    self.moves.append((now, cab, speed))

    def put(self, cab: int, speed: int, way: int) -> None:
        """Has a locomotive drive so."""
        self.cabs[cab] = speed, way
        self.look()


# ---- as programs

def show(text: str) -> None:
    """Prints what changes the track. Once nobody reads that, this program ends as by SIGTERM."""
    try:
        tell(text)
    except SystemExit:
        os.kill(os.getpid(), signal.SIGTERM)  # this thread alone would end


def share(text: str) -> float:
    """Returns the share that a word such as 50 stands for: one in 50. 0 is none."""
    if not text.isdecimal():
        raise argparse.ArgumentTypeError(f"{text} is no number")
    return 1 / int(text) if int(text) else 0.0


def words_of_station(about: str | None, **shares: tuple[float, str]) -> Arguments:
    """Returns a parser of what both stations can be told; `shares` has what happens by chance, with its usual share."""
    words = parser(about)
    for name, (usual, what) in shares.items():
        words.add_argument(f"--{name}", type=share, default=usual, metavar="N", help=f"{what}: one in N; 0: none")
    words.add_argument("--seed", type=int, default=1, metavar="NUMBER", help="of what happens by chance (%(default)s)")
    return words


def obeys(acts: Acts) -> None:
    """Does what is typed: a line has the word of an act, and numbers. A number alone is for the act "sensor"."""
    for line in sys.stdin:
        word, *numbers = line.split() or [""]
        if word.isdecimal():
            word, numbers = "sensor", [word]
        try:
            acts[word](*map(int, numbers))
        except (KeyError, TypeError, ValueError):
            print(f"-- {line.strip()}: what can be typed is {', '.join(acts)}", file=sys.stderr, flush=True)


def serves(begin: Callable[[], Simulated]) -> None:
    """Begins a station, and does what is typed until this program is ended by SIGTERM or Ctrl-C."""
    signal.signal(signal.SIGTERM, signal.default_int_handler)
    signal.pthread_sigmask(signal.SIG_BLOCK, ENDS)  # for all threads but this one, and for this one until it has begun
    station = begin()
    try:
        signal.pthread_sigmask(signal.SIG_UNBLOCK, ENDS)
        obeys(station.acts())
        threading.Event().wait()  # no keyboard: until it is ended
    except KeyboardInterrupt:
        station.unplug()
