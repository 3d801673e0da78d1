"""The last words of a driver: as it ends, however it does, or sleeps, its station stops all and takes the power off.

A process of its own says them, which has the driver's line too. It tells the registry `POWER OFF no driver`. It needs
nothing but the standard library, and nothing of the driver but its end of a socket, which closes as the driver ends.
"""
import argparse
import contextlib
import fcntl
import os
import select
import signal
import socket
import subprocess
import sys
import termios
import time
from collections.abc import Callable

BEAT = 0.5  # seconds between two signs of life
MOMENT = 0.05  # seconds between two sayings
REGISTRY = 3.0  # seconds that the server has to answer
LINES = 4  # a welcome, and three replies
LONGEST = 1473  # bytes of a message: a datagram, and what it begins with
WORDS, TAKEN_BACK, ALIVE = b"W", b"T", b"A"  # how messages begin


class LastWords:
    """The driver's side: `leave` words with an open line, and `take_back` those that are not to be said."""

    def __init__(self, asked: argparse.Namespace, times: int):
        """`times`: how often they are said, since a command may be lost."""
        self.about = asked.host, asked.port, asked.bus, asked.asleep, times
        self.way: socket.socket | None = None
        self.process: subprocess.Popen[bytes] | None = None

    def leave(self, line: int, words: bytes) -> None:
        """Leaves what a line is told at the end."""
        if not self.way:
            with contextlib.suppress(OSError):  # it drives without them, then
                self.begin()
        self.send(WORDS + words, [line])

    def begin(self) -> None:
        self.way, theirs = socket.socketpair(socket.AF_UNIX, socket.SOCK_SEQPACKET)
        self.way.setblocking(False)
        with theirs:
            words = [sys.executable, "-I", "-S", __file__, *map(str, (theirs.fileno(), *self.about))]
            self.process = subprocess.Popen(words, pass_fds=[theirs.fileno()], start_new_session=True,
                                            stdin=subprocess.DEVNULL, stdout=subprocess.DEVNULL,
                                            stderr=subprocess.DEVNULL)

    def take_back(self) -> None:
        """All stand already, or the line is lost."""
        self.send(TAKEN_BACK)

    def send(self, message: bytes, lines: list[int] | None = None) -> None:
        if self.way:
            try:
                socket.send_fds(self.way, [message], lines or [])
            except BlockingIOError:
                pass  # that process sleeps; what waits tells it enough
            except OSError:
                self.way = None  # it is gone: another begins with the next words

    async def run(self) -> None:
        """Tells that the driver does not sleep."""
        import asyncio  # which the other process does without
        while True:
            self.send(ALIVE)
            await asyncio.sleep(BEAT)


class Speaker:
    """Decides when the words are said. It is told what comes, and the moment."""

    def __init__(self, asleep: float):
        self.asleep = asleep
        self.words = b""
        self.said = False
        self.heard = 0.0

    def take(self, message: bytes, now: float) -> bool:
        """Takes a message of the driver, b"" as it has ended; returns whether the words are to be said."""
        has_slept = 0 < self.heard < now - self.asleep and self.is_due()  # with the computer, and this process too
        self.heard = now
        if message:
            self.said = False
        if message[:1] in (WORDS, TAKEN_BACK):
            self.words = message[1:]
        return has_slept or not message and self.is_due()

    def look(self, now: float) -> bool:
        """Returns whether the driver sleeps and the words are to be said."""
        return now - self.heard > self.asleep and self.is_due()

    def is_due(self) -> bool:
        is_due = bool(self.words) and not self.said
        self.said |= is_due
        return is_due


def say(line: int, words: bytes, times: int, tell: Callable[[], None], wakes: Callable[[], bool]) -> None:
    """Says the words, again and again unless the driver wakes, and tells the registry behind the first saying."""
    with contextlib.suppress(OSError):
        fcntl.ioctl(line, termios.TIOCNXCL)  # another driver may open a serial line
    for number in range(times):
        if wakes():
            return
        with contextlib.suppress(OSError):
            if select.select([], [line], [], 1)[1]:
                os.write(line, words)
        if not number:
            tell()
        time.sleep(MOMENT)


def tell_registry(host: str, port: int, bus: int) -> None:
    """Sets the power of the bus off. A full server has a place once the driver's are free."""
    for _ in range(10):
        with contextlib.suppress(OSError), socket.create_connection((host, port), REGISTRY) as server:
            server.sendall(f"SET CONNECTIONMODE SRCP COMMAND\nGO\nSET {bus} POWER OFF no driver\n".encode())
            replies = server.makefile("rb")
            if b"200 OK\n" in [replies.readline() for _ in range(LINES)][-1]:
                return
        time.sleep(MOMENT)


def main() -> None:
    for number in (signal.SIGTERM, signal.SIGINT, signal.SIGHUP):
        signal.signal(number, signal.SIG_IGN)  # the driver is told to end with it
    way, host, port, bus, asleep, times = sys.argv[1:]
    line, driver, speaker = -1, socket.socket(fileno=int(way)), Speaker(float(asleep))
    while True:
        comes = select.select([driver], [], [], BEAT)[0]
        message, lines = socket.recv_fds(driver, LONGEST, 1)[:2] if comes else (b"", [])
        now = time.clock_gettime(time.CLOCK_BOOTTIME)  # which counts while the computer sleeps
        if lines or message[:1] == TAKEN_BACK:
            if line >= 0:
                os.close(line)
            line = lines[0] if lines else -1
        if speaker.take(message, now) if comes else speaker.look(now):
            say(line, speaker.words, int(times), lambda: tell_registry(host, int(port), int(bus)),
                lambda: not comes and bool(select.select([driver], [], [], 0)[0]))
        if comes and not message:
            return


if __name__ == "__main__":
    main()
