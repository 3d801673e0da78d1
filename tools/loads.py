"""What the tools load a server with, and how they measure it: commands over sockets, and scripts for replays."""
import os
import random
import subprocess
import sys
import tempfile
import threading
import time
from collections.abc import Iterable, Iterator, Sequence
from contextlib import contextmanager
from pathlib import Path
from typing import TYPE_CHECKING

if TYPE_CHECKING:
    from serving import Client
sys.path.insert(0, str(Path(__file__).resolve().parent.parent / "tests"))

Replay = tuple[list[str], Path, Path]  # the words that replay a script, the script, and what is printed of it
TICKS = os.sysconf("SC_CLK_TCK")
UNANSWERED = 2048  # bytes: eight pieces, so that the server always has input
COMMAND = b"SET 1 GL 3 1 5 28" + b" 0 1" * 9 + b"\n"
LOCOMOTIVES = 10_239  # of a full bus
ACCESSORIES = 2_044  # of a full bus
FULL_BUS = b'[[bus]]\nnumber = 1\ngroups = ["GL", "GA"]\ngl_max = 10239\nga_max = 2044\n'
MOMENTS = 100  # at which a port falls back
LINES = 500_000  # for `mirror`: close below the limit of an input
SCRIPT_BYTES = 16_000_000  # below the limit of an input
LONG_RUN = b"""[[bus]]
number = 1
groups = ["POWER", "GL", "GA", "FB"]
gl_max = 200
ga_max = 200
ga_ports = 4
fb_ports = 40
"""


# ---- over sockets

def processor_seconds(server: subprocess.Popen[bytes]) -> float:
    """Returns the time that a server of one thread has taken, to the nanosecond if the system tells that."""
    try:
        return int(Path(f"/proc/{server.pid}/schedstat").read_text().split()[0]) / 1e9
    except OSError:
        fields = Path(f"/proc/{server.pid}/stat").read_text().rpartition(")")[2].split()
        return (int(fields[11]) + int(fields[12])) / TICKS


def pipelined(client: "Client", commands: Sequence[bytes]) -> None:
    """Sends commands of which at most 2,048 bytes are unanswered, and takes a reply that is no error for each."""
    sent = answered = unanswered = 0
    while answered < len(commands):
        piece = []
        while sent < len(commands) and unanswered + len(commands[sent]) <= UNANSWERED:
            piece.append(commands[sent])
            unanswered, sent = unanswered + len(commands[sent]), sent + 1
        client.socket.sendall(b"".join(piece))
        replies = client.socket.recv(1 << 16)
        assert replies and b" ERROR " not in replies, replies
        for _ in range(replies.count(b"\n")):
            unanswered, answered = unanswered - len(commands[answered]), answered + 1


def drain(client: "Client", stop: threading.Event, counted: list[int]) -> None:
    """Reads lines and notes how many they are, until it is to stop."""
    client.socket.settimeout(0.5)
    while not stop.is_set():
        try:
            counted.append(client.socket.recv(1 << 16).count(b"\n"))
        except TimeoutError:
            pass


def stream(client: "Client", count: int) -> None:
    """Sends commands in pieces of 256 bytes, without waiting, and takes a reply for each."""
    commands = COMMAND * count

    def send() -> None:
        for at in range(0, len(commands), 256):
            client.socket.sendall(commands[at:at + 256])

    sender = threading.Thread(target=send)
    sender.start()
    replies = 0
    while replies < count:
        bytes_in = client.socket.recv(1 << 16)
        assert bytes_in and b" ERROR " not in bytes_in, bytes_in
        replies += bytes_in.count(b"\n")
    sender.join()


# ---- runs of a program over a file

def peak_of(process: subprocess.Popen[bytes]) -> int:
    """Returns the most memory in KiB that a running process has held, or 0 if it has just ended."""
    try:
        with open(f"/proc/{process.pid}/status") as status:
            return next((int(line.split()[1]) for line in status if line.startswith("VmHWM:")), 0)
    except OSError:
        return 0


def measured(words: list[str], path: str | Path, output: str | Path = os.devnull) -> tuple[float, int]:
    """Returns the seconds and the peak memory in KiB of a program over a file: the memory by a run of its own."""
    seconds, peak = 0.0, 0
    for watched in (False, True):
        with open(path, "rb") as source, open(output, "wb") as sink:
            begun = time.monotonic()
            running = subprocess.Popen(words, stdin=source, stdout=sink)
            while watched and running.poll() is None:
                peak = max(peak, peak_of(running))
                time.sleep(0.001)
            if running.wait() != 0:
                sys.exit(f"{' '.join(words)} ended with {running.returncode}")
            seconds = seconds if watched else time.monotonic() - begun
    return seconds, peak


@contextmanager
def replays(program: str, config: bytes) -> Iterator[Replay]:
    """Lends the words that replay a script on a layout, and where the script and what is printed of it go."""
    with tempfile.TemporaryDirectory() as folder:
        layout = Path(folder, "layout.toml")
        layout.write_bytes(config)
        yield [program, "replay", "--config", str(layout)], Path(folder, "script"), Path(folder, "record")


def replayed(replay: Replay, events: Iterable[bytes]) -> tuple[float, bytes]:
    """Returns the least seconds of processor that a script takes in five runs, and what is printed of it."""
    words, script, record = replay
    script.write_bytes(b"\n".join(events) + b"\n")
    taken = []
    for _ in range(5):
        with open(script, "rb") as given, open(record, "wb") as printed:
            _, status, usage = os.wait4(subprocess.Popen(words, stdin=given, stdout=printed).pid, 0)
        if status != 0:
            sys.exit(f"the replay ended with status {status}")
        taken.append(usage.ru_utime + usage.ru_stime)
    return min(taken), record.read_bytes()


# ---- a script of a long evening

class LongRun:
    """Draws the events of a long evening, and remembers which connections are open and of which kind."""

    def __init__(self, seed: int):
        self.draw = random.Random(seed)
        self.opened = 0
        self.throttles: list[int] = []
        self.panels: list[int] = []
        self.moment = 0

    def number(self, most: int) -> int:
        return self.draw.randint(1, most)

    def arrive(self) -> Iterator[bytes]:
        """A throttle or a panel connects and begins its session."""
        self.opened += 1
        conn = self.opened
        yield b"open"
        yield b"room %d 1000" % conn
        if self.draw.random() < 0.5:
            self.throttles.append(conn)
        else:
            self.panels.append(conn)
            yield b"bytes %d SET CONNECTIONMODE SRCP INFO\\n" % conn
            yield b"room %d 1000" % conn
        yield b"bytes %d GO\\n" % conn
        yield b"room %d 18" % conn

    def leave(self) -> Iterator[bytes]:
        among = self.throttles if self.draw.random() < 0.5 else self.panels
        if among:
            yield b"shut %d" % among.pop(self.draw.randrange(len(among)))

    def command(self) -> bytes:
        address, draw = self.number(60), self.draw
        return draw.choice([
            b"SET 1 GL %d %d %d 28 1 0 1" % (address, draw.randint(0, 2), draw.randint(0, 28)),
            b"INIT 1 GL %d N 1 28 %d" % (address, draw.randint(0, 4)),
            b"TERM 1 GL %d" % address, b"GET 1 GL %d" % address,
            b"INIT 1 GA %d M" % address, b"SET 1 GA %d %d 1 %d" % (address, draw.randint(0, 3), draw.randint(-1, 900)),
            b"TERM 1 GA %d" % address, b"SET 1 FB %d %d" % (self.number(40), draw.randint(0, 1)),
            b"SET 1 LOCK GL %d %d" % (address, draw.randint(0, 5)), b"TERM 1 LOCK GA %d" % address,
            b"SET 1 LOCK GA %d 0" % address, b"SET 1 POWER ON a long evening", b"GET 0 SESSION %d" % address,
        ])

    def drive(self) -> Iterator[bytes]:
        """A throttle sends one to four commands and takes the replies."""
        if self.throttles:
            conn = self.draw.choice(self.throttles)
            yield b"bytes %d %s" % (conn, b"".join(self.command() + b"\\n" for _ in range(self.number(4))))
            yield b"room %d 1000" % conn

    def watch(self) -> Iterator[bytes]:
        """A panel takes some bytes, few or many."""
        if self.panels:
            yield b"room %d %d" % (self.draw.choice(self.panels), self.draw.choice([0, 7, 60, 400, 20_000]))

    def wait(self) -> Iterator[bytes]:
        self.moment += self.number(400)
        yield b"at %d" % self.moment

    def events(self) -> Iterator[bytes]:
        while True:
            open_now = len(self.throttles) + len(self.panels)
            step = self.draw.choices([self.drive, self.watch, self.wait, self.arrive, self.leave],
                                     [50, 40, 8, 3 if open_now < 40 else 0, 1 if open_now > 4 else 0])[0]
            yield from step()


def script_of_a_long_run(seed: int, count: int) -> tuple[bytes, int]:
    """Returns a script of that many events, or of as many as one may have, and how many they are."""
    lines: list[bytes] = []
    size = 0
    for event in LongRun(seed).events():
        lines.append(event)
        size += len(event) + 1
        if len(lines) == count or size > SCRIPT_BYTES:
            break
    return b"\n".join(lines) + b"\n", len(lines)


# ---- scripts and lines of a full bus

def devices(count: int) -> list[tuple[bytes, int]]:
    """Returns devices of a bus, of both groups in the share of a full bus, in an order drawn from a fixed seed."""
    locomotives = round(count * LOCOMOTIVES / (LOCOMOTIVES + ACCESSORIES))
    drawn = [(b"GL", address) for address in range(1, locomotives + 1)]
    drawn += [(b"GA", address) for address in range(1, count - locomotives + 1)]
    random.Random(count).shuffle(drawn)
    return drawn


def commands(count: int) -> Iterator[bytes]:
    for group, address in devices(count):
        yield b"INIT 1 GL %d N 1 28 0" % address if group == b"GL" else b"INIT 1 GA %d N" % address
    for group, address in devices(count):
        yield b"SET 1 LOCK %s %d 0" % (group, address)
    for group, address in devices(count):
        yield b"SET 1 GL %d 1 5 28" % address if group == b"GL" else b"SET 1 GA %d 0 1 -1" % address


def driven(count: int) -> Iterator[bytes]:
    """A throttle's part of the script, six commands a piece."""
    yield from (b"open", b"room 1 1000", b"bytes 1 GO\\n", b"room 1 1000")
    waiting = list(commands(count))
    for at in range(0, len(waiting), 6):
        yield b"bytes 1 " + b"".join(command + b"\\n" for command in waiting[at:at + 6])
        yield b"room 1 1000"


def listed(count: int) -> Iterator[bytes]:
    """A panel's part."""
    yield from (b"open", b"room 2 1000", b"bytes 2 SET CONNECTIONMODE SRCP INFO\\n", b"room 2 1000", b"bytes 2 GO\\n")
    yield from (b"room 2 10000" for _ in range(count // 30 + 2))


def falling_ports(count: int) -> Iterator[bytes]:
    """Moments of which each brings one port back."""
    address = next(address for group, address in devices(count) if group == b"GA")
    for moment in range(MOMENTS):
        yield b"bytes 1 SET 1 GA %d 0 1 10\\n" % address
        yield b"room 1 1000"
        yield b"at %d" % (20 * moment + 20)


def states(addresses: int) -> Iterator[bytes]:
    """Half a million states of locomotives, as a long evening would send them."""
    for i in range(LINES):
        yield b"%d.%03d 100 INFO 1 GL %d 1 %d 28\n" % (i // 10_000, i % 1000, i * 7919 % addresses + 1, i % 29)


def states_by_falling_key(rows: int) -> Iterator[bytes]:
    """Returns a state of each locomotive, over as many buses as they need, the greatest key first."""
    for left in range(rows - 1, -1, -1):
        yield b"1.000 100 INFO %d GL %d 1 5 28\n" % (left // LOCOMOTIVES + 1, left % LOCOMOTIVES + 1)
