"""Whose turn it is beside a slow panel: sessions that send without end are answered alike, and nobody starves."""
import selectors
import threading
import time
from contextlib import contextmanager

from rates import EIGHT_PORTS, panel_reading
from serving import Client, served

SENDERS = 60
MAKERS = (7, 16)
# How many lines a second the panel reads, and for how many seconds what is answered is counted, after the first. What a
# panel takes at once lets each session of a part of the round have a share more: over so long that matters little.
LINES_A_SECOND = 1_200
SECONDS = 6.0
WARMING = 1.0  # seconds that do not count
BETWEEN_STOPS = 0.05  # seconds
# A stop waits for two services of each other session at most, one a millisecond, and longer on a busy machine.
LONGEST_STOP = 0.5  # seconds, for nine of ten stops
# How often each session is answered at least, so that the least and the most can be compared.
LEAST = 10
MOST_AHEAD = 1.5  # times as many answers as the session with the fewest
LONGEST_LOGIN = 2.0  # seconds until a new session is greeted
SETS = b"SET 1 FB 7 1\n" * 500
INITS = b"INIT 1 GA 5 N 1\nINIT 1 GA 5 M 1\n" * 250
STOP = "SET 1 GL 3 2 0 0"


class Senders(threading.Thread):
    """Sends the same commands without end in each of some sessions, and counts what each is answered."""

    def __init__(self, port: int, count: int, commands: bytes):
        super().__init__()
        self.clients = [Client(port, "COMMAND") for _ in range(count)]
        self.commands = memoryview(commands)
        self.answered, self.sent, self.ends = [0] * count, [0] * count, False
        self.before = [0] * count

    def begin_count(self) -> None:
        """Leaves out what was answered so far: the first to send has 500 lines carried out before the others send."""
        self.before = list(self.answered)

    def counts(self) -> list[int]:
        """Returns how often each session was answered since the count began."""
        return [now - then for now, then in zip(self.answered, self.before, strict=True)]

    def run(self) -> None:
        with selectors.DefaultSelector() as selector:
            for index, client in enumerate(self.clients):
                client.socket.setblocking(False)
                selector.register(client.socket, selectors.EVENT_READ | selectors.EVENT_WRITE, index)
            while not self.ends:
                for key, ready in selector.select(0.1):
                    self.goes_on(key.fileobj, key.data, ready)

    def goes_on(self, connection, index: int, ready: int) -> None:
        """Reads replies and sends commands, as far as the connection is ready for them."""
        if ready & selectors.EVENT_READ:
            self.answered[index] += connection.recv(1 << 16).count(b"\n")
        if ready & selectors.EVENT_WRITE:
            self.sent[index] += connection.send(self.commands[self.sent[index] % len(self.commands):])


@contextmanager
def sending(*senders: Senders):
    """The sessions send, beside whatever is done meanwhile."""
    for sender in senders:
        sender.start()
    time.sleep(WARMING)
    for sender in senders:
        sender.begin_count()
    try:
        yield
    finally:
        for sender in senders:
            sender.ends = True
        for sender in senders:
            sender.join()


def stops_of(quiet: Client) -> list[float]:
    """Returns how long each stop of a session waits that sends one from time to time. The last may not be answered."""
    waits: list[float] = []
    end = time.monotonic() + SECONDS
    quiet.socket.settimeout(SECONDS)
    while (begun := time.monotonic()) < end:
        try:
            quiet.asks(STOP)
        except TimeoutError:
            return [*waits, SECONDS]
        waits.append(time.monotonic() - begun)
        time.sleep(BETWEEN_STOPS)
    return waits


def stop_from_each_place(program):
    """Beside a panel that reads 1.2 lines a millisecond and 60 sessions that send without end, an emergency stop goes
    within two services of each: from the first place, the middle and the last. The 60 are answered alike. It fails for
    a door that lets a peer of which nothing was handed out for 50 ms go first, with a whole share."""
    for before in (0, SENDERS // 2, SENDERS):
        with served(program) as (port, _):
            first = Client(port, "COMMAND")
            first.asks("INIT 1 GL 3 N 1 28 5")
            first.close()
            ahead = Senders(port, before, SETS)
            quiet = Client(port, "COMMAND")
            behind = Senders(port, SENDERS - before, SETS)
            with panel_reading(port, LINES_A_SECOND), sending(ahead, behind):
                waits = stops_of(quiet)
        if sorted(waits)[len(waits) * 9 // 10] > LONGEST_STOP:
            return f"with {before} sessions before it the stops wait {[round(wait, 3) for wait in waits]} s"
        if wrong := unlike(ahead.counts() + behind.counts()):
            return wrong
    return None


def unlike(answered: list[int]) -> str | None:
    """Returns how sessions are answered if that is not alike."""
    if min(answered) < LEAST or max(answered) >= MOST_AHEAD * min(answered):
        return f"the sessions are answered {answered} times"
    return None


def sessions_that_make_accessories_beside_a_slow_panel(program):
    """They are answered alike, though each of their lines may bring eleven changes. It fails for a door that lets a
    peer of which nothing was handed out for 50 ms go first, with a whole share."""
    for count in MAKERS:
        with served(program, layout=EIGHT_PORTS) as (port, _):
            makers = Senders(port, count, INITS)
            with panel_reading(port, LINES_A_SECOND), sending(makers):
                time.sleep(SECONDS)
        if wrong := unlike(makers.counts()):
            return wrong
    return None


def newcomer_beside_a_slow_panel(program):
    """It is greeted and logged in soon, though 60 sessions send without end. It fails for a door that lets a peer of
    which nothing was handed out for 50 ms go first, with a whole share."""
    with served(program) as (port, _):
        senders = Senders(port, SENDERS, SETS)
        with panel_reading(port, LINES_A_SECOND), sending(senders):
            begun = time.monotonic()
            try:
                Client(port, "COMMAND", seconds=2 * LONGEST_LOGIN).close()
            except TimeoutError:
                pass
            took = time.monotonic() - begun
    return None if took < LONGEST_LOGIN else f"it takes {took:.1f} s"


TURN_CASES = (stop_from_each_place, sessions_that_make_accessories_beside_a_slow_panel, newcomer_beside_a_slow_panel)
