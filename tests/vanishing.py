"""What the system holds for peers that do not read, and when a peer is lost whose system answers or takes no more."""
import re
import socket
import struct
import threading
import time
from pathlib import Path

from faults import Filter
from pacing import running, send_all, sending_without_end, shut
from serving import SECONDS, Client, TriedNothing, served

PANELS = 62  # with a throttle nearly all places
ROUNDS = 20  # in which changes are sent
COMMANDS = 500  # sent at once
# What the system may hold for a socket: twice what the server asks for.
MOST_HELD = 2 * 131_072
SMALL = 4096  # bytes that the client's own system holds, so that the server's has to
ATTACH_FILTER = 26  # SO_ATTACH_FILTER of Linux
LOST_SECONDS = 30  # after which a peer is lost that answers or takes nothing
LINGER_SECONDS = 10  # for which a closed peer is kept
# How many seconds after its close a panel reads that is in time, and how many one that is late.
IN_TIME = LINGER_SECONDS - 3
LATE = LINGER_SECONDS + 2
# How many bytes its own system holds for a panel that did not read, and how many are on its way in all.
HELD_BY_ITS_OWN = 110_000
ON_ITS_WAY = 400_000
CHANGES_ON_ITS_WAY = 10_000
# More than so many bytes its own system comes to hold for a panel that reads fast beside some sessions.
GROWN = 1_000_000
SENDERS = 8  # sessions that send without end
# A session that reads so many bytes a second through so small a window, of so many replies.
READ_A_SECOND = 35_000
WINDOW = 16_384
ASKED = 200_000
# The least, the usual and the most that a system of Linux holds for a socket.
TCP_RMEM = Path("/proc/sys/net/ipv4/tcp_rmem")


def vanish(client):
    """Drops all that comes to a socket, so that its system answers nothing, as that of a machine that is gone."""
    drop_all = Filter(1, struct.pack("HBBI", 0x06, 0, 0, 0))
    client.socket.setsockopt(socket.SOL_SOCKET, ATTACH_FILTER, bytes(drop_all))


def held_by_the_system(port):
    """Returns how many bytes wait to be sent or acknowledged in each socket of the server that is not its listener."""
    own, listens = f"0100007F:{port:04X}", "0A"
    rows = [line.split() for line in Path("/proc/net/tcp").read_text().splitlines()[1:]]
    return [int(row[4].partition(":")[0], 16) for row in rows if row[1] == own and row[3] != listens]


def send_until_nothing_is_taken(client):
    """Sends commands and reads no reply, until the server takes no more."""
    client.socket.settimeout(1)
    try:
        while True:
            client.socket.sendall(b"GET 1 POWER\n" * COMMANDS)
    except TimeoutError:
        pass


def panels_that_do_not_read(program):
    """The system holds at most 256 KB for each, however many changes come. It fails for a door that lets the system
    hold what it likes for a socket."""
    most = 0
    with served(program) as (port, _):
        throttle = Client(port, "COMMAND")
        panels = [Client(port, "INFO", SMALL) for _ in range(PANELS)]
        for _ in range(ROUNDS):
            throttle.asks_many(["SET 1 FB 8 1", "SET 1 FB 8 0"] * COMMANDS)
            most = max(most, *held_by_the_system(port))
        for panel in panels:
            panel.close()
    return None if most <= MOST_HELD else f"the system holds {most} bytes for a panel that does not read"


def peers_that_vanish(program):
    """A session and a panel whose systems answer no more are lost after half a minute, and the lock of the session with
    it. So is a session whose system takes no more, since it does not read its replies. It fails for a door that never
    asks whether a peer is still there."""
    with served(program) as (port, _):
        throttle = Client(port, "COMMAND")
        panel = Client(port, "INFO")
        other = Client(port, "COMMAND")
        stuck = Client(port, "COMMAND", SMALL)
        throttle.asks("INIT 1 GL 3 N 1 28 4", "SET 1 LOCK GL 3 0")
        vanish(throttle)
        vanish(panel)
        other.asks("SET 1 POWER ON")
        send_until_nothing_is_taken(stuck)
        left = {"GET 1 LOCK GL 3", *(f"GET 0 SESSION {client.session}" for client in (throttle, panel, stuck))}
        begun = time.monotonic()
        while left and time.monotonic() < begun + LOST_SECONDS + SECONDS:
            time.sleep(1)
            left = {question for question in left if " ERROR " not in f" {other.asks(question)}"}
    return f"{LOST_SECONDS + SECONDS} s later it answers {sorted(left)}" if left else None


def read_steadily(client, bytes_a_second, seconds):
    """Reads so much a second for some seconds. Returns after how many seconds the connection is lost, or None."""
    begun, count = time.monotonic(), 0
    while (passed := time.monotonic() - begun) < seconds:
        due = int(passed * bytes_a_second) - count
        if due < bytes_a_second // 50:
            time.sleep(0.01)
            continue
        try:
            piece = client.socket.recv(due)
        except OSError:
            piece = b""
        if not piece:
            return passed
        count += len(piece)
    return None


def session_that_reads_slowly_all_the_time(program):
    """It is kept, and its lock with it, though it is owed more than the systems on the way hold. It fails for a door
    that counts the time of the system while a peer reads slowly."""
    with served(program) as (port, _):
        owner, other = Client(port, "COMMAND", WINDOW), Client(port, "COMMAND")
        owner.asks("INIT 1 GL 3 N 1 28 4", "SET 1 LOCK GL 3 0")
        sends = threading.Thread(target=send_all, args=(owner, b"GET 1 GL 3\n" * ASKED))
        with running([sends]):
            owner.socket.settimeout(SECONDS)
            lost = read_steadily(owner, READ_A_SECOND, LOST_SECONDS + 8)
            locked = " ERROR " not in other.asks("GET 1 LOCK GL 3")
            shut([owner])
    kept = "kept" if locked else "gone"
    return None if lost is None and locked else f"after {lost} s it is lost, and its lock is {kept}"


def is_gone(panel, asker):
    """Returns whether the session of a panel is gone."""
    return " ERROR " in asker.asks(f"GET 0 SESSION {panel.session}")


def panel_that_was_closed_and_does_not_read(program):
    """The system holds something for it for 10 seconds, and then nothing: the connection is reset. It fails for a door
    that closes a peer that did not take all without a reset."""
    with served(program) as (port, _):
        throttle = Client(port, "COMMAND")
        panel = Client(port, "INFO", SMALL)
        for _ in range(ROUNDS):
            throttle.asks_many(["SET 1 FB 8 1", "SET 1 FB 8 0"] * COMMANDS)
            if is_gone(panel, throttle):
                break
        at_once = max(held_by_the_system(port))
        time.sleep(LINGER_SECONDS + 2)
        later = max(held_by_the_system(port))
        panel.close()
    return None if later == 0 < at_once else f"it holds {at_once} bytes, and {LINGER_SECONDS + 2} s later {later}"


def panels_that_overran(port, count):
    """Returns panels that read their listing and no more, once all of them are closed: each with the moment at which it
    was found closed, by these moments."""
    throttle = Client(port, "COMMAND")
    panels, closed = [Client(port, "INFO") for _ in range(count)], {}
    for panel in panels:
        panel.hears_until(b" 1 FB 8 0\n")
    for first in range(0, 4 * ROUNDS * COMMANDS, COMMANDS):
        throttle.asks_many([f"SET 1 POWER ON {number}" for number in range(first, first + COMMANDS)])
        closed |= {panel: time.monotonic() for panel in panels if panel not in closed and is_gone(panel, throttle)}
        if len(closed) == count:
            break
    return list(closed.items())


def is_some(number, usual):
    """Returns whether a number is more than half of the usual one, and less than twice as much."""
    return usual / 2 < number < 2 * usual


def most_held(panel):
    """Returns how many bytes its own system holds at most for a panel so far."""
    return panel.socket.getsockopt(socket.SOL_SOCKET, socket.SO_RCVBUF)


def panel_that_read_fast(port):
    """Returns a panel that read until its own system holds much for it. If that takes a second, another comes."""
    for _ in range(SECONDS):
        panel, end = Client(port, "INFO"), time.monotonic() + 1
        while time.monotonic() < end:
            panel.socket.recv(1 << 20)
            if most_held(panel) > GROWN:
                return panel
        panel.close()
    raise TriedNothing(f"this system comes to hold no {GROWN} bytes for a panel that reads fast")


def sent_to_the_end(panel):
    """Returns all that comes to a panel, and the name of the fault that ends it, or None if its stream ends."""
    pieces = [panel.begun]
    try:
        while piece := panel.socket.recv(1 << 16):
            pieces.append(piece)
    except OSError as fault:
        return b"".join(pieces), type(fault).__name__
    return b"".join(pieces), None


def panels_that_were_closed_and_read_late(program):
    """One that reads 7 s after its close is sent first what had been sent before, no change missing, and then the end.
    One that reads 12 s after its close finds what its own system holds, some 110 KB, and then the connection reset. It
    fails for a door that lets a peer linger for 6 seconds, and for one that lets a peer linger for 15 seconds."""
    with served(program) as (port, _):
        (late, closed), (in_time, _) = panels_that_overran(port, 2)
        time.sleep(IN_TIME)
        past, end = sent_to_the_end(in_time)
        time.sleep(max(closed + LATE - time.monotonic(), 0))
        held, reset = sent_to_the_end(late)
    numbers, kept = ([int(number) for number in re.findall(rb" POWER ON (\d+)\n", text)] for text in (past, held))
    is_all = numbers == list(range(len(numbers))) and is_some(len(numbers), CHANGES_ON_ITS_WAY)
    if end or not is_all or not is_some(len(past), ON_ITS_WAY):
        return f"{IN_TIME} s after its close one is sent {len(past)} bytes with {len(numbers)} changes, then {end}"
    if reset != "ConnectionResetError" or kept != numbers[:len(kept)] or not is_some(len(held), HELD_BY_ITS_OWN):
        return f"{LATE} s after its close one is sent {len(held)} bytes with {len(kept)} changes, then {reset}"
    return None


def panel_that_was_closed_and_had_read_fast(program):
    """Its own system holds more than 1 MB for it, and at most what `tcp_rmem` says. It is sent that and what the system
    of the server held, and then the end. It fails for a door that lets a peer linger for a millisecond."""
    with served(program) as (port, _):
        asker = Client(port, "COMMAND")
        with sending_without_end([Client(port, "COMMAND") for _ in range(SENDERS)]):
            panel, end = panel_that_read_fast(port), time.monotonic() + SECONDS
            while not is_gone(panel, asker) and time.monotonic() < end:
                time.sleep(0.05)
        told, fault = sent_to_the_end(panel)
    most = int(TCP_RMEM.read_text().split()[-1]) + 2 * MOST_HELD
    return None if not fault and GROWN < len(told) < most else f"it is sent {len(told)} of {most} bytes, then {fault}"


VANISHING_CASES = (panels_that_do_not_read, peers_that_vanish, session_that_reads_slowly_all_the_time,
                   panel_that_was_closed_and_does_not_read, panels_that_were_closed_and_read_late,
                   panel_that_was_closed_and_had_read_fast)
