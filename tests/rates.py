"""How fast a panel has to read beside sessions that send without end, and how many changes may come at one moment."""
import mmap
import os
import signal
import socket
import threading
import time
from contextlib import contextmanager

from door import small_socket
from pacing import in_a_process, running, send_all, sending_without_end, shut
from serving import LAYOUT, Client, served

# The bytes of a line that tells a change of FB 1.
LINE = len(b"1793674849.260 100 INFO 1 FB 1 1\n")
GONE = "416 ERROR no data"
# How many lines a second a panel reads that is closed.
TOO_FEW = 300
# The same on a machine that wakes nobody as often as WAKES times a second: the server lets less through there.
TOO_FEW_IF_BUSY = 30
WAKES = 600  # a second
SECONDS_OF_LOAD = 5  # for which a panel that reads fast enough is kept
LONGEST_UNTIL_CLOSED = 15  # seconds
# For how many milliseconds a panel is kept at least whose socket takes nothing more.
KEPT = 150
CHANGES_BY_HAND = 60  # each sent a few milliseconds after the last one has come
LATE_ACKNOWLEDGEMENT = 0.04  # seconds by which Linux puts an acknowledgement off
PANELS = 8
MOST_CHANGES = 40_000  # more than the systems hold for a panel that reads nothing
LOCOMOTIVES = 10_239  # of a bus at most: a long listing
MAKERS = 32  # sessions that make and remove an accessory of 8 ports without end
STOPS = 9  # an odd number, for the one in the middle
SILENCE = 0.1  # seconds before each stop
LONGEST_WAIT = 0.05  # seconds, for half of the stops
PORTS = 149  # the most that may fall at a moment beside sessions that send without end
FALLS = 10  # such moments
# How many ports fall back in a millisecond, and for how many: as many as a panel can take, but not all within 10.
FALLS_A_MILLISECOND = 30
MILLISECONDS = 20
EIGHT_PORTS = LAYOUT + "ga_ports = 8\n"


@contextmanager
def panel_reading(port, lines_a_second):
    """Runs a panel in a process of its own, for which the system keeps little. It reads some lines of a change a
    second."""
    panel, told = small_socket(port), b""
    panel.sendall(b"SET CONNECTIONMODE SRCP INFO\nGO\n")
    while told.count(b"\n") < 3:
        told += panel.recv(1)
    child = os.fork()
    if child == 0:
        try:
            read_at(panel, lines_a_second * LINE)
        finally:
            os._exit(0)
    panel.close()
    try:
        yield int(told.split()[-1])
    finally:
        os.kill(child, signal.SIGKILL)
        os.waitpid(child, 0)


@contextmanager
def counting_wakes():
    """Runs a process that sleeps for a millisecond again and again, as the server does beside a slow panel. Gives a
    function that returns how often a second the machine woke it so far."""
    count, begun = mmap.mmap(-1, 8), time.monotonic()
    child = os.fork()
    if child == 0:
        woken = 0
        while True:
            time.sleep(0.001)
            woken += 1
            count[:] = woken.to_bytes(8, "little")
    try:
        yield lambda: int.from_bytes(count[:], "little") / (time.monotonic() - begun)
    finally:
        os.kill(child, signal.SIGKILL)
        os.waitpid(child, 0)


def read_at(client, bytes_a_second):
    """Reads so much a second, until the end."""
    client.settimeout(None)
    begun, count = time.monotonic(), 0
    while True:
        due = int((time.monotonic() - begun) * bytes_a_second) - count
        if due < LINE:
            time.sleep(0.002)
            continue
        piece = client.recv(due)
        if not piece:
            return
        count += len(piece)


def closed_after(port, lines_a_second, seconds, command=b"SET 1 FB 1 %d\n"):
    """When a panel that reads so fast is closed beside a session that sends without end, or None if it is kept so
    long."""
    asker = Client(port, "COMMAND")
    with sending_without_end([Client(port, "COMMAND")], command), panel_reading(port, lines_a_second) as session:
        begun = time.monotonic()
        while (waited := time.monotonic() - begun) < seconds:
            if asker.asks(f"GET 0 SESSION {session}") == GONE:
                return waited
            time.sleep(0.05)
    return None


def panel_that_reads_a_little_faster_than_a_line_a_millisecond(program):
    """It is kept beside a session that sends without end. It fails for a door that lets lines weigh 88 in a turn,
    however far a panel is behind, and for one that tries a socket that is full only once the system tells that it takes
    more."""
    with served(program) as (port, _):
        closed = closed_after(port, 1_500, SECONDS_OF_LOAD)
    return None if closed is None else f"it is closed after {closed:.1f} s"


def panel_that_reads_a_little_faster_than_a_change_a_millisecond(program):
    """It is kept too if every second command brings it 9 changes. It fails for a door that lets a line through each
    millisecond, whatever it weighs."""
    with served(program, layout=EIGHT_PORTS) as (port, _):
        closed = closed_after(port, 1_500, SECONDS_OF_LOAD, b"INIT 1 GA 5 N %d\nTERM 1 GA 5\n")
    return None if closed is None else f"it is closed after {closed:.1f} s"


def panel_that_reads_slower_than_a_line_a_millisecond(program):
    """It is closed once all buffers on its way are full, so that nobody waits for it for ever. It fails for a door that
    lets no line through while a panel is behind."""
    with served(program) as (port, _), counting_wakes() as wakes_a_second:
        closed = closed_after(port, TOO_FEW, LONGEST_UNTIL_CLOSED)
        woken = wakes_a_second()
        if closed is None and woken < WAKES:
            closed = closed_after(port, TOO_FEW_IF_BUSY, LONGEST_UNTIL_CLOSED)
    return f"it is not closed in {LONGEST_UNTIL_CLOSED} s, at {woken:.0f} wakes a second" if closed is None else None


def changes_reach_a_panel_that_acknowledges_late(program):
    """The panel's system acknowledges 40 ms late, and a change comes each few milliseconds. None waits for that. It
    fails for a door that lets the system wait for an acknowledgement before it sends a small piece."""
    with served(program) as (port, _):
        throttle, panel = Client(port, "COMMAND"), Client(port, "INFO")
        panel.hears_until(b" 100 INFO 1 FB 8 0\n")
        waits = []
        for number in range(CHANGES_BY_HAND):
            panel.socket.setsockopt(socket.IPPROTO_TCP, socket.TCP_QUICKACK, 0)
            begun = time.monotonic()
            throttle.asks(f"SET 1 FB 1 {(number + 1) % 2}")
            panel.line()
            waits.append(time.monotonic() - begun)
            time.sleep(0.003)
    median = sorted(waits)[CHANGES_BY_HAND // 2]
    return None if median < LATE_ACKNOWLEDGEMENT / 2 else f"half of the changes take {median:.3f} s or more"


def moment_of(line):
    """Returns the stamp of a line in milliseconds."""
    return int(line.split(b" ", 1)[0].replace(b".", b""))


def moments_until_gone(asker):
    """Returns the moments of the replies 200 that come before the first reply that says that a session is gone."""
    moments, gone = [], GONE.encode()
    while gone not in (line := asker.line()):
        if line.endswith(b" 200 OK\n"):
            moments.append(moment_of(line))
    return moments


def milliseconds_until_closed(program, locomotives):
    """Returns in how many different milliseconds changes are made between the last line that a panel is sent and its
    close. It does not read, and is kept for so long at the least once its socket takes nothing more. On a busy machine
    it is kept longer, but a wrong door makes changes in no more milliseconds. The panel is that of some which is closed
    first, since the listing of one or another leaves no space for a change."""
    with served(program) as (port, _):
        throttle = Client(port, "COMMAND")
        throttle.asks_many([f"INIT 1 GL {address} N 1 28 5" for address in range(1, locomotives + 1)])
        panels = [Client(port, "INFO") for _ in range(PANELS)]
        time.sleep(0.5)
        commands = b"".join(b"SET 1 POWER ON %d\nGET 0 SESSION %d\n" % (number, panels[number % PANELS].session)
                            for number in range(MOST_CHANGES))
        with running([threading.Thread(target=send_all, args=(throttle, commands))]):
            try:
                moments = moments_until_gone(throttle)
            finally:
                shut([throttle])
        told = panels[(len(moments) - 1) % PANELS].hears_to_the_end()
    # The last line may be cut.
    last = max(moment_of(line) for line in told[:told.rfind(b"\n")].split(b"\n"))
    return len({moment for moment in moments if moment > last})


def panel_whose_socket_takes_nothing_more(program):
    """It is closed 150 ms later or more beside a session that sends without end. So is one that did not read its
    listing. It fails for a door that leaves 120 changes to moments and the ends of sessions."""
    for locomotives in (0, LOCOMOTIVES):
        if (kept := milliseconds_until_closed(program, locomotives)) < KEPT:
            return f"with {locomotives} locomotives it is closed {kept} ms later"
    return None


def emergency_stop_goes_first(program):
    """Beside a slow panel and sessions that make accessories without end, the stop of a silent session goes first."""
    waits = []
    with served(program, layout=EIGHT_PORTS) as (port, _):
        first = Client(port, "COMMAND")
        first.asks("INIT 1 GL 3 N 1 28 5")
        throttles = [Client(port, "COMMAND") for _ in range(MAKERS)]
        with sending_without_end(throttles, b"INIT 1 GA 5 N %d\nTERM 1 GA 5\n"), panel_reading(port, 1_500) as session:
            time.sleep(1)
            for _ in range(STOPS):
                time.sleep(SILENCE)
                begun = time.monotonic()
                reply = first.asks("SET 1 GL 3 2 0 0")
                waits.append(time.monotonic() - begun)
            kept = first.asks(f"GET 0 SESSION {session}") != GONE
    if reply != "200 OK" or not kept:
        return f"a stop is answered {reply}, and the panel is {'kept' if kept else 'closed'}"
    usual = sorted(waits)[STOPS // 2]
    return None if usual < LONGEST_WAIT else f"of {STOPS} stops half take more than {usual:.3f} s"


def changes_at_one_moment_beside_many(program):
    """Ports fall back at one moment, 149 of them, while sessions before and behind a panel send without end. The panel
    is sent each fall. It fails for a door that leaves nothing to moments and the ends of sessions."""
    with served(program) as (port, _):
        first = Client(port, "COMMAND")
        addresses = [range(fall * PORTS + 1, (fall + 1) * PORTS + 1) for fall in range(FALLS)]
        first.asks_many([f"INIT 1 GA {address} N" for of_fall in addresses for address in of_fall])
        throttles = [Client(port, "COMMAND") for _ in range(6)]
        place = Client(port, "COMMAND")
        throttles += [Client(port, "COMMAND") for _ in range(6)]
        place.asks("TERM 0 SESSION")
        # While no panel is there these are taken at once, so that those of a fall are due at one moment.
        begun = time.monotonic()
        for fall, of_fall in enumerate(addresses):
            due = 2500 + 20 * fall - int((time.monotonic() - begun) * 1000)
            first.asks_many([f"SET 1 GA {address} 0 1 {due}" for address in of_fall])
        panel = Client(port, "INFO")
        panel.hears_until(b" 100 INFO 1 FB 8 0\n")
        # The sessions send for so short a time that a panel which a busy machine holds up does not fall behind.
        time.sleep(max(begun + 2.2 - time.monotonic(), 0))
        with sending_without_end(throttles):
            heard = in_a_process(falls_heard, panel, FALLS * PORTS)
    return None if heard == FALLS * PORTS else f"a panel was sent {heard} of {FALLS * PORTS} falls"


def falls_at_a_server_that_stood_still(program):
    """Ports fall back one after another while the server stands still. A panel that reads is told each fall. It fails
    for a door that goes on by 10 ms after a stall, whatever falls due in it."""
    with served(program) as (port, server):
        first = Client(port, "COMMAND")
        addresses = [range(step * FALLS_A_MILLISECOND + 1, (step + 1) * FALLS_A_MILLISECOND + 1)
                     for step in range(MILLISECONDS)]
        first.asks_many([f"INIT 1 GA {address} N" for of_step in addresses for address in of_step])
        begun = time.monotonic()
        for step, of_step in enumerate(addresses):
            due = 2000 + step - int((time.monotonic() - begun) * 1000)
            first.asks_many([f"SET 1 GA {address} 0 1 {due}" for address in of_step])
        panel = Client(port, "INFO")
        panel.hears_until(b" 100 INFO 1 FB 8 0\n")
        time.sleep(max(begun + 1.8 - time.monotonic(), 0))
        os.kill(server.pid, signal.SIGSTOP)
        time.sleep(0.4)
        os.kill(server.pid, signal.SIGCONT)
        heard = in_a_process(falls_heard, panel, FALLS_A_MILLISECOND * MILLISECONDS)
    return None if heard == FALLS_A_MILLISECOND * MILLISECONDS else f"a panel was sent {heard} falls"


def falls_heard(panel, most):
    """Returns how many falls a panel is sent until they are enough or it is closed."""
    heard, rest = 0, panel.begun
    while heard < most and (piece := panel.socket.recv(1 << 20)):
        *lines, rest = (rest + piece).split(b"\n")
        heard += sum(b" 100 INFO 1 GA " in line for line in lines)
    return heard


RATE_CASES = (panel_that_reads_a_little_faster_than_a_line_a_millisecond,
              panel_that_reads_a_little_faster_than_a_change_a_millisecond,
              panel_that_reads_slower_than_a_line_a_millisecond, panel_whose_socket_takes_nothing_more,
              emergency_stop_goes_first, changes_reach_a_panel_that_acknowledges_late,
              changes_at_one_moment_beside_many, falls_at_a_server_that_stood_still)
