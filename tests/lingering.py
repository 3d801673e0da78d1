"""How the door over sockets serves peers that are hard to serve: that send urgent data, that end and read late, that
stay; and a server that stood still."""
import os
import select
import signal
import socket
import threading
import time
from contextlib import ExitStack, contextmanager

from door import small_socket
from faults import work_without_rest
from serving import SECONDS, Client, clients_at_all_places, placed, served

COMMAND_SESSION = b"SET CONNECTIONMODE SRCP COMMAND\nGO\n"
QUESTION = b"GET 1 POWER\n"
ANSWER = b" 100 INFO 1 POWER OFF\n"
# The welcome line, the replies to the two lines of the handshake, and one to TERM.
BESIDE = 4
READERS = 12  # sessions that end, and read late
TURNED_AWAY = 71  # more than may linger at once, so the door has to give some up
SENDERS = 64  # as many as may linger at once
SENDING_PROCESSES = 16  # with four of these clients each
PULSES = 1000  # ports, each set for a time
BETWEEN_PULSES = 4  # milliseconds between the falls of two ports, so that a moment comes all the time
ASKED = 100  # commands of the session that is to be answered soon
LONGEST_REPLY = 0.1  # seconds, for each of these but the slowest: the machine may be busy for once
LONGEST_ASKING = 0.8  # seconds for all of these
LONGEST_WELCOME = 2  # seconds until a new client is greeted
ROWS = 10_000  # locomotives: a listing of more bytes than the sockets hold
CHANGES = 500  # sent at once: more than may wait for a panel


@contextmanager
def stopped(server):
    """The server stands still, so that all that is sent meanwhile comes at once."""
    os.kill(server.pid, signal.SIGSTOP)
    time.sleep(0.1)
    try:
        yield
    finally:
        time.sleep(0.1)
        os.kill(server.pid, signal.SIGCONT)


@contextmanager
def turned_away_and_sending(port, count):
    """So many clients come that find no place, and send without end in processes of their own."""
    children = []
    for _ in range(SENDING_PROCESSES):
        child = os.fork()
        if child == 0:
            try:
                send_to_who_drops_it([socket.create_connection(("127.0.0.1", port))
                                      for _ in range(count // SENDING_PROCESSES)])
            finally:
                os._exit(0)
        children.append(child)
    try:
        yield
    finally:
        for child in children:
            os.kill(child, signal.SIGKILL)
            os.waitpid(child, 0)


def send_to_who_drops_it(clients):
    """The clients send without end, each as much as is taken."""
    for client in clients:
        client.setblocking(False)
    while clients:
        _, ready, _ = select.select([], clients, [])
        for client in ready:
            try:
                client.send(bytes(1 << 18))
            except BlockingIOError:
                pass
            except OSError:
                clients.remove(client)


def clients_that_are_turned_away_and_send(program):
    """All places are taken, and ports fall back all the time. A session is answered soon all the same. It fails for a
    door that reads the socket of each that lingers 64 times a turn."""
    with served(program) as (port, _):
        first, quiet, *_others = clients_at_all_places(port)
        first.asks_many([f"INIT 1 GA {address} N" for address in range(1, PULSES + 1)])
        first.asks_many([f"SET 1 GA {address} 0 1 {500 + address * BETWEEN_PULSES}"
                         for address in range(1, PULSES + 1)])
        with turned_away_and_sending(port, SENDERS):
            time.sleep(0.5)
            waits = []
            for turn in range(ASKED):
                begun = time.monotonic()
                quiet.asks(f"SET 1 FB 1 {turn % 2}")
                waits.append(time.monotonic() - begun)
    late, took = sorted(waits)[-2], sum(waits)
    if late > LONGEST_REPLY or took > LONGEST_ASKING:
        return f"{ASKED} replies take {took:.1f} s, the 99th of them {late:.2f} s"
    return None


def urgent_data_stalls_nobody(program):
    """A read ends at urgent data, though more stands behind it: the commands behind it are answered all the same. It
    fails for a door that takes a read that left space at urgent data for the last."""
    with served(program) as (port, server):
        throttle = Client(port, "COMMAND")
        throttle.socket.settimeout(3)
        with stopped(server):
            throttle.socket.sendall(QUESTION)
            throttle.socket.send(b"x", socket.MSG_OOB)
            throttle.socket.sendall(QUESTION)
        replies = 0
        try:
            for replies in range(1, 3):
                throttle.line()
        except TimeoutError:
            return f"{replies - 1} of 2 commands are answered"
    return None


def pulse_sent_to_a_server_that_stood_still(program):
    """Other ports fall back meanwhile. The pulse is on for its time all the same, as a panel hears it. It fails for a
    door that hands out input in a turn that is late."""
    with served(program) as (port, server):
        throttle, panel = Client(port, "COMMAND"), Client(port, "INFO")
        throttle.asks(*(f"INIT 1 GA {address} N" for address in (4, 5, 6)), "SET 1 GA 4 0 1 100", "SET 1 GA 5 0 1 150")
        with stopped(server):
            time.sleep(0.4)
            throttle.socket.sendall(b"SET 1 GA 6 0 1 200\n")
        panel.hears_until(b" GA 6 0 1\n")
        begun = time.monotonic()
        panel.hears_until(b" GA 6 0 0\n")
        took = time.monotonic() - begun
    return None if took > 0.15 else f"a pulse of 0.2 s is on for {took:.3f} s"


def fall_after_a_long_wait(program):
    """The system ends the waits of a process of low priority late by a two-hundredth: a pulse of 10 s ends in time all
    the same. On a busy machine one of some servers is enough. It fails for a door that waits for all of a long time at
    once."""
    with ExitStack() as stack:
        panels = []
        for _ in range(5):
            port, _server = stack.enter_context(served(program, prepare=lambda: os.nice(1)))
            throttle, panel = Client(port, "COMMAND"), Client(port, "INFO")
            throttle.asks("INIT 1 GA 5 N", "SET 1 GA 5 0 1 10000")
            panel.hears_until(b" GA 5 0 1\n")
            panels.append((panel, float(panel.lines[-1].split()[0]) + 10))
        late = []
        for panel, due in panels:
            panel.hears_until(b" GA 5 0 0\n")
            late.append(time.time() - due)
    return None if min(late) < 0.03 else f"it ends {min(late) * 1000:.0f} ms late"


def kept_by_the_system(port, client):
    """Returns how many bytes the system keeps of what the server at the port sent to the client."""
    mine, kept = client.getsockname()[1], 0
    with open("/proc/net/tcp", encoding="ascii") as table:
        next(table)
        for row in map(str.split, table):
            local, remote = (int(address.split(":")[1], 16) for address in row[1:3])
            sending, receiving = (int(count, 16) for count in row[4].split(":"))
            kept += sending if (local, remote) == (port, mine) else receiving if (local, remote) == (mine, port) else 0
    return kept


def replies_that_the_system_keeps(port):
    """Returns how many replies fill the buffers of a session that does not read: the fewest of three, for they
    differ."""
    return min(replies_kept(port) for _ in range(3))


def replies_kept(port):
    """Returns how many replies fill the buffers of a session that does not read, until the server stops sending."""
    with small_socket(port) as probe:
        sender = threading.Thread(target=send_as_far_as_it_goes, args=(probe, COMMAND_SESSION + QUESTION * 120_000))
        sender.start()
        kept, before = kept_by_the_system(port, probe), -1
        while kept != before:
            time.sleep(0.3)
            kept, before = kept_by_the_system(port, probe), kept
        probe.shutdown(socket.SHUT_RDWR)
        sender.join()
    return kept // len(b"0.000" + ANSWER)


def send_as_far_as_it_goes(client, piece):
    try:
        client.sendall(piece)
    except OSError:
        pass


def lines_to_the_end(client):
    """Returns how many lines come until the end, and what ended them if not the end of the stream. Then it closes."""
    count = 0
    with client:
        try:
            while piece := client.recv(1 << 16):
                count += piece.count(b"\n")
        except OSError as fault:
            return count, type(fault).__name__
    return count, None


def leaver_that_reads_late(program):
    """A session that ends itself while the server still holds replies for it, and that reads 3 s later, gets every one.
    So does one that ends itself after the server slept for longer than such a peer is kept. It fails for a door that
    counts the 10 seconds of a peer from before its own sleep, and for one that lets a peer linger for a second."""
    with served(program) as (port, _):
        owed = replies_that_the_system_keeps(port) + 700
        late, sleeper = small_socket(port), small_socket(port)
        late.sendall(COMMAND_SESSION + QUESTION * owed + b"TERM 0 SESSION\n")
        sleeper.sendall(COMMAND_SESSION + QUESTION * owed)
        time.sleep(3)
        got = [lines_to_the_end(late)]
        time.sleep(11)
        sleeper.sendall(b"TERM 0 SESSION\n")
        time.sleep(1)
        got.append(lines_to_the_end(sleeper))
    want = (owed + BESIDE, None)
    return None if got == [want, want] else f"got {got}, want {want} of each"


def half_closed_session_that_does_not_read(program):
    """It is owed replies and its input has ended: the server waits for it without work. It fails for a door that does
    not wait while a peer whose input is over is owed something."""
    with served(program) as (port, server):
        owed = replies_that_the_system_keeps(port) + 700
        with small_socket(port) as client:
            client.sendall(COMMAND_SESSION + QUESTION * owed)
            client.shutdown(socket.SHUT_WR)
            time.sleep(0.7)
            return work_without_rest(server, 2)


def clients_that_are_turned_away_and_stay(program):
    """They are owed nothing, so no session that ended and reads late is given up for them. It fails for a door that
    gives up the first that it keeps aside, whatever that is owed."""
    with served(program) as (port, _):
        owed = replies_that_the_system_keeps(port) + 700
        readers = [small_socket(port) for _ in range(READERS)]
        for reader in readers:
            reader.sendall(COMMAND_SESSION + QUESTION * owed + b"TERM 0 SESSION\n")
        time.sleep(1)
        sessions = clients_at_all_places(port)
        turned_away = [socket.create_connection(("127.0.0.1", port), timeout=SECONDS) for _ in range(TURNED_AWAY)]
        if any(client.recv(100) for client in turned_away):
            return "a client is answered that finds no place"
        got = [lines_to_the_end(reader) for reader in readers]
        del sessions, turned_away
    cut = [lines for lines in got if lines != (owed + BESIDE, None)]
    return f"{len(cut)} of {READERS} readers are cut: {cut[0]} of {owed + BESIDE} lines" if cut else None


def panels_that_are_closed(port, throttle, count):
    """Panels that read no row, and that the server has closed since they are too far behind."""
    panels, sessions = [], []
    for _ in range(count):
        panel, told = small_socket(port), b""
        panel.sendall(b"SET CONNECTIONMODE SRCP INFO\nGO\n")
        while told.count(b"\n") < BESIDE - 1:
            told += panel.recv(1)
        panels.append(panel)
        sessions.append(int(told.split()[-1]))
    changes = [f"SET 1 POWER ON {number}" for number in range(CHANGES)]
    while any("416" not in throttle.asks(f"GET 0 SESSION {session}") for session in sessions):
        throttle.asks_many(changes)
    return panels


def newcomer_beside_64_that_ended_and_are_owed(program):
    """Who comes is served at once beside 64 panels that were closed and take nothing: 63 places are free. It fails for
    a door that lets those wait for a place that 64 others are owed something beside."""
    with served(program) as (port, _):
        throttle = Client(port, "COMMAND")
        throttle.asks_many([f"INIT 1 GL {address} N 1 28 5" for address in range(1, ROWS + 1)])
        panels = panels_that_are_closed(port, throttle, SENDERS - 1) + panels_that_are_closed(port, throttle, 1)
        begun = time.monotonic()
        try:
            Client(port, "COMMAND", seconds=SECONDS).close()
        except TimeoutError:
            pass
        waited = time.monotonic() - begun
        cut = [fault for _, fault in map(lines_to_the_end, panels) if fault]
    return None if waited < LONGEST_WELCOME and not cut else f"it waits {waited:.1f} s; the panels are cut by {cut}"


def end_of_a_session_with_much_behind_it(program):
    """16 MB come behind the command that ends a session: they are dropped as fast as they come, and the reply is there.
    It fails for a door that drops 4,096 bytes a turn of what comes behind an end."""
    with served(program) as (port, _):
        leaver = Client(port, "COMMAND")
        begun = time.monotonic()
        try:
            leaver.socket.sendall(b"TERM 0 SESSION\n" + QUESTION * (16_000_000 // len(QUESTION)))
            leaver.socket.shutdown(socket.SHUT_WR)
            told = leaver.hears_to_the_end()
        except OSError as fault:
            return f"after {time.monotonic() - begun:.1f} s: {fault}"
    return None if told.endswith(b" 200 OK\n") and told.count(b"\n") == 1 else f"got {told[-80:]!r}"


def clients_at_64_places(program):
    """Clients that find no free slot are turned away. If they stay they cost no work, and the next one is let in once a
    slot is free. It fails for a door that does not rest while a peer lingers, and for one that accepts nobody while 64
    are there."""
    with served(program) as (port, server):
        sessions = clients_at_all_places(port)
        turned_away = [socket.create_connection(("127.0.0.1", port), timeout=SECONDS) for _ in range(10)]
        if any(client.recv(100) for client in turned_away):
            return "a client is answered that finds no place"
        if busy := work_without_rest(server, 2):
            return busy
        reply = sessions[63].asks("GET 1 POWER")
        sessions.pop(10).close()
        replies = reply, placed(port).asks("GET 1 POWER")
        del turned_away
    are_served = replies == ("100 INFO 1 POWER OFF",) * 2
    return None if are_served else f"one that has a place and one that comes are answered {replies}"


LINGERING_CASES = (urgent_data_stalls_nobody, pulse_sent_to_a_server_that_stood_still, fall_after_a_long_wait,
                   leaver_that_reads_late, half_closed_session_that_does_not_read,
                   clients_that_are_turned_away_and_stay, newcomer_beside_64_that_ended_and_are_owed,
                   clients_that_are_turned_away_and_send, end_of_a_session_with_much_behind_it, clients_at_64_places)
