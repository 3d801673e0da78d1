"""What the door over sockets does with connections, bytes and time, seen from outside."""
import os
import re
import socket
import threading
import time
from pathlib import Path

from serving import SECONDS, WELCOME, Client, comes_again, placed, rows_of, served

REPLIES = 200_000  # more than the systems on the way hold
ROWS = 6_000  # locomotives: a listing of more bytes than the sockets hold
SESSIONS = 32
PANELS = 8
LEAVERS = 100  # sessions that end: more than may linger at once
RESET = b"\1\0\0\0\0\0\0\0"


def listens_on_the_loopback_alone(program):
    """It fails for a door that listens at 0.0.0.0, and for one that gives session ids from 8."""
    with served(program) as (port, _):
        listening = [line.split()[1] for line in Path("/proc/net/tcp").read_text().splitlines()[1:]
                     if line.split()[3] == "0A" and line.split()[1].endswith(f":{port:04X}")]
        session = Client(port, "COMMAND").session
    if listening != [f"0100007F:{port:04X}"]:
        return f"it listens at {listening}"
    return None if session == 1 else f"the first session is {session}"


def stamps_are_the_time(program):
    """This holds after a rest too: nothing fell due, so no time is caught up in steps. It fails for a door that takes
    seconds of its clocks, or of the wall clock alone, for milliseconds."""
    with served(program) as (port, _):
        throttle = Client(port, "COMMAND")
        for pause in (0, 0.5, 3):
            time.sleep(pause)
            throttle.socket.sendall(b"SET 1 POWER ON\n")
            late = time.time() - float(throttle.line().split()[0])
            if abs(late) > 2:
                return f"a stamp is {late:.3f} s late"
    return None


def server_that_rests_is_not_woken(program):
    """Nothing happens, though a lock ends in an hour: the server sleeps until a client asks for something. It takes no
    processor: a server that does not wait at all goes to sleep no more often. It fails for a door that wakes every 8
    ms."""
    with served(program) as (port, server):
        throttle, panel = Client(port, "COMMAND"), Client(port, "INFO")
        throttle.asks("INIT 1 GL 3 N 1 28 5", "SET 1 LOCK GL 3 3600")
        time.sleep(0.3)
        before, took = sleeps(server), processor_ticks(server)
        time.sleep(1)
        woken, took = sleeps(server) - before, processor_ticks(server) - took
        reply = throttle.asks("GET 1 POWER")
        panel.close()
    got, want = (woken, took, reply), (0, 0, "100 INFO 1 POWER OFF")
    return None if got == want else f"how often it was woken in a second, its ticks of a processor, and a reply: {got}"


def processor_ticks(server):
    """Returns how much of a processor the server took, in ticks of a hundredth of a second."""
    user, system = Path(f"/proc/{server.pid}/stat").read_text().rpartition(")")[2].split()[11:13]
    return int(user) + int(system)


def sleeps(server):
    """Returns how many times the server went to sleep."""
    status = Path(f"/proc/{server.pid}/status").read_text()
    return int(re.search(r"^voluntary_ctxt_switches:\s+(\d+)", status, re.M)[1])


def pulse_ends_in_time(program):
    """It fails for a door that waits 800 ms, and for one that waits without regard to what falls due."""
    with served(program) as (port, _):
        throttle, panel = Client(port, "COMMAND"), Client(port, "INFO")
        throttle.asks("INIT 1 GA 5 N")
        begun = time.monotonic()
        throttle.asks("SET 1 GA 5 0 1 200")
        panel.hears_until(b" GA 5 0 1\n")
        panel.hears_until(b" GA 5 0 0\n")
        took = time.monotonic() - begun
    return None if 0.19 < took < 0.5 else f"a pulse of 0.2 s took {took:.3f} s"


def end_of_a_session_is_answered(program):
    """The reply comes before the end of the stream, also if commands follow that are not answered. It fails for a door
    that hands nothing over at the close."""
    with served(program) as (port, _):
        for rest in (0, 100, 10_000):
            leaver = Client(port, "COMMAND")
            leaver.socket.sendall(b"TERM 0 SESSION\n" + b"GET 1 POWER\n" * rest)
            try:
                told = leaver.hears_to_the_end()
            except OSError as fault:
                return f"with {rest} commands behind it: {fault}"
            if not re.fullmatch(rb"\d+\.\d{3} 200 OK\n", told):
                return f"with {rest} commands behind it: {told!r}"
    return None


def slow_reader_gets_every_byte(program):
    """A session that reads its replies slower than they come, and whose last command ends it."""
    with served(program) as (port, _):
        reader = Client(port, "COMMAND", receives=32768)
        commands = b"GET 1 POWER\n" * REPLIES + b"TERM 0 SESSION\n"
        sender = threading.Thread(target=reader.socket.sendall, args=(commands,))
        sender.start()
        pieces = [reader.begun]
        try:
            while piece := reader.socket.recv(32768):
                pieces.append(piece)
                time.sleep(0.01)
        except OSError as fault:
            return f"got {fault}"
        sender.join()
    lines = b"".join(pieces).splitlines(keepends=True)
    if len(lines) != REPLIES + 1 or not lines[-1].endswith(b" 200 OK\n"):
        return f"got {len(lines)} of {REPLIES + 1} replies, the last {lines[-1:]!r}"
    wrong = [line for line in lines[:-1] if not re.fullmatch(rb"\d+\.\d{3} 100 INFO 1 POWER OFF\n", line)]
    return f"got {wrong[:3]!r}" if wrong else None


def peers_that_reset_leave_their_places(program):
    """This holds too if the server finds that out by a write, since each second peer has sent commands. It fails for a
    door that takes a failed write for one that takes nothing now."""
    with served(program) as (port, _):
        for count in range(160):
            peer = placed(port)
            peer.socket.sendall(b"GET 1 POWER\n" * 2000 * (count % 2))
            peer.socket.setsockopt(socket.SOL_SOCKET, socket.SO_LINGER, RESET)
            peer.close()
        end, kept = time.monotonic() + SECONDS, []
        while len(kept) < 64:
            peer = socket.create_connection(("127.0.0.1", port), timeout=SECONDS)
            if peer.recv(100) == WELCOME:
                kept.append(peer)
            elif time.monotonic() > end:
                return f"{64 - len(kept)} places are not free after {SECONDS} s"
            else:
                time.sleep(0.1)
    return None


def small_socket(port):
    """A connection that takes little at once, so that the server's writes to it are cut short."""
    small = socket.socket()
    small.settimeout(SECONDS)
    small.setsockopt(socket.SOL_SOCKET, socket.SO_RCVBUF, 4096)
    small.setsockopt(socket.IPPROTO_TCP, socket.TCP_MAXSEG, 536)
    small.connect(("127.0.0.1", port))
    return small


def half_closed_panel_is_served(program):
    """A panel that sends no more, and reads slowly, is listed every row, and then the stream ends. It fails for a door
    that drops the rest of a short write, and for one that reports an end at once."""
    with served(program) as (port, _):
        throttle = Client(port, "COMMAND")
        throttle.asks_many([f"INIT 1 GL {address} N 1 28 5" for address in range(1, ROWS + 1)])
        with small_socket(port) as panel:
            panel.sendall(b"SET CONNECTIONMODE SRCP INFO\nGO\n")
            panel.shutdown(socket.SHUT_WR)
            pieces = [b"-"]
            while pieces[-1]:
                # Meanwhile what may be sent to it fills up.
                time.sleep(0.1 if len(pieces) % 20 == 1 else 0)
                pieces.append(panel.recv(2048))
        listed = Client(port, "INFO").hears_until(b" 1 FB 8 0\n")
    # Before its rows come the welcome line and two replies.
    got, want = rows_of(b"".join(pieces[1:]))[3:], rows_of(listed)
    wrong = next((pair for pair in zip(got, want) if pair[0] != pair[1]), None)
    return None if got == want else f"{len(got)} of {len(want)} lines; the first that differs {wrong}"


def reads_to_the_end(panel, ended):
    """Reads all that is sent to a panel. Appends the panel to `ended` if the server closes it."""
    try:
        while panel.socket.recv(1 << 20):
            pass
        ended.append(panel.session)
    except OSError:
        pass


def pipelines(throttle, address, end):
    """Sends commands a hundred at a time until that moment."""
    while time.monotonic() < end:
        throttle.asks_many([f"SET 1 GL {address} 1 {speed % 29} 28" for speed in range(100)])


def closed_panels(program, count, seconds):
    """Returns how many of the panels that read are closed while sessions send for some seconds."""
    with served(program) as (port, _):
        first = Client(port, "COMMAND")
        first.asks(*(f"INIT 1 GL {address} N 1 28 5" for address in range(1, SESSIONS + 1)))
        panels = [Client(port, "INFO") for _ in range(count)]
        throttles = [Client(port, "COMMAND") for _ in range(SESSIONS)]
        ended, end = [], time.monotonic() + seconds
        readers = [threading.Thread(target=reads_to_the_end, args=(panel, ended)) for panel in panels]
        senders = [threading.Thread(target=pipelines, args=(throttle, address, end))
                   for address, throttle in enumerate(throttles, 1)]
        for thread in readers + senders:
            thread.start()
        for thread in senders:
            thread.join()
        closed = list(ended)
        for panel in panels:
            panel.socket.shutdown(socket.SHUT_RDWR)
        for thread in readers:
            thread.join()
    return len(closed)


def panels_that_read_are_kept(program):
    """However many sessions send without end, no panel that reads is closed. It fails for a door that lets all lines
    through in a turn."""
    closed = closed_panels(program, PANELS, 3)
    return f"{closed} of {PANELS} panels were closed" if closed else None


def changes_without_end(throttle, command=b"SET 1 FB 1 %d\n"):
    """Sends changes as fast as they are taken, until the connection is shut."""
    changes = b"".join(command % (turn % 2) for turn in range(1000))
    try:
        while True:
            throttle.socket.sendall(changes)
    except OSError:
        pass


def panel_that_leaves(port):
    """It half-closes, and then closes."""
    with socket.create_connection(("127.0.0.1", port), timeout=SECONDS) as panel:
        panel.sendall(b"SET CONNECTIONMODE SRCP INFO\nGO\n")
        if panel.recv(len(WELCOME), socket.MSG_WAITALL) != WELCOME:
            raise ConnectionError("no place")
        panel.shutdown(socket.SHUT_WR)
        time.sleep(0.02)


def panels_that_leave_in_midst_of_changes(program):
    """They half-close and then close. Each slot is free again, though each turn has output for its panel. It fails for
    a door that takes a failed write for one that took all."""
    with served(program) as (port, _):
        throttle = Client(port, "COMMAND")
        threads = [threading.Thread(target=changes_without_end, args=(throttle,)),
                   threading.Thread(target=reads_to_the_end, args=(throttle, []))]
        for thread in threads:
            thread.start()
        came = 0
        try:
            for came in range(1, LEAVERS + 1):
                comes_again(lambda: panel_that_leaves(port))
        except ConnectionError:
            return f"the panel {came} finds no place"
        finally:
            throttle.socket.shutdown(socket.SHUT_RDWR)
            for thread in threads:
                thread.join()
    return None


def peers_that_were_let_go_and_stay(program):
    """Sessions that end themselves, and whose clients close nothing: the server keeps 64 of them at most, and none for
    longer than 10 seconds. It fails for a door that keeps all that linger, and for one that keeps all that linger for
    ever, and for one that keeps nobody aside whose input is open."""
    with served(program) as (port, server):
        def descriptors():
            return len(os.listdir(f"/proc/{server.pid}/fd"))

        stayer = Client(port, "COMMAND")
        before = descriptors()
        leavers = []
        most = 0
        for _ in range(LEAVERS):
            leavers.append(Client(port, "COMMAND"))
            leavers[-1].asks("TERM 0 SESSION")
            most = max(most, descriptors() - before)
        if not LEAVERS / 4 < most < 70:
            return f"{most} descriptors are kept for {LEAVERS} peers"
        time.sleep(10.5)
        left, reply = descriptors() - before, stayer.asks("GET 1 POWER")
    got, want = (max(left, 0), reply), (0, "100 INFO 1 POWER OFF")
    return None if got == want else f"after 10 seconds: descriptors that are kept, and a reply: {got}"


DOOR_CASES = (listens_on_the_loopback_alone, stamps_are_the_time, server_that_rests_is_not_woken, pulse_ends_in_time,
              end_of_a_session_is_answered, slow_reader_gets_every_byte, peers_that_reset_leave_their_places,
              half_closed_panel_is_served, panels_that_read_are_kept, panels_that_leave_in_midst_of_changes,
              peers_that_were_let_go_and_stay)
