"""What sessions that send without end do to panels that read, and to sessions that wait for a reply."""
import os
import signal
import selectors
import socket
import threading
import time
from contextlib import contextmanager

from door import changes_without_end, pipelines, reads_to_the_end
from serving import Client, mirrored, rows_of, served

PANELS = 8
SECONDS_OF_LOAD = 3  # for which sessions send without end
QUIET_BESIDE = 20  # sessions that send without end beside the quiet one
LONGEST_REPLY = 2  # seconds
LOCKS = 150  # whose session's end brings 151 changes, the most for which slack is kept
ENDS = 10  # of such sessions, in turn
SETS = 1_000_000
IN_ONE_GO = 20_000  # commands: with a wait of 8 ms a piece these take 8 s
LONGEST_GO = 4  # seconds
ROWS = 1_000  # locomotives of a listing
LONGEST_END = 4  # seconds until the listing and its end have come
CLOSED = 1  # the status of a panel that the server has closed
# A share is 19 lines of 13 bytes. Five shares weigh one less than the lines of a turn, so the sixth is cut.
# How many sessions send without end, and for how long what each is answered is counted.
SENDERS = (2, 6, 32, 63)
SETS_AT_ONCE = 1_000
SECONDS_OF_SHARES = 2
MOST_AHEAD = 1.5  # times as many answers as the session with the fewest


@contextmanager
def running(threads):
    """The threads run, and have ended at the end."""
    for thread in threads:
        thread.start()
    try:
        yield
    finally:
        for thread in threads:
            thread.join()


def shut(clients):
    for client in clients:
        try:
            client.socket.shutdown(2)
        except OSError:
            pass


@contextmanager
def panel_that_pauses(port, pause, every):
    """A panel in a process of its own, which stands still for `pause` seconds after each `every` seconds. Its session
    is in the list at the end if it was closed."""
    panel, closed = Client(port, "INFO", receives=4096), []
    child = os.fork()
    if child == 0:
        try:
            read_with_pauses(panel, pause, every)
        finally:
            os._exit(CLOSED)
    try:
        yield closed
    finally:
        if os.waitpid(child, os.WNOHANG) != (0, 0):
            closed.append(panel.session)
        else:
            os.kill(child, signal.SIGKILL)
            os.waitpid(child, 0)
        panel.close()


def read_with_pauses(panel, pause, every):
    """Reads what a panel is told until it is closed."""
    next_pause = time.monotonic() + every
    while panel.socket.recv(1 << 16):
        if time.monotonic() >= next_pause:
            time.sleep(pause)
            next_pause = time.monotonic() + every


@contextmanager
def sending_without_end(throttles, command=b"SET 1 FB 1 %d\n"):
    """The sessions send changes as fast as they are taken, and read all replies."""
    threads = [threading.Thread(target=reads_to_the_end, args=(throttle, [])) for throttle in throttles]
    threads += [threading.Thread(target=changes_without_end, args=(throttle, command)) for throttle in throttles]
    with running(threads):
        try:
            yield
        finally:
            shut(throttles)


def in_a_process(reads, *words):
    """Returns what a function returns in a process of its own, so that no thread of this one delays it."""
    told, tells = os.pipe()
    child = os.fork()
    if child == 0:
        try:
            os.write(tells, repr(reads(*words)).encode())
        finally:
            os._exit(0)
    os.close(tells)
    with open(told, encoding="ascii") as answer:
        text = answer.read()
    os.waitpid(child, 0)
    return int(text or -1)


def sessions_on_both_sides(program):
    """Sessions that send without end have slots before the panels and behind them: no panel that reads is closed. It
    fails for a door that lets lines weigh 176 in a turn, however far a panel is behind."""
    for before, behind in ((16, 16), (24, 8)):
        with served(program) as (port, _):
            first = Client(port, "COMMAND")
            first.asks(*(f"INIT 1 GL {address} N 1 28 5" for address in range(1, before + behind + 1)))
            throttles = [Client(port, "COMMAND") for _ in range(before)]
            panels = [Client(port, "INFO") for _ in range(PANELS)]
            throttles += [Client(port, "COMMAND") for _ in range(behind)]
            ended, end = [], time.monotonic() + SECONDS_OF_LOAD
            readers = [threading.Thread(target=reads_to_the_end, args=(panel, ended)) for panel in panels]
            senders = [threading.Thread(target=pipelines, args=(throttle, address, end))
                       for address, throttle in enumerate(throttles, 1)]
            with running(readers):
                with running(senders):
                    pass
                closed = len(ended)
                shut(panels)
        if closed:
            return f"{closed} of {PANELS} panels are closed with {before} sessions before them and {behind} behind"
    return None


def quiet_session_beside_many(program):
    """A session that sends one change at a time is answered soon, though others send without end and a panel reads. It
    has the last place, or one that sends nothing has. It fails for a door that gives all shares anew each turn, and for
    one that forgets that a peer was refused its first line, if another behind it is not."""
    for behind in (0, 1):
        replies = quiet_replies(program, behind)
        if replies != ["200 OK"] * 5:
            return f"a quiet session is answered {replies} with {behind} behind it"
    return None


def quiet_replies(program, behind):
    """Returns the replies to a session with so many behind it that send nothing, or None if one does not come."""
    with served(program) as (port, _):
        panel = Client(port, "INFO")
        throttles = [Client(port, "COMMAND") for _ in range(QUIET_BESIDE)]
        quiet = Client(port, "COMMAND")
        idle = [Client(port, "COMMAND") for _ in range(behind)]
        with running([threading.Thread(target=reads_to_the_end, args=(panel, []))]):
            with sending_without_end(throttles):
                time.sleep(0.5)
                quiet.socket.settimeout(LONGEST_REPLY)
                try:
                    replies = [quiet.asks(f"SET 1 FB 2 {turn % 2}") for turn in range(5)]
                except TimeoutError:
                    replies = None
            shut([panel, *idle])
    return replies


def sessions_that_do_not_wait_have_like_shares(program):
    """Of few and of many sessions that send without end none is answered half as often again as another. It fails for a
    door that takes the first lines of a share that the pace cuts for all of it."""
    for count in SENDERS:
        told = replies_to_each(program, count)
        if max(told) >= MOST_AHEAD * min(told):
            return f"the sessions are answered {told} times"
    return None


def replies_to_each(program, count):
    """Returns how often each of so many sessions that send without end is answered within some time."""
    commands = memoryview(b"SET 1 FB 1 1\n" * SETS_AT_ONCE)
    answered, sent = [0] * count, [0] * count
    with served(program) as (port, _), selectors.DefaultSelector() as selector:
        for index in range(count):
            throttle = Client(port, "COMMAND").socket
            throttle.setblocking(False)
            selector.register(throttle, selectors.EVENT_READ | selectors.EVENT_WRITE, index)
        end = time.monotonic() + SECONDS_OF_SHARES
        while time.monotonic() < end:
            for key, ready in selector.select(1):
                if ready & selectors.EVENT_READ:
                    answered[key.data] += key.fileobj.recv(1 << 16).count(b"\n")
                if ready & selectors.EVENT_WRITE:
                    sent[key.data] += key.fileobj.send(commands[sent[key.data] % len(commands):])
    return answered


def commands_in_one_go(program):
    """Without a panel the pieces of commands that come in one go follow one another without a wait. It fails for a door
    that waits 8 ms in each turn that has input to hand out."""
    with served(program) as (port, _):
        throttle = Client(port, "COMMAND")
        began, answered = time.monotonic(), 0
        with running([threading.Thread(target=send_all, args=(throttle, b"SET 1 FB 1 1\n" * IN_ONE_GO))]):
            while answered < IN_ONE_GO and (piece := throttle.socket.recv(1 << 20)):
                answered += piece.count(b"\n")
        took = time.monotonic() - began
    if answered < IN_ONE_GO or took > LONGEST_GO:
        return f"{answered} of {IN_ONE_GO} commands are answered in {took:.1f} s"
    return None


def one_session_sends_a_million_commands(program):
    """In one go, beside a panel that reads: the panel is told each change."""
    with served(program) as (port, _):
        throttle, panel = Client(port, "COMMAND"), Client(port, "INFO")
        throttle.asks("INIT 1 GL 3 N 1 28 5")
        commands = b"".join(b"SET 1 GL 3 1 %d 28\n" % (turn % 29) for turn in range(SETS)) + b"SET 1 POWER ON last\n"
        with running([threading.Thread(target=reads_to_the_end, args=(throttle, [])),
                      threading.Thread(target=send_all, args=(throttle, commands))]):
            told = in_a_process(told_until, panel, b" 100 INFO 1 POWER ON last\n")
            shut([throttle])
    return None if told == SETS else f"a panel is told {told} of {SETS} changes"


def send_all(client, commands):
    """Sends all of it, unless the connection is shut meanwhile."""
    try:
        client.socket.sendall(commands)
    except OSError:
        pass


def told_until(panel, end):
    """Returns how many changes of a speed a panel is told until the line that ends so, or until it is closed."""
    count, rest = 0, panel.begun
    while piece := panel.socket.recv(1 << 20):
        lines, _, rest = (rest + piece).rpartition(b"\n")
        count += lines.count(b" 100 INFO 1 GL 3 1 ")
        if (lines + b"\n").endswith(end):
            break
    # One line of its listing looks like a change.
    return count - 1


def panels_that_pause(program):
    """One pauses once for 150 ms, one for 50 ms each second, while sessions send without end: neither is closed."""
    for senders in (1, 32):
        if closed := panels_closed_by_pauses(program, senders, 2 * SECONDS_OF_LOAD):
            return f"beside {senders} sessions panels that pause are closed: {closed}"
    return None


def panels_closed_by_pauses(program, senders, seconds):
    """Returns which pauses close a panel while sessions send without end for some seconds."""
    with served(program) as (port, _):
        throttles = [Client(port, "COMMAND") for _ in range(senders)]
        with panel_that_pauses(port, 0.15, seconds / 2) as once, panel_that_pauses(port, 0.05, 1) as often:
            with sending_without_end(throttles):
                time.sleep(seconds)
    return [name for name, closed in (("150 ms once", once), ("50 ms each second", often)) if closed]


def end_of_a_session_with_locks(program):
    """A session that ends with 150 locks, beside 16 that send without end, closes no panel. It fails for a door that
    leaves nothing to moments and the ends of sessions."""
    with served(program) as (port, _):
        holder = Client(port, "COMMAND")
        panel = Client(port, "INFO")
        ended = []
        holder.asks_many([f"INIT 1 GL {address} N 1 28 0" for address in range(1, LOCKS + 1)])
        with running([threading.Thread(target=reads_to_the_end, args=(panel, ended))]):
            with sending_without_end([Client(port, "COMMAND") for _ in range(16)]):
                for _ in range(ENDS):
                    holder.asks_many([f"SET 1 LOCK GL {address} 0" for address in range(1, LOCKS + 1)])
                    holder.close()
                    holder = Client(port, "COMMAND")
                closed = len(ended)
            shut([panel])
    return "the panel is closed" if closed else None


def told_to_the_end(client, seconds):
    """Returns all that comes, and whether the stream ends within some seconds."""
    end, pieces = time.monotonic() + seconds, [b"-"]
    while pieces[-1]:
        client.settimeout(max(end - time.monotonic(), 0.001))
        try:
            pieces.append(client.recv(1 << 16))
        except TimeoutError:
            break
    return b"".join(pieces[1:]), not pieces[-1]


def half_closed_panel_beside_many(program):
    """A panel that sends no more is sent its whole listing while 32 sessions send without end, and then its stream
    ends. It fails for a door that reports an end only after a turn without a write."""
    with served(program) as (port, _):
        first = Client(port, "COMMAND")
        first.asks_many([f"INIT 1 GL {address} N 1 28 5" for address in range(1, ROWS + 1)])
        with sending_without_end([Client(port, "COMMAND") for _ in range(32)], b"SET 1 GL 1 1 %d 28\n"):
            time.sleep(0.3)
            with socket.create_connection(("127.0.0.1", port)) as panel:
                panel.sendall(b"SET CONNECTIONMODE SRCP INFO\nGO\n")
                panel.shutdown(socket.SHUT_WR)
                told, ended = told_to_the_end(panel, LONGEST_END)
        listed = Client(port, "INFO").hears_until(b" 1 FB 8 0\n")
    # Before its rows come the welcome line and two replies.
    lines = told[:told.rfind(b"\n") + 1].splitlines(keepends=True)[3:]
    held = mirrored(program, b"".join(line for line in lines if b" GL 1 " not in line))
    got, want = ({line.split(b" ", 1)[1] for line in rows_of(rows) if b" GL 1 " not in line} for rows in (held, listed))
    if wrong := got ^ want:
        return f"of {len(want)} rows {len(wrong)} are missing or wrong: {sorted(wrong)[:3]}"
    return None if ended else f"its stream goes on after {LONGEST_END} s and {len(lines)} lines"


PACING_CASES = (sessions_on_both_sides, quiet_session_beside_many, sessions_that_do_not_wait_have_like_shares,
                commands_in_one_go, one_session_sends_a_million_commands, panels_that_pause,
                end_of_a_session_with_locks, half_closed_panel_beside_many)
