"""What the server does if the system refuses a call: a signal ends it, waiting fails, or no descriptor is left."""
import ctypes
import errno
import fcntl
import functools
import os
import resource
import select
import signal
import socket
import struct
import threading
import time
from collections import Counter
from contextlib import contextmanager
from pathlib import Path

from serving import SECONDS, WELCOME, Client, served

# Calls by their numbers on x86-64.
RECEIVE = 45
SEND = 44
WAIT = 232
# Words of prctl and seccomp.
NO_NEW_PRIVILEGES = 38
SECCOMP = 317
SET_FILTER = 1
NEW_LISTENER = 8
ASK = 0x7FC00000
ALLOW = 0x7FFF0000
NEXT_CALL = 0xC0502100
ANSWER = 0xC0182101
CARRY_ON = 1
COMMANDS = 300
MOST_CLIENTS = 63
# Seconds in which a peer is greeted or closed that comes to a server at rest.
SOON = 5
# Bytes of memory that are left for connections. The allocator takes them of the system by 132 KB.
LEFT = (0, 160 << 10, 320 << 10)


class Filter(ctypes.Structure):
    _fields_ = [("count", ctypes.c_ushort), ("steps", ctypes.c_char_p)]


def filter_of(calls):
    """The filter that asks about these calls and allows all others."""
    load = struct.pack("HBBI", 0x20, 0, 0, 0)
    compares = [struct.pack("HBBI", 0x15, left, 0, call) for left, call in zip(range(len(calls), 0, -1), calls)]
    ends = [struct.pack("HBBI", 0x06, 0, 0, word) for word in (ALLOW, ASK)]
    steps = [load, *compares, *ends]
    return Filter(len(steps), b"".join(steps))


def ask_about(calls, to):
    """Has the system ask about these calls of this process. Sends the descriptor at which it asks."""
    c = ctypes.CDLL(None, use_errno=True)
    c.prctl(NO_NEW_PRIVILEGES, 1, 0, 0, 0)
    asked = c.syscall(SECCOMP, SET_FILTER, NEW_LISTENER, ctypes.byref(filter_of(calls)))
    if asked < 0:
        raise OSError(ctypes.get_errno(), "seccomp")
    socket.send_fds(to, [b"x"], [asked])


def may_ask():
    """Returns whether the system can be set to ask so. Not every machine can: a container may forbid it."""
    here, there = socket.socketpair()
    with here, there:
        child = os.fork()
        if child == 0:
            try:
                ask_about((WAIT,), there)
            except OSError:
                os._exit(1)
            os._exit(0)
        _, status = os.waitpid(child, 0)
    return status == 0


def asks_the_system(case):
    """Returns the case if the system can ask about calls. If it cannot, the case says that it tried nothing."""
    @functools.wraps(case)
    def asks(program):
        if may_ask():
            return case(program)
        print(f"not tried, since the system does not ask about calls here: {case.__name__.replace('_', '-')}")
        return None
    return asks


def answer_calls(here, fault_of, ended):
    """Answers each call by the error that `fault_of` gives for its number. If that is 0, the call is carried out."""
    _, (asked,), _, _ = socket.recv_fds(here, 1, 1)
    ready = select.poll()
    ready.register(asked, select.POLLIN)
    while not ended.is_set():
        if not any(event & select.POLLIN for _, event in ready.poll(50)):
            continue
        try:
            call = bytearray(80)
            fcntl.ioctl(asked, NEXT_CALL, call)
            identity, number = struct.unpack_from("Q8xi", call)
            fault = fault_of(number)
            fcntl.ioctl(asked, ANSWER, struct.pack("QqiI", identity, 0, -fault, 0 if fault else CARRY_ON))
        except OSError as gone:
            # The process ended while it was asked about.
            if gone.errno not in (errno.ENOENT, errno.EINTR):
                raise
    os.close(asked)


@contextmanager
def served_with_faults(program, calls, fault_of):
    """A server whose calls of these numbers fail by the error that `fault_of` gives, unless that is 0."""
    here, there = socket.socketpair()
    ended = threading.Event()
    here.settimeout(SECONDS)
    answerer = threading.Thread(target=answer_calls, args=(here, fault_of, ended))
    with here, there:
        answerer.start()
        try:
            with served(program, prepare=lambda: ask_about(calls, there)) as running:
                yield running
        finally:
            ended.set()
            answerer.join()


def processor_seconds(pid):
    """Returns how much of a processor a process took."""
    fields = Path(f"/proc/{pid}/stat").read_text().rsplit(")", 1)[1].split()
    return (int(fields[11]) + int(fields[12])) / os.sysconf("SC_CLK_TCK")


@contextmanager
def process_that_never_rests():
    child = os.fork()
    while child == 0:
        pass
    try:
        yield child
    finally:
        os.kill(child, signal.SIGKILL)
        os.waitpid(child, 0)


def work_without_rest(server, seconds):
    """Returns how much of a processor a server takes, as a text, if that is a fifth of one, or on a busy machine half
    of what a process takes that never rests; or None."""
    with process_that_never_rests() as other:
        before, begun = (processor_seconds(server.pid), processor_seconds(other)), time.monotonic()
        time.sleep(seconds)
        taken, others = processor_seconds(server.pid) - before[0], processor_seconds(other) - before[1]
        share = taken / (time.monotonic() - begun)
    return f"it takes {share:.0%} of a processor" if share > 0.2 or taken > max(others / 2, 0.1) else None


@asks_the_system
def calls_that_are_interrupted(program):
    """Of the reads and the writes of sockets each second one is interrupted: all is answered, and a panel is told all.
    It fails for a door that takes an interrupted read or write for a fault, and for one that takes such a one for a
    socket with nothing now."""
    calls: Counter[int] = Counter()

    def fault_of(call):
        calls[call] += 1
        return errno.EINTR if calls[call] % 2 else 0

    with served_with_faults(program, (RECEIVE, SEND), fault_of) as (port, _):
        try:
            throttle, panel = Client(port, "COMMAND"), Client(port, "INFO")
            panel.hears_until(b" 100 INFO 1 FB 8 0\n")
            replies = Counter(throttle.asks(f"SET 1 FB 8 {turn % 2}") for turn in range(1, COMMANDS + 1))
            throttle.asks("SET 1 POWER ON last")
            told = panel.hears_until(b" 100 INFO 1 POWER ON last\n").count(b" 100 INFO 1 FB 8 ")
        except OSError as fault:
            return f"after {calls[RECEIVE]} reads and {calls[SEND]} writes: {fault!r}"
    got = told - 1, replies
    return None if got == (COMMANDS, {"200 OK": COMMANDS}) else f"a panel was told, and commands are answered {got}"


@asks_the_system
def wait_that_fails(program):
    """If the system refuses to wait, or ends each wait at once, the server rests and tries again. It fails for a door
    that does not rest if the system refuses to wait, and for one that goes on after a wait that is interrupted."""
    faults = (waits_in_vain(program, refusal) for refusal in (errno.EBADF, errno.EINTR))
    return next((fault for fault in faults if fault), None)


def waits_in_vain(program, refusal):
    """Returns what is wrong with a server whose waits end by that error for a second, or None."""
    calls: Counter[int] = Counter()
    refuses = threading.Event()

    def fault_of(call):
        calls[call] += 1
        return refusal if refuses.is_set() else 0

    with served_with_faults(program, (WAIT,), fault_of) as (port, server):
        throttle = Client(port, "COMMAND")
        refuses.set()
        # a command ends the wait that began earlier
        throttle.socket.sendall(b"CHECK 1 POWER\n")
        before = calls[WAIT]
        busy = work_without_rest(server, 1)
        tries = calls[WAIT] - before
        refuses.clear()
        throttle.line()
        reply = throttle.asks("GET 1 POWER")
    if busy or not 0 < tries < 500:
        return f"{errno.errorcode[refusal]}: it waits {tries} times a second; {busy}"
    return None if reply == "100 INFO 1 POWER OFF" else f"then a command is answered {reply}"


def accept_that_is_refused(program):
    """If no descriptor is left, open peers are served, and a pending one is let in once there is one. It fails for a
    door that does not rest after an accept that is refused, and for one that accepts nobody any more after such an
    accept."""
    with served(program) as (port, server):
        throttle = Client(port, "COMMAND")
        limits = resource.prlimit(server.pid, resource.RLIMIT_NOFILE)
        resource.prlimit(server.pid, resource.RLIMIT_NOFILE, (0, limits[1]))
        with socket.create_connection(("127.0.0.1", port), timeout=SECONDS) as peer:
            busy = work_without_rest(server, 1)
            reply = throttle.asks("GET 1 POWER")
            peer.settimeout(0.1)
            try:
                return f"without a descriptor it was told {peer.recv(100)!r}"
            except TimeoutError:
                pass
            resource.prlimit(server.pid, resource.RLIMIT_NOFILE, limits)
            peer.settimeout(SECONDS)
            told = peer.recv(100)
    if busy or reply != "100 INFO 1 POWER OFF":
        return f"{busy}; a command is answered {reply}"
    return None if told == WELCOME else f"with a descriptor it was told {told!r}"


def memory_of(pid):
    """Returns how many bytes of addresses a process has."""
    return int(Path(f"/proc/{pid}/statm").read_text().split()[0]) * resource.getpagesize()


def clients_until_one_is_not_greeted(port):
    """Connects clients until one is not greeted. Returns all of them, and what the last one was told: nothing if it is
    closed, None if it waits."""
    clients, told = [], WELCOME
    while told == WELCOME and len(clients) < MOST_CLIENTS:
        clients.append(socket.create_connection(("127.0.0.1", port), timeout=SOON))
        try:
            told = clients[-1].recv(100)
        except TimeoutError:
            told = None
    return clients, told


def connection_without_memory(program):
    """If memory is refused for a connection, its peer is closed at once, open peers are served, the server rests, and
    who comes once there is some is greeted. That is so at whichever step of an accept the memory runs out. It fails for
    a door that lets a peer wait for whom memory is refused."""
    faults = (fault_without_memory(program, left) for left in LEFT)
    return next((fault for fault in faults if fault), None)


def fault_without_memory(program, left):
    """Returns what is wrong with a server that has so many bytes of memory left for connections, or None."""
    with served(program) as (port, server):
        throttle = Client(port, "COMMAND")
        limits = resource.prlimit(server.pid, resource.RLIMIT_AS)
        resource.prlimit(server.pid, resource.RLIMIT_AS, (memory_of(server.pid) + left, limits[1]))
        clients, refused = clients_until_one_is_not_greeted(port)
        busy = work_without_rest(server, 1)
        reply = throttle.asks("GET 1 POWER")
        resource.prlimit(server.pid, resource.RLIMIT_AS, limits)
        with socket.create_connection(("127.0.0.1", port), timeout=SECONDS) as late:
            told = late.recv(100)
        for client in clients:
            client.close()
    got = {f"client {len(clients)}": refused, "work": busy, "a command": reply, "with memory": told}
    want = (b"", None, "100 INFO 1 POWER OFF", WELCOME)
    return None if tuple(got.values()) == want else f"with {left} bytes left: {got}"


FAULT_CASES = (calls_that_are_interrupted, wait_that_fails, accept_that_is_refused, connection_without_memory)
