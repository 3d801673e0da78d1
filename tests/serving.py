"""What a served layout does, seen from outside: a throttle and panels over sockets of this machine."""
import os
import re
import resource
import signal
import socket
import subprocess
import sys
import tempfile
import time
from collections import Counter
from contextlib import ExitStack, contextmanager
from pathlib import Path


def layout_bus(number: int, groups: str, **most: int) -> str:
    """Returns a bus of a layout: the groups, a word each, and the numbers of the keys."""
    words = ", ".join(f'"{group}"' for group in groups.split())
    keys = "".join(f"{key} = {value}\n" for key, value in most.items())
    return f"[[bus]]\nnumber = {number}\ngroups = [{words}]\n{keys}"


LAYOUT = "port = {port}\n" + layout_bus(1, "POWER GL GA FB", gl_max=10239, ga_max=2044, fb_ports=8)
WELCOME = b"srcp_server 1.0; SRCP 0.8.4; SRCPOTHER 0.8.3\n"
RELEASE, *_ = re.findall(rb"^## (.*)$", (Path(__file__).parent.parent / "CHANGELOG.md").read_bytes(), re.M)
# What the program says to `--version`: the version of the welcome line, and the newest of the changes.
VERSION = b"%s (release %s)" % (WELCOME.partition(b";")[0], RELEASE)
# in what a case expects these words stand for texts of the program
TEXTS = {b"{WELCOME}": WELCOME.removesuffix(b"\n"), b"{VERSION}": VERSION}
SECONDS = 20
UNREAD = 128 + signal.SIGPIPE  # the status of what ends since nobody reads what it prints


def expected_text(text):
    """Returns what a case expects, with the texts of the program instead of their words."""
    for word in TEXTS:
        text = text.replace(word, TEXTS[word])
    return text


class TriedNothing(Exception):
    """What a case needs is not here."""


def free_ports(count):
    """Returns different ports on which no program listens."""
    with ExitStack() as stack:
        listeners = [stack.enter_context(socket.create_server(("127.0.0.1", 0))) for _ in range(count)]
        return [listener.getsockname()[1] for listener in listeners]


def free_port():
    return free_ports(1)[0]


class Client:
    """A connection to a server, with the lines received."""

    def __init__(self, port, mode="COMMAND", receives=None, seconds=SECONDS):
        """Stays in the handshake if the mode is None. `receives` is how many unread bytes the socket is to keep, if the
        system is not to choose. `seconds` is how long it waits for a reply."""
        self.socket = socket.socket()
        self.socket.settimeout(seconds)
        if receives:
            self.socket.setsockopt(socket.SOL_SOCKET, socket.SO_RCVBUF, receives)
        self.socket.connect(("127.0.0.1", port))
        self.begun = b""
        self.lines = []
        assert self.line() == WELCOME
        if mode:
            self.session = int(self.asks(f"SET CONNECTIONMODE SRCP {mode}", "GO").split()[-1])

    def line(self):
        while b"\n" not in self.begun:
            more = self.socket.recv(65536)
            if not more:
                raise ConnectionError("the server has closed the connection")
            self.begun += more
        line, _, self.begun = self.begun.partition(b"\n")
        return line + b"\n"

    def asks(self, *commands):
        """Sends each command and waits for the reply; returns the last reply without the stamp."""
        for command in commands:
            self.socket.sendall(command.encode("latin-1") + b"\n")
            reply = self.line()
        return reply.split(b" ", 1)[1].decode("latin-1").strip()

    def asks_many(self, commands):
        """Sends all commands before it reads a reply. Returns how many replies each text had, without their stamps."""
        self.socket.sendall(b"".join(command.encode() + b"\n" for command in commands))
        return Counter(self.line().split(b" ", 1)[1].decode().strip() for _ in commands)

    def hears_to_the_end(self):
        """All that comes until the server closes the connection."""
        pieces = [self.begun]
        while pieces[-1] or len(pieces) == 1:
            pieces.append(self.socket.recv(1 << 20))
        return b"".join(pieces)

    def hears_until(self, end):
        """Takes lines up to a line with this end, and returns all taken lines."""
        while not (self.lines and self.lines[-1].endswith(end)):
            self.lines.append(self.line())
        return b"".join(self.lines)

    def close(self):
        self.socket.close()


def comes_again(come):
    """Returns the result of `come` once there is a place: the server may not have let a closed connection go yet."""
    end = time.monotonic() + SECONDS
    while True:
        try:
            return come()
        except ConnectionError:
            if time.monotonic() > end:
                raise
            time.sleep(0.05)


def placed(port):
    """A client that has a command session, as soon as there is a place."""
    return comes_again(lambda: Client(port, "COMMAND"))


def clients_at_all_places(port):
    """Opens 64 sessions, as soon as their places are free."""
    return [placed(port) for _ in range(64)]


@contextmanager
def served(program, *words, prepare=None, layout=LAYOUT):
    """A server of a layout at a free port, ended at the end by the process id. The process does `prepare` before the
    program runs."""
    port = free_port()
    with tempfile.NamedTemporaryFile("w", suffix=".toml") as config:
        config.write(layout.format(port=port))
        config.flush()
        server = subprocess.Popen([program, "serve", "--config", config.name, *words], stdout=subprocess.PIPE,
                                  stderr=subprocess.PIPE, preexec_fn=prepare)
        try:
            wait_for(port, server)
            yield port, server
        finally:
            server.kill()
            server.wait()


def wait_for(port, server):
    end = time.monotonic() + SECONDS
    while time.monotonic() < end and server.poll() is None:
        try:
            socket.create_connection(("127.0.0.1", port), timeout=1).close()
            return
        except OSError:
            time.sleep(0.02)
    raise RuntimeError(f"nobody listens: {server.poll()}")


def run_unread(*words, seconds=SECONDS):
    """Runs a program of Python without a reader of its output. Returns the status, and the errors printed."""
    reading, writing = os.pipe()
    os.close(reading)
    command = [sys.executable, *map(str, words)]
    with os.fdopen(writing) as output:
        done = subprocess.run(command, stdout=output, stderr=subprocess.PIPE, text=True, timeout=seconds)
    return done.returncode, done.stderr


def mirrored(program, lines):
    return subprocess.run([program, "mirror"], input=lines, capture_output=True, timeout=SECONDS, check=True).stdout


def rows_of(lines):
    """The lines but those of sessions, which differ from panel to panel."""
    return [line for line in lines.splitlines() if b" SESSION " not in line]


def panels_hold_the_registry(program):
    """Two panels, the second of which came late, hold the rows that a fresh panel is listed."""
    with served(program) as (port, _):
        throttle = Client(port, "COMMAND")
        early = Client(port, "INFO")
        throttle.asks("INIT 1 GL 3 N 1 28 5", "INIT 1 GL 7 N 1 28 2", "INIT 1 GA 5 N", "SET 1 GL 3 1 14 28 1 0 0 0 1")
        late = Client(port, "INFO")
        for speed in range(28):
            throttle.asks(f"SET 1 GL 7 0 {speed} 28 1 1", f"SET 1 FB {speed % 8 + 1} {speed % 2}")
        throttle.asks("SET 1 LOCK GL 3 0", "TERM 1 GL 7", "SET 1 GA 5 0 1 -1", "SET 1 POWER ON last")
        end = b"100 INFO 1 POWER ON last\n"
        told = [mirrored(program, panel.hears_until(end)) for panel in (early, late)]
        fresh = Client(port, "INFO")
        listed = fresh.hears_until(b"1 LOCK GL 3 0 %d\n" % throttle.session)
    if not rows_of(told[0]) == rows_of(told[1]) == rows_of(listed):
        return f"early {told[0]!r}, late {told[1]!r}, listed {listed!r}"[:1500]
    return None


def peer_65_is_turned_away(program):
    with served(program) as (port, _):
        clients = clients_at_all_places(port)
        last = socket.create_connection(("127.0.0.1", port), timeout=SECONDS)
        if last.recv(100) != b"":
            return "the 65th peer is answered"
        clients[10].close()
        if placed(port).asks("GET 1 POWER") != "100 INFO 1 POWER OFF":
            return "one that comes to a place that was given up is not answered"
    return None


def peers_that_harm_nobody(program):
    """A peer resets, another sends garbage, a third never reads: a throttle is answered all the same, and is told of
    none. The third overruns: whole lines come, then the end, before which the last line may be cut. It fails for a door
    that lets no line through while a panel is behind."""
    with served(program) as (port, server):
        throttle = Client(port, "COMMAND")
        silent = Client(port, "INFO", receives=4096)
        reset = Client(port, "COMMAND")
        reset.socket.setsockopt(socket.SOL_SOCKET, socket.SO_LINGER, b"\1\0\0\0\0\0\0\0")
        reset.socket.sendall(b"GET 1 POWER\n" * 2000)
        reset.close()
        garbage = socket.create_connection(("127.0.0.1", port), timeout=SECONDS)
        garbage.sendall(bytes(range(256)) * 8)
        throttle.asks("INIT 1 GL 3 N 1 28 5")
        for _ in range(100):
            replies = throttle.asks_many([f"SET 1 GL 3 1 {speed % 29} 28" for speed in range(1000)])
            if replies != {"200 OK": 1000}:
                return f"commands are answered {replies}"
        if server.poll() is not None:
            return f"the server ended: {server.poll()}"
        told = silent.hears_to_the_end().splitlines(keepends=True)
    if not all(re.fullmatch(rb"\d+\.\d{3} 10[012] INFO [ -~]+\n", line) for line in told[:-1]):
        return f"a panel that never reads was told {told[-3:]!r}"
    return None if len(told) < 100_000 else f"a panel that never reads was told all {len(told)} lines"


def panel_that_overruns_though_it_reads(program):
    """The end of a session with 255 locks is 256 changes, of which a panel is told all. With one lock more the panel is
    closed, and comes back by connecting again."""
    with served(program) as (port, _):
        throttle = Client(port, "COMMAND")
        throttle.asks_many([f"INIT 1 GL {address} N 1 28 0" for address in range(1, 257)])
        for locks in (255, 256):
            holder, panel = Client(port, "COMMAND"), Client(port, "INFO")
            panel.hears_until(b" 100 INFO 1 FB 8 0\n")
            for address in range(1, locks + 1):
                holder.asks(f"SET 1 LOCK GL {address} 0")
                panel.hears_until(b" 100 INFO 1 LOCK GL %d 0 %d\n" % (address, holder.session))
            holder.close()
            if locks == 255:
                panel.hears_until(b" 102 INFO 0 SESSION %d\n" % holder.session)
            elif b" SESSION " in panel.hears_to_the_end():
                return "257 changes do not overrun a panel"
        listed = Client(port, "INFO").hears_until(b" 100 INFO 1 FB 8 0\n")
    return "a lock outlives its session" if b" LOCK " in listed else None


def client_that_half_closes(program):
    """All whole lines that came before the end are answered; then the session is gone."""
    with served(program) as (port, _):
        throttle, leaver = Client(port, "COMMAND"), Client(port, "COMMAND")
        leaver.socket.sendall(b"GET 1 FB 1\n" * 1000 + b"SET 1 POWER ON\nSET 1 POWER OFF")
        leaver.socket.shutdown(socket.SHUT_WR)
        told = leaver.hears_to_the_end()
        left = throttle.asks(f"GET 0 SESSION {leaver.session}"), throttle.asks("GET 1 POWER")
    got = told.count(b" 100 INFO 1 FB 1 0\n"), told.endswith(b" 200 OK\n"), left
    want = 1000, True, ("416 ERROR no data", "100 INFO 1 POWER ON")
    return None if got == want else f"got {got!r}, want {want!r}"


def limit_memory(server, more):
    """Leaves a server `more` bytes of address space more than it has."""
    pages = int(Path(f"/proc/{server.pid}/statm").read_text().split()[0])
    limit = pages * resource.getpagesize() + more
    resource.prlimit(server.pid, resource.RLIMIT_AS, (limit, resource.RLIM_INFINITY))


def memory_that_runs_out(program):
    """A locomotive without memory is refused and changes no row; with memory the locomotive can be made. Meanwhile a
    port falls back in time, and a session that ends itself is let go."""
    with served(program) as (port, server):
        throttle = Client(port, "COMMAND")
        leaver = Client(port, "COMMAND")
        panel = Client(port, "INFO")
        throttle.asks("INIT 1 GA 5 N")
        limit_memory(server, 1 << 20)
        for address in range(1, 10240):
            reply = throttle.asks(f"INIT 1 GL {address} N 1 28 0")
            if reply != "200 OK":
                break
            panel.hears_until(b" 101 INFO 1 GL %d N 1 28 0\n" % address)
        if reply != "500 ERROR out of resources":
            return f"the last locomotive is answered {reply}"
        replies = [throttle.asks(command) for command in (f"GET 1 GL {address}", "SET 1 GL 1 1 7 28", "SET 1 POWER ON")]
        if replies != ["416 ERROR no data", "200 OK", "200 OK"]:
            return f"without memory: {replies}"
        throttle.asks("SET 1 GA 5 0 1 200")
        begun = time.monotonic()
        panel.hears_until(b" 100 INFO 1 GA 5 0 1\n")
        panel.hears_until(b" 100 INFO 1 GA 5 0 0\n")
        if not 0.1 < (waited := time.monotonic() - begun) < 2:
            return f"without memory a port fell back after {waited:.2f} s"
        leaver.socket.sendall(b"TERM 0 SESSION\n")
        if not leaver.hears_to_the_end().endswith(b" 200 OK\n"):
            return "without memory a session that ends itself is not answered and let go"
        resource.prlimit(server.pid, resource.RLIMIT_AS, (resource.RLIM_INFINITY, resource.RLIM_INFINITY))
        if (reply := throttle.asks(f"INIT 1 GL {address} N 1 28 0")) != "200 OK":
            return f"with memory again: {reply}"
        end = b" 100 INFO 1 GL %d 1 0 0\n" % address
        told = mirrored(program, panel.hears_until(end))
        fresh = Client(port, "INFO")
        listed = fresh.hears_until(b"1 FB 8 0\n")
    return None if rows_of(told) == rows_of(listed) else f"the panel holds {told[-300:]!r}, listed {listed[-300:]!r}"


def turns_are_counted(program):
    port = free_port()
    with tempfile.NamedTemporaryFile("w", suffix=".toml") as config:
        config.write(LAYOUT.format(port=port))
        config.flush()
        done = subprocess.run([program, "serve", "--config", config.name, "--turns", "3"], capture_output=True,
                              timeout=SECONDS)
    return None if (done.returncode, done.stdout, done.stderr) == (0, b"", b"") else f"got {done!r}"


def port_that_is_taken(program):
    with socket.socket() as taken, tempfile.NamedTemporaryFile("w", suffix=".toml") as config:
        taken.bind(("127.0.0.1", 0))
        taken.listen()
        config.write(LAYOUT.format(port=taken.getsockname()[1]))
        config.flush()
        done = subprocess.run([program, "serve", "--config", config.name], capture_output=True, timeout=SECONDS)
    is_told = (done.returncode, done.stderr, done.stdout) == (1, b"srcp_server: cannot listen\n", b"")
    return None if is_told else f"got {done!r}"


SERVING_CASES = (panels_hold_the_registry, peer_65_is_turned_away, peers_that_harm_nobody, client_that_half_closes,
                 panel_that_overruns_though_it_reads, memory_that_runs_out, turns_are_counted, port_that_is_taken)
