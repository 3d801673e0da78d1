"""For all cases of bridges/: a server, the programs, a way between that can be cut, and waits."""
import contextlib
import functools
import itertools
import os
import re
import signal
import socket
import subprocess
import sys
import tempfile
import threading
import time
import unittest
from pathlib import Path

from serving import Client, comes_again, layout_bus

TOP = Path(__file__).resolve().parent.parent.parent
PROGRAMS = Path(os.environ.get("SRCP_PROGRAMS", TOP / "bridges"))
SERVER: str | None = None  # the built program; the case that runs sets it
PACKAGES = "/usr/lib/python3/dist-packages"  # where Debian has paho, which another python3 does not look through
LAYOUT = ("port = {port}\n" + layout_bus(1, "POWER GL GA FB", gl_max=10239, ga_max=2044, fb_ports=32)
          + layout_bus(2, "GA FB", ga_max=12, ga_ports=4, fb_ports=16))
EXAMPLE_PLAN = TOP / "examples" / "plan.toml"
WAIT = 60.0  # seconds that a busy machine may take
folder = tempfile.TemporaryDirectory()  # gone at the end, with all that the tests write
os.environ["XDG_RUNTIME_DIR"] = folder.name  # so there programs tell of themselves
os.environ["XDG_STATE_HOME"] = folder.name  # and keep their word
choosing = threading.Lock()
sys.path[:0] = [str(PROGRAMS)]
sys.path.append(PACKAGES)


@functools.cache
def block():
    """The numbers of 1,000 ports that no other run on this machine has, below the ports that the system gives to
    connections. The run holds a name of the system for these ports until the run ends."""
    held = socket.socket(socket.AF_UNIX)
    for first in itertools.cycle(range(10000, 30000, 1000)):
        try:
            held.bind(f"\0srcp_bridge_tests_{first}")
            return held, itertools.cycle(range(first, first + 1000))
        except OSError:
            time.sleep(0.1)


def free_port():
    """A port without a listener, given to no other test. The port is bound and not listened at: a program that another
    test is starting has the socket too for a moment, and a server that comes to the port would be refused."""
    with choosing:
        for port in block()[1]:
            try:
                with socket.socket() as one:
                    one.setsockopt(socket.SOL_SOCKET, socket.SO_REUSEADDR, 1)
                    one.bind(("127.0.0.1", port))
                return port
            except OSError:
                pass


def listener():
    """A socket that listens at a free port, or at the next if another process has taken the first meanwhile."""
    while True:
        try:
            return socket.create_server(("127.0.0.1", free_port()))
        except OSError:
            pass


@functools.cache
def plan_of_two_buses():
    """The plan of the examples with its signals on bus 2, where each has four ports."""
    text = re.sub(r"\[1, 1([123]), 1, 0\]", r"[2, \1, 2, 0]", EXAMPLE_PLAN.read_text())
    path = Path(new_folder(), "plan.toml")
    path.write_text(re.sub(r'"1 GA 1([123])"', r'"2 GA \1"', text))
    return path


def new_folder():
    return tempfile.mkdtemp(dir=folder.name)


def connects(port):
    try:
        socket.create_connection(("127.0.0.1", port), 1).close()
        return True
    except OSError:
        return False


def until(true, what, seconds=WAIT):
    """Waits until the condition is true, also if it looks up a value that is not there yet."""
    end = time.monotonic() + seconds
    while True:
        with contextlib.suppress(LookupError):
            if true():
                return
        if time.monotonic() > end:
            raise AssertionError(f"not within {seconds} s: {what}")
        time.sleep(0.02)


class Process:
    """A program started here, and ended by its id."""

    def __init__(self, *words, **more):
        self.log = os.path.join(new_folder(), "log")
        with open(self.log, "w") as log:
            self.process = subprocess.Popen([str(word) for word in words], stdout=log, stderr=log, **more)
        self.pid = self.process.pid

    def told(self):
        return Path(self.log).read_text()

    def send(self, number):
        self.process.send_signal(number)

    def end(self, number=signal.SIGTERM):
        """Ends it; returns its exit status."""
        if self.process.poll() is None:
            self.process.send_signal(signal.SIGCONT)
            self.process.send_signal(number)
        return self.process.wait(WAIT)


@functools.cache
def interpreter(name):
    """The python3 that runs a program: the python3 of these tests, or, if this has no paho, Debian's."""
    if name != "mqtt.py":
        return sys.executable
    needs = "import sys, paho.mqtt.client; sys.exit(sys.version_info < (3, 11))"
    for python in (sys.executable, "/usr/bin/python3"):
        if os.path.exists(python) and subprocess.run([python, "-c", needs], capture_output=True).returncode == 0:
            return python
    return None


def program(name, *words, **more):
    return Process(interpreter(name), PROGRAMS / name, *words, "--again", "0.1", **more)


class Server:
    def __init__(self, layout=LAYOUT):
        self.config = os.path.join(new_folder(), "layout.toml")
        while not hasattr(self, "process") or self.process.process.poll() is not None:  # another has taken the port
            self.port = free_port()
            Path(self.config).write_text(layout.format(port=self.port))
            self.start()

    def start(self):
        self.process = Process(SERVER, "serve", "--config", self.config)
        until(lambda: connects(self.port) or self.process.process.poll() is not None, "the server listens")

    def stop(self):
        self.process.end(signal.SIGKILL)

    def restart(self):
        self.stop()
        self.start()


class Session(Client):
    def __init__(self, port, mode="COMMAND"):
        super().__init__(port, mode, seconds=WAIT)

    def ask(self, command):
        return self.asks(command)

    def order(self, *commands):
        for command in commands:
            if (reply := self.ask(command)) != "200 OK":
                raise AssertionError(f"{command}: {reply}")

    def flood(self, commands):
        """Sends many commands, 100 at once."""
        for begin in range(0, len(commands), 100):
            self.asks_many(commands[begin:begin + 100])


def sessions(port, count):
    """Opens sessions, each as soon as there is a place."""
    return [comes_again(lambda: Session(port)) for _ in range(count)]


def stamped_lines(port):
    """A snapshot: a panel that half-closes is sent its whole listing, and then the end. Lines with their stamps."""
    with socket.create_connection(("127.0.0.1", port), WAIT) as connection:
        connection.sendall(b"SET CONNECTIONMODE SRCP INFO\nGO\n")
        connection.shutdown(socket.SHUT_WR)
        text = b""
        while more := connection.recv(65536):
            text += more
    return text.decode("latin-1").split("\n")[3:-1]


def rows(port):
    """The same lines without stamps."""
    return [line.partition(" ")[2] for line in stamped_lines(port)]


def position_of(port, bus, number):
    """How an accessory lies, for a panel that comes now."""
    from srcp_bridges.srcp.rows import Rows, parse, position
    found = Rows()
    for line in stamped_lines(port):
        found.enter(*parse(line))
    return position(found, bus, number)


def parsed(lines):
    """Rows by their keys, without stamps, and without sessions: of these the snapshot is one."""
    from srcp_bridges.srcp.rows import parse
    found = dict(parse("0 " + line) for line in lines)
    return {key: row for key, row in found.items() if key[1] != "SESSION"}


class Way:
    """A way to the server that loses panels as an overrun does.

    `cut` closes them in the middle of a line and holds new ones back until `free`. Command sessions are passed on as
    they are. `listed`: this number of bytes of a listing passes, and half a second later the panel is cut. `late`: a
    panel's lines from this text on pass only after `free`. `last`: once a client has sent this text, what the client
    sends and is sent behind the text passes only after `free`. `shut` holds new connections back until `free`.
    """

    def __init__(self, server):
        self.server = server
        self.door = listener()
        self.panels = []
        self.open = threading.Event()
        self.enter = threading.Event()
        self.port = self.door.getsockname()[1]
        self.listed = None
        self.cuts = 0
        self.free()
        threading.Thread(target=self.accept, daemon=True).start()

    def accept(self):
        while True:
            try:
                client = self.door.accept()[0]
            except OSError:
                return
            threading.Thread(target=self.serve, args=(client,), daemon=True).start()

    def serve(self, client):
        self.enter.wait()
        try:
            upstream = socket.create_connection(("127.0.0.1", self.server.port))
        except OSError:
            return client.close()
        threading.Thread(target=self.up, args=(client, upstream), daemon=True).start()
        try:
            passed = 0
            while more := upstream.recv(65536):
                cuts = client in self.panels and self.listed is not None
                more = more[:self.listed - passed] if cuts else more
                late = self.late
                if client in self.panels and late and late in more:
                    begin = more.index(late)
                    client.sendall(more[:begin])
                    while self.late is late:
                        time.sleep(0.01)
                    more = more[begin:]
                self.waits(client)
                client.sendall(more)
                passed += len(more)
                if cuts and passed >= self.listed:
                    self.cuts += 1
                    time.sleep(0.5)
                    break
        except OSError:
            pass
        self.close(client, upstream)

    def up(self, client, upstream):
        try:
            while more := client.recv(65536):
                if b"INFO" in more and b"MODE" in more:
                    self.panels.append(client)
                    self.open.wait()
                if self.last and self.last in more:
                    begin = more.index(self.last) + len(self.last)
                    self.held.add(client)
                    upstream.sendall(more[:begin])
                    self.waits(client)
                    more = more[begin:]
                upstream.sendall(more)
        except OSError:
            pass
        self.close(client, upstream)

    def waits(self, client):
        while client in self.held:
            time.sleep(0.01)

    def close(self, *ends):
        for end in ends:
            try:
                end.shutdown(socket.SHUT_RDWR)
            except OSError:
                pass

    def cut(self):
        self.open.clear()
        for panel in self.panels:
            try:
                panel.sendall(b"1795358500.120 100 INFO 1 GL 3 1 2 2")  # of 28: it has no LF
            except OSError:
                pass
            self.close(panel)
        self.panels.clear()

    def shut(self):
        self.enter.clear()

    def free(self):
        self.late = self.last = None
        self.held = set()
        self.open.set()
        self.enter.set()

    def end(self):
        self.free()
        self.close(self.door)


def is_full(port):
    """Returns whether the server turns a new client away. A client that was let in has left at the end."""
    with socket.create_connection(("127.0.0.1", port), WAIT) as one:
        if not one.recv(1):
            return True
        one.shutdown(socket.SHUT_WR)
        while one.recv(1000):
            pass
        return False


class Case(unittest.TestCase):
    """A test with a server, a throttle, and a way between the server and the program."""
    program = None  # the name that its cases have
    layout = LAYOUT

    def setUp(self):
        self.server = Server(self.layout)
        self.addCleanup(lambda: self.server.stop())
        self.throttle, self.way = Session(self.server.port), Way(self.server)
        self.addCleanup(self.way.end)
        self.started = {}

    def starts(self, name, *words, port=None, **more):
        self.started[name] = started = program(name, *words, "--port", port or self.server.port, **more)
        self.addCleanup(started.end, signal.SIGKILL)
        return started

    def has(self, *wanted):
        """Waits until the server has rows with these beginnings."""
        for begin in wanted:
            until(lambda: any(row.startswith(begin) for row in rows(self.server.port)), begin)

    def lacks(self, *unwanted):
        for begin in unwanted:
            until(lambda: not any(row.startswith(begin) for row in rows(self.server.port)), f"no {begin}")

    def restart(self):
        self.server.restart()
        self.throttle = Session(self.server.port)

    def overruns(self, started, *commands):
        """Has a program sleep until the server has closed the program's panel, and then go on; the last commands come
        during the sleep. Earlier commands fill all that the system keeps for a panel that does not read."""
        def panels():
            return sum(" SESSION " in row and row.endswith(" INFO") for row in rows(self.server.port))

        self.throttle.order("INIT 1 GL 9999 N 1 28 29")
        before, joined = panels(), started.told().count("server: joined, as before")
        started.send(signal.SIGSTOP)
        busy = ["SET 1 GL 9999 1 5 28 " + " ".join("1" * 29)] * 20000
        end = time.monotonic() + 2 * WAIT
        while panels() == before and time.monotonic() < end:
            self.throttle.flood(busy)
        self.assertLess(panels(), before)
        self.throttle.order(*commands, "TERM 1 GL 9999")
        started.send(signal.SIGCONT)
        until(lambda: started.told().count("server: joined, as before") > joined, "it has joined again", 4 * WAIT)
