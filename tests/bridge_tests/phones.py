"""Scripted phones, a panel beside them, and what the cases of withrottle.py share."""
import os
import signal
import socket
import threading
from pathlib import Path

from .common import WAIT, Case, connects, free_port, new_folder, until


class Panel:
    """The lines that an information session is sent, without their stamps."""

    def __init__(self, port):
        self.lines = []
        self.socket = socket.create_connection(("127.0.0.1", port), WAIT)
        self.socket.sendall(b"SET CONNECTIONMODE SRCP INFO\nGO\n")
        threading.Thread(target=self.read, daemon=True).start()
        until(lambda: any(" POWER " in line for line in self.lines), "the listing")

    def read(self):
        try:
            for line in self.socket.makefile("r", encoding="latin-1"):
                self.lines.append(line.rstrip("\n").partition(" ")[2])
        except OSError:
            pass

    def told(self, begin):
        """The lines that begin so."""
        return [line for line in self.lines if line.startswith(begin)]


class Phone:
    """Begins as Engine Driver does: its name, its id, then perhaps heartbeats."""

    def __init__(self, port, watched=False, begin=("Nphone", "HU42"), address="127.0.0.1"):
        self.lines = []
        self.seen = 0
        self.socket = socket.create_connection(("127.0.0.1", port), WAIT, (address, 0))
        self.socket.settimeout(None)
        threading.Thread(target=self.read, daemon=True).start()
        self.send(*begin, *["*+"] * watched)

    def read(self):
        try:
            for line in self.socket.makefile("r", encoding="utf-8"):
                self.lines.append(line.rstrip("\r\n"))
        except OSError:
            pass
        self.lines.append("END")

    def send(self, *lines):
        self.socket.sendall("".join(line + "\n" for line in lines).encode())

    def got(self, *lines):
        for line in lines:
            until(lambda: line in self.lines[self.seen:], f"the phone is told {line}")
            self.seen += self.lines[self.seen:].index(line) + 1

    def told(self, begin):
        """The lines that begin so, after those that were seen."""
        return [line for line in self.lines[self.seen:] if line.startswith(begin)]

    def settled(self):
        """Waits until all that was sent is carried out and answered."""
        self.send("PTAT?")
        self.got("HMturnouts are numbers here, not ?")


class WiThrottleCase(Case):
    """A case with withrottle.py beside its server."""
    program = "withrottle"
    words = "--heartbeat", 1, "--patience", 1

    def setUp(self):
        super().setUp()
        self.listen, names = free_port(), os.path.join(new_folder(), "names.toml")
        Path(names).write_text('"1 GL 3" = "V 100"\n"1 GL 4" = "V 100"\n"1 GA 5" = "Yard ]west\\n"\n')
        self.bridge = self.starts("withrottle.py", "--listen", self.listen, "--names", names, *self.words,
                                  port=self.way.port)
        until(lambda: connects(self.listen) and "server: joined" in self.bridge.told(), "the bridge is there")

    def phone(self, **more):
        return Phone(self.listen, **more)

    def phone_with(self, *keys):
        """A phone that has taken these on its first throttle."""
        phone = self.phone()
        for key in keys:
            phone.send(f"M0+{key}<;>{key}")
            phone.got(f"M0+{key}<;>", f"M0A{key}<;>s1")
        return phone

    def at_once(self, phone, *lines):
        """Has lines come in while the server sleeps, so that they wait."""
        self.server.process.send(signal.SIGSTOP)
        phone.send(*lines)
        until(lambda: self.has_read(phone), "the bridge has read all")
        self.server.process.send(signal.SIGCONT)

    def has_read(self, phone):
        """Returns whether the bridge has read all that a phone sent, and rests."""
        ends = f"0100007F:{self.listen:04X} 0100007F:{phone.socket.getsockname()[1]:04X}"
        unread, = [line.split()[4] for line in Path("/proc/net/tcp").read_text().splitlines() if ends in line]
        state = Path(f"/proc/{self.bridge.pid}/stat").read_text().rpartition(")")[2].split()[0]
        return unread.endswith(":00000000") and state == "S"

    def greeted(self, line):
        """A phone that is greeted with this line: the bridge knows what was told before."""
        while True:
            phone = self.phone()
            until(lambda: any(told.startswith("*") for told in phone.lines), "the greeting")
            if line in phone.lines:
                return phone
            phone.send("Q")

    def restarted(self):
        """Has the server begin anew, and waits until the bridge has joined it."""
        joined = self.bridge.told().count("server: joined")
        self.restart()
        until(lambda: self.bridge.told().count("server: joined") > joined, "the bridge is back")
