"""srcp_client.py: a session at the server, and a mirror of its registry, for clients of your own.

Copy this file beside them. It takes Python's standard library alone. docs/protocol.md has the commands.
"""
import socket
import sys

if sys.version_info < (3, 11):
    sys.exit("this takes Python 3.11 or later")
NAMES = {"POWER": 3, "GL": 4, "GA": 4, "FB": 4, "LOCK": 5, "SESSION": 4}  # where the name of a device ends, behind INFO
MEANING = {"410": "no such command", "412": "a word is wrong, or a number out of its range, or there is no such bus",
           "414": "another session has it locked", "415": "that is another session's", "416": "it is not there",
           "418": "too many words, or more functions than it has", "419": "too few words",
           "420": "no such protocol of decoders", "421": "no such group of devices", "422": "the bus has no such group",
           "423": "the group has no such command", "500": "the server has no memory for it"}
Rows = dict[tuple[tuple[str, ...], str, str | None], str]  # lines by their device, their code, and the port of GA


class Closed(ConnectionError):
    """The server has closed the connection."""


class Full(ConnectionError):
    """All places of the server are taken."""


class Refused(Exception):
    """The server's reply is an error. `code` is its number; as a text it says in words what that means."""

    def __init__(self, command: str, reply: str) -> None:
        self.code = reply.split(" ")[1]
        super().__init__(f"{command}: {MEANING.get(self.code, reply)} ({self.code})")


class Session:
    """A session at the server, of which `id` is the number. Where a method waits, OSError says that no answer came."""

    def __init__(self, host: str = "127.0.0.1", port: int = 4303, mode: str = "COMMAND", seconds: float = 5.0) -> None:
        """Begins a session of the mode COMMAND or INFO. `seconds` is how long it waits for a line, now and later."""
        self.socket = socket.create_connection((host, port), seconds)
        self.close = self.socket.close
        self.unread = b""
        try:
            self.line()  # the welcome line
        except Closed:
            raise Full("the server is full: 64 programs are connected") from None
        self.ask(f"SET CONNECTIONMODE SRCP {mode}")
        self.id = int(self.ask("GO").split(" ")[-1])

    def line(self) -> str:
        """Returns the next line that the server sends. The last one before its end may be cut, and is dropped."""
        while b"\n" not in self.unread:
            if not (more := self.socket.recv(65536)):
                raise Closed("the server closed the connection")
            self.unread += more
        line, _, self.unread = self.unread.partition(b"\n")
        return line.decode("latin-1")

    def ask(self, command: str) -> str:
        """Has the server carry out a command, and returns its reply. Refused: it is an error."""
        self.socket.sendall(f"{command}\n".encode("latin-1"))
        reply = self.line()
        if reply.split(" ", 3)[2] == "ERROR":
            raise Refused(command, reply)
        return reply


def apply(rows: Rows, line: str) -> bool:
    """Puts in the row that a line tells, or takes out all rows of the device that is gone. Returns whether its code and
    its group are known: a client skips any other line."""
    _, code, *words = line.split(" ")
    if code not in ("100", "101", "102") or len(words) < 3 or words[2] not in NAMES:
        return False
    device = tuple(words[1:NAMES[words[2]]])
    if code != "102":
        rows[device, code, words[4] if (words[2], code) == ("GA", "100") else None] = line
        return True
    for key in [key for key in rows if key[0] == device]:
        del rows[key]
    return True
