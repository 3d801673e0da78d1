"""A line of bytes to a command station: serial, or by TCP."""
import asyncio
import contextlib
import errno
import fcntl
import os
import stat
import termios
import tty

from srcp_bridges.limits import UNSENT
from srcp_bridges.program import CannotGoOn, Wrong

Place = tuple[str, int]  # host and port


def place(name: str) -> str | Place:
    """Returns a serial line (/dev/ttyACM0), or the host and port that a name such as `HOST:2560` tells."""
    if name.startswith("/"):
        if os.path.exists(name) and not stat.S_ISCHR(os.stat(name).st_mode):
            raise Wrong(f"--station {name}: not a serial line")
        return name
    return network_place(name, "neither a serial line (/dev/ttyACM0) nor HOST:PORT")


def network_place(name: str, fault: str, usual: int | None = None) -> Place:
    """Returns the host and port that a name tells. `usual` is the port of one that tells none."""
    host, _, port = (name if usual is None or ":" in name.rpartition("]")[2] else f"{name}:{usual}").rpartition(":")
    if not host or not port.isdecimal() or not 1 <= int(port) <= 65535:
        raise Wrong(f"--station {name}: {fault}")
    return host.strip("[]"), int(port)


def serial(name: str) -> int:
    """Opens a serial line for this program alone: others are refused by the system, and ours by the lock. That goes as
    this process ends, though the one that says its last words has the line too."""
    line = os.open(name, os.O_RDWR | os.O_NOCTTY | os.O_NONBLOCK)
    try:
        fcntl.lockf(line, fcntl.LOCK_EX | fcntl.LOCK_NB)
        fcntl.ioctl(line, termios.TIOCEXCL)
        tty.setraw(line)
        mode = termios.tcgetattr(line)
        mode[2] |= termios.CLOCAL  # no modem is asked whether it is there
        mode[2] &= ~termios.HUPCL  # nor does the station begin anew as the line is closed and opened again
        mode[4] = mode[5] = termios.B115200
        termios.tcsetattr(line, termios.TCSAFLUSH, mode)
    except BlockingIOError:
        os.close(line)
        raise CannotGoOn(f"{name}: another program has it") from None
    except (OSError, termios.error) as fault:
        os.close(line)
        if fault.args[0] == errno.ENOTTY:
            raise Wrong(f"--station {name}: not a serial line") from None
        raise OSError(f"{name}: {fault}") from None
    return line


class Line:
    """An open line: `write` and `drain`, `read` up to and with some byte, and `close`."""

    def __init__(self, reader: asyncio.StreamReader, writer: asyncio.StreamWriter, reading: asyncio.BaseTransport):
        self.reader = reader
        self.writer = writer
        self.reading = reading
        writer.transport.set_write_buffer_limits(0)

    @classmethod
    async def open(cls, where: str | Place) -> "Line":
        """Opens what `place` has returned."""
        if not isinstance(where, str):
            reader, writer = await asyncio.open_connection(*where)
            return cls(reader, writer, writer.transport)
        line = serial(where)
        loop, reader = asyncio.get_running_loop(), asyncio.StreamReader()
        ends = os.fdopen(os.dup(line), "rb", 0), os.fdopen(line, "wb", 0)
        reading, _ = await loop.connect_read_pipe(lambda: asyncio.StreamReaderProtocol(reader), ends[0])
        transport, protocol = await loop.connect_write_pipe(asyncio.streams.FlowControlMixin, ends[1])
        return cls(reader, asyncio.StreamWriter(transport, protocol, None, loop), reading)

    def number(self) -> int:
        """Returns the number by which the system knows the line."""
        return (self.writer.get_extra_info("socket") or self.writer.get_extra_info("pipe")).fileno()

    def write(self, data: bytes) -> None:
        self.writer.write(data)
        if self.writer.transport.get_write_buffer_size() > UNSENT:
            raise ConnectionError("takes nothing")

    async def drain(self) -> None:
        await self.writer.drain()

    async def read(self, end: bytes) -> bytes:
        """Returns what comes, up to and with the byte `end`."""
        try:
            return await self.reader.readuntil(end)
        except EOFError:
            raise ConnectionError("its line is closed") from None
        except asyncio.LimitOverrunError:
            raise ConnectionError("a message without an end") from None

    def close(self) -> None:
        if (pipe := self.writer.get_extra_info("pipe")) and not pipe.closed:
            with contextlib.suppress(OSError, termios.error):  # that process may not have closed it yet
                fcntl.ioctl(pipe, termios.TIOCNXCL)
        self.reading.close()
        if not self.writer.is_closing():
            self.writer.transport.abort()
