"""How a program of this folder begins, prints messages, and ends."""
import argparse
import asyncio
import contextlib
import os
import signal
import sys
import tomllib
from collections.abc import Callable, Coroutine
from typing import NoReturn, TextIO

from srcp_bridges.limits import GREATEST_BUS
from srcp_bridges.release import release

said: dict[str, str] = {}


class Wrong(Exception):
    """The words of a program are wrong, or a file named by them: `run` tells the fault, and ends the program."""


class CannotGoOn(Exception):
    """Another program has what this one needs: `run` tells the fault, and ends the program."""


def say(text: str) -> None:
    """Prints a message on standard error; the message of a connection that is tried again and again only once."""
    about = text.partition(":")[0]
    if about not in ("server", "station", "broker") or said.get(about) != text:
        said[about] = text
        with contextlib.suppress(OSError):  # its terminal is gone: what is to be done is done nonetheless
            print(f"-- {printable(text)}", file=sys.stderr, flush=True)


def drop(stream: TextIO) -> None:
    """Drops the output that is not written yet."""
    os.dup2(os.open(os.devnull, os.O_WRONLY), stream.fileno())


def tell(text: str) -> None:
    """Prints a text on standard output. Ends the program without a word once the reader has gone, as `head` wants it.
    """
    try:
        print(text, flush=True)
    except BrokenPipeError:
        drop(sys.stdout)
        sys.exit(128 + signal.SIGPIPE)


def printable(text: str) -> str:
    """Returns a text without bytes that a terminal would obey, since texts may come from anywhere."""
    return "".join(letter if letter.isprintable() else f"\\x{ord(letter):02x}" for letter in text)


def unread(path: str, fault: Exception) -> str:
    """Returns why a file cannot be read, also if a unit of systemd does not see the file."""
    home = os.path.abspath(path).startswith(("/home/", "/root/", "/run/user/"))
    if home and isinstance(fault, OSError) and "INVOCATION_ID" in os.environ:  # which systemd sets
        return "a unit does not see what is in /home (ProtectHome): put the file into /etc"
    return str(fault)


def names(path: str | None) -> dict[str, str]:
    """Returns the names of devices in a file with lines such as "1 GL 3" = "V 100"."""
    if not path:
        return {}
    try:
        with open(path, "rb") as file:
            return {device: " ".join(str(name).split()) for device, name in tomllib.load(file).items()}
    except (OSError, ValueError) as fault:
        raise Wrong(f"--names {path}: {unread(path, fault)}") from None


def number(least: int, most: int) -> Callable[[str], int]:
    """Returns the type of an argument that is a whole number within limits."""
    def of(text: str) -> int:
        if not (text.isdecimal() and least <= int(text) <= most):
            raise argparse.ArgumentTypeError(f"{text} is no number from {least} to {most}")
        return int(text)
    return of


PORT = number(1, 65535)
BUS = number(1, GREATEST_BUS)


class Arguments(argparse.ArgumentParser):
    def error(self, message: str) -> NoReturn:
        """Ends the program with status 2, and one line."""
        self.exit(2, f"-- {printable(message)}\n")


def parser(about: str | None) -> Arguments:
    """Returns a parser of the words of a program, which knows --help and --version."""
    words = Arguments(description=about, formatter_class=argparse.RawDescriptionHelpFormatter)
    words.add_argument("--version", action="version", version=f"%(prog)s {release()}, for SRCP 0.8.4",
                       help="tell its release, and end")
    return words


def arguments(about: str | None) -> Arguments:
    """Returns a parser of the words for every program with a session, which adds further words."""
    words = parser(about)
    words.add_argument("--host", default="127.0.0.1", help="where the server is (%(default)s)")
    words.add_argument("--port", type=PORT, default=4303, help="its port (%(default)s)")
    words.add_argument("--again", type=float, default=1.0, metavar="SECONDS",
                       help="until a lost connection is tried again (%(default)s)")
    return words


def run(program: Coroutine[object, object, None]) -> None:
    """Runs a program. Exit status 0: the program was ended by SIGTERM, by Ctrl-C or by the end of its terminal
    (SIGHUP); 1: it cannot go on; 2: its words are wrong. A program under nohup ignores the end of its terminal."""
    async def until_told() -> None:
        task = asyncio.current_task()
        assert task
        ends = [signal.SIGTERM, signal.SIGINT]
        if signal.getsignal(signal.SIGHUP) is not signal.SIG_IGN:
            ends.append(signal.SIGHUP)
        for number in ends:
            asyncio.get_running_loop().add_signal_handler(number, task.cancel)
        await program

    try:
        asyncio.run(until_told())
    except asyncio.CancelledError:
        say("ended")
        try:
            sys.stderr.flush()
        except OSError:
            drop(sys.stderr)  # its terminal is gone
    except Wrong as fault:
        print(f"-- {printable(str(fault))}", file=sys.stderr)
        sys.exit(2)
    except (OSError, ValueError, CannotGoOn) as fault:
        sys.exit(f"-- {fault}")
