#!/usr/bin/env python3
"""panel.py [--host HOST] [--port PORT]: a panel. It joins the server, keeps every row, and prints each line as it
comes.

A server closes the connection of a panel that falls behind. This one then joins again, and is sent all rows anew.
Ctrl-C ends it.
"""
import argparse
import os
import re
import signal
import sys
import time
from collections.abc import Iterator
from contextlib import closing
from pathlib import Path

from srcp_client import Closed, Rows, Session, apply

TOP = Path(__file__).resolve().parent.parent  # the package's folder, or the repository
VERSIONS = TOP / "version", TOP / "packaging" / "changelog"  # what tells the version there
MOMENT = 0.5  # seconds without a line, after which all rows are listed
LONGEST = 3.0  # seconds after which that is taken for so if lines come all the time


def release() -> str:
    """Returns the version of the package, or of the newest release of the repository: "1.15-1"."""
    told = "".join(file.read_text() for file in VERSIONS if file.exists())
    found = re.search(r"\d[\d.]*-\d+", told)
    return found[0] if found else "of no release"


def add_version(words: argparse.ArgumentParser) -> None:
    """Has a program tell its release by --version."""
    words.add_argument("--version", action="version", version=f"%(prog)s {release()}, for SRCP 0.8.4",
                       help="tell its release, and end")


def tell(text: str) -> None:
    """Prints a text. Ends the program without a word once nobody reads what it prints, as `head` wants it."""
    try:
        print(text, flush=True)
    except BrokenPipeError:
        os.dup2(os.open(os.devnull, os.O_WRONLY), sys.stdout.fileno())  # for what is not written yet
        sys.exit(128 + signal.SIGPIPE)


def follow(session: Session) -> Iterator[str | None]:
    """Yields each line of an information session until its end, and None where all rows are listed."""
    session.socket.settimeout(MOMENT)
    since = time.monotonic()
    while True:
        try:
            yield session.line()
            if b"\n" in session.unread or time.monotonic() - since < LONGEST:
                continue
        except TimeoutError:
            pass  # such a moment
        except Closed:
            return
        since = time.monotonic()
        yield None


def watch(host: str, port: int) -> None:
    """Joins the server and prints what it tells, until it closes the connection."""
    rows: Rows = {}
    told = False
    with closing(Session(host, port, "INFO")) as session:
        for line in follow(session):
            if line is None:
                if told:
                    tell(f"-- {len(rows)} rows")
                told = False
            elif apply(rows, line):
                tell(line)
                told = True


def main() -> None:
    words = argparse.ArgumentParser(description="Prints what happens on a layout.")
    add_version(words)
    words.add_argument("--host", default="127.0.0.1")
    words.add_argument("--port", type=int, default=4303)
    asked = words.parse_args()
    last = ""
    while True:
        try:
            watch(asked.host, asked.port)
            tell("-- closed by the server")
            last = ""
        except OSError as fault:
            if str(fault) != last:  # said once, and not each second
                tell(f"-- {fault}")
            last = str(fault)
        time.sleep(1)


if __name__ == "__main__":
    try:
        main()
    except KeyboardInterrupt:
        pass
