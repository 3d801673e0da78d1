#!/usr/bin/env python3
"""count_instructions.py PROGRAM [SHORT LONG]: how many instructions a command, a line and a replayed event cost.

It prints one figure a line, each with its unit. `valgrind --tool=callgrind` counts the instructions of whole runs. A
figure is the difference between a load of LONG units and one of SHORT, 4,000 and 2,000 if not given, for each unit.
So what a run costs by itself is not in it. The loads go over loopback, but for the replay. A busy machine adds turns,
which cost a few instructions for each command and each line.
"""
import re
import subprocess
import sys
import tempfile
import threading
import time
from collections.abc import Callable, Iterator
from contextlib import contextmanager
from functools import cache
from pathlib import Path

from loads import COMMAND, LONG_RUN, drain, pipelined, replays, script_of_a_long_run

from serving import Client, served

PANELS = 31
SECONDS_WITHOUT_A_LINE = 30  # callgrind makes the server many times slower
CALLGRIND = ["valgrind", "--tool=callgrind", "--callgrind-out-file=/dev/null"]
LAST_ROW = b" 1 FB 8 0\n"
SEED = 1


def collected(errors: bytes) -> int:
    """The count that callgrind prints at the end of a run."""
    found = re.search(rb"Collected : (\d+)", errors)
    if not found:
        sys.exit(f"callgrind counted nothing: {errors[-500:]!r}")
    return int(found[1])


@contextmanager
def counted_server(program: str) -> Iterator[tuple[int, subprocess.Popen[bytes], list[int]]]:
    """A server under callgrind: its port, its process, and a list that holds the count of its instructions in the
    end."""
    with tempfile.TemporaryDirectory() as folder:
        counting = Path(folder, "counting")
        count: list[int] = []
        counting.write_text(f'#!/bin/sh\nexec {" ".join(CALLGRIND)} "{program}" "$@"\n')
        counting.chmod(0o755)
        with served(str(counting)) as (port, server):
            yield port, server, count
            server.terminate()
            count.append(collected(server.communicate()[1]))


def count_from_now(server: subprocess.Popen[bytes]) -> None:
    """Drops the count of what a server did so far."""
    subprocess.run(["callgrind_control", "--zero", str(server.pid)], check=True, capture_output=True)


def wait_for_lines(counted: list[int], wanted: int) -> None:
    """Waits until `wanted` lines were read, or none comes for a while."""
    had, end = 0, time.monotonic() + SECONDS_WITHOUT_A_LINE
    while (now := sum(counted)) < wanted:
        if now > had:
            had, end = now, time.monotonic() + SECONDS_WITHOUT_A_LINE
        if time.monotonic() > end:
            sys.exit(f"the panels read {now} lines of {wanted}")
        time.sleep(0.01)


def listening(port: int, panels: int) -> list[Client]:
    """Opens panels, which have read all that there is."""
    listeners: list[Client] = []
    for _ in range(panels):
        newest = Client(port, "INFO")
        newest.hears_until(LAST_ROW)
        for earlier in listeners:
            earlier.hears_until(b" SESSION %d INFO\n" % newest.session)
        listeners.append(newest)
    return listeners


@cache
def commanding(program: str, panels: int, commands: int) -> int:
    """Returns the instructions of SETs of a locomotive with 18 functions, each sent to the panels, which read all."""
    with counted_server(program) as (port, _, count):
        throttle = Client(port, "COMMAND")
        throttle.asks("INIT 1 GL 3 N 1 28 18")
        listeners = listening(port, panels)
        stop = threading.Event()
        counted: list[int] = []
        drains = [threading.Thread(target=drain, args=(listener, stop, counted)) for listener in listeners]
        for thread in drains:
            thread.start()
        pipelined(throttle, [COMMAND] * commands)
        wait_for_lines(counted, panels * commands)
        stop.set()
        for thread in drains:
            thread.join()
    return count[0]


def listing(program: str, rows: int) -> int:
    """Returns the instructions of listing a registry of `rows` rows of locomotives to a panel."""
    with counted_server(program) as (port, server, count):
        throttle = Client(port, "COMMAND")
        pipelined(throttle, [b"INIT 1 GL %d N 1 28 18\n" % address for address in range(1, rows // 2 + 1)])
        count_from_now(server)
        listening(port, 1)
    return count[0]


def replaying(program: str, events: int) -> int:
    """Returns the instructions of the replay of the first events of a long run."""
    text, count = script_of_a_long_run(SEED, events)
    assert count == events, f"a script holds {count} events at most"
    with replays(program, LONG_RUN) as (words, source, _):
        source.write_bytes(text)
        with open(source, "rb") as given:
            done = subprocess.run([*CALLGRIND, *words], stdin=given, stdout=subprocess.DEVNULL, stderr=subprocess.PIPE,
                                  check=True)
    return collected(done.stderr)


def main() -> None:
    program = str(Path(sys.argv[1]).resolve())
    short, long = (int(sys.argv[2]), int(sys.argv[3])) if len(sys.argv) > 3 else (2_000, 4_000)
    units = long - short

    def grown(load: Callable[..., int], *fixed: int) -> int:
        return load(program, *fixed, long) - load(program, *fixed, short)

    alone = grown(commanding, 0)
    print(f"a pipelined command: {alone / units:,.0f} instructions", flush=True)
    told = (grown(commanding, PANELS) - alone) / units / PANELS
    print(f"an information line to a panel, of {PANELS} panels: {told:,.0f} instructions", flush=True)
    print(f"a line of a listing: {grown(listing) / units:,.0f} instructions", flush=True)
    print(f"a replayed event: {grown(replaying) / units:,.0f} instructions", flush=True)


if __name__ == "__main__":
    main()
