#!/usr/bin/env python3
"""bench.py WHAT PROGRAM [NUMBER]: measures a built server, and prints a figure a line, each with its unit. WHAT is

serve: the processor time of a server with nothing to do, how long a command takes to be answered beside 63 idle
connections, how late a switch-off comes, and how many replies and information lines a second are served.
latency: how long a lone question and a lone change wait beside a session that sends without end and a panel that reads
nothing, until a second after that panel is closed; and how late a pulse of NUMBER seconds ends, 60 if not given.
stalls: the processor time of a pulse, which is a SET of an accessory's port with a time and the fall of the port,
beside few accessories and locks and beside many; and how long the end of a session that holds NUMBER locks, 5,000 if
not given, behind as many of another session, holds up a third.
mirror: how fast `PROGRAM mirror` folds half a million lines, once over few rows and once over many, and how much memory
it takes; with NUMBER, over as many rows, each once, by falling key. It runs twice over them.
registry: in replays, how the cost of commands and of a listing grows with the registry up to all that one bus may have,
what a moment costs at which a port falls back, and the end of the session that holds all the locks.
bridges: as a table, how long a command takes from a phone and from a page to a simulated station, and a sensor from the
station to a page; how long STOP ALL takes to the first and the last of 50 and of 99 trains beside 200 commands a
second; how long 200 subscribers wait for 5,000 changes; and what each program costs while nothing happens. It needs
mosquitto, mosquitto-clients and paho-mqtt.
"""
import os
import re
import socket
import statistics
import sys
import tempfile
import threading
import time
from collections.abc import Callable, Iterable
from pathlib import Path

from loads import (ACCESSORIES, FULL_BUS, LINES, LOCOMOTIVES, MOMENTS, Replay, devices, drain, driven,
                   falling_ports, listed, measured, pipelined, processor_seconds, replayed, replays, states,
                   states_by_falling_key, stream)

from bridge_costs import bridges
from door import changes_without_end, reads_to_the_end
from serving import LAYOUT, Client, served

GONE = "416 ERROR no data"  # of a session that has ended

# ---- serve

IDLE_SECONDS = 5
COMMANDS = 64_000  # of all sessions together


def idle_server(program: str, locomotives: int) -> None:
    with served(program) as (port, server):
        clients = [Client(port, "COMMAND") for _ in range(63)]
        for address in range(1, locomotives + 1):
            clients[0].asks(f"INIT 1 GL {address} N 1 28 0")
        if locomotives:
            clients[0].asks("SET 1 LOCK GL 1 3600")
        before, begun = processor_seconds(server), time.monotonic()
        time.sleep(IDLE_SECONDS)
        share = (processor_seconds(server) - before) / (time.monotonic() - begun)
        throttle = Client(port, "COMMAND")
        took = []
        for _ in range(500):
            time.sleep(0.003)
            begun = time.monotonic()
            throttle.asks("GET 1 POWER")
            took.append((time.monotonic() - begun) * 1000)
        print(f"idle with {len(clients)} connections and {locomotives:,} locomotives: {share:.2%} of a processor; "
              f"a command is answered in {statistics.median(took):.2f} ms (median), {max(took):.2f} ms (most)")


def switch_off(program: str) -> None:
    with served(program) as (port, _):
        throttle, panel = Client(port, "COMMAND"), Client(port, "INFO")
        throttle.asks("INIT 1 GA 5 N")
        late = []
        for _ in range(50):
            throttle.asks("SET 1 GA 5 0 1 40")
            begun = time.monotonic()
            while not panel.line().endswith(b" 1 GA 5 0 0\n"):
                pass
            late.append((time.monotonic() - begun) * 1000 - 40)
        print(f"a switch-off after 40 ms comes {statistics.median(late):.2f} ms late (median), "
              f"{max(late):.2f} ms (most)")


def throughput(program: str, throttles: int, panels: int) -> None:
    """All throttles send at once; each SET is a line for each panel."""
    with served(program) as (port, server):
        senders = [Client(port, "COMMAND") for _ in range(throttles)]
        senders[0].asks("INIT 1 GL 3 N 1 28 18")
        listeners = [Client(port, "INFO") for _ in range(panels)]
        stop = threading.Event()
        counted: list[int] = []
        share = COMMANDS // throttles
        drains = [threading.Thread(target=drain, args=(client, stop, counted)) for client in listeners]
        streams = [threading.Thread(target=stream, args=(client, share)) for client in senders]
        before, begun = processor_seconds(server), time.monotonic()
        for thread in drains + streams:
            thread.start()
        for thread in streams:
            thread.join()
        seconds = time.monotonic() - begun
        time.sleep(0.5)
        spent = processor_seconds(server) - before
        stop.set()
        for thread in drains:
            thread.join()
        sent, lines = share * throttles, sum(counted)
        print(f"{throttles} command sessions, {panels} panels: {sent / seconds:,.0f} replies/s, {lines / seconds:,.0f} "
              f"information lines/s, {spent / sent * 1e6:.1f} us of processor a command"
              + (f", {spent / lines * 1e6:.3f} us a line" if lines else ""))


def write_costs() -> None:
    """The processor time of writing such lines in pieces of 16 KB to a peer of this machine that reads."""
    listener = socket.create_server(("127.0.0.1", 0))
    near = socket.create_connection(listener.getsockname())
    far, _ = listener.accept()
    line = b"1763800000.000 100 INFO 1 GL 3 1 5 28" + b" 0 1" * 9 + b"\n"
    piece, pieces = line * (16384 // len(line)), 20_000
    reader = threading.Thread(target=lambda: [None for _ in iter(lambda: far.recv(1 << 16), b"")])
    reader.start()
    before = time.thread_time()
    for _ in range(pieces):
        near.sendall(piece)
    spent = time.thread_time() - before
    near.close()
    reader.join()
    print(f"writing such lines in pieces of 16 KB alone: {spent / (pieces * piece.count(line)) * 1e6:.3f} us a line")


def serve(program: str) -> None:
    idle_server(program, 0)
    idle_server(program, 10_000)
    switch_off(program)
    throughput(program, 1, 0)
    throughput(program, 32, 31)
    write_costs()


# ---- latency

SECONDS_AT_MOST = 60  # until the panel is closed


def waits_beside(port: int, panel: Client) -> tuple[dict[str, list[float]], float]:
    """Returns how long each question and change of a lone session waits for its reply, until a second after the panel's
    session has ended, and when that was."""
    lone = Client(port, "COMMAND")
    waits: dict[str, list[float]] = {"question": [], "change": []}
    begun, closed = time.monotonic(), 0.0
    while not closed or time.monotonic() < begun + closed + 1:
        for name, command in (("question", f"GET 0 SESSION {panel.session}"), ("change", "SET 1 FB 2 1")):
            sent = time.monotonic()
            reply = lone.asks(command)
            waits[name].append(time.monotonic() - sent)
            if reply == GONE and not closed:
                closed = sent - begun
        assert sent < begun + SECONDS_AT_MOST, "the panel is not closed"
    return waits, closed


def panel_that_stops(program: str) -> None:
    with served(program) as (port, _):
        panel, throttle = Client(port, "INFO", receives=4096), Client(port, "COMMAND")
        threads = [threading.Thread(target=changes_without_end, args=(throttle,)),
                   threading.Thread(target=reads_to_the_end, args=(throttle, []))]
        for thread in threads:
            thread.start()
        waits, closed = waits_beside(port, panel)
        throttle.socket.shutdown(2)
        for thread in threads:
            thread.join()
    print(f"a panel that reads nothing is closed after {closed:.1f} s", flush=True)
    for name, of_name in waits.items():
        of_name.sort()
        middle, high = (of_name[len(of_name) * part // 100] * 1e3 for part in (50, 99))
        print(f"a lone {name} beside it waits: median {middle:.2f} ms, 99 of 100 {high:.2f} ms, "
              f"at most {of_name[-1] * 1e3:.2f} ms, of {len(of_name):,}", flush=True)


def fall(program: str, seconds: int) -> None:
    with served(program) as (port, _):
        throttle, panel = Client(port, "COMMAND"), Client(port, "INFO")
        throttle.asks("INIT 1 GA 5 N")
        throttle.asks(f"SET 1 GA 5 0 1 {seconds * 1000}")
        panel.hears_until(b" GA 5 0 1\n")
        set_at = float(panel.lines[-1].split()[0])
        panel.socket.settimeout(seconds + 20)
        panel.hears_until(b" GA 5 0 0\n")
        late = time.time() - set_at - seconds
    print(f"a pulse of {seconds} s ends {late * 1e3:.1f} ms late", flush=True)


def latency(program: str, seconds: int = 60) -> None:
    panel_that_stops(program)
    fall(program, seconds)


# ---- stalls

PULSES = 200  # over which the cost of one is averaged
FEW = (20, 5)
MANY = (2_044, 2_000)


def pulse_seconds(program: str, accessories: int, locks: int) -> float:
    """The processor time of a pulse and of telling one panel of it, without that of waiting as long with nothing to
    do."""
    with served(program, layout=LAYOUT + "ga_ports = 8\n") as (port, server):
        throttle = Client(port, "COMMAND")
        pipelined(throttle, [b"INIT 1 GA %d N\n" % address for address in range(1, accessories + 1)])
        pipelined(throttle, [b"SET 1 LOCK GA %d 0\n" % address for address in range(1, locks + 1)])
        panel = Client(port, "INFO")
        panel.hears_until(b" 1 LOCK GA %d 0 %d\n" % (locks, throttle.session))
        before, begun = processor_seconds(server), time.monotonic()
        for pulse in range(PULSES):
            address, of_port = pulse * accessories // PULSES + 1, pulse % 8
            throttle.asks(f"SET 1 GA {address} {of_port} 1 1")
            panel.hears_until(b" 100 INFO 1 GA %d %d 0\n" % (address, of_port))
        after = processor_seconds(server)
        time.sleep(time.monotonic() - begun)
        waiting = processor_seconds(server) - after
        return (after - before - waiting) / PULSES


def pulses(program: str) -> None:
    few, many = pulse_seconds(program, *FEW), pulse_seconds(program, *MANY)
    for (accessories, locks), seconds in ((FEW, few), (MANY, many)):
        print(f"a pulse beside {accessories:,} accessories of 8 ports and {locks:,} locks: "
              f"{seconds * 1e6:,.1f} us of processor")
    print(f"their ratio: {many / few:.1f}", flush=True)


def waits_until_gone(asker: Client, session: int) -> list[float]:
    """Returns how long each question for a session waits for its reply, up to the one that finds the session gone."""
    waits, reply = [], ""
    while reply != GONE:
        begun = time.monotonic()
        reply = asker.asks(f"GET 0 SESSION {session}")
        waits.append(time.monotonic() - begun)
    return waits


def session_end(program: str, locks: int) -> None:
    with served(program) as (port, server):
        asker, before_it, holder = (Client(port, "COMMAND") for _ in range(3))
        pipelined(asker, [b"INIT 1 GL %d N 1 28 0\n" % address for address in range(1, 2 * locks + 1)])
        for client, first in ((before_it, 1), (holder, locks + 1)):
            pipelined(client, [b"SET 1 LOCK GL %d 0\n" % address for address in range(first, first + locks)])
        before, begun = processor_seconds(server), time.monotonic()
        holder.close()
        waits = waits_until_gone(asker, holder.session)
        elapsed, spent = time.monotonic() - begun, processor_seconds(server) - before
        assert asker.asks(f"GET 1 LOCK GL {2 * locks}") == GONE
        print(f"the end of a session with {locks:,} locks behind {locks:,} of another: "
              f"{spent * 1e3:,.1f} ms of processor, "
              f"{elapsed * 1e3:,.1f} ms in all; of {len(waits)} commands of a third session "
              f"one waits {max(waits) * 1e3:,.1f} ms at most")


def stalls(program: str, locks: int = 5_000) -> None:
    pulses(program)
    session_end(program, locks)


# ---- mirror

LIMIT = 16_777_216  # bytes of an input


def folded(program: str, told: str, given: Iterable[bytes]) -> None:
    """Prints what it takes to fold these lines; `told` says what they are."""
    with tempfile.NamedTemporaryFile() as file:
        file.writelines(given)
        file.flush()
        size = os.path.getsize(file.name)
        assert size <= LIMIT, size
        seconds, peak = measured([program, "mirror"], file.name)
    print(f"{told.format(size=size)}: {seconds:.2f} s, {size / seconds / 1e6:.1f} MB/s, peak {peak} KiB")


def mirror(program: str, rows: int = 0) -> None:
    if rows:
        folded(program, f"{rows} lines, {{size}} bytes, {rows} rows by falling key", states_by_falling_key(rows))
        return
    for addresses in (100, 10_000):
        folded(program, f"{LINES} lines, {{size}} bytes, {addresses} rows", states(addresses))


# ---- registry

ROWS = {b"GL": 2, b"GA": 3}


def of_devices(replay: Replay, count: int) -> None:
    """Prints what so many devices cost. It fails if a reply is none of acceptance, or a row is not listed."""
    driving, record = replayed(replay, list(driven(count)))
    accepted = len(re.findall(rb"^\d+\.\d{3} 200 OK\n", record, re.M))
    whole, record = replayed(replay, list(driven(count)) + list(listed(count)))
    _, peak = measured(replay[0], replay[1])
    told = record.partition(b"\nconnection 2 ")[2].partition(b"\nrows ")[0]
    lines = len(re.findall(rb"^\d+\.\d{3} 10[01] INFO 1 ", told, re.M))
    wanted = sum(ROWS[group] + 1 for group, _ in devices(count))
    if accepted != 3 * count or lines != wanted:
        sys.exit(f"{count} devices: {accepted} commands accepted of {3 * count}, {lines} rows listed of {wanted}")
    moments, _ = replayed(replay, list(driven(count)) + list(falling_ports(count)))
    ending, _ = replayed(replay, list(driven(count)) + [b"shut 1"])
    print(f"{count:,} devices: {3 * count:,} commands in {driving:.2f} s, {driving / count / 3 * 1e6:.1f} us each; "
          f"{lines:,} rows listed in {max(whole - driving, 0):.2f} s; {peak} KiB at most; "
          f"a port back in {max(moments - driving, 0) / MOMENTS * 1e3:.2f} ms; "
          f"{count:,} locks gone in {max(ending - driving, 0):.2f} s", flush=True)


def registry(program: str) -> None:
    with replays(program, FULL_BUS) as replay:
        for count in (1_000, 10_000, LOCOMOTIVES + ACCESSORIES):
            of_devices(replay, count)


def main() -> None:
    benches: dict[str, Callable[..., None]] = {"serve": serve, "latency": latency, "stalls": stalls, "mirror": mirror,
                                               "registry": registry, "bridges": bridges}
    if len(sys.argv) < 3 or sys.argv[1] not in benches:
        sys.exit(__doc__)
    benches[sys.argv[1]](str(Path(sys.argv[2]).resolve()), *map(int, sys.argv[3:]))


if __name__ == "__main__":
    main()
