"""The clients of examples/, as a person runs them."""
import os
import re
import signal
import socket
import subprocess
import sys
import threading
import time
from contextlib import contextmanager
from pathlib import Path

from serving import SECONDS, UNREAD, WELCOME, Client, clients_at_all_places, run_unread, served

TOP = Path(__file__).resolve().parent.parent
EXAMPLES = TOP / "examples"
STEPS = ["faster", "light", "turn", "stop"]
DRIVES = ["1 GL 12 1 4 28 0", "1 GL 12 1 4 28 1", "1 GL 12 0 0 28 1", "1 GL 12 2 0 0 1"]
OPENING = ["0 SESSION 1 INFO", "1 POWER OFF", *(f"1 FB {sensor} 0" for sensor in range(1, 9))]
DRIVEN = ["0 SESSION 2 COMMAND", "1 GL 12 N 1 28 1", "1 GL 12 1 0 0 0", *DRIVES, "0 SESSION 2"]
BUSY_SECONDS = 7
ENTER = "-- Enter stops it"


@contextmanager
def panel_at(port):
    """The panel of examples/ at that port."""
    panel = subprocess.Popen([sys.executable, EXAMPLES / "panel.py", "--port", str(port)], stdout=subprocess.PIPE,
                             text=True)
    try:
        yield panel
    finally:
        panel.kill()
        panel.wait()


def printed_until(panel, end):
    """Returns what the panel prints up to a line with that end: its own lines, and those behind INFO."""
    lines = []
    while not (lines and lines[-1].endswith(end)):
        line = panel.stdout.readline()
        if not line:
            raise EOFError
        lines.append(line.rstrip("\n").partition(" INFO ")[2] or line.rstrip("\n"))
    return lines


def drives_by(port, *words, typed=""):
    """Returns what the throttle of examples/ prints of the locomotive, by these words, or else these lines to read."""
    done = subprocess.run([sys.executable, EXAMPLES / "throttle.py", "--port", str(port), *words], input=typed,
                          capture_output=True, text=True, timeout=SECONDS)
    return [line.partition(" INFO ")[2] or line for line in (done.stdout + done.stderr).splitlines()]


@contextmanager
def throttle_at(port, address):
    """The throttle of examples/ with its keyboard, after it was told to go faster once; ended if it still runs."""
    words = ["--port", str(port), "--address", str(address)]
    throttle = subprocess.Popen([sys.executable, EXAMPLES / "throttle.py", *words], stdin=subprocess.PIPE,
                                stdout=subprocess.PIPE, stderr=subprocess.STDOUT, text=True, bufsize=1)
    try:
        throttle.stdin.write("faster\n")
        throttle.stdout.readline()
        yield throttle
    finally:
        throttle.kill()
        throttle.wait()


def panel_that_watches_a_throttle(program):
    with served(program) as (port, _), panel_at(port) as panel:
        opening = printed_until(panel, " rows")
        drives = drives_by(port, *STEPS)
        driven = printed_until(panel, " rows")
    got, want = (opening, drives, driven), ([*OPENING, "-- 10 rows"], DRIVES, [*DRIVEN, "-- 12 rows"])
    return None if got == want else f"got {got!r}, want {want!r}"


def panel_that_joins_again(program):
    with socket.create_server(("127.0.0.1", 0)) as server, panel_at(server.getsockname()[1]) as panel:
        server.settimeout(SECONDS)
        for sensor in (1, 2):
            peer, _ = server.accept()
            with peer, peer.makefile("rb") as lines:
                peer.sendall(WELCOME + b"0.000 202 OK CONNECTIONMODE\n0.000 200 OK GO 1\n")
                asked = [lines.readline(), lines.readline()]
                peer.sendall(b"0.000 100 INFO 1 FB %d 1\n" % sensor)
            got = asked, printed_until(panel, "server")
            want = [b"SET CONNECTIONMODE SRCP INFO\n", b"GO\n"], [f"1 FB {sensor} 1", "-- closed by the server"]
            if got != want:
                return f"got {got!r}, want {want!r}"
    return None


def panel_that_skips_what_it_does_not_know(program):
    """A code or a group of a later server, and a line without either."""
    with socket.create_server(("127.0.0.1", 0)) as server, panel_at(server.getsockname()[1]) as panel:
        server.settimeout(SECONDS)
        peer, _ = server.accept()
        with peer:
            peer.sendall(WELCOME + b"0.000 202 OK CONNECTIONMODE\n0.000 200 OK GO 1\n")
            peer.sendall(b"0.000 103 INFO 1 GL 3\n0.000 100 INFO 1 SM 3 0\n0.000 600 NEWS\n0.000 100 INFO 1 FB 2 1\n")
            got = printed_until(panel, " rows")
    return None if got == ["1 FB 2 1", "-- 1 rows"] else f"got {got!r}"


def panel_on_a_busy_layout(program):
    """It counts its rows though no half second passes without a line."""
    def changes_often(throttle, ended):
        end = time.monotonic() + BUSY_SECONDS
        while time.monotonic() < end and not ended.is_set():
            throttle.asks("SET 1 FB 1 1")
            time.sleep(0.1)

    ended = threading.Event()
    with served(program) as (port, _):
        sender = threading.Thread(target=changes_often, args=(Client(port, "COMMAND"), ended))
        sender.start()
        with panel_at(port) as panel:
            last = printed_until(panel, " rows")[-1]
            in_time = sender.is_alive()
        ended.set()
        sender.join()
    return None if (last, in_time) == ("-- 11 rows", True) else f"got {last!r}, while changes came: {in_time}"


def waits_of_the_panel(_: str) -> str | None:
    """It waits for a listing as long as the protocol's page says."""
    page = " ".join((TOP / "docs" / "protocol.md").read_text().split())
    is_told = "`panel.py` waits for half a second without one, and 3 seconds at most" in page
    waits = re.findall(r"^(MOMENT|LONGEST) = ([\d.]+)", (EXAMPLES / "panel.py").read_text(), re.M)
    return None if is_told and waits == [("MOMENT", "0.5"), ("LONGEST", "3.0")] else f"{waits}; told: {is_told}"


def throttle_of_a_train_that_runs(program):
    """It neither makes it anew nor changes its functions or its top speed; if it drove it, it stops it at its end."""
    with served(program) as (port, _):
        other = Client(port, "COMMAND")
        other.asks("INIT 1 GL 3 N 1 128 5", "SET 1 GL 3 0 63 126 1 0 1")
        got = [drives_by(port, "--address", "3", "light"), other.asks("GET 1 GL 3"),
               drives_by(port, "--address", "3", "faster"), other.asks("GET 1 GL 3")]
    want = [["1 GL 3 0 63 126 0 0 1 0 0"], "100 INFO 1 GL 3 0 63 126 0 0 1 0 0",
            ["1 GL 3 0 81 126 0 0 1 0 0", ENTER, "1 GL 3 0 0 126 0 0 1 0 0"], "100 INFO 1 GL 3 0 0 126 0 0 1 0 0"]
    return None if got == want else f"got {got!r}, want {want!r}"


def throttle_with_any_number_of_functions(program):
    with served(program) as (port, _):
        other = Client(port, "COMMAND")
        for address, functions in ((1, 0), (2, 29)):
            other.asks(f"INIT 1 GL {address} N 1 28 {functions}", f"SET 1 GL {address} 1 70 0")
            off, on = " 0" * functions, " 1" * (functions > 0) + " 0" * (functions - 1)
            light = f"1 GL {address} 1 71 0{on}" if functions else "it has no function"
            got = drives_by(port, "--address", str(address), "faster", "light", "turn")
            want = [f"1 GL {address} 1 71 0{off}", light, f"1 GL {address} 0 0 0{on}"]
            if got != want:
                return f"got {got!r}, want {want!r}"
    return None


def throttle_that_ends_leaves_it_standing(program):
    """By Ctrl-C, by the end of its input, by SIGTERM, and by the end of its terminal."""
    with served(program) as (port, _):
        other = Client(port, "COMMAND")
        for address, end in enumerate((signal.SIGINT, None, signal.SIGTERM, signal.SIGHUP), 1):
            with throttle_at(port, address) as throttle:
                driven = other.asks(f"GET 1 GL {address}")
                if end:
                    throttle.send_signal(end)
                told, _ = throttle.communicate(timeout=SECONDS)
            got = driven, told.partition(" INFO ")[2], other.asks(f"GET 1 GL {address}"), throttle.returncode
            stands = f"1 GL {address} 1 0 28 0"
            want = f"100 INFO 1 GL {address} 1 4 28 0", f"{stands}\n", f"100 INFO {stands}", 0
            if got != want:
                return f"{end}: got {got!r}, want {want!r}; {told}"
    return None


def throttle_that_drives_until_enter(program: str) -> str | None:
    """With words it drives until Enter, or until it is ended. What stands by them waits for nothing."""
    with served(program) as (port, _):
        other = Client(port, "COMMAND")
        words = [sys.executable, str(EXAMPLES / "throttle.py"), "--port", str(port), "faster"]
        got = []
        ends: list[str | signal.Signals] = ["\n", "", signal.SIGINT, signal.SIGTERM]
        for end in ends:
            with subprocess.Popen(words, stdin=subprocess.PIPE, stdout=subprocess.PIPE, text=True) as throttle:
                assert throttle.stdin and throttle.stdout
                told = [throttle.stdout.readline(), throttle.stdout.readline()]
                time.sleep(0.3)
                driven = other.asks("GET 1 GL 12"), throttle.poll()
                if isinstance(end, str):
                    throttle.stdin.write(end)
                    throttle.stdin.close()
                else:
                    throttle.send_signal(end)
                told += throttle.stdout.read().splitlines()
            got.append((driven, told[1].strip(), told[2].endswith(" 1 0 28 0"), throttle.returncode))
        stands = drives_by(port, "stop")
    want = [(("100 INFO 1 GL 12 1 4 28 0", None), ENTER, True, 0)] * 4, ["1 GL 12 2 0 0 0"]
    return None if (got, stands) == want else f"got {got!r}, {stands!r}"


def throttle_says_what_is_wrong(program: str) -> str | None:
    """A word that is none ends it with status 2 before it does anything; what the server refuses is said in words."""
    with served(program) as (port, _):
        def ended(*words: str) -> tuple[int, str]:
            done = subprocess.run([sys.executable, EXAMPLES / "throttle.py", "--port", str(port), *words], input="",
                                  capture_output=True, text=True, timeout=SECONDS)
            return done.returncode, (done.stdout + done.stderr).splitlines()[-1]

        other = Client(port, "COMMAND")
        other.asks("INIT 1 GL 3 N 1 28 1", "SET 1 LOCK GL 3 0")
        got = ended("faster", "fastr"), other.asks("GET 1 GL 12"), ended("--address", "10240", "faster"), \
            ended("--address", "3", "faster")
    want = ((2, "throttle.py: error: fastr is none of the words faster, slower, turn, light, stop, stop-all"),
            "416 ERROR no data",
            (1, "GET 1 GL 10240: a word is wrong, or a number out of its range, or there is no such bus (412)"),
            (1, "SET 1 GL 3 1 4 28: another session has it locked (414)"))
    return None if got == want else f"got {got!r}"


def panel_of_a_full_server_says_so(program: str) -> str | None:
    """Once, and not each second; it joins as soon as there is a place."""
    with served(program) as (port, _):
        clients = clients_at_all_places(port)
        with panel_at(port) as panel:
            first = panel.stdout.readline()
            time.sleep(2.5)
            for client in clients:
                client.close()
            second = panel.stdout.readline().partition(" ")[2]
    want = "-- the server is full: 64 programs are connected\n"
    return None if first == want and second.startswith("101 INFO 0 SESSION ") else f"got {first!r}, {second!r}"


def throttle_whose_train_another_took(program):
    """It leaves it as the other drives it; and its light does not undo a stop of the other."""
    with served(program) as (port, _):
        other = Client(port, "COMMAND")
        with throttle_at(port, 3) as throttle:
            other.asks("SET 1 GL 3 2 0 0")
            throttle.stdin.write("light\n")
            lit = throttle.stdout.readline().partition(" INFO ")[2]
            other.asks("SET 1 GL 3 0 20 28")
            throttle.communicate(timeout=SECONDS)
        got = lit, other.asks("GET 1 GL 3")
    want = "1 GL 3 2 0 0 1\n", "100 INFO 1 GL 3 0 20 28 1"
    return None if got == want else f"got {got!r}, want {want!r}"


def clients_that_nobody_reads_end_without_a_word(program):
    """As `head` wants it. A throttle stops its train first: that of its own address at its step, the other at its
    end."""
    with served(program) as (port, _):
        for name, *words in (["lint.py", EXAMPLES / "layout.toml"], ["status.py"], ["doctor.py", "3"], ["panel.py"],
                             ["throttle.py", "faster", "light"]):
            words += ["--port", str(port)] if name != "lint.py" else []
            if (got := run_unread(EXAMPLES / name, *words)) != (UNREAD, ""):
                return f"{name}: got {got}"
        with throttle_at(port, 3) as throttle:
            throttle.stdout.close()
            throttle.stdin.close()
            status = throttle.wait(SECONDS)
        other = Client(port, "COMMAND")
        got = status, other.asks("GET 1 GL 12"), other.asks("GET 1 GL 3")
    want = UNREAD, "100 INFO 1 GL 12 1 0 28 0", "100 INFO 1 GL 3 1 0 28 0"
    return None if got == want else f"got {got!r}, want {want!r}"


def throttle_by_itself_meets_no_train_of_the_readme(_):
    """Its own address is none that the page drives, so that who tries it beside the page stops nothing."""
    driven = set(re.findall(r"GL (\d+)|--address (\d+)", (TOP / "README.md").read_text()))
    own = re.findall(r'"--address", type=int, default=(\d+)', (EXAMPLES / "throttle.py").read_text())
    met = [address for pair in driven for address in pair if address in own]
    return None if own and driven and not met else f"it drives {own}, the page {driven}"


def clients_say_how_they_are_started(_):
    """The first line of each tells all words that it takes, as its --help does."""
    for client in sorted(file for file in EXAMPLES.glob("*.py") if os.access(file, os.X_OK)):
        help = [sys.executable, client, "--help"]
        told = subprocess.run(help, capture_output=True, text=True, timeout=SECONDS).stdout
        first = client.read_text().splitlines()[1]
        if missing := [word for word in re.findall(r"--\w+(?= [A-Z])", told) if word not in first]:
            return f"{client.name} does not tell {missing} in its first line"
    return None


CLIENT_CASES = (panel_that_watches_a_throttle, panel_that_joins_again, panel_that_skips_what_it_does_not_know,
                panel_on_a_busy_layout, waits_of_the_panel, throttle_of_a_train_that_runs,
                throttle_with_any_number_of_functions,
                throttle_that_ends_leaves_it_standing, throttle_that_drives_until_enter, throttle_says_what_is_wrong,
                panel_of_a_full_server_says_so, throttle_whose_train_another_took,
                clients_that_nobody_reads_end_without_a_word, throttle_by_itself_meets_no_train_of_the_readme,
                clients_say_how_they_are_started)
