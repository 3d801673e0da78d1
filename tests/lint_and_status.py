"""The two programs of examples/ that look after a server: lint.py over configurations, and status.py."""
import os
import re
import signal
import socket
import subprocess
import sys
import tempfile
from contextlib import contextmanager
from functools import partial
from pathlib import Path

from serving import SECONDS, Client, clients_at_all_places, free_port, served
from tables import CHECKED, REFUSED_DOCUMENTS

EXAMPLES = Path(__file__).resolve().parent.parent / "examples"
FAULTY = b"""prot = 5000
port = %d
[[bus]]
number = 1
groups = ["GL", "SM", 3, "POWER"]
gl_max = 10240
[[bus]]
number = 1
groups = ["GA"]
 ga_ports = 9
fb_ports = 3
"""
TOLD = """line 1: prot is not read
line 5, bus 1: unknown group: 'SM'
line 5, bus 1: groups out of range: 3
line 6, bus 1: gl_max out of range: not 1 to 10239
line 8, bus 1: bus 1 twice
line 7, bus 1: ga_max missing
line 10, bus 1: ga_ports out of range: not 2 to 8
line 11, bus 1: fb_ports is not read
srcp_server: config: unknown group
"""


BOM = b"\xef\xbb\xbf"
ALIKE = (BOM + b"port = 4304\nbus = []\n", BOM + BOM + b"bus = []\n", BOM, b"bus = []\n" + BOM, b"[bus]\nnumber = 1\n")


def linted(document):
    """The lines that lint.py prints of a document, and its status."""
    with tempfile.NamedTemporaryFile() as file:
        file.write(document)
        file.flush()
        done = subprocess.run([sys.executable, EXAMPLES / "lint.py", file.name], capture_output=True, text=True,
                              timeout=SECONDS)
    return done.stdout.splitlines() + done.stderr.splitlines(), done.returncode


def lint_ends_with_what_check_says(program):
    """Over all documents of the tables of check, and some more."""
    for document in [*CHECKED, *REFUSED_DOCUMENTS, *ALIKE]:
        with tempfile.NamedTemporaryFile() as file:
            file.write(document)
            file.flush()
            words = [program, "check", "--config", file.name]
            check = subprocess.run(words, capture_output=True, text=True, timeout=SECONDS)
        lines, status = linted(document)
        want = check.stderr.strip() or "check accepts it", check.returncode
        if (lines[-1], status) != want:
            return f"{document}: got {lines[-1]!r} and {status}, want {want}"
    return None


def lint_tells_all_faults(_):
    lines, status = linted(FAULTY % free_port())
    return None if (lines, status) == (TOLD.splitlines(), 2) else f"got {status}, {lines}"


def lint_hints_at_what_was_meant(_):
    """A bus with single brackets, groups that are not in capitals or have a letter that is wrong, and keys: a key that
    is there already was not meant."""
    faulty = b"port = %d\n\n [bus] # main\nnumber = 1\n" % free_port()
    bus = linted(faulty)
    groups = linted(b'port = %d\nbus = [{number = 1, groups = ["power", "Ga", "XY"], ga_max = 4}]\n' % free_port())
    want = ["line 3: bus out of range: not an array: a bus begins with [[bus]]",
            "srcp_server: config: bus out of range"]
    if bus != (want, 2):
        return f"got {bus}"
    hints = [line.partition("unknown group: ")[2] for line in groups[0] if "unknown group: " in line]
    if hints != ["'power': did you mean POWER?", "'Ga': did you mean GA?", "'XY'"]:
        return f"got {groups}"
    keys, _ = linted(b'prot = 4304\nbus = [{number = 1, groups = ["GL"], gl_max = 9, ga_max = 4},'
                     b' {number = 2, groups = ["GL"], ga_max = 4}]\n')
    hints = [line.partition(": ")[2] for line in keys if "not read" in line]
    want = ["prot is not read: did you mean port?", "ga_max is not read", "ga_max is not read: did you mean gl_max?"]
    return None if hints == want else f"got {keys}"


def lint_tells_where_a_document_is_no_toml(_):
    places = {b"port = 4303\n[[bus]\n": "line 2, column 6", b"bus = []\n# \xff\n": "no UTF-8 (at line 2, column 3)"}
    for document, place in places.items():
        lines, status = linted(document)
        if place not in lines[0] or lines[1:] != ["srcp_server: config: not TOML"] or status != 2:
            return f"{document}: got {status}, {lines}"
    return None


def lint_tells_a_port_that_is_taken(program):
    """By another program, or by one that says nothing, and not by a server, which would be started anew."""
    with socket.create_server(("127.0.0.1", 0)) as taken, served(program) as (ours, _):
        port = taken.getsockname()[1]
        busy = linted(b"bus = []\nport = %d\n" % port)
        own = linted(b"bus = []\nport = %d\n" % ours)
    free = linted(b"bus = []\nport = %d\n" % port)
    is_told = busy[0][0].startswith("the port cannot be had") and busy[0][-1] == "check accepts it" and busy[1] == 0
    return None if is_told and own == free == (["check accepts it"], 0) else f"got {busy}, {own}, then {free}"


def status_at(port, *words):
    words = ["--port", str(port), *words]
    done = subprocess.run([sys.executable, EXAMPLES / "status.py", *words], capture_output=True, text=True,
                          timeout=SECONDS)
    return done.returncode, done.stdout.splitlines(), done.stderr


def status_tells_who_is_there_and_what_is_held(program):
    with served(program) as (port, _):
        before = status_at(port)
        throttle, panel = Client(port, "COMMAND"), Client(port, "INFO")
        throttle.asks("SET 1 POWER ON main line", "INIT 1 GL 3 N 1 28 5", "INIT 1 GL 7 N 1 28 5", "INIT 1 GA 5 N",
                      "SET 1 LOCK GL 3 0")
        after = status_at(port)
        panel.close()
    want = ((0, ["sessions: none", "bus 1: power OFF, 0 locomotives, 0 turnouts, 8 sensors", "locks: none"], ""),
            (0, ["sessions: 2 COMMAND, 3 INFO", "bus 1: power ON main line, 2 locomotives, 1 turnouts, 8 sensors",
                 "locks: bus 1 GL 3 by session 2"], ""))
    return None if (before, after) == want else f"got {(before, after)!r}"


@contextmanager
def silent_server():
    """The port of a server that lets in and says nothing."""
    with socket.create_server(("127.0.0.1", 0)) as listener:
        yield listener.getsockname()[1]


def status_of_no_server(program):
    """If nobody listens, or nobody answers, the status is 1. A server whose slots are all in use is full, and is
    there."""
    with silent_server() as port, served(program) as (full, _):
        clients = clients_at_all_places(full)
        told = [status_at(free_port()), status_at(port, "--seconds", "0.2")]
        full_told = status_at(full)
        for client in clients:
            client.close()
    wrong = [one for one in told if one[0] != 1 or one[1] or not one[2].startswith("no server answers at ")]
    if full_told != (0, ["the server is full: 64 programs are connected"], ""):
        return f"a full server: got {full_told}"
    return f"got {wrong}" if wrong else None


def signals_that_end_the_server(program):
    """Ctrl-C, SIGTERM, and the end of its terminal (SIGHUP), which a server that nohup starts ignores. Until then the
    server prints nothing, though it serves."""
    for number in (signal.SIGINT, signal.SIGTERM, signal.SIGHUP):
        # the gate itself may run under nohup, or in the background of a shell, where SIGINT is ignored
        with served(program, prepare=partial(signal.signal, number, signal.SIG_DFL)) as (port, server):
            Client(port, "COMMAND").asks("GET 1 GL 0", "SET 1 POWER ON")
            server.send_signal(number)
            printed = server.communicate(timeout=SECONDS)
            if server.returncode != -number or any(printed):
                return f"{number!r} ends it with {server.returncode}, and it printed {printed}"
    with served(program, prepare=lambda: signal.signal(signal.SIGHUP, signal.SIG_IGN)) as (port, server):
        server.send_signal(signal.SIGHUP)
        reply = Client(port, "COMMAND").asks("GET 1 POWER")
    return None if reply == "100 INFO 1 POWER OFF" else f"with SIGHUP ignored it answers {reply}"


def faults_met(program):
    """Each fault text that the program can be brought to print, and the status with which it then ends."""
    def ended(*words, **streams):
        done = subprocess.run([program, *words], stderr=subprocess.PIPE, timeout=SECONDS, **streams)
        name, _, text = done.stderr.decode().partition(": ")
        return text.strip() if name == "srcp_server" else name, done.returncode

    with tempfile.TemporaryDirectory() as folder, open("/dev/full", "wb") as full, served(program) as (port, _):
        empty, taken = Path(folder) / "empty.toml", Path(folder) / "taken.toml"
        empty.write_text("")
        taken.write_text(f"port = {port}\nbus = []\n")
        unreadable = os.open("/", os.O_RDONLY)
        met = [ended("serve", "--config", taken), ended("check", "--config", "/no/file"),
               ended("check", "--config", empty), ended("interlock", "--plan", empty, input=b""),
               ended("replay", input=b"close\n"),
               ended("mirror", input=b"none\n"), ended("mirror", input=b"\n" * 16_777_217),
               ended("replay", stdin=unreadable), ended("replay", input=b"open\n", stdout=full)]
        os.close(unreadable)
    return dict(met)


def statuses_of_the_readme(program):
    """Each row of the table of faults has the status with which the program ends. (Without memory others try it.)"""
    table = (EXAMPLES.parent / "README.md").read_text().partition("| Text | Status |")[2].partition("\n\n")[0]
    rows = re.findall(r"^\| (`.*?`) \| (\d) \|", table, re.M)
    listed = [(text, int(status)) for texts, status in rows for text in re.findall(r"`([^`]*)`", texts)]
    met = faults_met(program)
    for text, status in listed:
        form = text.replace("<n>", r"\d+").replace("..", ".*")
        statuses = {met[said] for said in met if re.fullmatch(form, said)}
        if statuses != {status} and text != "out of memory":
            return f"{text}: {status} in README.md, {statuses} here"
    return None if len(listed) == len(met) + 1 else f"{listed}, and met {met}"


LOOKING_CASES = (lint_ends_with_what_check_says, lint_tells_all_faults, lint_hints_at_what_was_meant,
                 lint_tells_where_a_document_is_no_toml, lint_tells_a_port_that_is_taken,
                 status_tells_who_is_there_and_what_is_held, status_of_no_server, signals_that_end_the_server,
                 statuses_of_the_readme)
