#!/usr/bin/env python3
"""run_cases.py PROGRAM [NAME ..]: runs the built program over every case of cases/, over the failures of its streams,
over tables of inputs, over inputs that are cut or large, serving, and over the commands of the pages; or over the cases
that are named. Cases of bridges/ run beside each other. With SRCP_TIMES=yes it prints how long each took as it ends.

A case is a folder: `args` (one word a line), `stdin`, or in `stdin.from` the path of a file to read in its place,
`config.toml` or `plan.toml` where it needs one, `status`, and what is expected: `stdout` and `stderr` to the byte, or
in `expect.json` what single connections are sent, the word that each ends with, and the refused events. In what is
expected, the words of TEXTS stand for texts of the program. The last line counts the cases; the status is 0 only where
all of them pass.
"""
import json
import os
import re
import resource
import signal
import subprocess
import sys
import tempfile
import threading
import time
import traceback
from concurrent.futures import ThreadPoolExecutor
from contextlib import contextmanager
from functools import partial
from pathlib import Path

if sys.version_info < (3, 11):
    sys.exit("this takes Python 3.11 or later")

from answers import ANSWER_CASES
from arm64 import ARM64_CASES
from bridge_tests import BRIDGE_CASES
from client_modules import CLIENT_MODULE_CASES
from clients import CLIENT_CASES
from debian_package import PACKAGE_CASES
from doctor import DOCTOR_CASES
from door import DOOR_CASES
from drawings import DRAWING_CASES
from faults import FAULT_CASES
from front_page import FRONT_PAGE_CASES
from house import HOUSE_CASES
from inputs import INPUT_CASES, parse_record
from installed import INSTALLED_CASES
from lingering import LINGERING_CASES
from lint_and_status import LOOKING_CASES
from names import NAME_CASES
from pacing import PACING_CASES
from pages import PAGE_CASES
from plan_page import PLAN_PAGE_CASES
from python_limits import PYTHON_LIMIT_CASES
from pythons import PYTHON_CASES
from rates import RATE_CASES
from releases import RELEASE_CASES
from routes import ROUTE_CASES
from run_script import RUN_SCRIPT_CASES
from safety import SAFETY_CASES
from serving import SERVING_CASES, TriedNothing, expected_text
from station_words import STATION_WORD_CASES
from tables import TABLE_CASES
from turns import TURN_CASES
from vanishing import VANISHING_CASES
from wrong_bodies import WRONG_BODY_CASES
from wrong_programs import WRONG_PROGRAM_CASES

TESTS = Path(__file__).resolve().parent
CASES = TESTS / "cases"
INPUT_LIMIT = 16_777_216
CONFIG_LIMIT = 1_048_576
SECONDS = 300
LIMIT = 900  # seconds after which a case hangs
LIMITS = {"bridges-by-the-python-of-debian-13": 3600}


def difference(name, got, want):
    """Returns the first line at which two texts differ, or None."""
    if got == want:
        return None
    at = next((i for i, (a, b) in enumerate(zip(got, want)) if a != b), min(len(got), len(want)))
    return f"{name} differs at {at}: got {got[max(0, at - 40):at + 60]!r}, want {want[max(0, at - 40):at + 60]!r}"


def unexpected_record(out, want):
    """Returns what of a record differs from the connections and refused events that are expected, or None."""
    connections, refused = parse_record(out)
    for number, part in want["connections"].items():
        if number not in connections:
            return f"connection {number} is missing"
        for field, value in part.items():
            if fault := difference(f"connection {number} {field}", connections[number][field], value):
                return fault
    return difference("refused", refused, want["refused"])


def run_case(folder, program):
    """Returns why the case fails, or None."""
    def content(name):
        path = folder / name
        return path.read_bytes() if path.exists() else None

    def expected(name):
        text = content(name)
        return expected_text(text) if text else text

    elsewhere = content("stdin.from")
    stdin = content(elsewhere.decode().strip() if elsewhere else "stdin")
    words = [program, *content("args").decode().splitlines()]
    done = subprocess.run(words, input=stdin, capture_output=True, cwd=folder, timeout=SECONDS)
    if done.returncode != int(content("status")):
        return f"status {done.returncode}, want {content('status').decode().strip()}; stderr {done.stderr[:200]!r}"
    for name, got in (("stdout", done.stdout), ("stderr", done.stderr)):
        want = expected(name)
        if want is not None and (fault := difference(name, got, want)):
            return fault
    record = expected("expect.json")
    return unexpected_record(done.stdout, json.loads(record)) if record else None


def ended(done, status, text, out=b""):
    """Returns why a run did not end with this status, this fault text and this output, or None."""
    want = (status, b"srcp_server: " + text + b"\n" if text else b"", out)
    got = (done.returncode, done.stderr, done.stdout if done.stdout is not None else out)
    return None if got == want else f"got {got!r}, want {want!r}"[:400]


def run_mirror(program, **streams):
    return subprocess.run([program, "mirror"], stderr=subprocess.PIPE, timeout=SECONDS, **streams)


def input_past_its_limit(program):
    done = run_mirror(program, input=b"\n" * (INPUT_LIMIT + 1), stdout=subprocess.PIPE)
    return ended(done, 2, b"input too large")


def input_at_its_limit(program):
    line = b"0.000 100 INFO 1 POWER OFF\n"
    lines = line * (INPUT_LIMIT // len(line))
    done = run_mirror(program, input=lines + b"0" * (INPUT_LIMIT - len(lines)), stdout=subprocess.PIPE)
    return ended(done, 0, b"", line)


def input_that_cannot_be_read(program):
    folder = os.open("/", os.O_RDONLY)
    try:
        done = run_mirror(program, stdin=folder, stdout=subprocess.PIPE)
    finally:
        os.close(folder)
    return ended(done, 1, b"cannot read the input")


def output_that_cannot_be_written(program):
    with open("/dev/full", "wb") as full:
        done = run_mirror(program, input=b"0.000 100 INFO 1 POWER OFF\n", stdout=full)
    return ended(done, 1, b"cannot write")


# Words that ask for nothing, each with what clap says first. The usage follows, and the status is 2.
NO_WORDS = {
    "mirror mirror": "unexpected argument 'mirror' found",
    "mirror --config f": "unexpected argument '--config' found",
    "interlock --plan f --config f": "unexpected argument '--config' found",
    "interlock": "the following required arguments were not provided:",
    "serve --turns 3": "the following required arguments were not provided:",
    "serve --config f --turns x": "invalid value 'x' for '--turns <N>': invalid digit found in string",
    "serve --config f --turns 18446744073709551616":
        "invalid value '18446744073709551616' for '--turns <N>': number too large to fit in target type",
    "reply": "unrecognized subcommand 'reply'",
}


def words_that_ask_for_nothing(program):
    for words, fault in NO_WORDS.items():
        done = subprocess.run([program, *words.split()], capture_output=True, text=True, timeout=SECONDS)
        got = done.returncode, done.stdout, done.stderr.partition("\n")[0]
        if got != (2, "", f"error: {fault}"):
            return f"{words}: got {got!r}"
    return None


def check_of_no_file_or_of_two(program):
    """Also if both are right. The usage is that of check."""
    text = (b"error: check needs either --config or --plan\n\nUsage: srcp_server check [OPTIONS]\n\n"
            b"For more information, try '--help'.\n")
    with tempfile.NamedTemporaryFile() as config, plan_of_one_route() as (_, *plan):
        config.write(b"bus = []\n")
        config.flush()
        for words in ([], ["--config", config.name, *plan]):
            done = subprocess.run([program, "check", *words], capture_output=True, timeout=SECONDS)
            got = (done.returncode, done.stdout, done.stderr)
            if got != (2, b"", text):
                return f"{words}: got {got!r}"[:400]
    return None


def word_that_is_no_text(program):
    done = subprocess.run([program, "check", "--config", b"\xff"], capture_output=True, timeout=SECONDS)
    text = b"error: invalid UTF-8 was detected in one or more arguments\n\nFor more information, try '--help'.\n"
    got = (done.returncode, done.stdout, done.stderr)
    return None if got == (2, b"", text) else f"got {got!r}"[:400]


def run_check(program, config):
    with tempfile.NamedTemporaryFile() as file:
        file.write(config)
        file.flush()
        return subprocess.run([program, "check", "--config", file.name], capture_output=True, timeout=SECONDS)


def configuration_at_its_limit(program):
    return ended(run_check(program, b"bus = [] #".ljust(CONFIG_LIMIT, b"#")), 0, b"", b"port 4303\n")


def configuration_past_its_limit(program):
    return ended(run_check(program, b"bus = [] #".ljust(CONFIG_LIMIT + 1, b"#")), 2, b"input too large")


PLAN_OF_ONE_ROUTE = b"bus = 9\n[[route]]\nnumber = 1\nturnouts = [[1, 12, 1]]\n"
BEGUN = b"0.000 200 OK GO 1\n0.000 200 OK\n"
ASKED = b"0.000 100 INFO 9 GA 1 1 1\n"


@contextmanager
def plan_of_one_route():
    """The words that set its route: as it begins it is told not to be set, and its turnout is locked once it is asked
    for."""
    with tempfile.NamedTemporaryFile() as file:
        file.write(PLAN_OF_ONE_ROUTE)
        file.flush()
        yield ["interlock", "--plan", file.name]


def routes_past_the_limit_of_an_input(program):
    """A signal box runs for weeks: its input has no limit, also of lines that tell of nothing."""
    lines = b"0.000 100 INFO 1 FB 1 0\n" * 800_000
    with plan_of_one_route() as words:
        done = subprocess.run([program, *words], input=BEGUN + lines + ASKED, capture_output=True, timeout=SECONDS)
    is_past = len(lines) > INPUT_LIMIT
    return ended(done, 0, b"", b"SET 9 FB 1 0\nSET 1 LOCK GA 12 0\n") if is_past else "the input is short"


def routes_whose_input_cannot_be_read(program):
    folder = os.open("/", os.O_RDONLY)
    try:
        with plan_of_one_route() as words:
            done = subprocess.run([program, *words], stdin=folder, capture_output=True, timeout=SECONDS)
    finally:
        os.close(folder)
    return ended(done, 1, b"cannot read the input")


def routes_whose_orders_cannot_be_written(program):
    with plan_of_one_route() as words, open("/dev/full", "wb") as full:
        done = subprocess.run([program, *words], input=BEGUN, stdout=full, stderr=subprocess.PIPE, timeout=SECONDS)
    return ended(done, 1, b"cannot write")


def script_past_its_limit(program):
    done = subprocess.run([program], input=b"\n" * (INPUT_LIMIT + 1), capture_output=True, timeout=SECONDS)
    return ended(done, 2, b"input too large")


def script_at_its_limit(program):
    done = subprocess.run([program], input=b"\n" * INPUT_LIMIT, capture_output=True, timeout=SECONDS)
    return ended(done, 0, b"", b"rows 1\n0.000 100 INFO 1 POWER OFF\n")


def script_that_cannot_be_read(program):
    folder = os.open("/", os.O_RDONLY)
    try:
        done = subprocess.run([program], stdin=folder, capture_output=True, timeout=SECONDS)
    finally:
        os.close(folder)
    return ended(done, 1, b"cannot read the input")


def run_that_cannot_be_written(program):
    with open("/dev/full", "wb") as full:
        done = subprocess.run([program], input=b"open\n", stdout=full, stderr=subprocess.PIPE, timeout=SECONDS)
    return ended(done, 1, b"cannot write")


def run_in_little_memory(program):
    """With however little memory, a run is told whole, with the commands that were refused, or not at all."""
    lines = b"".join(b"bytes 1 INIT 1 GL %d N 1 28 0\\n\nroom 1 100\n" % (address + 1) for address in range(99))
    script = b"open\nroom 1 100\nbytes 1 GO\\n\nroom 1 100\n" + lines * 100
    whole = subprocess.run([program], input=script, capture_output=True, timeout=SECONDS).stdout
    seen = set()
    for mebibytes in range(4, 65, 2):
        limits = (mebibytes << 20, mebibytes << 20)
        done = subprocess.run([program], input=script, capture_output=True, timeout=SECONDS,
                              preexec_fn=lambda: resource.setrlimit(resource.RLIMIT_AS, limits))
        seen.add(done.returncode)
        refuses = done.returncode == 0 and b" 500 ERROR out of resources\n" in done.stdout
        if fault := not refuses and ended(done, 1, b"out of memory") and ended(done, 0, b"", whole):
            return f"{mebibytes} MiB: {fault}"
    return None if seen == {0, 1} else f"statuses {seen}"


def full_bus_that_stalls_nobody(program):
    """With 10,000 locomotives, a thousand ports that fall back and the end of a session with 10,000 locks take less
    than 15 seconds, also on a busy machine; they would take a minute if each of them went over all rows."""
    def said(*commands):
        return b"bytes 1 " + b"".join(command + b"\\n" for command in commands) + b"\nroom 1 1000\n"

    addresses, moments = range(1, 10_240), range(20, 20_020, 20)
    script = (b"open\nroom 1 100\n" + said(b"GO", b"INIT 1 GA 1 N")
              + b"".join(said(b"INIT 1 GL %d N 1 28 0" % address) for address in addresses)
              + b"".join(said(b"SET 1 GA 1 0 1 10") + b"at %d\n" % moment for moment in moments)
              + b"".join(said(b"SET 1 LOCK GL %d 0" % address) for address in addresses) + b"shut 1\n")
    with tempfile.NamedTemporaryFile() as config:
        config.write(b'[[bus]]\nnumber = 1\ngroups = ["GL", "GA"]\ngl_max = 10239\nga_max = 1\n')
        config.flush()
        started = time.monotonic()
        done = subprocess.run([program, "replay", "--config", config.name], input=script, capture_output=True,
                              timeout=SECONDS)
        seconds = time.monotonic() - started
    accepted = len(re.findall(rb"^\d+\.\d{3} 200 OK\n", done.stdout, re.M))
    if done.returncode != 0 or accepted != 1 + 2 * len(addresses) + len(moments):
        return f"status {done.returncode}, {accepted} commands accepted"
    return None if seconds < 15 else f"it took {seconds:.1f} s"


CASES_THAT_HANG = """import run_cases, sys, time
run_cases.LIMIT = 5
run_cases.cases_by_name = lambda: {name: case for name, case in (
    ("hangs", lambda _: time.sleep(600)), ("bridge-hangs", lambda _: time.sleep(600)), ("passes", lambda _: None))}
sys.exit(run_cases.main())
"""


def case_that_hangs(program):
    """It fails, the others run, and the run ends. Each is told as it ends, if that is asked for."""
    told = []
    for asked in ({}, {"SRCP_TIMES": "yes"}):
        variables = {name: value for name, value in os.environ.items() if name != "SRCP_TIMES"} | asked
        done = subprocess.run([sys.executable, "-c", CASES_THAT_HANG, program], cwd=TESTS, capture_output=True,
                              text=True, timeout=SECONDS, env=variables)
        told.append([re.sub(r"[\d.]+ s\b.*", "", line) for line in done.stdout.splitlines()])
        if done.returncode != 1:
            return f"status {done.returncode}: {done.stderr[-300:]}"
    fails = ["FAIL hangs: it has not ended after ", "FAIL bridge-hangs: it has not ended after ",
             "cases: 1 passed, 2 failed, 0 skipped"]
    times = [f"{name} took " for name in ("hangs", "passes", "bridge-hangs")]
    return None if told == [fails, times + fails] else f"told {told}"


STREAM_CASES = (input_past_its_limit, input_at_its_limit, input_that_cannot_be_read, output_that_cannot_be_written,
                words_that_ask_for_nothing, check_of_no_file_or_of_two, word_that_is_no_text,
                configuration_at_its_limit, configuration_past_its_limit, routes_past_the_limit_of_an_input,
                routes_whose_input_cannot_be_read, routes_whose_orders_cannot_be_written, script_past_its_limit,
                script_at_its_limit, script_that_cannot_be_read, run_that_cannot_be_written, run_in_little_memory,
                full_bus_that_stalls_nobody, case_that_hangs)
ALL_CASES = (STREAM_CASES + TABLE_CASES + ANSWER_CASES + DRAWING_CASES + INPUT_CASES + SERVING_CASES + DOOR_CASES
             + FAULT_CASES + CLIENT_CASES + FRONT_PAGE_CASES + PAGE_CASES + NAME_CASES + RUN_SCRIPT_CASES + SAFETY_CASES
             + LOOKING_CASES + DOCTOR_CASES + HOUSE_CASES + PACKAGE_CASES + INSTALLED_CASES + RELEASE_CASES
             + ARM64_CASES + LINGERING_CASES + VANISHING_CASES + PACING_CASES + RATE_CASES + TURN_CASES + ROUTE_CASES
             + WRONG_BODY_CASES + WRONG_PROGRAM_CASES + PYTHON_CASES + CLIENT_MODULE_CASES + PLAN_PAGE_CASES
             + PYTHON_LIMIT_CASES + STATION_WORD_CASES + BRIDGE_CASES)
BESIDE = 10  # cases of bridges/ at once


def cases_by_name():
    """Each case by its name, as a function of the program that returns why the case fails, or None."""
    cases = {folder.name: partial(run_case, folder) for folder in sorted(CASES.iterdir()) if folder.is_dir()}
    return cases | {case.__name__.replace("_", "-"): case for case in ALL_CASES}


def fault_of(case, program):
    """Returns why a case fails, or None. One that stops, as when nothing comes for too long, fails at its current
    lines."""
    try:
        return case(program)
    except TriedNothing as missing:
        return missing
    except Exception as stop:
        notes = "".join(f"; {note}" for note in getattr(stop, "__notes__", []))
        return f"{stop!r:.600} at {lines_of(traceback.extract_tb(stop.__traceback__)[1:])}{notes}"


def lines_of(frames):
    """The lines of tests/ at which a case is, and the text of the last."""
    stood = [frame for frame in frames if frame.filename.startswith(str(TESTS))]
    lines = " > ".join(f"{Path(frame.filename).name}:{frame.lineno}" for frame in stood)
    return f"{lines}: {stood[-1].line}" if stood else "no line"


class Hangs(str):
    """Why a case failed that has not ended: a busy machine is not the cause, so it is not run once more."""


def tried(name, case, program):
    """Returns why a case fails, or None. One that hangs fails too, and its thread is left alone."""
    found, began, limit = [], time.monotonic(), LIMITS.get(name, LIMIT)
    trying = threading.Thread(target=lambda: found.append(fault_of(case, program)), daemon=True)
    trying.start()
    trying.join(limit)
    if not found:
        frames = sys._current_frames().get(trying.ident)
        found.append(Hangs(f"it has not ended after {limit} s, at {lines_of(traceback.extract_stack(frames))}"))
    if os.environ.get("SRCP_TIMES"):
        print(f"{name} took {time.monotonic() - began:.1f} s", flush=True)
    return found[0]


def with_second_tries(results, cases, program):
    """The results, if each case that failed is run once more, by itself. A case cannot tell a busy machine from a
    program that is lost. So what fails beside others and passes alone is printed, and fails nothing."""
    for name, fault in results:
        if fault and not isinstance(fault, (TriedNothing, Hangs)):
            print(f"AGAIN {name}: {fault}", flush=True)
            fault = tried(name, cases[name], program)
        yield name, fault


def main():
    program, names = sys.argv[1], sys.argv[2:]
    if not os.access(program, os.X_OK):
        sys.exit(f"{program} is not built: ./run --build builds it")
    if signal.getsignal(signal.SIGHUP) is signal.SIG_IGN:  # by nohup: what is started here would ignore it too
        signal.signal(signal.SIGHUP, lambda *_: None)
    os.environ.pop("PYTHONUNBUFFERED", None)  # with it nothing would be left to write once nobody reads
    cases = cases_by_name()
    if unknown := [name for name in names if name not in cases]:
        sys.exit(f"no such case: {' '.join(unknown)}")
    program = str(Path(program).resolve())
    beside = [name for name in names or cases if name.startswith("bridge-")]
    results = [(name, tried(name, cases[name], program)) for name in names or cases if name not in beside]
    with ThreadPoolExecutor(BESIDE) as pool:
        results += zip(beside, pool.map(lambda name: tried(name, cases[name], program), beside))
    results = list(with_second_tries(results, cases, program))
    skipped = [(name, fault) for name, fault in results if isinstance(fault, TriedNothing)]
    failed = [(name, fault) for name, fault in results if fault and (name, fault) not in skipped]
    for name, missing in skipped:
        print(f"{name} tried nothing: {missing}")
    for name, fault in failed:
        print(f"FAIL {name}: {fault}")
    passed = len(results) - len(failed) - len(skipped)
    print(f"cases: {passed} passed, {len(failed)} failed, {len(skipped)} skipped")
    return 1 if failed else 0


if __name__ == "__main__":
    sys.exit(main())
