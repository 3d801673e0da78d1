"""What the script `run` prints beside the program: without the kit, with another, as it builds, and on a terminal."""
import os
import pty
import re
import shutil
import signal
import subprocess
import tempfile
import time
from contextlib import contextmanager
from pathlib import Path

from serving import SECONDS

TOP = Path(__file__).resolve().parent.parent
TOOLS = "awk bash cat cp dirname env find mkdir mktemp nproc rm tac timeout touch".split()
KIT = re.findall('^kit="(.*)"$', (TOP / "run").read_text(), re.M)[0]
# Stands in for the kit: a crate takes half a second, and the log tells when each began and ended. Two at once in one
# tree fail. If KEPT names a folder, what one tree built is there for the others.
RT = """#!/bin/sh
[ "$1" != version ] || {{ echo '{kit}'; exit; }}
crate=$(/bin/basename "$PWD")
library=out/rlib/$crate.rlib
if [ -n "$KEPT" ] && [ -f "$KEPT/$crate" ]; then
  /bin/mkdir -p $library && /bin/ln "$KEPT/$crate" $library/format
  exit
fi
echo "begin $crate: $*" >> '{log}'
[ "$crate" != "$BAD" ] || {{ echo 'not proved'; exit 1; }}
/bin/mkdir ../../busy || exit 1
/bin/sleep "${{LONG:-0.5}}"
/bin/mkdir -p $library && echo $crate > $library/format
[ -z "$KEPT" ] || /bin/ln $library/format "$KEPT/$crate"
[ ! -f src/main.rt ] || /bin/cp '{program}' out/srcp_server
/bin/rmdir ../../busy
echo "end $crate" >> '{log}'
"""
CRATES = """low: toml
left: low
right: low clap
idle: low
srcp_server: left right
low_tests: low
"""
HOW_LONG = "building the program and proving it: 25 minutes the first time, on four processors\n"
NO_ROWS = "rows 1\n0.000 100 INFO 1 POWER OFF\n"


@contextmanager
def repository_of_one_crate(program, kit=KIT, crates="srcp_server: clap\n"):
    """A repository of one crate, as the name of its folder, with a PATH that has the tools alone. Its `rt`, which is
    not on the PATH yet, copies the built program."""
    with tempfile.TemporaryDirectory() as folder:
        top = Path(folder)
        crate, tools = top / "crates" / "srcp_server", top / "tools"
        (crate / "src").mkdir(parents=True)
        (crate / "src" / "main.rt").write_text("")
        (top / "crates.txt").write_text(crates)
        for name in re.findall(r"^\w+", crates, re.M):
            (top / "crates" / name).mkdir(exist_ok=True)
        shutil.copy(TOP / "run", top / "run")
        tools.mkdir()
        for tool in TOOLS:
            (tools / tool).symlink_to(shutil.which(tool))
        (top / "rt").write_text(RT.format(kit=kit, program=program, log=top / "log"))
        (top / "rt").chmod(0o755)
        yield top, os.environ | {"PATH": str(tools)}


def outcome_of_run(top, environment):
    done = subprocess.run([top / "run"], input="", env=environment, capture_output=True, text=True, timeout=SECONDS)
    return done.returncode, done.stderr, done.stdout


def run_without_the_kit(program):
    with repository_of_one_crate(program) as (top, environment):
        status, told, printed = outcome_of_run(top, environment)
    is_told = status == 1 and printed == "" and "program rt is not on the PATH" in told and "README.md" in told
    return None if is_told else f"got {(status, told, printed)!r}"


def run_with_a_kit_that_does_not_run(program):
    """As on a machine without python3, in which `rt` is written."""
    with repository_of_one_crate(program) as (top, environment):
        (top / "tools" / "rt").write_text("#!/usr/bin/env python-that-is-not-here\n")
        (top / "tools" / "rt").chmod(0o755)
        status, told, printed = outcome_of_run(top, environment)
    is_told = status == 1 and printed == "" and "it takes python3" in told and "README.md" in told
    return None if is_told else f"got {(status, told, printed)!r}"


def built_lines(told):
    """The lines of a build that follow the first, without their seconds."""
    return re.sub(r" in \d+ s,", " in N s,", told.removeprefix(HOW_LONG)).splitlines()


def run_that_builds(program):
    with repository_of_one_crate(program) as (top, environment):
        (top / "rt").rename(top / "tools" / "rt")
        first, again = outcome_of_run(top, environment), outcome_of_run(top, environment)
    got = first[0], first[1].startswith(HOW_LONG), built_lines(first[1]), first[2]
    want = 0, True, ["built srcp_server in N s, 0 left"], NO_ROWS
    return None if (got, again) == (want, (0, "", NO_ROWS)) else f"got {(first, again)!r}"


def run_with_another_kit(program):
    """Of the same logic it does as well; of another it may not, and `run` says which one is wanted."""
    other = "rattle-kit-99z logic 0123456789abcdef"
    for kit, said in ((KIT.replace("kit-", "kit-9"), "does as well as"), (other, "They may fail: then use that kit")):
        with repository_of_one_crate(program, kit) as (top, environment):
            (top / "rt").rename(top / "tools" / "rt")
            status, told, printed = outcome_of_run(top, environment)
        is_told = told.startswith(f"./run: this is {kit}") and KIT in told and said in told
        if (status, is_told, printed) != (0, True, NO_ROWS):
            return f"got {(status, told, printed)!r}"
    return None if KIT in (TOP / "README.md").read_text() else "README.md names another kit"


def run_that_builds_what_it_needs(program):
    """The crates that the program needs are built in turn, each behind those that it needs, and with all processors.
    One that it does not need is not built."""
    with repository_of_one_crate(program, crates=CRATES) as (top, environment):
        (top / "rt").rename(top / "tools" / "rt")
        (top / "tools" / "nproc").unlink()
        (top / "tools" / "nproc").write_text("#!/bin/sh\necho 3\n")
        (top / "tools" / "nproc").chmod(0o755)
        _, told, _ = outcome_of_run(top, environment)
        log, lines = (top / "log").read_text().splitlines(), built_lines(told)
    words = {"srcp_server": "run --jobs 3 -- mirror"}
    crates = ("low", "left", "right", "srcp_server")
    want = [line for crate in crates for line in (f"begin {crate}: {words.get(crate, 'lib --jobs 3')}", f"end {crate}")]
    want_lines = [f"built {crate} in N s, {left} left" for crate, left in zip(crates, (3, 2, 1, 0))]
    return None if (log, lines) == (want, want_lines) else f"got {(log, lines)}"


@contextmanager
def repository_to_build_by_twos(program, memory=4):
    """A repository of several crates, on a machine of four processors with memory for so many provers, and a kit that
    keeps what it built."""
    with repository_of_one_crate(program, crates=CRATES) as (top, environment):
        (top / "rt").rename(top / "tools" / "rt")
        for name, number in (("nproc", 4), ("awk", memory)):
            (top / "tools" / name).unlink()
            (top / "tools" / name).write_text(f"#!/bin/sh\necho {number}\n")
            (top / "tools" / name).chmod(0o755)
        (top / "kept").mkdir()
        yield top, environment | {"KEPT": str(top / "kept")}


def told_by(log):
    """The events of a log, which it then has no longer."""
    lines = log.read_text().splitlines()
    log.unlink()
    return lines


def begun_and_ended(jobs, *crates):
    """The log of a kit that builds these crates in turn."""
    words = {"srcp_server": f"run --jobs {jobs} -- mirror"}
    lines = []
    for name in crates:
        lines += [f"begin {name}: " + words.get(name, f"lib --jobs {jobs}"), f"end {name}"]
    return lines


def run_that_builds_two_at_a_time(program):
    """Two crates that do not stand on each other are built at once in a first build, if the kit has in one tree what it
    built in another, and each processor has its memory; else, and later, one after another. No tree but the first is
    left. A crate that fails ends the other."""
    others = "left", "right", "srcp_server"
    first = begun_and_ended(4, "low")
    in_turn = begun_and_ended(4, *others)
    with_fewer_jobs = begun_and_ended(3, *others)
    at_once = [sorted(with_fewer_jobs[0:4:2]), sorted(with_fewer_jobs[1:4:2]), *with_fewer_jobs[4:]]
    tried = begun_and_ended(1, "low")  # in the second tree, in which it is not there
    for memory, keeps, want in ((4, True, at_once), (4, False, tried + in_turn), (3, True, in_turn)):
        with repository_to_build_by_twos(program, memory) as (top, environment):
            # long enough that the second is begun before the first ends
            how = {"LONG": "1.5"} if want == at_once else {} if keeps else {"KEPT": ""}
            status, _, _ = outcome_of_run(top, environment | how)
            log, left = told_by(top / "log"), list((top / "out").glob("*"))
            (top / "crates" / "srcp_server" / "src" / "main.rt").write_text("// edited")
            outcome_of_run(top, environment | {"KEPT": ""})
            later = told_by(top / "log")
        got = [sorted(log[2:4]), sorted(log[4:6]), *log[6:]] if want == at_once else log[2:]
        if (status, log[:2], got, left, later) != (0, first, want, [], first + in_turn):
            return f"memory {memory}, keeps {keeps}: {(status, log, left, later)}"
    with repository_to_build_by_twos(program) as (top, environment):
        status, told, _ = outcome_of_run(top, environment | {"BAD": "right"})
        time.sleep(1)
        log = told_by(top / "log")
    got = status, told.endswith("building right failed\n"), sorted(line.partition(":")[0] for line in log[2:])
    return None if got == (1, True, ["begin left", "begin right"]) else f"got {got}: {told}"


def run_whose_build_fails(program):
    """It tells what the prover said, builds nothing above, and ends with status 1."""
    with repository_of_one_crate(program, crates=CRATES) as (top, environment):
        (top / "rt").rename(top / "tools" / "rt")
        status, told, printed = outcome_of_run(top, environment | {"BAD": "left"})
        log = (top / "log").read_text()
    is_told = status == 1 and printed == "" and told.endswith("not proved\nbuilding left failed\n")
    return None if is_told and "srcp_server" not in log else f"got {(status, told, printed, log)!r}"


def run_that_is_interrupted(program):
    """Ctrl-C, or SIGTERM to it alone, ends what was begun: no prover goes on."""
    for end in (lambda pid: os.killpg(pid, signal.SIGINT), lambda pid: os.kill(pid, signal.SIGTERM)):
        with repository_of_one_crate(program, crates=CRATES) as (top, environment):
            (top / "rt").rename(top / "tools" / "rt")
            build = subprocess.Popen([top / "run"], env=environment | {"LONG": "1.5"}, stdin=subprocess.DEVNULL,
                                     stderr=subprocess.DEVNULL, start_new_session=True,
                                     preexec_fn=lambda: signal.signal(signal.SIGINT, signal.SIG_DFL))
            while not (top / "log").exists():
                time.sleep(0.02)
            end(build.pid)
            status = build.wait(SECONDS)
            time.sleep(2)
            log = (top / "log").read_text()
        if (status, re.sub(": .*", "", log)) != (130, "begin low\n"):
            return f"got {(status, log)!r}"
    return None


def run_on_a_terminal(program):
    with repository_of_one_crate(program) as (top, environment):
        (top / "rt").rename(top / "tools" / "rt")
        outcome_of_run(top, environment)
        ours, theirs = pty.openpty()
        os.write(ours, b"\x04")
        done = subprocess.run([top / "run"], stdin=theirs, env=environment,
                              capture_output=True, text=True, timeout=SECONDS)
        os.close(ours)
        os.close(theirs)
    is_told = done.returncode == 0 and "waits for one (Ctrl-D ends it)" in done.stderr and done.stdout == NO_ROWS
    return None if is_told else f"got {(done.returncode, done.stderr, done.stdout)!r}"


RUN_SCRIPT_CASES = (run_without_the_kit, run_with_a_kit_that_does_not_run, run_that_builds, run_with_another_kit,
                    run_that_builds_what_it_needs, run_that_builds_two_at_a_time, run_whose_build_fails,
                    run_that_is_interrupted, run_on_a_terminal)
