#!/usr/bin/env python3
"""broken.py [--anew] [--minutes N] PROGRAM [NAME ..]: tries whether the cases see what may be wrong in bridges/.

PROGRAM is the built server. NAME is a break of tests/bridge_tests/breaks/, or what stands before the -- of several;
else all are tried. A break is a file: some lines of a file of bridges/ become others, so that a train moves or moves
on, a stop is lost, or two trains come to one place. It names the case that has to see that. This case runs alone, over
a copy with the break, and has to fail by what it asserts: a program that does not start says nothing. Then it has to
pass over a copy without one. If it does not, as on a machine that is too busy, its breaks count as not tried.

It changes nothing in the repository. RT_JOBS cases run beside each other (none: one for each processor), and beside
them one that takes Chromium. What was seen is kept in the user's cache by the sum of all that the cases read, and is
not tried again; --anew tries all. What was seen longest ago comes first. It prints a line for each break that fails,
and ends with `N seen, M failed`: status 1 if M is not 0, and 2 for a wrong word. After --minutes it tries no further
break, and the last line also says how many were not tried. A later run tries these.
"""
import argparse
import math
import os
import re
import shutil
import signal
import sys
import tempfile
import time
from collections.abc import Iterable
from concurrent.futures import ThreadPoolExecutor
from contextlib import suppress
from dataclasses import dataclass
from enum import Enum
from pathlib import Path

from edits import Change, Fault
from refused import Stopped, cache, run, stop, sum_of

TOP = Path(__file__).resolve().parent.parent
BREAKS = TOP / "tests" / "bridge_tests" / "breaks"
# What the cases read: if a file of these changes, all is tried again.
READ = ("bridges/**/*", "examples/*", "tests/bridge_tests/*.py", "tests/*.py", "tools/broken.py")
ROOMS = "srcp_broken_"
LIMIT = 300  # seconds that a case may take
KEPT_DAYS = 60
# Runs one case, and tells its fault with the kind of that: none, a text, or that it tried nothing. What never comes is
# waited for as long as this, and not for as long as in the gate. What fails in setUp has tried nothing of its own. A
# case that loads modules of the repository's own bridges/ sees no break: all breaks of those would pass.
ALONE = """import os
import sys
import traceback
import run_cases
from bridge_tests import common

def alone(program):
    try:
        return run_cases.cases_by_name()[sys.argv[2]](program)
    except Exception as stop:
        if any(frame.name == "setUp" for frame in traceback.extract_tb(stop.__traceback__)):
            raise RuntimeError("it did not begin") from stop
        raise

common.until.__defaults__ = 25.0,
fault = run_cases.fault_of(alone, sys.argv[1])
own = os.path.abspath("../bridges/")
if read := sorted(name for name, one in sys.modules.items() if (getattr(one, "__file__", "") or "").startswith(own)):
    print(f"Stray: {sys.argv[2]} reads the repository's own {', '.join(read)}")
else:
    print(f"{type(fault).__name__}: {fault}")
"""
SAID = re.compile(r"^(NoneType|TriedNothing|Stray|str): (.*)$", re.M)
# What a case stops at that sees a break: an assertion, a wait in vain, what a program refuses that it should not, or
# the end of a connection that should stay.
ASSERTED = ("AssertionError(", "TimeoutError(", "Refused(", "Fault(", "BrokenPipeError(", "ConnectionResetError(")
# What Python says of a program that it cannot run, as a case notes it.
STARTS_NOTHING = ("SyntaxError", "IndentationError", "ImportError", "ModuleNotFoundError", "NameError")


@dataclass(frozen=True)
class Break:
    name: str
    case: str
    change: Change
    text: str

    def is_named(self, names: Iterable[str]) -> bool:
        return any(name in (self.name, self.name.partition("--")[0]) for name in names)


def parse(name: str, text: str) -> Break | Fault:
    """Returns the break that the text of a file gives. Lines `old: TEXT` that follow each other are one text."""
    said: dict[str, list[str]] = {"file": [], "case": [], "old": [], "new": []}
    for line in text.splitlines():
        key, colon, words = line.partition(":")
        if not colon or key not in said:
            return Fault(f"no line of a break: {line}")
        said[key].append(words.removeprefix(" "))
    if [len(said["file"]), len(said["case"])] != [1, 1] or not said["old"] or not said["new"]:
        return Fault("it needs one 'file:', one 'case:', and an 'old:' and a 'new:'")
    return Break(name, said["case"][0], Change(said["file"][0], "\n".join(said["old"]), "\n".join(said["new"])), text)


def read_breaks() -> list[Break | tuple[str, Fault]]:
    """Returns all breaks in the order of their names. A file that is none comes with its name and its fault."""
    found: list[Break | tuple[str, Fault]] = []
    for file in sorted(BREAKS.iterdir()):
        made = parse(file.stem, file.read_text()) if file.suffix == ".edit" else Fault("it is no .edit")
        found.append((file.name, made) if isinstance(made, Fault) else made)
    return found


def broken(change: Change, bridges: Path) -> str | Fault:
    """Returns the text of the file with the break."""
    path = bridges / change.file
    if not path.is_file():
        return Fault(f"there is no file {change.file}")
    text = path.read_text()
    if (times := text.count(change.old)) != 1:
        return Fault(f"its old text stands {times} times in {change.file}: {change.old.strip()}")
    made = text.replace(change.old, change.new)
    if made == text:
        return Fault("it changes nothing")
    with suppress(SyntaxError):
        if path.suffix == ".py":
            compile(made, path, "exec")
        return made
    return Fault(f"{change.file} is no Python with it")


class Outcome(Enum):
    SEEN = "the case fails by what it asserts"
    PASSED = "the case passes"
    FAILED = "the case fails otherwise"
    WRONG = "the break does not apply, or does not reach the case"
    UNTRIED = "not tried"


@dataclass(frozen=True)
class Verdict:
    outcome: Outcome
    why: str = ""


def verdict_of(case: str, out: str) -> Verdict:
    """Returns what the words of a case come to."""
    kind, why = ([("", f"{case} was ended")] + SAID.findall(out))[-1]
    if kind == "TriedNothing":
        return Verdict(Outcome.UNTRIED, why)
    if kind == "Stray":
        return Verdict(Outcome.WRONG, why)
    if kind == "NoneType":
        return Verdict(Outcome.PASSED, f"{case} passes with it")
    if word := next((word for word in STARTS_NOTHING if word in why), ""):
        return Verdict(Outcome.FAILED, f"it starts nothing: {word}")
    if why.startswith(ASSERTED):
        return Verdict(Outcome.SEEN)
    return Verdict(Outcome.FAILED, f"{case} fails by no assertion: {why[:300]}" if kind else why)


@dataclass(frozen=True)
class Kept:
    """When each break was seen last, in any clone of this user, and by which sum of files."""
    folder: Path
    state: str

    def place(self, one: Break) -> Path:
        return self.folder / sum_of(one.name, one.text)

    def has(self, one: Break) -> bool:
        with suppress(OSError):
            return self.place(one).read_text() == self.state
        return False

    def keep(self, one: Break) -> None:
        """A place that cannot be written to is no fault: the break is tried again."""
        with suppress(OSError):
            self.folder.mkdir(mode=0o700, parents=True, exist_ok=True)
            self.place(one).write_text(self.state)

    def turn(self, one: Break) -> tuple[float, str]:
        """Has what was seen longest ago, or never, come first. Of those other files have others come first."""
        with suppress(OSError):
            return self.place(one).stat().st_mtime, ""
        return 0.0, sum_of(self.state, one.name)

    def drop_old(self) -> None:
        """Removes what no run has seen in a long time."""
        with suppress(OSError):
            for place in self.folder.iterdir():
                if place.stat().st_mtime < time.time() - KEPT_DAYS * 86_400:
                    place.unlink()


def state_of() -> str:
    """Returns a sum of all that the cases read, but for the server, over which they pass, and the breaks."""
    found = {file for pattern in READ for file in TOP.glob(pattern) if file.is_file()}
    files = sorted(file for file in found if file.suffix not in (".md", ".pyc"))
    return sum_of(*((str(file.relative_to(TOP)), file.read_bytes()) for file in files))


@dataclass(frozen=True)
class Trial:
    """How breaks are tried: in folders of `room`, over copies of `bridges` there."""
    program: str
    room: Path
    kept: Kept
    end: float  # of the monotonic clock, from which on no break is tried

    def runs(self, case: str, file: str, text: str) -> Verdict:
        """Runs a case over a copy, in which a file has this text."""
        with tempfile.TemporaryDirectory(dir=self.room, ignore_cleanup_errors=True) as folder:
            copy = Path(shutil.copytree(self.room / "bridges", Path(folder, "bridges")))
            (copy / file).write_text(text)
            there = ["env", f"SRCP_PROGRAMS={copy}", f"TMPDIR={folder}", "timeout", str(LIMIT)]
            words = [sys.executable, "-c", ALONE, self.program, case]
            return verdict_of(case, run([*there, *words], TOP / "tests").out)

    def judge(self, one: Break) -> Verdict:
        """Runs the case of a break over a copy with it."""
        made = broken(one.change, self.room / "bridges")
        if isinstance(made, Fault):
            return Verdict(Outcome.WRONG, made.why)
        if time.monotonic() >= self.end:
            return Verdict(Outcome.UNTRIED)
        return self.runs(one.case, one.change.file, made)

    def is_sound(self, one: Break) -> bool:
        """Tells whether the case of a break passes over a copy without it."""
        whole = (self.room / "bridges" / one.change.file).read_text()
        return self.runs(one.case, one.change.file, whole).outcome is Outcome.PASSED

    def try_case(self, breaks: list[Break]) -> list[Outcome]:
        """Tries the breaks of one case, keeps those that it saw, and tells of the others."""
        told, is_sound = [], None
        with suppress(Stopped):
            for one in breaks:
                verdict = self.judge(one)
                if verdict.outcome is Outcome.PASSED:  # a busy machine may have hidden it
                    verdict = self.judge(one)
                if verdict.outcome in (Outcome.SEEN, Outcome.FAILED):
                    is_sound = self.is_sound(one) if is_sound is None else is_sound
                    if not is_sound:
                        verdict = Verdict(Outcome.UNTRIED, f"{one.case} fails without it too")
                if verdict.outcome is Outcome.SEEN:
                    self.kept.keep(one)
                elif verdict.why:
                    print(f"{one.name}: {verdict.why}", flush=True)
                told.append(verdict.outcome)
        return told


def try_breaks(trial: Trial, breaks: list[Break]) -> list[Outcome]:
    """Tries the breaks of different cases beside each other. Of those that take Chromium it tries one at a time."""
    cases: dict[str, list[Break]] = {}
    for one in breaks:
        cases.setdefault(one.case, []).append(one)
    in_chromium = [case for case in cases if "chromium" in case]
    jobs = int(os.environ.get("RT_JOBS") or len(os.sched_getaffinity(0)))
    with ThreadPoolExecutor(max(1, jobs)) as pool, ThreadPoolExecutor(1) as browser:
        told = [*browser.map(trial.try_case, [cases[case] for case in in_chromium]),
                *pool.map(trial.try_case, [tried for case, tried in cases.items() if case not in in_chromium])]
    return [outcome for outcomes in told for outcome in outcomes]


def main() -> int:
    parser = argparse.ArgumentParser(description=(__doc__ or "").partition("\n\n")[0].partition(": ")[2])
    parser.add_argument("--anew", action="store_true", help="also what an earlier run saw")
    parser.add_argument("--minutes", type=float, metavar="N", default=math.inf, help="try no break after N minutes")
    parser.add_argument("program", metavar="PROGRAM", help="the built server")
    parser.add_argument("names", nargs="*", metavar="NAME", help="a break, or what stands before its --")
    words = parser.parse_args()
    for number in (signal.SIGTERM, signal.SIGINT, signal.SIGHUP):
        signal.signal(number, stop)
    found = read_breaks()
    breaks = [one for one in found if isinstance(one, Break) and (not words.names or one.is_named(words.names))]
    if unknown := [name for name in words.names if not any(one.is_named([name]) for one in breaks)]:
        parser.error(f"no break of {BREAKS.relative_to(TOP)}: {', '.join(unknown)}")
    if not os.access(words.program, os.X_OK):
        parser.error(f"{words.program} is not built: ./run --build builds it")
    faults = [] if words.names else [one for one in found if isinstance(one, tuple)]
    for name, fault in faults:
        print(f"{name}: {fault.why}", flush=True)
    kept = Kept(cache().with_name("broken"), state_of())
    wanted = sorted((one for one in breaks if words.anew or not kept.has(one)), key=kept.turn)
    with tempfile.TemporaryDirectory(prefix=ROOMS, ignore_cleanup_errors=True) as room:
        shutil.copytree(TOP / "bridges", Path(room, "bridges"), ignore=shutil.ignore_patterns("__pycache__"))
        end = time.monotonic() + 60 * words.minutes
        told = try_breaks(Trial(os.path.abspath(words.program), Path(room), kept, end), wanted)
    kept.drop_old()
    seen = len(breaks) - len(wanted) + told.count(Outcome.SEEN)
    failed = len(faults) + sum(told.count(one) for one in (Outcome.PASSED, Outcome.FAILED, Outcome.WRONG))
    untried = told.count(Outcome.UNTRIED)
    print(f"{seen} seen, {failed} failed" + (f", {untried} not tried" if untried else ""))
    return 1 if failed else 0


if __name__ == "__main__":
    sys.exit(main())
