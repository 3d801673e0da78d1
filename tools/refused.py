#!/usr/bin/env python3
"""refused.py [--anew] [--of-ci] [--minutes N] [NAME ..]: tries the wrong bodies of crates/NAME/refused/ and of
crates/NAME/laws-refuse/, of these crates or of all.

`rt ci` tries the edits of must-fail/, a check for each. These are tried many in one check: one of each function at a
time, since contracts stay, and each function has its own verdict. An edit counts as refused if the prover refuses the
function that it changes. Else it is tried alone, and then the crate has to be refused, and not only by a text that
cannot be read. An edit of laws-refuse/ changes a definition and its code together and is tried alone: the prover has to
refuse a function of laws.rt.

`rt lib` builds the libraries below a crate, over what earlier checks kept. With --of-ci they are those that the last
`rt ci` of this tree proved, if no source has changed since. Else `rt ci` proves them once more.

It works on a copy and changes nothing in the repository. RT_JOBS crates are tried beside each other (none: one). What
passed is kept in the user's cache by the sum of all that its check read, and is not tried again; --anew tries all. It
prints a line for each crate and each edit that fails, and ends with `N refused, M failed`: status 1 if M is not 0, and
2 for a wrong word. After --minutes no further check begins, and the last line also says how many edits were not tried.
A later run tries these.
"""
import argparse
import hashlib
import math
import os
import shutil
import signal
import subprocess
import sys
import tempfile
import threading
import time
from collections.abc import Iterable, Iterator
from concurrent.futures import ThreadPoolExecutor
from contextlib import contextmanager, suppress
from dataclasses import dataclass, field
from pathlib import Path
from types import FrameType

from edits import PARTS, Edit, Fault, Function, Kind, Plan, Texts, Verdict, apply, plan_of, read_edits, verdict_of

TOP = Path(__file__).resolve().parent.parent
SOURCES = (Path(__file__), Path(__file__).with_name("edits.py"))
FOLDERS = (*PARTS, "c", *(kind.value for kind in Kind))
ROOMS = "srcp_refused_"
KEPT_DAYS = 60
stopped = threading.Event()
running: set[int] = set()


class Stopped(Exception):
    """The runner was told to end."""


@dataclass(frozen=True)
class Ran:
    status: int
    out: str
    seconds: float  # of processors


def run(words: list[str], folder: Path) -> Ran:
    """Runs a command to its end, with what the commands that it started cost."""
    if stopped.is_set():
        raise Stopped
    with tempfile.TemporaryFile() as out:
        child = subprocess.Popen(words, cwd=folder, stdin=subprocess.DEVNULL, stdout=out, stderr=out,
                                 start_new_session=True)
        running.add(child.pid)
        if stopped.is_set():
            end(child.pid)
        _, ended, used = os.wait4(child.pid, 0)
        running.discard(child.pid)
        child.returncode = os.waitstatus_to_exitcode(ended)
        out.seek(0)
        said = out.read().decode(errors="replace")
    if stopped.is_set():
        raise Stopped
    return Ran(child.returncode, said, used.ru_utime + used.ru_stime)


def end(child: int) -> None:
    with suppress(ProcessLookupError):
        os.killpg(child, signal.SIGTERM)


def stop(number: int, _: FrameType | None) -> None:
    """Ends what runs, so that the copy can be removed."""
    stopped.set()
    for child in tuple(running):
        end(child)
    raise SystemExit(128 + number)


@dataclass(frozen=True)
class Repository:
    """A copy of the sources, and which libraries of it each crate uses."""
    top: Path
    lines: dict[str, str]

    def folder(self, name: str) -> Path:
        return self.top / "crates" / name

    def library(self, name: str) -> Path:
        return self.folder(name) / "out" / "rlib" / f"{name}.rlib"

    def uses(self, name: str) -> list[str]:
        return self.lines[name].partition(":")[2].split()

    def below(self, name: str) -> list[str]:
        """Returns the crates that a crate stands on, lowest first."""
        found: list[str] = []
        for dep in self.uses(name):
            if dep in self.lines:
                found += [low for low in [*self.below(dep), dep] if low not in found]
        return found

    def write_lines(self, names: list[str], top: Path) -> None:
        (top / "crates.txt").write_text("".join(f"{self.lines[name]}\n" for name in names))
        if (self.top / "HANDLES").exists():
            shutil.copy2(self.top / "HANDLES", top)


def lines_of(top: Path) -> dict[str, str]:
    """Returns the lines of crates.txt by the crate that each is of."""
    lines = [line.partition("#")[0].strip() for line in (top / "crates.txt").read_text().splitlines()]
    return {line.partition(":")[0].split()[0]: line for line in lines if line}


def link_or_copy(one: str, other: str) -> None:
    try:
        os.link(one, other)
    except OSError:
        shutil.copy2(one, other)


def copy_of(repository: Repository, names: list[str], to: Path) -> Repository:
    """Copies the sources of crates."""
    made = Repository(to, {name: repository.lines[name] for name in names})
    to.mkdir(exist_ok=True)
    for name in names:
        for part in FOLDERS:
            if (repository.folder(name) / part).is_dir():
                shutil.copytree(repository.folder(name) / part, made.folder(name) / part)
        made.folder(name).mkdir(parents=True, exist_ok=True)
    repository.write_lines(names, to)
    return made


def copy_libraries(repository: Repository, to: Repository) -> None:
    """Copies the libraries that `rt lib` built. A library is never written into: `rt` makes a new one."""
    for name in to.lines:
        built, library = repository.library(name).parent, to.library(name).parent
        try:
            shutil.copytree(built, library, copy_function=link_or_copy)
        except (OSError, shutil.Error):  # there is none, or it is built anew meanwhile: then it is built here too
            shutil.rmtree(library, ignore_errors=True)


def texts_of(crate: Path) -> Texts:
    """Returns the texts that a check of a crate reads, by their paths in it."""
    files = [file for part in (*PARTS, "c") for file in sorted((crate / part).rglob("*")) if file.is_file()]
    return {str(file.relative_to(crate)): file.read_text() for file in files}


def sum_of(*said: object) -> str:
    return hashlib.sha256(repr(said).encode()).hexdigest()


def state_of(repository: Repository, name: str, kit: str) -> str:
    """Returns a sum of all that the checks of a crate read, but for the edit."""
    handles = repository.top / "HANDLES"
    read = [(low, repository.lines[low], sorted(texts_of(repository.folder(low)).items()))
            for low in [*repository.below(name), name]]
    return sum_of(kit, handles.read_text() if handles.exists() else "", [file.read_text() for file in SOURCES], read)


@dataclass(frozen=True)
class Kept:
    """What earlier runs passed, in any clone of this user."""
    folder: Path
    state: str

    def place(self, edit: Edit) -> Path:
        return self.folder / self.state / sum_of(edit.name, edit.kind.value, edit.text)

    def has(self, edit: Edit) -> bool:
        place = self.place(edit)
        if place.exists():
            with suppress(OSError):
                os.utime(place.parent)
        return place.exists()

    def keep(self, edit: Edit) -> None:
        """A place that cannot be written to is no fault: the edit is tried again."""
        with suppress(OSError):
            self.place(edit).parent.mkdir(mode=0o700, parents=True, exist_ok=True)
            self.place(edit).touch()


def cache() -> Path:
    return Path(os.environ.get("XDG_CACHE_HOME") or Path.home() / ".cache") / "srcp_server" / "refused"


def drop_old(folder: Path) -> None:
    """Removes what no run has asked for in a long time."""
    with suppress(OSError):
        for state in folder.iterdir():
            if state.stat().st_mtime < time.time() - KEPT_DAYS * 86_400:
                shutil.rmtree(state, ignore_errors=True)


@dataclass
class Tally:
    """What the edits of a crate came to."""
    refused: int = 0
    kept: int = 0
    by_text: int = 0  # since a proof by hand names what the edit took away, which says little of the contract
    checks: int = 0
    alone: int = 0
    untried: int = 0  # since the minutes were over
    seconds: float = 0.0
    faults: list[tuple[str, str]] = field(default_factory=list)

    def line(self, name: str) -> str:
        words = [(self.kept, f"{self.kept} of them by an earlier run"),
                 (self.by_text, f"{self.by_text} of them only by the text of a proof"),
                 (len(self.faults), f"{len(self.faults)} failed"), (self.untried, f"{self.untried} not tried")]
        told = ", ".join([f"{name}: {self.refused} refused", *(text for count, text in words if count)])
        if self.checks:
            told += f" in {self.checks} check{'s' if self.checks > 1 else ''}, {self.alone} alone"
        return told + (f", {self.seconds / 60:.1f} processor minutes" if self.seconds else "")


@dataclass
class Room:
    """A copy of one crate and of those below it, in which edits are tried."""
    name: str
    folder: Path
    texts: Texts
    words: list[str]  # of a check
    kept: Kept
    tally: Tally
    end: float  # of the monotonic clock, from which on no check begins

    def check(self, texts: Texts) -> Verdict | Fault:
        """Checks the crate with these texts in place of its own, over what the check of its own kept."""
        edited = [file for file, text in texts.items() if text != self.texts[file]]
        seed, work = self.folder.parents[1] / "seed", self.folder / "out" / "incremental"
        if edited and work.is_dir() and not seed.exists():
            work.rename(seed)
        if seed.exists():
            shutil.rmtree(work, ignore_errors=True)
            shutil.copytree(seed, work, symlinks=True, copy_function=linked_work)
        try:
            for file in edited:
                (self.folder / file).write_text(texts[file])
            ran = run(self.words, self.folder)
            if ran.status == -signal.SIGKILL:  # most likely for want of memory
                ran = run(self.words, self.folder)
        finally:
            for file in edited:
                (self.folder / file).write_text(self.texts[file])
        self.tally.seconds += ran.seconds
        return verdict_of(ran.status, ran.out, edited)

    def refuse(self, edit: Edit) -> None:
        self.tally.refused += 1
        self.kept.keep(edit)

    def fail(self, edit: Edit, why: str) -> None:
        self.tally.faults.append((edit.name, why))


def linked_work(one: str, other: str) -> None:
    """Gives what was proved a second name. A check replaces such a file and changes none."""
    if one.endswith(".oantt"):
        link_or_copy(one, other)
    else:
        shutil.copy2(one, other)


def is_law(crate: str, path: str) -> bool:
    return path.startswith(f"{crate}::laws::")


def judge_alone(room: Room, edit: Edit, verdict: Verdict | Fault) -> None:
    """Says what a check of an edit by itself comes to. Any function may be what is refused, or for a law, any law."""
    room.tally.alone += 1
    if isinstance(verdict, Fault):
        room.fail(edit, f"it comes to no verdict: {verdict.why}")
    elif verdict.is_proved:
        room.fail(edit, "the crate is still proved with it")
    elif not verdict.refused | verdict.unfit:
        room.fail(edit, "the borrow checker does not know what it writes, so no contract was tried")
    elif edit.kind is Kind.LAW and not any(is_law(room.name, path) for path in verdict.refused | verdict.unfit):
        room.fail(edit, f"no law is refused, but {', '.join(sorted(verdict.refused | verdict.unfit)[:3])}")
    else:
        room.tally.by_text += not verdict.refused
        room.refuse(edit)


def has_one(functions: Iterable[Function], paths: Iterable[str]) -> bool:
    return any(function.has(path) for function in functions for path in paths)


def try_together(room: Room, edits: tuple[tuple[Edit, frozenset[Function]], ...]) -> None:
    """Tries edits of different functions in one check. If that comes to no verdict, it tries each half, and so finds
    the edit that does not compile. It tries an edit alone if none of the edit's own functions is refused by itself."""
    texts = room.texts
    for edit, _ in edits:
        made = apply(room.name, edit, texts)
        assert not isinstance(made, Fault), made  # the plan applied it
        texts = made.texts
    room.tally.checks += 1
    verdict = room.check(texts)
    if isinstance(verdict, Fault) and len(edits) > 1:
        middle = len(edits) // 2
        try_together(room, edits[:middle])
        try_together(room, edits[middle:])
        return
    for edit, functions in edits:
        if isinstance(verdict, Verdict) and has_one(functions, verdict.refused | verdict.unfit):
            room.tally.by_text += not has_one(functions, verdict.refused)
            room.refuse(edit)
        elif len(edits) > 1:
            try_together(room, ((edit, functions),))
        else:
            judge_alone(room, edit, verdict)


def try_plan(room: Room, plan: Plan) -> None:
    """Tries what a plan has, if the crate is proved as it stands. Else a refusal would say nothing of an edit."""
    verdict = room.check(room.texts)
    if not (isinstance(verdict, Verdict) and verdict.is_proved):
        why = verdict.why if isinstance(verdict, Fault) else f"not proved: {', '.join(sorted(verdict.refused)[:3])}"
        room.tally.faults.append(("the crate as it stands", why))
        for edit in [edit for batch in plan.batches for edit, _ in batch.edits] + list(plan.alone):
            room.fail(edit, "not tried")
        return
    for edits in [*(batch.edits for batch in plan.batches), *(((edit, frozenset()),) for edit in plan.alone)]:
        if time.monotonic() >= room.end:
            room.tally.untried += len(edits)
        else:
            try_together(room, edits)


@dataclass(frozen=True)
class Proved:
    """What `rt ci` proved: each library with what crates above it can cite, and without proofs. `rt check` takes no
    such library, but the prover does: `rt ci` checks its own edits over them, with these words."""
    kit: Path
    libraries: Repository

    def check(self, repository: Repository, name: str) -> list[str]:
        root = next(file for file in ("src/lib.rt", "src/main.rt") if (repository.folder(name) / file).exists())
        words = [str(self.kit / "bin" / "rattle"), "check", "--crate-name", name, root, "--jobs", "1"]
        for dep in ["std", *repository.uses(name)]:
            library = self.libraries.library(dep) if dep in repository.lines else self.kit / "rlibs" / f"{dep}.rlib"
            words += ["--extern", f"{dep}={library}"]
        for folder in (self.kit / "rlibs", *(self.libraries.library(dep).parent for dep in repository.below(name))):
            words += ["-L", f"dependency={folder}"]
        return [*words, "--antt-project", str(self.kit / "rattle" / "logic" / "antt-project.json"),
                "--logic-built", str(self.kit / "logic_built"), "--incremental", "out/incremental"]


def changed(*places: Path) -> list[float]:
    """Returns when each file and folder at these places and below them was changed last."""
    return [found.stat().st_mtime for place in places for found in (place, *place.rglob("*"))]


def is_of_ci(repository: Repository, name: str) -> bool:
    """Tells whether the library of a crate is one that `rt ci` proved of the sources as they stand. A library that
    `rt lib` built has a stamp."""
    library = repository.library(name)
    if not library.is_dir() or library.with_name("stamp").exists():
        return False
    crates = [repository.folder(low) for low in (*repository.below(name), name)]
    read = [crate / part for crate in crates for part in (*PARTS, "c") if (crate / part).exists()]
    return max(changed(TOP / "crates.txt", *read)) < min(changed(library))


def proved_below(repository: Repository, names: list[str]) -> Proved | Fault:
    """Returns the libraries below these crates as `rt ci` left them, or has `rt ci` prove them in a copy."""
    below = {dep for name in names for dep in repository.below(name)}
    kit = Path(run(["rt", "doc"], repository.top).out.strip()).parent
    if all(is_of_ci(repository, name) for name in below):
        return Proved(kit, repository)
    copy = copy_of(repository, [name for name in repository.lines if name in below], repository.top / "proved")
    if (ran := run(["rt", "ci"], copy.top)).status:
        return Fault(f"rt ci: {(ran.out.splitlines() or [''])[-1][:200]}")
    return Proved(kit, copy)


def build_below(repository: Repository, name: str) -> list[str] | Fault:
    """Builds the libraries that a crate uses, where they are not built. Returns the words of a check over them."""
    for dep in repository.below(name):
        ran = run(["rt", "lib", "--jobs", "1"], repository.folder(dep))
        if ran.status:
            return Fault(f"{dep} is not built: {(ran.out.splitlines() or [''])[-1][:200]}")
    return ["rt", "check", "--jobs", "1"]


@dataclass(frozen=True)
class Wanted:
    is_anew: bool  # also what an earlier run passed
    is_of_ci: bool  # the libraries are those of `rt ci`
    end: float  # of the monotonic clock, from which on no check begins


def untried(repository: Repository, name: str, kept: Kept, wanted: Wanted) -> list[Edit]:
    """Returns the edits of a crate that no earlier run passed."""
    edits = [found for found in read_edits(repository.folder(name)) if not isinstance(found, tuple)]
    return [edit for edit in edits if wanted.is_anew or not kept.has(edit)]


def try_crate(repository: Repository, name: str, proved: Proved | Fault | None, kept: Kept, wanted: Wanted) -> Tally:
    """Tries the edits of a crate that no earlier run passed."""
    tally, edits, found = Tally(), untried(repository, name, kept, wanted), read_edits(repository.folder(name))
    tally.faults += [(file[0], file[1].why) for file in found if isinstance(file, tuple)]
    tally.refused = tally.kept = len(found) - len(edits) - len(tally.faults)
    plan = plan_of(name, edits, texts_of(repository.folder(name)))
    tally.faults += [(edit.name, fault.why) for edit, fault in plan.faults]
    if not plan.batches and not plan.alone:
        return tally
    if time.monotonic() >= wanted.end:
        tally.untried = len(edits) - len(plan.faults)
        return tally
    words = proved.check(repository, name) if isinstance(proved, Proved) else proved or build_below(repository, name)
    if isinstance(words, Fault):
        tally.faults.append(("the crates below", words.why))
        return tally
    with tempfile.TemporaryDirectory(dir=repository.top, prefix=f"{name}-") as top:
        copy = copy_of(repository, [*repository.below(name), name], Path(top))
        if not proved:
            copy_libraries(repository, copy)
        try_plan(Room(name, copy.folder(name), texts_of(copy.folder(name)), words, kept, tally, wanted.end), plan)
    return tally


@contextmanager
def snapshot() -> Iterator[Repository]:
    """A copy of the repository as it stands, until the runner ends. Copies of runs that were killed go too."""
    temporary = Path(tempfile.gettempdir())
    for left in temporary.glob(f"{ROOMS}*"):
        if not Path("/proc", left.name.removeprefix(ROOMS).partition("-")[0]).exists():
            shutil.rmtree(left, ignore_errors=True)
    with tempfile.TemporaryDirectory(prefix=f"{ROOMS}{os.getpid()}-", ignore_cleanup_errors=True) as top:
        here = Repository(TOP, lines_of(TOP))
        copy = copy_of(here, [name for name in here.lines if here.folder(name).is_dir()], Path(top))
        copy_libraries(here, copy)
        yield copy


def report(name: str, tally: Tally) -> None:
    for edit, why in tally.faults:
        print(f"{name}/{edit}: {why}", flush=True)
    print(tally.line(name), flush=True)


def try_crates(repository: Repository, names: list[str], wanted: Wanted) -> list[Tally]:
    """Tries the edits of these crates, those with most edits first."""
    kit = run(["rt", "version"], repository.top)
    if kit.status:
        sys.exit(f"refused.py: rt version: {kit.out.strip()}")
    names = sorted(names, key=lambda name: -len(read_edits(repository.folder(name))))
    kept = {name: Kept(cache(), state_of(repository, name, kit.out)) for name in names}
    left = [name for name in names if untried(repository, name, kept[name], wanted)]
    proved = proved_below(repository, left) if wanted.is_of_ci and left else None

    def tried(name: str) -> Tally | None:
        with suppress(Stopped):
            tally = try_crate(repository, name, proved, kept[name], wanted)
            report(name, tally)
            return tally
        return None

    with ThreadPoolExecutor(max(1, int(os.environ.get("RT_JOBS") or 1))) as pool:
        return [tally for tally in pool.map(tried, names) if tally]


def main() -> int:
    parser = argparse.ArgumentParser(description=(__doc__ or "").partition("\n\n")[0].partition(": ")[2])
    parser.add_argument("--anew", action="store_true", help="also what an earlier run passed")
    parser.add_argument("--of-ci", action="store_true", help="take the libraries that rt ci proved")
    parser.add_argument("--minutes", type=float, metavar="N", default=math.inf, help="begin no check after N minutes")
    parser.add_argument("names", nargs="*", metavar="NAME", help="a crate, as crates.txt has it")
    words = parser.parse_args()
    for number in (signal.SIGTERM, signal.SIGINT, signal.SIGHUP):
        signal.signal(number, stop)
    if unknown := [name for name in words.names if name not in lines_of(TOP)]:
        parser.error(f"no crate of crates.txt: {', '.join(unknown)}")
    with snapshot() as repository:
        names = words.names or [name for name in repository.lines if read_edits(repository.folder(name))]
        tallies = try_crates(repository, names, Wanted(words.anew, words.of_ci, time.monotonic() + 60 * words.minutes))
    drop_old(cache())
    failed, untried = sum(len(tally.faults) for tally in tallies), sum(tally.untried for tally in tallies)
    said = f"{sum(tally.refused for tally in tallies)} refused, {failed} failed"
    print(f"{said}, {untried} not tried" if untried else said)
    return 1 if failed else 0


if __name__ == "__main__":
    sys.exit(main())
