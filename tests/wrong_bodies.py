"""What tools/refused.py says of wrong bodies, over two small crates and a stand-in for the kit."""
import os
import shutil
import signal
import subprocess
import sys
import tempfile
import time
from collections.abc import Iterator
from contextlib import contextmanager
from dataclasses import dataclass
from pathlib import Path

from serving import SECONDS

TOP = Path(__file__).resolve().parent.parent
sys.path.insert(0, str(TOP / "tools"))
from edits import FUNCTION, Fault, Function, Kind, apply, function_at, parse_edit, read_edits  # noqa: E402
from refused import lines_of, texts_of  # noqa: E402

# What makes the calls of the machine.
MACHINE = ("srcp_sockets::mio_system", "srcp_sockets::options")
# What gives the one value of a type, or what may be any.
ANY_VALUE = ("MemoryFromAllocError", "MemoryFromAllocFailed", "RunFaultFromMemory", "ChangeDefault", "RowDefault")
FILES = {
    "crates.txt": "low: std\nhigh: low\n",
    "crates/low/specs/Values.antt": "one = 1\ntwo = 2\nthree = 3\nmany = 33\n",
    "crates/low/src/lib.rt": """pub fn one() -> u32 {
    1
}

pub fn two() -> u32 {
    one() + 1
}

pub fn three() -> u32 {
    one() + two()
}

pub fn many() -> u32 {
    20 + 13
}
""",
    "crates/low/src/laws.rt": "/// one < two\npub fn rises()\n{}\n",
    "crates/high/specs/Values.antt": "four = 4\n",
    "crates/high/src/lib.rt": "pub fn four() -> u32 {\n    4\n}\n",
}
ONE = "file: src/lib.rt\nold:     1\nnew:     {}\n"
TWO = "file: src/lib.rt\nold: one() + 1\nnew: {}\n"
THREE = "file: src/lib.rt\nold: one() + two()\nnew: {}\n"


@dataclass(frozen=True)
class Done:
    status: int
    lines: list[str]
    checks: int


@dataclass(frozen=True)
class Clone:
    """A repository of two small crates, and the environment in which its runner is called."""
    top: Path
    environment: dict[str, str]

    def edit(self, name: str, text: str, crate: str = "low", folder: str = "refused") -> None:
        path = self.top / "crates" / crate / folder / f"{name}.edit"
        path.parent.mkdir(exist_ok=True)
        path.write_text(text)

    def words(self, *words: str) -> list[str | Path]:
        return [sys.executable, self.top / "tools" / "refused.py", *words]

    def tried(self, *words: str) -> Done:
        """Runs the runner, and returns its status, its lines without the costs, and how many checks it made."""
        log = Path(self.environment["RT_LOG"])
        before = len(log.read_text().splitlines())
        done = subprocess.run(self.words(*words), env=self.environment, capture_output=True, text=True, timeout=SECONDS)
        lines = [line.rpartition(", ")[0] if line.endswith(" processor minutes") else line
                 for line in (done.stdout + done.stderr).splitlines()]
        return Done(done.returncode, lines, len(log.read_text().splitlines()) - before)


@contextmanager
def clone() -> Iterator[Clone]:
    with tempfile.TemporaryDirectory() as folder:
        top = Path(folder) / "clone"
        for name, text in FILES.items():
            (top / name).parent.mkdir(parents=True, exist_ok=True)
            (top / name).write_text(text)
        (top / "tools").mkdir()
        for name in ("refused.py", "edits.py"):
            shutil.copy(TOP / "tools" / name, top / "tools")
        log, temporary = Path(folder, "log"), Path(folder, "tmp")
        log.touch()
        temporary.mkdir()
        path = f"{TOP / 'tests' / 'stand_ins'}:{os.environ['PATH']}"
        yield Clone(top, os.environ | {"PATH": path, "XDG_CACHE_HOME": f"{folder}/cache", "RT_LOG": str(log),
                                       "TMPDIR": str(temporary), "RT_JOBS": "2"})


def files_of(top: Path) -> dict[Path, bytes]:
    found = (file for file in top.rglob("*") if file.is_file() and "__pycache__" not in file.parts)
    return {file: file.read_bytes() for file in found}


def unlike(done: Done, status: int, lines: list[str], checks: int | None = None) -> str | None:
    """Returns how what the runner said differs from what it has to say; the last two lines count."""
    got = (done.status, done.lines, checks if checks is None else done.checks)
    return None if got == (status, lines, checks) else f"got {(done.status, done.lines, done.checks)}"


def wrong_bodies_are_tried_together(_: str) -> str | None:
    """Those of three functions in one check beside that of the crate, though two call what is refused. A later run, in
    another clone too, tries nothing anew until a file changes that the check reads."""
    with clone() as here:
        for name, text in (("one--2", ONE.format(2)), ("two--one", TWO.format("one()")), ("three--0", THREE.format(0))):
            here.edit(name, text)
        here.edit("four--5", "file: src/lib.rt\nold:     4\nnew:     5\n", "high")
        first = here.tried("low")
        if fault := unlike(first, 0, ["low: 3 refused in 1 check, 0 alone", "3 refused, 0 failed"], 2):
            return f"first: {fault}"
        other = Clone(here.top.rename(here.top.with_name("other")), here.environment)
        kept = other.tried("low")
        if fault := unlike(kept, 0, ["low: 3 refused, 3 of them by an earlier run", "3 refused, 0 failed"], 0):
            return f"kept: {fault}"
        every = other.tried()
        if every.status or every.checks != 2 or "high: 1 refused in 1 check, 0 alone" not in every.lines:
            return f"all crates: {every}"
        with open(other.top / "crates" / "low" / "specs" / "Values.antt", "a") as specs:
            specs.write("-- one more line\n")
        again = other.tried("high")
        if fault := unlike(again, 0, ["high: 1 refused in 1 check, 0 alone", "1 refused, 0 failed"], 2):
            return f"after a change below: {fault}"
        anew = other.tried("--anew", "high")
        return f"--anew: {anew}" if anew.checks != 2 else None


def wrong_bodies_of_one_function_are_tried_in_turn(_: str) -> str | None:
    with clone() as here:
        here.edit("many--one-more", "file: src/lib.rt\nold: 20\nnew: 21\n")
        here.edit("many--one-less", "file: src/lib.rt\nold: 13\nnew: 11\n")
        here.edit("two--0", TWO.format(0))
        return unlike(here.tried(), 0, ["low: 3 refused in 2 checks, 0 alone", "3 refused, 0 failed"])


def wrong_body_that_applies_nowhere_fails(_: str) -> str | None:
    """Or at two places. Those beside it are tried."""
    with clone() as here:
        here.edit("one--2", ONE.format(2))
        here.edit("two--gone", "file: src/lib.rt\nold: one() + 7\nnew: 0\n")
        here.edit("three--twice", "file: src/lib.rt\nold: one() +\nnew: 0 +\n")
        here.edit("none--no-pair", "file: src/lib.rt\nold: one() + 1\n")
        lines = ["low/none--no-pair.edit: a pair of 'old:' and 'new:' is missing",
                 "low/three--twice: its old text stands 2 times in src/lib.rt: one() +",
                 "low/two--gone: its old text stands 0 times in src/lib.rt: one() + 7",
                 "low: 1 refused, 3 failed in 1 check, 0 alone", "1 refused, 3 failed"]
        return unlike(here.tried(), 1, lines)


def wrong_body_that_is_proved_fails(_: str) -> str | None:
    """Also if the function that it calls is refused in the same check, so that it has no proof."""
    with clone() as here:
        here.edit("one--2", ONE.format(2))
        here.edit("two--the-same", TWO.format("1 + one()"))
        lines = ["low/two--the-same: the crate is still proved with it",
                 "low: 1 refused, 1 failed in 2 checks, 1 alone", "1 refused, 1 failed"]
        first = here.tried()
        return unlike(first, 1, lines) or unlike(here.tried(), 1, [
            lines[0], "low: 1 refused, 1 of them by an earlier run, 1 failed in 1 check, 1 alone", lines[2]])


def wrong_body_that_another_function_shows_is_tried_alone(_: str) -> str | None:
    with clone() as here:
        here.edit("one--breaks-two", ONE.format("1 // breaks two"))
        here.edit("three--0", THREE.format(0))
        return unlike(here.tried(), 0, ["low: 2 refused in 2 checks, 1 alone", "2 refused, 0 failed"])


def wrong_body_that_the_text_of_a_proof_refuses_is_counted(_: str) -> str | None:
    with clone() as here:
        here.edit("one--unfit", ONE.format("1 // unfit"))
        here.edit("three--0", THREE.format(0))
        lines = ["low: 2 refused, 1 of them only by the text of a proof in 1 check, 0 alone", "2 refused, 0 failed"]
        return unlike(here.tried(), 0, lines)


def wrong_body_that_does_not_compile_fails(_: str) -> str | None:
    """It is found among those that it was tried with, and these are tried."""
    with clone() as here:
        for name, text in (("one--2", ONE.format(2)), ("two--9", TWO.format("nine()")), ("three--0", THREE.format(0))):
            here.edit(name, text)
        why = "it comes to no verdict: status 1: error[E0425]: cannot find function `nine` in this scope"
        done = here.tried()
        is_told = done.status == 1 and done.lines[0] == f"low/two--9: {why}"
        return None if is_told and done.lines[-1] == "2 refused, 1 failed" else f"got {done}"


def wrong_body_of_an_unknown_form_fails(_: str) -> str | None:
    """The crate is refused with it, but no contract is tried."""
    with clone() as here:
        here.edit("one--unknown", ONE.format("2 // unknown"))
        here.edit("three--0", THREE.format(0))
        return unlike(here.tried(), 1, [
            "low/one--unknown: the borrow checker does not know what it writes, so no contract was tried",
            "low: 1 refused, 1 failed in 2 checks, 1 alone", "1 refused, 1 failed"])


def method_is_known_in_any_file(_: str) -> str | None:
    """The prover names a method by the module that declares its type, and an edit of another file has to be judged
    beside others."""
    texts = {"src/pair.rt": "pub struct Pair {\n    one: u32,\n}\n",
             "src/sum.rt": "impl Pair {\n    pub fn sum(&self) -> u32 {\n        self.one\n    }\n}\n"}
    function = function_at("low", "src/sum.rt", texts, texts["src/sum.rt"].index("self.one"))
    own = ("low::pair::Pair::sum", "low::sum::fn::Pair::sum::any", "low::pair::fn::Pair::sum::any+FnMut::call_mut")
    others = ("low::pair::sum", "low::pair::Pair::sums", "low::other::Pair::sum", "low::sum::fn::sum::any")
    wrong = [path for path in own + others if (function is not None and function.has(path)) != (path in own)]
    return f"{function} takes these wrongly: {', '.join(wrong)}" if wrong else None


def law_has_to_refuse_its_edits(_: str) -> str | None:
    """An edit of a definition and its code fails if no law is refused: the edit is proved, or the function alone is
    refused."""
    specs = "file: specs/Values.antt\nold: {}\nnew: {}\n"
    with clone() as here:
        here.edit("one--is-2", specs.format("one = 1", "one = 2") + ONE.format(2), folder="laws-refuse")
        here.edit("three--is-5", specs.format("three = 3", "three = 5") + THREE.format("one() + two() + 2"),
                  folder="laws-refuse")
        here.edit("three--is-6", specs.format("three = 3", "three = 6"), folder="laws-refuse")
        lines = ["low/three--is-5: the crate is still proved with it",
                 "low/three--is-6: no law is refused, but low::three",
                 "low: 1 refused, 2 failed in 3 checks, 3 alone", "1 refused, 2 failed"]
        return unlike(here.tried(), 1, lines)


def nothing_is_refused_of_a_crate_that_is_not_proved(_: str) -> str | None:
    """Else each refusal would be taken for that of the edit."""
    with clone() as here:
        here.edit("one--2", ONE.format(2))
        (here.top / "crates" / "low" / "specs" / "Values.antt").write_text("one = 1\ntwo = 2\nthree = 4\nmany = 33\n")
        lines = ["low/the crate as it stands: not proved: low::three", "low/one--2: not tried",
                 "low: 0 refused, 2 failed", "0 refused, 2 failed"]
        return unlike(here.tried(), 1, lines)


def wrong_body_that_is_not_tried_in_time_is_told(_: str) -> str | None:
    """What was kept counts, and a later run tries the others."""
    with clone() as here:
        here.edit("one--2", ONE.format(2))
        here.tried()
        here.edit("two--0", TWO.format(0))
        here.edit("four--5", "file: src/lib.rt\nold:     4\nnew:     5\n", "high")
        late = here.tried("--minutes", "0")
        low = "low: 1 refused, 1 of them by an earlier run, 1 not tried"
        if late.status or late.checks or set(late.lines) != {low, "high: 0 refused, 1 not tried",
                                                             "1 refused, 0 failed, 2 not tried"}:
            return f"at the end of its minutes: {late}"
        later = here.tried()
        return None if later.lines[-1] == "3 refused, 0 failed" else f"later: {later}"


def runner_that_is_ended_leaves_nothing(_: str) -> str | None:
    """Neither a changed file, nor its copy, nor the check that ran."""
    with clone() as here:
        here.edit("one--2", ONE.format(2))
        before = files_of(here.top)
        log, temporary = Path(here.environment["RT_LOG"]), Path(here.environment["TMPDIR"])
        runner = subprocess.Popen(here.words(), env=here.environment | {"RT_SECONDS": "60"}, stdout=subprocess.DEVNULL)
        try:
            end = time.monotonic() + SECONDS
            while not log.read_text() and time.monotonic() < end:
                time.sleep(0.01)
            check = Path("/proc", log.read_text().split()[0])
            runner.send_signal(signal.SIGTERM)
            status = runner.wait(SECONDS)
        finally:
            runner.kill()
            runner.wait()
        after, left = files_of(here.top), list(temporary.iterdir())
    is_over = status == 128 + signal.SIGTERM and not left and not check.exists()
    return None if is_over and after == before else f"status {status}, left {left}, check {check.exists()}"


def has_one_body(crate: str, function: Function) -> bool:
    """Tells whether a public function has no wrong body: a law, whose body is empty, what lends the one system at hand,
    what gives the one value of a type or any value, or a call of the machine, of which no clause says what it does."""
    is_law, is_call = function.module == f"{crate}::laws", function.module in MACHINE
    return is_law or is_call or function.name == "system" or function.type + function.trait in ANY_VALUE


def without_wrong_body(crate: str) -> list[str]:
    """Returns the public functions of a crate that no edit changes, by their names."""
    texts = texts_of(TOP / "crates" / crate)
    public = {function for file, text in texts.items() for head in FUNCTION.finditer(text)
              if (function := function_at(crate, file, texts, head.start())) and function.is_public}
    for folder in ("must-fail", "refused"):
        for file in (TOP / "crates" / crate / folder).glob("*.edit"):
            edit = parse_edit(file.stem, Kind.BODY, file.read_text())
            made = edit if isinstance(edit, Fault) else apply(crate, edit, texts)
            public -= frozenset() if isinstance(made, Fault) else made.functions
    return sorted(f"{function.module}::{function.type}{function.trait}::{function.name}" for function in public
                  if not has_one_body(crate, function))


def each_public_function_has_a_wrong_body(_: str) -> str | None:
    """As docs/gate.md says, which also says which have none."""
    crates = [name for name in lines_of(TOP) if not name.endswith("_tests") and name != "srcp_server"]
    missing = [name for crate in crates for name in without_wrong_body(crate)]
    return f"no edit of {', '.join(missing)}" if missing else None


def each_wrong_body_applies(_: str) -> str | None:
    """The gate has minutes for those that changed, and so would try such a fault late, or not at all."""
    faults = []
    for crate in lines_of(TOP):
        texts = texts_of(TOP / "crates" / crate)
        for edit in read_edits(TOP / "crates" / crate):
            made = edit[1] if isinstance(edit, tuple) else apply(crate, edit, texts)
            if isinstance(made, Fault):
                faults.append(f"{crate}/{edit[0] if isinstance(edit, tuple) else edit.name}: {made.why}")
    return "; ".join(faults) or None


WRONG_BODY_CASES = (wrong_bodies_are_tried_together, wrong_bodies_of_one_function_are_tried_in_turn,
                    wrong_body_that_applies_nowhere_fails, wrong_body_that_is_proved_fails,
                    wrong_body_that_another_function_shows_is_tried_alone, wrong_body_that_does_not_compile_fails,
                    wrong_body_that_the_text_of_a_proof_refuses_is_counted,
                    wrong_body_of_an_unknown_form_fails, method_is_known_in_any_file,
                    law_has_to_refuse_its_edits,
                    nothing_is_refused_of_a_crate_that_is_not_proved,
                    wrong_body_that_is_not_tried_in_time_is_told, runner_that_is_ended_leaves_nothing,
                    each_public_function_has_a_wrong_body, each_wrong_body_applies)
