"""What tools/broken.py says of breaks, over a small program and its cases, and whether the breaks of bridges/ apply."""
import os
import shutil
import signal
import subprocess
import sys
import tempfile
import time
from collections.abc import Iterator
from contextlib import contextmanager
from dataclasses import dataclass
from pathlib import Path

from bridge_tests import BRIDGE_CASES
from serving import SECONDS
from wrong_bodies import TOP, Done, files_of, unlike

from broken import Break, broken, read_breaks  # wrong_bodies has tools/ on the path
from edits import Fault

FILES = {
    "bridges/one.py": "one = 1\nprint(one)\n",
    "bridges/folder/two.py": "TWO = 2\n",
    "tests/bridge_tests/__init__.py": "",
    "tests/bridge_tests/common.py": "def until(seconds=60.0):\n    pass\n",
    "tests/run_cases.py": """import os
import subprocess
import sys
import time
from pathlib import Path


class TriedNothing(Exception):
    pass


def one(program):
    told = subprocess.run([sys.executable, Path(os.environ["SRCP_PROGRAMS"], "one.py")], capture_output=True, text=True)
    assert told.stdout == "1\\n", told.stderr


def one_in_set_up(program):
    def setUp():
        one(program)
    setUp()


def two(program):
    sys.path.insert(0, os.environ["SRCP_PROGRAMS"])
    from folder import two
    assert two.TWO == 2


def two_of_the_repository(program):
    sys.path.insert(0, str(Path(__file__).resolve().parent.parent / "bridges"))
    from folder import two
    assert two.TWO == 2


def three_in_chromium(program):
    raise TriedNothing("there is no chromium here")


def late(program):
    raise TimeoutError


def cases_by_name():
    return {"bridge-one": one, "bridge-one-in-set-up": one_in_set_up, "bridge-two": two,
            "bridge-two-of-the-repository": two_of_the_repository,
            "bridge-three-in-chromium": three_in_chromium, "bridge-late": late}


def fault_of(case, program):
    with open(program, "a") as log:
        log.write(f"{os.getpid()} {sys.argv[2]}\\n")
    time.sleep(float(os.environ.get("CASE_SECONDS", 0)))
    try:
        return case(program)
    except TriedNothing as missing:
        return missing
    except Exception as stop:
        return f"{stop!r} at one.py:1"
""",
}
ONE = "file: one.py\ncase: bridge-one\nold: one = 1\nnew: one = {}\n"
TWO = "file: folder/two.py\ncase: bridge-two\nold: 2\nnew: {}\n"


@dataclass(frozen=True)
class Clone:
    """A repository with a small program, and the environment in which its runner is called. The log of its cases stands
    for the server."""
    top: Path
    log: Path
    environment: dict[str, str]

    def edit(self, name: str, text: str) -> None:
        (self.top / "tests" / "bridge_tests" / "breaks" / f"{name}.edit").write_text(text)

    def words(self, *words: str) -> list[str | Path]:
        options = [word for word in words if word.startswith("--") or word.isdecimal()]
        names = [word for word in words if word not in options]
        return [sys.executable, self.top / "tools" / "broken.py", *options, self.log, *names]

    def cases(self) -> list[str]:
        return [line.split()[1] for line in self.log.read_text().splitlines()]

    def tried(self, *words: str) -> Done:
        """Runs the runner, and returns its status, its lines in an order, the last one last, and how many cases ran."""
        before = len(self.cases())
        done = subprocess.run(self.words(*words), env=self.environment, capture_output=True, text=True, timeout=SECONDS)
        *lines, last = (done.stdout + done.stderr).splitlines() or [""]
        return Done(done.returncode, [*sorted(lines), last], len(self.cases()) - before)


@contextmanager
def clone() -> Iterator[Clone]:
    with tempfile.TemporaryDirectory() as folder:
        top, log, temporary = Path(folder) / "clone", Path(folder, "server"), Path(folder, "tmp")
        for name, text in FILES.items():
            (top / name).parent.mkdir(parents=True, exist_ok=True)
            (top / name).write_text(text)
        (top / "tests" / "bridge_tests" / "breaks").mkdir()
        (top / "tools").mkdir()
        for name in ("broken.py", "refused.py", "edits.py"):
            shutil.copy(TOP / "tools" / name, top / "tools")
        log.touch(0o700)
        temporary.mkdir()
        yield Clone(top, log, os.environ | {"XDG_CACHE_HOME": f"{folder}/cache", "TMPDIR": str(temporary),
                                            "RT_JOBS": "2"})


def break_that_its_case_sees_is_kept(_: str) -> str | None:
    """In another clone too, until a file changes that the cases read. Each break is tried by itself, and each case once
    without one."""
    with clone() as here:
        here.edit("one--3", ONE.format(3))
        here.edit("one--4", ONE.format(4))
        here.edit("two--3", TWO.format(3))
        if fault := unlike(here.tried(), 0, ["3 seen, 0 failed"], 5):
            return f"first: {fault}"
        other = Clone(here.top.rename(here.top.with_name("other")), here.log, here.environment)
        if fault := unlike(other.tried(), 0, ["3 seen, 0 failed"], 0):
            return f"kept: {fault}"
        if fault := unlike(other.tried("--anew", "one"), 0, ["2 seen, 0 failed"], 3):
            return f"--anew: {fault}"
        with open(other.top / "bridges" / "folder" / "two.py", "a") as program:
            program.write("# one more line\n")
        return unlike(other.tried("one--4"), 0, ["1 seen, 0 failed"], 2)


def break_that_no_case_sees_fails(_: str) -> str | None:
    """Whenever it is tried, and it is tried twice: a busy machine may hide it. Those beside it are kept."""
    with clone() as here:
        here.edit("one--3", ONE.format(3))
        here.edit("one--the-same", ONE.format("2 - 1"))
        lines = ["one--the-same: bridge-one passes with it", "1 seen, 1 failed"]
        return unlike(here.tried(), 1, lines, 4) or unlike(here.tried(), 1, lines, 2)


def break_that_starts_nothing_fails(_: str) -> str | None:
    """Its case fails then whatever the program does."""
    with clone() as here:
        here.edit("one--no-name", ONE.format("none"))
        here.edit("one--no-python", ONE.format("="))
        here.edit("one--no-setup", ONE.format(3).replace("bridge-one", "bridge-one-in-set-up"))
        here.edit("two--no-import", "file: folder/two.py\ncase: bridge-two\nold: TWO = 2\nnew: import none_such\n")
        here.edit("two--no-assertion", TWO.format("2\nnew: raise KeyError"))
        return unlike(here.tried(), 1, [
            "one--no-name: it starts nothing: NameError", "one--no-python: one.py is no Python with it",
            "one--no-setup: bridge-one-in-set-up fails by no assertion: RuntimeError('it did not begin') at one.py:1",
            "two--no-assertion: bridge-two fails by no assertion: KeyError() at one.py:1",
            "two--no-import: it starts nothing: ModuleNotFoundError", "0 seen, 5 failed"])


def break_that_does_not_reach_its_case_fails(_: str) -> str | None:
    """A case that loads the repository's own modules, and not those of the copy, would see none of their breaks."""
    with clone() as here:
        here.edit("two--3", TWO.format(3).replace("bridge-two", "bridge-two-of-the-repository"))
        return unlike(here.tried(), 1, ["two--3: bridge-two-of-the-repository reads the repository's own folder.two",
                                        "0 seen, 1 failed"], 1)


def break_that_applies_nowhere_fails(_: str) -> str | None:
    """Or at two places, and so does a file that is no break. What is in another folder is found by its path."""
    with clone() as here:
        here.edit("one--3", ONE.format(3))
        here.edit("one--gone", ONE.format(3).replace("one = 1", "one = 7"))
        here.edit("one--twice", ONE.format(3).replace("one = 1", "one"))
        here.edit("one--the-text-of-before", ONE.format(1))
        here.edit("two--elsewhere", TWO.format(3).replace("folder/", ""))
        here.edit("two--without-a-case", TWO.format(3).replace("case: bridge-two\n", ""))
        here.edit("two--words", TWO.format("3\nperhaps"))
        return unlike(here.tried(), 1, [
            "one--gone: its old text stands 0 times in one.py: one = 7", "one--the-text-of-before: it changes nothing",
            "one--twice: its old text stands 2 times in one.py: one", "two--elsewhere: there is no file two.py",
            "two--without-a-case.edit: it needs one 'file:', one 'case:', and an 'old:' and a 'new:'",
            "two--words.edit: no line of a break: perhaps", "1 seen, 6 failed"], 2)


def break_that_is_not_tried_in_time_is_told(_: str) -> str | None:
    """Or whose case tried nothing. What was kept counts."""
    with clone() as here:
        here.edit("one--3", ONE.format(3))
        here.tried()
        here.edit("one--4", ONE.format(4))
        here.edit("two--3", TWO.format(3).replace("bridge-two", "bridge-three-in-chromium"))
        if fault := unlike(here.tried("--minutes", "0"), 0, ["1 seen, 0 failed, 2 not tried"], 0):
            return f"at the end of its minutes: {fault}"
        return unlike(here.tried(), 0, ["two--3: there is no chromium here", "2 seen, 0 failed, 1 not tried"], 3)


def break_whose_case_fails_without_it_is_not_tried(_: str) -> str | None:
    """A machine may be too busy for it."""
    with clone() as here:
        here.edit("one--3", ONE.format(3).replace("bridge-one", "bridge-late"))
        here.edit("one--4", ONE.format(4))
        lines = ["one--3: bridge-late fails without it too", "1 seen, 0 failed, 1 not tried"]
        return unlike(here.tried(), 0, lines, 4) or unlike(here.tried(), 0, lines, 2)


def break_that_was_seen_longest_ago_is_tried_first(_: str) -> str | None:
    """So runs of some minutes come to each, though files change between them."""
    with clone() as here:
        one = Clone(here.top, here.log, here.environment | {"RT_JOBS": "1"})
        one.edit("one--3", ONE.format(3))
        one.edit("two--3", TWO.format(3))
        for name in ("two--3", "one--3"):
            one.tried(name)
            time.sleep(0.05)
        with open(one.top / "bridges" / "one.py", "a") as program:
            program.write("# one more line\n")
        one.tried()
        in_turn = 2 * ["bridge-two", "bridge-two", "bridge-one", "bridge-one"]
        return None if one.cases() == in_turn else f"cases {one.cases()}"


def runner_of_breaks_that_is_ended_leaves_nothing(_: str) -> str | None:
    """Neither a changed file, nor its copy, nor the case that ran."""
    with clone() as here:
        here.edit("one--3", ONE.format(3))
        before = files_of(here.top)
        runner = subprocess.Popen(here.words(), env=here.environment | {"CASE_SECONDS": "60"},
                                  stdout=subprocess.DEVNULL)
        try:
            end = time.monotonic() + SECONDS
            while not here.log.read_text() and time.monotonic() < end:
                time.sleep(0.01)
            case = Path("/proc", here.log.read_text().split()[0])
            runner.send_signal(signal.SIGTERM)
            status = runner.wait(SECONDS)
        finally:
            runner.kill()
            runner.wait()
        left = list(Path(here.environment["TMPDIR"]).iterdir())
        is_over = status == 128 + signal.SIGTERM and not left and not case.exists()
        is_same = files_of(here.top) == before
        return None if is_over and is_same else f"status {status}, left {left}, case {case.exists()}, same {is_same}"


def breaks_apply(_: str) -> str | None:
    """Each break of bridges/ has its old text once, is Python with the new one, and names a case that there is."""
    cases = {case.__name__.replace("_", "-") for case in BRIDGE_CASES}
    faults = []
    for one in read_breaks():
        made = broken(one.change, TOP / "bridges") if isinstance(one, Break) else one[1]
        if isinstance(made, Fault):
            faults.append(f"{one.name if isinstance(one, Break) else one[0]}: {made.why}")
        elif isinstance(one, Break) and one.case not in cases:
            faults.append(f"{one.name}: there is no case {one.case}")
    return "; ".join(faults)[:1000] or None


WRONG_PROGRAM_CASES = (break_that_its_case_sees_is_kept, break_that_no_case_sees_fails, break_that_starts_nothing_fails,
                       break_that_does_not_reach_its_case_fails, break_that_applies_nowhere_fails,
                       break_that_is_not_tried_in_time_is_told, break_whose_case_fails_without_it_is_not_tried,
                       break_that_was_seen_longest_ago_is_tried_first, runner_of_breaks_that_is_ended_leaves_nothing,
                       breaks_apply)
