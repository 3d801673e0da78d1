"""What is released: how packaging/release makes it, how ./run takes the program from it, whether it is this program."""
import os
import shutil
import subprocess
import sys
import time
from contextlib import contextmanager
from pathlib import Path

from debian_package import package_of, with_packaging_tools
from pages import PACKING, TOP, reader_of_a_page, take_bridges
from run_script import HOW_LONG, NO_ROWS, outcome_of_run, repository_of_one_crate
from serving import SECONDS, TriedNothing

sys.path.insert(0, str(TOP / "packaging"))
from released import ARCHITECTURES, program_of, released_packages, sum_of, sum_of_sources, unpack  # noqa: E402

MACHINE = os.uname().machine
TAKEN = "./run: this is the program of release/{}; ./run --build proves it and builds it here\n"


def release_into(top, package):
    """Gives a repository a release for this machine, of its sources: that package."""
    release = top / "release"
    release.mkdir()
    name = package.name.replace("_amd64", f"_{ARCHITECTURES[MACHINE]}")
    shutil.copy(package, release / name)
    (release / "SHA256SUMS").write_text(f"{sum_of(package.read_bytes())}  {name}\n")
    (release / "sources.sha256").write_text(f"{sum_of_sources(top)}\n")
    return release / name


@contextmanager
def released_repository(program):
    """A repository of one crate that is not built, on a machine with Python and without the kit, its environment, and
    its released package."""
    with package_of(program) as package, repository_that_released(program, package) as repository:
        yield repository


@contextmanager
def repository_that_released(program, package):
    """The same, which has released that package."""
    with repository_of_one_crate(program) as (top, environment):
        (top / "tools" / "python3").symlink_to(sys.executable)
        (top / "packaging" / "debian").mkdir(parents=True)
        for name in ("released.py", "debian/control"):
            shutil.copy(TOP / "packaging" / name, top / "packaging" / name)
        yield top, environment, release_into(top, package)


@with_packaging_tools
def run_takes_what_is_released(program):
    """If nothing is built, ./run takes the released program, within two seconds, and tells so once."""
    with released_repository(program) as (top, environment, package):
        began = time.monotonic()
        first = outcome_of_run(top, environment)
        seconds = time.monotonic() - began
        again = outcome_of_run(top, environment)
    want = (0, TAKEN.format(package.name), NO_ROWS), (0, "", NO_ROWS)
    return None if (first, again) == want and seconds < 2 else f"got {(first, again)!r} in {seconds:.1f} s"


@with_packaging_tools
def run_builds_what_is_not_released(program):
    """./run asks for the kit if a source differs from those of the release, if the package is not the one of its sum,
    and if there is none for this machine. --build builds beside a release, and runs nothing if no words follow."""
    def edit(top, _):
        (top / "crates" / "srcp_server" / "src" / "main.rt").write_text("// edited")

    def damage(_, package):
        package.write_bytes(package.read_bytes()[:-1] + b"?")

    def rename(top, package):
        sums = top / "release" / "SHA256SUMS"
        sums.write_text(sums.read_text().replace(package.name, "srcp-server_1_riscv64.deb"))

    asks, warns = "program rt is not on the PATH", "is not the package whose sum is in release/SHA256SUMS"
    for change, told in ((edit, asks), (damage, warns), (rename, asks)):
        with released_repository(program) as (top, environment, package):
            change(top, package)
            status, said, printed = outcome_of_run(top, environment)
        if status != 1 or told not in said or asks not in said or printed:
            return f"after {change.__name__}: {(status, said, printed)!r}"
    with released_repository(program) as (top, environment, _):
        (top / "rt").rename(top / "tools" / "rt")
        done = subprocess.run([top / "run", "--build"], input="", env=environment, capture_output=True, text=True,
                              timeout=SECONDS)
        later = outcome_of_run(top, environment)
    got = done.returncode, done.stdout, done.stderr.startswith(HOW_LONG), later
    return None if got == (0, "", True, (0, "", NO_ROWS)) else f"--build: {got!r}"


# What stands in for another machine: a line of Python before released.py, and what ./run says then.
OTHER_MACHINES = (
    ("import os; os.uname = lambda: type('', (), {'machine': 'armv7l'})", "no released program for armv7l: only for"),
    ("import struct; struct.calcsize = lambda _: 4", "this system is one of 32 bits, on a processor of 64"),
    ("import os; os.confstr = lambda _: 'glibc 2.31'", "C library 2.34 or later, and this system has glibc 2.31"),
    ("import os; os.confstr = lambda _: None", "C library 2.34 or later, and this system has another"),
    ("import sys; sys.platform = 'darwin'", "the program runs on Linux, and this is darwin"),
    ("import os; os.access = lambda *_: False", "may not be executed: is its file system mounted with noexec?"))


def lack_package(top):
    """Leaves a release the package of another machine alone."""
    sums = top / "release" / "SHA256SUMS"
    sums.write_text(sums.read_text().replace(f"_{ARCHITECTURES[MACHINE]}.deb", "_riscv64.deb"))


def give_to_root(top):
    """Has everybody read a repository of root's, with a python3 that everybody may run."""
    top.chmod(0o755)
    (top / "tools" / "python3").unlink()
    (top / "tools" / "python3").symlink_to("/usr/bin/python3")


@with_packaging_tools
def run_names_what_is_the_matter(program):
    """What is wrong with the machine, the release or the clone, before it asks for the kit."""
    with package_of(program) as package:
        trials = list(causes_and_what_is_told(program, package))
    wrong = [(cause, said) for said, cause in trials
             if "./run: " not in said or cause not in said or "Traceback" in said]
    return f"{wrong[0]}" if wrong else None


def causes_and_what_is_told(program, package):
    """What ./run says, and what it should name, for each of what may be wrong."""
    def told(change, **more):
        with repository_that_released(program, package) as (top, environment, _):
            change(top)
            there = environment | {"PYTHONPATH": str(top)} | more.pop("env", {})
            done = subprocess.run([top / "run"], input="", env=there, capture_output=True, text=True, timeout=SECONDS,
                                  **more)
        return done.stderr if done.returncode == 1 and not done.stdout else f"{done}"

    for line, cause in OTHER_MACHINES:
        yield told(lambda top: (top / "sitecustomize.py").write_text(line)), cause
    yield told(lambda top: (top / "tools" / "python3").unlink()), "there is no python3 here to unpack it"
    yield told(lambda top: (top / "crates" / "more.rt").write_text("")), "made from other sources"
    yield told(lack_package), f"release/ has no package for {MACHINE}"
    yield told(lambda top: None, env={"OSTYPE": "darwin23"}), "runs on Linux, and this is darwin23"
    if os.geteuid() == 0 and os.path.exists("/usr/bin/python3"):
        yield told(give_to_root, user=65534), "belongs to root, and you may not write there"


@with_packaging_tools
def run_unpacks_a_program_that_was_cut_again(program):
    """As by a loss of power: one that is empty, and one that lacks its last byte."""
    with released_repository(program) as (top, environment, package):
        outcome_of_run(top, environment)
        unpacked, = (top / "out" / "released").glob("*/srcp_server")
        whole, got = unpacked.read_bytes(), []
        for cut in (b"", whole[:-1]):
            unpacked.write_bytes(cut)
            got.append(outcome_of_run(top, environment))
        is_whole = unpacked.read_bytes() == whole
    return None if is_whole and got == [(0, TAKEN.format(package.name), NO_ROWS)] * 2 else f"got {got!r}"


@with_packaging_tools
def run_tells_where_the_program_is(program):
    """The released one, and once it is built the built one: the page of installing has it so. CONTRIBUTING.md says how
    cases run over the released one."""
    with released_repository(program) as (top, environment, _):
        def where(*words):
            return subprocess.run([top / "run", *words, "--where"], env=environment, capture_output=True, text=True,
                                  timeout=SECONDS).stdout
        released = where()
        unpacked, = (top / "out" / "released").glob("*/srcp_server")
        (top / "rt").rename(top / "tools" / "rt")
        built = where("--build")
    told = ('"$(./run --where)" /usr/local/bin/srcp_server' in (TOP / "docs" / "install.md").read_text(),
            "run_cases.py out/released/*/srcp_server NAME" in (TOP / "CONTRIBUTING.md").read_text())
    got = released, built, told
    want = f"{unpacked}\n", f"{top}/crates/srcp_server/out/srcp_server\n", (True, True)
    return None if got == want else f"got {got}"


@contextmanager
def repository_to_release(program):
    """A copy of the repository in which the program is built, and another one in its place for arm64, committed. Its
    changes have a release that packaging/changelog lacks."""
    with reader_of_a_page(program) as reader:
        top = reader.folder
        take_bridges(reader)
        built = top / "out" / "arm64" / "srcp_server"
        built.parent.mkdir(parents=True)
        shutil.copy(program, built)
        tools = top / "stand_ins"
        tools.mkdir()
        (tools / "aarch64-linux-gnu-strip").symlink_to(shutil.which("strip"))
        environment = reader.environment | {"PATH": f"{tools}:{reader.environment['PATH']}"}
        (top / ".gitignore").write_text("out/\n__pycache__/\n/root/\n")
        changes = (TOP / "CHANGELOG.md").read_text()
        (top / "CHANGELOG.md").write_text(changes.replace("\n## ", "\n## 99.1\n\n- A change.\n\n## ", 1))
        git(top, environment, "init", "-q")
        commit(top, environment)
        yield top, environment


def git(top, environment, *words):
    subprocess.run(["git", *words], cwd=top, check=True, timeout=SECONDS, env=environment)


def commit(top, environment):
    """Commits all files of a repository."""
    git(top, environment, "add", ".")
    git(top, environment, "-c", "user.name=nobody", "-c", "user.email=nobody@example.org", "commit", "-qm", "all")


def made_release(top, environment):
    """Makes the release, and returns its status, what it said, and the files that are there."""
    done = subprocess.run([top / "packaging" / "release"], env=environment, capture_output=True, text=True,
                          timeout=2 * PACKING)
    files = {file.name: file.read_bytes() for file in (top / "release").glob("*")}
    return done.returncode, done.stderr, files


@with_packaging_tools
def release_of_what_is_built(program):
    """The same bytes each time: both packages, their sums, and the sum of the sources. Nothing changes if a file
    differs from the last commit, if a package cannot be made, or if packaging/changelog lacks a release."""
    if not shutil.which("git"):
        raise TriedNothing("there is no git here")
    with repository_to_release(program) as (top, environment):
        untold = made_release(top, environment)
        subprocess.run([top / "packaging" / "changes.py"], check=True, timeout=SECONDS, env=environment)
        commit(top, environment)
        _, told, first = made_release(top, environment)
        if len(first) != 4:
            return f"made {sorted(first)}: {told}"
        again = made_release(top, environment)
        found = [unpack(top, machine) for machine in ("x86_64", "aarch64", "riscv64")]
        (top / "crates.txt").write_text("low:\n")
        changed = made_release(top, environment)
        (top / "crates.txt").write_text("")
        (top / "crates" / "srcp_server" / "out" / "srcp_server").unlink()
        unbuilt = made_release(top, environment)
    if again != (0, "", first) or [bool(one) for one in found] != [True, True, False]:
        return f"made again: {again[:2]}, unpacked {found}"
    if untold[::2] != (1, {}) or "call packaging/changes.py" not in untold[1] or "99.1-1" not in str(first.keys()):
        return f"a release that is not told: {untold[:2]}; made {sorted(first)}"
    is_told = "commit these first" in changed[1] and "is not built" in unbuilt[1]
    got = changed[0], changed[2] == first, unbuilt[0], unbuilt[2] == first, is_told
    return None if got == (1, True, 1, True, True) else f"got {got}, {changed[1]}, {unbuilt[1]}"


@with_packaging_tools
def version_is_released_once(program):
    """With the bytes of before it is made again; with others it is refused, and release/ stays."""
    if not shutil.which("git"):
        raise TriedNothing("there is no git here")
    with repository_to_release(program) as (top, environment):
        subprocess.run([top / "packaging" / "changes.py"], check=True, timeout=SECONDS, env=environment)
        commit(top, environment)
        _, told, first = made_release(top, environment)
        commit(top, environment)
        again = made_release(top, environment)
        (top / "packaging" / "copyright").write_text("other\n")
        commit(top, environment)
        other = made_release(top, environment)
    got = len(first), again == (0, "", first), other[0], other[2] == first, "was released with other bytes" in other[1]
    return None if got == (4, True, 1, True, True) else f"got {got}; {told}{again[1]}{other[1]}"


def commits_since_the_release():
    """Returns how many commits changed the sources since that of the release, in words."""
    def git(*words):
        return subprocess.run(["git", *words], cwd=TOP, capture_output=True, text=True, timeout=SECONDS).stdout.strip()
    last = git("log", "-1", "--format=%H", "--", "release")
    count = git("rev-list", "--count", f"{last}..HEAD", "--", "crates", "crates.txt", "packaging/arm64") if last else ""
    return f"{count} commits behind its sources" if count else "behind its sources, and git does not tell by how much"


@with_packaging_tools
def released_program_is_this_program(program):
    """The packages in release/ are those of its sums. If its sources are those that are here, so is its program."""
    packages = released_packages(TOP)
    if not packages:
        raise TriedNothing("nothing is released")
    for name, told in packages.values():
        if sum_of((TOP / "release" / name).read_bytes()) != told:
            return f"release/{name} is not the package of its sum"
    if (TOP / "release" / "sources.sha256").read_text().strip() != sum_of_sources(TOP):
        raise TriedNothing(f"release/ is {commits_since_the_release()}")
    with package_of(program) as package:
        here = program_of(package.read_bytes())
    there = program_of((TOP / "release" / packages["amd64"][0]).read_bytes())
    return None if here == there else f"{len(here)} bytes here, {len(there)} released, of the same sources"


def lay_test(top: Path) -> None:
    """Gives a repository the script `test`. What that calls writes its words into the file `log`, and fails if the
    repository has a file `bad`."""
    shutil.copy(TOP / "test", top)
    called = "import os, sys\nopen('log', 'a').write(' '.join(sys.argv) + '\\n')\nsys.exit(os.path.exists('bad'))\n"
    for name in ("tests/run_cases.py", "tests/run_out_of_memory.py", "tools/refused.py", "tools/broken.py"):
        (top / name).parent.mkdir(exist_ok=True)
        (top / name).write_text(called)


def outcome_of_test(top: Path, environment: dict[str, str], *words: str) -> tuple[int, str, list[str]]:
    """Runs ./test, and returns its status, its standard error, and what it called."""
    (top / "log").write_text("")
    done = subprocess.run([top / "test", *words], env=environment, capture_output=True, text=True, timeout=SECONDS)
    return done.returncode, done.stderr, (top / "log").read_text().splitlines()


@with_packaging_tools
def test_without_the_kit(program: str) -> str | None:
    """./test runs the cases over the released program. It says that no proof was tried, with status 3, unless a case
    fails. If the release is of other sources, it says that nothing was tried."""
    with released_repository(program) as (top, environment, package):
        lay_test(top)
        status, said, called = outcome_of_test(top, environment, "--all")
        (top / "bad").touch()
        failed = outcome_of_test(top, environment)
        (top / "crates.txt").write_text("srcp_server: clap toml\n")
        nothing = outcome_of_test(top, environment)
        is_there = [Path(call.split()[1]).exists() for call in called]
    needs = (TOP / "README.md").read_text().partition("\n## What you need\n")[2].partition("\n## ")[0]
    is_told = ('README.md, "What you need", says which kit, and whom to ask' in said and "No proof was tried" in said
               and "`rattle-kit-" in needs and "has the kit: [ask](#licence)" in " ".join(needs.split()))
    if (status, is_told, is_there) != (3, True, [True]) or not called[0].startswith("tests/run_cases.py "):
        return f"got {(status, said, called, is_there)}"
    if failed[0] != 1 or "No proof" in failed[1]:
        return f"if a case fails: {failed}"
    return None if nothing[0] == 1 and "nothing was" in nothing[1] and not nothing[2] else f"no program: {nothing}"


def test_with_the_kit(program: str) -> str | None:
    """./test runs what it built, and calls neither ./run nor what is released. With --all it tries the other wrong
    bodies and wrong programs too. It ends where something fails. Any other word is refused."""
    with repository_of_one_crate(program) as (top, environment):
        lay_test(top)
        (top / "tools" / "python3").symlink_to(sys.executable)
        (top / "tools" / "rt").write_text("#!/bin/sh\necho rt \"$@\" >> log\n")
        (top / "tools" / "rt").chmod(0o755)
        plain, every = outcome_of_test(top, environment), outcome_of_test(top, environment, "--all")
        wrong = outcome_of_test(top, environment, "--al")
        (top / "bad").touch()
        bad = outcome_of_test(top, environment, "--all")
    calls = ["rt ci", "tests/run_out_of_memory.py", "tests/run_cases.py crates/srcp_server/out/srcp_server"]
    with_all = [*calls, "tools/refused.py --of-ci --minutes 45",
                "tools/broken.py --minutes 5 crates/srcp_server/out/srcp_server"]
    if (plain[::2], every[::2], bad[::2]) != ((0, calls), (0, with_all), (1, with_all[:2])):
        return f"got {plain}, with --all {every}, with what fails {bad}"
    return None if wrong == (2, "usage: ./test [--all]\n", []) else f"another word: {wrong}"


RELEASE_CASES = (run_takes_what_is_released, run_builds_what_is_not_released, run_names_what_is_the_matter,
                 run_unpacks_a_program_that_was_cut_again, run_tells_where_the_program_is, release_of_what_is_built,
                 version_is_released_once, released_program_is_this_program, test_without_the_kit, test_with_the_kit)
