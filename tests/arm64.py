"""The program and the package for 64-bit ARM, under qemu's emulation of its processors."""
import functools
import re
import shutil
import subprocess
import sys
import tempfile
from contextlib import contextmanager
from pathlib import Path

from debian_package import pack
from pages import TOP, reader_of_a_page, take_bridges
from releases import unpack
from serving import SECONDS, VERSION, TriedNothing

SOURCES = TOP / "packaging" / "arm64"
TESTS = Path(__file__).resolve().parent
EMULATOR = "qemu-aarch64"
COMPILER = "aarch64-linux-gnu-gcc"
LIBRARY = Path("/usr/aarch64-linux-gnu")
EMULATED = [EMULATOR, "-L", LIBRARY]
# of a Raspberry Pi 3, 4 and 5
PROCESSORS = ("cortex-a53", "cortex-a72", "cortex-a76")
SERVED = ("panels-hold-the-registry", "peer-65-is-turned-away", "client-that-half-closes", "port-that-is-taken",
          "turns-are-counted", "memory-that-runs-out", "sessions-on-both-sides", "quiet-session-beside-many",
          "one-session-sends-a-million-commands", "end-of-a-session-with-locks", "half-closed-panel-beside-many")
# A limit of memory is on the emulator too. So its C library takes 64 MB at the start, which the program cannot have.
# An emulator that is refused memory ends, or answers the program's calls with ENOMEM.
RESERVE = "MALLOC_TOP_PAD_"
RESERVED = 64 << 20
MINUTES = 10
NOT_BUILT = 3  # the status of packaging/arm64/build if there is nothing to build it over


@functools.cache
def program_for_arm64():
    """Returns where the program for ARM is: that of the release if that was made from these sources, else one that is
    made now."""
    if not shutil.which(EMULATOR) or not LIBRARY.exists():
        raise TriedNothing("there is no qemu-user and no libc6-arm64-cross here")
    if found := unpack(TOP, "aarch64"):
        return found[0]
    if missing := " and no ".join(tool for tool in ("rt", COMPILER) if not shutil.which(tool)):
        raise TriedNothing(f"nothing is released of these sources for arm64, and there is no {missing} here")
    made = subprocess.run([SOURCES / "build"], capture_output=True, text=True, timeout=60 * MINUTES)
    if made.returncode == NOT_BUILT:
        raise TriedNothing(made.stderr.strip())
    if made.returncode:
        raise RuntimeError(made.stderr)
    return TOP / "out" / "arm64" / "srcp_server"


@contextmanager
def emulated():
    """A program that emulates the one for ARM."""
    with tempfile.TemporaryDirectory() as folder:
        script = Path(folder) / "srcp_server"
        words = " ".join(map(str, [*EMULATED, "-U", RESERVE, program_for_arm64()]))
        script.write_text(f'#!/bin/sh\n{RESERVE}={RESERVED} exec {words} "$@"\n')
        script.chmod(0o755)
        yield script


def version_told(words):
    return subprocess.run([*words, "--version"], capture_output=True, text=True, timeout=SECONDS).stdout


def functions_that_stand_in_for_the_kit(_):
    """Each of the C functions for ARM keeps its contract."""
    if missing := " and no ".join(tool for tool in (EMULATOR, COMPILER) if not shutil.which(tool)):
        raise TriedNothing(f"there is no {missing} here")
    with tempfile.TemporaryDirectory() as folder:
        made = Path(folder) / "helpers_test"
        files = [SOURCES / name for name in ("helpers.c", "helpers_test.c")]
        compiles = [COMPILER, "-O2", "-Wall", "-Wextra", "-Werror", "-o", made, *files]
        subprocess.run(compiles, check=True, timeout=SECONDS)
        done = subprocess.run([*EMULATED, made, "word", ""], capture_output=True, text=True, timeout=SECONDS)
    return None if done.returncode == 0 else f"status {done.returncode}: {done.stdout}{done.stderr}"


def cases_on_arm64(_):
    """The cases of tests/cases, and some of serving and of pacing, pass with the program for ARM."""
    names = [folder.name for folder in sorted((TESTS / "cases").iterdir()) if folder.is_dir()] + list(SERVED)
    with emulated() as program:
        done = subprocess.run([sys.executable, TESTS / "run_cases.py", program, *names], capture_output=True, text=True,
                              timeout=60 * MINUTES)
    want = f"cases: {len(names)} passed, 0 failed, 0 skipped\n"
    return None if done.stdout.endswith(want) else f"{done.stdout[-600:]}{done.stderr[-200:]}"


def processors_of_the_install_page(_):
    """The program runs on the processors of the Raspberry Pis that the page names."""
    page = " ".join((TOP / "docs" / "install.md").read_text().split())
    want = f"{VERSION.decode()}\n"
    wrong = [name for name in PROCESSORS if version_told([*EMULATED, "-cpu", name, program_for_arm64()]) != want]
    return f"does not run on {wrong}" if wrong else None if "of a Pi 3, 4 and 5" in page else "the page names others"


def package_for_arm64(program):
    """It has the program for ARM, stripped, and all else as that for amd64. Without strip for ARM there is none."""
    if not shutil.which("aarch64-linux-gnu-strip"):
        raise TriedNothing("there is no aarch64-linux-gnu-strip here")
    with reader_of_a_page(program) as reader, tempfile.TemporaryDirectory() as name:
        take_bridges(reader)
        there = reader.folder / "out" / "arm64"
        there.mkdir(parents=True)
        shutil.copy(program_for_arm64(), there / "srcp_server")
        roots = [Path(name) / architecture for architecture in ("amd64", "arm64")]
        for root in roots:
            package = pack(reader.folder, reader.environment, "--arch", root.name)
            subprocess.run(["dpkg-deb", "--raw-extract", package, root], check=True, timeout=SECONDS)
        unlike = subprocess.run(["diff", "-rq", *roots], capture_output=True, text=True).stdout.replace(name, "")
        installed = roots[1] / "usr" / "bin" / "srcp_server"
        told = version_told([*EMULATED, installed])
        control = (roots[1] / "DEBIAN" / "control").read_text()
        is_stripped = b".symtab" not in installed.read_bytes()
        tools = reader.folder / "tools"
        tools.mkdir()
        for tool in ("bash", "dirname", "dpkg-deb", "python3"):
            (tools / tool).symlink_to(shutil.which(tool))
        refused = subprocess.run([reader.folder / "package", "--arch", "arm64"], capture_output=True, text=True,
                                 env={"PATH": str(tools)}, timeout=SECONDS)
    files = set(re.findall(r"^Files /amd64/(\S+)", unlike, re.M))
    newest = re.search(r"^Depends: libc6 \(>= ([\d.]+)\)", control, re.M)[1]
    got = (files, told, "Architecture: arm64\n" in control, is_stripped, newest,
           refused.returncode, "strip" in refused.stderr)
    want = ({"DEBIAN/control", "DEBIAN/md5sums", "usr/bin/srcp_server"}, f"{VERSION.decode()}\n", True, True, "2.34",
            1, True)
    return None if got == want else f"got {got}"


ARM64_CASES = (functions_that_stand_in_for_the_kit, cases_on_arm64, processors_of_the_install_page, package_for_arm64)
