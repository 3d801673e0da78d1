"""The programs of bridges/ and of examples/ by other Pythons: that of Debian 13, and those that are too old. And what
the pages say of the systems that the programs are tried on."""
import ast
import os
import re
import shutil
import subprocess
import sys
import tempfile
import time
from pathlib import Path
from unittest import mock

from bridge_tests import BRIDGE_CASES
from pages import TOP
from serving import TriedNothing

sys.path.insert(0, str(TOP / "packaging"))
from roots import NAMES, make_root  # noqa: E402

ASKED = "SRCP_DEBIAN_13"
MINUTES = 60
PACKAGES = "python3,python3-paho-mqtt,python3-zeroconf,mosquitto,mosquitto-clients,openssl,procps"
# The repository and the program are in the root where they are here, as long as the cases run.
RUN_THERE = """
set -e
for folder in "$2" "$3"; do
  mkdir -p "$1$folder"
  mount --bind "$folder" "$1$folder"
done
mount -t proc proc "$1/proc"
mount --rbind /dev "$1/dev"
root=$1 top=$2 program=$3/$4
shift 4
exec chroot "$root" env -i PATH=/usr/sbin:/usr/bin:/sbin:/bin LC_ALL=C.UTF-8 PYTHONDONTWRITEBYTECODE=1 \\
  python3 "$top/tests/run_cases.py" "$program" "$@"
"""


def stop_if_lacking() -> None:
    if not os.environ.get(ASKED):
        raise TriedNothing(f"{ASKED} is not set")
    if missing := [tool for tool in ("debootstrap", "unshare") if not shutil.which(tool)]:
        raise TriedNothing(f"there is no {missing[0]} here")
    if os.geteuid() or subprocess.run(["unshare", "--mount", "true"], capture_output=True).returncode:
        raise TriedNothing("it takes root, and leave to mount")


def bridges_by_the_python_of_debian_13(program: str) -> str | None:
    """Each case of bridges/ but those of the browser, in a root of that system, if one can be had within ten minutes.
    The gate asks for them: a root takes minutes and 400 MB."""
    stop_if_lacking()
    names = [name for case in BRIDGE_CASES if "chromium" not in (name := case.__name__.replace("_", "-"))]
    with tempfile.TemporaryDirectory(dir="/var/tmp") as folder:
        try:
            make_root(Path(folder), "13", f"--include={PACKAGES}", seconds=10 * MINUTES)
        except (OSError, subprocess.SubprocessError) as fault:
            raise TriedNothing(f"a root of Debian 13 cannot be had: {fault}") from None
        by = os.readlink(Path(folder, "usr", "bin", "python3")).removeprefix("python")
        if f"the bridges by {by} of Debian 13" not in (TOP / "README.md").read_text():
            return f"README.md does not say that the bridges are tried by {by}"
        there = Path(program)
        words = ["unshare", "--mount", "sh", "-c", RUN_THERE, "sh", folder, TOP, there.parent, there.name, *names]
        done = subprocess.run(words, stdout=subprocess.PIPE, stderr=subprocess.STDOUT, text=True, timeout=40 * MINUTES)
    print(f"by the Python of Debian 13: {done.stdout.strip()}")
    return f"status {done.returncode}: {done.stdout[-2000:]}" if done.returncode else None


OLD = """import sys
sys.version_info, sys.version, sys.modules["tomllib"] = (3, 9, 2, "final", 0), "3.9.2 (default)", None
"""
PROGRAMS = sorted(file for folder in ("bridges", "examples") for file in (TOP / folder).glob("*.py"))


def older_python_is_told_in_one_line(_: str) -> str | None:
    """Each program can be read by Python 3.9, and says then what it takes, whatever it imports."""
    with tempfile.TemporaryDirectory() as folder:
        Path(folder, "sitecustomize.py").write_text(OLD)
        for file in PROGRAMS:
            done = subprocess.run([sys.executable, file, "--help"], capture_output=True, text=True, timeout=MINUTES,
                                  env=os.environ | {"PYTHONPATH": folder})
            lines = done.stderr.splitlines()
            if (done.returncode, done.stdout, len(lines)) != (1, "", 1) or "takes Python 3.11 or later" not in lines[0]:
                return f"{file.name}: {done}"
            ast.parse(file.read_text(), feature_version=(3, 9))
    return None if PROGRAMS else "no programs"


ENDLESS = """#!/bin/sh
(while :; do mkdir -p "$3/deep/er"; date > "$3/deep/er/file"; done) &
mount -t proc proc "$3/proc"
wait
"""


def root_that_takes_too_long(_: str) -> str | None:
    """It is given up, with all that is at work in it and all that is mounted there, so that it can be deleted."""
    if os.geteuid() or subprocess.run(["unshare", "--mount", "--pid", "true"], capture_output=True).returncode:
        raise TriedNothing("it takes root, and leave to mount")
    with tempfile.TemporaryDirectory() as tools, tempfile.TemporaryDirectory() as folder:
        endless = Path(tools, "debootstrap")
        endless.write_text(ENDLESS)
        endless.chmod(0o755)
        Path(folder, "proc").mkdir()
        with mock.patch.dict(os.environ, PATH=f"{tools}:{os.environ['PATH']}"):
            try:
                make_root(Path(folder), "13", seconds=2)
                return "it ends by itself"
            except subprocess.CalledProcessError:
                pass
        begun = Path(folder, "deep").exists()
        shutil.rmtree(folder)
        time.sleep(0.5)
        is_gone = not Path(folder).exists()
        Path(folder).mkdir(exist_ok=True)
    return None if begun and is_gone else f"begun: {begun}; gone: {is_gone}"


def packages_of_the_gate(_: str) -> str | None:
    """The gate's page has those that .ci/run installs and no others, how the other Python is asked for, and which call
    .ci/run makes."""
    if not (run := TOP / ".ci" / "run").exists():
        raise TriedNothing("there is no .ci/run here")
    page = " ".join((TOP / "docs" / "gate.md").read_text().split())
    told = re.findall(r"Some cases need Debian's ([^.]*), which `.ci/run` installs", page)
    named = set(re.split(", | and ", told[0]))
    installed = set(re.findall(r'^packages="([^"]*)"', run.read_text(), re.M)[0].split())
    called = f"`{re.findall(r'^exec (.*)$', run.read_text(), re.M)[-1]}`, which `.ci/run` calls"
    missing = [text for text in (f"With `{ASKED}=yes`", called) if text not in page]
    return f"not on both: {named ^ installed}; not told: {missing}" if named != installed or missing else None


def systems_of_the_pages(_: str) -> str | None:
    """They name those that packaging/try_in_debian has."""
    named = " and ".join(sorted(NAMES))
    told = {"README.md": f"On Debian {named}, and 64-bit", "docs/install.md": f"**Tried:** Debian {named} on x86-64"}
    wrong = [name for name, text in told.items() if text not in (TOP / name).read_text()]
    return f"{wrong} do not name {named}" if wrong else None


def units_that_systemd_ran(_: str) -> str | None:
    """The page of the bridges names those that packaging/try_in_debian starts."""
    units = re.findall(r"^UNITS = (.*)$", (TOP / "packaging" / "try_in_debian").read_text(), re.M)[0]
    page = " ".join((TOP / "bridges" / "tried.md").read_text().split())
    told = re.findall(r"Of the units, systemd ran ([^.]*), by \[packaging/try_in_debian\]", page)
    named, started = set(re.findall(r"`(\w+)`", told[0])), set(re.findall(r"srcp_bridge@(\w+)", units))
    return None if named == started else f"the page names {named}, and {started} are started"


PYTHON_CASES = (bridges_by_the_python_of_debian_13, older_python_is_told_in_one_line, root_that_takes_too_long,
                packages_of_the_gate, systems_of_the_pages, units_that_systemd_ran)
