"""The form of the repository's files, which programs can be executed, and what checkers of Python say of it."""
import os
import re
import shutil
import subprocess
import tempfile
import tomllib
from functools import cache
from pathlib import Path

from serving import TriedNothing

TOP = Path(__file__).resolve().parent.parent
PYTHON_FOLDERS = ("bridges", "examples", "packaging", "tests", "tools")
UNTYPED = {"packaging", "tests"}  # of these, folders in which a function may have no types
# Folders that are made, and those whose files have the bytes that a case or an edit wants.
LEFT_OUT = {".git", "out", "__pycache__", ".mypy_cache", "cases", "must-fail", "refused", "laws-refuse"}
NO_TEXT = {".png", ".deb", ".ico"}
MINUTES = 60
# How many columns a line may have, by the pattern of .editorconfig.
LENGTHS = {"*.{py,rt}": 120, "*.antt": 120, "crates/*/proofs/**.antt": 140}


@cache
def files_of_the_repository():
    """Returns each file that belongs to the repository, but for the inputs of cases and edits."""
    found = []
    for folder, folders, names in os.walk(TOP):
        folders[:] = [name for name in folders if name not in LEFT_OUT]
        found += [Path(folder, name) for name in names]
    inputs = TOP / "crates" / "srcp_server"  # of the program's own run in the gate
    return [file for file in found if file.suffix not in NO_TEXT and file.parent != inputs and file.is_file()]


def form_of(pattern):
    """Returns the form of the paths that a pattern of .editorconfig is for. One without a folder is for all folders."""
    words = {"**": ".*", "*": "[^/]*", "?": "[^/]", "{": "(?:", ",": "|", "}": ")"}
    parts = re.split(r"(\*\*|[*?{,}])", pattern)
    form = "".join(words.get(part, re.escape(part)) for part in parts)
    return re.compile(form.removeprefix("/") if "/" in pattern else rf"(?:.*/)?{form}")


@cache
def lengths():
    """Returns how long lines may be, by the pattern of .editorconfig."""
    parts = re.split(r"^\[(.*)\]$", (TOP / ".editorconfig").read_text(), flags=re.M)[1:]
    said = zip(parts[::2], (re.search(r"^max_line_length = (\d+)$", text, re.M) for text in parts[1::2]))
    return {pattern: int(length[1]) for pattern, length in said if length}


def longest_of(path):
    """Returns how long the lines of a file may be, by its path from the top: the last pattern counts. None if it has no
    limit."""
    told = [length for pattern, length in lengths().items() if form_of(pattern).fullmatch(path)]
    return told[-1] if told else None


def faults_of_form(file):
    """Returns what of a file is not as .editorconfig says, with the numbers of the lines."""
    content = file.read_bytes()
    try:
        text = content.decode()
    except UnicodeDecodeError:
        return ["it is no UTF-8"]
    found = ["the end of a line"] if content and not text.endswith("\n") or "\r" in text else []
    longest = longest_of(str(file.relative_to(TOP)))
    for number, line in enumerate(text.split("\n"), 1):
        if line != line.rstrip():
            found.append(f"line {number} ends in a space")
        if longest and len(line) > longest:
            found.append(f"line {number} has {len(line)} columns")
    return found


def files_have_their_form(_):
    """Each is UTF-8, its lines end in LF and in no space, and none is longer than .editorconfig says."""
    faults = [f"{file.relative_to(TOP)}: {fault}" for file in sorted(files_of_the_repository())
              for fault in faults_of_form(file)]
    if lengths() != LENGTHS:
        faults.append(f"limits: {lengths()}")
    return "; ".join(faults)[:1000] or None


def programs_can_be_executed(_):
    """Those whose first line names what runs them, and no others."""
    programs = [file for file in files_of_the_repository() if re.match(rb"#!\s*/", file.read_bytes()[:20])]
    wrong = [str(file.relative_to(TOP)) for file in files_of_the_repository()
             if os.access(file, os.X_OK) != (file in programs)]
    if wrong:
        return f"cannot be executed, or have no such line: {wrong}"
    return None if len(programs) > 20 else f"{len(programs)} programs"


def python_is_checked(_):
    """By mypy as pyproject.toml says, and by pyflakes3. It names the same Python as the README."""
    wanted = tomllib.loads((TOP / "pyproject.toml").read_text())["project"]["requires-python"].removeprefix(">=")
    if f"Python {wanted} or later" not in (TOP / "README.md").read_text():
        return f"README.md does not ask for Python {wanted}"
    if missing := " and no ".join(tool for tool in ("mypy", "pyflakes3") if not shutil.which(tool)):
        raise TriedNothing(f"there is no {missing} here")
    folders = [TOP / name for name in PYTHON_FOLDERS]
    scripts = [TOP / "packaging" / name for name in ("release", "try_in_debian")]
    words = ["pyflakes3", *folders, *scripts]
    told = subprocess.run(words, capture_output=True, text=True, timeout=10 * MINUTES).stdout
    with tempfile.TemporaryDirectory() as cache_of_mypy:
        words = ["mypy", "--config-file", TOP / "pyproject.toml", "--cache-dir", cache_of_mypy, "--no-error-summary",
                 "."]
        for folder in folders:
            less = ["--allow-untyped-defs", "--no-check-untyped-defs"] if folder.name in UNTYPED else []
            done = subprocess.run(words + less, cwd=folder, capture_output=True, text=True, timeout=10 * MINUTES)
            told += "".join(line for line in done.stdout.splitlines(keepends=True) if ": note: " not in line)
    return told[:600] or None


HOUSE_CASES = (files_have_their_form, programs_can_be_executed, python_is_checked)
