#!/usr/bin/env python3
"""gate_times.py COMMAND [WORD ..]: runs a gate, as ./test, and prints the processor minutes of each crate's proof, its
tests and its edits, as a table for docs/gate.md.

Each second it looks at the provers that run below the command. The last row has all that the command used, the cases
and the builds included. It prints the table to standard error once the command has ended, and ends with its status.
"""
import os
import re
import resource
import subprocess
import sys
import time
from collections import defaultdict
from collections.abc import Iterator, Mapping
from pathlib import Path

TICKS = os.sysconf("SC_CLK_TCK")
STAGES = ("proof", "tests", "edits")
Work = tuple[str, str]  # a crate, and one of STAGES


def stage_of(words: list[str], folder: str) -> str:
    """Returns what a prover in a folder works at. Edits are tried in folders of `rt ci` and of tools/refused.py."""
    if re.search(r"/rt-edit-|/srcp_refused_[^/]+/[^/]+/crates/", folder):
        return "edits"
    return "tests" if "--test" in words else "proof"


def fields_of(process: Path) -> list[str]:
    """The fields of a process from its state on, as in proc(5): the second is its parent."""
    return (process / "stat").read_text().rpartition(")")[2].split()


def is_below(process: Path, command: int) -> bool:
    """Whether a process was begun by the command, or by a process that was."""
    while process.name not in ("0", "1"):
        process = process.with_name(fields_of(process)[1])
        if process.name == str(command):
            return True
    return False


def provers(command: int) -> Iterator[tuple[tuple[str, str], Work, float]]:
    """Each prover that runs below the command, as (process, start), with its crate, stage and processor seconds."""
    for process in Path("/proc").glob("[0-9]*"):
        try:
            words = (process / "cmdline").read_bytes().decode(errors="replace").split("\0")
            if not words[0].endswith("/rattle") or "--crate-name" not in words or not is_below(process, command):
                continue
            fields = fields_of(process)
            crate = words[words.index("--crate-name") + 1]
            seconds = (int(fields[11]) + int(fields[12])) / TICKS
            yield (process.name, fields[19]), (crate, stage_of(words, os.readlink(process / "cwd"))), seconds
        except OSError:
            continue  # it ended while it was looked at


def table(seconds_of: Mapping[tuple[str, str], tuple[Work, float]], wall: float) -> Iterator[str]:
    crates = sorted({crate for (crate, _), _ in seconds_of.values()})
    sums: defaultdict[Work, float] = defaultdict(float)
    for (crate, stage), seconds in seconds_of.values():
        sums[crate, stage] += seconds / 60
    yield "| Crate | Proof | Tests | Edits | In all |\n|---|---|---|---|---|"
    for crate in crates:
        stages = [sums[crate, stage] for stage in STAGES]
        yield f"| `{crate}` | " + " | ".join(f"{minutes:.1f}" for minutes in [*stages, sum(stages)]) + " |"
    stages = [sum(sums[crate, stage] for crate in crates) for stage in STAGES]
    used = resource.getrusage(resource.RUSAGE_CHILDREN)
    whole = (used.ru_utime + used.ru_stime) / 60
    yield "| all | " + " | ".join(f"{minutes:.1f}" for minutes in stages) + f" | {whole:.1f} |"
    yield f"\n{whole:.0f} processor minutes in {wall / 60:.0f} minutes on {os.cpu_count()} processors"


def main() -> int:
    seconds_of: dict[tuple[str, str], tuple[Work, float]] = {}
    begun = time.monotonic()
    gate = subprocess.Popen(sys.argv[1:])
    while gate.poll() is None:
        seconds_of.update((key, (work, seconds)) for key, work, seconds in provers(gate.pid))
        time.sleep(1)
    print("\n".join(table(seconds_of, time.monotonic() - begun)), file=sys.stderr)
    return gate.returncode


if __name__ == "__main__":
    sys.exit(main())
