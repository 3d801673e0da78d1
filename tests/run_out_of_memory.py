#!/usr/bin/env python3
"""run_out_of_memory.py: refuses each allocation in turn, to every call that can want memory and to a whole run.

`rt try` builds the program of crates/out_of_memory_tests once, without a proof, and refuses the allocation of the same
number in each case. A case names a trial and how many allocations come first, so that each allocation of the trial is
refused in one of them. Its outcome is `refused` or `granted` if the promises were kept, `unprepared` if the allocation
is none of the call's, and `broken` else. The trials of a listing get its script and print the whole record of the run.
One that is no record of listing_out_of_memory.py is `broken` too. The last line counts the cases; the status is 0 only
if all of them pass.
"""
import re
import subprocess
import sys
import tempfile
from pathlib import Path

from listing_out_of_memory import RECORDS, SCRIPT, event_refused, is_expected

CRATE = Path(__file__).resolve().parent.parent / "crates" / "out_of_memory_tests"
# how many allocations each trial is tried with, which is more than it has
TRIALS = {"queue": 3, "feed": 5, "mirror": 4, "layout": 5, "connect": 8, "configuration": 18, "script": 4, "words": 84,
          "serve": 9, "play-flat": 62, "play-nested": 66, "listing-flat": 39, "listing-nested": 48}
LISTINGS = ("listing-flat", "listing-nested")
# how many allocations of a listing's trial are left out: they read its script, which is not its run
READING = 11
BEFORE = 200
OUTCOME = re.compile(r"^== (\S+)-(\d+)\n((?:.*\n)*?)(\w+)\n(?=== |\Z)", re.M)


def write_cases(folder):
    """Writes the standard input of each case."""
    for trial, most in TRIALS.items():
        left_out, script = (READING, SCRIPT) if trial in LISTINGS else (0, "")
        for allocation in range(1, most + 1):
            Path(folder, f"{trial}-{allocation:03}").write_text(f"{trial} {BEFORE - left_out - allocation}\n{script}")


def outcomes_of_all():
    """Returns for each trial its outcomes with its first allocation refused, its second, and so on. Returns for each
    listing the events that were refused in its records, in that order."""
    with tempfile.TemporaryDirectory() as cases:
        write_cases(cases)
        # one step for the interpreter: the run that is compiled with checks is what counts
        done = subprocess.run(["rt", "try", "--steps", "1", "--fail-alloc", str(BEFORE + 1), "--cases", cases],
                              cwd=CRATE, capture_output=True, text=True, stdin=subprocess.DEVNULL)
    came, events = {trial: [] for trial in TRIALS}, {trial: [] for trial in LISTINGS}
    for trial, allocation, record, outcome in OUTCOME.findall(done.stdout):
        expected = is_expected(outcome, record) if trial in LISTINGS else record == ""
        came[trial].append(outcome if expected else "broken")
        assert len(came[trial]) == int(allocation), f"{trial} {allocation} is out of order"
        if not expected:
            print(f"{trial} {allocation} printed before {outcome}:\n{record}")
        elif event := event_refused(record):
            events[trial].append(event)
    if done.returncode != 0 or any(len(came[trial]) != most for trial, most in TRIALS.items()):
        sys.exit(f"allocations: rt try ended with {done.returncode}\n{(done.stdout + done.stderr)[-4000:]}")
    return came, events


def faults_of_listings(came, events):
    """Yields what is wrong with the listings beside their records, one line each."""
    for trial in LISTINGS:
        if came[trial][0] != "unprepared":
            yield f"{trial}: allocations of its run are left out"
        if events[trial] != sorted(events[trial]):
            yield f"{trial}: its allocations are refused in the events {events[trial]}, in this order"
    met = set().union(*events.values())
    if met != set(RECORDS) - {0}:
        yield f"listings: allocations are refused in the events {sorted(met)} alone"


def faults_of(came):
    """Yields what is wrong with the outcomes, one line each."""
    for trial, outcomes in came.items():
        if "broken" in outcomes:
            yield f"{trial}: broken if allocation {outcomes.index('broken') + 1} is refused"
        if outcomes[-1] != "granted":
            yield f"{trial}: {outcomes[-1]} if no allocation is left to refuse"
        if set(outcomes[outcomes.index("granted"):] if "granted" in outcomes else ()) - {"granted"}:
            yield f"{trial}: granted before its last refusal"
        if "refused" not in outcomes:
            yield f"{trial}: no allocation of it was refused"
    if came["feed"].count("refused") != came["queue"].count("refused"):
        yield "feed: it grows otherwise than its queue alone"


def main():
    came, events = outcomes_of_all()
    faults = [*faults_of(came), *faults_of_listings(came, events)]
    for trial, outcomes in came.items():
        print(f"{trial}: {outcomes.count('refused')} allocations refused")
    for fault in faults:
        print(f"FAILED {fault}")
    print(f"allocations: {sum(map(len, came.values()))} cases, {len(faults)} failed")
    return 1 if faults else 0


if __name__ == "__main__":
    sys.exit(main())
