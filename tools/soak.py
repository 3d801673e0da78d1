#!/usr/bin/env python3
"""soak.py WHAT PROGRAM [NUMBER ..]: has a built server or its replay run for long, and fails at what is wrong. WHAT is

replay [EVENTS]: replays a million events, or EVENTS, of a long evening, and says how fast that went. Throttles come and
go, command locomotives, accessories, sensors, power and locks; panels come and go and read at different speeds, some of
them too slowly. The events are drawn from a fixed seed and replayed in scripts that stay below the input's limit, each
a run of its own, and once more to see how much memory it holds. It fails if a run prints something that is no record.
panels [SECONDS]: whether panels that read are kept beside sessions that send without end. It prints how many were
closed of each load, and fails if one was. On a busy machine a panel may stand still for longer than the server waits
for it. - examples/panel.py, beside a session that sends 1,000,000 commands in one go. - For SECONDS, 60 if not given:
31 panels that read, beside 32 sessions. - As long: a panel that pauses once for 150 ms and one that pauses for 50 ms
each second, beside one session and beside 32.
bridges [SECONDS [SEED]]: all programs of bridges/ beside a server and a station of each kind, for ten minutes or
SECONDS. It watches what moves at the stations. A train begins to move that nobody commanded since its last loss and
since the last STOP ALL, or drives on after one of these: that is a breach, told with the moments of the command, the
loss, the stop and the start. At the end it says whether the stations, the page, the file of keep.py, the topics that
the broker retains and examples/panel.py all say what a fresh panel is sent. It needs mosquitto and paho-mqtt.
routes [SECONDS [SEED]]: box.py with eight routes, many of which conflict, for ten minutes or SECONDS. Throttles ask
for them, try to move their turnouts, and lock some. The box is killed and ended, its panel and its `interlock` are
lost, and the server hangs and is started again. A panel checks that no turnout of a set route moves or is unlocked,
that no two that conflict are set, and that signals show go only over turnouts that are locked and thrown.
"""
import contextlib
import re
import subprocess
import sys
import tempfile
import threading
import time
from collections.abc import Callable
from pathlib import Path

from loads import LONG_RUN, measured, replays, script_of_a_long_run

from bridge_tests.common import TOP, until
from door import closed_panels, reads_to_the_end
from evening import QUIET, Evening
from pacing import panels_closed_by_pauses, running, send_all, shut
from route_soak import Soak
from serving import Client, served

EVENTS_A_SCRIPT = 250_000  # at most: a script has to stay below the limit of an input
PANELS = 31
SETS = 1_000_000
RESTED = 120  # seconds until all say the same
LAST = b" 100 INFO 1 POWER ON last\n"


def replay(program: str, wanted: int = 1_000_000) -> int:
    done = 0
    seconds = 0.0
    peak = 0
    seed = 1
    with replays(program, LONG_RUN) as (words, source, printed):
        while done < wanted:
            text, count = script_of_a_long_run(seed, min(EVENTS_A_SCRIPT, wanted - done))
            source.write_bytes(text)
            took, held = measured(words, source, printed)
            record = printed.read_bytes()
            if not re.search(rb"^rows \d+\n", record, re.M):
                sys.exit(f"script {seed}: {len(record)} bytes printed, which are no record")
            overruns = len(re.findall(rb"^connection \d+ \d+ overrun\n", record, re.M))
            print(f"script {seed}: {count} events, {len(record)} bytes printed, {overruns} panels overran", flush=True)
            done = done + count
            seconds = seconds + took
            peak = max(peak, held)
            seed = seed + 1
    print(f"{done} events in {seconds:.1f} s: {done / seconds:.0f} events a second, peak {peak} KiB")
    return 0


def closings_of_the_example(program: str) -> int:
    """Returns how often examples/panel.py says that it was closed until it has printed the last of many changes."""
    with served(program) as (port, _), tempfile.NamedTemporaryFile() as out:
        throttle = Client(port, "COMMAND")
        throttle.asks("INIT 1 GL 3 N 1 28 5")
        commands = b"".join(b"SET 1 GL 3 1 %d 28\n" % (turn % 29) for turn in range(SETS)) + b"SET 1 POWER ON last\n"
        panel = subprocess.Popen([sys.executable, TOP / "examples" / "panel.py", "--port", str(port)], stdout=out)
        time.sleep(1)
        with running([threading.Thread(target=reads_to_the_end, args=(throttle, [])),
                      threading.Thread(target=send_all, args=(throttle, commands))]):
            while LAST not in (told := Path(out.name).read_bytes()):
                time.sleep(1)
            shut([throttle])
        panel.kill()
        panel.wait()
    print(f"examples/panel.py prints {told.count(b' 100 INFO 1 GL 3 1 ') - 1:,} of {SETS:,} changes", flush=True)
    return told.count(b"-- closed")


def panels(program: str, seconds: int = 60) -> int:
    closed = closings_of_the_example(program)
    print(f"and it is closed {closed} times", flush=True)
    reading = closed_panels(program, PANELS, seconds)
    print(f"of {PANELS} panels that read for {seconds} s beside 32 sessions {reading} are closed", flush=True)
    closed += reading
    for senders in (1, 32):
        pauses = panels_closed_by_pauses(program, senders, seconds)
        print(f"of 2 panels that pause in {seconds} s beside {senders} sessions {len(pauses)} are closed: {pauses}",
              flush=True)
        closed += len(pauses)
    return closed


def bridges(program: str, seconds: int = 600, seed: int = 40) -> int:
    def rested() -> bool:
        time.sleep(QUIET)
        return not list(evening.differences())

    print(f"seed {seed}", flush=True)
    evening = Evening(program, seed)
    try:
        evening.run(seconds)
        with contextlib.suppress(AssertionError):
            until(rested, "all say the same", RESTED)
        differences = list(evening.differences())
    finally:
        evening.ends()
    for difference in differences:
        print(f"DIFFERS: {difference}")
    watches = [rails.watch for rails in evening.rails.values()]
    for watch in watches:
        print(f"{watch.name}: {dict(watch.count)}; too late after a STOP ALL by {watch.latest:.2f} s at most")
    breaches = sum(len(watch.breaches) for watch in watches)
    print(f"seed {seed}: {evening.count['changes']} changes, {dict(evening.troubles)}, {dict(evening.count)}; "
          f"{breaches} breaches, {len(differences)} differences")
    return len(differences) + breaches


def routes(program: str, seconds: int = 600, seed: int = 57) -> int:
    soak = Soak(program, seed)
    try:
        soak.run(seconds)
    finally:
        soak.ends()
    count, wrong = soak.watch.count, len(soak.watch.wrong)
    print(f"{count['set']} times a route was set, {count['shown']} times a signal shown, {soak.troubles} troubles; "
          f"{count['throws that were refused']} commands of throttles were refused")
    print(f"{wrong} things were wrong" if wrong else "nothing moved under a route, and no two that conflict were set")
    return wrong + (not count["set"])


def main() -> None:
    soaks: dict[str, Callable[..., int]] = {"replay": replay, "panels": panels, "bridges": bridges, "routes": routes}
    if len(sys.argv) < 3 or sys.argv[1] not in soaks:
        sys.exit(__doc__)
    sys.exit(min(1, soaks[sys.argv[1]](str(Path(sys.argv[2]).resolve()), *map(int, sys.argv[3:]))))


if __name__ == "__main__":
    main()
