"""doctor.py: each link between a throttle and a locomotive, broken in turn; and the names of sessions in status.py."""
import json
import os
import re
import signal
import subprocess
import sys
import tempfile
import threading
import time
from contextlib import contextmanager
from pathlib import Path

from serving import SECONDS, Client, clients_at_all_places, free_port, placed, served

EXAMPLES = Path(__file__).resolve().parent.parent / "examples"


@contextmanager
def told(pid=os.getpid(), **of_itself):
    """The environment in which a program of this machine, which is running, tells that of itself."""
    with tempfile.TemporaryDirectory() as folder:
        environment = os.environ | {"XDG_RUNTIME_DIR": folder}
        tells(environment, pid, **of_itself)
        yield environment


def tells(environment, pid=os.getpid(), **of_itself):
    """Has a program tell that of itself from now on."""
    file = Path(environment["XDG_RUNTIME_DIR"], "srcp_bridges", f"{pid}.json")
    file.parent.mkdir(exist_ok=True)
    new = file.with_suffix(".new")
    new.write_text(json.dumps({"sessions": {}, "station": {}} | of_itself))
    new.replace(file)


def ran(environment, file, *words):
    """The lines that a program of examples/ prints, and its status."""
    done = subprocess.run([sys.executable, EXAMPLES / file, *map(str, words)], capture_output=True, text=True,
                          timeout=SECONDS, env=environment)
    return done.stdout.splitlines(), done.returncode


def station(**how):
    return {"bus": 1, "name": "/dev/ttyACM0", "here": True, "slots": 50, "taken": 1, "left_out": {},
            "told": {"3": [54, 1, time.monotonic()]}} | how


def doctor_names_the_first_broken_link(program):
    """Each step mends one link; before it the doctor ends with the number of that link."""
    found = []

    def look(port, address=3, **how):
        with told(station=how) as environment:
            lines, status = ran(environment, "doctor.py", address, "--port", port)
        found.append((status, lines[status - 1 if status else -1].split(":")[0], lines[-1].startswith("-- ")))

    look(free_port())
    with served(program) as (port, _):
        full = clients_at_all_places(port)
        look(port)
        for client in full:
            client.close()
        throttle = placed(port)
        look(port, 10240)
        look(port)
        throttle.asks("INIT 1 GL 3 M 1 28 5")
        look(port)
        throttle.asks("SET 1 POWER ON", "SET 1 LOCK GL 3 0")
        look(port)
        throttle.asks("SET 1 GL 3 1 12 28")
        look(port)
        look(port, **station(here=False))
        look(port, **station(left_out={"1 GL 3": "protocol M"}))
        look(port, **station(told={}))
        look(port, **station(told={"3": []}))
        look(port, **station())
    want = [(1, "1 server", True), (1, "1 server", True), (2, "2 layout", True), (3, "3 locomotive", True),
            (4, "4 power", True), (6, "6 command", True), (7, "7 driver", True), (8, "8 station", True),
            (9, "9 told", True), (9, "9 told", True), (0, "9 told", False), (0, "9 told", False)]
    return None if found == want else f"got {found}, want {want}"


def doctor_says_why_the_power_is_off(program):
    with served(program) as (port, _), told() as environment:
        Client(port, "COMMAND").asks("INIT 1 GL 3 N 1 28 5", "SET 1 POWER OFF no station")
        lines, status = ran(environment, "doctor.py", 3, "--port", port)
    want = "4 power: it is off: no station", "-- plug the station in. The power stays off until you switch it on"
    return None if (*lines[-2:], status) == (*want, 4) else f"got {lines}, {status}"


def doctor_tells_how_each_link_is(program):
    """Of a train that drives: its protocol, who has it locked, its station and how many slots that has, and what the
    station was told and when."""
    sessions = {"1": "withrottle.py: Engine Driver"}
    how = station(told={"3": [54, 0, time.monotonic()]})
    with served(program) as (port, _), told(sessions={str(port): sessions}, station=how) as environment:
        throttle = Client(port, "COMMAND")
        throttle.asks("INIT 1 GL 3 M 1 28 5", "SET 1 POWER ON", "SET 1 LOCK GL 3 0", "SET 1 GL 3 0 12 28")
        lines, status = ran(environment, "doctor.py", 3, "--port", port)
    want = ["1 server: it answers", "2 layout: bus 1 may have the address 3",
            "3 locomotive: protocol M, 28 steps, 5 functions", "4 power: it is on",
            "5 lock: session 1 has it (withrottle.py: Engine Driver), and alone may drive",
            "6 command: drive backward at 12 of 28", "7 driver: it drives bus 1",
            "8 station: /dev/ttyACM0 answers, and has 50 slots, of which 1 are taken",
            "9 told: 54 of 126, backward, N s ago"]
    got = [re.sub(r" \d{1,3} s ago\..*", " N s ago", line) for line in lines]
    return None if (got, status) == (want, 0) else f"got {got}, {status}"


def doctor_tells_the_unit_of_a_server_that_is_not_there(_):
    with told() as environment:
        tool = Path(environment["XDG_RUNTIME_DIR"], "systemctl")
        tool.write_text('#!/bin/sh\n[ "$*" = "is-active srcp_server" ] && echo failed\n')
        tool.chmod(0o755)
        path = f"{tool.parent}{os.pathsep}{os.environ['PATH']}"
        lines, status = ran(environment | {"PATH": path}, "doctor.py", 3, "--port", free_port())
    is_told = lines[0].startswith("1 server: none answers at 127.0.0.1") and lines[0].endswith("; its unit is failed")
    return None if is_told and status == 1 else f"got {lines}, {status}"


def status_names_the_sessions_of_programs_that_run(program):
    """Those of a program that has ended have no name."""
    with served(program) as (port, _):
        throttle, panel = Client(port, "COMMAND"), Client(port, "INFO")
        with told(sessions={str(port): {"1": "withrottle.py: Engine Driver"}}) as environment:
            file = Path(environment["XDG_RUNTIME_DIR"], "srcp_bridges", "1.json")
            ended = subprocess.Popen([sys.executable, "-c", ""])
            ended.wait(SECONDS)
            file.with_name(f"{ended.pid}.json").write_text(json.dumps(
                {"sessions": {str(port): {"2": "x"}}, "station": {}}))
            lines, status = ran(environment, "status.py", "--port", port)
        throttle.close()
        panel.close()
    want = "sessions: 1 COMMAND (withrottle.py: Engine Driver), 2 INFO"
    return None if (lines[0], status) == (want, 0) else f"got {lines}, {status}"


def last_lines(program, looks):
    """What the doctor says last, and its status, by the words of each look: commands that come before it, what a driver
    tells, and what is asked of the doctor."""
    found = []
    with served(program) as (port, _):
        throttle = Client(port, "COMMAND")
        throttle.asks("SET 1 POWER ON", "INIT 1 GL 3 N 1 126 5", "SET 1 GL 3 1 70 126", "INIT 1 GL 4 N 1 28 5",
                      "SET 1 GL 4 1 14 28", "INIT 1 GL 5 N 1 126 5")
        for commands, kind, how, address, later in looks:
            throttle.asks("GET 1 POWER", *commands)
            words = {"sessions": {str(port): {"9": kind}}}
            with told(station=station(**how), **words) as environment:
                timer = threading.Timer(1, lambda: tells(environment, station=station(**(how | later)), **words))
                timer.start()
                lines, status = ran(environment, "doctor.py", address, "--port", port)
                timer.join()
            found.append((status, next(line for line in reversed(lines) if not line.startswith("-- "))))
    return found


def doctor_compares_what_the_station_was_told(program):
    """Speed and direction, in the steps of that station, and once the command is old enough."""
    def look(told, kind="dcc_ex.py", commands=(), later=None):
        now = time.monotonic()
        how, later = ({"told": {address: [*does, now] for address, does in each.items()}}
                      for each in (told, later or told))
        return commands, kind, how, *told, later

    looks = [look({"3": [0, 1]}), look({"3": [70, 0]}), look({"3": [70, 1]}), look({"4": [14, 1]}),
             look({"4": [63, 1]}), look({"4": [14, 1]}, "z21.py"),
             look({"3": [-1, 1]}, "dcc_ex.py", ["SET 1 GL 3 0 71 126"], {"3": [71, 0]})]
    want = [(9, "0 of 126, forward, and not 70, forward: its driver does not do its work"),
            (9, "70 of 126, backward, and not 70, forward: its driver does not do its work"), (0, "70 of 126, forward"),
            (9, "14 of 126, forward, and not 63, forward: its driver does not do its work"), (0, "63 of 126, forward"),
            (0, "14 of 28, forward"), (0, "71 of 126, backward")]
    got = [(status, re.sub(r"9 told: |, \d+ s ago|\. If it stands.*", "", line))
           for status, line in last_lines(program, looks)]
    return None if got == want else f"got {got}, want {want}"


def doctor_names_what_hides_behind_other_links(program):
    """A driver has what it cannot drive stand. A station that does not confirm answers all the same."""
    left = ["protocol M", "the station has 8 slots"]
    looks = [*[((), "dcc_ex.py", {"left_out": {"1 GL 5": why}}, 5, {}) for why in left],
             ((), "dcc_ex.py", {"left_out": {"1 GL 3": left[0]}}, 5, {}),
             (["SET 1 POWER ON does not confirm: 3, 7"], "dcc_ex.py", {"told": {"3": [70, 1, 0]}}, 3, {}),
             *[((), "dcc_ex.py", {"forgotten": [5, 4]}, address, {}) for address in (4, 5)],
             ((), "dcc_ex.py", {"told": {"4": [63, 1, 0]}, "forgotten": [5]}, 4, {})]
    want = [*[(9, f"9 told: the station does not drive it: {why}") for why in left],
            (6, "6 command: it is told to stand"), (8, "8 station: /dev/ttyACM0 does not confirm: 3, 7"),
            *[(9, "9 told: the station has forgotten it: another throttle there gave its slot away")] * 2,
            (0, "9 told: 63 of 126")]
    got = [(status, line if status else line.partition(",")[0]) for status, line in last_lines(program, looks)]
    return None if got == want else f"got {got}, want {want}"


def doctor_sees_drivers_that_stand_still_or_are_out_of_sight(program):
    """One whose process is stopped, and one that tells of itself in the folder of another user."""
    with served(program) as (port, _), tempfile.TemporaryDirectory() as folder:
        Client(port, "COMMAND").asks("SET 1 POWER ON", "INIT 1 GL 3 N 1 126 5", "SET 1 GL 3 1 54 126")
        file = Path(folder, "dcc_ex.py")
        file.write_text("import time\ntime.sleep(600)\n")
        driver = subprocess.Popen([sys.executable, file])
        try:
            with told(driver.pid, station=station()) as environment:
                goes_on = ran(environment, "doctor.py", 3, "--port", port)
                driver.send_signal(signal.SIGSTOP)
                stands = ran(environment, "doctor.py", 3, "--port", port)
            with told() as environment:
                unseen = ran(environment, "doctor.py", 3, "--port", port)
                Client(port, "COMMAND").asks("SET 1 GL 3 1 0 126")
                stood = ran(environment, "doctor.py", 3, "--port", port)
        finally:
            driver.kill()
            driver.wait(SECONDS)
    is_said = [re.search(r"; I cannot see what .* of \w+ does \(process \d+\): run this as \w+$", lines[-1])
               for lines, _ in (unseen, stood)]
    got = goes_on[1], stands[1], stands[0][-2], unseen[1], stood[1]
    want = 0, 7, "7 driver: it stands still: somebody has stopped its process", 7, 6
    return None if got == want and all(is_said) else f"got {got}, {unseen}, {stood}"


DOCTOR_CASES = (doctor_names_the_first_broken_link, doctor_says_why_the_power_is_off, doctor_tells_how_each_link_is,
                doctor_compares_what_the_station_was_told, doctor_names_what_hides_behind_other_links,
                doctor_sees_drivers_that_stand_still_or_are_out_of_sight,
                doctor_tells_the_unit_of_a_server_that_is_not_there,
                status_names_the_sessions_of_programs_that_run)
