"""What README.md says: its commands, its numbers, the programs that it names, and the clock that stamps are by."""
import os
import re
import shlex
import shutil
import subprocess
import tempfile
import time
from contextlib import suppress
from pathlib import Path
from queue import Empty
from urllib.request import urlopen

from bridge_tests import BRIDGE_CASES
from page_tables import constants_of_the_code
from pages import BLOCK, ENDED, SILENT, STAND_INS, TOP, Program, follow, reader_of_a_page, take_bridges
from serving import SECONDS, Client, TriedNothing, free_port, served, wait_for

README = TOP / "README.md"
# A sentence, the constant of the code that its number is, and what it differs by from that.
NUMBERS = (("At most {:,} clients are connected", "MOST_CONNECTIONS", lambda most: most),
           ("The {:,}th connection is closed", "MOST_CONNECTIONS", lambda most: most + 1),
           ("for which more than {:,} changes wait", "MOST_WAITING", lambda most: most),
           ("More than {:,} bytes", "INPUT_LIMIT", lambda most: most),
           ("or {:,} of a configuration", "CONFIG_LIMIT", lambda most: most),
           ("for {:,} seconds after its end", "LINGER", lambda milliseconds: milliseconds // 1000),
           ("rests for {:,} ms if the system ends a wait early", "FAILED_WAIT", lambda milliseconds: milliseconds))
NUMERALS = ("no", "one", "two", "three", "four", "five", "six", "seven", "eight", "nine", "ten", "eleven", "twelve")
HOUR = 3600
MOST_LINES = 170
TIMES = {15: "a quarter of an hour", 30: "half an hour"}  # the other times are told in minutes


def words_of_the_readme():
    """Returns the page with one space between two words."""
    return " ".join(README.read_text().split())


def page_for_a_browser(port, *files):
    """Returns what the layout's page is at that port, with these files of it."""
    told = ""
    for file in ("", *files):
        with urlopen(f"http://127.0.0.1:{port}/{file}", timeout=SECONDS) as page:
            told += page.read().decode()
    return told


def blocks_of_commands():
    """Returns the commands of each block of the page that is not run line by line, without what is said of them."""
    return [[line.partition("  #")[0].rstrip() for line in text.splitlines()]
            for kind, text in BLOCK.findall(README.read_text()) if kind == "sh"]


def first_screen_of_the_readme(program):
    """Its commands serve the layout, try it, and serve the page of it for a browser."""
    if not (TOP / "bridges" / "web.py").exists():
        raise TriedNothing("bridges/ is not here")
    serves, tries, *more = blocks_of_commands()[0]
    with reader_of_a_page(program) as reader:
        take_bridges(reader)
        for command in (serves, *more):
            if fault := reader.steps(f"$ {reader.at_ports(command)}"):
                return fault
        wait_for(reader.ports["8303"], reader.programs[-1].process)
        told = page_for_a_browser(reader.ports["8303"], "texts.js")
    is_page = told.startswith("<!doctype html>") and "STOP ALL" in told
    return None if tries == "./test" and is_page else f"{tries}; the page is {told[:100]!r}"


def stations_of_the_readme(program: str) -> str | None:
    """Its commands put a locomotive on the track of a station at a cable and of one in the network. Both are simulated
    here: the one by the page's own command, which prints what it is told."""
    if not (TOP / "bridges" / "web.py").exists():
        raise TriedNothing("bridges/ is not here")
    at_a_cable, in_the_network, simulated = blocks_of_commands()[1]
    with reader_of_a_page(program) as reader:
        take_bridges(reader)
        z21 = free_port()
        there = (("ADDRESS", f"127.0.0.1:{z21}"), ("/dev/ttyACM0", '"$PWD/ttyACM0"'), ("z21.py", "z21.py --bus 9"))
        commands = [blocks_of_commands()[0][0], simulated, f"python3 bridges/simulated_z21.py {z21}", at_a_cable,
                    in_the_network]
        for command in commands:
            for on_the_page, here in there if "--station" in command else ():
                command = command.replace(on_the_page, here)
            if fault := reader.steps(f"$ {reader.at_ports(command)}"):
                return fault
        throttle = Client(reader.ports["4303"], "COMMAND")
        _, *stations, dcc_ex, z21_driver = reader.programs
        for bus, station, driver in ((1, stations[0], dcc_ex), (9, stations[1], z21_driver)):
            while "server: joined" not in (line := driver.line()):
                if line in (ENDED, SILENT):
                    return f"{driver.command} says {line}"
            throttle.asks(f"INIT {bus} GL 3 N 1 28 1")
            drives = [f"SET {bus} POWER ON", f"SET {bus} GL 3 1 14 28"]
            if not any(throttle.asks(*drives) and is_told_to_drive(station) for _ in range(SECONDS)):
                return f"the station of bus {bus} is not told that the locomotive drives"
    return None


def is_told_to_drive(station: Program) -> bool:
    """Returns whether the simulated station prints within a second that the locomotive drives."""
    with suppress(Empty):
        while not re.fullmatch(r"<t 3 [1-9]\d* 1>", station.lines.get(timeout=1)):
            pass
        return True
    return False


def what_the_units_started(reader):
    """Returns what is not there of the page and the programs that the command of "Installing" starts, or None."""
    notes = Path(reader.environment["ROOT"]) / "units"
    ended = [note.name for note in notes.iterdir() if not Path("/proc", note.read_text(), "exe").exists()]
    started = {note.name for note in notes.iterdir()}
    told = page_for_a_browser(reader.ports["8303"])
    wanted = {"srcp_server", "srcp_bridge@web", "srcp_bridge@keep", "srcp_bridge@guard"}
    is_there = started == wanted and not ended and told.startswith("<!doctype html>")
    return None if is_there else f"started {started}, of which {ended} ended; the page is {told[:60]!r}"


def commands_of_the_readme(program):
    return follow("README.md", program, what_the_units_started)


def size_that_the_readme_tells(program):
    """The program is one file of under a megabyte, which takes nothing but the C library."""
    size, is_told = os.path.getsize(program), "one file of under a megabyte" in words_of_the_readme()
    if size >= 1_000_000 or not is_told:
        return f"it has {size} bytes; the page says so: {is_told}"
    if not shutil.which("objdump"):
        return None
    told = subprocess.run(["objdump", "-p", program], capture_output=True, text=True, timeout=SECONDS).stdout
    taken = {name for name in re.findall(r"^  NEEDED +(\S+)$", told, re.M) if not name.startswith("ld-linux")}
    return None if taken == {"libc.so.6"} else f"it takes {taken}"


def numbers_of_the_readme(_):
    """Each number of its faults, its limits and its proofs is what the code sets."""
    page, constants = words_of_the_readme(), constants_of_the_code()
    for sentence, name, as_told in NUMBERS:
        found = {value for (_, constant), value in constants.items() if constant == name}
        if len(found) != 1 or sentence.format(as_told(*found)) not in page:
            return f"{name} is {found}: the page does not say {sentence!r} of it"
    functions = re.findall(r"^\w[^;{}#]*\(", (TOP / "packaging" / "arm64" / "helpers.h").read_text(), re.M)
    sentence = f"on ARM {NUMERALS[len(functions)]} C functions"
    return None if sentence in page else f"the page does not say {sentence!r}"


def time_of_the_first_build(_):
    """The pages and ./run tell the time that the first build was measured to take, rounded up to five minutes."""
    row = re.search(r"^\| the first build, .*? with (\w+ processors).*?\| (\d+) minutes, ",
                    (TOP / "docs" / "performance.md").read_text(), re.M)
    minutes = -(-int(row[2]) // 5) * 5
    time_told = TIMES.get(minutes, f"{minutes} minutes")
    said = {"README.md": f"proves and builds it, in [{time_told}]", "run": f"{time_told} the first time, on {row[1]}",
            "docs/install.md": f"bout {time_told} on {row[1]}"}
    wrong = [name for name, text in said.items() if text not in " ".join((TOP / name).read_text().split())]
    return f"it takes {time_told} on {row[1]}: not so in {wrong}" if wrong else None


def readme_is_short(_):
    lines = len(README.read_text().splitlines())
    return None if lines <= MOST_LINES else f"{lines} lines"


def programs_that_the_readme_names(_):
    """Each is there, is tried by cases of its own, and no program of bridges/ is left out but the simulated
    stations."""
    named = set(re.findall(r"`(?:bridges/)?(\w+)\.py`", README.read_text())) & {
        file.stem for file in (TOP / "bridges").glob("*.py")}
    there = {file.stem for file in (TOP / "bridges").glob("*.py") if not file.stem.startswith("simulated_")}
    table = re.search(r"^\| What \| By \| Tried with \|\n(?:\|.*\n)+", README.read_text(), re.M)[0]
    missing = [path for path in re.findall(r"`(\w+/[\w.]*)`", table) if not (TOP / path).exists()]
    tried = {case.__name__ for case in BRIDGE_CASES}
    untried = [name for name in named if not any(case.startswith(f"bridge_{name}_") for case in tried)]
    got = named ^ there, missing, untried
    return None if got == (set(), [], []) else f"named or there alone, not there, not tried: {got}"


def stamps_by_the_clock_of_the_start(program):
    """Stamps go by the clock as it was when the server started: one that is put ahead earlier, and not one that is put
    ahead later."""
    if not (compiler := shutil.which("cc") or shutil.which("clang")):
        raise TriedNothing("there is no C compiler here")
    late = []
    with tempfile.TemporaryDirectory() as folder:
        clock = Path(folder) / "clock.so"
        compiles = [compiler, "-shared", "-fPIC", "-o", clock, STAND_INS / "clock.c"]
        subprocess.run(compiles, check=True, timeout=SECONDS)
        for ahead_from in (0, time.monotonic() + 2):
            variables = {"LD_PRELOAD": str(clock), "AHEAD_FROM": f"{ahead_from:.0f}"}
            with served(program, prepare=lambda: os.environ.update(variables)) as (port, _):
                time.sleep(max(ahead_from + 1.5 - time.monotonic(), 0))
                throttle = Client(port, "COMMAND")
                throttle.socket.sendall(b"SET 1 POWER ON\n")
                late.append(float(throttle.line().split()[0]) - time.time())
    first, second = late
    is_told = abs(first - HOUR) < 5 and abs(second) < 5
    return None if is_told else f"stamps are ahead by {first:.1f} s and {second:.1f} s"


def holder_of_a_port(program):
    """The command of the README's table names the program that has the port: to root, and to nobody else."""
    command = re.search(r"`sudo (ss [^`]*)`", README.read_text())[1]
    if os.geteuid() or not all(map(shutil.which, ("ss", "setpriv"))):
        raise TriedNothing("it takes root, ss (of iproute2) and setpriv (of util-linux)")
    with served(program) as (port, server):
        words = shlex.split(command.replace(":4303", f":{port}"))
        nobody = ["setpriv", "--reuid=65534", "--regid=65534", "--clear-groups"]
        told = [subprocess.run([*user, *words], capture_output=True, text=True, timeout=SECONDS).stdout
                for user in ([], nobody)]
    got = [(text.count(f"127.0.0.1:{port} "), f'("srcp_server",pid={server.pid},' in text) for text in told]
    return None if got == [(1, True), (1, False)] else f"root is told {told[0]!r}, nobody {told[1]!r}"


FRONT_PAGE_CASES = (first_screen_of_the_readme, commands_of_the_readme, size_that_the_readme_tells,
                    numbers_of_the_readme, time_of_the_first_build, readme_is_short, stations_of_the_readme,
                    programs_that_the_readme_names, stamps_by_the_clock_of_the_start, holder_of_a_port)
