"""The commands of the pages, run as they stand there: each prints what the page says, stamps aside.

Every block ```console of a page is run, from the top of the page to its end, in a copy of the repository around the
built program. In such a block `$` stands before a command, `>` before what is typed then (alone it is Enter), `^C` for
Ctrl-C, and `..` for any lines. What else stands there is printed. A block without a command goes on with the program
that runs still. Programs that tests cannot count on are stood in for by those of stand_ins/. `./test` is not run: it
runs this.
"""
import os
import re
import shutil
import signal
import subprocess
import sys
import tempfile
import threading
from contextlib import ExitStack, contextmanager, suppress
from pathlib import Path
from queue import Empty, Queue

from choices import BEFORE_GO, IN_A_SESSION
from page_tables import PAGE_TABLE_CASES
from serving import SECONDS, Client, TriedNothing, free_ports, served, wait_for

TOP = Path(__file__).resolve().parent.parent
STAND_INS = Path(__file__).resolve().parent / "stand_ins"
# Programs that run until they are ended, and those of them that others then connect to.
STAYS = ("./run serve", "nc ", "ssh ", "python3 examples/panel.py", "python3 bridges/", "mosquitto_sub ")
LISTENS = {"./run serve": "4303", "ssh ": "5303"}
WRONG_DOORS = 47  # cases that say for which they fail
PACKING = 120  # seconds that ./package may take on a busy machine: it asks each program for its help
BLOCK = re.compile(r"^```(\w*)\n(.*?)^```$", re.M | re.S)
ENDED = "(the end)"
SILENT = "(nothing more)"
PAUSE = re.compile(r"-- \d+ rows$")  # what a panel prints after a pause, of which a busy machine may make more
STAMP = re.compile(r"^\d{9,}\.\d{3} (?=\d{3} )")


def console_blocks(page):
    """The lines of each block that is to be run, and why the page is not one that can be run, or None."""
    blocks = BLOCK.findall((TOP / page).read_text())
    stray = [line for kind, text in blocks if kind != "console" for line in text.splitlines() if line.startswith("$ ")]
    stray += re.findall(r"^    \$ .*", (TOP / page).read_text(), re.M)
    fault = f"not run: {stray}" if stray else None if any(kind == "console" for kind, _ in blocks) else "nothing to run"
    return [text.splitlines() for kind, text in blocks if kind == "console"], fault


class Program:
    """A program that was started by a command of a page."""

    def __init__(self, command, folder, environment):
        self.command = command
        self.patience = PACKING if command.startswith("./package") else SECONDS
        self.process = subprocess.Popen(
            ["bash", "-c", command], cwd=folder, env=environment, stdin=subprocess.PIPE, stdout=subprocess.PIPE,
            stderr=subprocess.STDOUT, start_new_session=True,
            preexec_fn=lambda: signal.signal(signal.SIGINT, signal.SIG_DFL))
        self.lines = Queue()
        threading.Thread(target=self.collect, daemon=True).start()

    def collect(self):
        for line in self.process.stdout:
            self.lines.put(line.decode("latin-1").rstrip("\n"))
        self.lines.put(ENDED)

    def types(self, text):
        self.process.stdin.write(text.encode() + b"\n")
        self.process.stdin.flush()

    def ends_input(self):
        self.process.stdin.close()

    def line(self):
        """The next line that is printed, its stamp aside; ENDED once the program ended, SILENT if it prints none."""
        try:
            return STAMP.sub("NOW ", self.lines.get(timeout=self.patience))
        except Empty:
            return SILENT

    def signals(self, number):
        try:
            os.killpg(self.process.pid, number)
        except ProcessLookupError:
            pass


class Reader:
    """One who goes through a page, and does what it says."""

    def __init__(self, folder, environment, ports):
        self.folder = folder
        self.environment = environment
        self.ports = ports
        self.programs = []

    def at_ports(self, text):
        return re.sub("|".join(self.ports), lambda named: str(self.ports[named[0]]), text)

    def follows(self, block):
        """Returns what of a block is not as the page says, or None."""
        wanted = []
        for line in [self.at_ports(line) for line in block] + ["$"]:
            is_step = line in ("$", "^C", ">") or line.startswith(("$ ", "> "))
            if not is_step:
                wanted.append(line)
                continue
            if wanted and not self.programs:
                return f"no program runs that prints {wanted}"
            if self.programs and (fault := self.finds(self.programs[-1], wanted, line.startswith("$"))):
                return fault
            wanted = []
            if fault := self.steps(line):
                return fault
        return None

    def steps(self, line):
        """Does what a line asks for. Why it cannot be done, or None."""
        if line.startswith("$ "):
            self.programs.append(Program(line[2:], self.folder, self.environment))
            for start, port in LISTENS.items():
                if line.startswith(f"$ {start}") and not self.finds_port(self.ports[port]):
                    return f"nobody listens at {port}"
        elif line.startswith(">"):
            self.programs[-1].types(line[2:])
        elif line == "^C":
            program = self.programs.pop()
            program.signals(signal.SIGINT)
            program.process.wait(SECONDS)
        return None

    def finds_port(self, port):
        """Returns whether somebody listens at the port, once the newest program runs."""
        try:
            wait_for(port, self.programs[-1].process)
            return True
        except RuntimeError:
            return False

    def finds(self, program, wanted, is_last):
        """Returns why the program does not print these lines next, and all of them if it ends by itself, or None."""
        may_skip = False
        stays = program.command.startswith(STAYS)
        if is_last and not stays:
            program.ends_input()
            wanted = [*wanted, ENDED]
        for want in wanted:
            if want == "..":
                may_skip = True
                continue
            want = STAMP.sub("NOW ", want)
            got = program.line()
            while got not in (want, ENDED, SILENT) and (may_skip or PAUSE.match(got)):
                got = program.line()
            if got != want:
                return f"`{program.command}` prints {got!r}, want {want!r}"
            may_skip = False
        if is_last and not stays:
            self.programs.pop()
        return None

    def leaves(self):
        for program in self.programs:
            program.signals(signal.SIGKILL)
            program.process.wait()
        for note in (Path(self.environment["ROOT"]) / "units").glob("*"):
            with suppress(ProcessLookupError):
                os.kill(int(note.read_text()), signal.SIGKILL)


@contextmanager
def reader_of_a_page(program):
    """One who has a copy of the repository with the program built, and a machine with other ports."""
    ports = dict(zip(("4303", "5303", "8303"), free_ports(3)))
    with tempfile.TemporaryDirectory() as folder, ExitStack() as stack:
        top = Path(folder)
        for name in ("examples", "packaging", "docs"):
            shutil.copytree(TOP / name, top / name, ignore=shutil.ignore_patterns("__pycache__"))
        for script in ("run", "package"):
            shutil.copy(TOP / script, top / script)
        built = top / "crates" / "srcp_server" / "out"
        built.mkdir(parents=True)
        (top / "crates.txt").write_text("")
        shutil.copyfile(program, built / "srcp_server")
        (built / "srcp_server").chmod(0o755)
        reader = Reader(top, os.environ, ports)
        for file in (top / "examples").iterdir():
            file.write_text(reader.at_ports(file.read_text()))
        path = os.pathsep.join([str(STAND_INS), str(Path(sys.executable).parent), os.environ["PATH"]])
        reader.environment = os.environ | {"PATH": path, "ROOT": str(top / "root")}
        stack.callback(reader.leaves)
        yield reader


def take_bridges(reader):
    """Gives the reader the programs of bridges/ too, at the reader's ports."""
    shutil.copytree(TOP / "bridges", reader.folder / "bridges", ignore=shutil.ignore_patterns("__pycache__"))
    for file in (reader.folder / "bridges").rglob("*.py"):
        file.write_text(reader.at_ports(file.read_text()))


def missing_packaging_tools():
    """Returns what ./package takes that is not here."""
    return " and no ".join(tool for tool in ("dpkg-deb", "strip") if not shutil.which(tool))


def follow(page, program, then=lambda reader: None):
    """Returns what of a page is not as it says, or what is not as `then` finds it at the end, or None."""
    blocks, fault = console_blocks(page)
    if fault:
        return fault
    lines = [line for block in blocks for line in block]
    packs, installs = ["./package" in line for line in lines], ["./release/" in line for line in lines]
    if any(packs + installs) and (missing := missing_packaging_tools()):
        raise TriedNothing(f"there is no {missing} here")
    with reader_of_a_page(program) as reader:
        if any(packs + installs):
            take_bridges(reader)
        if any(installs):
            (reader.folder / "release").mkdir()
            subprocess.run([reader.folder / "package", reader.folder / "release"], check=True, timeout=PACKING,
                           stdout=subprocess.DEVNULL)
        return next((fault for block in blocks if (fault := reader.follows(block))), None) or then(reader)


def rows_of_tables(page, first):
    """The rows of the tables of a page with that first heading: what is sent, line by line, and the last answer."""
    tables = re.findall(rf"^\| {first} \|.*\n\|[-|]*\n((?:\|.*\n)*)", (TOP / page).read_text(), re.M)
    rows = [line.split(" | ") for table in tables for line in table.splitlines()]
    return [(re.findall(r"`([^`]*)`", row[0]), re.findall(r"`([^`]*)`", row[1])[0]) for row in rows]


def unlike_the_table(rows, client_of):
    """Returns the first row whose last answer is another than the table says, or None if there are rows and none is."""
    for sent, want in rows:
        got = client_of().asks(*sent)
        if not (got.startswith(want[:-2]) if want.endswith(" ..") else got == want):
            return f"{sent} is answered {got!r}, want {want!r}"
    return None if rows else "no rows"


def rows_by_rule(answers, *headings):
    """Returns lines with their last answers, as the rows of a table. It fails if the protocol's page does not have such
    an answer below one of these headings."""
    page = (TOP / "docs" / "protocol.md").read_text()
    told = "".join(page.partition(f"{heading}\n")[2].partition("\n##")[0] for heading in headings)
    codes = re.findall(r"^\| [^|]* \| (\d{3}) \|", told, re.M)
    untold = sorted(want for want in answers if want not in told and want[:3] not in codes)
    assert not untold, f"not below {headings}: {untold}"
    return [(line.split(", "), want) for want, lines in answers.items() for line in lines]


def choices_before_go(program):
    """Each line has the answer that the table of the handshake says."""
    rows = rows_by_rule(BEFORE_GO, "\n## Handshake", "\n## Information lines")
    with served(program) as (port, _):
        return unlike_the_table(rows, lambda: Client(port, None))


def choices_in_a_session(program):
    """First the lines of the page, then those that its rules decide, each with a reply that the page has."""
    rows = rows_of_tables("docs/protocol.md", "Sent")
    by_rule = rows_by_rule(IN_A_SESSION, "\n### Replies", "\n## Information lines")
    with reader_of_a_page(program) as reader:
        if fault := reader.follows(["$ ./run serve --config examples/layout.toml"]):
            return fault
        first = Client(reader.ports["4303"], "COMMAND")
        first.asks("INIT 1 GL 7 N 1 28 5", "SET 1 LOCK GL 7 0")
        second = Client(reader.ports["4303"], "COMMAND")
        return unlike_the_table(rows, lambda: second) or unlike_the_table(by_rule, lambda: second)


def choices_that_cases_show(_):
    """Each case that the page names is there. Cases say for which wrong doors they fail: the door's page says so."""
    page = (TOP / "docs" / "protocol.md").read_text()
    named = re.findall(r"^\|.* \| `([a-z0-9-]+)` \|$", page, re.M) + re.findall(r"the\s+case\s+`([a-z0-9-]+)`", page)
    functions = "".join(file.read_text() for file in (TOP / "tests").glob("*.py"))
    missing = [name for name in named if not (TOP / "tests" / "cases" / name).is_dir()
               and f"def {name.replace('-', '_')}(program" not in functions]
    doors = len(re.findall(r"[Ii]t\s+fails\s+for\s+a\s+door\s+that", functions))
    if missing or len(named) < 20 or doors < WRONG_DOORS:
        return f"no such case: {missing}; {len(named)} are named, and {doors} say for which wrong doors they fail"
    return None


def gate_that_proves_what_is_new(_):
    """The page on the gate says which kit keeps what passed. This kit says of its `rt ci` what the page says of it, and
    `./test` calls that without --anew, which proves all."""
    if not (kit := shutil.which("rt")):
        raise TriedNothing("there is no kit here")
    letter = re.search(r"rattle-kit-(\w+)", subprocess.run([kit, "version"], capture_output=True, text=True).stdout)[1]
    page, told = [" ".join(Path(file).read_text().split()) for file in (TOP / "docs/gate.md", kit)]
    said = [f"The kit {letter} {words}" in page for words in ("keeps on its machine what passed", "keeps nothing")]
    if not any(said):
        raise TriedNothing(f"docs/gate.md does not name the kit {letter}")
    keeps = "a later run in any checkout here proves and tries only what changed" in told and "--anew proves" in told
    calls = re.findall(r"^rt (.*)$", (TOP / "test").read_text(), re.M)
    got = *said, calls
    want = keeps, not keeps, ["ci"]
    return None if got == want else f"the page says {got} of the kit {letter}, which keeps: {keeps}"


def older_pythons():
    """Returns the Pythons below that of the README that run here, if they know the syntax: 3.7 and lower ones do
    not."""
    names = [name for minor in range(8, python_of_the_readme()) if (name := shutil.which(f"python3.{minor}"))]
    return [name for name in names if not subprocess.run([name, "--version"], capture_output=True).returncode]


def python_of_the_readme():
    """The minor version of the least Python that the README asks for."""
    return int(re.search(r"Python 3\.(\d+) or later", (TOP / "README.md").read_text())[1])


def programs_that_ask_for_python(_):
    """Each program of examples/ and bridges/, and the tests, refuse a Python below that of the README, and say which
    one they take: one that claims to be older, and the older ones that are here. This Python they accept."""
    minor = python_of_the_readme()
    older = f"import runpy, sys; sys.modules['tomllib'], sys.version_info = None, (3, {minor - 1}, 9, 'final', 0); " \
            "sys.argv = [sys.argv[1], '--help']; sys.path[0] = sys.argv[0].rpartition('/')[0]; " \
            "runpy.run_path(sys.argv[0], run_name='__main__')"
    starts = [[sys.executable], [sys.executable, "-c", older], *([name] for name in older_pythons())]
    programs = [file for folder in ("examples", "bridges", "tests") for file in sorted((TOP / folder).glob("*.py"))
                if file.read_text().startswith("#!") and file.name != "run_out_of_memory.py"]
    for file in programs:
        for start in starts:
            done = subprocess.run([*start, file, "--help"], capture_output=True, text=True, timeout=SECONDS)
            refuses = done.returncode == 1 and done.stdout == "" and f"Python 3.{minor} or later" in done.stderr
            if refuses == (len(start) == 1 and start[0] == sys.executable):
                return f"{file.name} by {start[0]}: {done.returncode}, {done.stdout[:60]!r}, {done.stderr[-200:]!r}"
    return None if len(programs) > 8 else f"programs: {programs}"


def commands_of_the_protocol_page(program):
    return follow("docs/protocol.md", program)


def commands_of_the_replay_page(program):
    return follow("docs/replay.md", program)


def commands_of_the_install_page(program):
    return follow("docs/install.md", program)


def commands_of_the_configuration_page(program):
    return follow("docs/configuration.md", program)


def pages_are_those_of_the_code(_):
    """The tables of pages that tools/pages.py writes are as it writes them."""
    done = subprocess.run([sys.executable, TOP / "tools" / "pages.py", "--check"], capture_output=True, text=True)
    return done.stderr.strip() or (None if done.returncode == 0 else f"it ends with {done.returncode}")


def clauses_of_the_proofs_page(_):
    """Each name of the table of promises stands in the crates that it is said of."""
    table = (TOP / "docs" / "proofs.md").read_text().partition("| Promise |")[2].partition("\n\n")[0]
    rows = [line.strip("| ").split(" | ") for line in table.splitlines()[2:]]
    for promise, *cells in rows:
        names = set(re.findall(r"\w+", " ".join(re.findall(r"`([^`]*)`", " ".join(cells)))))
        crates = [TOP / "crates" / name for name in names if (TOP / "crates" / name).is_dir()]
        files = [file for crate in crates for part in ("src", "specs") for file in (crate / part).rglob("*.*t*")]
        words = set(re.findall(r"\w+", "".join(file.read_text() for file in files))) | {crate.name for crate in crates}
        if missing := names - words:
            return f"{promise}: no {sorted(missing)}"
    return None if len(rows) > 20 else f"{len(rows)} promises"


def laws_that_pages_name(_):
    """Each law that a page names is a function of some crate's laws."""
    code = "".join(file.read_text() for file in (TOP / "crates").glob("*/src/laws.rt"))
    laws = set(re.findall(r"^pub fn (\w+)", code, re.M))
    named = [(page.name, name) for page in [*TOP.glob("docs/*.md"), *TOP.glob("crates/*/README.md")]
             for name in re.findall(r"laws::([a-z]\w+)", page.read_text())]
    return next((f"{page}: no law {name}" for page, name in named if name not in laws), None if named else "no law")


def contracts_that_the_proofs_page_quotes(_):
    """Each contract that the page shows stands in the code as it is shown, lines parted as they may be."""
    code = " ".join(" ".join(file.read_text().split()) for file in (TOP / "crates").glob("*/src/**/*.rt"))
    quoted = [text for kind, text in BLOCK.findall((TOP / "docs" / "proofs.md").read_text()) if kind == "rust"]
    return next((f"not in the code: {text}" for text in quoted if " ".join(text.split()) not in code), None)


def anchors_of(page):
    """The names by which links reach the headings of a page."""
    headings = re.findall(r"^#+ (.*)$", page.read_text(), re.M)
    return {re.sub(r"[^\w -]", "", heading.lower()).replace(" ", "-") for heading in headings}


def links_between_pages(_):
    """Each link of a page to a file of the repository reaches it, and its heading."""
    for page in [*TOP.glob("*.md"), *TOP.glob("docs/*.md"), *TOP.glob("bridges/*.md"), *TOP.glob("crates/*/README.md")]:
        for path, anchor in re.findall(r"\]\((?!http)([^)#]*)#?([^)]*)\)", page.read_text()):
            file = page.parent / path if path else page
            if not file.exists() or anchor and anchor not in anchors_of(file):
                return f"{page.name}: {path}#{anchor}"
    return None


PAGE_CASES = (gate_that_proves_what_is_new, programs_that_ask_for_python, commands_of_the_protocol_page,
              commands_of_the_replay_page, commands_of_the_install_page, commands_of_the_configuration_page,
              choices_before_go, choices_in_a_session, choices_that_cases_show, pages_are_those_of_the_code,
              clauses_of_the_proofs_page, laws_that_pages_name, contracts_that_the_proofs_page_quotes,
              links_between_pages, *PAGE_TABLE_CASES)
