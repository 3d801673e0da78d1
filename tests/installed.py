"""What the package installs beside the server: its commands and their manual pages, its pages, and its units."""
import gzip
import os
import re
import shlex
import shutil
import socket
import subprocess
import sys
import tempfile
import time
from contextlib import contextmanager
from pathlib import Path

from bridge_tests.test_entrance import WebInTheNetwork
from debian_package import CONF, pack, package_of, with_packaging_tools
from pages import STAND_INS, TOP, anchors_of, reader_of_a_page, take_bridges
from serving import SECONDS, Client, TriedNothing, free_port, served

UNITS = "usr/lib/systemd/system"


@contextmanager
def installed(program):
    """The root of a system that has the package."""
    with package_of(program) as package, tempfile.TemporaryDirectory() as folder:
        subprocess.run(["dpkg-deb", "--extract", package, folder], check=True, timeout=SECONDS)
        yield Path(folder)


@with_packaging_tools
def commands_of_the_package(program):
    """Each program of examples/ and of bridges/ is a command, and its manual page has the options of its --help."""
    with installed(program) as root:
        commands = sorted((root / "usr" / "bin").glob("srcp-*"))
        for command in commands:
            told = subprocess.run([sys.executable, command, "--help"], capture_output=True, text=True, timeout=SECONDS,
                                  env=os.environ | {"PYTHONDONTWRITEBYTECODE": "1"}).stdout
            manual = root / "usr" / "share" / "man" / "man1" / f"{command.name}.1.gz"
            page = gzip.decompress(manual.read_bytes()).decode().replace("\\-", "-")
            options = [set(re.findall(r"^  (?:-\w, )?(--[a-z-]+)", text, re.M)) for text in (told, page)]
            if options[0] != options[1] or not options[0] or f"usage: {command.name} " not in told:
                return f"{command.name}: {options}, {told[:80]!r}"
            if not os.access(command, os.X_OK) or not re.search(rf"^\.SH NAME\n{command.name} - \w", page, re.M):
                return f"{command.name}: {page[:200]!r}"
    files = [file for part in ("examples", "bridges") for file in (TOP / part).glob("*.py") if os.access(file, os.X_OK)]
    programs = {f"srcp-{file.stem.replace('_', '-')}" for file in files}
    return None if {command.name for command in commands} == programs else f"got {commands}, want {programs}"


@with_packaging_tools
def programs_of_the_package_tell_its_version(program):
    """All beside the server, those of bridges/ and of examples/, as SECURITY.md says. In a clone they tell the newest
    release."""
    version = re.match(r"srcp-server \(([\d.]+-\d+)\) ", (TOP / "packaging" / "changelog").read_text())[1]
    programs = [file for part in ("bridges", "examples") for file in (TOP / part).glob("*.py")
                if os.access(file, os.X_OK)]
    with installed(program) as root:
        for here in programs:
            for file in (root / "usr" / "bin" / f"srcp-{here.stem.replace('_', '-')}", here):
                told = subprocess.run([sys.executable, file, "--version"], capture_output=True, text=True,
                                      timeout=SECONDS, env=os.environ | {"PYTHONDONTWRITEBYTECODE": "1"}).stdout
                if told != f"{file.name} {version}, for SRCP 0.8.4\n":
                    return f"{file}: {told!r}"
    security = " ".join((TOP / "SECURITY.md").read_text().split())
    is_told = "`srcp_server --version` tells which release you have, as each program does" in security
    return None if programs and is_told else f"{len(programs)} programs; SECURITY.md says so: {is_told}"


@with_packaging_tools
def pages_of_the_package_have_no_dead_link(program):
    """They are there with what stops trains, and each link of one reaches a file of the package and its heading."""
    with installed(program) as root:
        pages = sorted((root / "usr" / "share" / "doc" / "srcp-server").rglob("*.md"))
        for page in pages:
            for path, anchor in re.findall(r"\]\((?!http)([^)#]*)#?([^)]*)\)", page.read_text()):
                file = page.parent / path if path else page
                if not file.exists() or anchor and anchor not in anchors_of(file):
                    return f"{page.name}: {path}#{anchor}"
        named = {page.parent.name + "/" + page.name for page in pages}
        text = "".join(page.read_text() for page in pages)
        safe = "## Safety" in text and "## What stops trains" in text
    wanted = {f"bridges/{page.name}" for page in TOP.glob("bridges/*.md")} | {"docs/protocol.md"}
    return None if safe and wanted <= named and len(wanted) > 6 else f"pages {named}, safety: {safe}"


def values(text, key):
    return re.findall(rf"^{key}=(.*)$", text, re.M)


@with_packaging_tools
def units_of_the_package(program):
    """All are started again, however they end, once the time is known. Each says who it is, and has a folder for what
    status.py reads. A second station has what a first one has, and `keep` its file. The start of the server waits until
    its process is the program: before that, its user may not ask whether the process is there."""
    with installed(program) as root:
        files = [file for file in (root / UNITS).rglob("*.*") if file.is_file()]
        texts = {str(file.relative_to(root / UNITS)): file.read_text() for file in files}
    server, bridge = texts["srcp_server.service"], texts["srcp_bridge@.service"]
    first, second = [texts[f"srcp_bridge@{name}.service.d/srcp-server.conf"] for name in ("dcc_ex", "dcc_ex_2")]
    for text in (server, bridge):
        if values(text, "Restart") != ["always"] or "time-sync.target" not in values(text, "After")[0].split():
            return f"{values(text, 'Restart')}, {values(text, 'After')}"
    keep = texts["srcp_bridge@keep.service.d/srcp-server.conf"]
    got = (values(server, "Type"), values(bridge, "SyslogIdentifier"), values(bridge, "RuntimeDirectory"),
           values(bridge, "Environment"), first == second, values(first, "Environment"), values(keep, "Environment"))
    want = (["exec"], ["srcp_bridge@%i"], ["srcp_bridge_%i"], ["BRIDGE=%i"], True, ["BRIDGE=dcc_ex"],
            ["WORDS=layout.srcp"])
    return None if got == want else f"got {got}"


@with_packaging_tools
def units_that_the_pages_enable(program: str) -> str | None:
    """Each unit that the front page and the page of installing name has its program in the package. One line each of
    the latter starts what the front page says."""
    readme, page = [" ".join((TOP / name).read_text().split()) for name in ("README.md", "docs/install.md")]
    with installed(program) as root:
        there = {file.stem for file in (root / "usr" / "share" / "srcp-server" / "bridges").glob("*.py")}
    lines = set(re.findall(r"sudo systemctl enable --now srcp_bridge@(\w+) +#", page))
    missing = set(re.findall(r"srcp_bridge@(\w+)", readme + page)) - there
    is_told = "[One line each](docs/install.md#the-units) starts a driver and `withrottle`" in readme
    got = missing, {"dcc_ex", "withrottle"} <= lines, is_told
    return None if got == (set(), True, True) else f"without a program, a line each, told by the front page: {got}"


@with_packaging_tools
def page_on_phones_by_the_readme(program: str) -> str | None:
    """The words and the file that it names are those of the page of installing, of the unit, and of the cases of a page
    in the network. Its journal is that of the unit."""
    readme = (TOP / "README.md").read_text().partition("\n## Installing\n")[2]
    words, file, name = re.findall(r"`WORDS=(.*?)` in (/etc/default/srcp_bridge_(\w+)) ", readme)[0]
    with installed(program) as root:
        unit = (root / UNITS / "srcp_bridge@.service").read_text().replace("%i", name)
    got = (values(unit, "EnvironmentFile"), f"`journalctl -t {values(unit, 'SyslogIdentifier')[0]}`" in readme,
           f"\necho WORDS={words} | sudo tee {file}\n" in (TOP / "docs" / "install.md").read_text(),
           " ".join(map(str, WebInTheNetwork.words)))
    return None if got == ([f"-{file}"], True, True, words) else f"got {got}"


@with_packaging_tools
def reload_of_a_broken_configuration(program):
    """It fails, and the server runs on with all it holds. One that is right starts the server anew. A restart with a
    broken one fails too."""
    with reader_of_a_page(program) as reader:
        take_bridges(reader)
        root, port = reader.folder / "root", reader.ports["4303"]

        def sudo(*words):
            return subprocess.run([STAND_INS / "sudo", *words], env=reader.environment, capture_output=True, text=True,
                                  timeout=SECONDS)

        sudo("apt", "install", pack(reader.folder, reader.environment))
        sudo("systemctl", "enable", "--now", "srcp_server")
        Client(port, "COMMAND").asks("INIT 1 GL 3 N 1 28 5")
        right = (root / CONF).read_text()
        (root / CONF).write_text(right.replace('"GL"', '"gl"'))
        broken = sudo("systemctl", "reload", "srcp_server")
        kept = Client(port, "COMMAND").asks("GET 1 GL 3")
        (root / CONF).write_text(right)
        mended = sudo("systemctl", "reload", "srcp_server")
        anew = Client(port, "COMMAND").asks("GET 1 GL 3")
        (root / CONF).write_text(right.replace('"GL"', '"gl"'))
        restarted = sudo("systemctl", "restart", "srcp_server")
    statuses = [done.returncode for done in (broken, mended, restarted)]
    got = statuses, "unknown group" in broken.stderr, "unknown group" in restarted.stderr, kept, anew
    want = [1, 0, 1], True, True, "100 INFO 1 GL 3 1 0 0 0 0 0 0 0", "416 ERROR no data"
    return None if got == want else f"got {got}; {broken.stderr}{mended.stderr}"


def start_post(unit, folder, main, config):
    """Runs what the unit waits for at its start, with that number of its main process; returns its status."""
    text = re.search(r"^ExecStartPost=((?:.*\\\n)*.*)$", unit, re.M)[1].replace("\\\n", " ")
    for there, here in (("$$", "$"), ("%%", "%"), ("${MAINPID}", str(main)), (f"/{CONF}", str(config)),
                        ("/usr/bin/srcp_server", f"{folder}/usr/bin/srcp_server")):
        text = text.replace(there, here)
    return subprocess.run(shlex.split(text), capture_output=True, timeout=SECONDS).returncode


@with_packaging_tools
def start_that_waits_for_the_server(program):
    """It is done once the server listens, and not before. It fails if that has ended, also if another user listens at
    its port."""
    with installed(program) as root, tempfile.TemporaryDirectory() as folder:
        unit = (root / UNITS / "srcp_server.service").read_text()
        config = Path(folder, "layout.toml")
        port, gone = free_port(), subprocess.Popen(["true"])
        gone.wait()
        config.write_text(f"port = {port}\nbus = []\n")
        late = ["sh", "-c", 'sleep 1; exec "$0" serve --config "$1"', program, config]
        with subprocess.Popen(late) as server, socket.socket() as client:
            statuses = [start_post(unit, root, server.pid, config), client.connect_ex(("127.0.0.1", port))]
            server.kill()
        statuses.append(start_post(unit, root, gone.pid, config))
        if os.geteuid() == 0 and os.path.exists("/usr/bin/python3"):
            listens = f"import socket; s = socket.create_server(('127.0.0.1', {port})); print(flush=True); s.accept()"
            with subprocess.Popen(["/usr/bin/python3", "-c", listens], user=65534, stdout=subprocess.PIPE) as other:
                other.stdout.readline()
                statuses.append(start_post(unit, root, gone.pid, config))
                other.kill()
    return None if statuses in ([0, 0, 1], [0, 0, 1, 1]) else f"statuses {statuses}"


def plan_that_a_unit_does_not_see(_):
    """A plan, or names, below /home: a unit says why they are not read. Elsewhere, and without systemd, the fault is
    told as it is."""
    unit, hidden, file = {"INVOCATION_ID": "1"}, "/home/nobody-of-this-name/plan.toml", "/etc/no-such-folder/plan.toml"
    trials = [("web", "--plan"), ("withrottle", "--plan"), ("box", "--plan"), ("web", "--names"), ("log", "--names")]
    without = {key: value for key, value in os.environ.items() if key not in unit}
    for name, option in trials:
        for path, environment, said in ((hidden, without | unit, "a unit does not see what is in /home (ProtectHome)"),
                                        (hidden, without, "No such file"), (file, without | unit, "No such file")):
            done = subprocess.run([sys.executable, TOP / "bridges" / f"{name}.py", option, path], env=environment,
                                  capture_output=True, text=True, timeout=SECONDS)
            if done.returncode != 2 or f"-- {option} {path}: " not in done.stderr or said not in done.stderr:
                return f"{name}, {path}: {done}"
    return None


def bytes_of_sockets(port):
    """Returns what the system holds for the sockets of a port, of what is not read yet."""
    told = subprocess.run(["ss", "-tmnH", f"sport = :{port}"], capture_output=True, text=True, timeout=SECONDS).stdout
    return sum(int(read) + int(to_be_sent) for read, to_be_sent in re.findall(r"\(r(\d+),.*?,w(\d+),", told))


def memory_of_the_unit_holds_panels_that_do_not_read(program):
    """63 panels read nothing of 30,000 locomotives. What the server and its sockets take is less than 40 MB, and less
    than half of what the unit allows: as many peers may be kept aside."""
    if not shutil.which("ss"):
        raise TriedNothing("there is no ss (of iproute2) here")
    buses = "".join(f'[[bus]]\nnumber = {bus}\ngroups = ["GL"]\ngl_max = 10239\n' for bus in (1, 2, 3))
    unit = (TOP / "examples" / "srcp_server.service").read_text()
    allowed = int(values(unit, "MemoryMax")[0].removesuffix("G")) << 30
    with served(program, layout="port = {port}\n" + buses) as (port, server):
        throttle = Client(port, "COMMAND")
        for bus in (1, 2, 3):
            throttle.asks_many([f"INIT {bus} GL {address} N 1 28 29" for address in range(1, 10_001)])
        panels = [Client(port, "INFO", receives=4096) for _ in range(63)]
        taken = 0
        while taken < (now := bytes_of_sockets(port)):
            taken = now
            time.sleep(1)
        status = Path(f"/proc/{server.pid}/status").read_text()
        taken += int(re.search(r"VmRSS:\s+(\d+)", status)[1]) << 10
        for panel in panels:
            panel.close()
    is_held = 10 << 20 < taken < min(40_000_000, allowed / 2)
    return None if is_held else f"they take {taken >> 20} MiB of {allowed >> 20}"


INSTALLED_CASES = (commands_of_the_package, programs_of_the_package_tell_its_version,
                   pages_of_the_package_have_no_dead_link, units_of_the_package, units_that_the_pages_enable,
                   page_on_phones_by_the_readme, reload_of_a_broken_configuration, start_that_waits_for_the_server,
                   plan_that_a_unit_does_not_see, memory_of_the_unit_holds_panels_that_do_not_read)
