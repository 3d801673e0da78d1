"""The Debian package that ./package makes, and the manual pages and completions in it."""
import ast
import functools
import re
import shutil
import subprocess
import sys
import tempfile
import time
from contextlib import contextmanager
from pathlib import Path

from pages import PACKING, TOP, missing_packaging_tools, reader_of_a_page, take_bridges
from serving import SECONDS, VERSION, Client, TriedNothing, free_port, wait_for

PACKAGING = TOP / "packaging"
sys.path.insert(0, str(PACKAGING))
from changes import dates, made, releases  # noqa: E402

CONF = "etc/srcp_server.toml"


def with_packaging_tools(case):
    """The case if what ./package takes is there; else it says that it tried nothing."""
    @functools.wraps(case)
    def tries(program):
        if missing := missing_packaging_tools():
            raise TriedNothing(f"there is no {missing} here")
        return case(program)
    return tries


def pack(top, environment, *words, umask=-1):
    """Returns the package that ./package of a copy of the repository makes, with these words."""
    folder = top / "made"
    folder.mkdir(exist_ok=True)
    done = subprocess.run([top / "package", *words, folder], capture_output=True, text=True, timeout=PACKING,
                          env=environment, umask=umask)
    if done.returncode:
        raise RuntimeError(done.stderr)
    return folder / done.stdout.strip()


@contextmanager
def package_of(program):
    """The package around the program."""
    with reader_of_a_page(program) as reader:
        take_bridges(reader)
        yield pack(reader.folder, reader.environment)


@with_packaging_tools
def package_serves_from_what_it_holds(program):
    with package_of(program) as package, tempfile.TemporaryDirectory() as folder:
        root = Path(folder)
        subprocess.run(["dpkg-deb", "--extract", package, root], check=True, timeout=SECONDS)
        port = free_port()
        config = root / CONF
        config.write_text(re.sub(r"^port = .*", f"port = {port}", config.read_text(), flags=re.M))
        unit = (root / "usr/lib/systemd/system/srcp_server.service").read_text()
        started = re.search(r"^ExecStart=(.*)$", unit, re.M)[1].replace(" /", f" {root}/")
        server = subprocess.Popen(f"{root}{started}".split())
        try:
            wait_for(port, server)
            reply = Client(port, "COMMAND").asks("GET 1 POWER")
        finally:
            server.kill()
            server.wait()
        guarded = f"AssertPathExists=/{CONF}\n" in unit
        units = "".join(file.read_text() for file in (root / "usr/lib/systemd/system").glob("*.service"))
        named = re.findall(r"^ExecStart=\S+ (/\S+)", units.replace("${BRIDGE}", "web"), re.M)
        missing = [name for name in named if not (root / name[1:]).exists()]
    got = reply, guarded, missing
    return None if got == ("100 INFO 1 POWER OFF", True, []) else f"got {got}"


@with_packaging_tools
def package_is_the_same_to_the_byte(program):
    """Whatever the folder, the locale, the time zone and the umask of the clone are, and whenever it is made."""
    made = []
    with reader_of_a_page(program) as reader:
        take_bridges(reader)
        for place, locale, zone, umask in (("one", "C", "UTC0", 0o022), ("another/one", "C.UTF-8", "UTC11", 0o077)):
            top = reader.folder / "copies" / place
            top.parent.mkdir(parents=True)
            files = [file for file in reader.folder.iterdir() if file.name != "copies"]
            subprocess.run(["install", "-d", top], check=True, umask=umask)
            subprocess.run(["cp", "-r", *files, top], check=True, umask=umask)
            there = reader.environment | {"LC_ALL": locale, "TZ": zone}
            made.append(pack(top, there, umask=umask).read_bytes())
            time.sleep(1.1)
    first, second = made
    return None if first == second else f"{len(first)} and {len(second)} bytes, which differ"


def commands_are_named_and_completed(_):
    """srcp_server(1) and each completion name the programs beside the server, and bash offers the options of one."""
    files = [file for folder in ("bridges", "examples") for file in (TOP / folder).glob("*.py")]
    names = [file.stem.replace("_", "-") for file in files if file.stem != "srcp_client"]
    commands = {f"srcp-{name}" for name in names}
    for name in ("srcp_server.1", "completion.bash", "completion.zsh", "completion.fish"):
        if missing := commands - set(re.findall(r"srcp-[a-z0-9-]+", (PACKAGING / name).read_text())):
            return f"{name} does not name {sorted(missing)}"
    script = (f"source {PACKAGING}/completion.bash; COMP_WORDS=(srcp-web --ha); COMP_CWORD=1; "
              f"_srcp_program {TOP}/bridges/web.py; COMP_WORDS=(srcp-web --po); _srcp_program {TOP}/bridges/web.py; "
              "printf '%s' \"${COMPREPLY[@]}\"; complete -p srcp-web")
    done = subprocess.run(["bash", "-c", script], capture_output=True, text=True, timeout=SECONDS)
    offered = done.stdout == "--portcomplete -o filenames -F _srcp_program srcp-web\n"
    return None if offered else f"bash offers {done.stdout}{done.stderr}"


@with_packaging_tools
def package_that_is_purged_leaves_nothing(program):
    """Of the units neither links of those that were enabled, nor what was added to them, nor words, nor what the
    bridges kept. One that is removed leaves all of that, and nothing that Python kept beside the programs."""
    theirs = ("etc/systemd/system/multi-user.target.wants/srcp_bridge@web.service", "etc/default/srcp_bridge_web",
              "etc/systemd/system/srcp_bridge@web.service.d/mine.conf",
              "etc/systemd/system/srcp_server.service.d/mine.conf",
              "var/lib/private/srcp_bridge_keep/layout.srcp", "var/lib/srcp_bridge_keep")
    kept = "usr/share/srcp-server/bridges/srcp_bridges/stations/__pycache__/line.pyc"
    others = "etc/systemd/system/multi-user.target.wants/ssh.service", "etc/default/ssh", "var/lib/private/ssh"
    with package_of(program) as package, tempfile.TemporaryDirectory() as folder:
        root = Path(folder)
        subprocess.run(["dpkg-deb", "--control", package, root / "DEBIAN"], check=True, timeout=SECONDS)
        for file in (*theirs, *others, kept):
            (root / file).parent.mkdir(parents=True, exist_ok=True)
            (root / file).write_text("")
        (root / "tools").mkdir()
        for tool in ("rm", "find"):
            (root / "tools" / tool).symlink_to(shutil.which(tool))
        left = []
        for name, verb in (("prerm", "remove"), ("postrm", "remove"), ("postrm", "purge")):
            script = re.sub(r" (/(?:etc|var|usr)/)", rf" {root}\1", (root / "DEBIAN" / name).read_text())
            subprocess.run([shutil.which("sh"), "-c", script, name, verb], check=True, timeout=SECONDS,
                           env={"PATH": str(root / "tools")})
            files = [file for part in ("etc", "var", "usr") for file in (root / part).rglob("*")]
            left.append({str(file.relative_to(root)) for file in files if not list(file.glob("*"))})
    missing = {file for file in (*theirs, *others)} - left[1]
    stays = {file for file in left[2] if "srcp" in file and not file.startswith("usr")} | (left[0] & {kept})
    got = missing, stays, set(others) <= left[2]
    return None if got == (set(), set(), True) else f"missing after removal, left after purge, others: {got}"


def told_by_postinst(package, folder, active, *words):
    """What the script prints that configures the package, with a systemctl that has these units run."""
    root = Path(folder)
    subprocess.run(["dpkg-deb", "--control", package, root / "DEBIAN"], check=True, timeout=SECONDS)
    (root / "tools").mkdir(exist_ok=True)
    units = "".join(f"{unit}.service loaded active running\n" for unit in active if "@" in unit)
    tools = {"systemctl": f'case "$*" in *is-active*) exit {int("srcp_server" not in active)};; '
                          f"*list-units*) printf '%s' '{units}';; esac", "deb-systemd-helper": ":"}
    for name, text in tools.items():
        (root / "tools" / name).write_text(f"#!/bin/sh\n{text}\n")
        (root / "tools" / name).chmod(0o755)
    for tool in ("sh", "cut", "tr"):
        (root / "tools" / tool).symlink_to(shutil.which(tool))
    script = (root / "DEBIAN" / "postinst").read_text().replace("/run/systemd/system", folder)
    return subprocess.run([shutil.which("sh"), "-c", script, "postinst", *words], capture_output=True, text=True,
                          timeout=SECONDS, check=True, env={"PATH": str(root / "tools")}).stdout


@with_packaging_tools
def package_that_is_upgraded_tells_what_runs(program):
    """The server and the bridges that are of the package of before, and how the new ones are had. A first
    installation tells nothing."""
    bridges = "srcp_bridge@keep", "srcp_bridge@web"
    trials = (("configure", "1.14-1"), ("srcp_server", *bridges)), (("configure", "1.14-1"), bridges), \
        (("configure", "1.14-1"), ()), (("configure", ""), ("srcp_server", *bridges))
    got = []
    with package_of(program) as package:
        for words, active in trials:
            with tempfile.TemporaryDirectory() as folder:
                told = told_by_postinst(package, folder, active, *words)
            got.append(("restart srcp_server starts" in told,
                        "restart srcp_bridge@keep.service srcp_bridge@web.service starts" in told, told == ""))
    want = [(True, True, False), (False, True, False), (False, False, True), (False, False, True)]
    return None if got == want else f"got {got}"


@with_packaging_tools
def package_asks_for_the_c_library_of_the_program(program):
    """No symbol of the program is newer than the C library that the package and the page of installing name."""
    if not shutil.which("objdump"):
        raise TriedNothing("there is no objdump here")
    told = subprocess.run(["objdump", "-T", program], capture_output=True, text=True, timeout=SECONDS).stdout
    newest = max(tuple(map(int, version.split("."))) for version in re.findall(r"GLIBC_([\d.]+)", told))
    asked = re.search(r"libc6 \(>= ([\d.]+)\)", (PACKAGING / "debian" / "control").read_text())[1]
    page = re.search(r"GNU C library ([\d.]+\d)", (TOP / "docs" / "install.md").read_text())[1]
    got = ".".join(map(str, newest)), asked, page
    return None if len(set(got)) == 1 else f"the program, the package and the page: {got}"


def program_takes_the_instructions_that_the_page_names(program):
    """It has some of x86-64-v2, as the page of installing says, and none of those that came later: no AVX, FMA or
    BMI2."""
    if not shutil.which("objdump"):
        raise TriedNothing("there is no objdump here")
    disassembles = ["objdump", "-d", "--no-show-raw-insn", program]
    told = subprocess.run(disassembles, capture_output=True, text=True, timeout=SECONDS).stdout
    words = set(re.findall(r"^ +[0-9a-f]+:\t(\w+)", told, re.M))
    later = {word for word in words if re.match(r"v[a-z]|(mulx|pdep|pext|rorx|sarx|shlx|shrx|bzhi|andn)$", word)}
    is_told = "instructions of x86-64-v2" in (TOP / "docs" / "install.md").read_text()
    got = is_told, bool(words & {"pshufb", "ptest", "pinsrd", "popcnt"}), later
    return None if got == (True, True, set()) else f"the page says it, some are of v2, and later ones: {got}"


def linked_libraries():
    """The libraries of the kit that the crates name, with those below them if the kit is here."""
    crates = dict(re.findall(r"^(\w+):(.*)$", (TOP / "crates.txt").read_text(), re.M))
    wanted, found = [name for line in crates.values() for name in line.split()], set()
    kit = shutil.which("rt")
    while wanted:
        name = wanted.pop()
        if name in crates or name in found:
            continue
        found.add(name)
        if kit:
            format_of = Path(kit).resolve().parent.parent / "rlibs" / f"{name}.rlib" / "format"
            wanted += re.findall(r"^dep (\w+)$", format_of.read_text(errors="replace"), re.M)
    return found


def copyright_names_what_is_linked(_):
    """Each library that the program is linked with, and a licence, which is that of the repository's two files."""
    told = (PACKAGING / "copyright").read_text()
    words = set(re.findall(r"\w+", told.partition("\nFiles: *\n")[0]))
    if missing := linked_libraries() - words:
        return f"packaging/copyright does not name {sorted(missing)}"
    mit = (TOP / "LICENSE-MIT").read_text()
    apache = (TOP / "LICENSE-APACHE").read_text()
    readme = (TOP / "README.md").read_text()
    body = re.search(r"^License: MIT\n((?: .*\n)+)", told, re.M)[1]
    has_text = " ".join(body.replace(" .\n", "").split()) == " ".join(mit.partition("\n")[2].split())
    is_named = "(LICENSE-MIT)" in readme and "(LICENSE-APACHE)" in readme and "License: MIT or Apache-2.0\n" in told
    got = has_text, is_named, "Apache License" in apache
    return None if got == (True, True, True) else f"the text of MIT, both named, the text of Apache: {got}"


def package_suggests_what_its_programs_can_use(_: str) -> str | None:
    """Each library of Python that is none of the standard and none of ours."""
    files = [file for folder in ("bridges", "examples") for file in (TOP / folder).rglob("*.py")]
    imports = [node for file in files for node in ast.walk(ast.parse(file.read_text()))]
    names = {alias.name for node in imports if isinstance(node, ast.Import) for alias in node.names}
    names |= {node.module or "" for node in imports if isinstance(node, ast.ImportFrom)}
    ours = {file.stem for file in files} | {"srcp_bridges"}
    others = {name.partition(".")[0] for name in names} - sys.stdlib_module_names - ours
    suggested = re.findall(r"^Suggests: (.*)$", (PACKAGING / "debian" / "control").read_text(), re.M)[0].split(", ")
    missing = [name for name in others if not any(one.startswith(f"python3-{name}") for one in suggested)]
    return f"not suggested: {missing}" if missing or len(others) < 3 else None


def version_is_counted_once(program):
    """The package, its changelog and the pages have one version, which the program says beside that of its welcome
    line. The program and the changes may have one more, which is not released yet."""
    told = subprocess.run([program, "--version"], capture_output=True, text=True, timeout=SECONDS).stdout
    changes = (TOP / "CHANGELOG.md").read_text()
    readme = (TOP / "README.md").read_text()
    install = (TOP / "docs" / "install.md").read_text()
    package = re.match(r"srcp-server \(([\d.]+-\d+)\) ", (PACKAGING / "changelog").read_text())[1]
    heads = re.findall(r"^## (.*)$", changes, re.M)
    named = set(re.findall(r"srcp-server_([\d.]+-\d+)_", readme + install))
    front = re.findall(r"^Version ([\d.]+): \[what is new\]\(CHANGELOG.md\)\.$", readme, re.M)
    got = told, "`srcp_server 1.0`" in changes, package in [f"{head}-1" for head in heads[:2]], named, front
    want = f"{VERSION.decode()}\n", True, True, {package}, [package.removesuffix("-1")]
    return None if got == want else f"{got}"


def changes_of_the_package_are_those_of_the_page(_):
    """packaging/changelog says of each release what CHANGELOG.md says of it, and lacks none but one that is not
    released yet."""
    changes, text = releases((TOP / "CHANGELOG.md").read_text()), (PACKAGING / "changelog").read_text()
    if list(changes)[-len(dates(text)):] != list(dates(text)) or len(changes) - len(dates(text)) not in (0, 1):
        return f"the page has {list(changes)}, the package {list(dates(text))}"
    if empty := [version for version, told in changes.items() if not told]:
        return f"nothing is told of {empty}"
    lines = zip(text.splitlines(), made(changes, dates(text)).splitlines(), strict=True)
    return next((f"packaging/changelog has {ours!r}, want {want!r}" for ours, want in lines if ours != want), None)


def words_of_help(program):
    """The commands of the program, and of each the long options that its help lists."""
    def listed(*words):
        told = subprocess.run([program, *words, "--help"], capture_output=True, text=True, timeout=SECONDS).stdout
        commands = re.findall(r"^  ([a-z]+)", told.partition("Commands:")[2].partition("Options:")[0], re.M)
        return commands, set(re.findall(r"--[a-z]+", told.partition("Options:")[2]))

    commands, options = listed()
    return {"": options} | {command: listed(command)[1] for command in commands if command != "help"}, commands


def manual_and_completions_are_the_help(program):
    """They have the commands and the options of --help, and no others."""
    by_command, commands = words_of_help(program)
    options = {option for options in by_command.values() for option in options}
    manual = (PACKAGING / "srcp_server.1").read_text()
    found = set(re.findall(r"^\.It Cm (\w+)", manual, re.M)), set(re.findall(r"^\.It Fl -(\w+)", manual, re.M))
    if found != (set(commands), {option[2:] for option in options}):
        return f"the manual page has {found}"
    for synopsis in re.findall(r"^\.Cm (\w+)((?:\n\.(?:Fl|Op Fl).*)*)", manual.partition(".Sh DESCRIPTION")[0], re.M):
        if set(re.findall(r"Fl -(\w+)", synopsis[1])) != {option[2:] for option in by_command[synopsis[0]]} - {"help"}:
            return f"the synopsis has {synopsis}"
    for shell in ("bash", "zsh", "fish"):
        text = (PACKAGING / f"completion.{shell}").read_text()
        form = r"-l (\w+)" if shell == "fish" else r"--(\w+)"
        if set(re.findall(form, text)) != {option[2:] for option in options}:
            return f"{shell} completes {re.findall(form, text)}"
        if missing := [command for command in commands if not re.search(rf"\b{command}\b", text)]:
            return f"{shell} does not complete {missing}"
    return None


def bash_completes_words(program):
    """What bash offers after each command is what its help lists."""
    by_command, commands = words_of_help(program)
    script = (f"source {PACKAGING}/completion.bash; COMP_WORDS=(srcp_server $1 ''); "
              "COMP_CWORD=$((${#COMP_WORDS[@]} - 1)); _srcp_server; printf '%s\\n' \"${COMPREPLY[@]}\"")
    for command, options in by_command.items():
        done = subprocess.run(["bash", "-c", script, "bash", command], capture_output=True, text=True, timeout=SECONDS)
        want = options | (set() if command else set(commands))
        if set(done.stdout.split()) != want:
            return f"after {command or 'nothing'}: {done.stdout.split()}, want {sorted(want)}; {done.stderr}"
    return None


def commands_of_the_manual_page(program):
    """The examples of srcp_server(1), run as the blocks of the other pages are, in the repository's copy."""
    blocks = re.findall(r"^\.Bd -literal.*\n((?:.*\n)*?)\.Ed", (PACKAGING / "srcp_server.1").read_text(), re.M)
    there = {"$ srcp_server ": "$ ./run ", f"/{CONF}": "examples/layout.toml", " &\n": "\n",
             "/usr/share/doc/srcp-server/examples": "examples"}
    with reader_of_a_page(program) as reader:
        for block in blocks:
            for installed, here in there.items():
                block = block.replace(installed, here)
            if fault := reader.follows(block.splitlines()):
                return fault
    return None if blocks else "no examples"


def manual_of_the_configuration_is_the_page(_):
    """srcp_server.toml(5) has the keys of docs/configuration.md, with the same limits."""
    manual, page = (PACKAGING / "srcp_server.toml.5").read_text(), (TOP / "docs" / "configuration.md").read_text()

    def limits(rows):
        return {key: re.findall(r"\d[\d,]*(?: to \d+)?", text) for key, text in rows}
    ours = limits(re.findall(r"^\.It Ic (\w+)\n((?:[^.].*\n)+)", manual, re.M))
    theirs = limits(re.findall(r"^\| `(\w+)` \| (.*) \|$", page, re.M))
    unlike = {key for key in ours.keys() | theirs.keys() if ours.get(key) != theirs.get(key)}
    return f"other limits: {sorted(unlike)}" if unlike - {"groups"} or not ours else None


PACKAGE_CASES = (package_serves_from_what_it_holds, package_is_the_same_to_the_byte,
                 package_that_is_purged_leaves_nothing, package_that_is_upgraded_tells_what_runs,
                 package_asks_for_the_c_library_of_the_program, program_takes_the_instructions_that_the_page_names,
                 copyright_names_what_is_linked, version_is_counted_once, changes_of_the_package_are_those_of_the_page,
                 manual_and_completions_are_the_help, bash_completes_words, commands_are_named_and_completed,
                 commands_of_the_manual_page, package_suggests_what_its_programs_can_use,
                 manual_of_the_configuration_is_the_page)
