"""The tables of the pages for those who change the program: what they name is in the code, with the values told."""
import re
from functools import cache
from pathlib import Path

TOP = Path(__file__).resolve().parent.parent
CRATES = TOP / "crates"
# The numbers told of each key of a configuration: the least, the greatest, and what counts if it is not given.
KEYS = {"port": (1, "GREATEST_PORT", "DEFAULT_PORT"), "number": (1, "GREATEST_BUS"), "gl_max": (1, "GREATEST_GL"),
        "ga_max": (1, "GREATEST_GA"), "ga_ports": ("FEWEST_PORTS", "MOST_PORTS", "FEWEST_PORTS"),
        "fb_ports": (1, "GREATEST_FB")}
# What the protocol's page says of the numbers of rows and commands, and the constant of each.
OF_COMMANDS = (("`gl_max` ({} at most)", "GREATEST_GL"), ("`ga_max` ({} at most)", "GREATEST_GA"),
               ("`fb_ports` ({} at most)", "GREATEST_FB"), ("({} bytes at most once", "LONGEST_TEXT"),
               ("version 0 to {},", "GREATEST_VERSION"), ("steps 1 to {},", "MOST_STEPS"),
               ("functions 0 to {};", "MOST_FUNCTIONS"), ("for `P 1 {}", "DEFAULT_STEPS"),
               ("then up to {} functions", "MOST_FUNCTIONS"), ("-1, or 0 to {} ms", "MOST_MILLISECONDS"),
               ("seconds 0 to {} ", "MOST_SECONDS"), ("session id, 0 to {} ", "GREATEST_ID"))
BYTES_OF_A_TEXT = "bytes 33 to 126, 128 to 255"
# What its text says of other limits.
OF_THE_TEXT = (("At most {:,} bytes stand before the LF", "LONGEST_READ"),
               ("longer than {} bytes with its LF", "LONGEST_LINE"),
               ("buses of the layout are 1 to {}.", "GREATEST_BUS"), ("V and Vmax are 0 to {}, and", "GREATEST_SPEED"),
               ("{} changes may wait for a panel.", "MOST_WAITING"), ("has at most {} connections", "MOST_CONNECTIONS"),
               ("takes {} bytes of a client at once", "MOST_IN_PIECE"),
               ("which stands for `P 1 28 {}`.", "DEFAULT_FUNCTIONS"))
GRAMMAR, LAYOUT, DOCUMENT, WELL_FORMED = ("srcp_grammar/specs/Grammar.antt", "srcp_grammar/specs/Layout.antt",
                                          "srcp_layout_file/specs/Document.antt", "srcp_info/specs/WellFormed.antt")
# The constants of what clients send and of a configuration, and the definitions that cite each.
CITED = ((("MOST_FUNCTIONS", "GREATEST_VERSION", "MOST_STEPS", "GREATEST_SPEED", "MOST_SECONDS"),
          (GRAMMAR, WELL_FORMED)),
         (("GREATEST_GL", "GREATEST_GA", "GREATEST_FB", "FEWEST_PORTS"), (LAYOUT, DOCUMENT)),
         (("MOST_PORTS",), (WELL_FORMED, LAYOUT, DOCUMENT)), (("GREATEST_BUS",), (LAYOUT, GRAMMAR, DOCUMENT)),
         (("GREATEST_PORT", "DEFAULT_PORT"), ("srcp_layout_file/specs/Limits.antt",)),
         (("DEFAULT_STEPS", "DEFAULT_FUNCTIONS"), (GRAMMAR,)), (("LONGEST_TEXT",), (WELL_FORMED,)),
         (("MOST_MILLISECONDS",), (GRAMMAR, "srcp_grammar/specs/Command.antt")),
         (("GREATEST_ID",), ("srcp_core/specs/Acts.antt",)))
# Pages that tell what was, in which a name is no place to change.
NEWS = {"CHANGELOG.md", "CONTRIBUTING.md", "packaging/changelog"}
# The numbers that stand bare in the code of a file and are no limits, and what they are.
NO_LIMITS = (
    ("srcp_core/specs/Handshake.antt", {4, 5}, "bytes of a version"),
    ("srcp_core/src/handshake.rt", {4, 5}, "bytes of a version"),
    ("srcp_drive/specs/Hearing.antt", {52, 53}, "bytes of digits"),
    ("srcp_grammar/specs/Grammar.antt", {3, 4, 5}, "words of a command"),
    ("srcp_info/specs/Key.antt", {3, 4, 5, 6}, "places of groups"),
    ("srcp_info/specs/WellFormed.antt", {32, 256}, "bytes of a text"),
    ("srcp_info/src/scan.rt", {999, 1000}, "milliseconds of a second"),
    ("srcp_info/src/well_formed.rt", {127}, "byte"),
    ("srcp_info/src/words.rt", {3}, "digits of a code"),
    ("srcp_info/src/write.rt", {3}, "digits of a code"),
    ("srcp_interlock/specs/Hearing.antt", {2, 52, 53}, "port, and the bytes of digits"),
    ("srcp_peers/specs/Peers.antt", {2}, "calls"),
    ("srcp_plan_file/specs/Drawing.antt", {128, 192}, "first bytes of a character"),
    ("srcp_plan_file/src/behind.rt", {2}, "sections without which no train is followed"),
    ("srcp_plan_file/src/drawing.rt", {128, 192}, "first bytes of a character"),
    ("srcp_peers/src/lingering.rt", {2}, "calls"),
    ("srcp_rules/specs/Effect.antt", {3, 1000}, "place of a letter, and milliseconds of a second"),
    ("srcp_rules/specs/Laws.antt", {1000}, "milliseconds of a second"),
    ("srcp_rules/src/lock.rt", {1000}, "milliseconds of a second"),
    ("srcp_rules/src/new_device.rt", {3, 4, 5, 6, 7, 8}, "ports one by one"),
    ("srcp_script/specs/Script.antt", {16, 35}, "base, and the byte of #"),
    ("srcp_script/src/script/escape.rt", {2, 16}, "digits of a byte, and the base"),
    ("srcp_log/specs/Loads.antt", {3}, "calls"),
    ("srcp_sockets/specs/Options.antt", {12}, "bytes of a value of the system behind a number"),
    ("srcp_sockets/src/mio_system.rt", {1_000_000}, "nanoseconds of a millisecond"),
    ("srcp_sockets/src/options.rt", {4, 16}, "bytes of a number and of a value of the system"),
    ("srcp_sockets/src/sockets/turns.rt", {3}, "calls"),
    ("srcp_stations/src/dataset.rt", {3}, "place of a byte"),
    ("srcp_text/specs/Marks.antt", {13}, "byte"),
    ("srcp_text/specs/Stamp.antt", {10, 48, 100, 1000}, "digits, the byte of 0, milliseconds of a second"),
    ("srcp_text/specs/Words.antt", {10, 48, 49}, "base, and the bytes of digits"),
    ("srcp_text/src/iter.rt", {3}, "bytes of a word of one byte between blanks"),
    ("srcp_text/src/number.rt", {10}, "base"),
    ("srcp_text/src/put.rt", {10, 20, 100, 1000}, "numbers of one digit more, and the most digits"),
)
# What is no code: comments, texts, and the constants and definitions that give a number its name.
NO_CODE = {".rt": r"""//[^\n]*|"(?:[^"\\]|\\.)*"|'(?:[^'\\\n]|\\[^'\n]+)'"""
                  r"|^ *(?:pub(?:\(\w+\))? )?(?:const|static) (?!fn\b).*?;$",
           ".antt": r'--[^\n]*|"[^"]*"|^\w+ = \d+$'}
# A power of two, a byte of a list or of a text, and the strength of an operator.
FORMS = r"\b2 \^ \d+|\b\d+ ∷|\b(?:join_with_byte|parts_behind|byte ==|infix[lr]) \d+"
# A number, unless it is a part of a name or a field, as in `x.0`.
NUMBER = r"(?<![\w'])(?<![\w)\]]\.)(0x[\da-fA-F_]+|\d[\d_]*)(?:[iu](?:\d+|size))?(?![\w']|\.\d)"
# What is compared with two.
COMPARED = (r"(?: [<>]=? |[≤≥] |== |\bnat_l[te] |\bm(?:in|ax)[( ])2\b(?! \^)"
            r"|\b2 (?:[<>]=?|[≤≥]) |\bnat_l[te] \S+ 2\b")


def rows_under(page, heading):
    """The cells of each row of the first table behind a heading of a page of docs/."""
    table = (TOP / "docs" / page).read_text().partition(f"\n## {heading}\n")[2].partition("\n|")[2].partition("\n\n")[0]
    return [[cell.strip() for cell in line.strip()[1:-1].split("|")] for line in table.splitlines()[2:]]


def quoted(cell):
    """Returns what stands between backticks in a cell."""
    return re.findall(r"`([^`]*)`", cell)


def is_in(text, word):
    return re.search(rf"\b{re.escape(word)}\b", text) is not None


def walk_of_the_architecture_page(_):
    """Each file of the walk is there, and each name beside it stands in it or in a file of the rows above."""
    rows = rows_under("architecture.md", "A command on its way")
    passed = ""
    named = set()
    for number, files, told in rows:
        if missing := [file for file in quoted(files) if not (CRATES / file).is_file()]:
            return f"step {number}: no file {missing}"
        if again := named & set(quoted(files)):
            return f"step {number}: {sorted(again)} stands above"
        named |= set(quoted(files))
        here = "".join((CRATES / file).read_text() for file in quoted(files))
        passed += here
        words = [word for text in quoted(told) for word in re.findall(r"^[A-Za-z_]\w*$", text)]
        if missing := [word for word in words if not is_in(passed, word)]:
            return f"step {number}: no {missing}"
        if not any(is_in(here, word) for word in words):
            return f"step {number}: nothing is named that stands in its files"
    return None if len(rows) > 20 else f"{len(rows)} rows"


def value_of(expression, constants):
    """The number that a constant of the code is set to, by those that it names."""
    words = {word: constants[word] for word in re.findall(r"[A-Z]\w*", expression)}
    return eval(re.sub(r" as \w+", "", expression), {"__builtins__": {}}, words)


@cache
def constants_of_the_code():
    """Each constant of the code that is a number: {(file, name): value}."""
    found, values = {}, {}
    form = re.compile(r"^(?:pub(?:\(\w+\))? )?const ([A-Z_]+): \w+ = ([^;]*);", re.M)
    for file in CRATES.glob("*/src/**/*.rt"):
        for name, expression in form.findall(file.read_text()):
            found[str(file.relative_to(CRATES)), name] = expression
    for _ in range(3):  # a constant may be set by others
        by_name = {name: value for (_, name), value in values.items()}
        for place, expression in found.items():
            try:
                values[place] = value_of(expression, by_name)
            except (KeyError, SyntaxError, TypeError):
                continue
    return values


def limits_of_the_architecture_page(_):
    """Each limit has the value that its constant is set to, and is not below the number that the page says it needs."""
    rows, values = rows_under("architecture.md", "Limits"), constants_of_the_code()
    names = {name for _, name in values}
    for limit, value, constant, least, _ in rows:
        value, (file, *name) = int(value.replace(",", "")), quoted(constant)
        got = values.get((file, *name))
        if got != value:
            return f"{limit}: {value} on the page, {got} in {constant}"
        if missing := [word for word in quoted(least) if word not in names]:
            return f"{limit}: no {missing}"
        if least.isdecimal() and value < int(least):
            return f"{limit}: {value} is less than {least}"
    return None if len(rows) > 30 else f"{len(rows)} rows"


def forms_of(constant):
    """Returns how definitions cite a constant: as its number, and by its name in small letters."""
    return [str(value) for (_, name), value in constants_of_the_code().items() if name == constant] + [constant.lower()]


def refusals_of_the_architecture_page(_):
    """Asserts that what refuses a wrong limit is there: a file of the proof, a name in the crates, or a case. Each file
    of definitions cites the limit by the name of its constant in small letters, or has it as a number."""
    cases = "".join(file.read_text() for file in (TOP / "tests").glob("*.py"))
    code = "".join(file.read_text() for part in ("src", "specs", "proofs")
                   for file in CRATES.glob(f"*/{part}/**/*.*t*"))
    for limit, value, constant, _, refuses in rows_under("architecture.md", "Limits"):
        forms = (value.replace(",", ""), quoted(constant)[-1].lower())
        for text in quoted(refuses):
            if "/specs/" in text and not any(is_in((CRATES / text).read_text(), form) for form in forms):
                return f"{limit}: none of {forms} in {text}"
            is_case = (TOP / "tests" / "cases" / text).is_dir() or f"def {text.replace('-', '_')}(program" in cases
            if not (is_case or (CRATES / text).exists() or is_in(code, text.rstrip("!"))):
                return f"{limit}: no {text}"
    return next((f"{name}: not in {file}" for names, files in CITED for name in names for file in files
                 if not any(is_in((CRATES / file).read_text(), form) for form in forms_of(name))), None)


def limits_of_the_protocol_page(_: str) -> str | None:
    """The text says of each limit that clients meet what its constant is set to, and which moment is the greatest."""
    page = " ".join((TOP / "docs" / "protocol.md").read_text().split())
    values = {name: value for (_, name), value in constants_of_the_code().items()}
    said = [f"The greatest moment is {2 ** 64 - 1} ms"]
    said += [form.format(values[name]) for form, name in OF_THE_TEXT]
    return next((f"the page does not say {text!r}" for text in said if text not in page), None)


def numbers_of_the_commands(_: str) -> str | None:
    """Each number in the protocol's tables of rows and of commands is what its constant is set to. No other number
    stands there, but for the bytes of a text."""
    values = {name: value for (_, name), value in constants_of_the_code().items()}
    rows = rows_under("protocol.md", "The registry") + rows_under("protocol.md", "Commands")
    told = " ".join(" ".join(row) + " " for row in rows).replace(BYTES_OF_A_TEXT, "")
    for form, name in OF_COMMANDS:
        if (sentence := form.format(values[name])) not in told:
            return f"{name} is {values[name]}: the tables do not say {sentence!r}"
        told = told.replace(sentence, "")
    others = re.findall(r"\d{2,}", told)
    return f"numbers of no constant: {others}" if others else None


def texts_of_the_power(_: str) -> str | None:
    """The protocol's page has the texts that the programs of bridges/ give the power, and no others."""
    page = (TOP / "docs" / "protocol.md").read_text().partition("| Text | What it says |")[2].partition("\n\n")[0]
    code = (TOP / "bridges" / "srcp_bridges" / "srcp" / "rows.py").read_text()
    names = dict(re.findall(r'^(\w+) = "([^"]+)"', code, re.M))
    of_drivers = re.findall(r'(\w+)|"([^"]+)"', re.findall(r"^OF_DRIVERS = \((.*?)\)$", code, re.M | re.S)[0])
    texts = {names[name] if name else text for name, text in of_drivers} | {names["STOP_ALL"]}
    table = set(re.findall(r"^\| `([^`]*)`", page, re.M))
    return None if table == texts and len(texts) > 5 else f"on the page {sorted(table)}, in the code {sorted(texts)}"


def limits_of_the_configuration_page(_):
    """Each key has the limits and the default that its constants are set to."""
    page = (TOP / "docs" / "configuration.md").read_text()
    told = {key: [int(number) for number in re.findall(r"\d+", text)]
            for key, text in re.findall(r"^\| `(\w+)` \| (.*) \|$", page, re.M)}
    values = {name: value for (_, name), value in constants_of_the_code().items()}
    for key, names in KEYS.items():
        wanted = [values.get(name, name) for name in names]
        if told.get(key) != wanted:
            return f"{key}: {told.get(key)} on the page, {wanted} in the code"
    return None


def pins_of_the_definitions():
    """Returns each definition that is a number: its file, its name and the number."""
    return [(str(file.relative_to(CRATES)), name, int(number)) for file in sorted(CRATES.glob("*/specs/**/*.antt"))
            for name, number in re.findall(r"^(\w+) = (\d+)$", file.read_text(), re.M)]


def definitions_named_as_constants(_):
    """Each definition that is a number, and is named as a constant of the code, is what that is set to."""
    values = {}
    for (_, name), value in constants_of_the_code().items():
        values.setdefault(name.lower(), set()).add(value)
    pins = [(place, name, number) for place, name, number in pins_of_the_definitions() if name in values]
    for place, name, number in pins:
        if values[name] != {number}:
            return f"{place}: {name} is {number}, and {values[name]} in the code"
    return None if len(pins) > 25 else f"{len(pins)} definitions"


def clauses_of(code):
    """Returns the lines of the clauses of a source file: from each word that begins one to the brace that ends it."""
    for begun in re.finditer(r"^ *(?:requires|ensures|ghost)\b[^{;]*", code, re.M):
        depth, end = 0, begun.end()
        while end < len(code) and (depth or end == begun.end()):
            depth += {"{": 1, "}": -1}.get(code[end], 0)
            end += 1
        yield from code[begun.start():end].splitlines()


def bare_numbers(code, suffix):
    """Returns the numbers over 2 that stand in code without a name, and 2 if something is compared with it."""
    said = re.sub(FORMS, "", re.sub(NO_CODE[suffix], "", code, flags=re.M | re.S))
    found = {int(word.replace("_", ""), 16 if word.startswith("0x") else 10) for word in re.findall(NUMBER, said)}
    return {number for number in found if number > 2} | ({2} if re.search(COMPARED, said) else set())


def limits_that_stand_once(_):
    """Asserts that no limit has two definitions, and that no number stands bare in definitions, clauses or bodies, but
    for those that are known to be no limits. The clauses of tests have no number of a limit."""
    pins = pins_of_the_definitions()
    names = [name for _, name, _ in pins]
    if twice := sorted({name for name in names if names.count(name) > 1}):
        return f"defined twice: {twice}"
    files = [*CRATES.glob("*/specs/**/*.antt"), *CRATES.glob("*/src/**/*.rt")]
    found = {}
    for file in files:
        place, code = str(file.relative_to(CRATES)), file.read_text()
        if "_tests/" not in place:
            found[place] = bare_numbers(code, file.suffix)
        elif file.suffix == ".rt":
            of_limits = {number for _, _, number in pins if number > 9}
            found[place] = bare_numbers("\n".join(clauses_of(code)), file.suffix) & of_limits
    known = {place: numbers for place, numbers, _ in NO_LIMITS}
    for place, numbers in found.items():
        if bare := sorted(numbers - known.get(place, set())):
            return f"{place}: {bare[0]} has no name; limits: {[name for _, name, value in pins if value == bare[0]]}"
    gone = [(place, number) for place, numbers in known.items() for number in numbers - found.get(place, set())]
    return f"not there: {gone}" if gone else None if len(pins) > 30 else f"{len(pins)} limits"


def surface_of_the_decisions_page(_: str) -> str | None:
    """Each crate, type, call and variant that the table says to be here stands in crates.txt or in the code."""
    rows = rows_under("DECISIONS.md", "What differs from the first design's surface")
    code = (CRATES.parent / "crates.txt").read_text() + "".join(
        re.sub(NO_CODE[".rt"], "", file.read_text()) for file in CRATES.glob("*/src/**/*.rt"))
    named = [word for row in rows for name in quoted(row[1]) for word in name.split("::")]
    missing = [word for word in named if not is_in(code, word)]
    if missing or len(named) < 30:
        return f"{len(named)} names, of which the code has not {missing}"
    return None


def section_of_contributing(heading: str) -> str:
    """Returns the part of CONTRIBUTING.md below a heading."""
    return (TOP / "CONTRIBUTING.md").read_text().partition(f"\n## {heading}\n")[2].partition("\n## ")[0]


def files_with(word: str, *patterns: str) -> set[str]:
    """Returns the files of these patterns that have a word, by their paths from the top."""
    files = [file for pattern in patterns for file in TOP.glob(pattern) if file.is_file() and file.suffix != ".png"]
    return {str(file.relative_to(TOP)) for file in files if word in file.read_text()}


def steps_to_add_a_station(_: str) -> str | None:
    """They name what a driver has to give, the tables of cases, and each file that names the driver of the Z21, which
    has each file of the steps."""
    text = section_of_contributing("To add a station")
    station = (TOP / "bridges/srcp_bridges/stations/station.py").read_text()
    tables = (TOP / "tests/bridge_tests/stations.py").read_text()
    given = re.findall(r"def (\w+)\([^)]*\)[^:]*:\n        raise NotImplementedError", station)
    names = given + re.findall(r'^    ([A-Z_]+) = b""$', station, re.M) + re.findall(r"^class (\w+)\(St", tables, re.M)
    places = files_with("z21", "*.md", "docs/*.md", "bridges/*", "examples/*", "tools/*.py", "packaging/*")
    places |= files_with("test_z21", "tests/bridge_tests/__init__.py")
    named = {path.replace("NAME", "z21") for text in quoted(text) for path in [text] if "/" in path or "." in path}
    missing = [name for name in names if f"`{name}`" not in text] + sorted(places - named - NEWS)
    gone = [path for path in named if not (TOP / path).exists()]
    return f"not named: {missing}; not there: {gone}" if missing + gone or len(names) < 8 else None


def steps_to_add_a_key(_: str) -> str | None:
    """They name each file of code, of definitions and of pages that has the key fb_ports, and no file that is gone."""
    text = section_of_contributing("To add a key of the configuration")
    places = files_with("fb_ports", "crates/*/src/**/*.rt", "crates/*/specs/**/*.antt", "docs/*.md", "examples/*",
                        "packaging/*", "tests/inputs.py", "tests/page_tables.py", "tests/tables.py")
    named = set()
    for step in re.split(r"^\d\. ", text, flags=re.M):
        crate = "crates/" + (quoted(step) or [""])[0]
        paths = [path for path in quoted(step) if "." in path]
        named |= {path if (TOP / path).exists() else f"crates/{path}" if (CRATES / path).exists() else f"{crate}/{path}"
                  for path in paths}
    missing = sorted(place for place in places - named if "_tests/" not in place)
    gone = sorted(path for path in named if not (TOP / path).exists())
    return f"not named: {missing}; not there: {gone}" if missing + gone or len(places) < 15 else None


PAGE_TABLE_CASES = (walk_of_the_architecture_page, limits_of_the_architecture_page, refusals_of_the_architecture_page,
                    limits_of_the_protocol_page, numbers_of_the_commands, texts_of_the_power,
                    limits_of_the_configuration_page, definitions_named_as_constants,
                    limits_that_stand_once, surface_of_the_decisions_page, steps_to_add_a_station, steps_to_add_a_key)
