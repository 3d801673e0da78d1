"""The names that pages say: files of code, and functions, types and definitions, which are there and defined as
told."""
import re
from functools import cache
from pathlib import Path

from pages import BLOCK, TOP

CRATES = TOP / "crates"
CODE = {".rt", ".antt", ".py", ".c", ".h"}
PLACEHOLDERS = {"F", "X", "NAME"}  # stand for any name, as srcp_X for any crate
# What others define and pages name: words of Rattle, of Rust's library, of systems and of git.
OTHERS = {"ArrayVec", "Drop", "IfErr", "IfSome", "Net", "OnErr", "SHA256SUMS", "acl_file", "array_vec_len", "binutils",
          "console", "ensures", "max_queued_messages", "nc", "requires", "return", "ssh"}
# A single word of these may be of the protocol or of a system. It is a name of code only if it has the form of one.
FOR_USERS = {TOP / "README.md", *TOP.glob("bridges/*.md"), *(
    TOP / "docs" / f"{name}.md" for name in ("protocol", "configuration", "install", "replay", "plan"))}
# This tells of names that were.
OF_THE_PAST = TOP / "CHANGELOG.md"
CALL = r"([A-Za-z_]\w*)(?:\(.*\))?"
# A name of a file, a crate or a type: `a` of `b`, `a` of the `b`.
OF = r"`(\w+)(?:\([^`]*\))?` of (?:(?:the|an?|each|every) )?`([^`]*)`"
# What defines a name in a language: `name` stands for it.
DEFINES = {".rt": r"(?:fn|struct|enum|trait|type|const|mod|section) (name)\b|^ +(?:pub )?(?:ghost )?(name): |"
                  r"^ +(name)(?:\(.*\))?,|^ +(name) \{$|(?:ensures|invariant)\*? (name) \{",
           ".antt": r"^ *(?:(?:abbrev|pub|data|record|type|module|open|private|constructor|unfolding|let|where) )*"
                    r"(name)[◌ ]*(?:[:{(\[]|$)|\b(?:data|record|module|section) (?:pub )?(name)\b",
           ".py": r"^ *(?:def|class) (name)\b|^(name)\b[^=\n]* = |^ +(name): [^=\n]+ = ",
           ".c": r"\b(name)\(", ".h": r"\b(name)\("}
# What begins a function, a definition, a type or a module of that name.
BEGINS = (r" *(?:(?:pub|pub\(\w+\)|ghost|abbrev|fn|struct|enum|trait|type|mod|record|data|module|section|class|def) )+"
          r"(?:name)\b| *impl\b.*\b(?:name)\b")


@cache
def code_files():
    """Returns each file of code by its path from the top, with its text."""
    files = [file for file in TOP.rglob("*") if file.suffix in CODE and "out" not in file.relative_to(TOP).parts]
    return {str(file.relative_to(TOP)): file.read_text() for file in files}


def names_in(path, code):
    """Returns the names that a piece of a file of code defines."""
    form = DEFINES[Path(path).suffix].replace("name", r"[^\W\d][\w']*")
    groups = [[names] if isinstance(names, str) else names for names in re.findall(form, code, re.M)]
    return {name for names in groups for name in names if name}


@cache
def names_defined(path):
    """Returns the names that a file of code defines, and its own."""
    return {Path(path).stem} | names_in(path, code_files()[path])


def pages():
    """Returns each page that names code, with its text outside blocks."""
    found = [*TOP.glob("*.md"), *TOP.glob("docs/*.md"), *TOP.glob("bridges/*.md"), *CRATES.glob("*/README.md")]
    return [(page, BLOCK.sub("", page.read_text())) for page in found]


def pages_on_the_present():
    return [(page, text) for page, text in pages() if page != OF_THE_PAST]


def spans_of(text):
    """Returns what stands between backticks, also if it goes on in the next line of its paragraph."""
    return [span for part in re.split(r"\n\s*\n", text) for span in re.findall(r"`([^`]*)`", " ".join(part.split()))]


def is_placeholder(word):
    return not PLACEHOLDERS.isdisjoint(re.split(r"\W|_", word))


def files_that_pages_name(_):
    """Each file of code that a page names is there, by as much of its path as the page gives."""
    count, there = 0, [f"/{path}" for path in code_files()]
    for page, text in pages():
        for named in re.findall(r"[\w./*-]+\.(?:rt|antt|py|[ch])\b", " ".join(spans_of(text))):
            count += 1
            form = re.compile("/" + re.escape(named).replace(r"\*", "[^/]*") + "$")
            if not is_placeholder(named) and not any(map(form.search, there)):
                return f"{page.relative_to(TOP)}: no file {named}"
    return None if count > 100 else f"{count} files are named"


def block_at(lines, at, name):
    """Returns the text of what begins at a line: that line, what stands further in, and in its column the braces and
    the equations of a definition of that name."""
    column = len(lines[at]) - len(lines[at].lstrip())
    form = re.compile(rf" {{{column}}}(?:[ {{}})]|{re.escape(name)} |$)|\s*$")
    end = at + 1
    while end < len(lines) and form.match(lines[end]):
        end += 1
    return "\n".join(lines[at:end])


@cache
def code_of(place):
    """Returns the pieces of code that a place names, each with its path: the files of a crate, those of that name, and
    what defines a type, a function or a module. `a::b` is a `b` of an `a`."""
    within, _, name = place.rpartition("::")
    name = name.rpartition(" ")[2]
    outer = code_of(within) if within else [*code_files().items()]
    if (CRATES / name).is_dir():
        return [(path, code) for path, code in outer if path.startswith(f"crates/{name}/")]
    if re.search(r"\.\w+$", name):
        return [(path, code) for path, code in outer if f"/{path}".endswith(f"/{name}")]
    found = [(path, code) for path, code in outer if Path(path).stem == name]
    head = re.compile(BEGINS.replace("name", re.escape(name)))
    for path, code in outer:
        if name in code:
            lines = code.splitlines()
            found += [(path, block_at(lines, at, name)) for at, line in enumerate(lines) if head.match(line)]
    return found


def is_defined_in(name, place):
    """Returns if the code of a place defines a name. A crate has the names of its files too."""
    is_crate = (CRATES / place).is_dir()
    return any(name in names_in(path, code) or is_crate and name == Path(path).stem for path, code in code_of(place))


def fault_of_places(text):
    """Returns how many names a text says of places, and the first that is not defined there, or None."""
    flat = " ".join(text.split())
    said = re.findall(OF, flat)
    said += [(name, place) for place, name in re.findall(r"`([A-Za-z_][\w:]*)::(\w+)(?:\([^`]*\))?`", flat)]
    judged = [(name, place) for name, place in said
              if place not in OTHERS and Path(place).suffix in {"", *CODE} and not is_placeholder(name)]
    return len(said), next((f"no {name} in {place}" for name, place in judged if not is_defined_in(name, place)), None)


def names_of_places(_):
    """A name that a page says of a file, a crate, a type or a function is defined there. A page says so by `a` of `b`,
    and by `b::a`. Of two names that are nowhere, and of one in another place, it is seen."""
    for wrong in ("`no_such` of `srcp_core`", "`srcp_core::no_such`", "`run` of the\n`srcp_text`"):
        if fault_of_places(wrong)[1] is None:
            return f"not seen: {wrong}"
    found = [(page, *fault_of_places(text)) for page, text in pages_on_the_present()]
    count = sum(said for _, said, _ in found)
    wrong = [f"{page.relative_to(TOP)}: {fault}" for page, _, fault in found if fault]
    return wrong[0] if wrong else None if count > 120 else f"{count} names are said of places"


def names_said_by(page, text):
    """Returns the single names of code in backticks on a page. On one for users they are what is called, what has an
    underscore or a capital behind a small letter, and what is called a function, a law or a type."""
    spans = spans_of(text)
    if page not in FOR_USERS:
        return re.findall(rf"^{CALL}$", "\n".join(spans), re.M)
    said = [name for span in spans for name in re.findall(r"^([A-Za-z_]\w*)\(.*\)$", span)]
    said += [span for span in spans if re.fullmatch(r"\w*[a-z]+(?:_[a-z]|[A-Z])\w*|[A-Z]+_[A-Z_]+", span)]
    return said + re.findall(rf"\b(?:function|law|type|clause)s? `{CALL}`", " ".join(text.split()))


def names_that_pages_say(_):
    """A single name of code on a page is defined in the code, or is a crate that is used."""
    defined = OTHERS.union(*map(names_defined, code_files()))
    defined |= set(re.findall(r"\w+", (TOP / "crates.txt").read_text())) | {file.name for file in TOP.iterdir()}
    of_the_gate = "".join((TOP / name).read_text() for name in ("test", "tests/run_cases.py"))
    defined |= set(re.findall(r"\b[A-Z_]{3,}\b", of_the_gate))
    count = 0
    for page, text in pages_on_the_present():
        for name in names_said_by(page, text):
            count += 1
            if name not in defined and not is_placeholder(name) and not re.fullmatch(r"[A-Z]{2,5}", name):
                return f"{page.relative_to(TOP)}: nothing defines {name}"
    return None if count > 400 else f"{count} names"


NAME_CASES = (files_that_pages_name, names_of_places, names_that_pages_say)
