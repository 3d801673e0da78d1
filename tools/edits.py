"""Wrong bodies as files: what an edit changes, in which functions, and which edits one check can try together.

An edit is a file with a line `file: src/lib.rt` and then pairs of lines `old: TEXT` and `new: TEXT`. Each old text
stands in its file exactly once. Other lines are for readers.
"""
import re
from collections.abc import Iterable, Mapping
from dataclasses import dataclass
from enum import Enum
from pathlib import Path

Texts = Mapping[str, str]
PARTS = ("src", "specs", "proofs")
FUNCTION = re.compile(r"^( *)(?:pub(?:\([^)]*\))? )?(?:const )?(?:unsafe )?fn (\w+)", re.M)
TYPE = r"(?:\w+::)*(\w+)"
OWNER = re.compile(rf"^(?:pub )?(?:impl|trait)\b(?:<[^{{]*?>)? +(?:{TYPE}(?:<(\w\w+)?[^{{]*>)? for )?{TYPE}", re.M)
# Why a function has no proof of which all that is wrong is a function that it calls.
CALLS_ONE = re.compile(r"no proof: (?:it calls .*, which (?:is|are) not proved$|.*: a call of .*, which has no proof)")


class Kind(Enum):
    """What has to be refused, by the folder of the edit."""
    BODY = "refused"
    LAW = "laws-refuse"


@dataclass(frozen=True)
class Change:
    file: str
    old: str
    new: str


@dataclass(frozen=True)
class Function:
    """A function, by the path of its module, its type and its trait, if it has such, and its name. `home` is the module
    that declares the type: the prover names a method by that module, in whatever file the method stands."""
    module: str
    home: str
    type: str
    trait: str
    name: str
    is_public: bool

    def has(self, path: str) -> bool:
        """Tells whether the prover's path is of the function, or of a closure in its body."""
        owner = f"{self.type}{self.trait}::" if self.type else ""
        own = tuple(f"{module}::{owner}{self.name}" for module in (self.module, self.home))
        closures = tuple(f"{module}::{within}{self.name}::" for module in (self.module, self.home)
                         for within in (owner, f"fn::{owner}", f"{owner}fn::"))
        return path in own or path.startswith(closures)


@dataclass(frozen=True)
class Edit:
    name: str
    kind: Kind
    changes: tuple[Change, ...]
    text: str


@dataclass(frozen=True)
class Fault:
    """Why an edit says nothing."""
    why: str


def parse_edit(name: str, kind: Kind, text: str) -> Edit | Fault:
    """Returns the edit that the text of a file gives."""
    file, old, changes = "", "", []
    for line in text.split("\n"):
        if line.startswith("file: "):
            file = line.removeprefix("file: ").strip()
            if not file.startswith(tuple(f"{part}/" for part in PARTS)) or ".." in file:
                return Fault(f"{file} is no file of {', '.join(PARTS)}")
        elif line.startswith("old: "):
            old = line.removeprefix("old: ")
        elif line.startswith("new:"):
            if not file or not old:
                return Fault("a line 'new:' stands before its 'file:' or 'old:'")
            changes.append(Change(file, old, line.removeprefix("new:").removeprefix(" ")))
            old = ""
    if not changes or old:
        return Fault("a pair of 'old:' and 'new:' is missing")
    return Edit(name, kind, tuple(changes), text)


def read_edits(crate: Path) -> list[Edit | tuple[str, Fault]]:
    """Returns the edits of a crate that the runner tries, in the order of their names. A file that is no edit comes
    with its name and its fault."""
    found: list[Edit | tuple[str, Fault]] = []
    for kind in Kind:
        for file in sorted((crate / kind.value).glob("*")):
            if file.suffix == ".md":
                continue
            edit = parse_edit(file.stem, kind, file.read_text()) if file.suffix == ".edit" else Fault("is no .edit")
            found.append((file.name, edit) if isinstance(edit, Fault) else edit)
    return found


def module_of(crate: str, file: str) -> str:
    """Returns the prover's path of the module that a file of src/ holds."""
    parts = file.removeprefix("src/").removesuffix(".rt").split("/")
    return "::".join([crate, *(parts if parts not in (["lib"], ["main"]) else [])])


def home_of(crate: str, type: str, texts: Texts) -> str | None:
    """Returns the module that declares a type of the crate, if one alone does."""
    declared = re.compile(rf"^(?:pub(?:\([^)]*\))? )?(?:struct|enum|trait) {type}\b", re.M)
    files = [file for file, text in texts.items() if file.startswith("src/") and declared.search(text)]
    return module_of(crate, files[0]) if len(files) == 1 else None


def function_at(crate: str, file: str, texts: Texts, at: int) -> Function | None:
    """Returns the function in whose lines a place of a file stands. Relies on the layout that `rt fmt` makes."""
    if not file.startswith("src/"):
        return None
    text = texts[file]
    heads = [head for head in FUNCTION.finditer(text) if head.start() <= at]
    if not heads:
        return None
    head = heads[-1]
    end = re.compile(rf"^{head[1]}(?:\{{\}}|\}})", re.M).search(text, head.start())
    if end and end.end() <= at:
        return None
    owners = [owner for owner in OWNER.finditer(text, 0, head.start())] if head[1] else []
    trait, of, type = owners[-1].groups(default="") if owners else ("", "", "")
    is_public = bool(trait) or head[0].lstrip().startswith("pub fn")
    module = module_of(crate, file)
    home = home_of(crate, type, texts) if type else None
    return Function(module, home or module, type, trait + of, head[2], is_public)


@dataclass(frozen=True)
class Applied:
    """The texts of a crate with an edit, the functions that it changes, and whether it changes a line of none, as that
    of a constant."""
    texts: Texts
    functions: frozenset[Function]
    is_outside: bool


def apply(crate: str, edit: Edit, texts: Texts) -> Applied | Fault:
    """Returns what the edit makes of the texts of a crate, by their paths in it."""
    made, functions, is_outside = dict(texts), set(), False
    for change in edit.changes:
        text = made.get(change.file)
        if text is None:
            return Fault(f"there is no file {change.file}")
        if (times := text.count(change.old)) != 1:
            return Fault(f"its old text stands {times} times in {change.file}: {change.old.strip()}")
        at = text.index(change.old)
        function = function_at(crate, change.file, made, at + len(change.old) - len(change.old.lstrip()))
        is_outside |= function is None
        functions |= {function} if function else set()
        made[change.file] = text.replace(change.old, change.new)
    if made == texts:
        return Fault("it changes nothing")
    return Applied(made, frozenset(functions), is_outside)


@dataclass(frozen=True)
class Batch:
    """Edits that one check tries, with the functions of each, and the texts with all of them applied."""
    edits: tuple[tuple[Edit, frozenset[Function]], ...]
    texts: Texts


def joined(crate: str, batch: Batch, edit: Edit, functions: frozenset[Function]) -> Batch | None:
    """Returns the batch with one edit more. None if an edit of it changes the same function, or lines of this one."""
    if any(functions & others for _, others in batch.edits):
        return None
    made = apply(crate, edit, batch.texts)
    if isinstance(made, Fault) or made.functions != functions:
        return None
    return Batch((*batch.edits, (edit, functions)), made.texts)


@dataclass(frozen=True)
class Plan:
    """The batches of a crate, the edits that are tried alone, and those that do not apply."""
    batches: tuple[Batch, ...]
    alone: tuple[Edit, ...]
    faults: tuple[tuple[Edit, Fault], ...]


def plan_of(crate: str, edits: Iterable[Edit], texts: Texts) -> Plan:
    """Returns how the edits are tried: one of each function at a time. An edit of a line of no function, or for a law,
    is tried alone."""
    batches: list[Batch] = []
    alone, faults = [], []
    for edit in edits:
        made = apply(crate, edit, texts)
        if isinstance(made, Fault):
            faults.append((edit, made))
        elif edit.kind is Kind.LAW or made.is_outside:
            alone.append(edit)
        else:
            for number, batch in enumerate(batches):
                if longer := joined(crate, batch, edit, made.functions):
                    batches[number] = longer
                    break
            else:
                batches.append(Batch(((edit, made.functions),), made.texts))
    return Plan(tuple(batches), tuple(alone), tuple(faults))


@dataclass(frozen=True)
class Verdict:
    """What a check said: whether the crate is proved, and else the paths of functions that are not, though all that
    they call may be. `refused` has those with a goal that is not proved, `unfit` those whose proof by hand names what
    is gone, and `uncovered` those that no contract was tried of, since the borrow checker does not know their form."""
    is_proved: bool
    refused: frozenset[str] = frozenset()
    unfit: frozenset[str] = frozenset()
    uncovered: frozenset[str] = frozenset()


def unreadable(line: str, edited: Iterable[str]) -> bool:
    """Tells whether the prover could not read a text, where an edit that makes a statement false reads well."""
    told = re.match(r"(?:\./)?(\S+?):\d+:\d+: error: (?:(`[^`]*`): )?(.*)", line)
    if not told or not (told[1] in edited or told[1].startswith(("src/", "specs/"))):
        return False
    words = r"is not in scope|has no field|is no name|operand is missing|expected the end|cannot continue"
    return not told[2] or bool(re.search(words, re.sub(r"`[^`]*`", "", told[3])))


def refusals_of(told: Iterable[tuple[str, str]]) -> Verdict:
    """Returns the verdict of a crate that is not proved, by what was said of each function that is not."""
    found: dict[str, set[str]] = {"refused": set(), "unfit": set(), "uncovered": set()}
    for path, why in told:
        if why.startswith("not proved"):
            found["unfit"].add(path)
        elif "the borrow checker does not cover this function yet" in why:
            found["uncovered"].add(path)
        elif not CALLS_ONE.match(why):
            found["refused"].add(path)
    return Verdict(False, *(frozenset(found[name]) for name in ("refused", "unfit", "uncovered")))


def verdict_of(status: int, out: str, edited: Iterable[str]) -> Verdict | Fault:
    """Returns what `rt check` said of a crate, by its status and its output."""
    lines, files = out.splitlines(), set(edited)
    if bad := next((line for line in lines if unreadable(line, files)), ""):
        return Fault(bad[:200])
    said = [line for line in lines if line.startswith("logic=")]
    if status == 0 and said and said[-1].startswith("logic=proved"):
        return Verdict(True)
    if status == 1 and said and said[-1].startswith("logic=not-proved"):
        return refusals_of(re.findall(r"^fn (\S+): (no proof: .*|not proved.*)$", out, re.M))
    error = next((line for line in lines if re.search(r"\berror\b", line)), lines[-1] if lines else "it said nothing")
    return Fault(f"status {status}: {error[:200]}")
