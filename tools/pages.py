#!/usr/bin/env python3
"""pages.py [--check]: writes what pages take from the code, each table between its two marks: the crates, by
crates.txt and the first sentence of each, and the laws, by their names.

With --check it writes nothing. It prints each page that is not as the code has it, and ends with 1 if there is one.
"""
import re
import sys
from pathlib import Path

TOP = Path(__file__).resolve().parent.parent
CRATES = TOP / "crates"
HEADS = ("lib.rt", "main.rt")  # files whose comment is that of the crate
PART = re.compile(r"(<!-- from the code: (\w+) -->\n).*?(?=<!-- end -->)", re.S)


def first_sentence(file: Path) -> str:
    """Returns how the comment at the head of a source file begins."""
    return " ".join(re.findall(r"^//! (.*)", file.read_text(), re.M)).partition(". ")[0].removesuffix(".")


def stands_on(name: str, listed: dict[str, list[str]]) -> list[str]:
    """Returns the crates that a crate is listed with, but for those on which another of them stands."""
    def below(crate: str) -> set[str]:
        return {lower for near in listed.get(crate, []) for lower in {near} | below(near)}

    return [crate for crate in listed[name] if crate in listed and not any(crate in below(one) for one in listed[name])]


def crates() -> str:
    """Returns the table of the crates of the program, from the lowest up."""
    rows = re.findall(r"^(\w+):(.*)", (TOP / "crates.txt").read_text().partition("\n#")[0], re.M)
    listed = {name: words.split() for name, words in rows}
    table = ["| Crate | Stands on | What it has |", "|---|---|---|"]
    for name in listed:
        head = next(file for file in (CRATES / name / "src").iterdir() if file.name in HEADS)
        on = ", ".join(f"`{crate}`" for crate in stands_on(name, listed))
        table.append(f"| [`{name}`](../crates/{name}/README.md) | {on} | {first_sentence(head)} |")
    return "\n".join([*table, ""])


def laws() -> str:
    """Returns the table of the laws of each crate."""
    rows = ["| Crate | Laws of | Names |", "|---|---|---|"]
    for file in sorted(CRATES.glob("*/src/laws.rt")):
        crate, subject = file.parts[-3], re.sub(r"^(Laws|A law) of ", "", first_sentence(file))
        names = ", ".join(f"`{name}`" for name in re.findall(r"^pub fn (\w+)", file.read_text(), re.M))
        rows.append(f"| [`{crate}`](../crates/{crate}/src/laws.rt) | {subject} | {names} |")
    return "\n".join([*rows, ""])


def main() -> int:
    tables = {"crates": crates(), "laws": laws()}
    found, stale = [], []
    for page in sorted(TOP.glob("docs/*.md")):
        text = page.read_text()
        found += [name for _, name in PART.findall(text)]
        written = PART.sub(lambda part: part[1] + tables[part[2]], text)
        if written != text:
            stale.append(page)
        if "--check" not in sys.argv:
            page.write_text(written)
    if sorted(found) != sorted(tables):
        sys.exit(f"the pages have the tables {found}, and not each of {sorted(tables)} once")
    if "--check" in sys.argv and stale:
        sys.exit(f"not as the code has it: {', '.join(page.name for page in stale)}; tools/pages.py writes it")
    return 0


if __name__ == "__main__":
    sys.exit(main())
