#!/usr/bin/env python3
"""packaging/changes.py: makes packaging/changelog, which the package has, of CHANGELOG.md.

A release that is in packaging/changelog keeps its date. A newer one has the present moment, or SOURCE_DATE_EPOCH.
"""
import os
import re
import textwrap
import time
from email.utils import formatdate
from pathlib import Path

TOP = Path(__file__).resolve().parent.parent
CHANGELOG = TOP / "packaging" / "changelog"
COLUMNS = 80
ENTRY = """srcp-server ({version}-1) unstable; urgency=medium

{changes}

 -- Pomelobow maintainers <maintainers@users.noreply.pomelobow.example>  {date}
"""


def releases(text: str) -> dict[str, list[str]]:
    """Returns the changes of each release that CHANGELOG.md tells, the newest first, without marks of Markdown."""
    found = {}
    for part in re.split(r"^## ", text, flags=re.M)[1:]:
        version, _, changes = part.partition("\n")
        plain = re.sub(r"[`*]|\[([^]]*)\]\([^)]*\)", r"\1", changes)
        found[version] = [" ".join(change.split()) for change in re.split(r"^- ", plain, flags=re.M)[1:]]
    return found


def dates(changelog: str) -> dict[str, str]:
    """Returns the date of each release in packaging/changelog, the newest first."""
    return dict(re.findall(r"^srcp-server \(([\d.]+)-1\).*?^ -- [^>]*>  (.*?)$", changelog, re.M | re.S))


def made(changes: dict[str, list[str]], dated: dict[str, str]) -> str:
    """Returns what packaging/changelog says of these changes, for the releases that have a date."""
    def told(change: str) -> str:
        return textwrap.fill(change, COLUMNS, initial_indent="  * ", subsequent_indent="    ", break_on_hyphens=False)

    return "\n".join(ENTRY.format(version=version, date=date, changes="\n".join(map(told, changes[version])))
                     for version, date in dated.items())


def main() -> None:
    changes, dated = releases((TOP / "CHANGELOG.md").read_text()), dates(CHANGELOG.read_text())
    now = formatdate(float(os.environ.get("SOURCE_DATE_EPOCH", time.time())))
    CHANGELOG.write_text(made(changes, {version: dated.get(version, now) for version in changes}))


if __name__ == "__main__":
    main()
