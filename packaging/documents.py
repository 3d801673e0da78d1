#!/usr/bin/env python3
"""documents.py ROOT VERSION: lays into the package at ROOT the pages for users, and a manual page for each command.

A link of a page to what the package does not have becomes its text. A manual page is made of what the command prints by
--help. ./package calls this once the commands and the examples are there.
"""
import gzip
import os
import re
import subprocess
import sys
import time
from concurrent.futures import ThreadPoolExecutor
from pathlib import Path

TOP = Path(__file__).resolve().parent.parent
PAGES = ("docs/protocol.md", "docs/configuration.md", "docs/install.md", "docs/replay.md", "docs/plan.md",
         *sorted(str(page.relative_to(TOP)) for page in TOP.glob("bridges/*.md")))
LINK = re.compile(r"!?\[([^\]]*)\]\((?!http)([^)#]*)(#[^)]*)?\)")


def lay_page(page, folder):
    """Lays a page below a folder, with those of its links that reach a file there."""
    def linked(link):
        target = Path(os.path.normpath(Path(page).parent / link[2])) if link[2] else Path(page)
        return link[0] if str(target) in PAGES or (folder / target).is_file() else link[1]

    target = folder / page
    target.parent.mkdir(exist_ok=True)
    target.write_text(LINK.sub(linked, (TOP / page).read_text()))
    target.chmod(0o644)


def help_of(command):
    """Returns the paragraphs that a command prints by --help: the usage first, the options last."""
    environment = {"PATH": os.environ["PATH"], "COLUMNS": "80", "LC_ALL": "C.UTF-8", "PYTHONDONTWRITEBYTECODE": "1"}
    done = subprocess.run([sys.executable, command, "--help"], capture_output=True, text=True, env=environment)
    if done.returncode:
        sys.exit(f"./package: {command.name} --help: {done.stderr.strip()}")
    return done.stdout.strip().split("\n\n")


def escaped(text):
    """Returns text for a manual page."""
    lines = text.replace("\\", "\\e").replace("-", "\\-").splitlines()
    return "\n".join(f"\\&{line}" if line.startswith((".", "'")) else line for line in lines)


def paragraph(text):
    """Returns a paragraph for a manual page: as it stands if it has lines that are indented."""
    is_list = re.search(r"^ ", text, re.M)
    return f".nf\n{escaped(text)}\n.fi" if is_list else escaped(text)


def manual(command, version):
    """Returns the manual page of a command."""
    usage, about, *more = help_of(command)
    lists = [text for text in more if re.match(r"[a-z ]+:\n", text)]
    told = [about, *(text for text in more if text not in lists)]
    summary = re.split(r"[.:](?:\s|$)", " ".join(about.split()), maxsplit=1)[0]
    day = time.strftime("%Y-%m-%d", time.gmtime(int(os.environ["SOURCE_DATE_EPOCH"])))
    parts = [f'.TH {command.name.upper()} 1 {day} "srcp-server {version}" "User Commands"',
             f".SH NAME\n{command.name} \\- {escaped(summary[0].lower() + summary[1:])}",
             ".SH SYNOPSIS\n" + paragraph(usage.removeprefix("usage: ")),
             ".SH DESCRIPTION\n" + "\n.PP\n".join(map(paragraph, told)),
             ".SH OPTIONS\n" + "\n.PP\n".join(map(paragraph, lists)),
             ".SH SEE ALSO\n.BR srcp_server (1)"]
    return "\n".join(parts) + "\n"


def main():
    root, version = Path(sys.argv[1]), sys.argv[2]
    for page in PAGES:
        lay_page(page, root / "usr/share/doc/srcp-server")
    commands = list((root / "usr/bin").glob("srcp-*"))
    with ThreadPoolExecutor() as pool:
        manuals = pool.map(lambda command: manual(command, version), commands)
    for command, text in zip(commands, manuals):
        target = root / "usr/share/man/man1" / f"{command.name}.1.gz"
        target.write_bytes(gzip.compress(text.encode(), 9, mtime=0))
        target.chmod(0o644)


if __name__ == "__main__":
    main()
