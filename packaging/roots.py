"""Roots of Debian, in which programs of the repository are tried. Making one takes root, debootstrap and a network."""
import re
import subprocess
from pathlib import Path

NAMES = {"12": "bookworm", "13": "trixie"}
# What it starts, and what it mounts, is gone with it: else a root that took too long could not be deleted.
APART = ["unshare", "--mount", "--pid", "--fork", "--mount-proc"]


def mirror() -> list[str]:
    """Returns the mirror that this machine uses, if it is known."""
    sources = "".join(file.read_text() for file in Path("/etc/apt").rglob("*") if file.suffix in (".list", ".sources"))
    found = re.search(r"^[^#\n]*?(https?://\S+/debian)(?=[/\s])", sources, re.M)
    return [found[1]] if found else []


def make_root(folder: Path, number: str, *words: str, seconds: float | None = None) -> None:
    """Makes the smallest Debian of that number in a folder, with more words of debootstrap. Raises what subprocess.run
    does if that fails; `seconds` is how long it may take."""
    folder.chmod(0o755)
    limit = ["timeout", "--signal=KILL", str(seconds)] if seconds else []
    subprocess.run([*APART, *limit, "debootstrap", "--variant=minbase", *words, NAMES[number], folder, *mirror()],
                   check=True, stdout=subprocess.DEVNULL, stderr=subprocess.DEVNULL if seconds else None)
