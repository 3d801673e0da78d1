"""Which release a program is of."""
import re
from pathlib import Path

AROUND = Path(__file__).resolve().parent.parent.parent  # the package's folder, or the repository
TOLD = {"version": r"(\S+)", "packaging/changelog": r"srcp-server \((\S+)\)"}  # by what, and in which form


def release() -> str:
    """Returns the version of the package, or of the newest release of the repository: "1.15-1"."""
    for name, form in TOLD.items():
        file = AROUND / name
        if file.exists() and (found := re.match(form, file.read_text())):
            return found[1]
    return "of no release"
