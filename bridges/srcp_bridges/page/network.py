"""How a page is found from other machines: by a lasting word, and by a code for phones."""
import contextlib
import os
import secrets
import sys
from pathlib import Path


def kept_word() -> str:
    """Returns the word of this machine's page: a random word, kept for the next start by a unit or by the user. A word
    that cannot be kept changes at each start."""
    states = os.environ.get("XDG_STATE_HOME") or Path.home() / ".local" / "state"
    file = Path(os.environ.get("STATE_DIRECTORY") or Path(states, "srcp_bridges"), "word")
    with contextlib.suppress(OSError):
        if word := file.read_text().strip():
            return word
    word = secrets.token_hex(4)
    with contextlib.suppress(OSError):
        file.parent.mkdir(parents=True, exist_ok=True)
        file.touch(mode=0o600)
        file.write_text(f"{word}\n")
    return word


def show_code(address: str) -> None:
    """Prints an address as a QR code, if python3-qrcode is installed."""
    try:
        import qrcode  # type: ignore[import]
    except ImportError:
        return
    code = qrcode.QRCode(border=2)
    code.add_data(address)
    with contextlib.suppress(OSError, UnicodeError):
        code.print_ascii(out=sys.stderr, invert=True)
        sys.stderr.flush()
