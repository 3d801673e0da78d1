"""The files of the page, as read when this program began: a newer file is for the next start."""
import hashlib
import pathlib

FOLDER = pathlib.Path(__file__).resolve().parent
KINDS = {".css": "text/css; charset=utf-8", ".js": "text/javascript; charset=utf-8"}
TEXTS = {path: path.read_text("utf-8") for path in sorted(FOLDER.iterdir()) if path.suffix in (*KINDS, ".html")}
FILES = {f"/{path.name}": (KINDS[path.suffix], text) for path, text in TEXTS.items() if path.suffix in KINDS}
VERSION = hashlib.sha256("".join(TEXTS.values()).encode()).hexdigest()[:16]
EVENTS = f"/events?{VERSION}"  # where a page of these files joins: one of others has 404, and loads itself anew
PAGE = TEXTS[FOLDER / "web.html"].replace('data-version=""', f'data-version="{VERSION}"')
WORD = TEXTS[FOLDER / "word.html"]
STOPPED = TEXTS[FOLDER / "stopped.html"]
