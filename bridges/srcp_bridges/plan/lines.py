"""In which line of a TOML document a key stands, for the faults of a file that a person has written."""
import re
from collections import Counter

HEAD = re.compile(r"\s*\[+\s*([^\]#]+?)\s*\]+")
KEY = re.compile(r"""\s*(?:"([^"]*)"|'([^']*)'|([\w.-]+))\s*=\s*("{3}|'{3})?(.*)""")


class Lines:
    """The lines of the keys of a document, which is known to be TOML."""

    def __init__(self, content: str):
        self.found: dict[tuple[str, int, str], int] = {}
        self.bare: set[int] = set()  # lines in which a text of several lines begins, and has nothing beside that
        count: Counter[str] = Counter()
        table, within = "", ""
        for number, line in enumerate(content.splitlines(), 1):
            if within:
                within = "" if within in line else within
            elif head := HEAD.match(line):
                table = head[1]
                self.found[table, count[table], ""] = number
                count[table] += 1
            elif key := KEY.match(line):
                name = key[1] or key[2] or key[3] or ""
                self.found.setdefault((table, max(0, count[table] - 1), name), number)
                within = key[4] if key[4] and key[4] not in key[5] else ""
                self.bare |= {number} if within and not key[5] else set()

    def of(self, table: str, key: str = "", index: int = 0) -> int:
        """Returns the line of a key of the table of that index; that of the table, or the first, if it is not found."""
        places = ((table, index, key), (f"{table}.{key}", 0, ""), (table, index, ""), ("", 0, table))
        return next((self.found[place] for place in places if place in self.found), 1)

    def first(self, key: str) -> int:
        """Returns the line in which the text of a key begins."""
        line = self.of("", key)
        return line + (line in self.bare)
