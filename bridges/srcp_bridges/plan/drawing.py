"""A track plan as a person draws it in text: what stands where, and how it is joined.

`=` is track from left to right, `/` and `\\` are diagonals, `+` is a crossing. Letters and digits are the name of an
element. A diagonal goes on to what its end points to, else to what stands beside it. `#` before and behind a name is
how far a platform reaches.
"""
import re
from collections.abc import Container
from dataclasses import dataclass, field

# Sides of a cell, in eighths of a turn.
EAST = 0
SOUTHEAST = 1
SOUTHWEST = 3
WEST = 4
NORTHWEST = 5
NORTHEAST = 7
TO_THE_RIGHT = (NORTHEAST, EAST, SOUTHEAST)
DOWN = {"\\": (SOUTHEAST, NORTHWEST, 1), "/": (SOUTHWEST, NORTHEAST, -1)}  # the lower side, the upper one, and its way
PIECES = re.compile(r"#*\w+#*|[^ ]")
PLAIN = ("=", "/", "\\")

Point = tuple[float, float]


class Fault(ValueError):
    """What is wrong, and in which line."""

    def __init__(self, line: int, text: str):
        super().__init__(f"line {line}: {text}")


@dataclass(eq=False)
class Node:
    """A piece of track, a crossing, or an element. `joins` has what it is joined to, by the side of this piece."""
    text: str
    line: int
    row: int
    left: int
    right: int
    joins: list[tuple[int, "Node"]] = field(default_factory=list)
    is_area: bool = False  # it is drawn with # beside it
    bend: float | None = None  # of an element: the column in which a diagonal leaves it

    def at(self) -> Point:
        """Returns the point at which its tracks meet, in columns and rows."""
        middle = (self.left + self.right + 1) / 2 if self.bend is None else self.bend
        if self.text in DOWN:  # a diagonal that ends beside what it is joined to goes all the way there
            middle += sum(0.5 if other.left > self.left else -0.5 for _, other in self.joins if other.row == self.row)
        return middle, self.row + 0.5

    def is_corner(self) -> bool:
        """Returns whether a track may turn at it. It goes straight through a diagonal between others."""
        return self.text not in DOWN or any(other.row == self.row for _, other in self.joins)

    def where(self) -> str:
        return f"column {self.left + 1}"


def apart(one: int, other: int) -> int:
    """Returns how far two sides are apart, 0 to 4."""
    return min((one - other) % 8, (other - one) % 8)


def draw(text: str, first: int, beside: Container[str] = ()) -> list[Node]:
    """Returns the nodes of a drawing, whose first row is in that line of a file, joined as they stand. `beside` has the
    names of what stands beside the tracks."""
    cells: dict[tuple[int, int], Node] = {}
    nodes = []
    for row, line in enumerate(text.splitlines()):
        for piece in PIECES.finditer(line):
            name = piece[0].strip("#") or piece[0]
            node = Node(name, first + row, row, piece.start(), piece.end() - 1, is_area=name != piece[0])
            if not re.fullmatch(r"\w+|[=/\\+]", node.text):
                raise Fault(node.line, f"{node.text!r} in {node.where()} is neither track nor a name")
            nodes.append(node)
            cells |= {(column, row): node for column in range(node.left, node.right + 1)}
    for node in nodes:
        if node.text in DOWN:
            join_diagonal(cells, node)
        elif (next_one := cells.get((node.right + 1, node.row))) and next_one.text not in DOWN:
            join(node, EAST, next_one, WEST)
    for node in nodes:
        check(node, node.text in beside)
    return nodes


def join(one: Node, side: int, other: Node, its_side: int) -> None:
    one.joins.append((side, other))
    other.joins.append((its_side, one))


def join_diagonal(cells: dict[tuple[int, int], Node], node: Node) -> None:
    """Joins both ends of a diagonal. Two diagonals are joined by the upper one."""
    lower, upper, way = DOWN[node.text]
    for side, back, across, down in ((lower, upper, way, 1), (upper, lower, -way, -1)):
        column = node.left + across
        beyond, beside = cells.get((column, node.row + down)), cells.get((column, node.row))
        if beyond and beyond.text == node.text:
            if down > 0:
                join(node, side, beyond, back)
        elif beyond and beyond.text not in DOWN:
            if beyond.text not in (*PLAIN, "+") and beyond.bend is None:
                beyond.bend = column + 0.5
            join(node, side, beyond, back)
        elif beside and beside.text not in DOWN:
            join(node, side, beside, WEST if across > 0 else EAST)
        else:
            raise Fault(node.line, f"the track ends at the {node.text} in {node.where()}")


def check(node: Node, is_beside: bool) -> None:
    """Refuses track that divides without an element, a crossing that one cannot go straight through, and track that
    leads to what stands beside the tracks."""
    sides = [side for side, _ in node.joins]
    if node.text == "=":
        to_the_east = sum(apart(side, EAST) <= 1 for side in sides)
        if to_the_east > 1 or len(sides) - to_the_east > 1:
            raise Fault(node.line, f"tracks meet at the = in {node.where()}, where no turnout is named")
    elif node.text == "+" and any(sum(apart(side, other) == 4 for other in sides) != 1 for side in sides):
        raise Fault(node.line, f"a track ends at the + in {node.where()}")
    elif is_beside and node.joins:
        raise Fault(node.line, f"track leads to {node.text} in {node.where()}, which stands beside the tracks")
    elif not node.joins and not is_beside:
        raise Fault(node.line, f"{node.text} in {node.where()} has no track beside it")
