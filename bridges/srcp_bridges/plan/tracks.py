"""The tracks of a plan: from element to element, and the way that a route takes over them."""
from collections import deque
from collections.abc import Callable
from typing import NamedTuple

from srcp_bridges.plan.drawing import PLAIN, Fault, Node, Point, apart


class Way(NamedTuple):
    """Where a side of an element leads: by which track, and to which side of which element; None at a loose end."""
    track: int
    node: Node | None
    side: int


Ways = dict[Node, dict[int, Way]]
Turn = Callable[[Node, int], list[int]]  # the sides by which one leaves an element that one has entered by a side


def tracks_of(nodes: list[Node]) -> tuple[list[list[Point]], Ways]:
    """Returns the tracks of a drawing, each by its corners, and where each side of an element leads."""
    tracks: list[list[Point]] = []
    ways: Ways = {node: {} for node in nodes if node.text not in PLAIN}
    loose = [node for node in nodes if node.text in PLAIN and len(node.joins) == 1]
    reached: set[Node] = set()
    for node in [*ways, *loose]:
        for side, other in node.joins:
            if node in reached or side in ways.get(node, {}):
                continue  # followed already, from its other end
            points, end, its_side = walk(node, other)
            if node in ways:
                ways[node][side] = Way(len(tracks), end if end in ways else None, its_side)
            if end in ways:
                ways[end][its_side] = Way(len(tracks), node if node in ways else None, side)
            reached |= {end} - ways.keys()
            tracks.append(corners(points))
    return tracks, ways


def walk(begin: Node, node: Node) -> tuple[list[Point], Node, int]:
    """Follows plain track; returns its points, and what is at its end, with the side by which it comes there."""
    before, passed = begin, [begin, node]
    while node.text in PLAIN and (after := [other for _, other in node.joins if other is not before]):
        before, node = node, after[0]
        passed.append(node)
    points = [each.at() for each in passed if each.is_corner()]
    return points, node, next(side for side, other in node.joins if other is before)


def corners(points: list[Point]) -> list[Point]:
    """Returns the points without those that lie on the line between their neighbours."""
    kept = points[:1]
    for (x, y), (to_x, to_y) in zip(points[1:], points[2:]):
        from_x, from_y = kept[-1]
        if abs((x - from_x) * (to_y - y) - (to_x - x) * (y - from_y)) > 1e-9:
            kept.append((x, y))
    return [*kept, points[-1]]


def legs(node: Node) -> tuple[int, int, int]:
    """Returns the sides of a turnout: that of its points, and those by which it leads straight on, and branches off.

    Of two tracks that both branch off, the upper one counts as straight on.
    """
    sides = [side for side, _ in node.joins]
    for stem in sides:
        others = [side for side in sides if side != stem]
        if len(sides) == 3 and len(others) == 2 and all(apart(stem, side) >= 3 for side in others):
            straight, branch = sorted(others, key=lambda side: (apart(stem, side) != 4, side < 4))
            return stem, straight, branch
    raise Fault(node.line, f"{node.text} is a turnout: it has a track on one side, and two on the other")


def opposite(node: Node, side: int) -> list[int]:
    """Returns how a train goes on over a crossing, and past a signal, a sensor or a button."""
    least = 4 if node.text == "+" else 3
    return [other for other, _ in node.joins if apart(side, other) >= least]


def check_pass(node: Node) -> None:
    """Refuses an element that is no turnout and at which tracks meet."""
    sides = [side for side, _ in node.joins]
    if len(sides) > 2 or len(sides) == 2 and apart(*sides) < 3:
        raise Fault(node.line, f"tracks meet at {node.text}, which is no turnout")


def way(ways: Ways, begin: Node, goal: Node, turn: Turn) -> list[int] | None:
    """Returns the tracks from an element to another, or None if there is no way."""
    waiting = deque((begin, side) for side in ways[begin])
    came: dict[tuple[Node, int], tuple[Node, int] | None] = dict.fromkeys(waiting)
    while waiting:
        node, side = leaving = waiting.popleft()
        track, there, its_side = ways[node][side]
        if there is goal:
            tracks = [track]
            while before := came[leaving]:
                leaving = before
                tracks.insert(0, ways[leaving[0]][leaving[1]].track)
            return tracks
        for out in turn(there, its_side) if there else ():
            if there and (there, out) not in came:
                came[there, out] = leaving
                waiting.append((there, out))
    return None


def leaves(ways: Ways, begin: Node, tracks: list[int]) -> dict[Node, int]:
    """Returns by which side each element on a way is left."""
    node: Node | None = begin
    left: dict[Node, int] = {}
    for number in tracks:
        if node:
            left[node], node = next((side, way.node) for side, way in ways[node].items() if way.track == number)
    return left


def block(ways: Ways, sensor: Node, ends: Callable[[Node], bool]) -> list[int]:
    """Returns the tracks on which a sensor reports a train: from it to the next elements that end a block."""
    waiting, seen = [(sensor, side) for side in ways[sensor]], set()
    while waiting:
        node, side = waiting.pop()
        track, there, its_side = ways[node][side]
        if track not in seen:
            seen.add(track)
            waiting += [(there, out) for out in opposite(there, its_side)] if there and not ends(there) else []
    return sorted(seen)
