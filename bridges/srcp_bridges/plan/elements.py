"""What a plan has, as its legend says: turnouts, signals, sensors and the buttons of routes on its tracks, and what
stands beside them."""
from collections.abc import Callable
from typing import Any, NamedTuple

from srcp_bridges.limits import ASPECTS, GREATEST_BUS, GREATEST_FB, GREATEST_GA, MOST_PORTS
from srcp_bridges.plan.drawing import Fault, Node, Point
from srcp_bridges.plan.lines import Lines
from srcp_bridges.plan.tracks import Ways, block, check_pass, legs, opposite

BUSES = range(1, GREATEST_BUS + 1)
ACCESSORIES = range(1, GREATEST_GA + 1)
SENSORS = range(1, GREATEST_FB + 1)
PORTS = range(MOST_PORTS)
TURNOUT = (BUSES, ACCESSORIES, range(2))
KINDS = {"turnout": ("GA", TURNOUT, "[bus, address, port of the branch]"),
         "signal": ("GA", (BUSES, ACCESSORIES, PORTS, PORTS), "[bus, address, port of go, port of stop]"),
         "sensor": ("FB", (BUSES, SENSORS), "[bus, address]")}

BESIDE = ("text", "platform")
LEFT = "left"
RIGHT = "right"
MORE = ("to", "aspects")  # keys of a signal that may be left out


def is_within(value: object, ranges: tuple[range, ...]) -> bool:
    """Returns whether a value is a list of numbers, each within its range."""
    return (isinstance(value, list) and len(value) == len(ranges)
            and all(type(number) is int and number in limits for number, limits in zip(value, ranges)))


class Element(NamedTuple):
    """`given` is what the legend says of it, by its kind. `to` and `aspects` are of signals: to which side a train
    drives that obeys it, and the names of its ports."""
    node: Node
    kind: str
    given: Any
    to: str | None = None
    aspects: tuple[str, ...] = ()

    def told(self, tracks: list[list[Point]], ways: Ways, ends_block: Callable[[Node], bool]) -> dict[str, Any]:
        """Returns what the page is told of it."""
        told = {"name": self.node.text, "kind": self.kind, "at": self.node.at()}
        if self.kind in BESIDE:
            return told | {"text": self.given, "wide": self.node.right + 1 - self.node.left}
        if self.kind == "button":
            return told | {"text": self.given}
        told |= {"key": f"{self.given[0]} {KINDS[self.kind][0]} {self.given[1]}"}
        if self.kind == "sensor":
            return told | {"tracks": block(ways, self.node, ends_block)}
        if self.kind == "signal":
            return told | {"go": self.given[2], "stop": self.given[3], "to": self.to, "aspects": list(self.aspects)}
        ends = [next_point(tracks[ways[self.node][side].track], self.node.at()) for side in self.leads()]
        return told | {"branch": self.given[2], "ends": ends}

    def leads(self) -> list[int]:
        """Returns the sides to which a turnout leads by its port 0, and by its port 1."""
        _, straight, branch = legs(self.node)
        return [straight, branch] if self.given[2] else [branch, straight]

    def turn(self, side: int, port: int | None) -> list[int]:
        """Returns by which sides one leaves it that has come by a side; `port`: to which a turnout is put."""
        if self.kind != "turnout":
            return opposite(self.node, side)
        pair = {legs(self.node)[0], self.leads()[port]} if port is not None else set()
        return [*(pair - {side})] if side in pair else []


def next_point(track: list[Point], at: Point) -> Point:
    """Returns the corner of a track that follows the end at a point."""
    return track[1] if track[0] == at else track[-2]


class Elements:
    """The elements of a plan, by their names, in the order of the drawing."""

    def __init__(self, nodes: list[Node], legend: dict[str, Any], lines: Lines):
        self.named: dict[str, Element] = {}
        for node in [node for node in nodes if node.text not in "=/\\+"]:
            if node.text not in legend:
                raise Fault(node.line, f"{node.text} in {node.where()} is not in the legend")
            if before := self.named.get(node.text):
                raise Fault(node.line, f"{node.text} is drawn in line {before.node.line} already")
            kind, given, more = entry(node.text, legend[node.text], lines.of("legend", node.text))
            self.named[node.text] = Element(node, kind, given, more.get("to"), tuple(more.get("aspects", ())))
            if node.is_area and kind != "platform":
                raise Fault(node.line, f"{node.text} in {node.where()} is a {kind}: # is drawn beside a platform")
            (legs if kind == "turnout" else check_pass)(node)
        for name in legend:
            if name not in self.named:
                raise Fault(lines.of("legend", name), f"{name} is not drawn in the plan")

    def signals(self, bus: int, address: int) -> list[Element]:
        """Returns the elements that are this signal."""
        return [each for each in self.named.values() if each.kind == "signal" and each.given[:2] == [bus, address]]

    def face(self, passed: dict[str, set[str]]) -> None:
        """Takes in to which sides routes pass their signals. One that is passed to both has no direction."""
        for name, [to, *others] in passed.items():
            if not others:
                self.named[name] = self.named[name]._replace(to=to)

    def of(self, node: Node) -> Element:
        """Returns the element that a node is; a crossing counts as a signal: it ends no block and has one way out."""
        return self.named.get(node.text) or Element(node, "signal", None)

    def told(self, tracks: list[list[Point]], ways: Ways, are_beside: bool = False) -> list[dict[str, Any]]:
        """Returns what the page is told of those on the tracks, or of those beside them."""
        def ends_block(node: Node) -> bool:
            return self.of(node).kind != "signal"

        return [element.told(tracks, ways, ends_block) for element in self.named.values()
                if (element.kind in BESIDE) == are_beside]


def names_beside(legend: dict[str, Any]) -> set[str]:
    """Returns the names of what stands beside the tracks."""
    return {name for name, given in legend.items() if isinstance(given, dict) and not given.keys().isdisjoint(BESIDE)}


def entry(name: str, entry: Any, line: int) -> tuple[str, Any, dict[str, Any]]:
    """Returns the kind that an entry of the legend tells, what it says of the element, and what more of a signal."""
    more = {key: entry[key] for key in MORE if key in entry} if isinstance(entry, dict) and "signal" in entry else {}
    if not isinstance(entry, dict) or len(rest := entry.keys() - more) != 1 or not rest <= {*KINDS, "button", *BESIDE}:
        raise Fault(line, f"{name} is one of turnout, signal, sensor, button, text and platform, such as "
                    "{ turnout = [1, 5, 1] }")
    [kind] = rest
    given, aspects = entry[kind], more.get("aspects", ["", ""])
    if kind not in KINDS and not isinstance(given, str):
        raise Fault(line, f"{name}: a {kind} has a text")
    if kind in KINDS and not is_within(given, KINDS[kind][1]):
        raise Fault(line, f"{name}: a {kind} is {KINDS[kind][2]}")
    if more.get("to", LEFT) not in (LEFT, RIGHT):
        raise Fault(line, f"{name}: a train that obeys a signal drives to = \"{LEFT}\" or to = \"{RIGHT}\"")
    if not isinstance(aspects, list) or len(aspects) > ASPECTS or not all(isinstance(each, str) for each in aspects):
        raise Fault(line, f"{name}: the aspects of a signal are the names of port 0, 1 ..: {ASPECTS} texts at most")
    return kind, given, more
