"""The file of --plan: names of devices, labels of functions, and a track plan with its routes."""
import tomllib
from typing import Any, NamedTuple

from srcp_bridges.plan.drawing import Fault, draw
from srcp_bridges.plan.elements import Elements, names_beside
from srcp_bridges.plan.lines import Lines
from srcp_bridges.plan.routes import Routes, check_routes
from srcp_bridges.plan.tracks import tracks_of
from srcp_bridges.program import Wrong, unread


KEYS = ("bus", "plan", "legend", "names", "functions", "route")


class Plan(NamedTuple):
    """What the file has. `drawing` is what the page draws, or None if there is no plan in it. `routes` has the keys of
    each route, with what was found in the drawing."""
    names: dict[str, str]
    functions: dict[str, list[str]]
    drawing: dict[str, Any] | None
    routes: list[dict[str, Any]]


def read_plan(path: str | None) -> Plan:
    """Returns what a file says."""
    if not path:
        return Plan({}, {}, None, [])
    try:
        with open(path, "rb") as file:
            return plan_of(file.read().decode())
    except (OSError, ValueError) as fault:
        raise Wrong(f"--plan {path}: {unread(path, fault)}") from None


def plan_of(content: str) -> Plan:
    """Returns what the text of a file says; raises ValueError for the first fault."""
    document, lines = tomllib.loads(content), Lines(content)
    for key in document:
        if key not in KEYS:
            raise Fault(lines.of("", key), f"{key} is no key of a plan: {', '.join(KEYS)} are")
    check_routes(document, lines)
    for table in ("names", "functions", "legend"):
        if not isinstance(document.get(table, {}), dict):
            raise Fault(lines.of(table), f"{table} is a table: [{table}]")
    for device, name in document.get("names", {}).items():
        if not isinstance(name, str):
            raise Fault(lines.of("names", device), f"{device}: a name is a text")
    functions = document.get("functions", {})
    for device, labels in functions.items():
        if not isinstance(labels, list) or not all(isinstance(label, str) for label in labels):
            raise Fault(lines.of("functions", device), f"{device}: the labels of F0, F1 .. are a list of texts")
    names = {device: " ".join(name.split()) for device, name in document.get("names", {}).items()}
    drawing = drawing_of(document, lines) if "plan" in document else None
    return Plan(names, functions, drawing, document.get("route", []))


def drawing_of(document: dict[str, Any], lines: Lines) -> dict[str, Any]:
    """Returns what the page draws: the tracks, what stands on them, and the routes."""
    if not isinstance(document["plan"], str):
        raise Fault(lines.of("", "plan"), "the plan is a text")
    legend = document.get("legend", {})
    nodes = draw(document["plan"], lines.first("plan"), names_beside(legend))
    elements = Elements(nodes, legend, lines)
    tracks, ways = tracks_of(nodes)
    routes = Routes(document, lines, elements, ways)
    told = routes.told()
    elements.face(routes.passed)
    return {"width": max((node.right + 1 for node in nodes), default=0),
            "height": max((node.row + 1 for node in nodes), default=0), "tracks": tracks,
            "elements": elements.told(tracks, ways), "beside": elements.told(tracks, ways, are_beside=True),
            "bus": routes.bus, "routes": told}
