"""The routes of a plan: each leads from a button to another, over turnouts that it wants put to a port."""
from typing import Any

from srcp_bridges.limits import GREATEST_BUS, GREATEST_GA, LONGEST_DELAY
from srcp_bridges.plan.drawing import TO_THE_RIGHT, Fault, Node
from srcp_bridges.plan.elements import ACCESSORIES, BUSES, LEFT, PORTS, RIGHT, SENSORS, TURNOUT, Elements, is_within
from srcp_bridges.plan.lines import Lines
from srcp_bridges.plan.search import turnouts_between
from srcp_bridges.plan.tracks import Ways, leaves, way

KEYS = ("number", "name", "from", "to", "turnouts", "blocks", "signal", "frees", "sections", "approach", "delay")
ROUTE_TURNOUT = (BUSES, ACCESSORIES, PORTS)
SENSOR = (BUSES, SENSORS)
SIGNAL = (BUSES, ACCESSORIES, PORTS, PORTS)


def check_routes(document: dict[str, Any], lines: Lines) -> None:
    """Refuses routes whose words are not those of routes, whether a track plan is drawn or not."""
    given = document.get("route", [])
    if not isinstance(given, list) or not all(isinstance(each, dict) for each in given):
        raise Fault(lines.of("route"), "a route is a table: [[route]]")
    if given and not is_within([document.get("bus")], (BUSES,)):
        raise Fault(lines.of("", "bus"), f"the routes have a bus of their own: bus = 1 to {GREATEST_BUS}")
    for index, route in enumerate(given):
        check_route(index, route, document.get("bus"), lines)


def check_route(index: int, given: dict[str, Any], own: object, lines: Lines) -> None:
    """Refuses a route whose words are not those of a route, or that has a device of the routes' own bus."""
    def refuse(key: str, text: str) -> None:
        raise Fault(lines.of("route", key, index), text)

    for key in given:
        if key not in KEYS:
            refuse(key, f"{key} is no key of a route: {', '.join(KEYS)} are")
    if not is_within([given.get("number")], (ACCESSORIES,)):
        refuse("number", f"a route has a number from 1 to {GREATEST_GA}")
    for key, each, what in (("turnouts", ROUTE_TURNOUT, "[bus, address, port]"), ("blocks", SENSOR, "[bus, sensor]"),
                            ("sections", SENSOR, "[bus, sensor]"), ("approach", SENSOR, "[bus, sensor]")):
        named = "sensors of the approach" if key == "approach" else key
        values = given.get(key, [])
        if not isinstance(values, list) or not all(is_within(value, each) for value in values):
            refuse(key, f"the {named} of a route are a list of {what}")
        if any(value[0] == own for value in values):
            refuse(key, f"the {named} of a route are on other buses than the routes' own, {own}")
    if not is_within([given.get("delay", 1)], (range(1, LONGEST_DELAY + 1),)):
        refuse("delay", f"the delay of a route is 1 to {LONGEST_DELAY} seconds")
    for key, each, what in (("signal", SIGNAL, "[bus, address, port of go, port of stop]"),
                            ("frees", SENSOR, "[bus, sensor]")):
        if key in given and not is_within(given[key], each):
            refuse(key, f"the key {key} of a route is {what}")
        if key in given and given[key][0] == own:
            refuse(key, f"the key {key} of a route is on another bus than the routes' own, {own}")


class Routes:
    """Reads the routes of a document whose drawing has these elements. Their words are those of routes. A route that
    names its ends alone is given the turnouts that the drawing has between them, and the sensors behind its signal."""

    def __init__(self, document: dict[str, Any], lines: Lines, elements: Elements, ways: Ways):
        self.lines = lines
        self.elements = elements
        self.ways = ways
        self.bus = document.get("bus")
        self.given = document.get("route", [])
        self.passed: dict[str, set[str]] = {}  # to which sides routes pass their signals, by the names of these

    def told(self) -> list[dict[str, Any]]:
        """Returns what the page is told of them."""
        told: list[dict[str, Any]] = []
        for index, given in enumerate(self.given):
            self.check(index, given)
            if "turnouts" not in given:
                given["turnouts"] = self.find(index, given)
                for key, sensors in self.sensors(index, given).items():
                    given.setdefault(key, sensors)
            for before in told:
                if before["number"] == given["number"]:
                    raise self.wrong(index, "number", f"there is a route {given['number']} already")
                if all(before[key] == given[key] for key in ("from", "to")):
                    raise self.wrong(index, "to", f"route {before['number']} leads from {given['from']} to "
                                     f"{given['to']} already")
            told.append({key: given[key] for key in ("number", "name", "from", "to")} | self.way(index, given)
                        | devices_of(given))
        return told

    def wrong(self, index: int, key: str, text: str) -> Fault:
        return Fault(self.lines.of("route", key, index), text)

    def check(self, index: int, given: dict[str, Any]) -> None:
        """Refuses a route without a name, or that leads from or to what is no button of the drawing, or over a turnout
        that has more than two ports."""
        if not isinstance(given.get("name"), str):
            raise self.wrong(index, "name", "a route has a name")
        buttons = [name for name, element in self.elements.named.items() if element.kind == "button"]
        for key in ("from", "to"):
            if given.get(key) not in buttons:
                raise self.wrong(index, key, f"a route leads {key} a button of the plan")
        turnouts = given.get("turnouts", [])
        if not isinstance(turnouts, list) or not all(is_within(each, TURNOUT) for each in turnouts):
            raise self.wrong(index, "turnouts", "the turnouts of a route are a list of [bus, address, port]")

    def find(self, index: int, given: dict[str, Any]) -> list[list[int]]:
        """Returns the turnouts of a route that names its ends alone."""
        begin, end = (self.elements.named[given[key]].node for key in ("from", "to"))
        match turnouts_between(self.ways, self.elements, begin, end):
            case [ports]:
                return [[bus, address, port] for (bus, address), port in ports.items()]
            case found:
                leads = "several tracks lead" if found else "no track leads"
                raise self.wrong(index, "to", f"{leads} from {begin.text} to {end.text} past no button: name the "
                                 f"turnouts of route {given['number']}")

    def sensors(self, index: int, given: dict[str, Any]) -> dict[str, list[list[int]]]:
        """Returns the blocks and the sections of a route that names its ends alone: the sensors behind its signal."""
        begin, end = (self.elements.named[given[key]].node for key in ("from", "to"))
        left = leaves(self.ways, begin, self.tracks(index, given))
        way = [self.elements.of(node) for node in [*left, end][1:]]
        places = [place for place, each in enumerate(way)
                  if each.kind == "signal" and each.given and each.given[:2] == given.get("signal", [])[:2]]
        last = max((place for place, each in enumerate(way) if each.kind == "turnout"), default=-1)
        sensors = {place: each.given for place, each in enumerate(way)
                   if each.kind == "sensor" and each.given[0] != self.bus}
        behind = [sensor for place, sensor in sensors.items() if places and place > places[0]]
        return {"blocks": behind, "sections": behind if sum(place > last for place in sensors) > 1 else []}

    def tracks(self, index: int, given: dict[str, Any]) -> list[int]:
        """Returns the tracks of a route."""
        ports = {(bus, address): port for bus, address, port in given.get("turnouts", [])}
        begin, end = (self.elements.named[given[key]].node for key in ("from", "to"))

        def turn(node: Node, side: int) -> list[int]:
            element = self.elements.of(node)
            port = ports.get((element.given[0], element.given[1])) if element.kind == "turnout" else None
            return element.turn(side, port)

        if (tracks := way(self.ways, begin, end, turn)) is None:
            raise self.wrong(index, "turnouts", f"no track leads from {begin.text} to {end.text} over the turnouts of "
                             f"route {given['number']}")
        return tracks

    def way(self, index: int, given: dict[str, Any]) -> dict[str, Any]:
        """Returns the tracks of a route, and what it shares with a route that crosses it or ends where it does."""
        begin, end = (self.elements.named[given[key]].node for key in ("from", "to"))
        tracks = self.tracks(index, given)
        left = leaves(self.ways, begin, tracks)
        if "signal" in given:
            self.passes(index, given, {node.text: side for node, side in left.items()})
        crossings = [f"{node.row} {node.left}" for node in left if node.text == "+"]
        return {"tracks": tracks, "pieces": [*tracks, *crossings, end.text]}

    def passes(self, index: int, given: dict[str, Any], left: dict[str, int]) -> None:
        """Notes to which side a route passes its signal. `left`: the sides by which it leaves its elements."""
        for signal in self.elements.signals(*given["signal"][:2]):
            if signal.node.text not in left:
                continue
            to = RIGHT if left[signal.node.text] in TO_THE_RIGHT else LEFT
            self.passed.setdefault(signal.node.text, set()).add(to)
            if signal.to not in (None, to):
                raise self.wrong(index, "signal", f"route {given['number']} passes {signal.node.text} to the {to}, and "
                                 f"not to the {signal.to}")


def devices_of(given: dict[str, Any]) -> dict[str, Any]:
    """Returns what the page is told of the devices of a route: the port of each turnout, the blocks, and the port by
    which the signal shows go."""
    signal = given.get("signal")
    return {"turnouts": {f"{bus} GA {address}": port for bus, address, port in given.get("turnouts", [])},
            "blocks": [f"{bus} FB {address}" for bus, address in given.get("blocks", [])],
            "signal": {"key": f"{signal[0]} GA {signal[1]}", "go": signal[2]} if signal else None}
