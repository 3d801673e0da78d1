"""The turnouts of a route of which the plan names the ends alone: those of the ways from one end to the other."""
from srcp_bridges.plan.drawing import Node
from srcp_bridges.plan.elements import Element, Elements
from srcp_bridges.plan.tracks import Ways

Ports = dict[tuple[int, int], int]  # bus and address of a turnout, and its port


def turnouts_between(ways: Ways, elements: Elements, begin: Node, goal: Node) -> list[Ports]:
    """Returns the turnouts of each way from an element to another that passes no button, as a train comes to them."""
    most = sum(map(len, ways.values()))  # tracks that a way leads over at most, each of them once to each side
    waiting: list[tuple[Node, int, Ports, int]] = [(begin, side, {}, 1) for side in ways[begin]]
    found = []
    while waiting:
        node, side, ports, count = waiting.pop()
        _, there, its_side = ways[node][side]
        if there is goal:
            found.append(ports)
        elif there and count < most and (element := elements.of(there)).kind != "button":
            waiting += [(there, out, more, count + 1) for more, port in choices(element, ports)
                        for out in element.turn(its_side, port)]
    return found


def choices(element: Element, ports: Ports) -> list[tuple[Ports, int | None]]:
    """Returns the ports of a turnout that has not been put to one before, each with those of all turnouts then."""
    if element.kind != "turnout":
        return [(ports, None)]
    bus, address, _ = element.given
    if (bus, address) in ports:
        return [(ports, ports[bus, address])]
    return [(ports | {(bus, address): port}, port) for port in range(2)]
