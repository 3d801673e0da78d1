"""The routes of a plan, as phones are told of them in the texts of WiThrottle."""
from srcp_bridges.page.phone_view import Part
from srcp_bridges.plan.plan import Plan
from srcp_bridges.srcp.mirrors import Mirror
from srcp_bridges.srcp.rows import position

ACTIVE = "2"
INACTIVE = "4"
NO_ROUTES = "PRL"
KINDS = f"PRT]\\[Routes}}|{{Route]\\[Active}}|{{{ACTIVE}]\\[Inactive}}|{{{INACTIVE}"


class Routes:
    """Port 1 of accessory n of the routes' bus asks for route n, and port 0 gives the route back. Sensor n tells
    whether route n is set. Phones are offered a route once accessory n is there: then a program sets routes."""

    def __init__(self, mirror: Mirror, plan: Plan):
        drawing = plan.drawing or {"bus": None, "routes": []}
        self.mirror = mirror
        self.bus = drawing["bus"]
        self.names: dict[int, str] = {route["number"]: route["name"] for route in drawing["routes"]}

    def is_there(self, number: int) -> bool:
        return number in self.names and (self.bus, "GA", number, "is") in self.mirror.rows

    def is_set(self, number: int) -> bool:
        row = self.mirror.rows.get((self.bus, "FB", number, "does"))
        return bool(row and row.value)

    def is_wanted(self, number: int) -> bool:
        """Returns whether a route is set, or waits."""
        return self.is_set(number) or position(self.mirror.rows, self.bus, number) == 1

    def state(self, number: int) -> str:
        return ACTIVE if self.is_set(number) else INACTIVE

    def there(self) -> list[int]:
        return sorted(filter(self.is_there, self.names))

    def told(self) -> list[str]:
        """Returns the lines of the routes for phones; none if there is no route."""
        entries = [f"{number}}}|{{{self.names[number]}}}|{{{self.state(number)}" for number in self.there()]
        return [KINDS, "]\\[".join([NO_ROUTES, *entries])] if entries else []

    def shown(self) -> dict[Part, str]:
        """Returns what the list tells of each route, in the words of a change."""
        return {("route", number): f"PRA{self.state(number)}{number}" for number in self.there()}
