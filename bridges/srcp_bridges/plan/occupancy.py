"""Of which buses the sensors of a plan are known."""
from srcp_bridges.srcp.rows import NO_DRIVER, NO_STATION, Port, Power, Row, Rows

Sensor = tuple[int, int]  # bus, address


class Occupancy:
    """The sensors of these buses. `away` has the buses of which nothing is known: their power says that no station
    answers, or that their driver is gone."""

    def __init__(self, buses: set[int], rows: Rows):
        self.buses = buses
        self.rows = rows
        self.away: set[int] = set()

    def look(self) -> dict[int, bool]:
        """Looks at power again. Returns the buses that went away since, or came back: True for away."""
        away = set(filter(self.is_silent, self.buses))
        changed, self.away = {bus: bus in away for bus in away ^ self.away}, away
        return changed

    def is_silent(self, bus: int) -> bool:
        power = self.rows.get((bus, "POWER", 0, "does"))
        return isinstance(power, Power) and not power.on and power.text.startswith((NO_STATION, NO_DRIVER))

    def known(self, sensor: Sensor) -> Row | None:
        """Returns the row of a sensor, if that is known."""
        return None if sensor[0] in self.away else self.rows.get((sensor[0], "FB", sensor[1], "does"))

    def is_free(self, sensor: Sensor) -> bool:
        row = self.known(sensor)
        return isinstance(row, Port) and not row.value

    def is_occupied(self, sensor: Sensor) -> bool:
        row = self.known(sensor)
        return isinstance(row, Port) and bool(row.value)
