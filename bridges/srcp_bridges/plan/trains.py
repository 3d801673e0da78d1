"""How far the train of a set route has come over the sections of its route."""
from collections.abc import Callable, Sequence

from srcp_bridges.plan.occupancy import Sensor


class Train:
    """A train that its route has let go. `entered` and `passed` count sections, from the first on. The signal box sees
    the same, and says no word of it: this program has to know which asks are newer than the passing."""

    def __init__(self, sections: Sequence[Sensor]):
        self.sections = sections
        self.entered = 0
        self.passed = 0

    def told(self, sensor: Sensor, is_on: bool, is_occupied: Callable[[Sensor], bool]) -> bool:
        """Takes in what a sensor says. Returns whether the train has passed each section but the last."""
        if is_on and sensor in self.sections[self.entered:self.entered + 1]:
            self.entered += 1
        elif not is_on and self.passed + 1 < self.entered and sensor == self.sections[self.passed]:
            self.passed += is_occupied(self.sections[self.passed + 1])
        return 0 < self.passed == len(self.sections) - 1
