"""box.py over routes with sections: a train that has passed them gives its route back, and a sensor that flickers does
not."""
import re
from pathlib import Path

from .common import new_folder, plan_of_two_buses, position_of, rows
from .test_box import GIVES_BACK, SETS, BoxCase

SECTIONS = {5: "[[1, 7], [1, 5], [2, 8]]", 6: "[[1, 7], [1, 6], [2, 3]]"}  # the last one of route 2 is its block


def plan_of_sections():
    """Writes the plan of the other cases with sections in place of the sensors that free routes 1 and 2. Of bus 1 they
    have sensors of sections alone. The other two routes are set also if the sensors of bus 1 are not known."""
    text = re.sub(r"frees = \[1, ([56])\]", lambda found: f"sections = {SECTIONS[int(found[1])]}",
                  plan_of_two_buses().read_text())
    path = Path(new_folder(), "plan.toml")
    path.write_text(re.sub(r"(blocks|frees) = (\[*)1, ", r"\1 = \g<2>2, ", text))
    return path


class BoxOfSections(BoxCase):
    def begin(self):
        """Starts the box, and sets route 1. Returns a panel."""
        super().begin(plan_of_sections())
        panel = self.follows()
        self.ask(1)
        self.hears(panel, *SETS)
        return panel

    def tell(self, *told):
        """Has sensors tell what they are: 3 and 8 are those of bus 2, and the others are of bus 1."""
        self.throttle.order(*[f"SET {1 + (sensor in (3, 8))} FB {sensor} {value}" for sensor, value in told])

    def stays(self, panel, *told, route=1):
        """Sensors tell this, and the route keeps its lock. Route 3, which is set and given back then, is the later one
        in the plan: what is ordered of an earlier one comes before that."""
        self.tell(*told)
        self.ask(3)
        self.hears(panel, "100 INFO 3 FB 3 1")
        self.give(3)
        self.hears(panel, "100 INFO 3 FB 3 0")
        kept = [row for row in rows(self.server.port) if row.startswith((SETS[0], f"100 INFO 3 FB {route} 1"))]
        self.assertEqual((len(kept), position_of(self.server.port, 3, route)), (2, 1), told)

    def goes_back(self, panel, *told):
        """Sensors tell this, and then route 1 is given back, whose signal was stopped as its train came."""
        self.tell(*told)
        self.hears(panel, *GIVES_BACK[1:])
        self.lies_back(1)

    def test_a_train_passes_its_sections(self):
        """Its route is given back as it has passed the second one of three, and not before. The accessory lies then as
        that of a route that was given back. The next train gives the route back as this one does."""
        panel = self.begin()
        self.throttle.order("SET 3 GA 1 1 1 -1")
        for told in (7, 1), (5, 1), (7, 0), (8, 1):
            self.stays(panel, told)
        self.goes_back(panel, (5, 0))
        self.has("100 INFO 3 GA 1 1 0")
        self.told("-- route 1 given back: West to track 1\n")
        self.ask(1)
        self.hears(panel, *SETS)
        self.stays(panel, (8, 0), (7, 1), (5, 1), (7, 0), (8, 1))
        self.goes_back(panel, (5, 0))

    def test_a_train_that_comes_into_its_block(self):
        """The last section of route 2 is its block: its signal stops as the train comes there, and it is given back as
        the train is there whole. Then another route over the turnout is set."""
        panel = self.begin()
        self.ask(2)
        self.give(1)
        self.hears(panel, *GIVES_BACK, "100 INFO 3 FB 2 1")
        self.ask(1)
        self.stays(panel, (7, 1), (6, 1), (7, 0), (3, 1), route=2)
        self.told("-- route 2: its signal is stopped, sensor 2 3 is occupied\n")
        self.tell((6, 0))
        self.hears(panel, "100 INFO 3 FB 2 0", *SETS)
        self.lies_back(2)

    def test_a_second_train(self):
        """The signal stops as the first train comes into the first section, and shows go for no second one, though the
        route stays set and is asked for again. It does once the route was given back and set anew."""
        panel = self.begin()
        self.tell((7, 1))
        self.hears(panel, GIVES_BACK[0])
        before = position_of(self.server.port, 2, 1)
        self.stays(panel, (7, 0))
        self.ask(1)
        self.stays(panel, (7, 1), (7, 0), (7, 1))
        self.assertEqual((before, position_of(self.server.port, 2, 1)), (0, 0))
        self.goes_back(panel, (5, 1), (7, 0), (8, 1), (5, 0))
        self.ask(1)
        self.hears(panel, *SETS)

    def test_sensors_that_flicker(self):
        """One alone gives nothing back, whatever section it is of, whether a train is in that section or in none."""
        panel = self.begin()
        for sensor in (7, 5, 8):
            self.stays(panel, *[(sensor, value) for value in (1, 0, 1, 0, 1, 0)])
        self.stays(panel, (7, 1), (7, 0), (7, 1), (5, 1), (7, 0))
        self.stays(panel, (5, 0), (5, 1), (5, 0), (5, 1), (8, 1), (8, 0), (8, 1))
        self.goes_back(panel, (5, 0))

    def test_who_asks_again_as_a_train_gives_back(self):
        """Each ask counts, also one that comes at once behind the sensor by which the route is given back."""
        panel = self.begin()
        passes = (7, 1), (5, 1), (7, 0), (8, 1), (5, 0)
        for _ in range(20):
            self.tell((8, 0), *passes)
            self.hears(panel, "100 INFO 3 FB 1 0")
            self.ask(1)
            self.hears(panel, "100 INFO 3 FB 1 1")
        for _ in range(20):
            self.tell((8, 0), *passes)
            self.ask(1)
            self.hears(panel, "100 INFO 3 FB 1 0", "100 INFO 3 FB 1 1")
            self.assertEqual(position_of(self.server.port, 3, 1), 1)

    def test_who_gives_back_and_asks_again_in_one_moment(self):
        """Who comes later sees it as asked for, though the stamps do not tell which of the two was the last."""
        panel = self.begin()
        self.throttle.flood(["SET 3 GA 1 0 1 250", "SET 3 GA 1 1 1 250"])
        self.hears(panel, "100 INFO 3 FB 1 0", "100 INFO 3 FB 1 1")
        self.has("100 INFO 3 GA 1 0 0", "100 INFO 3 GA 1 1 0")
        self.assertEqual(position_of(self.server.port, 3, 1), 1)

    def test_a_train_of_before(self):
        """Nothing is known of it once its route was given back by hand: the route that is set anew stays."""
        panel = self.begin()
        self.stays(panel, (7, 1), (5, 1), (7, 0))
        self.give(1)
        self.hears(panel, *GIVES_BACK[1:])
        self.ask(1)
        self.hears(panel, *SETS)
        self.stays(panel, (8, 1), (5, 0))

    def test_sensors_of_sections_that_are_not_known(self):
        """What they tell meanwhile passes nothing, though the next section is of a bus that is known."""
        panel = self.begin()
        self.stays(panel, (7, 1), (5, 1), (7, 0), (8, 1))
        self.throttle.order("SET 1 POWER ON", "SET 1 POWER OFF no station")
        self.stays(panel, (5, 0), (5, 1))
        self.throttle.order("SET 1 POWER OFF station says off")
        self.told("-- bus 1: its sensors are known again\n")
        self.stays(panel)
        self.goes_back(panel, (5, 0))
