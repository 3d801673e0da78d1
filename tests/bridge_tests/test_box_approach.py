"""box.py over a route with an approach: given back by hand while a train may have seen its go, it keeps its locks."""
import time
from pathlib import Path

from .common import new_folder, plan_of_two_buses, rows
from .test_box import GIVES_BACK, SETS, STOPS, BoxCase

DELAY = 3  # seconds


def plan_of_an_approach():
    """Writes the plan of the other cases with an approach of route 1, at a sensor that no other route has."""
    path = Path(new_folder(), "plan.toml")
    path.write_text(plan_of_two_buses().read_text().replace("frees = [1, 5]", f"approach = [[1, 1]]\ndelay = {DELAY}"))
    return path


class BoxOfAnApproach(BoxCase):
    def begin(self, *told):
        """Starts the box, sets route 1, and has its approach tell this. Returns a panel."""
        super().begin(plan_of_an_approach())
        panel = self.follows()
        self.ask(1)
        self.hears(panel, *SETS)
        self.throttle.order(*told)
        return panel

    def gives_back(self, panel):
        """Gives route 1 back, and returns the seconds from the stop of its signal to the end of its lock."""
        self.give(1)
        self.hears(panel, STOPS[0])
        stopped = time.monotonic()
        self.hears(panel, *GIVES_BACK[1:])
        return time.monotonic() - stopped

    def test_a_train_that_may_have_seen_go(self):
        """The signal stops at once, and the turnout is locked for the delay. A route that waits takes it then."""
        panel = self.begin("SET 1 FB 1 1")
        self.ask(2)
        began = time.monotonic()
        self.give(1)
        self.hears(panel, STOPS[0])
        self.assertLess(time.monotonic() - began, DELAY - 1)
        self.throttle.order("SET 1 FB 1 0")  # it has come into the route
        self.assertEqual(self.throttle.ask("SET 1 GA 1 1 1 -1"), "414 ERROR device locked")
        self.assertIn("100 INFO 3 FB 1 1", rows(self.server.port))
        self.hears(panel, *GIVES_BACK[1:], "100 INFO 1 GA 1 1 1", "100 INFO 3 FB 2 1")
        self.assertGreater(time.monotonic() - began, DELAY - 1)

    def test_no_train(self):
        """The approach is free: the lock goes at once."""
        panel = self.begin()
        self.assertLess(self.gives_back(panel), DELAY - 1)

    def test_an_approach_that_is_not_known(self):
        """A train may be there: the lock stays for the delay."""
        panel = self.begin("SET 1 FB 1 1", "SET 1 FB 1 0", "SET 1 POWER ON", "SET 1 POWER OFF no station")
        self.told("-- bus 1: its sensors are not known\n")
        self.assertGreater(self.gives_back(panel), DELAY - 1)
