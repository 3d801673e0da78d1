"""box.py beside a Z21, at which a hand throws the turnouts of its routes."""
import time

from . import common
from .common import free_port, plan_of_two_buses, position_of, rows, until
from .test_box import GIVES_BACK, SETS, STOPS, BoxCase


class BoxWithHands(BoxCase):
    def setUp(self):
        super().setUp()
        from simulated_z21 import Z21
        port = free_port()
        self.station = Z21(port)
        self.addCleanup(self.station.unplug)
        self.driver = self.starts("z21.py", "--station", f"127.0.0.1:{port}", "--patience", 5)
        until(lambda: "station: Z21" in self.driver.told(), "the driver has found it")
        self.lacks("100 INFO 1 POWER OFF no station")
        self.begin()
        self.throttle.order("SET 1 POWER ON")
        until(lambda: self.station.power, "the power is on")

    def thrown(self):
        return [text for _, text in self.station.log if text.startswith("a 1 ")]

    def test_a_hand_throws_a_turnout_of_a_set_route(self):
        """The signal is stopped, and displays see how it lies. The turnout stays locked and is not thrown back. The
        route shows go once it was given back and is set again."""
        self.ask(1)
        self.is_set(1)
        until(lambda: self.station.turnouts.get(1) == 0, "the station has thrown it")
        panel, thrown = self.follows(), self.thrown()
        self.station.throw(1, 1)
        self.hears(panel, "100 INFO 1 POWER ON thrown by hand: 1 1", STOPS[0], "100 INFO 1 GA 1 1 1")
        self.told("-- turnout 1 1 was thrown by hand to port 1, and stays locked\n")
        self.told("-- route 1: its signal is stopped, turnout 1 1 was thrown by hand\n")
        time.sleep(1)
        self.has(SETS[0], SETS[3])
        self.assertEqual([position_of(self.server.port, *key) for key in ((1, 1), (2, 1))], [1, 0])
        self.assertEqual((self.thrown(), self.station.turnouts[1]), (thrown, 1))
        self.give(1)
        self.hears(panel, *GIVES_BACK, "100 INFO 1 POWER ON confirms again")
        self.ask(1)
        self.hears(panel, *SETS)
        until(lambda: self.station.turnouts[1] == 0, "the station has thrown it again")
        time.sleep(0.5)
        self.assertEqual(position_of(self.server.port, 2, 1), 2)

    def test_a_hand_throws_a_turnout_before_the_signal_shows_go(self):
        """Then the signal is stopped as the route is set."""
        self.box.end()
        words = "--plan", plan_of_two_buses(), "--program", common.SERVER, "--turnout-pace", 0.5
        self.box = self.starts("box.py", *words)
        self.told("-- none of 4 routes is set\n")
        self.ask(1)
        until(lambda: self.station.turnouts.get(1) == 0, "the station has thrown it")
        self.station.throw(1, 1)
        self.told("-- turnout 1 1 was thrown by hand to port 1, and stays locked\n")
        self.assertNotIn("100 INFO 3 FB 1 1", rows(self.server.port))
        self.is_set(1)
        self.told("-- route 1: its signal is stopped, turnout 1 1 was thrown by hand\n")
        until(lambda: position_of(self.server.port, 2, 1) == 0, "the signal shows stop")
