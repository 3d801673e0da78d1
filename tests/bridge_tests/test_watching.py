"""The observer of what moves: it is not deaf. Each case is a story of moments, and what the observer says of it."""
import os
import unittest
from collections.abc import Callable
from typing import Any

from .common import free_port, new_folder
from .watching import AFTER_STOP_ALL, Watch


class Watching(unittest.TestCase):
    program = "watching"

    def setUp(self) -> None:
        self.now = 0.0
        self.told: list[str] = []
        self.moves: list[tuple[float, int, int]] = []
        self.watch = Watch("station", self.told.append, lambda: self.now)

    def at(self, moment: float, act: Callable[[], object]) -> None:
        self.now = moment
        act()

    def drives(self, moment: float, seconds=0.01, cab=3) -> None:
        """A throttle has a locomotive drive; the reply comes after so many seconds."""
        self.at(moment, lambda: self.watch.drives(cab))
        self.at(moment + seconds, lambda: self.watch.done(self.watch.driven[cab][-1]))

    def stops_all(self, moment: float, seconds=0.05, is_heard=True) -> None:
        self.at(moment, self.watch.stops_all)
        self.at(moment + seconds, lambda: self.watch.stopped(self.watch.stops[-1], is_heard))

    def is_lost(self, begin: float, end: float) -> None:
        self.at(begin, lambda: self.watch.loses("cable off"))
        self.at(end, lambda: self.watch.found(self.watch.losses[-1], 3))

    def says(self, *kinds: str, end=100.0) -> None:
        self.at(end, lambda: self.watch.look(self.moves))
        counted = {kind: count for kind, count in self.watch.count.items() if kind.startswith(("start ", "drive on"))}
        self.assertEqual((counted, len(self.watch.breaches)), ({kind: kinds.count(kind) for kind in kinds}, len(kinds)))
        self.assertEqual([text for text in self.told if "BREACH" in text], self.watch.breaches)

    def test_a_start_that_somebody_commanded(self) -> None:
        self.drives(1)
        self.moves += [(1.02, 3, 60), (2, 3, 70), (3, 3, 0)]
        self.says()
        self.assertEqual(self.watch.count["starts"], 1)

    def test_a_start_that_is_looked_at_late(self) -> None:
        """What was commanded since does not hide its command."""
        for moment in range(1, 20):
            self.drives(moment)
        self.moves += [(3.02, 3, 60)]
        self.says()

    def test_a_start_that_nobody_commanded(self) -> None:
        self.drives(1, cab=4)
        self.moves += [(1.02, 3, 60)]
        self.says("start after to stand")
        self.assertIn("locomotive 3 starts at 1.020 at speed 60, stands at never; commanded never; ", self.told[0])

    def test_a_start_that_is_commanded_later(self) -> None:
        self.drives(5)
        self.moves += [(4.9, 3, 60)]
        self.says("start after to stand")

    def test_a_start_after_a_loss(self) -> None:
        """By a command of before it, as power comes back by itself."""
        self.drives(1)
        self.is_lost(5, 7)
        self.moves += [(1.02, 3, 60), (5, 3, 0), (7.8, 3, 60), (7.9, 3, 0)]
        self.says("start after loss")
        self.assertIn("lost 5.000 to 7.000 (cable off)", self.told[0])

    def test_a_start_on_its_way_as_something_is_lost(self) -> None:
        self.drives(4.7)
        self.is_lost(5, 7)
        self.moves += [(7.1, 3, 60), (7.2, 3, 0)]
        self.says()

    def test_a_start_that_is_told_again_behind_a_loss(self) -> None:
        """At a line that loses some. Not by one of long before, and not behind a stop."""
        self.drives(4.2)
        self.is_lost(5, 7)
        self.moves += [(5.4, 3, 60), (5.5, 3, 0)]
        self.watch.is_lossy = True
        self.says()
        self.moves += [(6.5, 3, 60), (6.6, 3, 0)]
        self.says("start after loss")
        self.drives(9.2)
        self.stops_all(9.3)
        self.is_lost(10, 12)
        self.moves += [(10.4, 3, 60), (10.5, 3, 0)]
        self.says("start after loss", "start after loss")

    def test_what_comes_late_since_the_machine_was_busy(self) -> None:
        """A program waited for a processor for a second. What is later is a breach, and so is a start of before
        a STOP ALL that was confirmed."""
        breaches = ["start after loss", "start after to stand", f"drive on {AFTER_STOP_ALL}"]
        none: list[str] = []
        for late, kinds in ((0.9, none), (1.1, breaches)):
            self.setUp()
            self.watch.delay = lambda begin, end: 1.0
            self.drives(4)
            self.is_lost(5, 8)
            self.moves += [(5 + late, 3, 60), (7, 3, 0), (10.6 + late, 5, 60), (11.9, 5, 0), (21, 4, 60),
                           (30.15 + late, 4, 0)]
            self.drives(10, cab=5)
            self.at(10.05, lambda: self.watch.done(self.watch.stands(5)))
            self.drives(20, cab=4)
            self.stops_all(30)
            self.says(*kinds)
            self.assertEqual(self.watch.count["late by the machine"], 3 - len(kinds))
        self.setUp()
        self.watch.delay = lambda begin, end: 100.0
        self.drives(1)
        self.stops_all(2)
        self.moves += [(3, 3, 60), (3.1, 3, 0)]
        self.says("start after STOP ALL")
        self.setUp()
        self.watch.delay = lambda begin, end: 1.0
        self.drives(1)
        self.at(2, lambda: self.watch.stopped(self.watch.stops_all(), has_reply=False))
        self.moves += [(8, 3, 60), (8.01, 3, 0), (8.2, 3, 60), (8.3, 3, 0)]
        self.says("start after STOP ALL")

    def test_a_start_of_before_a_loss_at_a_line_that_loses_none(self) -> None:
        self.drives(4.2)
        self.is_lost(5, 7)
        self.moves += [(5.4, 3, 60), (5.5, 3, 0)]
        self.says("start after loss")

    def test_a_start_commanded_behind_a_loss(self) -> None:
        self.is_lost(5, 7)
        self.drives(8)
        self.moves += [(8.01, 3, 60)]
        self.says()

    def test_what_drives_on_after_a_loss(self) -> None:
        self.drives(1)
        self.is_lost(5, 7)
        self.moves += [(1.02, 3, 60)]
        self.says("drive on after a loss (cable off)")
        self.assertIn("still drives at 10.000, stands at never", self.told[0])

    def test_a_start_after_stop_all(self) -> None:
        self.drives(1)
        self.stops_all(5)
        self.moves += [(1.02, 3, 60), (5.01, 3, 0), (5.34, 3, 60), (5.6, 3, 0)]
        self.says("start after STOP ALL")

    def test_a_start_after_a_stop_all_without_a_reply(self) -> None:
        """It may wait in the queue of a program. Then no older command starts anything."""
        self.drives(1)
        self.at(5, self.watch.stops_all)
        self.watch.stopped(self.watch.stops[-1], is_heard=False, has_reply=False)
        self.moves += [(6, 3, 60), (6.5, 3, 0)]
        self.says()
        self.moves += [(10.2, 3, 60)]
        self.says("start after STOP ALL")

    def test_a_start_whose_command_was_on_its_way_at_stop_all(self) -> None:
        """Its reply came behind STOP ALL: the server may have taken it behind that."""
        self.drives(4.99, seconds=0.04)
        self.stops_all(5)
        self.moves += [(5.2, 3, 60)]
        self.says()

    def test_what_drives_on_after_stop_all(self) -> None:
        """Until it is stopped too late, or for ever. One that is commanded anew may."""
        for cab in (3, 4, 5):
            self.drives(1, cab=cab)
            self.moves.append((1.02, cab, 60))
        self.stops_all(5)
        self.drives(5.06, cab=5)
        self.moves.append((5.49, 3, 0))
        self.says("drive on after STOP ALL", "drive on after STOP ALL")
        self.assertEqual(self.watch.latest, float("inf"))

    def test_how_late_the_last_stood(self) -> None:
        self.drives(1)
        self.stops_all(5)
        self.moves += [(1.02, 3, 60), (5.25, 3, 0)]
        self.says("drive on after STOP ALL")
        self.assertAlmostEqual(self.watch.latest, 0.1)

    def test_a_stop_all_in_time_or_that_no_station_hears(self) -> None:
        self.drives(1)
        self.moves += [(1.02, 3, 60)]
        self.stops_all(3, is_heard=False)
        self.stops_all(5)
        self.moves += [(5.14, 3, 0)]
        self.says()

    def test_a_start_after_a_command_to_stand(self) -> None:
        """Half a second later no older command is on its way."""
        self.drives(1)
        self.at(2, lambda: self.watch.stands(3))
        self.at(2.01, lambda: self.watch.done(self.watch.stood[3][-1]))
        self.moves += [(1.02, 3, 60), (2.02, 3, 0), (2.1, 3, 60), (2.2, 3, 0)]
        self.says()
        self.moves += [(2.6, 3, 60), (2.7, 3, 0)]
        self.says("start after to stand")
        self.assertIn("stands at 2.700", self.told[0])

    def test_a_start_after_a_command_to_stand_that_was_refused(self) -> None:
        self.drives(1)
        self.at(1.5, lambda: self.watch.stands(3))
        self.watch.refused(3, self.watch.stood[3][-1])
        self.moves += [(3, 3, 60)]
        self.says()

    def test_a_start_after_a_command_to_stand_that_a_driver_did_not_hear(self) -> None:
        """It slept, and carries out one command after the other as it wakes."""
        self.drives(1)
        self.at(2, lambda: self.watch.done(self.watch.stands(3)))
        self.watch.deaf.append((0.5, 6))
        self.moves += [(6.1, 3, 60), (6.2, 3, 0)]
        self.says()
        self.moves += [(7.1, 3, 60)]
        self.says("start after to stand")

    def test_a_command_without_a_reply(self) -> None:
        self.at(4.9, lambda: self.watch.done(self.watch.drives(3), has_reply=False))
        self.stops_all(5)
        self.moves += [(5.2, 3, 60), (5.3, 3, 0)]
        self.says()
        self.stops_all(6)
        self.moves += [(6.2, 3, 60), (6.3, 3, 0)]
        self.says("start after STOP ALL")

    def test_a_command_without_a_reply_that_waits(self) -> None:
        """A program may have it in its queue, and carry it out behind a command of another to stand."""
        for stands, kinds in (2, ()), (6, ("start after to stand",)):
            self.setUp()
            self.at(0.9, lambda: self.watch.done(self.watch.drives(3), has_reply=False))
            self.at(stands, lambda: self.watch.done(self.watch.stands(3)))
            self.moves += [(stands + 0.6, 3, 60)]
            self.says(*kinds)

    def test_power_that_comes_back_by_itself(self) -> None:
        """A STOP ALL does not matter to it, and one that does not know it says nothing."""
        self.drives(1, cab=0)
        self.stops_all(2)
        self.is_lost(5, 7)
        self.moves += [(1.02, 0, 1), (2.01, 0, 0), (2.3, 0, 1), (7, 0, 0), (7.8, 0, 1)]
        self.says("start after loss", "drive on after a loss (cable off)")
        self.setUp()
        self.watch.knows_power = False
        self.is_lost(5, 7)
        self.moves += [(7.8, 0, 1)]
        self.says()

    def test_beside_each_simulated_station(self) -> None:
        """What starts there by itself is told, and what is commanded is not."""
        from simulated_station import Station
        from simulated_z21 import Z21
        stations: list[Any] = [Station(os.path.join(new_folder(), "ttyACM0")), Z21(free_port())]
        for station in stations:
            self.addCleanup(station.unplug)
            watch = Watch("station", self.told.append, knows_power=False)  # a Z21 comes with its power on
            watch.drives(3)
            station.switch(1)
            station.hand(3, 60)
            watch.look(station.moves)
            self.assertEqual(watch.breaches, [])
            station.hand(4, 60)
            watch.look(station.moves)
            self.assertEqual((len(watch.breaches), "locomotive 4 starts at" in self.told[-1]), (1, True))

    def test_each_move_is_judged_once(self) -> None:
        self.moves += [(1.02, 3, 60)]
        for _ in range(3):
            self.says("start after to stand")
