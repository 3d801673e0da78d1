"""The tables of the drivers, with stations that behave as other real ones do."""
import random
import time

from .common import parsed, rows, until
from .stations import QUIET, Drives, Hands, Losses, StationCase
from .test_dcc_ex import DccExCase
from .test_z21 import Z21Case


class PowerGoes(DccExCase):
    """The table of a DCC-EX: its main track's power goes, in its words, and is not on again by itself."""

    def rests_for_long(self, why):
        self.rests(why)
        time.sleep(3 * QUIET)
        self.assertEqual((self.station.power, self.station.cabs[3][0] > 0), (0, False))
        self.assertIn(f"100 INFO 1 POWER OFF {why}".rstrip(), rows(self.server.port))

    def test_a_cable_that_was_off(self):
        """The station has gone on, with its power on: what it answers then is no button that somebody has pressed."""
        self.station.unplug()
        self.has("100 INFO 1 POWER OFF no station")
        self.station.plug()
        self.rests_for_long("")
        self.drives()

    def test_the_programming_track_alone_has_power(self):
        self.station.switch(0, 1)
        self.rests_for_long("station says off")
        self.drives()

    def test_a_short_circuit_in_each_of_its_words(self):
        from simulated_station import SHORTS
        for says in SHORTS.values():
            self.station.overload(says)
            self.rests_for_long("overload")
            self.drives()


class DccEx5(PowerGoes):
    named = "dcc_ex_5"

    def test_a_function_that_has_no_row(self):
        """Its report has the speed nonetheless."""
        self.settles()
        self.station.hand(3, speed=45, f31=1)
        self.has("100 INFO 1 GL 3 1 45 126")


class DccEx4(Losses, Hands, PowerGoes):
    """It tells its power before its banner, and reports also what changes nothing."""
    named = "dcc_ex_4"
    behaves = dict(version=4, echoes=True)


class DccEx52(Drives, Losses, PowerGoes):
    """It tells the power of each track."""
    named = "dcc_ex_52"
    behaves = dict(version=5.2)


class LosesAll(StationCase):
    """The table of a line that loses all for a moment."""

    def test_a_speed_that_was_lost_and_a_stop_behind_it(self):
        """The stop waits for nothing: the train never begins to move."""
        self.throttle.order("SET 1 GL 3 1 0 28")
        self.track(lambda s: s.cabs[3] == (0, 1), "it stands")
        time.sleep(QUIET)
        begun, self.station.loses = len(self.station.moves), 1
        self.throttle.order("SET 1 GL 3 1 14 28")
        time.sleep(0.15)
        self.throttle.order("SET 1 GL 3 1 0 28")
        time.sleep(0.15)
        self.station.loses = 0
        time.sleep(3 * QUIET)
        self.assertEqual([move for move in self.station.moves[begun:] if move[1] == 3], [])
        self.assertEqual(self.station.cabs[3], (0, 1))


class InTheEnd(StationCase):
    """The table of a line that `spoils` commands: what the station does nonetheless is in the registry in the end."""
    spoils: dict[str, float] = {}

    def test_the_track_is_the_registry_in_the_end(self):
        cabs, draw = range(11, 17), random.Random(1)
        self.throttle.order(*[f"INIT 1 GL {cab} N 1 126 5" for cab in cabs])
        vars(self.station.trouble).update(self.spoils)
        for _ in range(300):
            self.throttle.order(f"SET 1 GL {draw.choice(cabs)} 1 {draw.choice((0, draw.randint(1, 126)))} 126")
            time.sleep(0.01)
        vars(self.station.trouble).update(dict.fromkeys(self.spoils, 0.0))
        self.track(lambda s: self.commanded() == {cab: speed for cab, (speed, _) in s.cabs.items() if speed > 0},
                   "the track is the registry", 10)
        time.sleep(QUIET)
        self.assertEqual(self.commanded(), {cab: speed for cab, (speed, _) in self.station.cabs.items() if speed > 0})

    def commanded(self):
        """The speeds of 126 of the locomotives that drive, by the registry."""
        table = parsed(rows(self.server.port)).items()
        return {key[2]: -(-row.v * 126 // row.v_max) for key, row in table if key[1::2] == ("GL", "does") and row.v}


class DccExAtAMega(Drives, DccExCase):
    """It has 64 bytes of input, and what does not fit is lost."""
    named = "dcc_ex_at_a_mega"
    behaves = dict(room=64)

    def test_much_at_once(self):
        """Nothing is lost, and the track is the registry."""
        cabs = range(1001, 1021)
        self.throttle.flood([f"INIT 1 GL {cab} N 1 126 5" for cab in cabs])
        for speed in (100, 126):
            self.throttle.flood([f"SET 1 GL {cab} 1 {speed - cab % 20} 126 1 {speed % 4 // 2}" for cab in cabs])
            self.track(lambda s: all(s.cabs.get(cab) == (speed - cab % 20, 1) for cab in cabs), "all drive", 10)
        self.assertEqual(self.station.lost, 0)


class DccExWithLostCommands(Drives, Losses, LosesAll, DccExCase):
    """Its line loses one command in ten. A turnout is told once, since no station reports it."""
    named = "dcc_ex_with_lost_commands"
    behaves = dict(loses=0.1)
    test_turnouts_and_sensors = test_a_turnout_lies_as_the_port_that_was_set_last = None

    def test_an_emergency_stop_of_one(self):
        """It is made though its command is lost, also if a 0 follows at once, by which a train brakes slowly."""
        self.station.loses = 0.4
        for _ in range(15):
            self.throttle.order("SET 1 GL 3 1 14 28")
            self.track(lambda s: s.cabs[3] == (63, 1), "it drives", 5)
            begun = len(self.station.log)
            self.throttle.order("SET 1 GL 3 2 0 28", "SET 1 GL 3 1 0 28")
            self.track(lambda s: self.commands("t 3 -1", begun), "it makes the stop", 5)
            self.track(lambda s: s.cabs[3] == (0, 1), "it stands", 5)


class DccExWithTurnedBits(InTheEnd, DccExCase):
    """Its line turns a bit of one command in ten. One that is right nonetheless does what a hand throttle could do."""
    named = "dcc_ex_with_turned_bits"
    spoils = dict(turns=0.1)


class Z21WithDoubles(Drives, Losses, Hands, LosesAll, Z21Case):
    """One datagram in ten is lost, and one in five comes twice."""
    named = "z21_with_doubles"
    behaves = dict(doubles=0.2)

    def test_many_emergency_stops_beside_lost_datagrams(self):
        """None of those that are stopped moves again, though the station keeps speeds while it stops all."""
        cabs = range(11, 21)
        self.throttle.order(*[f"INIT 1 GL {cab} N 1 28 0" for cab in cabs])
        for _ in range(12):
            self.station.loses = 0
            self.throttle.order("SET 1 POWER ON", *[f"SET 1 GL {cab} 1 14 28" for cab in cabs])
            self.track(lambda s: s.power and all(s.cabs.get(cab) == (63, 1) for cab in cabs), "all drive")
            time.sleep(QUIET)
            self.station.loses, begun = 0.1, len(self.station.moves)
            self.throttle.flood([f"SET 1 GL {cab} 2 0 28" for cab in cabs])
            self.track(lambda s: all(s.cabs[cab][0] < 1 for cab in cabs), "all stand")
            time.sleep(QUIET)
            moved = self.station.moves[begun:]
            stood = {cab: moment for moment, cab, speed in reversed(moved) if not speed}
            self.assertEqual([move for move in moved if move[1] in cabs and move[2] and move[0] > stood[move[1]]], [])


class Z21WithShuffles(InTheEnd, Z21Case):
    """One datagram in ten comes behind others: one that is late does what a hand throttle could do."""
    named = "z21_with_shuffles"
    spoils = dict(shuffles=0.1)

    def test_a_speed_that_comes_behind_a_stop(self):
        """It is no hand's: the train stands in the end, and its row says so. A STOP ALL is no other stop."""
        for turn in range(6):
            self.station.trouble.shuffles = 0
            until(self.drives_again, "it drives")
            self.station.trouble.shuffles = 0.5
            self.throttle.order("SET 1 GL 3 1 20 28")
            time.sleep(0.02)
            self.throttle.order(stop := ("SET 1 GL 3 2 0 28", "SET 1 POWER ON stop all")[turn % 2])
            time.sleep(2 * QUIET)
            self.track(lambda s: s.cabs[3][0] <= 0 and not self.commanded(), stop, 10)

    def drives_again(self):
        """Whether it drives, once it is commanded to: a report of before may have put it to rest."""
        self.throttle.order("SET 1 POWER ON", "SET 1 GL 3 1 14 28")
        time.sleep(QUIET)
        return self.station.power and self.station.cabs[3] == (63, 1)


class Z21Start(Z21Case):
    """It is locked: it answers, and does not drive."""
    named = "z21_start"

    def test_what_is_not_driven_is_told(self):
        self.station.locked = True
        self.throttle.order("SET 1 GL 3 1 20 28")
        until(lambda: "confirm" in self.driver.told(), "it is told", 10)
