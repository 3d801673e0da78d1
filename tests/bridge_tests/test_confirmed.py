"""What a station misses, and what it does not confirm: it is told again, and every display is told."""
import asyncio
import signal
import time
import types
import unittest
from unittest import mock

from .common import LAYOUT, Session, free_port, rows, until
from .stations import QUIET, StationCase
from .test_dcc_ex import DccExCase
from .test_z21 import Z21Case


class Telling(StationCase):
    """The table that both drivers pass."""

    def test_a_locomotive_that_does_not_confirm_is_told_on_every_display(self):
        """After 2 s; and that it confirms again. Its text does not switch a power on that went off meanwhile."""
        self.restarts("--silence", 1000)
        panel = Session(self.server.port, "INFO")
        self.goes_deaf(True)
        self.throttle.order("SET 1 GL 3 1 28 28")
        self.has("100 INFO 1 POWER ON does not confirm: 3")
        self.assertIn("the station does not confirm: 3", self.driver.told())
        self.goes_deaf(False)
        self.has("100 INFO 1 POWER ON confirms again")
        self.track(lambda s: s.cabs[3] == (126, 1), "it is told again")
        self.throttle.order("SET 1 POWER OFF")
        self.track(lambda s: s.power == 0, "off")
        self.throttle.order("SET 2 FB 16 1")
        self.assertNotIn(b" 1 POWER OFF does", panel.hears_until(b" 2 FB 16 1\n"))


class DccExTelling(Telling, DccExCase):
    layout = LAYOUT.replace("10239", "9999")

    def goes_deaf(self, is_deaf):
        self.station.trouble.loses = 1 if is_deaf else 0

    def differs(self, addresses):
        """Returns what does not do at the station what its row says."""
        said = {int(row.split()[4]): row.split() for row in rows(self.server.port) if row.startswith("100 INFO 1 GL ")}
        wanted = {n: (int(said[n][6]) if said[n][5] != "2" else -1, int(said[n][5])) for n in addresses}
        return {n: (cab, wanted[n]) for n in addresses if (cab := self.station.cabs.get(n, (0, 1)))[0] != wanted[n][0]}

    def test_lost_and_damaged_commands_are_told_again(self):
        """One in twenty. An emergency stop of one locomotive is among them."""
        for trouble in (dict(loses=0.05), dict(turns=0.05)):
            self.station.trouble.loses = trouble.get("loses", 0)
            self.station.trouble.turns = trouble.get("turns", 0)
            addresses = range(11, 17)
            self.throttle.order(*[f"INIT 1 GL {n} N 1 126 5" for n in addresses])
            for v in range(1, 100):
                self.throttle.order(f"SET 1 GL {11 + v % 6} {v % 2} {v} 126 {v % 2}")
            until(lambda: not self.differs(addresses), f"{trouble}: the track is the registry")
            for n in 2 * [*addresses]:
                self.throttle.order(f"SET 1 GL {n} 1 60 126")
                self.track(lambda s: s.cabs[n] == (60, 1), "it drives")
                self.throttle.order(f"SET 1 GL {n} 2 0 126")
                self.track(lambda s: s.cabs[n][0] == -1, f"{trouble}: it makes an emergency stop", 5)
        self.station.trouble.loses = self.station.trouble.turns = 0

    def test_a_station_with_an_input_of_64_bytes_loses_none(self):
        """Twenty locomotives of four digits, as fast as they are told, and then all stand."""
        self.station.room = 64
        addresses = range(1001, 1021)
        self.throttle.flood([f"INIT 1 GL {n} N 2 126 5" for n in addresses])
        for v in range(1, 4):
            self.throttle.flood([f"SET 1 GL {n} {v % 2} {100 + v} 126 {v % 2}" for n in addresses])
        until(lambda: not self.differs(addresses), "the track is the registry")
        self.throttle.flood([f"SET 1 GL {n} 2 0 126" for n in addresses])
        self.track(lambda s: all(s.cabs[n][0] == -1 for n in addresses), "all stop")
        self.assertEqual(self.station.lost, 0)

    def test_a_cable_that_was_off_switches_no_power_on(self):
        """The station has a supply of its own, and its power is still on. It says so as it is asked, in the order of
        its version."""
        for version in (4, 5, 5.2):
            self.drives()
            self.station.version = version
            greeted = self.driver.told().count("station: iDCC")
            self.station.unplug()
            self.has("100 INFO 1 POWER OFF no station")
            self.station.plug()
            until(lambda: self.driver.told().count("station: iDCC") > greeted, "it is back")
            self.rests("")

    def test_the_power_of_the_main_track(self):
        """Before version 5.2 a lone PROG says that it is off; from then on A is the main track."""
        for version, main, prog, is_on in ((5, 0, 1, False), (5, 1, 0, True), (5.2, 0, 1, False), (5.2, 1, 0, True),
                                           (5.2, 1, 1, True)):
            self.drives()
            self.station.version = version
            self.station.switch(main, prog)
            if is_on:
                time.sleep(QUIET)
                self.assertEqual((self.station.cabs[3], self.station.power), ((63, 1), 1), (version, main, prog))
                self.has("100 INFO 1 POWER ON")
            else:
                self.rests("station says off")

    def test_a_short_circuit_however_it_is_told(self):
        from simulated_station import SHORTS
        for text in SHORTS.values():
            self.drives()
            self.station.overload(text)
            self.rests("overload")

    def test_what_a_station_kept_or_reported_in_vain_is_asked_for(self):
        """The driver was killed, and a function was switched meanwhile. And a hand's report was lost."""
        self.driver.end(signal.SIGKILL)
        self.throttle.order("SET 1 GL 3 1 0 28 0 0 1")
        self.start()
        self.track(lambda s: self.functions() == {(3, 2)}, "it is switched")
        self.has("100 INFO 1 GL 3 1 0 28 0 0 1")
        self.drives()
        self.settles()
        report, self.station.report = self.station.report, lambda text: None
        self.station.hand(3, speed=45)
        self.station.report = report
        self.has("100 INFO 1 GL 3 1 45 126")

    def test_what_a_station_kept_is_asked_for_until_it_says_that(self):
        """The line loses the first question."""
        self.driver.end(signal.SIGKILL)
        self.throttle.order("SET 1 GL 3 1 0 28 0 0 0")
        take, lost = self.station.take, []
        self.station.take = lambda command: lost.append(0) if command == b"<t 3" and not lost else take(command)
        self.start()
        self.track(lambda s: lost and not self.functions(), "they are switched off", 20)

    def test_what_a_station_kept_stands_though_the_line_lost_its_stops(self):
        """Its cable was off, and it drives on. No hand drives it: as somebody switches the power on, it stands."""
        self.station.unplug()
        self.has("100 INFO 1 POWER OFF no station", "100 INFO 1 GL 3 1 0 28")
        take = self.station.take
        self.station.take = lambda command: None if command == b"<!" else take(command)
        self.station.plug()
        self.track(lambda s: s.cabs[3] == (0, 1), "it is told to stand by itself")
        self.station.take = take
        self.rests("")
        self.throttle.order("SET 1 POWER ON")
        self.track(lambda s: s.power == 1, "power is on")
        time.sleep(3 * QUIET)
        self.assertEqual(self.station.cabs[3], (0, 1))
        self.has("100 INFO 1 GL 3 1 0 28")

    def test_a_damaged_report_of_what_is_not_there(self):
        """It tells of a locomotive beyond those that the server takes: a STOP ALL is confirmed, and told no more."""
        self.station.say("<l 10000 0 200 0>\r\n")
        until(lambda: "locomotive 10000, which a hand throttle drives" in self.driver.told(), "it is heard")
        self.throttle.order("SET 1 POWER ON stop all")
        self.has("100 INFO 1 POWER ON all stood")
        begun = len(self.station.log)
        self.throttle.order("SET 1 GL 3 1 14 28")
        self.track(lambda s: s.cabs[3] == (63, 1), "it drives")
        time.sleep(QUIET)
        self.assertEqual((self.commands("!", begun), self.station.cabs[3]), ([], (63, 1)))

    def test_the_last_functions_do_not_hide_a_speed(self):
        """With F31 on, the station prints a number below 0, also as it is asked."""
        self.settles()
        self.station.table[3] = 200, -2147483643
        self.station.say(self.station.slot(3))
        self.has("100 INFO 1 GL 3 1 71 126 1 0 1")


class Z21Telling(Telling, Z21Case):
    def goes_deaf(self, is_deaf):
        self.station.loses, self.station.deaf = 0, is_deaf

    def test_power_waits_for_the_stops(self):
        """After a STOP ALL at which datagrams were lost, no train drives for a moment."""
        for n in range(11, 21):
            self.throttle.order(f"INIT 1 GL {n} N 1 126 5")
        for loses in (0.1, 0.3):
            self.station.loses = 0
            self.throttle.order("SET 1 POWER ON", *[f"SET 1 GL {n} 1 60 126" for n in range(11, 21)])
            self.track(lambda s: s.power and all(s.cabs.get(n) == (60, 1) for n in range(11, 21)), "all drive")
            self.station.loses, begun = loses, time.monotonic()
            self.throttle.order("SET 1 POWER ON stop all")
            self.has("100 INFO 1 POWER ON all stood")
            self.track(lambda s: s.power and all(s.cabs[n][0] <= 0 for n in range(11, 21)), "power is on again")
            starts = [move for move in self.station.moves if move[0] > begun and move[1] and move[2]]
            self.assertEqual(starts, [], loses)

    def test_a_station_that_is_locked(self):
        """As a z21start is without its code."""
        self.station.loses, self.station.locked = 0, True
        self.throttle.order("SET 1 GL 3 1 28 28")
        self.has("100 INFO 1 POWER ON does not confirm: 3")
        until(lambda: "a z21start that is locked" in self.driver.told(), "it is told why")


class OfAwaited(unittest.TestCase):
    """What is told again, and when, as the station's reports come."""
    program = "awaited"

    def test_what_is_told_again(self):
        from srcp_bridges.stations.awaited import Awaited
        awaited, cab = Awaited(0.25), ("cab", 3)
        awaited.tell(cab, (60, 1), 10)
        self.assertEqual((awaited.confirm(cab, (59, 1)), awaited.take_late(10.2)), (False, []))
        self.assertEqual(awaited.take_late(10.3), [(cab, (60, 1))])
        self.assertEqual((awaited.take_late(10.3), awaited.silent(13)), ([], frozenset()))
        awaited.tell(cab, (0, 1), 10.4)
        self.assertEqual((awaited.stops(12), awaited.silent(12), awaited.silent(12.1)), (True, frozenset(), {3}))
        self.assertFalse(awaited.stops(12.1))  # the power does not wait for who never confirms
        awaited.has_slept(20)
        self.assertEqual((awaited.silent(21), awaited.take_late(20.2)), (frozenset(), []))
        self.assertTrue(awaited.confirm(cab, (0, 1)))
        self.assertEqual((awaited.confirm(cab, (0, 1)), awaited.parts, awaited.since), (False, {}, {}))
        awaited.tell(cab, (0, 1), 25)
        was = awaited.is_emergency(cab)
        awaited.tell(cab, (-1, 1), 25)
        self.assertEqual((was, awaited.is_emergency(cab), awaited.confirm(cab, (-1, 1)), awaited.is_emergency(cab)),
                         (False, True, True, False))
        awaited.tell(("power",), 1, 30)
        awaited.hasten()
        self.assertEqual(awaited.take_late(30), [(("power",), 1)])

    def test_what_fits_into_the_input(self):
        from srcp_bridges.stations.awaited import Ahead
        ahead = Ahead(48, 27, 16)
        fits = []
        for _ in range(5):
            fits.append((ahead.fits(False), ahead.fits(True)))
            ahead.tell(12)
        self.assertEqual(fits, [(True, True), (True, True), (False, True), (False, True), (False, False)])
        ahead.has_read()
        self.assertTrue(ahead.fits(False))


class OfDccEx(unittest.IsolatedAsyncioTestCase):
    """What a DCC-EX is told and asked, as its reports come. No time passes here but by `now`."""
    program = "dcc_ex"
    cab = "cab", 3

    async def asyncSetUp(self):
        from dcc_ex import DccEx
        from srcp_bridges.stations.station import words_of_driver
        asked, loop = words_of_driver("").parse_args([]), asyncio.get_running_loop()
        asked.station, self.now = "/dev/ttyACM0", 10.0
        loop.set_debug(False)  # which looks at the clock
        clock = mock.patch.object(loop, "time", lambda: self.now)
        clock.start()
        self.addCleanup(clock.stop)
        self.station = DccEx(asked)

    async def test_what_it_refuses_is_told_again_at_once(self):
        """It does not say which command that was."""
        self.station.telling(self.cab, (60, 1))
        self.station.tell_again()
        awaited = [*self.station.awaited.parts]
        with mock.patch("dcc_ex.say") as say:
            self.station.take(b"<X>")
        self.station.tell_again()
        told = self.station.track.told.get(self.cab)
        self.assertEqual((awaited, [*self.station.awaited.parts], told), ([self.cab], [], (-1, None)))
        say.assert_called_once_with("station: refused a command")

    async def test_what_it_need_not_report_is_asked_for(self):
        """It reports what changes alone: not what it does already, nor what has come though its report was lost."""
        self.station.hands.reports.reported[self.cab] = 60, 1
        told = [self.station.command(self.cab, (60, 1)), self.station.command(self.cab, (61, 1))]
        self.station.telling(self.cab, (61, 1))
        self.now += 1
        self.station.tell_again()
        told.append(self.station.command(self.cab, (61, 1)))
        self.assertEqual(told, [b"<t 3 60 1>\n<t 3>\n", b"<t 3 61 1>\n", b"<t 3 61 1>\n<t 3>\n"])

    async def test_an_echo_of_the_power_is_no_button_however_late_it_is(self):
        """This program slept, and its last words have taken the power off. A button is one."""
        self.station.ready.set()
        due = []
        for told in (1, 0):
            self.station.telling(("power",), told)
            self.now += 100
            self.station.take(b"<p1>")
            due.append([*self.station.bus.orders.due])
            self.station.confirm(("power",), 0)
            self.station.take(b"<p0>"), self.station.take(b"<p1>")
            due.append([*self.station.bus.orders.due])
            self.station.bus.orders.due.clear()
        self.assertEqual(due, [[], [("power",)]] * 2)

    async def test_a_speed_of_0_behind_an_emergency_stop_that_is_late(self):
        """The stop is to be told again, and its report comes just then: what was commanded behind it is told."""
        told, bus = [], self.station.bus
        self.station.line = types.SimpleNamespace(write=told.append)
        self.station.ready.set()
        bus.mirror.here, bus.mirror.anew, bus.holds.station = True, False, True
        bus.mirror.take("1.000 101 INFO 1 GL 3 N 1 28 0")
        for row in "0 0 28", "0 14 28", "2 0 28", "0 0 28":
            bus.mirror.take(f"1.000 100 INFO 1 GL 3 {row}")
            self.station.tell_one()
        self.now += 1
        self.station.tell_again()
        self.station.take(b"<l 3 0 1 0>")
        self.station.tell_one()
        self.assertEqual(told, [b"<t 3 63 0>\n", b"<t 3 -1 0>\n", b"<t 3 0 0>\n<t 3>\n"])

    async def test_it_is_told_twice_to_stop_all_as_it_begins(self):
        """The line may lose one, and no driver would see what drives on that the registry does not have."""
        told = []
        self.station.line = types.SimpleNamespace(write=told.append)
        with mock.patch("srcp_bridges.stations.station.say"):
            self.station.take(b"<iDCC-EX V-5.4.0>")
        self.assertEqual(told, [b"<!>\n", b"<Q>\n", b"<!>\n"])


class Elsewhere(StationCase):
    """Two stations, each with its driver: neither tells of what the other drives."""
    program, greeting = "z21", "Z21"
    opens = Z21Case.opens
    layout = Z21Case.layout.replace('groups = ["GA", "FB"]', 'groups = ["POWER", "GA", "FB"]')

    def test_what_another_driver_drives_is_not_told_of(self):
        from simulated_z21 import Z21
        port = free_port()
        other = Z21(port)
        self.addCleanup(other.unplug)
        second = self.starts("z21.py", "--station", f"127.0.0.1:{port}", "--bus", 2, port=self.way.port)
        until(lambda: "server: joined" in second.told() and "station: Z21" in second.told(), "it has joined")
        time.sleep(1.2)  # each looks who else drives
        self.throttle.order("INIT 2 GA 5 N", "INIT 1 GA 7 N", "INIT 1 GL 9 M 1 28 0")
        until(lambda: "1 GL 9 (protocol M)" in self.driver.told(), "what nobody drives is told of")
        self.assertNotIn("GA 5", self.driver.told())
        self.assertNotIn("1 GA 7", second.told())
