"""What the cases of drivers share: a driver with a simulated station, and the table of cases that each driver passes.

The log of a simulated station has what changed the track in the words of DCC-EX, and its cabs have 126 steps.
"""
import itertools
import os
import re
import signal
import time
from pathlib import Path
from typing import Any

from .common import WAIT, Case, Session, connects, free_port, is_full, rows, sessions, until
from .test_web import Events

STANDS = "100 INFO 1 GL 3 1 0 "
QUIET = 0.4  # seconds for which nothing comes


class StationCase(Case):
    """`opens` gives the simulated station, which behaves as `behaves` says; `where` is the driver's word for it, and
    `greeting` what it says of it. `named` is what the names of its cases begin with, if not with the program's.

    `top` is the number of steps in which locomotive 3 drives there, and `slowest` the first of them, of 126.
    """
    words = ("--patience", 0.5, "--silence", 1.5, "--turnout-pace", 20)
    where = ""
    greeting = ""
    top = 126
    slowest = 1
    behaves: dict[str, Any] = {}
    station: Any

    def opens(self):
        raise NotImplementedError

    def setUp(self):
        super().setUp()
        self.station = self.opens()
        self.start()
        self.throttle.order("INIT 1 GL 3 N 1 28 5")
        self.drives()

    def tearDown(self):
        self.assertEqual(self.station.faults, [])
        self.station.unplug()

    def start(self, station=None, *words):
        """Starts the driver, and waits until it has found the server and the station."""
        words = "--station", station or self.where, *self.words, *words
        self.driver = self.starts(f"{self.program}.py", *words, port=self.way.port)
        self.joins()

    def joins(self):
        found = f"server: joined(.|\n)*station: {self.greeting}|station: {self.greeting}(.|\n)*server: joined"
        until(lambda: re.search(found, self.driver.told()), "server and station are found")
        time.sleep(QUIET)  # it may have told that there is no station yet
        self.lacks("100 INFO 1 POWER ON", "100 INFO 1 POWER OFF no station", "100 INFO 1 GL 3 1 14")

    def joins_again(self):
        """Has the driver lose its panel, and waits until the driver has taken in a new listing: later changes come
        behind."""
        joined = self.driver.told().count("server: joined")
        self.way.cut(), self.way.free()
        until(lambda: self.driver.told().count("server: joined") > joined, "it has joined again")
        self.goes_on()

    def goes_on(self):
        """Has the driver throw a turnout, behind all other commands."""
        lies = 1 - self.station.turnouts.get(99, 0)
        self.throttle.ask("INIT 1 GA 99 N")
        self.throttle.order(f"SET 1 GA 99 {lies} 1 -1")
        self.track(lambda s: s.turnouts.get(99) == lies, "it goes on")

    def restarts(self, *words):
        """Starts the driver anew with these words too."""
        self.driver.end()
        self.start(None, *words)
        self.drives()

    def drives(self):
        """Somebody switches the power on, and drives locomotive 3."""
        self.throttle.order("SET 1 POWER ON", "SET 1 GL 3 1 14 28 1 0 1")
        self.track(lambda s: (s.power, s.cabs.get(3), self.functions()) == (1, (63, 1), {(3, 0), (3, 2)}), "it drives")

    def track(self, true, what, seconds=WAIT):
        until(lambda: true(self.station), what, seconds)

    def functions(self):
        return {key for key, value in self.station.functions.copy().items() if value}

    def commands(self, begin, since=0):
        """Returns what the station was told that begins so, but for questions how a locomotive drives."""
        told = [text for _, text in self.station.log[since:] if text.startswith(begin)]
        return [text for text in told if not re.fullmatch(r"t \d+", text)]

    def dies(self):
        """The driver's computer fails: not even its last words are said."""
        for child in Path(f"/proc/{self.driver.pid}/task/{self.driver.pid}/children").read_text().split():
            os.kill(int(child), signal.SIGKILL)
        self.driver.end(signal.SIGKILL)

    def rests(self, *whys):
        """The loss is told, and nothing starts by itself: power stays off, and locomotive 3 stands."""
        power = {f"100 INFO 1 POWER OFF {why}".rstrip() for why in whys}
        until(lambda: power & set(rows(self.server.port)), power)
        self.has(STANDS)
        self.track(lambda s: s.power == 0 and s.cabs.get(3, (0, 1))[0] <= 0, "it rests")
        begun = len(self.station.log)
        time.sleep(QUIET)
        self.assertEqual([text for _, text in self.station.log[begun:] if re.match(r"1$|t \d+ [1-9]", text)], [])
        self.assertTrue(self.station.power == 0 and self.station.cabs.get(3, (0, 1))[0] <= 0)


class Drives(StationCase):
    """The table: what is put on the track."""

    def test_speeds_and_functions(self):
        for command, cab in [("SET 1 GL 3 0 28 28", (126, 0)), ("SET 1 GL 3 0 1 1000", (self.slowest, 0)),
                             ("SET 1 GL 3 0 28 0", (126, 0)), ("SET 1 GL 3 2 0 28", (-1, 0)),
                             ("SET 1 GL 3 1 0 28 0 0 0", (0, 1)), ("SET 1 GL 3 1 14 28", (63, 1))]:
            self.throttle.order(command)
            self.track(lambda s: s.cabs[3] == cab, command)
        self.track(lambda s: self.functions() == set(), "functions off")
        self.throttle.order("SET 1 POWER OFF")
        self.track(lambda s: s.power == 0, "power off")
        self.throttle.order("INIT 1 GL 10239 N 2 126 29", "SET 1 GL 10239 1 99 126 " + " ".join("1" * 29))
        self.track(lambda s: s.cabs.get(10239) == (99, 1) and len(self.functions()) == 29, "29 functions")
        self.throttle.order("INIT 1 GL 10239 N 2 126 2")
        self.track(lambda s: s.cabs[10239] == (0, 1) and not self.functions(), "made anew with fewer: stands, all off")
        self.throttle.order("SET 1 GL 10239 1 99 126 1")
        self.track(lambda s: s.cabs[10239] == (99, 1), "drives")
        self.throttle.order("TERM 1 GL 10239")
        self.track(lambda s: s.cabs[10239] == (0, 1) and not self.functions(), "TERM: stands, functions off")

    def test_speeds_at_each_number_of_steps(self):
        """Each step of the first and the last of a decoder is one of the station."""
        for address, steps in (14, 14), (128, 28), (9999, 126):
            self.throttle.order(f"INIT 1 GL {address} N 1 {steps} 0")
            for v in (1, 2, steps // 2, steps - 1, steps):
                self.throttle.order(f"SET 1 GL {address} {v % 2} {v} {steps}")
                self.track(lambda s: s.cabs.get(address) == (-(-v * 126 // steps), v % 2), f"{v} of {steps}")

    def test_turnouts_and_sensors(self):
        self.throttle.order("INIT 1 GA 5 N")
        time.sleep(0.1)
        self.assertEqual(self.station.turnouts, {})
        for commands, lies in [(["SET 1 GA 5 1 1 30"], 1), (["SET 1 GA 5 0 1 30"], 0), (["SET 1 GA 5 1 1 -1"], 1),
                               (["SET 1 GA 5 1 0 -1", "SET 1 GA 5 0 1 -1"], 0)]:
            self.throttle.order(*commands)
            self.track(lambda s: s.turnouts.get(5) == lies, commands)
            time.sleep(0.08)
        self.assertEqual(self.commands("a "), ["a 5 1", "a 5 0", "a 5 1", "a 5 0"])
        self.station.sensor(150, 1)  # the bus has no such sensor
        for value in (1, 0, 1):
            self.station.sensor(7, value)
            self.has(f"100 INFO 1 FB 7 {value}")
        self.restart()
        self.has("100 INFO 1 FB 7 1")

    def test_a_turnout_lies_as_the_port_that_was_set_last(self):
        """Also if an older pulse ends later."""
        self.throttle.order("INIT 1 GA 5 N", "SET 1 GA 5 0 1 600", "SET 1 GA 5 1 1 100")
        self.track(lambda s: s.turnouts.get(5) == 1, "it is thrown")
        self.has("100 INFO 1 GA 5 1 0", "100 INFO 1 GA 5 0 0")
        time.sleep(QUIET)
        self.assertEqual(self.commands("a ")[-1], "a 5 1")

    def test_an_emergency_stop_reaches_the_station_though_another_row_follows(self):
        """What it confirms late is told again, also as it drives."""
        for n in range(20):
            self.throttle.order("SET 1 GL 3 0 14 28")
            self.track(lambda s: self.commands("t 3")[-1] == "t 3 63 0", "it drives")
            begun = len(self.station.log)
            self.throttle.flood(["SET 1 GL 3 2 0 28", "SET 1 GL 3 0 0 28"])
            self.track(lambda s: self.commands("t ", begun)[-1] == "t 3 0 0", "it stands")
            told = [text for text, _ in itertools.groupby(self.commands("t ", begun))]
            self.assertEqual(told[told[:1] == ["t 3 63 0"]:], ["t 3 -1 0", "t 3 0 0"])

    def test_many_emergency_stops_stop_nobody_else(self):
        """They are no STOP ALL: each is told by itself."""
        self.throttle.order(*[f"INIT 1 GL {n} N 1 28 0" for n in range(11, 31)],
                            *[f"SET 1 GL {n} {n % 2} 14 28" for n in range(11, 31)])
        self.track(lambda s: all(s.cabs.get(n) == (63, n % 2) for n in range(11, 31)), "all drive")
        begun = len(self.station.log)
        self.throttle.flood([f"SET 1 GL {n} {mode} 0 28" for n in range(11, 31) for mode in (2, n % 2)])
        self.track(lambda s: all(s.cabs[n] == (0, n % 2) for n in range(11, 31)), "all stand")
        self.assertEqual((self.commands("!", begun), self.commands("t 3 ", begun)), ([], []))
        self.assertEqual(self.station.cabs[3], (63, 1))


class Losses(StationCase):
    """The table: nothing starts by itself, and the registry says what the track does."""

    def test_a_station_that_is_reset_unplugged_or_hangs(self):
        self.station.restart()
        self.rests("station was reset")
        self.drives()
        self.station.unplug()
        self.has("100 INFO 1 POWER OFF no station", STANDS)
        self.throttle.order("SET 1 POWER ON", "SET 1 GL 3 1 14 28")  # while there is none, nobody can drive
        self.has("100 INFO 1 POWER OFF no station", STANDS)
        self.station.boot = 0.5
        self.station.open()
        self.rests("")
        self.drives()
        self.station.stalled, self.station.boot = True, 0
        self.has("100 INFO 1 POWER OFF no station", STANDS)
        self.station.reset()
        self.station.stalled = False
        self.rests("")
        self.drives()

    def test_a_server_that_is_started_anew(self):
        joined = self.driver.told().count("started anew")
        self.restart()
        self.track(lambda s: s.power == 0 and s.cabs[3] == (0, 1) and not self.functions(), "as the registry says")
        until(lambda: self.driver.told().count("started anew") > joined, "it has joined")
        self.throttle.order("INIT 1 GL 3 N 1 28 5")
        self.rests("")
        self.drives()

    def test_a_server_that_is_away(self):
        self.server.stop()
        time.sleep(0.2)
        self.assertEqual(self.station.cabs[3], (63, 1))
        self.track(lambda s: s.cabs[3] == (0, 1) and s.power == 0, "no server: it stands after a while")

    def test_a_panel_that_is_lost_while_the_server_is_full(self):
        """The driver has kept a place for this: the driver goes on, and all drive on, though another took the panel's
        place."""
        self.restarts("--patience", WAIT)
        others = sessions(self.server.port, 60)
        until(lambda: is_full(self.server.port), "a throttle, the driver's three connections and 60 others are there")
        for count in (1, 2):
            begun = len(self.station.log)
            self.way.shut(), self.way.cut()
            others += sessions(self.server.port, 1)
            self.way.free()
            until(lambda: self.driver.told().count("server: joined, as before") == count, "it has joined again")
            self.throttle.order("SET 1 GL 3 1 28 28")
            self.track(lambda s: s.cabs[3] == (126, 1), "it drives as it is told")
            self.assertEqual([text for text in self.commands("", begun) if text[0] in "t!01"], ["t 3 126 1"])
            self.assertNotIn("the server is full", self.driver.told())
            self.throttle.order("SET 1 GL 3 1 14 28")
            self.track(lambda s: s.cabs[3] == (63, 1), "it drives as it did")
            gone = others.pop()
            gone.close()
            until(lambda: "416" in self.throttle.ask(f"GET 0 SESSION {gone.session}"), "another has left its place")
            until(lambda: is_full(self.server.port), "the driver keeps a place again")

    def test_the_driver_is_ended(self):
        self.assertEqual(self.driver.end(), 0)
        self.track(lambda s: s.cabs[3][0] <= 0 and s.power == 0, "SIGTERM: all stand")
        self.has("100 INFO 1 POWER OFF no station", STANDS)

    def test_the_terminal_of_the_driver_is_closed(self):
        self.assertEqual(self.driver.end(signal.SIGHUP), 0)
        self.track(lambda s: s.cabs[3][0] <= 0 and s.power == 0, "SIGHUP: all stand")
        self.has("100 INFO 1 POWER OFF no station", STANDS)

    def test_a_stop_of_all_that_cut_the_power(self):
        """What another had locked stands when power comes again, until somebody commands it anew."""
        other = Session(self.server.port)
        other.order("SET 1 LOCK GL 3 0")
        self.throttle.order("SET 1 POWER OFF stop all")
        self.track(lambda s: s.power == 0 and s.cabs[3] == (0, 1), "off, and told to stand")
        self.throttle.order("SET 1 POWER ON")
        self.track(lambda s: s.power == 1, "power is on")
        time.sleep(QUIET)
        self.assertEqual(self.station.cabs[3], (0, 1))
        self.has("100 INFO 1 GL 3 1 14 28")  # its row is its holder's
        other.order("SET 1 GL 3 1 14 28 0")
        self.track(lambda s: not s.functions[3, 0], "a light is no command to drive")
        self.assertEqual(self.station.cabs[3], (0, 1))
        other.order("SET 1 GL 3 1 14 28")
        self.track(lambda s: s.cabs[3] == (63, 1), "commanded anew")

    def test_power_off_by_somebody_and_on_again(self):
        """All drive on as they did."""
        self.throttle.order("SET 1 POWER OFF")
        self.track(lambda s: s.power == 0, "off")
        self.throttle.order("SET 1 POWER ON")
        self.track(lambda s: s.power == 1, "on")
        self.assertEqual(self.station.cabs[3], (63, 1))

    def test_a_station_that_says_off_or_on(self):
        self.station.switch(0)
        self.rests("station says off")
        self.station.switch(1)
        self.has("100 INFO 1 POWER ON")
        time.sleep(QUIET)
        self.assertEqual(self.station.cabs[3], (0, 1))
        self.drives()

    def test_an_overload(self):
        """Or a short circuit. A station that would try again by itself is told to stay off."""
        self.station.overload()
        self.rests("overload")
        self.drives()


class Hands(StationCase):
    """The table: what a hand throttle at the station does comes into the registry."""

    def setUp(self):
        super().setUp()
        self.settles()

    def step(self, speed):
        return f"{speed * self.top // 126} {self.top}"

    def test_a_hand_throttle_drives(self):
        for act, row in [(dict(speed=45), f"1 {self.step(45)} 1 0 1"),
                         (dict(speed=126, way=0), f"0 {self.step(126)} 1 0 1"),
                         (dict(f0=0, f1=1), f"0 {self.step(126)} 0 1 1"),
                         (dict(speed=0, way=0), f"0 {self.step(0)} 0 1 1"),
                         (dict(speed=0, way=1), f"1 {self.step(0)} 0 1 1"),
                         (dict(speed=self.slowest), f"1 {self.step(self.slowest)} 0 1 1"),
                         (dict(speed=-1), f"1 {self.step(0)} 0 1 1")]:
            begun = len(self.station.log)
            self.station.hand(3, **act)
            self.has(f"100 INFO 1 GL 3 {row}")
            time.sleep(0.1)
            self.assertEqual(self.commands("F", begun), [])
            told = ["t 3 0 1"] if act == dict(speed=-1) else []
            self.track(lambda s: self.commands("t", begun) == told, told)

    def test_what_a_hand_drives_is_made_drives_on_and_is_stopped_with_all(self):
        """A locomotive that the registry does not have is made once, and the station is told nothing of it until the
        stop."""
        self.station.loses, web = 0, free_port()
        self.starts("web.py", "--web", web)
        until(lambda: connects(web), "the page is there")
        page, panel = Events(web), Session(self.server.port, "INFO")
        begun = len(self.station.log)
        self.station.hand(77, speed=0, way=0)
        time.sleep(QUIET)
        self.lacks("101 INFO 1 GL 77")
        for speed in (39, 40):
            self.station.hand(77, speed=speed, way=0, f1=1)
        self.has("101 INFO 1 GL 77 N 1 126 29", "100 INFO 1 GL 77 0 40 126 0 1 0")
        time.sleep(QUIET)
        self.assertEqual([text for text in self.commands("", begun) if re.match(r"!|\w 77 ", text)], [])
        until(lambda: page.rows[1, "GL", 77, "does"]["v"] == 40, "the page shows it")
        self.assertEqual(page.post("", "/stop"), "200 OK")
        self.has("100 INFO 1 GL 77 0 0 126 0 1 0")
        self.track(lambda s: s.cabs[77] == (0, 0), "it stands")
        self.assertIn(self.commands("t 77", begun), (["t 77 -1 0", "t 77 0 0"], ["t 77 0 0"]))  # "!" stops it too
        told = panel.hears_until(b" 100 INFO 1 GL 77 0 0 126 0 1" + 27 * b" 0" + b"\n")
        self.assertEqual((told.count(b" 101 INFO 1 GL 77 "), told.count(b" 100 INFO 1 GL 77 2 0 126 ")), (1, 1))

    def test_what_a_hand_drives_and_the_server_does_not_make(self):
        """An address above gl_max is told once. A locomotive of another protocol is left unchanged, and told to stand
        if somebody makes it anew as one that the station drives."""
        self.station.loses = 0
        self.throttle.order("INIT 1 GL 77 M 1 28 5")
        for speed in (40, 41):
            self.station.hand(10240, speed=speed)
            self.station.hand(77, speed=speed)
            self.station.hand(3, speed=2 * speed)
            self.has(f"100 INFO 1 GL 3 1 {self.step(2 * speed)}")
        told = "STOP ALL does not reach locomotive 10240, which a hand throttle drives: the server says 412"
        self.assertEqual((self.driver.told().count(told), self.driver.told().count("10240")), (1, 1))
        self.assertEqual((self.station.cabs[10240], self.station.cabs[77]), ((41, 1), (41, 1)))
        self.has("101 INFO 1 GL 77 M 1 28 5", "100 INFO 1 GL 77 1 0 0")
        self.throttle.order("INIT 1 GL 77 N 1 126 5")
        self.stands_and_is_driven("it stands, as its new row says")

    def test_what_a_hand_begins_to_drive_while_the_server_is_away(self):
        """It stands when the server is back."""
        self.station.loses = 0
        joined = self.driver.told().count("started anew")
        self.server.stop()
        self.station.hand(77, speed=40)
        self.restart()
        until(lambda: self.driver.told().count("started anew") > joined, "it has joined")
        self.stands_and_is_driven("it stands")

    def stands_and_is_driven(self, why):
        """Locomotive 77 was told to stand, and then a hand drives it."""
        self.track(lambda s: s.cabs[77] == (0, 1), why)
        time.sleep(QUIET)  # the station says so first
        self.station.hand(77, speed=41)
        self.has("100 INFO 1 GL 77 1 41 126")

    def test_both_drive_at_once_and_come_to_rest(self):
        self.station.late = 0.1
        for v in range(1, 40):
            self.throttle.order(f"SET 1 GL 3 1 {v} 126")
            self.station.hand(3, speed=126 - v)
            time.sleep(0.02)
        time.sleep(0.5)
        until(lambda: self.agree(), "both say the same")
        begun = len(self.station.log)
        time.sleep(1)
        self.assertEqual(self.commands("t", begun), [])
        self.assertTrue(self.agree())

    def agree(self):
        row, = [row for row in rows(self.server.port) if row.startswith("100 INFO 1 GL 3 ")]
        mode, v, v_max = map(int, row.split()[5:8])
        speed, way = self.station.cabs[3]
        return (speed * self.top // 126, way) == (-(-v * self.top // v_max), mode)

    def test_what_another_has_locked_is_told_its_row_again_but_a_stop_stays(self):
        holder = Session(self.server.port)
        holder.order("SET 1 LOCK GL 3 0")
        self.station.hand(3, speed=99)
        self.track(lambda s: s.cabs[3] == (63, 1), "its holder drives it")
        for speed in (-1, 0):
            self.settles()  # else what is told again takes the place of an emergency stop by a 0
            self.station.hand(3, speed=speed)
            time.sleep(QUIET)
            self.assertEqual(self.station.cabs[3], (speed, 1))
            self.joins_again()  # all is compared anew
            time.sleep(QUIET)
            self.assertLessEqual(self.station.cabs[3][0], 0)
            holder.order("SET 1 GL 3 1 14 28")
            self.track(lambda s: s.cabs[3] == (63, 1), "its holder commands it anew")
