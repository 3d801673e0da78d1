"""STOP ALL as one fact of the registry: what the drivers do with it, when they confirm it, and what displays say."""
import asyncio
import contextlib
import signal
import subprocess
import sys
import threading
import time
import types
import unittest

from .common import TOP, WAIT, Session, Way, connects, free_port, rows, until
from .phones import Panel, Phone
from .stations import QUIET, StationCase
from .test_dcc_ex import DccExCase
from .test_web import Events
from .test_z21 import Z21Case

MANY = range(11, 31)
UNSURE = "1 POWER: not confirmed: trains may drive"


class StopAll(StationCase):
    """The table that both drivers pass. `stopped_by_hand` is the power after the stop button of a hand throttle."""
    stopped_by_hand = ""

    def page(self, port=None):
        self.web = free_port()
        self.site = self.starts("web.py", "--web", self.web, port=port)
        until(lambda: connects(self.web), "the page is there")
        page = Events(self.web)
        until(lambda: page.rows.get((1, "GL", 3, "does"), {}).get("v") == 14, "it shows the train")
        return page

    def many(self, page=None):
        """Has twenty more drive."""
        self.throttle.order("SET 1 POWER ON", "SET 1 GL 3 1 14 28", *[f"INIT 1 GL {n} N 1 28 0" for n in MANY],
                            *[f"SET 1 GL {n} {n % 2} 14 28" for n in MANY])
        self.track(lambda s: all(s.cabs.get(n) == (63, n % 2) for n in MANY), "all drive")
        self.track(lambda s: (s.power, s.cabs[3]) == (1, (63, 1)), "all drive")
        if page:
            until(lambda: all(page.rows.get((1, "GL", n, "does"), {}).get("v") for n in MANY), "the page shows it")

    def starts_since(self, since):
        """Returns what began to move at the station since then."""
        moves = [(round(when - since, 2), cab, speed) for when, cab, speed, *_ in self.station.moves]
        return [move for move in moves if move[0] > 0 and move[1] and move[2]]

    def all_stand(self, what):
        self.track(lambda s: not s.power or all(speed <= 0 for speed, _ in s.cabs.copy().values()), what)

    def test_one_command_first_and_each_that_drove(self):
        """By its text alone: the driver stops all, confirms that, and sets the rows to rest that nobody else has."""
        self.many()
        begun = len(self.station.log)
        since = time.monotonic()
        loses, self.station.loses = self.station.loses, 0  # what is told first comes
        self.throttle.order("SET 1 POWER ON stop all")
        self.track(lambda s: [text for text in self.commands("", begun) if text != "#"], "it is told")
        self.station.loses = loses
        self.has("100 INFO 1 POWER ON all stood")
        self.all_stand("all stand as it says so")
        first = next(text for text in self.commands("", begun) if text != "#")
        self.assertIn(first, ("!", "0"))  # a Z21's stop of all
        for n in (*MANY, 3):
            self.has(f"100 INFO 1 GL {n} {n % 2} 0 28")
            self.track(lambda s: s.cabs[n] == (0, n % 2), "it stands as its row says")
            self.assertEqual({text.split()[2] for text in self.commands(f"t {n} ", begun)} - {"-1", "0"}, set())
        self.track(lambda s: s.power == 1, "power stays on")
        self.assertEqual(self.starts_since(since + 0.05), [])
        self.throttle.order("SET 1 GL 3 1 28 28")
        self.track(lambda s: s.cabs[3] == (126, 1), "a command that is newer")

    def test_it_holds_until_a_newer_command_to_drive(self):
        """A light is none, though its command has the speed of before."""
        self.throttle.flood(["SET 1 POWER ON stop all", "SET 1 GL 3 1 14 28 0 1 1"])
        self.has("100 INFO 1 POWER ON all stood", "100 INFO 1 GL 3 1 0 28 0 1 1")
        time.sleep(QUIET)
        self.assertLessEqual(self.station.cabs[3][0], 0)
        self.throttle.flood(["SET 1 POWER ON stop all", "SET 1 GL 3 1 7 28"])
        self.track(lambda s: s.cabs[3] == (32, 1), "a newer command drives")
        time.sleep(1)
        self.has("100 INFO 1 GL 3 1 7 28")
        self.track(lambda s: s.cabs[3] == (32, 1), "it drives on as the driver has set the rows to rest")

    def test_it_does_not_switch_the_power_on(self):
        """If that went off as the STOP ALL, or the driver's answer, was on its way."""
        for text, stays in (("stop all", "all stood"), ("all stood", "by hand")):
            self.drives()
            begun = len(self.station.log)
            self.throttle.flood(["SET 1 POWER OFF by hand", f"SET 1 POWER ON {text}"])
            self.has(f"100 INFO 1 POWER OFF {stays}")
            self.track(lambda s: s.power == 0, "it is off")
            self.assertEqual(self.commands("1", begun), [])

    def press(self, page):
        with contextlib.suppress(OSError):  # web.py is killed meanwhile
            page.post("", "/stop")

    def test_a_page_that_stands_still_within_it(self):
        """Behind the STOP ALL, and before all rows. They come late, or never: nothing drives again meanwhile."""
        way = Way(self.server)
        self.addCleanup(way.end)
        page = self.page(way.port)
        for number in (signal.SIGSTOP, signal.SIGKILL):
            self.many(page if number == signal.SIGSTOP else None)
            begun, log = len(self.station.log), self.station.log
            way.last = b" POWER ON stop all\n"
            stop = threading.Thread(target=self.press, args=(page,), daemon=True)
            loses, self.station.loses = self.station.loses, 0  # what is told first comes
            since = time.monotonic()
            stop.start()
            until(lambda: any(text in ("!", "0") for _, text in log[begun:]), "the stop comes")
            self.station.loses = loses
            self.site.send(number)
            time.sleep(1)
            self.assertEqual(self.starts_since(since + 0.2), [])
            self.all_stand("all stand")
            if number == signal.SIGSTOP:
                self.site.send(signal.SIGCONT)
                way.free()
                stop.join()
        until(lambda: all(row.split()[6] == "0" for row in rows(self.server.port) if row.startswith("100 INFO 1 GL")),
              "the rows say so")

    def test_a_command_behind_one_that_cut_the_power(self):
        """Another session has a locomotive locked. Who was to drive stands as the power comes back."""
        way = Way(self.server)
        self.addCleanup(way.end)
        page, other = self.page(way.port), Session(self.server.port)
        other.order("INIT 1 GL 5 N 1 28 0", "SET 1 LOCK GL 5 0", "SET 1 GL 5 1 9 28")
        until(lambda: page.rows.get((1, "GL", 5, "lock")), "the page shows the lock")
        replies = []
        stop = threading.Thread(target=lambda: replies.append(page.post("", "/stop")), daemon=True)
        way.last = b"SET 1 GL 3 1 0 28\n"  # the page's last command to that one: what drives again it looks for later
        stop.start()
        self.has("100 INFO 1 POWER OFF", "100 INFO 1 GL 3 1 0 28")
        self.throttle.order("SET 1 GL 3 1 15 28")
        until(lambda: page.rows[1, "GL", 3, "does"]["v"] == 15, "the page shows it")
        way.free()
        stop.join()
        self.assertEqual(replies, ["200 OK"])
        self.has("100 INFO 1 POWER OFF all stood", "100 INFO 1 GL 3 1 0 28")
        self.throttle.order("SET 1 POWER ON")
        self.track(lambda s: s.power == 1, "power is on")
        time.sleep(QUIET)
        self.assertEqual([cab for cab in (3, 5) if self.station.cabs[cab][0] > 0], [])

    def test_a_driver_that_sleeps_or_was_killed_does_not_confirm(self):
        """Nor one whose station hangs, before that counts as gone. The page says so after a second."""
        page = self.page_of_a_driver()
        for begins, ends in ((lambda: self.driver.send(signal.SIGSTOP), lambda: self.driver.send(signal.SIGCONT)),
                             (self.hangs, self.hangs), (self.dies, None)):
            self.drives()
            until(lambda: page.rows[1, "POWER", 0, "does"]["text"] == "", "the page shows it")
            begins()
            time.sleep(0.1)  # what it has begun to read it carries out
            self.assertEqual(page.post("", "/stop"), UNSURE)
            until(lambda: page.stood == [1], "pages are told")
            if ends:
                ends()
                self.has("100 INFO 1 POWER ON all stood")
                until(lambda: page.stood == [], "pages are told once it confirms")

    def page_of_a_driver(self):
        """Returns a page that has seen that the bus has a driver: here a file of that driver tells nothing. The driver
        and its station may sleep."""
        self.restarts("--asleep", 1000, "--silence", 1000)
        page = self.page()
        self.assertEqual(page.post("", "/stop"), "200 OK")
        until(lambda: page.rows[1, "POWER", 0, "does"]["text"] == "all stood", "the driver has confirmed it")
        until(lambda: page.stood == [], "pages are told that all stood")
        return page

    def test_a_station_that_hangs_while_all_stand(self):
        """Nobody has to confirm a stop then. The station has to answer nonetheless: a hand may drive there."""
        page = self.page_of_a_driver()
        self.hangs()
        time.sleep(0.1)
        self.assertEqual(page.post("", "/stop"), UNSURE)
        self.hangs()
        self.has("100 INFO 1 POWER ON all stood")

    def test_one_that_does_not_confirm_its_stop(self):
        """The station answers, and drives on: it is never told that all stood. Once it makes an emergency stop too."""
        self.restarts("--silence", 1000)
        for stops in ([], ["SET 1 GL 3 2 0 28"]):
            self.drives()
            panel = Panel(self.server.port)
            self.goes_deaf(True)
            self.throttle.order(*stops, "SET 1 POWER ON stop all")
            self.has("100 INFO 1 POWER ON does not confirm: 3")
            time.sleep(3 * QUIET)
            self.assertEqual((panel.told("100 INFO 1 POWER ON all stood"), self.station.cabs[3]), ([], (63, 1)))
            self.goes_deaf(False)
            self.has("100 INFO 1 POWER ON all stood")
            self.track(lambda s: s.cabs[3][0] <= 0, "it stands")

    def test_what_was_commanded_just_before_it_as_the_panel_was_lost(self):
        """The listing tells the STOP ALL first, and that command behind it. Its holder has it locked."""
        self.restarts("--patience", WAIT)
        other = Session(self.server.port)
        other.order("SET 1 LOCK GL 3 0")
        self.way.cut()
        other.order("SET 1 GL 3 1 20 28")
        self.throttle.order("SET 1 POWER ON stop all")
        begun = time.monotonic()
        self.way.free()
        self.has("100 INFO 1 POWER ON all stood")
        time.sleep(3 * QUIET)
        self.assertEqual(self.starts_since(begun), [])
        self.assertLessEqual(self.station.cabs[3][0], 0)
        other.order("SET 1 GL 3 1 14 28")
        self.track(lambda s: s.cabs[3] == (63, 1), "commanded anew")

    def test_who_switches_the_power_off_meanwhile_confirms_nothing(self):
        """The driver sleeps: its station has power, and drives."""
        page, replies = self.page_of_a_driver(), []
        self.drives()
        self.driver.send(signal.SIGSTOP)
        stop = threading.Thread(target=lambda: replies.append(page.post("", "/stop")), daemon=True)
        stop.start()
        self.has("100 INFO 1 POWER ON stop all")
        self.throttle.order("SET 1 POWER OFF by hand")
        stop.join()
        self.assertEqual((replies, self.station.cabs[3]), ([UNSURE], (63, 1)))
        self.driver.send(signal.SIGCONT)

    def test_a_throttle(self):
        """throttle.py tells the fact alone, and the driver does the rest."""
        self.restarts("--asleep", 1000)
        for told in (" 1 POWER ON all stood", "not confirmed: trains may drive"):
            words = [sys.executable, TOP / "examples" / "throttle.py", "--port", str(self.server.port), "stop-all"]
            ran = subprocess.run(words, capture_output=True, text=True, timeout=WAIT)
            self.assertEqual((ran.stderr, ran.stdout.strip("\n").endswith(told)), ("", True), ran.stdout)
            if "all stood" in told:
                self.has("100 INFO 1 GL 3 1 0 28")
                self.drives()
                self.driver.send(signal.SIGSTOP)
        self.driver.send(signal.SIGCONT)

    def phone(self):
        """Returns a phone that has locomotive 3 and drives it."""
        phones = self.starts("withrottle.py", "--listen", port := free_port())
        until(lambda: connects(port) and "server: joined" in phones.told(), "phones may come")
        phone = Phone(port)
        phone.send("M0+S3<;>S3")
        phone.got("M0+S3<;>", "M0AS3<;>s1")
        phone.send("M0A*<;>V40")
        self.has("100 INFO 1 GL 3 1 40 126")
        return phone

    def test_the_stop_button_of_a_hand_throttle(self):
        """It is one as any other: what a phone has locked stands until the phone has stopped it by itself."""
        page, phone = self.page(), self.phone()
        self.throttle.order("INIT 1 GL 5 N 1 28 5", "SET 1 GL 5 0 14 28")
        self.track(lambda s: s.cabs.get(5) == (63, 0) and s.cabs[3][0] > 32, "both drive")
        time.sleep(QUIET)  # the station says so first
        self.station.acts()["stop"]()
        self.has(f"100 INFO 1 POWER {self.stopped_by_hand} all stood", "100 INFO 1 GL 5 0 0 28")
        until(lambda: page.stood == [], "pages are told")
        self.station.acts()["on"]()
        self.has("100 INFO 1 POWER ON")
        self.track(lambda s: s.power == 1, "power is on")
        phone.send("M0A*<;>V60")
        phone.got("HM3: stopped by others: press stop, or go to 0, before you drive on")
        time.sleep(QUIET)
        self.assertEqual([cab for cab in (3, 5) if self.station.cabs[cab][0] > 0], [])
        phone.send("M0A*<;>V0", "M0A*<;>V41")
        self.track(lambda s: s.cabs[3][0] > 0, "it drives")

    def test_a_hand_that_stops_some(self):
        """Two of three at once, and the third later: that is no stop of all."""
        self.throttle.order(*[f"INIT 1 GL {cab} N 1 28 5" for cab in (5, 6)],
                            *[f"SET 1 GL {cab} 1 14 28" for cab in (5, 6)])
        self.track(lambda s: s.cabs.get(5) == s.cabs.get(6) == (63, 1), "all drive")
        for cabs in ((3, 5), (6,)):
            time.sleep(3 * QUIET)
            for cab in cabs:
                self.station.hand(cab, speed=-1)
            self.has(*[f"100 INFO 1 GL {cab} 1 0 28" for cab in cabs])
        time.sleep(QUIET)
        self.assertIn("100 INFO 1 POWER ON", rows(self.server.port))

    def test_a_train_that_a_phone_has_locked(self):
        """It stands, though no other may set its row, and drives as the phone commands it anew."""
        phone = self.phone()
        self.throttle.order("SET 1 POWER ON stop all")
        self.has("100 INFO 1 POWER ON all stood")
        time.sleep(1)
        self.assertLessEqual(self.station.cabs[3][0], 0)
        phone.send("M0A*<;>V0", "M0A*<;>V41")
        self.track(lambda s: s.cabs[3][0] > 0, "it drives")

    def test_answers_that_are_lost(self):
        """The station has stopped all, and its word for that is lost again and again: the driver asks once more. It
        would not ask by itself here. Once a train drives, and once there is none."""
        self.restarts("--silence", 1000)
        for commands in (["SET 1 POWER ON"], ["TERM 1 GL 3", "SET 1 POWER ON"]):
            self.throttle.order(*commands)
            self.settles()
            time.sleep(QUIET)  # the station is asked nothing more
            self.answers_in_vain(4)
            self.throttle.order("SET 1 POWER ON stop all")
            until(lambda: "100 INFO 1 POWER ON all stood" in rows(self.server.port), "the driver confirms it", 20)
            self.track(lambda s: s.cabs[3][0] <= 0, "it stands")

    def test_a_hand_that_begins_to_drive_as_it_comes(self):
        """The driver tells the server so before it hears of the STOP ALL, which is there first: all stand, and stay."""
        self.throttle.order("SET 1 GL 3 1 0 28")
        self.track(lambda s: s.cabs[3][0] == 0, "it stands")
        time.sleep(QUIET)
        self.way.late = b" 100 INFO 1 POWER ON stop all"
        self.throttle.order("SET 1 POWER ON stop all")
        self.station.hand(3, speed=90)
        self.lacks("100 INFO 1 GL 3 1 0 ")
        begun = time.monotonic()
        self.way.free()
        self.has("100 INFO 1 POWER ON all stood", "100 INFO 1 GL 3 1 0 ")
        self.track(lambda s: s.power == 1, "power is on again")
        time.sleep(3 * QUIET)
        self.assertEqual(self.starts_since(begun), [])
        self.assertLessEqual(self.station.cabs[3][0], 0)
        self.has("100 INFO 1 GL 3 1 0 ")

    def hangs(self):
        self.station.stalled = not self.station.stalled


class DccExStopAll(StopAll, DccExCase):
    stopped_by_hand = "ON"

    def goes_deaf(self, is_deaf):
        """Has the station hear questions alone."""
        from simulated_station import QUESTIONS
        obey = type(self.station).obey.__get__(self.station)
        self.station.obey = lambda name, *words: is_deaf and name not in QUESTIONS or obey(name, *words)

    def test_what_the_registry_does_not_have_though_the_stop_was_lost(self):
        """A hand drives it, and the server does not make it. All are told to stop until it stands."""
        self.station.hand(10240, speed=40)
        until(lambda: "locomotive 10240, which a hand throttle drives" in self.driver.told(), "the driver has heard it")
        take, lost = self.station.take, []
        self.station.take = lambda command: (
            lost.append(command) if command == b"<!" and len(lost) < 3 else take(command))
        self.throttle.order("SET 1 POWER ON stop all")
        self.track(lambda s: s.cabs[10240][0] <= 0, "it stands")
        self.has("100 INFO 1 POWER ON all stood")

    def answers_in_vain(self, times):
        answer, lost = type(self.station).answer.__get__(self.station), []
        self.station.answer = lambda name, *words: (
            lost.append(name) if name == "cabs" and len(lost) < times else answer(name, *words))


class Z21StopAll(StopAll, Z21Case):
    stopped_by_hand = "OFF"  # it drives nothing until its power is switched on

    def goes_deaf(self, is_deaf):
        self.station.deaf = is_deaf

    def answers_in_vain(self, times):
        say, lost = type(self.station).say_bus.__get__(self.station), []
        self.station.loses = 0
        self.station.say_bus = lambda client, *data: (
            lost.append(data) if data[0] == 0x62 and len(lost) < times else say(client, *data))

    def test_what_a_hand_began_to_drive_just_before_it_and_the_report_was_lost(self):
        """The station keeps that speed while it stops all. It stands then, also if the driver has asked about it."""
        self.throttle.order("SET 1 GL 3 1 0 28")
        self.track(lambda s: s.cabs[3] == (0, 1), "it stands")
        for _ in range(5):
            self.drives_unheard()
            begun = time.monotonic()
            self.throttle.order("SET 1 POWER ON stop all")
            self.has("100 INFO 1 POWER ON all stood")
            self.track(lambda s: s.power == 1, "power is on again")
            time.sleep(3 * QUIET)
            self.assertEqual(self.starts_since(begun), [])
            self.assertLessEqual(self.station.cabs[3][0], 0)

    def test_a_hand_that_stopped_just_before_it_and_the_report_was_lost(self):
        """The registry cannot have what it drove. While that drives nothing is confirmed."""
        self.station.loses = 0
        self.station.hand(10240, speed=40)
        until(lambda: "locomotive 10240, which a hand throttle drives" in self.driver.told(), "the driver has heard it")
        self.throttle.order("SET 1 POWER ON stop all")
        time.sleep(3 * QUIET)
        self.has("100 INFO 1 POWER ON stop all")
        self.station.loses = 1
        self.station.hand(10240, speed=0)
        self.station.loses = 0
        until(lambda: "100 INFO 1 POWER ON all stood" in rows(self.server.port), "the driver confirms it", 20)


class OfStopAll(unittest.IsolatedAsyncioTestCase):
    """What is asked of the server, in which order. The server is played here."""
    program = "stop"

    async def test_the_drivers_are_told_before_the_rows(self):
        """The power of a bus stays as it is, but for one on which another session has a train."""
        from srcp_bridges.srcp.rows import Drive, Lock, Power
        from srcp_bridges.srcp.stop import Stops, stop_all
        for lock, power in ((None, "ON"), (Lock(0, 0, 9), "OFF"), (Lock(0, 0, 1), "ON")):
            rows = {(1, "POWER", 0, "does"): Power(0, True, ""), (1, "GL", 3, "does"): Drive(0, 1, 9, 28, ())}
            rows |= {(1, "GL", 3, "lock"): lock} if lock else {}
            asked = []

            async def ask(command):
                asked.append(command)
                await asyncio.sleep(0)
                return Drive(0, 1, 9, 28, ())

            session = types.SimpleNamespace(ask=ask, ended=asyncio.get_running_loop().create_future(), id=1)
            mirror = types.SimpleNamespace(stops=Stops(), session=session, here=True, rows=rows, driven=set,
                                           way=lambda bus, address: 1, way_by=lambda *row: asyncio.sleep(0, 1))
            self.assertEqual(await stop_all(mirror), [])
            self.assertEqual(asked[0], f"SET 1 POWER {power} stop all")
            self.assertIn("SET 1 GL 3 2 0 28", asked)

    async def test_a_train_whose_speed_the_panel_tells_late_is_stopped(self):
        """Another session had it drive just before. The panel is late, and tells that ahead of the STOP ALL."""
        from srcp_bridges.limits import SETTLED
        from srcp_bridges.srcp.rows import Drive, Power
        from srcp_bridges.srcp.stop import Stops, stop_all
        rows, asked, loop = {(1, "POWER", 0, "does"): Power(0, True, "")}, [], asyncio.get_running_loop()

        def tells():
            rows[1, "GL", 3, "does"] = Drive(0, 1, 9, 28, ())
            mirror.stops.stopped_all(1)

        async def ask(command):
            asked.append(command)
            if command == "SET 1 POWER ON stop all":
                loop.call_later(3 * SETTLED, tells)
            return Drive(0, 1, 9, 28, ())

        session = types.SimpleNamespace(ask=ask, ended=loop.create_future(), id=1)
        mirror = types.SimpleNamespace(stops=Stops(), session=session, here=True, rows=rows, driven=set,
                                       way_by=lambda *row: asyncio.sleep(0, 1))
        self.assertEqual(await stop_all(mirror), [])
        self.assertIn("SET 1 GL 3 2 0 28", asked)

    async def test_who_commands_a_train_anew_as_its_rest_is_refused_drives_it(self):
        """Another has it locked, and the reply that refuses the driver comes behind the holder's new command."""
        from srcp_bridges.srcp.replies import Refused
        from srcp_bridges.srcp.rows import Drive
        from srcp_bridges.stations.holds import Holds
        from srcp_bridges.stations.registry import Orders
        part, key = ("cab", 3), (1, "GL", 3, "does")

        async def ask(command):
            for row in news:
                mirror.rows[key] = row
                holds.take(part, row, False)
            raise Refused(414, "414 ERROR device locked")

        for news, is_held in (([Drive(2, 1, 0, 126, ()), Drive(3, 1, 41, 126, ())], False), ([], True)):
            for loses in (lambda holds: holds.stop_all(1), lambda holds: holds.lose("overload")):
                mirror = types.SimpleNamespace(rows={key: Drive(0, 1, 40, 126, ())}, session=True, here=True, ask=ask,
                                               anew=False, way=lambda bus, address: 1)
                orders = Orders(mirror)
                holds = Holds(1, mirror, orders, lambda part: None)
                holds.station = True
                loses(holds)
                holds.rest_all()
                await orders.carry_out()
                self.assertEqual(part in holds.held, is_held)
