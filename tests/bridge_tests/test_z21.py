"""z21.py, with a simulated station that is strict about its protocol and loses one datagram in ten."""
import signal
import subprocess
import sys
import time

from .common import LAYOUT, PROGRAMS, WAIT, Session, free_port, position_of, rows, until
from .stations import QUIET, STANDS, Drives, Hands, Losses, StationCase


class Z21Case(StationCase):
    program = "z21"
    greeting = "Z21, serial number 123456"
    top = 28
    slowest = 5
    words = ("--patience", 0.5, "--silence", 5, "--turnout-pace", 20)  # a busy machine may not hear for a while
    layout = LAYOUT.replace("fb_ports = 32", "fb_ports = 100")

    def opens(self):
        from simulated_z21 import Z21
        port = free_port()
        self.where = f"127.0.0.1:{port}"
        return Z21(port, **self.behaves)

    def drives(self):
        super().drives()
        self.settles()

    def settles(self):
        """Returns once the driver tells nothing again, since all is confirmed. It has looked at that several times: on
        a busy machine a driver that has told nothing for a while may not have run. One that never looks is broken."""
        is_asked = any(" GL " in row for row in rows(self.server.port))
        least = 2 * QUIET, 12 * QUIET
        self.track(lambda s: time.monotonic() - s.commanded > least[is_asked and s.looked < 6], "all is confirmed")

    def drives_unheard(self):
        """A hand begins to drive locomotive 3, and the report of it is lost."""
        time.sleep(QUIET)
        self.station.loses = 1
        self.station.hand(3, 90)
        self.station.loses = 0


class Z21(Drives, Z21Case):
    def test_turnouts_and_sensors(self):
        """Its sensors are reported in two halves of 80."""
        super().test_turnouts_and_sensors()
        for number in (80, 81, 100):
            self.station.sensor(number, 1)
        self.has(*[f"100 INFO 1 FB {number} 1" for number in (80, 81, 100)])
        self.assertEqual(len([row for row in rows(self.server.port) if " FB " in row and row.endswith(" 1")]), 4)

    def test_half_of_all_datagrams_are_lost(self):
        """Each command is told again until the station confirms it, an emergency stop before what follows it."""
        self.station.loses = 0.5
        locomotives = range(11, 19)
        for n in locomotives:
            self.throttle.order(f"INIT 1 GL {n} N 1 14 29", f"SET 1 GL {n} {n % 2} 7 14 " + "0 1 " * 14 + "1")
        for n in range(1, 5):
            self.throttle.order(f"INIT 1 GA {n} N", f"SET 1 GA {n} {n % 2} 1 20")
        self.track(lambda s: all(s.cabs.get(n) == (63, n % 2) for n in locomotives), "all drive")
        functions = {(n, i) for n in locomotives for i in [*range(1, 29, 2), 28]}
        self.track(lambda s: self.functions() == functions | {(3, 0), (3, 2)}, "functions")
        self.track(lambda s: s.turnouts == {n: n % 2 for n in range(1, 5)}, "turnouts")
        begun = len(self.station.log)
        self.throttle.flood([f"SET 1 GL {n} {mode} 0 14" for n in locomotives for mode in (2, n % 2)])
        self.track(lambda s: all(s.cabs[n] == (0, n % 2) for n in locomotives), "all stand")
        for n in locomotives:
            self.assertEqual(self.commands(f"t {n} ", begun), [f"t {n} -1 {n % 2}", f"t {n} 0 {n % 2}"])
        self.track(lambda s: not s.outputs, "no output of a turnout is on")

    def test_an_output_of_a_turnout_is_on_for_a_moment(self):
        self.throttle.order("INIT 1 GA 5 N", "SET 1 GA 5 1 1 20")
        self.track(lambda s: (5, 1) in s.pulses, "it has gone off")
        self.assertGreater(self.station.pulses[5, 1], 0.08)
        self.track(lambda s: time.monotonic() - s.commanded > 2 * QUIET, "and is not told so again and again")

    def test_who_says_nothing_is_told_nothing_and_the_driver_does(self):
        """The station logs off who was silent: after 60 s, here after 3. What a hand does then is told."""
        self.station.patience = 3.0
        time.sleep(4)
        self.station.loses = 0
        self.assertEqual(len(self.station.clients), 1)
        self.station.switch(0)
        self.rests("station says off")

    def test_a_station_that_sends_rubbish(self):
        told = self.driver.told()
        for _ in range(20):
            self.station.rubbish()
        self.station.sensor(7, 1)
        self.has("100 INFO 1 FB 7 1", "100 INFO 1 POWER ON", "100 INFO 1 GL 3 1 14")
        self.assertEqual(self.driver.told(), told)

    def test_wrong_words_end_it_with_status_2_and_one_line(self):
        from srcp_bridges.stations.line import network_place
        for name, place in [("z21", ("z21", 21105)), ("[fe80::1]", ("fe80::1", 21105)), ("z21:5", ("z21", 5))]:
            self.assertEqual(network_place(name, "", 21105), place)
        for words in [["--station", "z21:abc"], ["--station", ":21105"], [], ["--station", "z21", "--bus", "0"]]:
            command = [sys.executable, PROGRAMS / "z21.py", "--port", str(self.server.port), *words]
            ran = subprocess.run(command, capture_output=True, text=True, timeout=WAIT)
            self.assertEqual((ran.returncode, len(ran.stderr.splitlines())), (2, 1), (words, ran.stderr))


class Z21WithLosses(Losses, Z21Case):
    def goes_off(self, act, why):
        """The station cuts its power, and somebody switches it on again, which ends also a stop of all."""
        act()
        self.station.loses = 0
        self.has(f"100 INFO 1 POWER OFF {why}", STANDS)
        StationCase.drives(self)

    def test_what_a_station_reports_without_a_question(self):
        self.restarts("--silence", 10 * WAIT)
        self.station.loses = 0
        for act, why in ((self.station.stop, "all stood"), (lambda: self.station.switch(0), "station says off"),
                         (self.station.overload, "overload"), (self.station.program, "programming")):
            self.goes_off(act, why)

    def test_what_a_station_reports_in_vain(self):
        """The driver asks for it."""
        for act, why in ((self.station.stop, "all stood"), (self.station.overload, "overload"),
                         (self.station.program, "programming")):
            self.station.loses = 1
            self.goes_off(act, why)

    def test_a_short_circuit_that_is_over(self):
        """What the station says of it before it has heard that power is to be on does not take that off again."""
        self.station.overload()
        self.rests("overload")
        self.station.deaf, asked = True, self.station.asked
        self.throttle.order("SET 1 POWER ON")
        self.track(lambda s: s.asked > asked + 5, "it has told its status again and again")
        time.sleep(QUIET)
        self.has("100 INFO 1 POWER ON")
        self.station.deaf = False
        self.track(lambda s: s.power == 1, "power is on")

    def test_what_a_hand_began_to_drive_just_before_a_loss_and_the_report_was_lost(self):
        """The station keeps that speed while its power is off. Nothing starts with the power."""
        self.throttle.order("SET 1 GL 3 1 0 28")
        self.track(lambda s: s.cabs[3] == (0, 1), "it stands")
        for _ in range(3):
            self.drives_unheard()
            self.station.overload()
            self.has("100 INFO 1 POWER OFF overload")
            self.throttle.order("SET 1 POWER ON")
            self.track(lambda s: s.power == 1, "power is on")
            time.sleep(3 * QUIET)
            self.assertEqual(self.station.cabs[3], (0, 1))

    def test_what_a_hand_began_to_drive_just_before_it_is_removed_and_the_report_was_lost(self):
        self.throttle.order("SET 1 GL 3 1 0 28")
        self.track(lambda s: s.cabs[3] == (0, 1), "it stands")
        self.drives_unheard()
        self.throttle.order("TERM 1 GL 3")
        self.track(lambda s: s.cabs[3] == (0, 1), "it stands", 5)

    def test_what_is_gone_as_the_station_forgets_the_driver(self):
        """It has not heard that this stands. It is told so anew, though the registry does not have it any more."""
        self.station.deaf = True
        self.throttle.order("TERM 1 GL 3")
        time.sleep(QUIET)
        self.station.clients.clear()
        until(lambda: "has forgotten this program" in self.driver.told(), "the driver knows of it")
        self.station.deaf = False
        self.track(lambda s: s.cabs[3][0] <= 0, "it stands")

    def test_a_station_that_was_reset_and_misses_who_greets_it(self):
        """It was reset once. It is greeted until it has heard that, and what somebody commands meanwhile drives on."""
        self.station.loses, take, missed = 0, self.station.take, []
        self.station.take = lambda header, data: (
            not missed.append(data) if header == 0x50 and len(missed) < 30 else take(header, data))
        self.station.restart()
        self.rests("station was reset")
        begun = len(self.station.moves)
        self.drives()
        self.track(lambda s: s.clients, "it has heard who greets it")
        time.sleep(3)
        self.assertEqual([move for move in self.station.moves[begun:] if not move[2]], [])
        self.assertEqual((self.station.power, self.station.cabs[3], len(missed)), (1, (63, 1), 30))

    def test_a_station_that_does_not_say_whom_it_tells(self):
        """It is driven, and is not greeted again and again."""
        take, greeted = self.station.take, []
        self.station.loses = 0
        self.station.take = lambda header, data: (
            header == 0x51 or not (greeted.append(data) if header == 0x50 else None) and take(header, data))
        self.restarts()
        time.sleep(3)
        count = len(greeted)
        time.sleep(2)
        self.assertEqual((len(greeted) - count, self.station.cabs[3]), (0, (63, 1)))
        self.assertGreater(count, 3)

    def test_a_late_word_that_the_station_knows_nobody(self):
        """It was asked before the station was greeted. It is no other reset."""
        self.station.loses, told = 0, self.driver.told().count("has forgotten this program")
        for client in [*self.station.clients]:
            self.station.say(client, 0x51, bytes(4))
        time.sleep(2)
        self.assertEqual(self.driver.told().count("has forgotten this program"), told)
        self.assertEqual((self.station.power, self.station.cabs[3]), (1, (63, 1)))

    def test_a_speed_that_comes_behind_its_stop(self):
        """As a datagram may. No hand has done that: it is told to stand again, and its row stays."""
        self.station.loses, take, late = 0, self.station.take, []
        self.station.take = lambda header, data: (
            late.append(data) or True if data[:1] == b"\xe4" and not late else take(header, data))
        self.throttle.order("SET 1 GL 3 1 20 28")
        until(lambda: late, "the speed is on its way")
        self.throttle.order("SET 1 GL 3 1 0 28")
        self.track(lambda s: s.cabs[3] == (0, 1), "it stands")
        with self.station.trouble.giving:
            take(0x40, late[0])
        self.assertGreater(self.station.moves[-1][2], 0)
        time.sleep(3 * QUIET)
        self.assertEqual(self.station.cabs[3], (0, 1))
        self.has("100 INFO 1 GL 3 1 0 28")

    def test_a_station_that_programs_a_decoder(self):
        """Power counts as off. The station is told nothing that would end the programming, until somebody does."""
        self.station.program()
        self.has("100 INFO 1 POWER OFF programming", "100 INFO 1 GL 3 1 0 ")
        asked = self.station.asked
        self.track(lambda s: s.asked > asked + 3, "it has told its status again and again")
        time.sleep(QUIET)
        self.assertTrue(self.station.programs())
        self.drives()

    def test_a_locomotive_that_drove_before_the_driver_came(self):
        """It has no function on, so that nothing else has the station report it: it is told to stand too."""
        self.dies()
        self.throttle.order("INIT 1 GL 3 N 1 28 0", "INIT 1 GL 4 N 1 28 0")
        self.station.functions.clear()
        self.station.cabs[4] = 40, 1
        self.start()
        self.track(lambda s: (s.cabs[3], s.cabs[4]) == ((0, 1), (0, 1)), "both stand")

    def test_speeds_that_a_station_keeps(self):
        """What drove there before the driver came is told to stand before the power comes."""
        self.dies()
        self.throttle.order("SET 1 GL 3 1 0 28", "SET 1 POWER OFF")
        self.assertEqual(self.station.cabs[3], (63, 1))
        self.start()
        self.rests("")
        self.throttle.order("SET 1 POWER ON")
        self.track(lambda s: s.power == 1, "power is on")
        self.assertEqual(self.station.cabs[3], (0, 1))

    def test_a_station_that_reports_what_it_did_before_it_heard(self):
        """That is no hand throttle: the registry stays as it is, and is not changed for a moment either."""
        self.dies()
        self.throttle.order("SET 1 GL 3 1 0 28", "SET 1 POWER OFF")
        panel = Session(self.server.port, "INFO")
        self.station.deaf = True
        self.start()
        time.sleep(3 * QUIET)
        self.has("100 INFO 1 GL 3 1 0 28", "100 INFO 1 POWER OFF")
        self.throttle.order("SET 2 FB 16 1")
        told = panel.hears_until(b" 2 FB 16 1\n")
        self.assertEqual((b" 1 GL 3 1 14 " in told, b" 1 POWER ON" in told), (False, False))
        self.station.deaf = False
        self.rests("")

    def test_the_driver_is_ended_while_datagrams_are_lost(self):
        self.station.loses = 1
        self.driver.send(signal.SIGTERM)
        time.sleep(QUIET)
        self.station.loses = 0
        self.track(lambda s: s.cabs[3] == (0, 1) and s.power == 0, "all stand")

    def test_the_driver_logs_off(self):
        self.station.loses = 0
        self.driver.end()
        self.track(lambda s: not s.clients, "nobody is told anything")


class Z21WithHands(Hands, Z21Case):
    def test_a_hand_throttle_with_other_steps(self):
        self.station.steps[3] = 3
        self.station.hand(3, speed=100)
        self.has("100 INFO 1 GL 3 1 23 28")
        self.assertEqual(self.commands("t 3")[-1], "t 3 63 1")

    def test_a_hand_throttle_drives_in_the_steps_of_the_decoder(self):
        self.station.hand(3, speed=30)
        self.has("100 INFO 1 GL 3 1 6 28")
        self.assertEqual(self.station.cabs[3], (27, 1))

    def test_what_a_hand_drives_is_made_in_its_steps(self):
        """Its decoder may know no others: it would miss a stop."""
        self.station.loses, self.station.steps[77] = 0, 2
        self.station.hand(77, speed=63)
        self.has("101 INFO 1 GL 77 N 1 28 29", "100 INFO 1 GL 77 1 14 28")
        self.throttle.order("SET 1 GL 77 2 0 28")
        self.track(lambda s: s.cabs[77] == (-1, 1), "it stops")
        self.assertEqual((self.commands("t 77"), self.station.steps[77]), (["t 77 -1 1"], 2))

    def throws(self, port, time_of_pulse="20"):
        """Makes turnout 5 and throws it; returns once the station has confirmed that."""
        self.throttle.order("INIT 1 GA 5 N", f"SET 1 GA 5 {port} 1 {time_of_pulse}")
        self.track(lambda s: s.turnouts.get(5) == port and not s.outputs, "it is thrown")
        self.settles()

    def test_a_hand_throws_a_turnout(self):
        """Its row follows, and the station is told nothing of it."""
        self.throws(0, "-1")
        self.station.throw(5, 1)
        until(lambda: position_of(self.server.port, 1, 5) == 1, "its row follows")
        self.has("100 INFO 1 GA 5 0 0", "100 INFO 1 GA 5 1 0")  # no port stays at 1
        self.station.throw(6, 1)  # the registry does not have it
        time.sleep(3 * QUIET)
        self.assertEqual(self.commands("a "), ["a 5 0"])
        self.lacks("101 INFO 1 GA 6")
        self.throttle.order("SET 1 GA 5 0 1 20")
        self.track(lambda s: s.turnouts[5] == 0, "it is thrown again")

    def test_a_report_of_a_turnout_that_comes_late(self):
        """It is no hand's doing: the station, asked, says otherwise."""
        self.throws(1)
        panel = Session(self.server.port, "INFO")
        panel.hears_until(b" 100 INFO 2 FB 16 0\n")
        for _ in range(5):
            self.station.tell(1, 0x43, 0, 4, 1)
            time.sleep(0.2)
        time.sleep(2 * QUIET)
        self.throttle.order("SET 1 FB 9 1")
        told = ""
        while "FB 9 1" not in told:
            told = panel.line().decode()
            self.assertNotIn(" GA 5 ", told)
        self.assertEqual((position_of(self.server.port, 1, 5), self.commands("a ")), (1, ["a 5 1"]))

    def test_a_hand_throws_a_turnout_that_another_has_locked(self):
        """Its row stays, and every display is told; it is not thrown back. Once it is unlocked its row follows."""
        holder = Session(self.server.port)
        self.throws(0)
        holder.order("SET 1 LOCK GA 5 0")
        self.station.throw(5, 1)
        self.has("100 INFO 1 POWER ON thrown by hand: 5 1", "100 INFO 1 GL 3 1 14")
        time.sleep(2 * QUIET)
        self.assertEqual((position_of(self.server.port, 1, 5), self.commands("a ")), (0, ["a 5 0"]))
        holder.order("TERM 1 LOCK GA 5")
        self.has("100 INFO 1 POWER ON confirms again")
        until(lambda: position_of(self.server.port, 1, 5) == 1, "its row follows")
        self.assertEqual(self.commands("a "), ["a 5 0"])

    def test_what_a_hand_throws_while_the_power_is_off(self):
        """Displays are told as somebody switches it on: the reason why it is off stays till then."""
        holder = Session(self.server.port)
        self.throws(0)
        holder.order("SET 1 LOCK GA 5 0")
        self.station.overload(), self.has("100 INFO 1 POWER OFF overload")
        self.station.throw(5, 1)
        until(lambda: "thrown turnout 5 to port 1" in self.driver.told(), "the driver has heard it")
        time.sleep(QUIET)
        self.has("100 INFO 1 POWER OFF overload")
        self.throttle.order("SET 1 POWER ON")
        self.has("100 INFO 1 POWER ON thrown by hand: 5 1")

    def test_what_a_hand_does_while_all_is_lost(self):
        """The driver asks for it again and again."""
        self.throws(0)
        self.station.loses = 1
        self.station.hand(3, speed=45)
        self.station.throw(5, 1)
        self.station.sensor(7, 1)
        time.sleep(QUIET)
        self.assertNotIn("100 INFO 1 FB 7 1", rows(self.server.port))
        self.station.loses = 0
        self.has("100 INFO 1 GL 3 1 10 28", "100 INFO 1 FB 7 1")
        until(lambda: position_of(self.server.port, 1, 5) == 1, "the row of the turnout follows")
