"""withrottle.py: what stops the locomotives of phones, and what waits then."""
import itertools
import signal
import socket
import time

from .common import rows, until
from .phones import Panel, WiThrottleCase

STOPPED = "HM3: stopped by others: press stop, or go to 0, before you drive on"
SILENCE = 1.5  # seconds in which a phone counts as silent, and not yet as gone


class WiThrottleWithBeats(WiThrottleCase):
    words = "--heartbeat", 3, "--patience", 3

    def test_phones_that_are_gone_or_silent(self):
        phone = self.phone()
        phone.send("M0+S3<;>S3", "M0A*<;>V60")
        self.has("100 INFO 1 GL 3 1 60 126")
        phone.socket.shutdown(socket.SHUT_RDWR)
        self.has("100 INFO 1 GL 3 1 0 126")
        phone, panel = self.phone(watched=True), Panel(self.server.port)
        phone.send("M0+S3<;>S3", "M0A*<;>V61")
        for _ in range(16):
            time.sleep(0.25)
            phone.send("*")
        self.assertTrue(any(row.startswith("100 INFO 1 GL 3 1 61 126") for row in rows(self.server.port)))
        self.has("100 INFO 1 GL 3 1 0 126")
        phone.send("M0A*<;>V0", "M0A*<;>V28")  # the network may have held both back
        phone.settled()  # the bridge may read late, and counts the second from then on
        time.sleep(1)
        phone.send("M0A*<;>V29", "M0A*<;>V0", "M0A*<;>V30")
        phone.got("END")
        speeds = lambda: [v for v, _ in itertools.groupby(line.split()[6] for line in panel.told("100 INFO 1 GL 3 "))]
        until(lambda: speeds()[-4:] == ["61", "0", "30", "0"], "it drives once it was put to 0, and stands at the end")
        self.lacks("100 INFO 1 LOCK")


class WiThrottleStops(WiThrottleCase):
    def refuses(self, phone, throttle, *lines):
        """Looks that the phone is told once why these do nothing, and that locomotive 3 goes on as it did."""
        told, does = phone.lines.count(STOPPED), self.throttle.ask("GET 1 GL 3")
        phone.send(*lines)
        shows = f"M{throttle}AS3<;>V{does.split()[6]}"
        phone.got(shows, STOPPED, *[shows] * (len(lines) - 1))
        phone.settled()
        self.assertEqual((phone.lines.count(STOPPED) - told, self.throttle.ask("GET 1 GL 3").split()[5:]),
                         (1, does.split()[5:]))

    def stops_all(self, why=""):
        """Has another throttle switch the power off and on, as STOP ALL does if a phone has a locomotive locked."""
        self.throttle.order(f"SET 1 POWER OFF{why}")
        self.has("100 INFO 1 GL 3 1 0 126" if why else "100 INFO 1 GL 3")
        self.throttle.order("SET 1 POWER ON")

    def test_lines_that_the_network_held_back_start_nothing(self):
        """A phone's lines that come after a stop by others may be older, also of its second throttle, and if it takes
        the locomotive once more. It has to stop by itself before its speeds count; so does a phone in a silence."""
        phone = self.phone_with("S3")
        phone.send("M1+S3<;>S3")
        phone.got("M1+S3<;>", "M1AS3<;>s1")
        self.throttle.order("SET 1 POWER ON")
        for throttle, stop in (("0", "V0"), ("1", "X"), ("1", "V-1"), ("0", "I")):
            phone.send("M0A*<;>V40")
            phone.got("M0AS3<;>V40", "M1AS3<;>V40")
            self.stops_all(" stop all")
            self.refuses(phone, throttle, *[f"M{throttle}A*<;>V{v}" for v in (58, 70, 85)])
            phone.send("M1+S3<;>S3")
            phone.got("M1+S3<;>", "M1AS3<;>s1")
            phone.send(f"M{throttle}A*<;>V86", f"M{throttle}A*<;>R0")
            phone.settled()
            self.has("100 INFO 1 GL 3 0 0 126")
            phone.send(f"M{throttle}A*<;>R1")
            phone.settled()
            phone.send(f"M{throttle}A*<;>{stop}")
        for stop in (), ("M0A*<;>V0",), ("M0A*<;>X",), ("PPA0", "PPA1"), ("M*-*<;>r", "M0+S3<;>S3"):
            phone.send("*+", "M0A*<;>V0", "M0A*<;>V41")
            phone.got("M0AS3<;>V41", "M0AS3<;>V0")  # it is silent
            phone.send("*-", *stop)
            phone.settled()
            self.refuses(phone, "0", "M0A*<;>V58", "M0A*<;>V59")
            time.sleep(1)  # what comes in now was sent now
        phone.send("M0A*<;>V0", "M0A*<;>V20")
        self.has("100 INFO 1 GL 3 1 20 126")

    def test_what_a_line_takes_that_the_network_held_back(self):
        """A phone that has given its locomotive back is silent. The network held back that it takes the locomotive once
        more, and a speed: by then the speed may be as old as the silence."""
        phone = self.phone_with("S3")
        self.throttle.order("SET 1 POWER ON")
        phone.send("M0A*<;>V0", "M*-*<;>r", "*+")
        phone.got("M0-S3<;>")
        time.sleep(SILENCE)
        phone.send("*-", "M0+S3<;>S3")
        phone.got("M0+S3<;>", "M0AS3<;>s1")
        self.refuses(phone, "0", "M0A*<;>V58", "M0A*<;>V59")
        time.sleep(1)  # what comes in now was sent now
        phone.send("M0A*<;>V0", "M0A*<;>V20")
        self.has("100 INFO 1 GL 3 1 20 126")

    def test_after_power_off_by_others_a_train_gets_slower_alone(self):
        """As the power comes back it drives on. A phone may slow it down, and that is no answer to the stop."""
        phone, other = self.phone_with("S3"), self.phone()
        self.throttle.order("SET 1 POWER ON")
        phone.send("M0A*<;>V40")
        phone.got("M0AS3<;>V40")
        self.stops_all()
        self.refuses(phone, "0", "M0A*<;>V80", "M0A*<;>R0")
        phone.send("M0A*<;>V30")
        phone.got("M0AS3<;>V30")
        phone.send("M0A*<;>V31")
        phone.settled()
        self.has("100 INFO 1 GL 3 1 30 126")
        other.send("M0SS3<;>S3")  # whoever takes it sees how it drives
        other.got("M0+S3<;>", "M0AS3<;>V30", "M0AS3<;>s1")
        other.send("M0A*<;>V32")
        self.has("100 INFO 1 GL 3 1 32 126")

    def test_one_of_two_that_are_coupled_was_stopped(self):
        """The other pushes it no faster, and may be made slower."""
        phone = self.phone_with("S3", "S4")
        self.restarted()
        self.throttle.order(*[f"INIT 1 GL {address} N 1 126 5" for address in (3, 4)], "SET 1 GL 3 1 40 126",
                            "SET 1 GL 4 1 40 126", "SET 1 GL 3 2 0 126")
        phone.got("M0AS4<;>V40")
        for v, now in ((50, 40), (20, 20), (21, 20)):
            phone.send(f"M0A*<;>V{v}")
            phone.settled()
            self.has(f"100 INFO 1 GL 4 1 {now} 126", "100 INFO 1 GL 3 2 0 126")
        self.assertEqual(phone.lines.count(STOPPED), 1)
        phone.send("M0A*<;>V0", "M0A*<;>V22")
        self.has("100 INFO 1 GL 3 1 22 126", "100 INFO 1 GL 4 1 22 126")

    def test_a_stop_is_not_behind_what_waits(self):
        phone, panel = self.phone_with("S3"), Panel(self.server.port)
        for stop, mode in (("M0A*<;>X", 2), ("M0AS3<;>V-1", 2), ("M0A*<;>V0", 1), ("M0AS3<;>I", 1), ("M0A*<;>Q", 1)):
            phone.send("M0A*<;>V5")
            phone.got("M0AS3<;>V5")
            begin = len(panel.lines)
            self.at_once(phone, *[f"M0A*<;>V{v}" for v in range(10, 110)], stop)
            phone.got("M0AS3<;>V0")
            phone.settled()
            speeds = [line for line in panel.lines[begin:] if line.startswith("100 INFO 1 GL 3 ")]
            self.assertIn(f"100 INFO 1 GL 3 {mode} 0 126", [line[:len("100 INFO 1 GL 3 1 0 126")] for line in speeds])
            self.assertLess(len(speeds), 6)
            self.has("100 INFO 1 GL 3 1 0 126")
            self.assertEqual([line for line in phone.lines if "meanwhile" in line], [])
            phone.send(stop, "M0A*<;>V20")
            phone.got("M0AS3<;>V20")
        begin = len(panel.lines)
        self.at_once(phone, *[f"M0A*<;>V{v}" for v in range(10, 110)], "Q")
        phone.got("END")
        self.assertLess(len([line for line in panel.lines[begin:] if line.startswith("100 INFO 1 GL 3 1 ")]), 5)
        self.has("100 INFO 1 GL 3 1 0 126")

    def test_power_off_is_not_behind_what_waits(self):
        phone, panel = self.phone_with("S3"), Panel(self.server.port)
        self.throttle.order("SET 1 POWER ON")
        phone.got("PPA1")
        self.at_once(phone, *[f"M0A*<;>V{v}" for v in range(10, 110)], "PPA1", "PPA0")
        phone.got("PPA0")
        phone.settled()
        self.assertEqual([line.split()[4] for line in panel.told("100 INFO 1 POWER")], ["OFF", "ON", "OFF"])
        self.assertLess(len(panel.told("100 INFO 1 GL 3 1 ")), 5)
        phone.send("PPA0", "PPA1")
        phone.got("PPA1")
        phone.send("M0A*<;>V20")
        phone.got("M0AS3<;>V20")
        phone.send("PPA0")
        phone.got("PPA0")
        phone.send("PPA1")
        phone.got("PPA1")
        phone.send("M0A*<;>V21")  # it knows that it has stopped by itself
        phone.got("M0AS3<;>V21")

    def test_what_was_sent_while_the_program_was_stopped(self):
        """It may have been sent before a stop of another; but a stop is a stop."""
        phone = self.phone_with("S3")
        phone.send("M1+S4<;>S4")
        phone.got("M1AS4<;>s1")
        self.throttle.order("INIT 1 GA 7 N")
        for line in ("M0A*<;>V60", "M0A*<;>R0", "M0A*<;>f10", "PPA1", "PTAT7"):
            phone.send("M0A*<;>V0", "M1A*<;>V0", "M0A*<;>V10", "M1A*<;>V10", "PPA1")
            self.has("100 INFO 1 GL 3 1 10 126", "100 INFO 1 GL 4 1 10 126", "100 INFO 1 POWER ON")
            self.bridge.send(signal.SIGSTOP)
            begin = len(phone.lines)
            phone.send(line, "M1A*<;>V0")
            time.sleep(1.5)
            self.throttle.order("SET 1 POWER OFF")
            self.bridge.send(signal.SIGCONT)
            until(lambda: "HMnot done, since this program was stopped meanwhile" in phone.lines[begin:], line)
            self.has("100 INFO 1 GL 3 1 10 126 0", "100 INFO 1 GL 4 1 0 126", "100 INFO 1 POWER OFF")
            phone.settled()
            time.sleep(1)  # what comes in now was sent now
        self.lacks("100 INFO 1 GA 7 1 1")
        phone.send("M0A*<;>V0", "M0A*<;>V20", "PPA1")
        self.has("100 INFO 1 GL 3 1 20 126", "100 INFO 1 POWER ON")
        self.bridge.send(signal.SIGSTOP)
        phone.send("PPA0")
        time.sleep(1.5)
        self.bridge.send(signal.SIGCONT)
        self.has("100 INFO 1 POWER OFF")

    def test_what_waits_does_not_undo_a_stop_of_others(self):
        phone = self.phone_with("S3")
        phone.send("M1+S3<;>S3")
        phone.got("M1+S3<;>", "M1AS3<;>s1")
        phone.send("M0A*<;>V5")
        phone.got("M1AS3<;>V5")
        self.at_once(phone, *[f"M0A*<;>V{v}" for v in range(10, 60)], "M1A*<;>X")
        phone.settled()
        self.has("100 INFO 1 GL 3 1 0 126")
        phone.send("M0A*<;>V20")
        phone.got("M0AS3<;>V20")
        self.throttle.order("SET 1 POWER ON")
        phone.got("PPA1")
        self.server.process.send(signal.SIGSTOP)
        self.throttle.socket.sendall(b"SET 1 POWER OFF\n")
        time.sleep(0.2)
        self.at_once(phone, *[f"M0A*<;>V{v}" for v in range(30, 80)])
        phone.got("PPA0", STOPPED)
        phone.settled()
        self.assertEqual(phone.lines.count(STOPPED), 1)
        self.lacks("100 INFO 1 GL 3 1 79 126")
        phone.send("M0A*<;>V0", "M0A*<;>V21")
        phone.got("M0AS3<;>V21")

    def test_a_loss_puts_to_rest_what_phones_have_locked(self):
        """A power off that has a reason does; one without does not."""
        phone = self.phone_with("S3")
        for why, v in (("", 60), (" stop all", 0), (" no station", 0)):
            self.throttle.order("SET 1 POWER ON")
            phone.got("PPA1")
            phone.send("M0A*<;>V0", "M0A*<;>V59", "M0A*<;>V60")
            phone.got("M0AS3<;>V60")
            self.throttle.order(f"SET 1 POWER OFF{why}")
            phone.got("PPA0", *[f"HMpower off:{why}"] * bool(why))
            self.has(f"100 INFO 1 GL 3 1 {v} 126")
            self.throttle.order("SET 1 POWER ON", "SET 1 POWER OFF")
            phone.got("PPA1", "PPA0")
            self.has(f"100 INFO 1 GL 3 1 {v} 126")

    def test_an_emergency_stop_tries_each(self):
        """Of two locomotives another has locked the first, after a restart: the second stands all the same."""
        phone = self.phone_with("S3", "S4")
        for stop in ("X", "V0"):
            self.restarted()
            self.throttle.order(*[f"INIT 1 GL {address} N 1 126 5" for address in (3, 4)], "SET 1 LOCK GL 3 0",
                                *[f"SET 1 GL {address} 0 40 126" for address in (3, 4)])
            phone.got("M0AS4<;>V40")
            phone.send(f"M0A*<;>{stop}")
            self.has("100 INFO 1 GL 4 0 0 126", "100 INFO 1 GL 3 0 40 126")
            until(lambda: any("414 ERROR device locked" in line for line in phone.told("HM")), "the refusal")
            phone.settled()

    def test_the_direction_outlives_a_stop_of_which_the_bridge_is_told_late(self):
        phone = self.phone_with("S3")
        phone.send("M0-S3<;>r")
        phone.got("M0-S3<;>")
        self.throttle.order("INIT 1 GL 3 N 1 28 5")
        self.way.late = b"100 INFO 1 GL 3 0 9 28"
        self.throttle.order("SET 1 GL 3 0 9 28", "SET 1 GL 3 2 0 28")
        phone.send("M0+S3<;>S3")
        phone.got("M0+S3<;>")
        phone.send("M0A*<;>F11")
        time.sleep(0.3)
        self.way.free()
        self.has("100 INFO 1 GL 3 0 0 28 0 1")

    def test_the_direction_outlives_stops(self):
        """Also one by a program that keeps no direction, and what a phone sends first after it."""
        self.throttle.order("INIT 1 GL 3 N 1 28 5", "SET 1 GL 3 0 9 28")
        phone = self.phone()
        phone.send("M0+S3<;>S3")
        phone.got("M0AS3<;>R0", "M0AS3<;>s1")
        phone.send("M0-S3<;>r")
        phone.got("M0-S3<;>")
        self.throttle.order("SET 1 GL 3 0 9 28", "SET 1 GL 3 2 0 28")
        self.has("100 INFO 1 GL 3 2 0 28")
        phone.send("M0+S3<;>S3", "M0A*<;>F11")
        self.has("100 INFO 1 GL 3 0 0 28 0 1")
        phone.send("M0-S3<;>r")
        phone.got("M0-S3<;>")
        self.throttle.order("SET 1 GL 3 0 9 28", "SET 1 GL 3 2 0 28", "SET 1 POWER ON")
        phone.got("PPA1")  # so the bridge knows of the stop: a speed that came before that would be refused
        phone.send("M0+S3<;>S3", "M0A*<;>V20")
        self.has("100 INFO 1 GL 3 0 20 126 0 1")
        phone.send("M0A*<;>X", "M0A*<;>V21")
        self.has("100 INFO 1 GL 3 0 21 126 0 1")
