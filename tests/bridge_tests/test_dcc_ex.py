"""dcc_ex.py, with a simulated station on a pseudo-terminal that is strict about its grammar."""
import contextlib
import os
import re
import select
import signal
import socket
import subprocess
import sys
import termios
import threading
import time
import unittest

from .common import PROGRAMS, WAIT, free_port, listener, new_folder, rows, until
from .stations import QUIET, STANDS, Drives, Hands, Losses, StationCase

PATIENT = "--patience", WAIT, "--silence", WAIT, "--asleep", 10 * WAIT  # a busy machine may take long to join again


class DccExCase(StationCase):
    program, greeting = "dcc_ex", "iDCC"

    def opens(self):
        from simulated_station import BANNER, Station
        self.banner = BANNER
        self.where = self.link = os.path.join(new_folder(), "ttyACM0")
        return Station(self.link, **self.behaves)

    def settles(self):
        """Returns once the driver has heard what the station says of all that it was told. What the driver has told
        again until then is carried out too: it would undo what a hand does."""
        self.goes_on()
        for value in (1, 0):
            self.station.sensor(32, value)
            self.has(f"100 INFO 1 FB 32 {value}")
        self.goes_on()


class DccEx(Drives, DccExCase):
    def test_speeds_and_functions(self):
        super().test_speeds_and_functions()
        self.track(lambda s: s.known == {3}, "and is forgotten")

    def test_what_cannot_be_driven_is_told_of_and_stands(self):
        """Once, by name, also if it is commanded again; its row goes back to 0, which every display shows."""
        self.throttle.order("INIT 1 GL 7 M 1 28 5", "SET 1 GL 7 0 14 28 1", "INIT 1 GL 8 P", "SET 1 GL 8 1 14 28",
                            "INIT 1 GA 9 S", "SET 1 GA 9 1 1 -1", "INIT 2 GA 5 N")
        self.track(lambda s: s.cabs.get(8) == (63, 1), "P is what the station speaks")
        self.has("100 INFO 1 GL 7 0 0 28 1")
        self.throttle.order("SET 1 GL 7 1 5 28")
        self.has("100 INFO 1 GL 7 1 0 28 1")
        told = "not driven: 1 GL 7 (protocol M), 1 GA 9 (protocol S), 2 GA 5 (not on bus 1)"
        until(lambda: told in self.driver.told(), "it is told")
        self.throttle.order("TERM 1 GL 7", "INIT 1 GL 7 M 1 28 5")
        time.sleep(0.6)
        self.assertEqual(self.driver.told().count("1 GL 7"), 1)
        self.assertNotIn(7, self.station.known)
        self.assertNotIn(9, self.station.turnouts)

    def test_a_locomotive_has_a_slot_from_when_it_first_drives_until_it_is_removed(self):
        """A station of 3 slots: who stands in the dark gives its own to the next. The fourth that drives is told of."""
        self.station.slots = 3
        for n in (11, 12, 13, 14):
            self.throttle.order(f"INIT 1 GL {n} N 1 28 5")
        time.sleep(1)  # the station is asked for its slots
        self.assertEqual(self.station.known, {3})
        self.throttle.order("SET 1 GL 11 1 14 28", "SET 1 GL 12 1 0 28 1")
        self.track(lambda s: s.known == {3, 11, 12}, "three")
        self.throttle.order("SET 1 GL 13 1 14 28")
        self.has("100 INFO 1 GL 13 1 0 28")
        until(lambda: "not driven: 1 GL 13 (the station has 3 slots)" in self.driver.told(), "it is told")
        self.throttle.order("SET 1 GL 12 1 0 28 0")
        self.track(lambda s: not s.functions[12, 0], "12 stands in the dark")
        self.throttle.order("SET 1 GL 13 1 14 28")
        self.track(lambda s: s.cabs.get(13) == (63, 1) and s.known == {3, 11, 13}, "13 has its slot")
        self.throttle.order("TERM 1 GL 11", "SET 1 GL 14 1 14 28")
        self.track(lambda s: s.cabs.get(14) == (63, 1) and s.known == {3, 13, 14}, "one that is removed gives it back")
        self.assertEqual(self.station.cabs[11], (0, 1))

    def test_turnouts_have_a_pace_and_are_behind_all_else(self):
        """30 at once, 20 a second. A station that begins anew throws none, since they lie as they did."""
        turnouts = range(1, 31)
        self.throttle.order(*[f"INIT 1 GA {n} N" for n in turnouts], *[f"SET 1 GA {n} 1 1 20" for n in turnouts],
                            "SET 1 GL 3 1 28 28")
        self.track(lambda s: s.cabs[3] == (126, 1), "a locomotive is before them")
        self.assertLess(len(self.station.turnouts), 15)
        self.track(lambda s: len(s.turnouts) == 30, "all are thrown")
        moments = [moment for moment, text in self.station.log if text.startswith("a ")]
        self.assertGreater(moments[-1] - moments[0], 29 / 20 - 0.1)
        self.station.restart()
        self.rests("station was reset")
        self.assertEqual(self.station.turnouts, {})
        self.restart()
        self.throttle.order(*[f"INIT 1 GA {n} N" for n in turnouts], *[f"SET 1 GA {n} 1 1 20" for n in turnouts[1:]],
                            "SET 1 GA 1 0 1 20")
        self.track(lambda s: s.turnouts == {1: 0}, "after a restart of the server, the one that lies wrong")
        time.sleep(QUIET)
        self.assertEqual(self.station.turnouts, {1: 0})

    def test_a_slow_line_has_the_urgent_first(self):
        """40 commands a second are taken and 100 asked for; then functions that take 2 seconds, and a stop."""
        self.station.rate = 40  # so that 8 commands take far less than the second for which their answer is waited for
        for v in range(200):
            self.throttle.order(f"SET 1 GL 3 1 {v % 100} 100")
            time.sleep(0.01)
        on = " ".join("1" * 29)
        self.throttle.flood([*[f"INIT 1 GL {n} N 1 28 29" for n in (4, 5, 6)],
                             *[f"SET 1 GL {n} 1 0 28 {on}" for n in (4, 5, 6)]])
        self.track(lambda s: s.functions.get((4, 3)), "functions are on their way")
        begun = len(self.station.log)
        self.throttle.order("SET 1 GL 3 2 0 100")
        self.track(lambda s: s.cabs[3][0] == -1, "an emergency stop")
        self.assertLess(len(self.commands("F", begun)), 50)

    def test_a_station_in_the_network(self):
        self.driver.end()
        door = listener()
        door.settimeout(WAIT)
        self.addCleanup(door.close)
        self.driver = self.starts("dcc_ex.py", "--station", f"127.0.0.1:{door.getsockname()[1]}", *self.words)
        client, line = door.accept()[0], os.open(self.link, os.O_RDWR | os.O_NOCTTY)

        def passes(take, give):
            try:
                while more := take(1000):
                    give(more)
            except OSError:
                pass

        for ends in [(client.recv, lambda data: os.write(line, data)), (lambda n: os.read(line, n), client.sendall)]:
            threading.Thread(target=passes, args=ends, daemon=True).start()
        self.joins()
        self.drives()
        self.assertEqual(self.driver.end(), 0)
        self.track(lambda s: s.cabs[3][0] <= 0 and s.power == 0, "SIGTERM: all stand")

    def babbles(self, data):
        """Sends so much as fast as the line takes it, for as long as somebody may read it."""
        while data and self.driver.process.poll() is None:
            if select.select([], [self.station.master], [], 1)[1]:
                with contextlib.suppress(BlockingIOError):
                    data = data[os.write(self.station.master, data):]

    def test_a_station_that_babbles(self):
        """Rubbish, messages without an end, sensors that no bus has, locomotives and speeds that there are not."""
        self.restarts("--silence", 10 * WAIT)
        os.set_blocking(self.station.master, False)
        rubbish = os.urandom(3000).replace(b"<iDCC", b"").replace(b"<l", b"").replace(b"<p", b"")
        rubbish += b"<Q 99999999999999><Q 0><q 4096><X><Q -1><H 1 2>><l 3><l 3 0 999 1><l 99999 0 9 9><p2><# >>"
        rubbish += b"<l 3 " + b"9" * 5000 + b" 9 9>"
        self.babbles(30 * (rubbish + b"<" * 3000) + b">")

        def is_told():
            self.babbles(b"<Q 7>")  # again: a full line drops what the station has to say
            time.sleep(0.2)
            return any(row.startswith("100 INFO 1 FB 7 1") for row in rows(self.server.port))

        until(is_told, "a sensor behind the rubbish")
        self.has("100 INFO 1 GL 3 1 14 28 1 0 1")  # no hand has driven it
        self.throttle.order("SET 1 GL 3 1 28 28")
        self.track(lambda s: s.cabs[3] == (126, 1), "it goes on")
        self.station.stalled = True

        def is_too_long():
            self.babbles(b"x" * 700)  # again: an answer that was on its way may have ended the message
            return "a message without an end" in self.driver.told()

        until(is_too_long, "its line is opened anew")
        self.station.stalled = False
        self.rests("")
        self.drives()
        self.assertIsNone(self.driver.process.poll())

    def test_what_a_station_says_reaches_no_terminal_as_it_is(self):
        self.station.say("<iDCC \x1b]2;title\x07\x9b31m>")
        until(lambda: r"iDCC \x1b]2;title\x07" in self.driver.told(), "it is told")
        self.assertFalse(set(self.driver.told()) & set("\x1b\x07\x9b"))
        self.rests("station was reset")

    def test_a_serial_line_is_taken_alone(self):
        begun = len(self.station.log)
        second = self.starts("dcc_ex.py", "--station", self.link, *self.words)
        self.assertEqual(second.process.wait(WAIT), 1)
        self.assertIn("another program has it", second.told())
        self.assertEqual([text for text in self.commands("", begun) if text != "#"], [])
        self.assertEqual(self.station.cabs[3], (63, 1))
        opens = f"import os\nos.getuid() or os.setuid(65534)\nos.open({os.path.realpath(self.link)!r}, os.O_RDWR)"
        os.chmod(os.path.realpath(self.link), 0o666)
        other = subprocess.run([sys.executable, "-c", opens], capture_output=True, text=True)
        self.assertIn("Device or resource busy", other.stderr)

    def test_a_line_that_is_closed_is_not_hung_up(self):
        """An Arduino begins anew as that happens."""
        self.driver.end()
        mode = termios.tcgetattr(self.station.line.slave)
        mode[2] |= termios.HUPCL
        termios.tcsetattr(self.station.line.slave, termios.TCSANOW, mode)
        self.start()
        self.assertFalse(termios.tcgetattr(self.station.line.slave)[2] & termios.HUPCL)

    def test_wrong_words_end_it_with_status_2_and_one_line(self):
        names = os.path.join(new_folder(), "names")
        with open(names, "w") as file:
            file.write("1 GL 3 = what\n")
        for words in [["--station", "ttyACM0"], ["--station", "localhost:abc"], ["--station", "/etc/passwd"], [],
                      ["--station", self.link, "--bus", "0"], ["--station", self.link, "--names", names],
                      ["--station", "x:1", "--port", "99999"], ["--station", "localhost:1", "--bus", "77"],
                      ["--station", "/dev/null"]]:
            command = [sys.executable, PROGRAMS / "dcc_ex.py", "--port", str(self.server.port), *words]
            ran = subprocess.run(command, capture_output=True, text=True, timeout=WAIT)
            told = [line for line in ran.stderr.splitlines() if not re.match("-- (server|station|not driven): ", line)]
            self.assertEqual((ran.returncode, len(told)), (2, 1), (words, ran.stderr))


class DccExWithLosses(Losses, DccExCase):
    """Nothing starts by itself, and the registry says what the track does."""

    def test_a_station_that_answers_twice_was_not_reset(self):
        """It is asked again while it is silent. What has been switched on by the second answer stays on."""
        self.driver.end()
        self.station.stalled = True
        self.driver = self.starts("dcc_ex.py", "--station", self.link, *self.words[:2], port=self.way.port)
        until(lambda: "is open" in self.driver.told(), "the line is open")
        time.sleep(1.5)  # it has been asked twice
        self.station.stalled = False
        self.joins()
        self.drives()
        begun = len(self.station.log)
        self.station.say(self.banner)
        self.track(lambda s: "t 3 63 1" in self.commands("t", begun), "it is told all anew")
        self.has("100 INFO 1 POWER ON")
        time.sleep(2)
        self.station.restart()
        self.rests("station was reset")

    def test_a_station_that_never_answers(self):
        """Its line is open, and nobody can drive: what is switched on goes off at once."""
        self.driver.end()
        self.station.stalled = True
        self.driver = self.starts("dcc_ex.py", "--station", self.link, "--silence", 10 * WAIT, port=self.way.port)
        until(lambda: re.search("server: joined", self.driver.told()), "the server is found")
        self.has("100 INFO 1 POWER OFF no station")
        self.throttle.order("SET 1 POWER ON", "SET 1 GL 3 1 14 28")
        self.has("100 INFO 1 POWER OFF no station", STANDS)
        self.station.stalled = False

    def test_a_listing_that_takes_long(self):
        """What it tells after the driver has joined is as old as what it told before."""
        self.dies()
        self.way.late = b" 100 INFO 1 GL 3 1 14"
        self.driver = self.starts("dcc_ex.py", "--station", self.link, *self.words, port=self.way.port)
        until(lambda: "100 INFO 1 POWER OFF server was away" in rows(self.server.port), "it has joined")
        self.way.free()
        self.rests("server was away")
        self.assertEqual([text for text in self.commands("t 3") if text != "t 3 0 1"][1:], [])

    def test_a_server_that_is_driven_before_the_driver_is_back(self):
        """What others commanded before it had joined, nobody saw move: it rests."""
        self.way.cut()
        self.restart()
        self.throttle.order("SET 1 POWER ON", "INIT 1 GL 3 N 1 28 5", "SET 1 GL 3 1 14 28")
        self.way.free()
        self.rests("server was away")
        self.drives()

    def test_a_server_that_hangs(self):
        """It is asked every 2 s and has 3 s to answer; then PATIENCE counts, of half a second here. What was commanded
        meanwhile is carried out as it goes on, and is put to rest."""
        self.server.process.send(signal.SIGSTOP)
        begun = time.monotonic()
        self.throttle.socket.sendall(b"SET 1 GL 3 1 28 28\n")
        self.track(lambda s: s.cabs[3] == (0, 1), "it stands")
        self.assertLess(time.monotonic() - begun, 10)  # on a busy machine
        self.server.process.send(signal.SIGCONT)
        self.throttle.line()
        self.rests("server was away")
        self.drives()

    def test_killed_and_ended(self):
        self.throttle.order("INIT 1 GL 9 N 1 28 5", "SET 1 GL 9 1 7 28", "INIT 1 GA 5 N")
        self.track(lambda s: s.cabs.get(9) == (32, 1), "drives")
        self.dies()
        time.sleep(QUIET)
        self.has("100 INFO 1 POWER ON", "100 INFO 1 GL 3 1 14 28")
        self.assertEqual((self.station.power, self.station.cabs[3]), (1, (63, 1)))  # it drives on
        self.throttle.order("TERM 1 GL 9", "SET 1 GA 5 1 1 20")
        self.start()
        self.track(lambda s: s.turnouts == {5: 1}, "a turnout that was put meanwhile")
        self.track(lambda s: s.cabs[9] == (-1, 1), "who is gone stands")
        self.rests("", "server was away")  # as the one or the other is found first
        self.drives()
        self.assertEqual(self.driver.end(), 0)
        self.track(lambda s: s.cabs[3][0] <= 0 and s.power == 0, "SIGTERM: all stand")
        self.has("100 INFO 1 POWER OFF no station", STANDS)

    def test_an_overload(self):
        begun = len(self.station.log)
        super().test_an_overload()
        self.assertIn("0", self.commands("", begun))

    def test_an_overrun_stops_what_is_gone_and_nothing_else(self):
        self.restarts(*PATIENT)
        self.throttle.order("INIT 1 GL 4 N 1 28 5", "SET 1 GL 4 1 14 28")
        self.track(lambda s: s.cabs.get(4) == (63, 1), "both drive")
        begun = len(self.station.log)
        self.way.cut()
        self.throttle.order("TERM 1 GL 4", "SET 1 GL 3 1 28 28")
        self.way.free()
        self.track(lambda s: s.cabs[4] == (0, 1) and s.cabs[3] == (126, 1), "after the overrun")
        self.assertEqual(self.commands("t 3", begun), ["t 3 126 1"])

    def test_a_real_overrun(self):
        self.restarts(*PATIENT)
        self.throttle.order("INIT 1 GL 4 N 1 28 5", "SET 1 GL 4 1 14 28")
        self.track(lambda s: s.cabs.get(4) == (63, 1), "both drive")
        self.overruns(self.driver, "TERM 1 GL 4", "SET 1 GL 3 1 28 28")
        self.track(lambda s: (s.cabs[4], s.cabs[3], s.cabs[9999]) == ((0, 1), (126, 1), (0, 1)), "after the overrun")


class DccExWithHands(Hands, DccExCase):
    """What a hand throttle at the station does comes into the registry, and an echo changes nothing."""

    def test_an_echo_that_is_late_changes_nothing(self):
        """A slider moves, and functions are switched, while the station reports half a second late."""
        self.station.late = 0.5
        begun = len(self.station.log)
        commands = [f"SET 1 GL 3 {v % 2} {v} 126 {v % 2}" for v in range(60)]
        for command in commands:
            self.throttle.order(command)
            time.sleep(0.01)
        time.sleep(1)
        self.has("100 INFO 1 GL 3 1 59 126 1 0 1")
        told = self.commands("t", begun)
        self.assertLessEqual(len(told), 60)
        time.sleep(1)
        self.assertEqual(self.commands("t", begun), told)
        self.station.hand(3, speed=7)
        self.has("100 INFO 1 GL 3 1 7 126 1 0 1")


class Simulated(unittest.TestCase):
    """The simulated stations as programs."""
    program = "simulated"

    def starts(self, name, where):
        """Starts one, and nobody reads what it prints."""
        reading, writing = os.pipe()
        os.close(reading)
        with os.fdopen(writing) as output:
            station = subprocess.Popen([sys.executable, PROGRAMS / name, str(where)], stdin=subprocess.PIPE,
                                       stdout=output, stderr=subprocess.PIPE)
        self.addCleanup(station.kill)
        return station

    def test_once_nobody_reads_them_they_end(self):
        """As `head` wants it, without a word. The link of the one is gone."""
        link, port = os.path.join(new_folder(), "ttyACM0"), free_port()
        station = self.starts("simulated_station.py", link)
        until(lambda: os.path.exists(link), "its line")
        with open(link, "wb") as line:
            line.write(b"<1>")
        self.assertEqual((station.communicate(timeout=WAIT)[1], station.returncode), (b"", 0))
        self.assertFalse(os.path.lexists(link))
        station, off = self.starts("simulated_z21.py", port), bytes.fromhex("070040002180a1")
        with socket.socket(socket.AF_INET, socket.SOCK_DGRAM) as line:
            until(lambda: line.sendto(off, ("127.0.0.1", port)) and station.poll() is not None, "it ends")
        self.assertEqual((station.communicate()[1], station.returncode), (b"", 0))
