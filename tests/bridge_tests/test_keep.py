"""keep.py: what FILE holds, and what is made again, over restarts, kills and cut listings."""
import os
import signal
import time

from .common import Case, new_folder, rows, until

MADE = ["INIT 1 GL 3 N 1 28 5", "SET 1 GL 3 0 14 28 1 0 1", "INIT 1 GL 10239 P", "INIT 1 GA 5 N", "SET 1 GA 5 0 1 20",
        "INIT 1 GA 6 M", "INIT 2 GA 7 N", "SET 2 GA 7 1 1 20", "SET 2 GA 7 3 1 -1", "SET 1 GL 10239 0 9 28",
        "SET 1 GL 10239 2 0 28", "SET 1 LOCK GL 3 0", "SET 1 POWER ON by hand"]
KEPT = ["INIT 1 GL 3 N 1 28 5", "SET 1 GL 3 0 0 28 1 0 1 0 0", "INIT 1 GL 10239 P 1 28 5",
        "SET 1 GL 10239 0 0 28 0 0 0 0 0", "INIT 1 GA 5 N", "SET 1 GA 5 0 0 -1", "INIT 1 GA 6 M", "INIT 2 GA 7 N",
        "SET 2 GA 7 1 0 -1", "SET 2 GA 7 3 1 -1"]


class Keep(Case):
    program = "keep"

    def setUp(self):
        super().setUp()
        self.path = os.path.join(new_folder(), "layout.srcp")

    def start(self, *more):
        self.keep = self.starts("keep.py", self.path, "--rest", 0.1, *more, port=self.way.port)

    def start_before_all(self):
        """Starts the keeper, and waits until it is told what happens."""
        self.start()
        until(lambda: "server: joined" in self.keep.told(), "it follows")

    def start_with_all(self):
        self.start_before_all()
        self.throttle.order(*MADE)
        self.kept(KEPT)

    def text(self):
        return open(self.path, encoding="latin-1").read().splitlines() if os.path.exists(self.path) else []

    def devices(self):
        return sorted(row for row in rows(self.server.port) if (" GL " in row or " GA " in row) and "LOCK" not in row)

    def kept(self, wanted):
        until(lambda: self.text() == wanted, "FILE")

    def stays_kept(self, wanted):
        """FILE comes to hold these commands, and holds them for as long as three writings take."""
        def holds():
            end = time.monotonic() + 0.3
            while self.text() == wanted and time.monotonic() < end:
                time.sleep(0.02)
            return time.monotonic() >= end
        until(holds, "FILE stays")

    def test_written_and_made_again(self):
        self.start_with_all()
        self.has("100 INFO 1 GA 5 0 0")
        before = [row.replace("GL 3 0 14 28", "GL 3 0 0 28") for row in self.devices()]
        before = [row.replace("GL 10239 2 0", "GL 10239 0 0") for row in before]
        for _ in range(3):
            self.restart()
            until(lambda: self.devices() == before, "all are there again, and the locomotive stands")
            self.has("100 INFO 1 POWER OFF")
        self.stays_kept(KEPT)

    def test_a_turnout_that_lies_as_an_older_pulse_does_not(self):
        """The port that was set to 1 last comes last, also if another's pulse ended later: so it lies later on."""
        self.start_before_all()
        self.throttle.order("INIT 1 GA 5 N", "SET 1 GA 5 0 1 600", "SET 1 GA 5 1 1 100")
        self.has("100 INFO 1 GA 5 0 1")
        self.has("100 INFO 1 GA 5 0 0")
        self.stays_kept(["INIT 1 GA 5 N", "SET 1 GA 5 0 0 -1", "SET 1 GA 5 1 0 -1"])

    def test_a_restart_within_the_wait_to_write(self):
        self.start_with_all()
        for n in range(6):
            self.throttle.order("SET 1 GL 10239 1 0 28")
            time.sleep(0.03 * n)
            self.restart()
            until(lambda: len(self.devices()) == 15, "all are there")
            self.assertEqual(len(self.text()), len(KEPT))

    def test_a_panel_that_is_late(self):
        """FILE loses nothing, though the panel tells late of the last devices that were made again."""
        self.start_with_all()
        self.way.late = b" 100 INFO 2 GA 7 3 1"
        self.restart()
        until(lambda: "made 5 devices" in self.keep.told(), "all are made")
        self.stays_kept(KEPT)
        self.way.free()
        self.throttle.order("TERM 1 GA 6")
        self.stays_kept([command for command in KEPT if command != "INIT 1 GA 6 M"])

    def test_a_locomotive_that_a_throttle_made_first_drives_on(self):
        self.start_with_all()
        self.keep.send(signal.SIGSTOP)  # the keeper comes later
        self.restart()
        self.throttle.order("INIT 1 GL 3 N 1 28 2", "SET 1 GL 3 1 9 28")
        self.keep.send(signal.SIGCONT)
        self.has("101 INFO 1 GL 10239", "100 INFO 1 GL 3 1 9 28 0 0")

    def test_what_is_taken_out_stays_out_also_over_an_overrun(self):
        self.start_with_all()
        self.throttle.order("TERM 1 GA 6")
        until(lambda: "INIT 1 GA 6 M" not in self.text(), "gone from FILE")
        self.way.cut()
        self.throttle.order("TERM 1 GL 10239")
        self.way.free()
        until(lambda: "INIT 1 GL 10239 P 1 28 5" not in self.text(), "gone from FILE after an overrun")
        time.sleep(0.3)
        self.lacks("101 INFO 1 GL 10239", "101 INFO 1 GA 6")

    def test_a_real_overrun(self):
        self.start_with_all()
        self.overruns(self.keep, "TERM 1 GA 6", "SET 1 GL 3 1 14 28 0 0 1")
        self.kept(["INIT 1 GL 3 N 1 28 5", "SET 1 GL 3 1 0 28 0 0 1 0 0", *KEPT[2:6], *KEPT[7:]])

    def test_a_cut_listing_loses_nothing(self):
        self.throttle.order(*[f"INIT 1 GL {n} N 1 28 5" for n in range(1, 101)])
        self.start()
        until(lambda: len(self.text()) == 200, "100 locomotives")
        self.keep.end(signal.SIGKILL)
        self.way.listed = 3000
        self.start()
        until(lambda: self.way.cuts > 2, "listings that are cut")
        self.assertEqual(len(self.text()), 200)
        self.way.listed = None
        self.throttle.order("SET 1 GL 3 0 0 28 1")
        until(lambda: "SET 1 GL 3 0 0 28 1 0 0 0 0" in self.text(), "the change, once a listing is whole")

    def test_killed_at_the_moment_of_writing_and_on_sigterm(self):
        self.throttle.order(*[f"INIT 1 GL {n} N 1 28 29" for n in range(1, 301)])
        self.start()
        until(lambda: len(self.text()) == 600, "300 locomotives")
        for n in range(5):
            self.throttle.order(f"SET 1 GL 100 {n % 2} 0 28 1")
            time.sleep(0.09 + n * 0.005)
            self.keep.end(signal.SIGKILL)
            self.assertEqual(len(self.text()), 600)
            self.start()
            until(lambda: "joined" in self.keep.told(), "it follows")
        self.assertEqual(self.keep.end(), 0)

    def test_a_file_that_cannot_be_written_ends_it_and_stays_as_it_was(self):
        self.start_with_all()
        os.mkdir(self.path + ".new")
        self.throttle.order("TERM 1 GA 6")
        self.assertEqual(self.keep.process.wait(20), 1)
        self.assertEqual(self.text(), KEPT)
        self.assertIn(f"-- {self.path}: cannot be written: Is a directory\n", self.keep.told())

    def test_power_and_what_is_refused(self):
        with open(self.path, "wb") as file:
            file.write(b"SET 1 POWER ON by hand \x85\nINIT 9 GL 1 P\n\nINIT 1 GL 3 P\nINIT 1 GL x\nTERM 0 SESSION\n"
                       b"what\n")
        self.start("--power")
        self.has("100 INFO 1 POWER ON by hand \x85", "101 INFO 1 GL 3")
        until(lambda: os.path.exists(self.path + "~"), "what the server refuses is kept in FILE~")
        until(lambda: b"SET 1 GL 3 1 0 0 0 0 0 0 0\n" in open(self.path, "rb").read(), "FILE")
        self.assertEqual(open(self.path, "rb").read(), b"SET 1 POWER ON by hand \x85\nINIT 1 GL 3 P 1 28 5\n"
                                                       b"SET 1 GL 3 1 0 0 0 0 0 0 0\n")
        self.assertIn(b"INIT 9 GL 1 P\n", open(self.path + "~", "rb").read())
        self.assertEqual(self.keep.told().count("server: joined"), 1)
        self.assertIn("made 1 devices", self.keep.told())

    def test_a_file_that_a_person_has_edited(self):
        """Its words may have any spaces and tabs between them, and before them, as at the server. No train starts."""
        with open(self.path, "w") as file:
            file.write("  INIT 1 GL 3 N 1 28 5\n\tset 1  gl 3 0 14 28 1\nINIT\t1  GL 4 N 1 28 1\r\n"
                       "init 1\tGA\t5 n\nset 1\tGA\t5 0 0 -1\nset 1\tGA\t5 1 0 -1\n")
        self.start()
        self.has("100 INFO 1 GL 3 0 0 28 1 0 0 0 0", "101 INFO 1 GL 4 N 1 28 1", "101 INFO 1 GA 5 N")
        self.stays_kept(["INIT 1 GL 3 N 1 28 5", "SET 1 GL 3 0 0 28 1 0 0 0 0", "INIT 1 GL 4 N 1 28 1",
                         "SET 1 GL 4 1 0 0 0", "INIT 1 GA 5 N", "SET 1 GA 5 0 0 -1", "SET 1 GA 5 1 0 -1"])

    def test_a_file_that_cannot_be_read_ends_it(self):
        os.mkdir(self.path)
        self.start()
        self.assertEqual(self.keep.process.wait(20), 1)
