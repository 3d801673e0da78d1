"""guard.py: what a session that ended had locked stands."""
import time

from .common import Case, Session, rows, until


class Guard(Case):
    program = "guard"

    def setUp(self):
        super().setUp()
        self.guard = self.starts("guard.py", port=self.way.port)
        until(lambda: "joined" in self.guard.told(), "joined")
        self.throttle.order("INIT 1 GL 3 N 1 28 2", "INIT 1 GL 4 N 1 28 2")

    def one_that_goes(self):
        gone = Session(self.server.port)
        gone.order("INIT 1 GL 9 N 1 28 2", "SET 1 LOCK GL 9 0", "SET 1 GL 9 1 9 28")
        gone.close()
        self.has("100 INFO 1 GL 9 1 0 28")

    def test_what_it_had_locked_stands_and_nothing_else(self):
        gone = Session(self.server.port)
        gone.order("SET 1 LOCK GL 3 0", "SET 1 GL 3 0 9 28 1", "SET 1 GL 4 1 7 28")
        gone.close()
        self.has("100 INFO 1 GL 3 0 0 28 1 0", "100 INFO 1 GL 4 1 7 28")

    def test_who_gives_the_lock_back_lets_it_drive_on(self):
        gone = Session(self.server.port)
        gone.order("SET 1 LOCK GL 3 0", "SET 1 GL 3 1 9 28", "TERM 1 LOCK GL 3")
        time.sleep(0.05)
        gone.close()
        self.one_that_goes()
        self.has("100 INFO 1 GL 3 1 9 28")

    def test_two_that_end_during_an_overrun(self):
        gone = [Session(self.server.port) for _ in range(2)]
        for session, address in zip(gone, (3, 4)):
            session.order(f"SET 1 LOCK GL {address} 0", f"SET 1 GL {address} 1 9 28")
        self.one_that_goes()  # so all that came before has been told
        self.way.cut()
        for session in gone:
            session.close()
        self.lacks("100 INFO 1 LOCK GL")
        self.way.free()
        self.has("100 INFO 1 GL 3 1 0 28", "100 INFO 1 GL 4 1 0 28")

    def test_a_real_overrun(self):
        gone = Session(self.server.port)
        gone.order("SET 1 LOCK GL 3 0", "SET 1 GL 3 1 9 28", "SET 1 GL 4 1 7 28")
        self.overruns(self.guard)
        self.has("100 INFO 1 GL 3 1 9 28")  # who is there drives on
        gone.close()
        self.has("100 INFO 1 GL 3 1 0 28", "100 INFO 1 GL 4 1 7 28")

    def test_a_restart_stops_nothing_and_it_goes_on(self):
        gone = Session(self.server.port)
        gone.order("SET 1 LOCK GL 3 0", "SET 1 GL 3 1 9 28")
        joined = self.guard.told().count("started anew")
        self.restart()
        self.throttle.order("INIT 1 GL 3 N 1 28 2", "SET 1 GL 3 1 5 28")
        until(lambda: self.guard.told().count("started anew") > joined, "joined again")
        self.one_that_goes()
        self.assertIn("100 INFO 1 GL 3 1 5 28 0 0", rows(self.server.port))
