"""doctor.py and status.py of examples/, with a driver and a simulated station."""
import os
import signal
import subprocess
import sys

from .common import TOP, new_folder, until
from .test_dcc_ex import DccExCase


class Doctor(DccExCase):
    program = "doctor"

    def start(self, station=None, *words):
        """Starts the driver at the server's own port, by which it tells of its sessions."""
        self.environment = os.environ | {"XDG_RUNTIME_DIR": new_folder()}  # other cases have drivers too
        words = "--station", station or self.link, *self.words, *words
        self.driver = self.starts("dcc_ex.py", *words, env=self.environment)
        self.joins()

    def asks(self, file, *words):
        """The lines that a program of examples/ prints, and its status."""
        command = [sys.executable, TOP / "examples" / file, *words, "--port", str(self.server.port)]
        done = subprocess.run(command, capture_output=True, text=True, env=self.environment)
        return done.stdout, done.returncode

    def test_the_driver_tells_how_its_station_is(self):
        until(lambda: "9 told: 63 of 126, forward" in self.asks("doctor.py", "3")[0], "the locomotive was told")
        told, status = self.asks("doctor.py", "3")
        self.assertEqual(status, 0)
        self.assertIn(f"8 station: {self.link} answers", told)
        self.throttle.order("INIT 1 GL 7 M 1 28 5", "SET 1 GL 7 1 14 28")
        told, status = self.asks("doctor.py", "7")
        self.assertEqual((told.splitlines()[-2], status),
                         ("9 told: the station does not drive it: protocol M", 9))
        self.station.unplug()
        until(lambda: "4 power: it is off: no station" in self.asks("doctor.py", "3")[0], "no station")
        self.station = type(self.station)(self.link)

    def test_a_driver_that_stands_still(self):
        """Right after a command, and with the driver of another folder. Once it goes on, all is sound."""
        self.restarts("--asleep", 1000)  # if not, the power is off as somebody asks
        self.driver.send(signal.SIGSTOP)
        for v in (60, 70):
            self.throttle.order(f"SET 1 GL 3 1 {v} 126")
            told, status = self.asks("doctor.py", "3")
            self.assertEqual((told.splitlines()[-2], status),
                             ("7 driver: it stands still: somebody has stopped its process", 7))
        self.driver.send(signal.SIGCONT)
        self.throttle.order("SET 1 GL 3 0 71 126")
        told, status = self.asks("doctor.py", "3")
        self.assertIn("9 told: 71 of 126, backward", told)
        self.assertEqual(status, 0)
        self.environment |= {"XDG_RUNTIME_DIR": new_folder()}
        told, status = self.asks("doctor.py", "3")
        unseen = r"I cannot see what (dcc_ex|z21)\.py of \w+ does"  # cases beside this one have drivers too
        self.assertRegex(told.splitlines()[-1], unseen)
        self.assertEqual(status, 7)

    def test_a_hand_at_the_station_drives(self):
        """One that the driver made, and one that it drove before. Both go back to a throttle."""
        for address in ("77", "3"):
            self.station.hand(int(address), speed=40)
            by_hand = "9 told: nothing, since a hand throttle at the station drives it. If it stands still"
            until(lambda: by_hand in self.asks("doctor.py", address)[0], "a hand drives it")
            self.assertEqual(self.asks("doctor.py", address)[1], 0)
            self.throttle.order(f"SET 1 GL {address} 1 20 126")
            until(lambda: "9 told: 20 of 126, forward" in self.asks("doctor.py", address)[0], "a throttle drives it")

    def test_a_station_that_has_forgotten_a_locomotive(self):
        """Another throttle there had it give its slot away. It keeps its direction, and drives once it is driven."""
        for _ in range(2):
            self.throttle.order("SET 1 GL 3 0 20 126")
            self.track(lambda s: s.cabs[3] == (20, 0), "it drives")
            until(lambda: "9 told: 20 of 126, backward" in self.asks("doctor.py", "3")[0], "it is told")
            self.station.forgets(3)
            self.has("100 INFO 1 GL 3 0 0 126")
            forgotten = "9 told: the station has forgotten it: another throttle there gave its slot away"
            until(lambda: forgotten in self.asks("doctor.py", "3")[0], "it says so")
            self.assertEqual(self.asks("doctor.py", "3")[1], 9)
        self.assertIn("has forgotten locomotive 3: another throttle there gave its slot away", self.driver.told())
        self.throttle.order("SET 1 GL 3 0 20 126")
        until(lambda: self.asks("doctor.py", "3")[1] == 0, "it drives")

    def test_the_sessions_of_the_driver_have_its_name(self):
        sessions = self.asks("status.py")[0].splitlines()[0]
        self.assertEqual(sessions.count("(dcc_ex.py)"), 2)
