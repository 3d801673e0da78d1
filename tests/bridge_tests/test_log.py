"""log.py: each change and each session, with the time of day."""
import re
import subprocess
import sys
import time
from pathlib import Path

from serving import UNREAD

from .common import PROGRAMS, WAIT, Case, Session, connects, free_port, new_folder, until
from .test_srcpd import Client as OldClient

STAMP = re.compile(r"^\d{4}-\d\d-\d\d \d\d:\d\d:\d\d\.\d{3} ", re.M)


class Log(Case):
    program = "log"

    def setUp(self):
        super().setUp()
        self.throttle.order("INIT 1 GL 7 N 1 28 2", "SET 1 GL 7 1 9 28")
        names = Path(new_folder(), "names.toml")
        names.write_text('"1 GL 3" = "V 100"\n')
        time.sleep(0.01)  # so that its panel begins at a later moment
        self.log = self.starts("log.py", "--names", names, port=self.way.port)
        until(lambda: "joined a server" in self.log.told(), "joined")

    def lines(self):
        return STAMP.sub("", self.log.told()).splitlines()

    def test_each_change_is_written_once(self):
        self.throttle.order("INIT 1 GL 3 N 1 28 2", "SET 1 LOCK GL 3 0", "SET 1 GL 3 0 9 28 1", "SET 1 GL 3 2 0 28",
                            "SET 1 POWER ON main line", "INIT 1 GA 5 N", "SET 1 GA 5 1 1 -1", "SET 1 FB 7 1",
                            "TERM 1 GA 5", "TERM 1 LOCK GL 3")
        until(lambda: "V 100: unlocked" in self.lines(), "all written")
        lines = self.lines()
        want = ["V 100: made: N 1 28 2", "V 100: forward 0 of 0", "V 100: locked by session 1",
                "V 100: backward 9 of 28 F0", "V 100: emergency stop 0 of 28 F0", "1 POWER: ON main line",
                "1 GA 5: made: N", "1 GA 5: port 0: 0", "1 GA 5: port 1: 0", "1 GA 5: port 1: 1", "1 FB 7: 1",
                "1 GA 5: the accessory is gone", "V 100: unlocked"]
        self.assertEqual(lines[lines.index(want[0]):], want)
        self.assertFalse([line for line in lines if re.search("GL 7|FB 8", line)])  # they were there before
        self.assertTrue(all(STAMP.match(line) for line in self.log.told().splitlines() if "V 100" in line))

    def test_sessions_have_the_names_of_their_programs(self):
        """Those of the programs of this machine: as they are there, lock a locomotive, and end. Of one that gives no
        name the number alone is told, as of one that has its number after the server was started anew."""
        proxy = self.starts("srcpd.py", "--listen", listen := free_port(), port=self.way.port)
        until(lambda: connects(listen) and "server: joined" in proxy.told(), "the proxy is there")
        client = OldClient(listen, "COMMAND")
        name = "srcpd.py: client 127.0.0.1"
        until(lambda: f"0 SESSION {client.id}: it is of {name}" in self.lines(), "whose it is")
        self.assertIn(f"0 SESSION {client.id}: COMMAND begins", self.lines())
        client.ask("SET 1 LOCK GL 7 0", "TERM 0 SESSION")
        until(lambda: f"0 SESSION {client.id} ({name}): ends" in self.lines(), "it ends")
        self.assertIn(f"1 GL 7: locked by session {client.id} ({name})", self.lines())
        self.assertIn("0 SESSION 1: COMMAND begins", self.lines())
        self.assertFalse([line for line in self.lines() if line.startswith("0 SESSION 1") and "it is of" in line])
        proxy.end()
        self.restart()
        until(lambda: self.lines().count("joined a server that was started") == 2, "joined again")
        others = [Session(self.server.port) for _ in range(client.id)]
        other = next(session for session in others if session.session == client.id)
        other.order("INIT 1 GL 7 N 1 28 2", "SET 1 LOCK GL 7 0")
        until(lambda: f"1 GL 7: locked by session {client.id}" in self.lines(), "the lock is written")

    def test_the_server_goes_and_comes(self):
        self.server.restart()
        until(lambda: self.lines().count("joined a server that was started") == 2, "joined again")
        self.assertIn("the server is away", self.lines())
        self.assertIn("1 GL 7: the locomotive is gone", self.lines())

    def test_once_nobody_reads_it_it_ends(self):
        """As `head` wants it, without a word."""
        words = [sys.executable, PROGRAMS / "log.py", "--port", str(self.server.port)]
        with subprocess.Popen(words, stdout=subprocess.PIPE, stderr=subprocess.PIPE, text=True) as log:
            self.addCleanup(log.kill)
            while "joined" not in log.stdout.readline():
                pass
            log.stdout.close()
            self.throttle.order("SET 1 FB 7 1")
            told = log.communicate(timeout=WAIT)[1]
        self.assertEqual((log.returncode, told), (UNREAD, "-- server: joined, started anew\n"))
