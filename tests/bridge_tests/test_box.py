"""box.py: routes that throttles ask for, over refusals, kills, restarts and panels that are lost."""
import os
import re
import shutil
import signal
import subprocess
import sys
import time
from pathlib import Path

from . import common
from .common import (LAYOUT, PROGRAMS, TOP, WAIT, Case, Process, Session, free_port, is_full, new_folder,
                     plan_of_two_buses, position_of, program, rows, sessions, until)
from .test_web import Events

PLAN = plan_of_two_buses()
STOPS = [f"100 INFO 2 GA {number} 0 1" for number in (1, 2, 3)]
REST = (1, STOPS[0]), (2, STOPS[0]), (3, STOPS[1]), (4, STOPS[2])
SETS = ["100 INFO 1 LOCK GA 1 0", "100 INFO 1 GA 1 0 1", "100 INFO 2 GA 1 2 1", "100 INFO 3 FB 1 1"]
GIVES_BACK = ["100 INFO 2 GA 1 0 1", "100 INFO 3 FB 1 0", "102 INFO 1 LOCK GA 1"]


class BoxCase(Case):
    program = "box"
    layout = LAYOUT + '[[bus]]\nnumber = 3\ngroups = ["GA", "FB"]\nga_max = 9\nga_ports = 3\nfb_ports = 9\n'

    def begin(self, plan=PLAN):
        """Starts the box, and waits until it has put all to rest."""
        panel = Session(self.server.port, "INFO")
        panel.hears_until(b"100 INFO 3 FB 9 0\n")
        self.box = self.starts("box.py", "--plan", plan, "--program", common.SERVER, port=self.way.port,
                               start_new_session=True)
        self.is_at_rest(panel)

    def is_at_rest(self, panel):
        """Waits until a panel was told of each route that its signal was stopped, and then that it is not set."""
        self.hears(panel, *[line for number, stop in REST for line in (stop, f"100 INFO 3 FB {number} 0")])

    def hears(self, panel, *wanted):
        """Waits until a panel was told lines that begin so, in that order, since it was asked last."""
        for begin in wanted:
            while not panel.line().decode().partition(" ")[2].startswith(begin):
                pass

    def follows(self):
        """Returns a panel that has heard its listing."""
        panel = Session(self.server.port, "INFO")
        panel.hears_until(b" 100 INFO 3 FB 9 0\n")
        return panel

    def ask(self, *routes):
        self.throttle.order(*[f"SET 3 GA {number} 1 1 250" for number in routes])

    def give(self, number):
        self.throttle.order(f"SET 3 GA {number} 0 1 250")

    def is_set(self, *routes):
        self.has(*[f"100 INFO 3 FB {number} 1" for number in routes])

    def told(self, text):
        until(lambda: text in self.box.told(), text)

    def lies_back(self, number, bus=3):
        """Waits until an accessory was put to port 0 last."""
        until(lambda: position_of(self.server.port, bus, number) == 0, f"accessory {number} lies back")

    def signals_are_stopped(self):
        for number in (1, 2, 3):
            self.lies_back(number, bus=2)


class Box(BoxCase):
    def test_a_route_is_set_and_given_back(self):
        self.begin()
        panel = self.follows()
        self.ask(1)
        self.hears(panel, *SETS)
        self.told("-- route 1 set: West to track 1\n")
        self.give(1)
        self.hears(panel, *GIVES_BACK)
        self.told("-- route 1 given back: West to track 1\n")
        self.lacks("100 INFO 1 LOCK")

    def test_it_makes_what_is_not_there(self):
        self.begin()
        self.has(*[f"101 INFO 1 GA {number} N" for number in (1, 2)])
        self.has(*[f"101 INFO 2 GA {number} N" for number in (1, 2, 3)])
        self.has(*[f"101 INFO 3 GA {number} N" for number in (1, 2, 3, 4)])
        self.assertEqual(sum(" 101 " in f" {row}" and " GA " in row for row in rows(self.server.port)), 9)

    def test_what_others_make_first_is_as_they_made_it(self):
        """As keep.py does after a restart: the box waits for it."""
        words = "--plan", PLAN, "--program", common.SERVER, "--port", self.server.port, "--again", 1
        self.box = Process(sys.executable, PROGRAMS / "box.py", *words)
        self.addCleanup(self.box.end, signal.SIGKILL)
        panel = self.follows()
        self.told("-- server: joined")
        time.sleep(0.5)
        self.throttle.order("INIT 1 GA 1 M")
        lines = panel.hears_until(b"101 INFO 2 GA 3 N\n").decode().splitlines()
        made = [line.split()[5:] for line in lines if re.search(" 101 INFO [123] GA ", line)]
        self.assertEqual(made[0], ["1", "M"])
        self.assertEqual(made[1:], [[str(number), "N"] for number in (1, 2, 3, 4, 2, 1, 2, 3)])

    def test_one_that_conflicts_waits(self):
        """Both lead over the same turnout, so the second one is set as the first one is given back."""
        self.begin()
        panel = self.follows()
        self.ask(1, 2, 3)
        self.is_set(1, 3)
        self.assertIn("100 INFO 3 FB 2 0", rows(self.server.port))
        self.give(1)
        self.hears(panel, *SETS, *GIVES_BACK, "100 INFO 1 GA 1 1 1", "100 INFO 3 FB 2 1")
        said = ["1 set", "3 set", "1 given back", "2 set"]
        until(lambda: re.findall(r"-- route (.*):", self.box.told()) == said, said)

    def test_a_locked_turnout_is_moved_by_nobody_else(self):
        self.begin()
        self.ask(1)
        self.is_set(1)
        for command in ("SET 1 GA 1 1 1 -1", "SET 1 GA 1 0 0 -1", "TERM 1 GA 1", "INIT 1 GA 1 P", "TERM 1 LOCK GA 1"):
            self.assertEqual(self.throttle.ask(command), "414 ERROR device locked", command)
        self.give(1)
        self.lacks("100 INFO 1 LOCK")
        self.throttle.order("SET 1 GA 1 1 1 -1")

    def test_what_stops_trains_leaves_routes(self):
        """STOP ALL, power that goes off, and guard.py."""
        self.begin()
        port, guard = free_port(), self.starts("guard.py")
        web = self.starts("web.py", "--web", port)
        until(lambda: "joined" in guard.told() and "joined" in web.told(), "both have joined")
        self.throttle.order("INIT 1 GL 3 N 1 28 0", "SET 1 GL 3 1 9 28")
        self.ask(1)
        self.is_set(1)
        page = Events(port)
        self.addCleanup(page.leaves)
        page.post("", "/stop")
        self.has("100 INFO 1 GL 3 1 0 28")
        self.throttle.order("SET 1 POWER ON", "SET 1 POWER OFF")
        time.sleep(0.3)
        self.has(SETS[0], SETS[3])
        self.assertEqual(self.throttle.ask("SET 1 GA 1 1 1 -1"), "414 ERROR device locked")
        self.box.end(signal.SIGKILL)
        self.lacks("100 INFO 1 LOCK")
        time.sleep(0.3)
        self.assertEqual(guard.told(), "-- server: joined, started anew\n")

    def test_a_block_that_is_occupied(self):
        self.throttle.order("SET 1 FB 2 1")
        self.begin()
        panel = self.follows()
        self.ask(1)
        time.sleep(0.3)
        self.lacks("100 INFO 1 LOCK", "100 INFO 3 FB 1 1")
        self.throttle.order("SET 1 FB 2 0")
        self.hears(panel, "100 INFO 1 FB 2 0", *SETS)

    def test_a_block_that_fills(self):
        """The signal of a set route is stopped as a train comes into its block. The route stays until it is given
        back, and its signal shows go only once it is set again."""
        self.begin()
        self.ask(1)
        self.is_set(1)
        panel = self.follows()
        self.throttle.order("SET 1 FB 2 1")
        self.hears(panel, "100 INFO 1 FB 2 1", STOPS[0])
        self.told("-- route 1: its signal is stopped, sensor 1 2 is occupied\n")
        self.throttle.order("SET 1 FB 2 0", "SET 1 FB 2 1", "SET 1 FB 2 0")
        time.sleep(0.5)
        self.has(SETS[0], SETS[3])
        self.assertEqual(position_of(self.server.port, 2, 1), 0)
        self.give(1)
        self.hears(panel, *GIVES_BACK)
        self.ask(1)
        self.hears(panel, *SETS)

    def test_a_signal_that_is_stopped_by_hand(self):
        """By port 2 of its route's accessory. The route keeps its locks, also if another one waits for its turnout, and
        its signal shows go once it was given back and set anew."""
        self.begin()
        self.ask(1)
        self.is_set(1)
        self.ask(2)
        panel = self.follows()
        self.throttle.order("SET 3 GA 1 2 1 250", "SET 3 GA 3 2 1 250")  # route 3 is not set
        self.hears(panel, "100 INFO 3 GA 1 2 1", STOPS[0])
        self.told("-- route 1: its signal is stopped, by hand\n")
        time.sleep(0.5)
        self.has(SETS[0], SETS[3])
        self.assertEqual([position_of(self.server.port, *key) for key in ((2, 1), (1, 1))], [0, 0])
        self.give(1)
        self.hears(panel, *GIVES_BACK, "100 INFO 3 FB 2 1")
        self.give(2)
        self.hears(panel, "100 INFO 3 FB 2 0")
        self.ask(1)
        self.hears(panel, *SETS)

    def test_sensors_that_are_not_known(self):
        """Those of a bus whose station does not answer, or whose driver is gone, are not free, whatever they were told
        to be last."""
        self.begin()
        for why in ("no station", "no driver"):
            self.ask(1)
            self.is_set(1)
            panel = self.follows()
            self.throttle.order("SET 1 POWER ON", f"SET 1 POWER OFF {why}")
            self.hears(panel, STOPS[0])
            self.give(1), self.lacks("100 INFO 1 LOCK")
            self.ask(1)
            time.sleep(0.5)
            self.lacks("100 INFO 1 LOCK", "100 INFO 3 FB 1 1")
            self.throttle.order("SET 1 POWER OFF station says off")
            self.hears(panel, "100 INFO 1 POWER OFF station says off", *SETS)
            self.give(1), self.lacks("100 INFO 1 LOCK")
        self.assertIn("-- bus 1: its sensors are not known\n", self.box.told())

    def test_a_sensor_that_was_not_known_has_not_fallen(self):
        self.begin()
        self.ask(1)
        self.is_set(1)
        self.throttle.order("SET 1 FB 5 1", "SET 1 POWER ON", "SET 1 POWER OFF no station", "SET 1 FB 5 0",
                            "SET 1 POWER OFF station says off")
        self.told("-- bus 1: its sensors are known again\n")
        time.sleep(0.3)
        self.has(SETS[0], SETS[3])

    def test_who_asks_again_as_a_route_is_given_back(self):
        """Each ask counts, also one that comes as soon as anybody hears that the route was given back."""
        self.begin()
        panel = self.follows()
        for _ in range(20):
            self.ask(1)
            self.hears(panel, "100 INFO 3 FB 1 1")
            self.throttle.order("SET 1 FB 5 1", "SET 1 FB 5 0")
            self.hears(panel, "100 INFO 3 FB 1 0")
        for _ in range(20):
            self.ask(1)
            self.hears(panel, "100 INFO 3 FB 1 1")
            self.throttle.order("SET 1 FB 5 1", "SET 1 FB 5 0", "SET 3 GA 1 1 1 250")
            self.hears(panel, "100 INFO 3 FB 1 0", "100 INFO 3 FB 1 1")
            self.assertEqual(position_of(self.server.port, 3, 1), 1)
            self.give(1)
            self.hears(panel, "100 INFO 3 FB 1 0")

    def test_a_second_box(self):
        """It waits, says why, and leaves all as it is; it begins once the first one has ended."""
        self.begin()
        self.ask(1)
        self.is_set(1)
        first, self.box = self.box, self.starts("box.py", "--plan", PLAN, "--program", common.SERVER, "--again", 0.2)
        self.told("Does another box.py set the routes of this plan? This one waits\n")
        [lock] = [row for row in rows(self.server.port) if row.startswith("100 INFO 2 LOCK GA 1 ")]
        self.told(f"-- signal 2 1 is locked by session {lock.split()[-1]}. ")
        time.sleep(0.5)
        self.has(SETS[0], SETS[3])
        self.assertEqual(position_of(self.server.port, 2, 1), 2)
        self.assertNotIn("given back", first.told())
        first.end(signal.SIGTERM)
        self.told("-- none of 4 routes is set\n")
        self.ask(1)
        self.is_set(1)

    def test_signals_are_those_of_the_box(self):
        """Nobody else shows one or takes it out, and none has a port left at 1 that shows go to who comes later."""
        self.throttle.order("INIT 2 GA 3 N", "SET 2 GA 3 2 1 -1")
        self.begin()
        self.has("100 INFO 2 GA 3 2 0")
        for command in ("SET 2 GA 3 2 1 250", "SET 2 GA 3 0 1 250", "TERM 2 GA 3", "SET 2 LOCK GA 3 0"):
            self.assertEqual(self.throttle.ask(command), "414 ERROR device locked", command)

    def test_turnouts_take_their_time(self):
        """A signal shows go, and a route is set, only once its station can have moved each turnout."""
        plan = Path(new_folder(), "plan.toml")
        plan.write_text("bus = 3\n[[route]]\nnumber = 1\nsignal = [2, 1, 2, 0]\n"
                        f"turnouts = {[[1, address, 1] for address in range(1, 5)]}\n")
        self.box = self.starts("box.py", "--plan", plan, "--program", common.SERVER, "--turnout-pace", 4)
        self.told("-- none of 1 routes is set\n")
        panel = self.follows()
        self.ask(1)
        self.hears(panel, "100 INFO 1 GA 1 1 1")
        began = time.monotonic()
        self.hears(panel, "100 INFO 1 GA 4 1 1")
        self.assertGreater(time.monotonic() - began, 0.7)
        self.hears(panel, "100 INFO 2 GA 1 2 1")
        self.assertGreater(time.monotonic() - began, 0.95)
        self.hears(panel, "100 INFO 3 FB 1 1")

    def test_a_train_gives_its_route_back(self):
        """Its accessory lies then as that of a route that was given back, so no display shows that it waits."""
        self.begin()
        panel = self.follows()
        self.ask(1)
        self.throttle.order("SET 3 GA 1 1 1 -1", "SET 1 FB 5 1")
        self.hears(panel, *SETS)
        self.throttle.order("SET 1 FB 5 0")
        self.hears(panel, *GIVES_BACK)
        self.has("100 INFO 3 GA 1 1 0")
        self.lies_back(1)
        self.ask(1)
        self.hears(panel, *SETS)

    def test_a_turnout_that_another_has_locked(self):
        """Whoever asks for a route over it is refused, and displays show that it does not wait. Other routes stay."""
        self.begin()
        self.ask(3)
        self.is_set(3)
        self.throttle.order("SET 1 LOCK GA 1 0")
        self.ask(1, 2)
        self.told("-- SET 1 LOCK GA 1 0: 414 ERROR device locked\n")
        for number in (1, 2):
            self.lies_back(number)
        self.throttle.order("TERM 1 LOCK GA 1")
        time.sleep(0.3)
        self.lacks("100 INFO 1 LOCK GA 1")
        self.ask(2)
        self.is_set(2, 3)

    def test_a_turnout_that_was_removed(self):
        """It is made again as a route locks it."""
        self.begin()
        self.throttle.order("TERM 1 GA 1")
        self.ask(1)
        self.is_set(1)
        self.has("101 INFO 1 GA 1 N", "100 INFO 1 GA 1 0 0")

    def test_a_signal_that_another_has_locked(self):
        """The box waits for it, and locks none meanwhile."""
        self.throttle.order("INIT 2 GA 2 N", "SET 2 LOCK GA 2 0")
        self.box = self.starts("box.py", "--plan", PLAN, "--program", common.SERVER, "--again", 0.2)
        self.told("-- signal 2 2 is locked by session ")
        until(lambda: not [row for row in rows(self.server.port) if "2 LOCK GA 1" in row], "no other signal is locked")
        self.throttle.order("TERM 2 LOCK GA 2")
        self.told("-- none of 4 routes is set\n")
        self.ask(1)
        self.is_set(1)

    def test_it_is_killed_and_begun_again(self):
        """Signals and sensors stay until it is begun again. Then signals stop, and nothing is set."""
        self.begin()
        self.ask(1)
        self.is_set(1)
        self.throttle.order("SET 3 GA 2 1 1 -1")
        self.box.end(signal.SIGKILL)
        self.lacks("100 INFO 1 LOCK")
        self.is_set(1)
        self.begin()
        for number in (1, 2):
            self.lies_back(number)
        time.sleep(0.3)
        self.lacks("100 INFO 1 LOCK", "100 INFO 3 FB 1 1")
        self.ask(1)
        self.is_set(1)

    def test_it_is_ended(self):
        """It stops its signals while their turnouts are locked, also if a terminal ends `interlock` with it."""
        for ends in (lambda: self.box.send(signal.SIGTERM), lambda: os.killpg(self.box.pid, signal.SIGINT)):
            self.begin()
            panel = self.follows()
            self.ask(1, 3)
            self.is_set(1, 3)
            ends()
            self.assertEqual(self.box.process.wait(WAIT), 0)
            self.is_at_rest(panel)
            self.hears(panel, "102 INFO 1 LOCK GA 1", "102 INFO 1 LOCK GA 2")
            self.assertTrue(self.box.told().endswith("-- ended\n"), self.box.told())

    def test_the_server_is_started_again(self):
        self.begin()
        self.ask(1)
        self.is_set(1)
        for _ in range(2):
            self.restart()
            self.signals_are_stopped()
            time.sleep(0.3)
            self.lacks("100 INFO 1 LOCK")
            self.ask(1)
            self.is_set(1)

    def test_a_panel_that_is_lost(self):
        """What was set is given back, its signal first, and what was asked for meanwhile is not set."""
        self.begin()
        self.ask(1)
        self.is_set(1)
        panel = self.follows()
        self.way.cut()
        self.is_at_rest(panel)
        self.hears(panel, "102 INFO 1 LOCK GA 1")
        self.give(1), self.ask(1, 3)
        self.way.free()
        self.is_at_rest(panel)
        for number in (1, 3):
            self.lies_back(number)
        time.sleep(0.3)
        self.lacks("100 INFO 1 LOCK")
        self.ask(1)
        self.is_set(1)

    def test_a_listing_that_is_late(self):
        """What was asked for before it began is not set, though the panel tells of it late."""
        self.throttle.order("INIT 3 GA 1 N", "SET 3 GA 1 1 1 -1")
        self.way.late = b" 100 INFO 3 GA 1 1"
        self.box = self.starts("box.py", "--plan", PLAN, "--program", common.SERVER, port=self.way.port)
        self.has("101 INFO 2 GA 3 N")
        time.sleep(0.3)
        self.way.free()
        self.lies_back(1)
        time.sleep(0.3)
        self.lacks("100 INFO 1 LOCK", "100 INFO 3 FB 1 1")

    def test_an_interlock_that_ends(self):
        self.begin()
        self.ask(1)
        self.is_set(1)
        panel = self.follows()
        child = subprocess.run(["pgrep", "-P", str(self.box.pid), "-f", "interlock"], capture_output=True, text=True)
        os.kill(int(child.stdout), signal.SIGKILL)
        self.is_at_rest(panel)
        self.hears(panel, "102 INFO 1 LOCK GA 1")
        self.is_at_rest(panel)
        self.ask(1)
        self.is_set(1)

    def test_a_server_that_is_full(self):
        others = sessions(self.server.port, 63)
        until(lambda: is_full(self.server.port), "it is full")
        self.box = self.starts("box.py", "--plan", PLAN, "--program", common.SERVER)
        self.told("-- server: the server is full\n")
        for other in others:
            other.close()
        self.signals_are_stopped()
        self.ask(1)
        self.is_set(1)

    def test_whose_its_sessions_are(self):
        self.starts("box.py", "--plan", PLAN, "--program", common.SERVER)
        self.signals_are_stopped()
        self.ask(1)
        self.has(SETS[0])
        [lock] = [row for row in rows(self.server.port) if row.startswith(SETS[0])]
        status = [TOP / "examples" / "status.py", "--port", str(self.server.port)]
        told = subprocess.run(status, capture_output=True, text=True, timeout=WAIT).stdout
        self.assertIn(f"{lock.split()[-1]} COMMAND (box.py)", told)

    def test_which_program_it_takes(self):
        """That of its repository, or, if it is in none, the one of the PATH."""
        folder = Path(new_folder())
        copy = shutil.copytree(PROGRAMS, folder / "beside" / "bridges", ignore=shutil.ignore_patterns("__pycache__"))
        (folder / "bin").mkdir()
        (folder / "bin" / "srcp_server").symlink_to(common.SERVER)
        for taken in (folder / "bin" / "srcp_server", folder / "beside" / "run"):
            told = subprocess.run([sys.executable, copy / "box.py", "--help"], capture_output=True, text=True,
                                  env=os.environ | {"PATH": str(folder / "bin"), "COLUMNS": "200"}).stdout
            self.assertIn(f"({taken})", told)
            (folder / "beside" / "run").touch()

    def test_words_that_are_wrong(self):
        """It tells so in one line."""
        wrong = Path(new_folder(), "plan.toml")
        wrong.write_text("bus = 3\n[[route]]\nnumber = 1\nturnouts = [[1, 1]]\n")
        marked = Path(new_folder(), "marked.toml")  # as an editor of Windows writes it
        marked.write_text("\ufeff" + Path(PLAN).read_text("utf-8"), "utf-8")
        for plan, other in ((wrong, common.SERVER), (marked, common.SERVER), ("no", common.SERVER), (PLAN, "no"),
                            (PLAN, "/bin/false")):
            box = program("box.py", "--plan", plan, "--program", other)
            self.assertEqual(box.process.wait(WAIT), 2)
            about = f"--program {other}" if other == "no" else f"--plan {plan}"
            self.assertRegex(box.told(), rf"\A-- {about}: .*\n\Z")

    def test_a_plan_that_the_page_refuses(self):
        """It ends with the line of the fault, as web.py does."""
        plan = Path(new_folder(), "plan.toml")
        plan.write_text(PLAN.read_text().replace("blocks = [[1, 2]]", "block = [[1, 2]]"))
        box = program("box.py", "--plan", plan, "--program", common.SERVER)
        self.assertEqual(box.process.wait(WAIT), 2)
        self.assertRegex(box.told(), rf"\A-- --plan {plan}: line \d+: block is no key of a route: .*\n\Z")

    def test_a_sensor_that_the_server_does_not_have(self):
        """It names the plan and the sensor: of a block, of a section, one that frees a route, or that of a route."""
        for keys, sensor, bus in (("blocks = [[1, 33]]", 33, 1), ("frees = [9, 1]", 1, 9),
                                  ("sections = [[1, 32], [1, 34]]", 34, 1), ("", 10, 3)):
            plan = Path(new_folder(), "plan.toml")
            plan.write_text(f"bus = 3\n[[route]]\nnumber = {sensor if bus == 3 else 1}\n{keys}\n")
            box = self.starts("box.py", "--plan", plan, "--program", common.SERVER)
            self.assertEqual(box.process.wait(WAIT), 2)
            self.assertTrue(box.told().endswith(f"-- --plan {plan}: the server has no sensor {sensor} on bus {bus}\n"),
                            box.told())

    def test_a_bus_that_the_server_does_not_have(self):
        """It names the plan, and the bus of the routes, that of a turnout or that of a signal."""
        for bus, of_routes, of_turnout, of_signal in (7, 7, 1, 2), (8, 3, 8, 2), (9, 3, 1, 9):
            plan = Path(new_folder(), "plan.toml")
            plan.write_text(f"bus = {of_routes}\n[[route]]\nnumber = 1\nturnouts = [[{of_turnout}, 1, 1]]\n"
                            f"signal = [{of_signal}, 1, 1, 0]\n")
            box = self.starts("box.py", "--plan", plan, "--program", common.SERVER)
            self.assertEqual(box.process.wait(WAIT), 2)
            said = f"-- server: joined, started anew\n-- --plan {plan}: bus {bus}: the server has no such bus\n"
            self.assertEqual(box.told(), said)
