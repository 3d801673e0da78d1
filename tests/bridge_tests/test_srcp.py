"""The modules that the programs share: parsing, sessions, the mirror over overruns and restarts, how a program ends."""
import argparse
import asyncio
import fcntl
import os
import pty
import signal
import subprocess
import sys
import termios
import time
import unittest

from .common import PROGRAMS, WAIT, Case, interpreter, listener, parsed, program, rows, until


class Parsing(unittest.TestCase):
    program = "srcp"

    def test_each_kind_of_row(self):
        from srcp_bridges.srcp import rows as kinds
        for line, key, row in [
            ("1.5 101 INFO 0 SESSION 2 INFO", (0, "SESSION", 2, "is"), kinds.Peer(1.5, "INFO")),
            ("0.000 100 INFO 1 POWER OFF", (1, "POWER", 0, "does"), kinds.Power(0, False, "")),
            ("1.5 100 INFO 1 POWER ON 2 \xb2 lines", (1, "POWER", 0, "does"), kinds.Power(1.5, True, "2 \xb2 lines")),
            ("1.5 101 INFO 1 GL 3 N 1 28 5", (1, "GL", 3, "is"), kinds.Locomotive(1.5, "N", 1, 28, 5)),
            ("1.5 100 INFO 1 GL 3 1 12 28 1 0", (1, "GL", 3, "does"), kinds.Drive(1.5, 1, 12, 28, (1, 0))),
            ("1.5 101 INFO 1 GA 5 N", (1, "GA", 5, "is"), kinds.Accessory(1.5, "N")),
            ("1.5 100 INFO 1 GA 5 1 0", (1, "GA", 5, 1), kinds.Port(1.5, 0)),
            ("0.000 100 INFO 1 FB 7 1", (1, "FB", 7, "does"), kinds.Sensor(0, 1)),
            ("1.5 100 INFO 1 LOCK GL 3 0 4", (1, "GL", 3, "lock"), kinds.Lock(1.5, 0, 4)),
            ("1.5 102 INFO 1 LOCK GL 3", (1, "GL", 3, "lock"), None),
            ("1.5 102 INFO 1 GL 3", (1, "GL", 3, "is"), None),
        ]:
            self.assertEqual(kinds.parse(line), (key, row))

    def test_how_an_accessory_lies(self):
        from srcp_bridges.srcp.rows import Accessory, Port, position

        def lies(*ports):
            table = {(1, "GA", 5, number): port for number, port in enumerate(ports)}
            return position({(1, "GA", 5, "is"): Accessory(5.0, "N"), **table}, 1, 5)

        self.assertEqual(lies(Port(5.0, 0), Port(5.0, 0)), None)
        self.assertEqual(lies(Port(6.0, 0), Port(7.0, 0)), 1)
        self.assertEqual(lies(Port(6.0, 1), Port(7.0, 0)), 0)
        self.assertEqual(lies(Port(6.0, 1), Port(7.0, 1)), 1)
        self.assertEqual(position({}, 1, 5), None)

    def test_an_accessory_lies_as_the_port_that_was_last_set_to_1(self):
        """Also if an older pulse ends later, and over a listing of what happened meanwhile."""
        from srcp_bridges.srcp.rows import Accessory, Port, Rows, position
        rows = Rows()

        def comes(lies, *port, listed_again=False):
            number, stamp, value = port
            rows.enter((1, "GA", 5, number), Port(stamp, value), listed_again)
            self.assertEqual(position(rows, 1, 5), lies)

        rows.enter((1, "GA", 5, "is"), Accessory(1.0, "N"))
        comes(None, 0, 1.0, 0), comes(None, 1, 1.0, 0)
        comes(0, 0, 2.0, 1), comes(1, 1, 2.1, 1)
        comes(1, 1, 2.35, 0), comes(1, 0, 3.5, 0)
        comes(0, 0, 4.0, 1), comes(0, 1, 4.0, 0)  # a port that is set to 0 changes nothing
        comes(0, 0, 4.5, 0, listed_again=True), comes(1, 1, 5.0, 0, listed_again=True)  # on and off again meanwhile
        rows.remove((1, "GA", 5, "is"))
        self.assertEqual((position(rows, 1, 5), rows.put), (None, {}))

    def test_which_commands_have_a_locomotive_drive(self):
        from srcp_bridges.srcp.stop import driven
        for command, locomotive in [("set 01 gl 3 1 9 28 1", (1, 3)), ("SET 1 GL 3 0 1 0", (1, 3)),
                                    ("SET 1 GL 3 1 0 28", None), ("SET 1 GL 3 2 9 28", None),
                                    ("SET 1 GA 3 1 9 28", None), ("GET 1 GL 3", None), ("SET 1 GL x 1 9", None),
                                    ("", None)]:
            self.assertEqual(driven(command), locomotive, command)


class Following(Case):
    program = "srcp"

    def run_mirror(self, port, steps):
        """Runs a mirror, and the steps beside it in a thread, which may block."""
        from srcp_bridges.srcp import mirrors
        mirrors.say = lambda text: None
        self.changes = []
        self.joins = []

        async def main():
            asked = argparse.Namespace(host="127.0.0.1", port=port, again=0.05)
            self.mirror = mirrors.Mirror(asked, self.changes.append, self.joins.append)
            runs = asyncio.create_task(self.mirror.run())
            await asyncio.to_thread(steps)
            runs.cancel()

        asyncio.run(main())

    def same(self):
        """Returns whether the mirror holds what the server does, without the sessions, of which the snapshot is one."""
        ours = {key: row._replace(stamp=0) for key, row in self.mirror.rows.copy().items() if key[1] != "SESSION"}
        return ours == parsed(rows(self.server.port))

    def test_joins_follows_and_tells_a_restart(self):
        def steps():
            until(lambda: self.joins == [True] and self.same(), "the listing")
            self.throttle.order("INIT 1 GL 3 N 1 28 5", "SET 1 LOCK GL 3 0", "INIT 1 GA 5 N", "SET 1 GA 5 1 1 50",
                                "INIT 1 GL 3 N 1 28 2", "SET 1 FB 4 1")
            until(self.same, "the changes")
            self.restart()
            until(lambda: self.joins == [True, True] and self.same(), "a restart")
            self.assertIn((1, "GL", 3, "does"), [change.key for change in self.changes if not change.row])
        self.run_mirror(self.server.port, steps)

    def test_an_overrun_is_none_and_only_what_is_gone_goes(self):
        def steps():
            self.throttle.order("INIT 1 GL 3 N 1 28 5", "INIT 1 GL 4 N 1 28 5", "SET 1 LOCK GL 3 0", "INIT 1 GA 5 N")
            until(lambda: self.joins == [True] and self.same(), "the listing")
            self.changes.clear()
            self.way.cut()
            self.throttle.order("TERM 1 GL 4", "TERM 1 LOCK GL 3", "SET 1 GL 3 1 9 28 1", "INIT 1 GA 6 N")
            self.throttle.order(*["SET 1 GL 3 1 9 28 1"] * 50)
            self.way.free()
            until(self.same, "after the overrun")
            gone = [change.key for change in self.changes if not change.row and change.key[1] != "SESSION"]
            self.assertCountEqual(gone, [(1, "GL", 4, "is"), (1, "GL", 4, "does"), (1, "GL", 3, "lock")])
            self.assertEqual(self.joins, [True, False])
            drives = [change.row[1:4] for change in self.changes if change.key == (1, "GL", 3, "does")]
            self.assertEqual(drives, [(1, 9, 28)])  # and nothing of a line that was cut
            self.assertNotIn((1, "FB", 1, "does"), [change.key for change in self.changes])  # listed again as it was
        self.run_mirror(self.way.port, steps)

    def test_a_line_of_another_kind_is_passed_over(self):
        def steps():
            until(lambda: self.joins == [True] and self.same(), "the listing")
            for line in ("1.5 100 INFO 1 TIME 1 2 3 4", "1.5 101 INFO 1 SM 3 x", "what", ""):
                self.mirror.take(line)
            self.assertTrue(self.same())
        self.run_mirror(self.server.port, steps)

    def test_a_cut_listing_loses_nothing(self):
        def steps():
            self.throttle.order(*[f"INIT 1 GL {n} N 1 28 5" for n in range(1, 101)])
            until(lambda: self.joins == [True] and self.same(), "the listing")
            self.changes.clear()
            self.way.listed = 2000
            self.way.cut(), self.way.free()
            until(lambda: self.way.cuts > 2, "listings that are cut")
            self.way.listed = None
            until(self.same, "the whole listing")
            self.assertEqual([change for change in self.changes if not change.row and change.key[1] == "GL"], [])
        self.run_mirror(self.way.port, steps)

    def test_a_busy_layout_has_an_end_of_its_listing_too(self):
        def steps():
            self.throttle.order("INIT 1 GL 4 N 1 28 5", "INIT 1 GL 5 N 1 126 5")
            until(lambda: self.joins == [True] and self.same(), "the listing")
            self.way.cut()
            self.throttle.order("TERM 1 GL 4")
            self.way.free()
            end = time.monotonic() + WAIT
            while time.monotonic() < end and (1, "GL", 4, "is") in self.mirror.rows:
                self.throttle.order("SET 1 GL 5 1 9 28")
                time.sleep(0.05)
            self.assertNotIn((1, "GL", 4, "is"), self.mirror.rows)
        self.run_mirror(self.way.port, steps)

    def run_program(self, steps):
        """Runs steps beside a mirror, in its thread."""
        from srcp_bridges.srcp import mirrors
        mirrors.say = lambda text: None

        async def main():
            mirror = mirrors.Mirror(argparse.Namespace(host="127.0.0.1", port=self.way.port, again=0.05))
            runs = asyncio.create_task(mirror.run())
            await self.comes(lambda: mirror.here)
            await steps(mirror)
            runs.cancel()

        asyncio.run(main())

    async def comes(self, true):
        async with asyncio.timeout(WAIT):
            while not true():
                await asyncio.sleep(0.01)

    def test_stops_are_counted_and_what_was_made_before_is_refused(self):
        from srcp_bridges.srcp.replies import Refused
        from srcp_bridges.srcp.stop import send, stop_all, stop_one

        async def steps(mirror):
            stops = mirror.stops
            seen = mirror.stops.count(1, 3)
            locomotive = (1, "GL", 3, "does")
            self.throttle.order("INIT 1 GL 3 N 1 28 2", "SET 1 GL 3 0 9 28")
            await self.comes(lambda: locomotive in mirror.rows and mirror.rows[locomotive].v)
            self.throttle.order("SET 1 GL 3 2 0 28")  # another stops it, and a command of before is late
            await self.comes(lambda: stops.count(1, 3) > seen)
            with self.assertRaisesRegex(Refused, "meanwhile"):
                await send(stops, mirror.session, "SET 1 GL 3 1 9 28", seen)
            await send(stops, mirror.session, "SET 1 GL 3 0 0 28", seen)  # one that only stops is not refused
            await send(stops, mirror.session, "SET 1 GL 3 0 9 28", stops.count(1, 3))
            await self.comes(lambda: mirror.rows[locomotive].v)
            for stop in (stop_all(mirror), stop_one(mirror, mirror.session.ask, 1, 3)):
                before = stops.count(1, 3)
                await stop
                self.assertEqual(stops.count(1, 3), before + 1)
                await self.comes(lambda: mirror.rows[locomotive][1:4] == (0, 0, 28) and not stops.due[1, 3])
                self.assertEqual(stops.count(1, 3), before + 1)  # its row is not counted again
                await send(stops, mirror.session, "SET 1 GL 3 0 9 28", before + 1)
                await self.comes(lambda: mirror.rows[locomotive].v)
            with self.assertRaises(Refused):
                await send(stops, mirror.session, "SET 1 GL 3 0 9 28", before)
        self.run_program(steps)

    def test_stop_all_leaves_alone_what_stands_and_reaches_what_is_on_its_way(self):
        from srcp_bridges.srcp.replies import Refused
        from srcp_bridges.srcp.sessions import Session
        from srcp_bridges.srcp.stop import send, stop_all

        async def steps(mirror):
            self.throttle.order(*[f"INIT 1 GL {n} N 1 28 2" for n in (3, 4, 5)], "SET 1 GL 3 0 9 28")
            await self.comes(lambda: len([key for key in mirror.rows if key[1] == "GL"]) == 6)
            before, other = mirror.rows[1, "GL", 5, "does"], await Session.begin(mirror.server)
            under_way = asyncio.create_task(send(mirror.stops, other, "SET 1 GL 4 1 9 28", None))
            await asyncio.sleep(0)
            stop = asyncio.create_task(stop_all(mirror))
            await asyncio.sleep(0)
            with self.assertRaises(Refused):  # until all stand, nothing here drives
                await send(mirror.stops, other, "SET 1 GL 5 0 9 28", mirror.stops.count(1, 5))
            self.assertEqual((await stop, await under_way), ([], "OK"))
            self.assertEqual((await mirror.get((1, "GL", 4, "does")))[1:3], (1, 0))
            self.assertEqual(await mirror.get((1, "GL", 5, "does")), before)
        self.run_program(steps)
        self.has("100 INFO 1 GL 3 0 0 28")

    def test_stop_all_stops_what_another_program_had_sent(self):
        from srcp_bridges.srcp.stop import stop_all

        async def steps(mirror):
            self.throttle.order("INIT 1 GL 3 N 1 28 2", "SET 1 GL 3 0 9 28")
            await self.comes(lambda: mirror.rows.get((1, "GL", 3, "does"), (0, 0, 0))[2])
            stop = asyncio.create_task(stop_all(mirror))
            await self.comes(lambda: not mirror.rows[1, "GL", 3, "does"].v)
            self.throttle.order("SET 1 GL 3 0 9 28")
            self.assertEqual(await stop, [])
        self.run_program(steps)
        self.has("100 INFO 1 GL 3 0 0 28")

    def test_stop_all_takes_the_power_off_for_what_another_has_locked(self):
        from srcp_bridges.srcp.stop import stop_all

        async def steps(mirror):
            self.throttle.order("SET 1 POWER ON", *[f"INIT 1 GL {n} N 1 28 2" for n in (3, 4)], "SET 1 GL 3 1 9 28",
                                "SET 1 LOCK GL 3 0", "SET 1 GL 4 0 9 28")
            await self.comes(lambda: mirror.rows.get((1, "GL", 4, "does"), (0, 0, 0))[2])
            self.assertEqual(await stop_all(mirror), [])
        self.run_program(steps)
        self.has("100 INFO 1 GL 3 1 9 28", "100 INFO 1 GL 4 0 0 28", "100 INFO 1 POWER OFF stop all")

    def test_an_emergency_stop_of_several_tries_each(self):
        from srcp_bridges.srcp.stop import stop_several

        async def steps(mirror):
            self.throttle.order(*[f"INIT 1 GL {n} N 1 28 2" for n in (3, 4, 5)], "SET 1 LOCK GL 3 0",
                                "SET 1 LOCK GL 4 0", "SET 1 GL 5 0 9 28")
            await self.comes(lambda: mirror.rows.get((1, "GL", 5, "does"), (0, 0, 0))[2])
            told = await stop_several(mirror, mirror.session.ask, [(1, n) for n in (3, 4, 5)])
            self.assertEqual([fault.whose for fault in told], ["1 GL 3", "1 GL 4"])
        self.run_program(steps)
        self.has("100 INFO 1 GL 5 0 0 28")

    def test_a_function_is_a_change_of_one_function(self):
        """The server is asked first how it drives: another may have stopped it, and the panel may be late."""
        from functools import partial
        from srcp_bridges.srcp.driving import switch
        from srcp_bridges.srcp.stop import send

        async def steps(mirror):
            self.throttle.order("INIT 1 GL 3 N 1 28 3", "SET 1 GL 3 0 9 28 0 1 1")
            await self.comes(lambda: mirror.rows.get((1, "GL", 3, "does"), (0, 0, 0))[2])
            self.way.cut()
            self.throttle.order("SET 1 GL 3 0 0 28")
            await switch(mirror, partial(send, mirror.stops, mirror.session), 1, 3, {0: None, 1: None, 2: 1})
            self.has("100 INFO 1 GL 3 0 0 28 1 0 1")
            self.throttle.order("SET 1 GL 3 2 0 28")
            await switch(mirror, partial(send, mirror.stops, mirror.session), 1, 3, {0: 0})
            self.has("100 INFO 1 GL 3 0 0 28 0 0 1")  # in its direction
        self.run_program(steps)

    def test_sessions(self):
        from srcp_bridges.srcp import replies, sessions

        async def main():
            session = await sessions.Session.begin(("127.0.0.1", self.server.port))
            self.assertEqual(await session.ask("INIT 1 GL 3 N 1 28 2"), "OK")
            self.assertEqual((await session.ask("GET 1 GL 3"))[1:], (1, 0, 0, (0, 0)))
            with self.assertRaisesRegex(replies.Refused, "^416 ERROR no data$"):
                await session.ask("GET 1 GL 4")
            with self.assertRaises(replies.Refused):
                await session.ask("SET 1 POWER ON\nSET 1 POWER OFF")
            asks = asyncio.create_task(session.ask("GET 1 GL 4"))
            await asyncio.sleep(0)
            asks.cancel()  # its reply comes all the same, and is not that to the next
            self.assertEqual((await session.ask("GET 1 GL 3"))[1:], (1, 0, 0, (0, 0)))
            self.server.stop()
            with self.assertRaises(ConnectionError):
                await session.ask("GET 1 GL 3")
        asyncio.run(main())

    def test_another_server_at_that_port(self):
        """One that babbles without an end of line, and one that does not speak SRCP: the program waits."""
        door = listener()
        door.settimeout(WAIT)
        self.addCleanup(door.close)
        guard = self.starts("guard.py", port=door.getsockname()[1])
        with door.accept()[0] as peer:
            peer.sendall(b"SSH-2.0-what\r\nProtocol mismatch.\n" * 3)
            until(lambda: "does not speak SRCP" in guard.told(), "it is told")
        with door.accept()[0] as peer, self.assertRaises(OSError):  # it is not read for long
            for _ in range(1000):
                peer.sendall(b"x" * 100000)
        until(lambda: "closed the connection" in guard.told(), "it is told")
        self.assertIsNone(guard.process.poll())

    def test_ends_as_its_terminal_is_closed(self):
        """What it still says goes nowhere then, and hinders nothing. One that nohup starts outlives its terminal."""
        for ignores in (False, True):
            master, terminal = pty.openpty()
            words = [sys.executable, PROGRAMS / "guard.py", "--port", str(self.server.port)]

            def prepare():
                fcntl.ioctl(0, termios.TIOCSCTTY, 0)
                signal.signal(signal.SIGHUP, signal.SIG_IGN if ignores else signal.SIG_DFL)

            guard = subprocess.Popen(words, stdin=terminal, stdout=terminal, stderr=terminal, start_new_session=True,
                                     preexec_fn=prepare)
            self.addCleanup(guard.wait), self.addCleanup(guard.kill)
            os.close(terminal)
            until(lambda: b"joined" in os.read(master, 1000), "joined")
            os.close(master)
            if not ignores:
                self.assertEqual(guard.wait(WAIT), 0)
                continue
            self.restart()  # which it has to tell of
            time.sleep(2)
            self.assertIsNone(guard.poll())

    def test_ends_by_sigterm_and_says_what_is_wrong(self):
        guard = self.starts("guard.py")
        until(lambda: "joined" in guard.told(), "joined")
        self.assertEqual(guard.end(), 0)
        guard = self.starts("guard.py")
        until(lambda: "joined" in guard.told(), "joined")
        self.assertEqual(guard.end(signal.SIGINT), 0)
        self.assertEqual(program("guard.py", "--prot", "x").process.wait(20), 2)
        for name in ("guard", "keep", "dcc_ex", "z21", "withrottle", "web", "mqtt", "srcpd"):
            if python := interpreter(name + ".py"):
                helped = subprocess.run([python, PROGRAMS / (name + ".py"), "--help"], capture_output=True, text=True)
                self.assertTrue(helped.returncode == 0 and "--port" in helped.stdout, name)
