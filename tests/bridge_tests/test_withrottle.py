"""withrottle.py, with scripted phones."""
import os
import signal
import socket
import time
from pathlib import Path

from .common import (PACKAGES, PROGRAMS, WAIT, Process, free_port, interpreter, is_full, new_folder, program, rows,
                     until)
from .phones import Panel, Phone, WiThrottleCase

KINDS = "PTT]\\[Turnouts}|{Turnout]\\[Closed}|{2]\\[Thrown}|{4]\\[Unknown}|{1"


class WiThrottle(WiThrottleCase):
    def test_greeting(self):
        self.throttle.order("INIT 1 GL 341 N 2 126 9", "INIT 1 GL 3 N 1 28 5", "INIT 1 GA 5 N", "SET 1 GA 5 1 1 10")
        phone = self.greeted("PTL]\\[5}|{Yard  west}|{4")
        phone.got("VN2.0", "HTsrcp", "RL2]\\[V 100}|{3}|{S]\\[341}|{341}|{L", "PPA0", KINDS,
                  "PTL]\\[5}|{Yard  west}|{4", "*1")
        phone.send("Q")
        phone.got("END")

    def test_drives(self):
        self.throttle.order("INIT 1 GL 3 N 1 28 5")
        phone = self.phone()
        phone.send("PPA1")
        phone.got("PPA1")
        phone.send("M0+S3<;>S3")
        phone.got("M0+S3<;>", "M0LS3<;>]\\[F0]\\[F1]\\[F2]\\[F3]\\[F4", "M0AS3<;>F00", "M0AS3<;>R1", "M0AS3<;>V0",
                  "M0AS3<;>s1")
        self.has("100 INFO 1 LOCK GL 3 0", "100 INFO 1 POWER ON")
        for words, does in [
            ("V50", "1 50 126 0 0 0 0 0"), ("F11", "1 50 126 0 1 0 0 0"), ("F01", "1 50 126 0 1 0 0 0"),
            ("F11", "1 50 126 0 0 0 0 0"), ("f11", "1 50 126 0 1 0 0 0"), ("F12", "1 50 126 0 1 1 0 0"),
            ("F02", "1 50 126 0 1 0 0 0"), ("f10", "1 50 126 1 1 0 0 0"), ("R0", "0 50 126 1 1 0 0 0"),
            ("X", "0 0 126 1 1 0 0 0"), ("V20", "0 20 126 1 1 0 0 0"), ("V-1", "0 0 126 1 1 0 0 0"),
            ("V33", "0 33 126 1 1 0 0 0"), ("V99999", "0 126 126 1 1 0 0 0"), ("I", "0 0 126 1 1 0 0 0"),
        ]:
            phone.send(f"M0A*<;>{words}")
            self.has(f"100 INFO 1 GL 3 {does}")
        phone.got("M0AS3<;>V50", "M0AS3<;>F11", "M0AS3<;>R0", "M0AS3<;>V0", "M0AS3<;>V33")
        phone.send("M0A*<;>V33", "M0-*<;>r")
        phone.got("M0-S3<;>")
        self.has("100 INFO 1 GL 3 0 0 126 1 1 0 0 0")
        self.lacks("100 INFO 1 LOCK")

    def test_several_phones_and_throttles(self):
        self.throttle.order("INIT 1 GL 341 N 2 126 9", "INIT 1 GL 3 N 1 28 5")
        one, two = self.phone(), self.phone()
        one.send("M0+L341<;>L341", "M1+S7<;>S7", "M0A*<;>V40", "M1A*<;>V70")
        self.has("100 INFO 1 GL 341 1 40 126", "100 INFO 1 GL 7 1 70 126")
        two.send("M0+S7<;>S7")
        two.got("M0SS7<;>S7")
        one.send("M1-*<;>r")
        one.got("M1-S7<;>")
        two.send("M0+S7<;>S7")
        two.got("M0+S7<;>")
        self.throttle.order("SET 1 POWER ON")
        one.got("PPA1"), two.got("PPA1")
        one.send("M0+x<;>ES3")
        one.got("HMno locomotive ES3")
        one.send("M0+x<;>EV 100", "M0A*<;>V12")
        self.has("100 INFO 1 GL 3 1 12 126", "100 INFO 1 GL 341 1 12 126")
        one.send("Q")
        self.has("100 INFO 1 GL 3 1 0 126", "100 INFO 1 GL 341 1 0 126")

    def test_turnouts(self):
        self.throttle.order("INIT 1 GA 5 N")
        phone = self.greeted("PTL]\\[5}|{Yard  west}|{1")
        self.throttle.order("SET 1 GA 5 0 1 10")
        phone.got("PTA25")
        phone.send("PTA25", "PTAT77")
        phone.got("PTA45", "PTA477")
        phone.send("PTATxyz")
        phone.got("HMturnouts are numbers here, not xyz")
        phone.send("PTAC77")
        phone.got("PTA277")
        self.lacks("100 INFO 1 GA 77 0 1", "100 INFO 1 GA 77 1 1")
        time.sleep(0.2)
        more = [line for line in phone.lines[phone.seen:] if line.startswith("PTA")]
        self.assertEqual(more, [])  # not again as the ports fall back

    def test_a_phone_without_a_network(self):
        """Its connection is asked for by the system (02 in /proc/net/tcp), also if it sends no heartbeats."""
        phone = self.phone()
        phone.got("VN2.0")
        own = f"0100007F:{self.listen:04X} 0100007F:{phone.socket.getsockname()[1]:04X}"

        def timer():
            lines = Path("/proc/net/tcp").read_text().splitlines()
            kind, left = next(line.split()[5] for line in lines if own in line).split(":")
            return kind == "02" and int(left, 16) / os.sysconf("SC_CLK_TCK") < 6

        until(timer, "the system asks for it")

    def test_a_phone_that_sends_rubbish(self):
        other = self.phone()
        other.send("M0+S3<;>S3", "M0A*<;>V60")
        self.has("100 INFO 1 GL 3 1 60 126")
        nines = b"9" * 3000
        for rubbish in (os.urandom(100000), b"x" * 100000, b"M0+<;>EV 100\nM0+S<;>\nMxA*<;>V1\n" * 10,
                        b"M0+S\xd9\xa3<;>S3\n", b"M0+S3" + nines + b"<;>S3\nPTAT" + nines + b"\n",
                        b"M0+S3<;>S3\nM0A*<;>V" + nines + b"\n",
                        b"M0+S8<;>S8\nM0A*<;>Vx\nM0A*<;>F1999999\nM0A*<;>R7\nM0A*<;>V-\nPPA7\nPTA\nHU\n\n\n\0\n"):
            phone = self.phone()
            try:
                phone.socket.sendall(rubbish)
                phone.socket.shutdown(socket.SHUT_WR)
            except OSError:
                pass
            phone.got("END")
        told = rows(self.server.port)
        self.assertTrue(any(row.startswith("100 INFO 1 GL 3 1 60 126") for row in told))
        self.assertFalse([row for row in told if " GL 8 1 " in row and not row.startswith("100 INFO 1 GL 8 1 0 ")])
        self.assertNotIn("Traceback", self.bridge.told())
        other.send("M0A*<;>V61")
        other.got("M0AS3<;>V61")

    def test_a_phone_that_sends_without_end(self):
        """It is told that too many lines wait. Its stop is carried out all the same, and others have their turn."""
        good, bad = self.phone_with("S4"), self.phone_with("S3")
        bad.send(*["M0A*<;>V50"] * 8000, "M0A*<;>X")
        good.send("M0A*<;>V40")
        good.got("M0AS4<;>V40")
        bad.got("HMtoo many lines wait")
        self.has("100 INFO 1 GL 3 1 0 ")
        bad.send("M0A*<;>X")
        time.sleep(0.5)
        bad.settled()
        self.has("100 INFO 1 GL 3 1 0 126", "100 INFO 1 GL 4 1 40 126")

    def test_restart_overrun_and_end(self):
        phone = self.phone()
        phone.send("M0+S3<;>S3", "M0A*<;>V60")
        phone.got("M0AS3<;>V60")
        joined = self.bridge.told().count("server: joined")
        self.restart()
        phone.send("M0A*<;>V61")
        self.has("100 INFO 1 GL 3 1 61 126", "100 INFO 1 LOCK GL 3")
        until(lambda: self.bridge.told().count("server: joined") > joined, "the panel is back")
        self.way.cut()
        self.throttle.order("SET 1 POWER ON")
        self.way.free()
        phone.got("PPA1")
        self.assertEqual(self.bridge.end(), 0)
        self.has("100 INFO 1 GL 3 1 0 126")

    def test_a_real_overrun(self):
        phone = self.phone()
        phone.send("M0+S3<;>S3", "M0A*<;>V60")
        phone.got("M0AS3<;>V60")
        self.overruns(self.bridge, "SET 1 POWER ON", "INIT 1 GA 5 N", "SET 1 GA 5 1 1 -1")
        phone.got("PPA1")
        phone.got("PTA45")
        phone.send("M0A*<;>V61")
        self.has("100 INFO 1 GL 3 1 61 126")

    def test_the_key_decides(self):
        self.throttle.order("INIT 1 GL 3 N 1 28 5", "INIT 1 GL 4 N 1 28 5")
        phone = self.phone()
        phone.send("M0+S3<;>EV 100", "M0A*<;>V50")
        self.has("100 INFO 1 GL 3 1 50 126", "100 INFO 1 GL 4 1 0 0")
        phone.send("M1+S4<;>EV 100", "M1A*<;>V40")
        self.has("100 INFO 1 GL 3 1 50 126", "100 INFO 1 GL 4 1 40 126")

    def test_lists_that_change(self):
        phone = self.phone()
        phone.got("*1")
        self.throttle.order("INIT 1 GL 341 N 2 126 9")
        phone.got("RL1]\\[341}|{341}|{L")
        self.throttle.order("INIT 1 GL 3 N 1 126 9", "INIT 1 GL 4 N 1 126 9")
        phone.got("RL3]\\[V 100}|{3}|{S]\\[V 100}|{4}|{S]\\[341}|{341}|{L")
        self.throttle.order("INIT 1 GA 7 N", "INIT 1 GA 5 N")
        phone.got("PTL]\\[5}|{Yard  west}|{1]\\[7}|{7}|{1")
        self.throttle.order("SET 1 GA 7 1 1 10", "TERM 1 GA 5", "TERM 1 GL 341", "TERM 1 GL 3")
        phone.got("PTA47")
        until(lambda: {"PTL]\\[7}|{7}|{4", "RL1]\\[V 100}|{4}|{S"} <= set(phone.lines[phone.seen:]), "shorter lists")

    def test_turnouts_by_system_names(self):
        self.throttle.order("INIT 1 GA 5 N")
        phone = self.phone()
        phone.send("PTA2LT5")
        phone.got("PTA25")
        phone.send("PTATDT5", "PTACNT12")
        phone.got("PTA45", "PTA212")

    def test_steals(self):
        one, two = self.phone_with("S7"), self.phone()
        one.send("M0A*<;>V70")
        one.got("M0AS7<;>V70")
        two.send("M1+S7<;>S7")
        two.got("M1SS7<;>S7")
        panel = Panel(self.server.port)
        two.send("M1SS7<;>S7")
        one.got("M0-S7<;>")
        two.got("M1+S7<;>", "M1AS7<;>V70", "M1AS7<;>s1")
        one.send("M0A*<;>V30", "M0AS7<;>X", "Q")
        one.got("END")
        two.send("M1A*<;>V71")
        two.got("M1AS7<;>V71")
        until(lambda: " 1 71 126" in panel.told("100 INFO 1 GL 7 ")[-1], "the panel is told")
        self.assertEqual([line.split()[5:7] for line in panel.told("100 INFO 1 GL 7 ")], [["1", "70"], ["1", "71"]])
        two.send("Q")
        self.has("100 INFO 1 GL 7 1 0 126")
        self.throttle.order("INIT 1 GL 8 N 1 28 5", "SET 1 LOCK GL 8 0")
        two = self.phone()
        for act in "+S":  # of another program nothing can be stolen
            two.send(f"M0{act}S8<;>S8")
            two.got("HMSET 1 LOCK GL 8 0: 414 ERROR device locked")
        self.assertEqual(two.told("M0"), [])

    def test_answers(self):
        self.throttle.order("INIT 1 GL 3 N 1 28 4")
        phone = self.phone()
        phone.send("M0+S3<;>S3")
        phone.got("M0AS3<;>s1")
        for words, replies in (("qV", ["V0"]), ("qR", ["R1"]), ("qs", ["s1"]), ("s8", ["s1"]), ("m11", ["m11"]),
                               ("m02", ["m02"]), ("qm", ["m00", "m11", "m02", "m03"])):
            phone.send(f"M0A*<;>{words}")
            phone.got(*[f"M0AS3<;>{reply}" for reply in replies])
        for words, does in (("F11", "0 1 0 0"), ("F01", "0 0 0 0"), ("F12", "0 0 1 0"), ("F02", "0 0 1 0")):
            phone.send(f"M0A*<;>{words}")
            self.has(f"100 INFO 1 GL 3 1 0 0 {does}")
        self.assertEqual([line for line in phone.lines if line.startswith("PR")], [])
        phone.send("PRA2IR:AUTO:0001")
        phone.got("HMthis layout has no routes")
        self.throttle.order("SET 1 POWER ON", "SET 1 POWER OFF overload")
        phone.got("PPA1", "PPA0", "HMpower off: overload")

    def test_a_refusal_tells_of_that_locomotive(self):
        phone = self.phone_with("S3", "S4")
        self.restarted()
        self.throttle.order("INIT 1 GL 3 N 1 126 5", "SET 1 LOCK GL 3 0")
        phone.settled()
        phone.send("M0AS3<;>V20")
        until(lambda: any("414 ERROR device locked" in line for line in phone.told("HM")), "the refusal")
        phone.settled()
        own = [line for line in phone.lines[phone.lines.index("HMturnouts are numbers here, not ?"):]]
        self.assertIn("M0AS3<;>V0", own)
        self.assertEqual([line for line in own if line.startswith("M0AS4")], [])

    def test_what_nobody_drove_goes(self):
        self.throttle.order("INIT 1 GL 81 N 1 28 5")
        phone = self.phone_with("S77", "S78", "S79", "S80")
        phone.send("M0+S81<;>S81", "M0AS78<;>V5", "M0AS79<;>F11", "M0AS77<;>X", "M0AS77<;>R0")
        for address in (77, 78, 79, 81):
            phone.send(f"M0-S{address}<;>r")
            phone.got(f"M0-S{address}<;>")
        self.has(*[f"101 INFO 1 GL {address} " for address in (78, 79, 80, 81)])
        self.lacks("101 INFO 1 GL 77 ")
        phone.socket.shutdown(socket.SHUT_RDWR)
        self.lacks("101 INFO 1 GL 80 ", "100 INFO 1 LOCK")
        self.has(*[f"101 INFO 1 GL {address} " for address in (78, 79, 81)])

        one, two = self.phone_with("S90"), self.phone()
        two.send("M0SS90<;>S90")  # one that is stolen goes too
        one.got("M0-S90<;>"), two.got("M0+S90<;>")
        two.send("M0-S90<;>r")
        two.got("M0-S90<;>")
        self.lacks("101 INFO 1 GL 90 ")

    def test_places(self):
        phones = []
        for number in range(40):
            phones.append(self.phone(address=f"127.0.0.{2 + number // 8}"))
            phones[-1].got("*1", "*1")  # as it joins, and to its name
        phone = self.phone(address="127.0.0.2")
        phone.got("HMno place for this phone: 8 connections of 127.0.0.2 are open", "END")
        self.phone(address="127.0.0.9").got("HMno place for this phone: 40 connections are open", "END")
        phones[0].send("Q")
        phones[0].got("END")
        self.greeted("PPA0")

    def test_a_phone_without_a_name(self):
        phones = [self.phone(begin=begin) for begin in ((), ("HU42", "*+"), ("HU42", "Nphone"))]
        begun = time.monotonic()
        slow = self.phone(begin=())
        for _ in range(4):
            slow.socket.sendall(b"N")
            time.sleep(1)
        for phone in (phones[0], phones[1], slow):
            phone.got("END")
        self.assertLess(time.monotonic() - begun, 10)
        phones[2].send("PPA1")
        phones[2].got("PPA1")

    def test_a_server_that_is_full(self):
        phone, others = self.phone(), []
        phone.got("*1")
        for _ in range(70):
            others.append(socket.create_connection(("127.0.0.1", self.server.port), WAIT))
        until(lambda: is_full(self.server.port), "the server takes no more")
        phone.send("M0+S3<;>S3")
        phone.got("HMthe server is full")
        other = self.starts("withrottle.py", "--listen", free_port())
        until(lambda: "server: the server is full" in other.told(), "it is told")
        for connection in others:
            connection.close()
        until(lambda: "server: joined" in other.told(), "it is there")
        until(lambda: phone.told("M0+S3<;>") or phone.send("M0+S3<;>S3"), "there is a place for the phone too")

    def test_announced(self):
        try:
            from zeroconf import ServiceBrowser, Zeroconf
        except ImportError:
            self.skipTest("python3-zeroconf is not installed")
        found, changes = Zeroconf(interfaces=["127.0.0.1"]), []
        self.addCleanup(found.close)
        kind, port = "_withrottle._tcp.local.", free_port()
        ServiceBrowser(found, kind, [lambda zeroconf, service_type, name, state_change:
                                     changes.append((name, state_change.name))])
        words = interpreter("withrottle.py"), PROGRAMS / "withrottle.py", "--listen", port, "--port", self.server.port
        started = Process(*words, env=os.environ | {"PYTHONPATH": PACKAGES})
        self.addCleanup(started.end, signal.SIGKILL)

        def own():
            names = [name for name, change in list(changes) if change == "Added"]
            return [name for name in names if (info := found.get_service_info(kind, name)) and info.port == port]

        until(own, "it is announced")
        name, = own()
        self.assertEqual(found.get_service_info(kind, name).parsed_addresses(), ["127.0.0.1"])
        self.assertEqual(started.end(), 0)
        until(lambda: (name, "Removed") in changes, "it is announced no more")

    def test_a_network_that_cannot_be_announced_in(self):
        """The package zeroconf fails as it does if a unit does not let it ask for addresses: phones are served."""
        folder, port = Path(new_folder(), "zeroconf"), free_port()
        folder.mkdir()
        (folder / "__init__.py").write_text("class Error(Exception):\n    pass\n\n\ndef get_all_addresses():\n"
                                            "    raise OSError(97, 'no such family')\n")
        (folder / "asyncio.py").write_text("AsyncServiceInfo = AsyncZeroconf = None\n")
        words = interpreter("withrottle.py"), PROGRAMS / "withrottle.py", "--listen", port, "--port", self.server.port
        started = Process(*words, "--bind", "0.0.0.0", env=os.environ | {"PYTHONPATH": str(folder.parent)})
        self.addCleanup(started.end, signal.SIGKILL)
        until(lambda: "not announced: [Errno 97] no such family" in started.told(), "it is told")
        Phone(port).got("VN2.0", "*10")
        self.assertEqual(started.end(), 0)
        self.assertNotIn("Traceback", started.told())

    def test_a_port_that_is_taken_and_words_that_are_wrong(self):
        words = "--listen", free_port(), "--port", self.server.port
        for more, status, told in (
                (("--listen", self.listen), 1, "in use"), (("--bus", "77"), 2, "no such bus"),
                (("--bind", "no such name"), 2, "--bind no such name"), (("--bus", "x"), 2, "--bus")):
            ended = program("withrottle.py", *words, *more)
            self.assertEqual(ended.process.wait(WAIT), status)
            self.assertIn(told, ended.told().splitlines()[-1])
            self.assertNotIn("Traceback", ended.told())
