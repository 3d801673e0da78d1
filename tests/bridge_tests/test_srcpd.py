"""srcpd.py, with lines as old clients send them: from memory, since no such client could be had."""
import json
import os
import random
import signal
import socket
import threading
import time
from pathlib import Path

from .common import WAIT, Case, Server, Session, connects, folder, free_port, new_folder, until
from .test_dcc_ex import DccExCase

HELLO = "SET PROTOCOL SRCP 0.8.4", "201 OK PROTOCOL SRCP"
COMMAND = "SET CONNECTIONMODE SRCP COMMAND", "202 OK CONNECTIONMODE"
OK = "200 OK"
NO_DATA = "416 ERROR no data"
WRONG = "412 ERROR wrong value"
SHORT = "419 ERROR list too short"
LONG = "418 ERROR list too long"
UNSUPPORTED = "423 ERROR unsupported operation"
PROTOCOL = "420 ERROR unsupported device protocol"
SEQUENCES = {  # of a command session: what is sent, and the reply without its stamp, one after the other
    "what a server offers": [
        ("GET 0 DESCRIPTION", "100 INFO 0 DESCRIPTION SESSION SERVER TIME GM DESCRIPTION"),
        ("GET 1 DESCRIPTION", "100 INFO 1 DESCRIPTION POWER GL GA FB LOCK DESCRIPTION"),
        ("GET 2 DESCRIPTION", "100 INFO 2 DESCRIPTION GA FB LOCK DESCRIPTION"),
        ("GET 3 DESCRIPTION", "412 ERROR wrong value")],
    "the state of the server": [
        ("GET 0 SERVER", "100 INFO 0 SERVER RUNNING"), ("RESET 0 SERVER", "415 ERROR forbidden"),
        ("TERM 0 SERVER", "415 ERROR forbidden"), ("GET 0 SERVER", "100 INFO 0 SERVER RUNNING")],
    "in small letters": [("get 0 server", "100 INFO 0 SERVER RUNNING"),
                         ("get 2 description", "100 INFO 2 DESCRIPTION GA FB LOCK DESCRIPTION")],
    "a throttle": [
        ("INIT 1 GL 3 N 1 128 5", OK), ("GET 1 DESCRIPTION GL 3", "101 INFO 1 GL 3 N 1 128 5"), ("SET 1 POWER ON", OK),
        ("SET 1 GL 3 1 20 128 1 0 0 0 0", OK), ("GET 1 GL 3", "100 INFO 1 GL 3 1 20 128 1 0 0 0 0"),
        ("SET 1 GL 3 2 0 128", OK), ("TERM 1 GL 3", OK), ("GET 1 DESCRIPTION GL 3", "416 ERROR no data")],
    "a throttle with more functions than the locomotive": [
        ("INIT 1 GL 3 N 1 28 1", OK), ("SET 1 GL 3 1 20 28 1 1 1 1 1", OK),
        ("GET 1 GL 3", "100 INFO 1 GL 3 1 20 28 1"), ("set 1 gl 3 2 0 28 0 0 0 0 0\r", OK),
        ("GET 1 GL 3", "100 INFO 1 GL 3 2 0 28 0"), ("SET 1 GL 3 0 9 28" + " 1" * 40, OK),
        ("CHECK 1 GL 3 1 9 28 1 1", OK), ("GET 1 GL 3", "100 INFO 1 GL 3 0 9 28 1"),
        ("SET 1 GL 3 1 29 28 1 1", WRONG), ("SET 1 GL 3 1 9 28 1 2", WRONG), ("SET 1 GL 98 2 0 0 1 1", NO_DATA),
        ("INIT 1 GL 3 N 1 28 1 1", LONG), ("TERM 1 GL 3", OK), ("INIT 1 GL 3 N 1 28 0", OK),
        ("SET 1 GL 3 1 9 28 1", OK), ("GET 1 GL 3", "100 INFO 1 GL 3 1 9 28")],
    "a throttle with a lock": [
        ("INIT 1 GL 4 P", OK), ("SET 1 LOCK GL 4 0", OK), ("SET 1 GL 4 0 9 28", OK), ("TERM 1 LOCK GL 4", OK)],
    "an analog locomotive": [("INIT 1 GL 5 A 1 28 5", OK), ("GET 1 DESCRIPTION GL 5", "101 INFO 1 GL 5 P 1 28 5")],
    "other protocols of locomotives": [
        ("INIT 1 GL 6 F 1 15 1", OK), ("INIT 1 GL 7 L 1 128 5", OK), ("INIT 1 GL 8 Z 1 28 8", OK),
        ("GET 1 DESCRIPTION GL 8", "101 INFO 1 GL 8 P 1 28 8"), ("INIT 1 GL 9 z", OK),
        ("INIT 1 GL 9 X 1 28 5", "420 ERROR unsupported device protocol")],
    "other protocols of accessories": [("INIT 1 GA 6 F", OK), ("INIT 1 GA 7 L", OK),
                                       ("GET 1 DESCRIPTION GA 7", "101 INFO 1 GA 7 P")],
    "a signal box": [
        ("INIT 1 GA 5 N", OK), ("GET 1 DESCRIPTION GA 5", "101 INFO 1 GA 5 N"), ("SET 1 GA 5 0 1 20", OK),
        ("GET 1 GA 5 1", "100 INFO 1 GA 5 1 0"), ("GET 1 DESCRIPTION GA 77", "416 ERROR no data")],
    "a description of what has none": [
        ("GET 1 DESCRIPTION FB 1", "416 ERROR no data"), ("GET 1 DESCRIPTION GL", "419 ERROR list too short"),
        ("GET 1 DESCRIPTION GL 3 4", "418 ERROR list too long"), ("GET 1 DESCRIPTION GL x", "412 ERROR wrong value"),
        ("GET 2 DESCRIPTION GL 3", "422 ERROR unsupported device group")],
    "a sensor that has the value": [("SET 1 FB 3 1", OK), ("WAIT 1 FB 3 1 5", "100 INFO 1 FB 3 1"),
                                    ("WAIT 1 FB 4 0 0", "100 INFO 1 FB 4 0")],
    "a sensor that never has it": [("WAIT 1 FB 5 1 1", "417 ERROR timeout"), ("WAIT 2 FB 6 1 0", "417 ERROR timeout")],
    "a wait that is wrong": [
        ("WAIT 1 FB 3 1", "419 ERROR list too short"), ("WAIT 1 FB 3 1 5 6", "418 ERROR list too long"),
        ("WAIT 1 FB 33 1 5", "412 ERROR wrong value"), ("WAIT 1 FB 3 2 5", "412 ERROR wrong value"),
        ("WAIT 1 FB 3 1 x", "412 ERROR wrong value"), ("WAIT 3 FB 3 1 5", "412 ERROR wrong value"),
        ("WAIT 1 GL 3 1 5", "423 ERROR unsupported operation")],
    "a clock": [
        ("GET 0 TIME", "416 ERROR no data"), ("INIT 0 TIME 0 1", OK), ("SET 0 TIME 2 13 59 30", OK),
        ("GET 0 TIME", "100 INFO 0 TIME 2 13 59 30"), ("WAIT 0 TIME 2 13 59 29", "100 INFO 0 TIME 2 13 59 30"),
        ("WAIT 0 TIME 3 0 0 0", "416 ERROR no data"), ("TERM 0 TIME", OK), ("TERM 0 TIME", "416 ERROR no data")],
    "a clock that is wrong": [
        ("INIT 0 TIME 1", "419 ERROR list too short"), ("INIT 0 TIME 1 0", "412 ERROR wrong value"),
        ("SET 0 TIME 1 24 0 0", "412 ERROR wrong value"), ("SET 0 TIME 1 2 3 4 5", "418 ERROR list too long"),
        ("GET 0 TIME now", "418 ERROR list too long"), ("CHECK 0 TIME 1 2 3 4", "423 ERROR unsupported operation"),
        ("WAIT 0 TIME 1", "419 ERROR list too short")],
    "a message to nobody": [
        ("SET 0 GM 0 0 TEXT hello out there", OK), ("SET 0 GM 99 0 TEXT hello", "416 ERROR no data"),
        ("SET 0 GM 0 0 TEXT", "419 ERROR list too short"), ("SET 0 GM x 0 TEXT hello", "412 ERROR wrong value"),
        ("GET 0 GM", "423 ERROR unsupported operation")],
    "a programmer": [
        ("INIT 1 SM NMRA", "421 ERROR unsupported device"), ("SET 1 SM 0 CV 1 3", "421 ERROR unsupported device"),
        ("GET 1 SM 0 CV 1", "421 ERROR unsupported device"), ("VERIFY 1 SM 0 CV 1 3", "421 ERROR unsupported device"),
        ("TERM 1 SM", "421 ERROR unsupported device")],
    "what the server refuses": [
        ("VERIFY 1 GL 3 1 2 3", "423 ERROR unsupported operation"), ("RESET 1 FB", "423 ERROR unsupported operation"),
        ("GET 1 SERVER", "421 ERROR unsupported device"), ("SET 1 TIME 1 2 3 4", "421 ERROR unsupported device"),
        ("HELLO", "410 ERROR unknown command"), ("GET 1", "419 ERROR list too short"),
        ("", "410 ERROR unknown command")],
    "lines that are too long": [("GET 0 SERVER" + " " * 1000, "418 ERROR list too long"),
                                ("WAIT 1 FB 3 " + "1" * 5000, "418 ERROR list too long"),
                                ("GET 0 SERVER" + "\t" * 988, "100 INFO 0 SERVER RUNNING")],
    "lines of another system": [("GET 0 SERVER\r", "100 INFO 0 SERVER RUNNING"), ("INIT 1 GL 31 L 1 28 5\r", OK),
                                ("GET\v0 SERVER x", "410 ERROR unknown command")],
    "a second handshake": [("GO", "410 ERROR unknown command"), ("SET PROTOCOL SRCP 0.8", "412 ERROR wrong value"),
                           ("GET 0 SERVER", "100 INFO 0 SERVER RUNNING")],
    "its own end": [("GET 0 SERVER", "100 INFO 0 SERVER RUNNING"), ("TERM 0 SESSION", OK)],
}


class Client:
    """An old client: a handshake, and lines that it sends at once or one by one."""

    def __init__(self, port, mode=None, address="127.0.0.1"):
        self.socket = socket.create_connection(("127.0.0.1", port), WAIT, (address, 0))
        self.stream = self.socket.makefile("rw", encoding="latin-1", newline="\n")
        self.welcome = self.stream.readline()
        if mode:
            self.ask("SET PROTOCOL SRCP 0.8.3", f"SET CONNECTIONMODE SRCP {mode}")
            self.id = int(self.ask("GO")[0].split()[-1])

    def send(self, *lines):
        self.stream.write("".join(line + "\n" for line in lines))
        self.stream.flush()

    def ask(self, *lines):
        """Sends lines at once; returns the replies without their stamps."""
        self.send(*lines)
        return [self.line() for _ in lines]

    def line(self):
        line = self.stream.readline()
        if not line.endswith("\n"):
            raise AssertionError(f"the connection was closed: {line!r}")
        return line[:-1].partition(" ")[2]

    def lines_until(self, end):
        lines = []
        while not lines or lines[-1] != end:
            lines.append(self.line())
            if len(lines) > 1000:
                raise AssertionError(f"not within 1000 lines: {end}")
        return lines

    def rest(self):
        return self.stream.read()


class Srcpd(Case):
    program = "srcpd"

    def setUp(self):
        super().setUp()
        self.listen = free_port()
        self.proxy = self.starts("srcpd.py", "--listen", self.listen)
        until(lambda: connects(self.listen) and "server: joined" in self.proxy.told(), "the proxy is there")

    def client(self, mode="COMMAND"):
        return Client(self.listen, mode)

    def test_sequences(self):
        self.assertEqual(len(SEQUENCES), 23)
        for at_once in (False, True):
            for name, sequence in SEQUENCES.items():
                client = Client(self.listen)
                self.assertEqual(client.welcome, "srcp_server 1.0; SRCP 0.8.4; SRCPOTHER 0.8.3\n")
                lines, replies = zip(*sequence)
                self.assertEqual(client.ask(HELLO[0], COMMAND[0]), [HELLO[1], COMMAND[1]])
                self.assertRegex(client.ask("GO")[0], "^200 OK GO [0-9]+$")
                got = client.ask(*lines) if at_once else [client.ask(line)[0] for line in lines]
                self.assertEqual((name, got), (name, list(replies)))
                client.socket.shutdown(socket.SHUT_WR)
                self.assertEqual(client.rest(), "")  # it ends
                self.throttle.ask("TERM 1 GL 3")
                for sensor in (1, 2, 3, 4, 5):
                    self.throttle.ask(f"SET 1 FB {sensor} 0")
        self.assertNotIn("Traceback", self.proxy.told())

    def test_a_thousand_lines_with_and_without_it(self):
        """Of two servers alike one is asked directly, as the fourth session, as it is by way of the proxy."""
        draw, other = random.Random(58), Server(self.layout)
        self.addCleanup(other.stop)
        before = [Session(other.port), Session(other.port), Session(other.port, "INFO")]
        with_it, without = self.client(), Client(other.port, "COMMAND")
        self.assertEqual((with_it.id, without.id), (4, 4))
        lines = [line(draw) for _ in range(1000)]
        begun = [client.ask(*lines) for client in (with_it, without)]
        for each, one, two in zip(lines, *begun):
            self.assertEqual((each, one), (each, two))
        self.assertGreater(len(set(begun[1])), 30)
        self.assertGreater(begun[1].count("200 OK"), 150)
        self.assertEqual(len(before), 3)

    def test_information_sessions(self):
        self.throttle.order("INIT 1 GL 3 N 1 28 2", "SET 1 GL 3 1 9 28", "INIT 1 GA 5 N")
        last = "100 INFO 2 FB 16 0"
        direct = Client(self.server.port, "INFO").lines_until(last)
        asks, silent = self.client("INFO"), self.client("INFO")
        listing = [line for line in silent.lines_until(last) if " SESSION " not in line]
        self.assertEqual(listing, [line for line in direct if " SESSION " not in line])
        asks.lines_until(last)
        file = Path(folder.name, "srcp_bridges", f"{self.proxy.pid}.json")  # by which status.py names it
        until(lambda: json.loads(file.read_text())["sessions"][str(self.server.port)].get(str(silent.id))
              == "srcpd.py: client 127.0.0.1", "whose the session is")
        for sent, told in (("GET 0 SERVER", "100 INFO 0 SERVER RUNNING"),
                           ("GET 2 DESCRIPTION", "100 INFO 2 DESCRIPTION GA FB LOCK DESCRIPTION"),
                           ("GET 1 DESCRIPTION GL 3", "101 INFO 1 GL 3 N 1 28 2")):
            asks.send(sent)
            asks.lines_until(told)
        for sent in ("GET 0 TIME", "INIT 0 TIME 60 1", "SET 0 GM 0 0 TEXT of a panel", "GET 3 DESCRIPTION",
                     "GET 1 GL 3", "SET 1 POWER ON", "WAIT 1 FB 3 1 9", "x"):
            asks.send(sent)  # of which nothing is told
        client = self.client()
        self.assertEqual(client.ask(f"SET 0 GM {client.id} 7 TEXT x"), [NO_DATA])  # it is no information session
        self.assertEqual(client.ask("INIT 0 TIME 120 1", "SET 0 TIME 1 23 58 30", f"SET 0 GM {silent.id} 7 TEXT a  b",
                                    "SET 0 GM 0 7 TEXT all"), [OK] * 4)
        told = asks.lines_until("100 INFO 0 TIME 2 0 1 0")
        self.assertEqual([line for line in told if " SESSION " not in line],
                         ["101 INFO 0 TIME 120 1", "100 INFO 0 TIME 1 23 58 30", "100 INFO 0 GM 0 7 TEXT all",
                          "100 INFO 0 TIME 1 23 59 0", "100 INFO 0 TIME 2 0 0 0", "100 INFO 0 TIME 2 0 1 0"])
        self.assertEqual(client.ask("TERM 0 TIME", "SET 1 GL 3 1 10 28"), [OK] * 2)
        self.assertIn("102 INFO 0 TIME", asks.lines_until("100 INFO 1 GL 3 1 10 28 0 0"))
        told = silent.lines_until("100 INFO 1 GL 3 1 10 28 0 0")
        self.assertEqual([line for line in told if " SESSION " not in line],
                         [f"100 INFO 0 GM {silent.id} 7 TEXT a b", "100 INFO 0 GM 0 7 TEXT all",
                          "100 INFO 1 GL 3 1 10 28 0 0"])
        silent.socket.shutdown(socket.SHUT_WR)
        self.assertEqual(silent.rest(), "")
        self.assertEqual(client.ask("INIT 0 TIME 0 1", "SET 0 TIME 3 0 0 59"), [OK] * 2)
        time.sleep(1.2)  # for a clock that stands no minute begins
        self.assertEqual(client.ask("SET 1 GL 3 1 11 28"), [OK])
        told = asks.lines_until("100 INFO 1 GL 3 1 11 28 0 0")
        self.assertEqual([line for line in told if " SESSION " not in line],
                         ["101 INFO 0 TIME 0 1", "100 INFO 0 TIME 3 0 0 59", "100 INFO 1 GL 3 1 11 28 0 0"])

    def test_a_panel_that_is_late(self):
        """What it tells then, of before a WAIT, does not end that WAIT."""
        listen, self.way.late = free_port(), b"100 INFO 1 FB 7 1"
        proxy = self.starts("srcpd.py", "--listen", listen, port=self.way.port)
        until(lambda: connects(listen) and "server: joined" in proxy.told(), "the proxy is there")
        client = Client(listen, "COMMAND")
        self.throttle.order("SET 1 FB 7 1", "SET 1 FB 7 0")
        client.send("WAIT 1 FB 7 1 1")
        time.sleep(0.3)
        self.way.free()
        self.assertEqual(client.line(), "417 ERROR timeout")

    def test_waits(self):
        """What a client sends behind a WAIT is carried out after it; others are served meanwhile."""
        waits, other = self.client(), self.client()
        replies = []
        thread = threading.Thread(target=lambda: replies.extend(waits.ask("WAIT 1 FB 7 1 20", "SET 1 FB 8 1")))
        thread.start()
        time.sleep(0.3)
        self.assertEqual(other.ask("GET 1 FB 8", "SET 1 FB 7 0", "SET 1 FB 6 1"), ["100 INFO 1 FB 8 0", OK, OK])
        time.sleep(0.3)
        self.assertEqual(replies, [])
        self.assertEqual(other.ask("SET 1 FB 7 1", "SET 1 FB 7 0"), [OK, OK])  # for a moment alone
        thread.join(WAIT)
        self.assertEqual(replies, ["100 INFO 1 FB 7 1", OK])
        self.assertEqual(other.ask("INIT 0 TIME 60 1", "SET 0 TIME 0 0 0 0"), [OK, OK])
        begun = time.monotonic()
        self.assertRegex(waits.ask("WAIT 0 TIME 0 0 1 0")[0], "^100 INFO 0 TIME 0 0 [1-9]")
        self.assertGreater(time.monotonic() - begun, 0.8)
        waits.send("WAIT 1 FB 9 1 86400")
        waits.socket.shutdown(socket.SHUT_WR)  # half a connection: it is waited for a while, and then no more
        self.assertEqual(waits.line(), "417 ERROR timeout")

    def test_a_server_that_ends(self):
        client = self.client()
        panel = self.client("INFO")
        waits = self.client()
        waits.send("WAIT 1 FB 9 1 86400", "GET 1 POWER", "SET 1 GL 3 2 0 0", "GET 1 POWER")
        time.sleep(0.3)
        joined = self.proxy.told().count("server: joined")
        self.restart()
        for each in (client, panel, waits):
            self.assertEqual(each.rest().split("\n")[-1], "")
        until(lambda: self.proxy.told().count("server: joined") > joined, "the proxy is back")
        self.assertEqual(self.client().ask("GET 0 SERVER", "GET 1 POWER"),
                         ["100 INFO 0 SERVER RUNNING", "100 INFO 1 POWER OFF"])
        self.assertEqual(self.proxy.end(), 0)
        self.assertNotIn("Traceback", self.proxy.told())

    def test_a_stop_with_more_functions_than_the_locomotive(self):
        """It is carried out also if another has made the locomotive anew, with fewer; its lock keeps it from that."""
        client = self.client()
        client.ask("INIT 1 GL 3 N 1 28 5", "SET 1 GL 3 1 20 28 1 1 1 1 1")
        self.throttle.order("INIT 1 GL 3 N 1 28 2", "SET 1 GL 3 1 20 28")
        self.assertEqual(client.ask("SET 1 GL 3 2 0 28 1 1 1 1 1", "GET 1 POWER"), [OK, "100 INFO 1 POWER OFF"])
        self.assertEqual(self.throttle.ask("GET 1 GL 3"), "100 INFO 1 GL 3 2 0 28 1 1")
        self.throttle.order("SET 1 GL 3 1 20 28", "SET 1 LOCK GL 3 0")
        self.assertEqual(client.ask("SET 1 GL 3 2 0 28 1 1 1 1 1"), ["414 ERROR device locked"])

    def test_turnouts_by_port_0_alone(self):
        """As JMRI throws them, from memory. Without the word port 0 is passed on as it is."""
        listen = free_port()
        proxy = self.starts("srcpd.py", "--listen", listen, "--one-port")
        until(lambda: connects(listen) and "server: joined" in proxy.told(), "the proxy is there")
        direct, panel, throws = (Client(port, mode) for port, mode in (
            (self.server.port, "INFO"), (listen, "INFO"), (listen, "COMMAND")))
        self.assertEqual(throws.ask("INIT 1 GA 5 N", "SET 1 GA 5 0 1 -1", "set 1 ga 5 0 0 -1"), [OK] * 3)
        self.throttle.order("SET 1 GA 5 1 1 20")
        self.assertEqual(throws.ask("SET 1 GA 5 0 2 -1", "SET 1 GA 5 0 1", "SET 1 FB 7 1"), [WRONG, SHORT, OK])
        lines = [[line for line in client.lines_until("100 INFO 1 FB 7 1") if " GA 5 " in line]
                 for client in (direct, panel)]
        self.assertEqual([line for line in lines[0] if line.endswith(" 1")],
                         ["100 INFO 1 GA 5 1 1", "100 INFO 1 GA 5 0 1", "100 INFO 1 GA 5 1 1"])
        self.assertEqual(lines[1], ["101 INFO 1 GA 5 N"] + ["100 INFO 1 GA 5 0 1", "100 INFO 1 GA 5 0 0",
                                                            "100 INFO 1 GA 5 0 1"])
        self.has("100 INFO 1 GA 5 0 0", "100 INFO 1 GA 5 1 0")  # the coils are off again
        for lies in (1, 0, 1):
            self.assertEqual(throws.ask(f"SET 1 GA 5 0 {lies} -1", "get 1 ga 5 0"), [OK, f"100 INFO 1 GA 5 0 {lies}"])
        self.has("100 INFO 1 GA 5 0 0", "100 INFO 1 GA 5 1 0")
        self.assertEqual(throws.ask("GET 1 GA 5 0", "GET 1 GA 5 1", "GET 1 GA 6 0", "GET 1 GA x 0", "GET 3 GA 5 0"),
                         ["100 INFO 1 GA 5 0 1", "100 INFO 1 GA 5 1 0", NO_DATA, WRONG, WRONG])
        self.assertEqual(self.client().ask("SET 1 GA 5 0 0 -1", "GET 1 GA 5 0"), [OK, "100 INFO 1 GA 5 0 0"])

    def test_a_server_that_is_slow(self):
        """What the program answers itself comes after the replies to the lines before it."""
        client, other = self.client(), self.client()
        self.server.process.send(signal.SIGSTOP)
        client.send("GET 1 POWER", "GET 0 SERVER")
        for _ in range(20):  # by then the program has read both lines
            self.assertEqual(other.ask("GET 0 SERVER"), ["100 INFO 0 SERVER RUNNING"])
        self.server.process.send(signal.SIGCONT)
        self.assertEqual([client.line(), client.line()], ["100 INFO 1 POWER OFF", "100 INFO 0 SERVER RUNNING"])

    def test_places(self):
        clients = [Client(self.listen, address=f"127.0.0.{2 + number // 20}") for number in range(40)]
        for address, told in (("127.0.0.2", "20 connections of 127.0.0.2 are open"), ("127.0.0.9", "40 connections")):
            with socket.create_connection(("127.0.0.1", self.listen), WAIT, (address, 0)) as one:
                self.assertEqual(one.recv(100), b"")
            until(lambda: told in self.proxy.told(), "it is told")
        clients[0].socket.shutdown(socket.SHUT_WR)
        self.assertEqual(clients[0].rest(), "")
        self.assertEqual(clients[1].ask("GO"), ["200 OK GO 4"])
        until(lambda: Client(self.listen, address="127.0.0.2").welcome, "there is a place")

    def test_a_client_that_does_not_read(self):
        client, other = self.client(), self.client()
        client.socket.setblocking(False)
        try:
            while True:
                client.socket.send(b"GET 0 SERVER\n" * 1000)
        except BlockingIOError:
            pass
        self.assertEqual(other.ask("GET 0 SERVER"), ["100 INFO 0 SERVER RUNNING"])
        client.socket.close()
        self.proxy.send(signal.SIGTERM)
        self.assertEqual(self.proxy.end(), 0)


class SrcpdWithADriver(DccExCase):
    """Decoders are programmed by the driver of the bus."""
    program = "srcpd"

    def start(self, station=None, *words):
        """Starts the driver and the proxy at the server's own port, by which the one finds the other."""
        self.environment = os.environ | {"XDG_RUNTIME_DIR": new_folder()}  # other cases have drivers too
        self.driver = self.starts("dcc_ex.py", "--station", self.link, *self.words, env=self.environment)
        self.listen = free_port()
        self.proxy = self.starts("srcpd.py", "--listen", self.listen, env=self.environment)
        until(lambda: connects(self.listen) and "server: joined" in self.proxy.told(), "the proxy is there")
        self.joins()

    def test_a_programmer(self):
        client = Client(self.listen, "COMMAND")
        for sent, reply in [
                ("GET 1 DESCRIPTION", "100 INFO 1 DESCRIPTION POWER GL GA FB LOCK SM DESCRIPTION"),
                ("GET 2 DESCRIPTION", "100 INFO 2 DESCRIPTION GA FB LOCK DESCRIPTION"),
                ("GET 1 SM 0 CV 29", NO_DATA), ("TERM 1 SM", NO_DATA), ("INIT 1 SM MM", PROTOCOL), ("INIT 1 SM", SHORT),
                ("INIT 1 SM NMRA", OK), ("GET 1 SM 0 CV 29", "100 INFO 1 SM 0 CV 29 6"), ("SET 1 SM 0 CV 29 38", OK),
                ("get 1 sm 0 cv 29", "100 INFO 1 SM 0 CV 29 38"), ("VERIFY 1 SM 0 CV 29 38", OK),
                ("VERIFY 1 SM 0 CV 29 6", WRONG), ("SET 1 SM 0 CV 29 256", WRONG), ("GET 1 SM 0 CV 1025", WRONG),
                ("GET 1 SM 0 CV 0", WRONG), ("GET 1 SM 3 CV 29", WRONG), ("GET 1 SM 0 CV x", WRONG),
                ("GET 1 SM 0 CV", SHORT), ("SET 1 SM 0 CV 29", SHORT), ("GET 1 SM", SHORT), ("GET 1 SM 0 CV 1 2", LONG),
                ("SET 1 SM 0 REG 1 3", UNSUPPORTED), ("WAIT 1 SM 0 CV 29 6", UNSUPPORTED),
                ("GET 1 SM 0 CV 500", NO_DATA), ("GET 2 SM 0 CV 29", "421 ERROR unsupported device"),
                ("TERM 1 SM", OK), ("TERM 1 SM", NO_DATA)]:
            self.assertEqual((sent, *client.ask(sent)), (sent, reply))
        self.assertEqual(self.commands("W "), ["W 29 38"])
        other, listen = Server(), free_port()  # another layout on this machine, whose bus 1 has no driver
        self.addCleanup(other.stop)
        proxy = self.starts("srcpd.py", "--listen", listen, port=other.port, env=self.environment)
        until(lambda: connects(listen) and "server: joined" in proxy.told(), "the proxy is there")
        self.assertEqual(Client(listen, "COMMAND").ask("INIT 1 SM NMRA"), ["421 ERROR unsupported device"])
        self.assertEqual(client.ask("INIT 1 SM NMRA", "SET 1 SM 0 CV 1 7", "GET 1 SM 0 CV 1", "GET 1 POWER"),
                         [OK, OK, "100 INFO 1 SM 0 CV 1 7", "100 INFO 1 POWER ON"])
        self.station.unplug()
        self.has("100 INFO 1 POWER OFF no station")
        self.assertEqual(client.ask("GET 1 SM 0 CV 1"), ["417 ERROR timeout"])
        self.driver.end(signal.SIGKILL)
        self.assertEqual(client.ask("GET 1 SM 0 CV 1"), ["421 ERROR unsupported device"])
        self.station.open()
        self.starts("dcc_ex.py", "--station", self.link, *self.words, env=self.environment)
        until(lambda: client.ask("GET 1 SM 0 CV 1") == ["100 INFO 1 SM 0 CV 1 7"], "another driver")


def line(draw):
    """A line that the server answers itself, mostly right."""
    odd = draw.choice(("0", "12", "007", "33", "99999", "-1", "x", "4294967296"))
    device = draw.choice(("3", "5", "7", "9", odd) if draw.random() < 0.3 else ("3", "5", "7"))
    group, commands, words = draw.choice((
        ("POWER", ("SET", "CHECK"), draw.choice(("ON", "OFF", "on", "OFF for  now", "", odd))), ("POWER", ("GET",), ""),
        ("GL", ("SET", "SET", "CHECK"), f"{device} {draw.choice('012')} {draw.choice('0579')} 28 {draw.choice('01')}"),
        ("GL", ("GET", "GET", "TERM"), device), ("GL", ("INIT",), f"{device} {draw.choice('NNNNMSPX')} 1 28 5"),
        ("GL", ("INIT",), f"{device} P"), ("GA", ("INIT",), f"{device} {draw.choice('NNNNMSPX')}"),
        ("GA", ("SET", "CHECK"), f"{device} {draw.choice('0017')} {draw.choice('01')} {draw.choice(('-1', odd))}"),
        ("GA", ("GET",), f"{device} {draw.choice('01')}"), ("FB", ("SET", "CHECK"), f"{device} {draw.choice('0112')}"),
        ("FB", ("GET",), device), ("LOCK", ("SET", "CHECK"), f"{draw.choice(('GL', 'GA', 'FB'))} {device} 86400"),
        ("LOCK", ("GET", "TERM"), f"{draw.choice(('GL', 'GA'))} {device}"), ("SESSION", ("GET",), draw.choice("12345")),
        ("SESSION", ("TERM",), "99"), ("SM", ("SET", "GET", "VERIFY"), "0 CV 1 3"), ("XX", ("GET",), odd)))
    command = draw.choice(commands)
    if draw.random() < 0.1 and group not in ("FB", "SESSION"):
        command = draw.choice(("GET", "SET", "CHECK", "INIT", "TERM", "VERIFY", "RESET", "WAIT", "HELLO"))
    bus = "0" if group == "SESSION" else draw.choice(("1",) * 9 + ("2", "01", "0", "3", "251", "x"))
    text = f"{command} {bus} {group} {words}"
    forms = text.lower(), text.replace(" ", " \t"), text + "\r", text + " 1 2 3", text[:5], "", text + "\0"
    return draw.choice((text,) * 20 + forms + (text + " x" * 600,))
