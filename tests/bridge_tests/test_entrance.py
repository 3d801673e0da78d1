"""Who may see the page of web.py: words, cookies, connections, and names of this machine."""
import http.client
import os
import re
import socket
import tempfile
import time
import unittest
from pathlib import Path

from .common import PACKAGES, WAIT, new_folder, until
from .test_web import Events, WebCase


class Entering(unittest.TestCase):
    program = "web"

    def test_words_are_limited_by_address(self):
        from srcp_bridges.page import entrance
        moment = 1000.0
        door = entrance.Entrance("sunday", 8303, lambda: moment)
        for _ in range(entrance.WRONG_WORDS):
            self.assertEqual(door.wait("10.0.0.7"), 0)
            self.assertIsNone(door.enter("10.0.0.7", "monday"))
        self.assertEqual(door.wait("10.0.0.7"), entrance.PAUSE)
        self.assertEqual(door.wait("10.0.0.8"), 0)
        one, two = door.enter("10.0.0.8", "sunday"), door.enter("10.0.0.8", "sunday")
        self.assertTrue(door.is_open(one) and door.is_open(two) and one != two and len(one) >= 32)
        self.assertFalse(door.is_open("") or door.is_open(one[:-1]) or door.is_open("sunday"))
        moment += entrance.PAUSE
        self.assertEqual(door.wait("10.0.0.7"), 0)
        door.wrong("10.0.0.7")
        self.assertEqual(door.wait("10.0.0.7"), entrance.PAUSE)
        moment += entrance.PAUSE * entrance.WRONG_WORDS
        door.wrong("10.0.0.9")
        self.assertEqual(set(door.rested), {"10.0.0.9"})  # who has all trials again is forgotten
        for _ in range(entrance.TOKENS):
            last = door.enter("10.0.0.8", "sunday")
        self.assertEqual((len(door.tokens), door.is_open(one), door.is_open(last)), (entrance.TOKENS, False, True))

    def test_what_counts_as_one_machine(self):
        from srcp_bridges.page.entrance import guest_of
        self.assertEqual(guest_of("192.168.1.7"), "192.168.1.7")
        self.assertEqual(guest_of("::ffff:192.168.1.7"), "192.168.1.7")
        self.assertEqual(guest_of("fd00:1:2:3:4::5"), guest_of("fd00:1:2:3:ffff:1:2:3"))
        self.assertNotEqual(guest_of("fd00:1:2:3::5"), guest_of("fd00:1:2:4::5"))
        self.assertEqual(guest_of("fe80::1%eth0"), guest_of("fe80::2"))

    def test_names_of_this_machine(self):
        from srcp_bridges.page.hosts import is_own, to_type
        with tempfile.NamedTemporaryFile("w", suffix=".conf") as file:
            file.write("# search evil.example\nnameserver 192.168.178.1\n"
                       "SEARCH Club.example shed.\nsearch .\ndomain attic.example\n")
            file.flush()

            def own(host, name="MyLayout"):
                return is_own(host, name, Path(file.name))

            for host in ("mylayout", "MYLAYOUT:8303", "mylayout.", "mylayout.local", "MyLayout.club.example:80",
                         "mylayout.club.example.", "mylayout.shed", "mylayout.attic.example", "localhost:8303",
                         "127.0.0.1", "[::1]:8303", "[fd00::1]"):
                self.assertTrue(own(host), host)
            for host in ("", "evil.example", "mylayout.evil.example", "other.club.example", "club.example",
                         "mylayout.club.example.evil.example", "localhost.evil.example", "mylayoutfritz.box",
                         "127.0.0.1.evil.example"):
                self.assertFalse(own(host), host)
            self.assertTrue(own("shed.club.example", "shed.club.example"))

        def in_any(host):
            return is_own(host, "vm", Path("/nowhere"))

        for suffix in ("local", "fritz.box", "lan", "home", "home.arpa", "internal", "localdomain"):
            self.assertTrue(in_any(f"vm.{suffix}") and in_any(f"VM.{suffix.upper()}.:8303"), suffix)
            self.assertFalse(in_any(f"other.{suffix}") or in_any(suffix) or in_any(f"vm.{suffix}.evil.example"), suffix)
        for host in ("vm.box", "vm.evil.box", "vm.fritz.box.evil.example", "vm.evil.fritz.box", "vm.club.example"):
            self.assertFalse(in_any(host), host)
        self.assertEqual([to_type(bind) for bind in ("127.0.0.1", "::1", "shed")], ["127.0.0.1", "[::1]", "shed"])
        self.assertNotIn(to_type("0.0.0.0"), ("0.0.0.0", ""))
        self.assertNotIn(to_type("::"), ("::", "[::]", ""))


class WebWithAWord(WebCase):
    words = ("--bind", "localhost")  # a name, which may be that of any address

    def setUp(self):
        super().setUp()
        self.word = re.search(r"asks for the word (\w{8,})", self.web.told())[1]

    def enters(self, word, own="127.0.0.1", **headers):
        connection = http.client.HTTPConnection("127.0.0.1", self.port, timeout=WAIT, source_address=(own, 0))
        headers["Content-Type"] = "application/x-www-form-urlencoded"
        connection.request("POST", "/word", f"word={word}", headers)
        answer = connection.getresponse()
        text = answer.read().decode()
        return answer.status, answer.headers.get("Set-Cookie", ""), text

    def test_who_does_not_know_the_word(self):
        for path in ("/", "/events", "/what"):
            answer, text = self.get(path)
            self.assertEqual((answer.status, "addGL" in text), (401, False))
        page = Events(self.port)
        self.assertEqual(page.status, 401)
        page.key = "none"
        for path in ("/command", "/stop", "/alive", "/function"):
            self.assertEqual(page.post("SET 1 POWER ON", path), "401")
        self.assertEqual(page.post("", "/stop", **{"X-Page": None, "Cookie": "srcp_browser=1"}), "401")
        for wrong in ("", "x", self.word.upper() + "x"):
            self.assertEqual(self.enters(wrong)[0], 401)
        self.assertEqual(self.get("/", Cookie="srcp_word_1=x")[0].status, 401)  # of another web.py on this machine
        self.assertEqual(self.web.told().count("127.0.0.1: a wrong word"), 3)
        status, cookie, _ = self.enters(self.word)
        self.assertEqual(status, 303)
        self.assertTrue("HttpOnly" in cookie and "SameSite=Strict" in cookie and self.word not in cookie)
        self.assertNotEqual(self.enters(self.word)[1], cookie)  # each who enters has a cookie of his own
        page = Events(self.port, Cookie=cookie.partition(";")[0])
        self.assertEqual(page.post("SET 1 POWER ON"), "200 OK")
        self.assertEqual(page.post("SET 1 POWER OFF", Cookie=""), "401")
        self.has("100 INFO 1 POWER ON")

    def test_one_address_locks_out_no_other(self):
        """A wrong cookie counts as a wrong word. Who was wrong too often has to wait, and who has entered has not."""
        _, cookie, _ = self.enters(self.word)
        name, _, token = cookie.partition(";")[0].partition("=")
        tokens = ("x", "x\xe4", "0" * 32, token.upper() + "0")
        answers = [self.get("/events", Cookie=f"{name}={tokens[n % 4]}")[0] for n in range(10)]
        self.assertEqual([answer.status for answer in answers], [401] * 10)
        self.assertIn(f"{name}=;", answers[0].headers["Set-Cookie"])  # so that a browser sends it only once
        self.assertEqual(self.web.told().count("127.0.0.1: a wrong word"), 10)
        self.assertEqual(self.web.told().count("a wrong word, and has to wait"), 1)
        begun = time.monotonic()
        self.assertEqual({self.enters(self.word)[0] for _ in range(60)}, {429})
        self.assertEqual(self.get("/", Cookie=f"{name}=x")[0].status, 429)
        self.assertEqual(self.enters(self.word, "127.0.0.2")[0], 303)
        self.assertLess(time.monotonic() - begun, 5)  # none waits for those before
        page = Events(self.port, Cookie=cookie.partition(";")[0])
        self.assertEqual(page.post("SET 1 POWER ON"), "200 OK")


class WebWithForms(WebCase):
    def sends(self, **headers):
        """The answer to a form that a browser sends, and its text."""
        connection = http.client.HTTPConnection("127.0.0.1", self.port, timeout=WAIT)
        headers |= {"Content-Type": "application/x-www-form-urlencoded"}
        connection.request("POST", "/stop", "", {name.replace("_", "-"): value for name, value in headers.items()})
        answer = connection.getresponse()
        return answer.status, answer.read().decode()

    def test_stop_all_by_a_form(self):
        """It is of a page of ours, and of no other site: that has no cookie, and a browser tells whose it is."""
        self.throttle.order("INIT 1 GL 3 N 1 28 0", "SET 1 GL 3 1 9 28")
        self.has("100 INFO 1 GL 3 1 9 28")
        cookie = self.get("/")[0].headers["Set-Cookie"]
        self.assertIn("SameSite=Strict", cookie)
        cookie = cookie.partition(";")[0]
        for status, headers in ((404, {}), (403, {"Cookie": cookie, "Origin": "http://evil.example"}),
                                (403, {"Cookie": cookie, "Origin": "null"}),
                                (403, {"Cookie": cookie, "Sec_Fetch_Site": "cross-site"}),
                                (403, {"Cookie": cookie, "Host": "evil.example"})):
            self.assertEqual(self.sends(**headers)[0], status, headers)
        self.has("100 INFO 1 GL 3 1 9 28")
        status, text = self.sends(Cookie=cookie, Origin=f"http://127.0.0.1:{self.port}", Sec_Fetch_Site="same-origin")
        self.assertEqual((status, "All locomotives stand." in text), (200, True))
        self.has("100 INFO 1 GL 3 1 0 28")


class WebInTheNetwork(WebCase):
    words = ("--bind", "0.0.0.0")

    def test_what_is_printed_can_be_typed(self):
        host = re.search(r"the page is at http://(.*):[0-9]+/ and asks for the word", self.web.told())[1]
        self.assertNotIn(host, ("0.0.0.0", "127.0.0.1", "localhost"))
        connection = http.client.HTTPConnection(host, self.port, timeout=WAIT)
        connection.request("GET", "/")
        self.assertEqual(connection.getresponse().status, 401)


    def test_how_a_phone_finds_the_page(self):
        """By a word that is the same at each start, by a code, and, if zeroconf is there, by its announcement."""
        code = Path(new_folder(), "qrcode.py")
        code.write_text("""class QRCode:
    def __init__(self, border): pass
    def add_data(self, text): self.text = text
    def print_ascii(self, out, invert): print(f"CODE {self.text}", file=out)
""")
        ways = os.environ | {"PYTHONPATH": f"{code.parent}:{PACKAGES}"}
        told = r"the page is at (.*) and asks for the word (\w{8,})\n"
        address, word = re.search(told, self.web.told()).groups()
        self.assertNotIn("CODE", self.web.told())
        self.web.end()
        web = self.starts("web.py", "--web", self.port, *self.words, env=ways)
        until(lambda: f"CODE {address}\n" in web.told(), "the code has the address")
        self.assertEqual(re.search(told, web.told()).groups(), (address, word))
        if os.path.isdir(f"{PACKAGES}/zeroconf"):
            until(lambda: re.search(rf"announced at .* as srcp on .*, port {self.port}", web.told()), "it is announced")
        self.assertEqual(web.end(), 0)


class WebBesideManyConnections(WebCase):
    def test_one_machine_that_opens_many(self):
        """It has no place any more, other machines have, and its half requests are closed after 5 s."""
        page = Events(self.port)
        page.order("INIT 1 GL 3 N 1 28 0", "SET 1 GL 3 1 9 28")
        half = [socket.create_connection(("127.0.0.1", self.port), WAIT) for _ in range(110)]
        begun = time.monotonic()
        self.addCleanup(lambda: [connection.close() for connection in half])
        for connection in half:
            connection.sendall(b"GET / HTTP/1.1\r\nHost: localhost\r\nX-")
        until(lambda: "127.0.0.1: turned away but for stops" in self.web.told(), "there is no place left")
        self.assertEqual(self.get(own="127.0.0.2")[0].status, 200)
        self.assertLess(time.monotonic() - begun, 3)
        late = [connection for connection in half if not self.is_closed(connection, 8)]
        self.assertEqual(late, [])
        self.assertLess(time.monotonic() - begun, 8)
        self.assertNotIn("Traceback", self.web.told())

    def is_closed(self, connection, seconds):
        connection.settimeout(seconds)
        try:
            return not connection.recv(100)
        except ConnectionError:
            return True
        except TimeoutError:
            return False

    def test_places_are_kept_for_stops(self):
        page = Events(self.port)
        page.order("INIT 1 GL 3 N 1 28 0", "SET 1 GL 3 1 9 28")
        silent = [socket.create_connection(("127.0.0.1", self.port), WAIT) for _ in range(99)]
        self.addCleanup(lambda: [connection.close() for connection in silent])
        until(lambda: page.post("SET 1 POWER ON") == "503", "there is no place left")
        self.assertEqual(page.post("", "/stop"), "200 OK")
        self.has("100 INFO 1 GL 3 1 0 28")

    def test_many_machines_that_open_all(self):
        page = Events(self.port)
        page.order("INIT 1 GL 3 N 1 28 0", "SET 1 GL 3 1 9 28")
        for own in range(2, 6):
            own, there = (f"127.0.0.{own}", 0), ("127.0.0.1", self.port)
            silent = [socket.create_connection(there, WAIT, own) for _ in range(100)]
            self.addCleanup(lambda silent=silent: [connection.close() for connection in silent])
        until(lambda: page.post("SET 1 POWER ON") == "503", "there is no place left")
        self.assertEqual(page.post("1 3", "/stop"), "200 OK")
        self.has("100 INFO 1 GL 3 1 0 28")
