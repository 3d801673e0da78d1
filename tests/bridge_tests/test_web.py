"""web.py by http.client: events beside the rows of the server, commands, who is turned away, and what stands when."""
import argparse
import asyncio
import http.client
import json
import re
import signal
import socket
import threading
import time
from pathlib import Path

from .common import WAIT, Case, connects, free_port, new_folder, parsed, rows, sessions, until


class Events:
    """A page without a browser. One that does not `answer` leaves the beats of web.py without a reply."""

    def __init__(self, port, answers=True, own="127.0.0.1", **headers):
        self.rows = {}
        self.here = None
        self.key = None
        self.port = port
        self.gone = []
        self.events = []
        self.stops = {}
        self.stood = None
        self.ways = {}
        self.lies = {}
        self.answers = answers
        self.headers = headers
        self.own = own
        self.connection = self.connect()
        self.connection.request("GET", f"/events?{self.version()}", headers=headers)
        self.socket, self.stream = self.connection.sock, self.connection.getresponse()
        self.status = self.stream.status
        if self.status == 200:
            threading.Thread(target=self.read, daemon=True).start()
            until(lambda: "beat" in self.events, "the page has all rows: the first beat comes behind them")

    def connect(self):
        return http.client.HTTPConnection("127.0.0.1", self.port, timeout=WAIT, source_address=(self.own, 0))

    def version(self):
        """What the page names as it joins: its own."""
        connection = self.connect()
        connection.request("GET", "/", headers=self.headers)
        found = re.search('data-version="(.*?)"', connection.getresponse().read().decode())
        connection.close()
        return found[1] if found else ""

    def read(self):
        event = None
        try:
            while line := self.stream.readline().decode():
                name, _, text = line.rstrip("\n").partition(": ")
                if name == "event":
                    event = text
                elif name == "data":
                    self.take(event, json.loads(text))
        except (OSError, ValueError):
            pass
        self.events.append("END")

    def take(self, event, data):
        self.note(event, data)
        self.events.append(event)

    def note(self, event, data):
        if event == "page":
            self.key, self.rows = data["key"], {}
        elif event == "here":
            self.here = data
        elif event == "beat" and self.answers:
            threading.Thread(target=self.lives, daemon=True).start()
        elif event == "stop":
            self.stops |= {tuple(map(int, key.split(" GL "))): count for key, count in data.items()}
        elif event == "stood":
            self.stood = data
        elif event == "row" and data["row"]:
            bus, group, address, part = key = tuple(data["key"])
            for beside, kept in (("stops", self.stops), ("way", self.ways), ("lies", self.lies)):
                if beside in data:
                    kept[bus, address] = data[beside]
            self.rows[key] = data["row"]
        elif event == "row":
            self.gone.append(tuple(data["key"]))
            self.rows.pop(tuple(data["key"]), None)

    def lives(self):
        try:
            self.post("", "/alive")
        except OSError:
            pass  # web.py has gone meanwhile

    def seen(self, command):
        """The stops of a locomotive that this page has been told of, as it goes with a command."""
        words = command.upper().split()
        if words[:1] + words[2:3] != ["SET", "GL"]:
            return {}
        return {"X-Stops": str(self.stops.get((int(words[1]), int(words[3])), 0))}

    def post(self, body, path="/command", **headers):
        """The reply of web.py, or the status if that is not 200."""
        connection = self.connect()
        try:
            headers = {"X-Page": self.key, **self.headers, **self.seen(body), **headers}
            headers = {name: value for name, value in headers.items() if value is not None}
            connection.request("POST", path, body, headers)
            answer = connection.getresponse()
            text = answer.read()
            return json.loads(text)["reply"] if answer.status == 200 else str(answer.status)
        finally:
            connection.close()

    def order(self, *commands):
        for command in commands:
            if (reply := self.post(command)) != "200 OK":
                raise AssertionError(f"{command}: {reply}")

    def leaves(self):
        self.socket.shutdown(socket.SHUT_RDWR)


def have_the_rows(port, *pages):
    """Returns whether pages have the rows of the server, without the sessions, of which the snapshot is one."""
    theirs = {key: json.loads(json.dumps(row._asdict())) for key, row in parsed(rows(port)).items()}
    return all({key: {**row, "stamp": 0} for key, row in page.rows.copy().items() if key[1] != "SESSION"} == theirs
               for page in pages)


class WebCase(Case):
    program = "web"
    words: tuple[object, ...] = ()

    def setUp(self):
        super().setUp()
        self.port = free_port()
        self.web = self.starts("web.py", "--web", self.port, *self.words, port=self.way.port)
        until(lambda: connects(self.port) and "server: joined" in self.web.told(), "the page is served")

    def get(self, path="/", own="127.0.0.1", **headers):
        """The answer to a browser whose own address that is, and its text."""
        connection = http.client.HTTPConnection("127.0.0.1", self.port, timeout=WAIT, source_address=(own, 0))
        connection.request("GET", path, headers=headers)
        answer = connection.getresponse()
        text = answer.read().decode()
        connection.close()
        return answer, text

    def same(self, *pages):
        return have_the_rows(self.server.port, *pages)


class Web(WebCase):
    def test_page(self):
        """It takes nothing from elsewhere: what it is made of has paths, and each of them is there."""
        answer, text = self.get()
        self.assertTrue(answer.status == 200 and text.startswith("<!doctype html>") and "</html>" in text)
        asked, texts = ["/"], {"/": text}
        while asked:
            path = asked.pop()
            for more in re.findall(r'(?:src|href)="(/[^"]+)"|from "\.(/[^"]+)"|import "\.(/[^"]+)"', texts[path]):
                if (more := "".join(more)) not in texts:
                    part, texts[more] = self.get(more)
                    self.assertEqual((part.status, part.headers["Content-Security-Policy"]),
                                     (200, answer.headers["Content-Security-Policy"]), more)
                    asked.append(more)
        self.assertLess({"/", "/web.css", "/web.js", "/texts.js"}, set(texts))
        for path, text in texts.items():
            self.assertIsNone(re.search(r"""https?://|["'(]//|@import|url\(|style=|onclick=|<script>""", text), path)
        for words in ("default-src 'none'", "connect-src 'self'", "frame-ancestors 'none'", "script-src 'self';"):
            self.assertIn(words, answer.headers["Content-Security-Policy"])

    def test_rows_changes_and_locks(self):
        one, two = Events(self.port), Events(self.port)
        until(lambda: self.same(one, two), "all rows")
        one.order("SET 1 POWER ON text", "INIT 1 GL 3 N 1 28 5", "SET 1 GL 3 1 14 28 1", "INIT 1 GA 5 N",
                  "SET 1 GA 5 1 1 100", "SET 1 LOCK GL 3 0", "SET 1 FB 4 1", "INIT 1 GL 3 N 1 28 6", "INIT 2 GA 5 N",
                  "TERM 1 GA 5")
        until(lambda: self.same(one, two), "each change")
        one.order("SET 1 LOCK GL 3 0")
        self.assertEqual(two.post("SET 1 GL 3 1 1 28"), "414 ERROR device locked")
        one.order("SET 1 GL 3 1 14 28")
        one.leaves()
        self.has("100 INFO 1 GL 3 1 0 28")
        self.lacks("100 INFO 1 LOCK")

    def test_a_page_that_goes_leaves_no_train_of_its_driving(self):
        page = Events(self.port)
        page.order(*[f"INIT 1 GL {address} N 1 28 2" for address in range(3, 9)], "SET 1 LOCK GL 5 0")
        self.throttle.order("SET 1 GL 8 1 8 28", "SET 1 GL 6 1 8 28")
        until(lambda: page.rows.get((1, "GL", 6, "does"), {}).get("v") == 8, "another drives 6")
        page.order("set 01 gl 03 0 9 28", "SET 1 GL 4 1 9 28", "SET 1 GL 5 1 9 28", "SET 1 GL 6 1 8 28 1",
                   "SET 1 GL 7 1 9 28")
        self.assertEqual(page.post("SET 1 GL 7 1 99 28"), "412 ERROR wrong value")  # what is refused changes nothing
        self.throttle.order("SET 1 GL 4 1 7 28")
        page.order("SET 1 LOCK GL 8 0")  # it takes what another has driven
        page.leaves()
        self.has("100 INFO 1 GL 3 0 0 28", "100 INFO 1 GL 5 1 0 28", "100 INFO 1 GL 7 1 0 28", "100 INFO 1 GL 8 1 0 28")
        self.has("100 INFO 1 GL 4 1 7 28", "100 INFO 1 GL 6 1 8 28 1")  # these, others drive

    def test_stop_all(self):
        """What pages have locked stands too; if another session has one locked, its bus's power goes off."""
        one, two = Events(self.port), Events(self.port)
        self.throttle.order("SET 1 POWER ON", *[f"INIT 1 GL {address} N 1 28 0" for address in range(1, 61)])
        self.throttle.order(*[f"SET 1 GL {address} {address % 2} 9 28" for address in range(1, 61)])
        one.order("SET 1 LOCK GL 1 0")
        two.order("SET 1 LOCK GL 2 0")
        until(lambda: self.same(one), "all rows")
        self.assertEqual(one.post("", "/stop", **{"X-Page": "of before"}), "200 OK")
        stand = [f"100 INFO 1 GL {address} {address % 2} 0 28" for address in range(1, 61)]
        self.has(*stand)  # each in its direction
        self.has("100 INFO 1 POWER ON")
        until(lambda: "stop" in one.events and "stop" in two.events, "all pages are told")
        self.throttle.order("SET 1 LOCK GL 3 0", "SET 1 GL 3 1 9 28")
        until(lambda: self.same(one), "all rows")
        self.assertEqual(one.post("", "/stop"), "200 OK")
        self.has("100 INFO 1 POWER OFF")
        self.throttle.order("SET 1 GL 4 1 9 28", "TERM 1 LOCK GL 3")
        until(lambda: self.same(one), "all rows")
        self.way.cut()
        until(lambda: one.here is False, "the panel is closed")
        self.assertEqual(one.post("", "/stop"), "200 OK")  # also before it has joined again
        self.has("100 INFO 1 GL 4 1 0 28")
        self.way.free()
        until(lambda: one.here, "it has joined again")
        self.server.stop()
        until(lambda: one.here is False, "the server is away")
        self.assertEqual(one.post("", "/stop"), "the server is away")

    def test_stop_all_and_power_are_behind_nothing_else(self):
        """While a command of the page waits for ever, these two are carried out."""
        import web
        from srcp_bridges.page import page

        async def main():
            asked = argparse.Namespace(host="127.0.0.1", port=self.server.port, again=0.1, names=None, plan=None,
                                       bind="127.0.0.1", word=None, silence=10.0)
            site = web.Web(asked)
            following = asyncio.create_task(site.mirror.run())
            while not site.mirror.here:
                await asyncio.sleep(0.02)
            site.pages["key"] = busy = page.Page(site.mirror, None)
            await busy.ask("INIT 1 GL 3 N 1 28 0"), await busy.ask("SET 1 GL 3 1 9 28")
            await busy.turn.acquire()
            waiting = asyncio.create_task(site.obey("/command", "key", "SET 1 GL 3 1 10 28"))
            told = site.mirror.rows
            async with asyncio.timeout(5):
                power = await site.obey("/command", "key", "SET 1 POWER ON")
                while (1, "GL", 3, "does") not in told or not told[1, "POWER", 0, "does"].on:
                    await asyncio.sleep(0.02)  # a stop leaves the power as the panel has told it
                stop = await site.obey("/stop", "key", "")
            self.assertTrue("200 OK" in power[2] and "200 OK" in stop[2] and not waiting.done())
            waiting.cancel(), following.cancel()

        asyncio.run(main())
        self.has("100 INFO 1 POWER ON", "100 INFO 1 GL 3 1 0 28")

    def test_what_was_made_before_a_stop_is_refused(self):
        """Before a STOP ALL of another page, an emergency stop, and stops of other programs: of one, and of all by the
        text alone. V 0 is not refused."""
        one, two = Events(self.port), Events(self.port)
        one.order("INIT 1 GL 3 N 1 28 5", "SET 1 GL 3 0 9 28")
        stops = [lambda: self.assertEqual(one.post("", "/stop"), "200 OK"),
                 lambda: self.assertEqual(one.post("1 3", "/stop"), "200 OK"),
                 lambda: self.throttle.order("SET 1 GL 3 2 0 28"),
                 lambda: self.throttle.order("SET 1 POWER ON stop all")]
        for stop in stops:
            until(lambda: two.rows.get((1, "GL", 3, "does"), {}).get("v") == 9, "it drives")
            seen = two.seen("SET 1 GL 3")
            stop()
            until(lambda: two.seen("SET 1 GL 3") != seen, "the page is told of the stop")
            for words in ("0 9 28", "1 9 28", "1 1 28 1"):
                self.assertEqual(two.post(f"SET 1 GL 3 {words}", **seen), "it was stopped meanwhile")
            self.assertEqual(two.post("SET 1 GL 3 1 9 28", **{"X-Stops": None}), "it was stopped meanwhile")
            self.assertEqual(two.post("SET 1 GL 3 0 0 28", **seen), "200 OK")
            self.has("100 INFO 1 GL 3 0 0 28")
            two.order("SET 1 GL 3 0 9 28")  # it has seen the stop

    def test_a_stop_keeps_the_direction(self):
        page = Events(self.port)
        page.order("INIT 1 GL 3 N 1 28 5", "SET 1 GL 3 0 9 28")
        until(lambda: page.rows.get((1, "GL", 3, "does"), {}).get("v") == 9, "its row")
        self.assertEqual(page.post("1 3", "/stop"), "200 OK")
        self.has("100 INFO 1 GL 3 0 0 28")
        self.throttle.order("SET 1 GL 3 0 9 28", "SET 1 GL 3 2 0 28")  # by a program that then tells no direction
        until(lambda: page.rows.get((1, "GL", 3, "does"), {}).get("mode") == 2, "it is stopped")
        self.assertEqual((page.ways[1, 3], Events(self.port).ways[1, 3]), (0, 0))

    def test_a_stop_keeps_a_direction_that_is_on_its_way(self):
        page, self.way.late = Events(self.port), b"100 INFO 1 GL 3 0 9"
        page.order("INIT 1 GL 3 N 1 28 5", "SET 1 GL 3 0 9 28")
        threading.Timer(0.1, self.way.free).start()
        self.assertEqual(page.post("1 3", "/stop"), "200 OK")
        self.has("100 INFO 1 GL 3 0 0 ")

    def test_a_function_is_a_change_of_one_function(self):
        """A page that does not know how a locomotive drives, or that it was stopped, changes neither."""
        page = Events(self.port)
        self.throttle.order("INIT 1 GL 3 N 1 28 4", "SET 1 GL 3 0 9 28 0 0 1")
        self.assertEqual(page.post("1 3 1 1", "/function"), "200 OK")
        self.has("100 INFO 1 GL 3 0 9 28 0 1 1 0")
        until(lambda: page.rows[1, "GL", 3, "does"]["v"] == 9, "its row")
        self.throttle.order("SET 1 GL 3 2 0 28")
        self.assertEqual(page.post("1 3 2 0", "/function"), "200 OK")
        self.has("100 INFO 1 GL 3 0 0 28 0 1 0 0")
        self.throttle.order("SET 1 GL 3 1 5 28")
        self.assertEqual(page.post("1 3 0 1", "/function"), "200 OK")
        page.leaves()
        until(lambda: "127.0.0.1: gone" in self.web.told(), "the page is gone")
        self.has("100 INFO 1 GL 3 1 5 28 1 1 0 0")  # another drives it
        self.assertEqual([Events(self.port).post(words, "/function") for words in ("1 3 0", "1 3 0 x", "1 9 0 1")],
                         ["404", "404", "416 ERROR no data"])

    def test_how_a_turnout_lies(self):
        """As it was commanded last, also if an older pulse ends later."""
        page = Events(self.port)
        self.throttle.order("INIT 1 GA 5 N", "SET 1 GA 5 0 1 700", "SET 1 GA 5 1 1 100")

        def ended():
            made, *ports = [page.rows.get((1, "GA", 5, part), {"stamp": 0, "value": 1}) for part in ("is", 1, 0)]
            return made["stamp"] < ports[0]["stamp"] < ports[1]["stamp"] and not any(port["value"] for port in ports)

        until(ended, "both pulses have ended, that of port 0 last")
        late = Events(self.port)
        until(lambda: (1, 5) in late.lies, "a page that comes later has its rows")
        self.assertEqual((page.lies[1, 5], late.lies[1, 5]), (1, 1))

    def test_what_it_cannot_use(self):
        """Words that are wrong end it with status 2 and one line."""
        broken = Path(new_folder(), "names.toml")
        broken.write_text("1 GL 3 = V 100")
        drawn = Path(new_folder(), "plan.toml")
        drawn.write_text("plan = '''\na===t\n'''")
        for words in (("--web", 99999), ("--bind", "300.1.1.1"), ("--names", broken), ("--names", "/nowhere/names"),
                      ("--plan", broken), ("--plan", drawn), ("--plan", "/nowhere/plan")):
            started = self.starts("web.py", *words)
            self.assertEqual(started.process.wait(WAIT), 2, words)
            self.assertRegex(started.told(), rf"\A-- .*{words[0]}.*\n\Z")
            if words[1] == drawn:
                self.assertEqual(started.told(), f"-- --plan {drawn}: line 2: a in column 1 is not in the legend\n")

    def test_who_is_turned_away(self):
        page = Events(self.port)
        own = f"127.0.0.1:{self.port}"
        for want, headers in [
            ("403", {"Host": "evil.example"}), ("403", {"Host": f"evil.example:{self.port}"}), ("403", {"Host": ""}),
            ("403", {"Origin": "http://evil.example"}), ("403", {"Origin": "null"}),
            ("403", {"Origin": f"https://{own}"}), ("404", {"X-Page": "0"}), ("404", {"X-Page": None}),
            ("200 OK", {"Origin": f"http://{own}"}), ("200 OK", {"Host": "localhost:1"}),
            ("200 OK", {"Host": "[::1]:80"}), ("200 OK", {"Host": socket.gethostname().upper() + ":80"}),
            ("403", {"Host": socket.gethostname() + ".evil.example"}),
        ]:
            self.assertEqual(page.post("SET 1 POWER ON", **headers), want, headers)
        self.throttle.order("SET 1 POWER OFF")
        for headers in ({"Host": "evil.example"}, {"Origin": "http://evil.example"}, {"X-Page": None}):
            self.assertIn(page.post("", "/stop", **headers), ("403", "404"))
        for path in ("/", "/events"):
            self.assertEqual(self.get(path, Host="evil.example")[0].status, 403)
        for site in ("cross-site", "same-site"):  # what a browser sends with a link, or with a picture of another page
            asked = [self.get(path, **{"Sec-Fetch-Site": site})[0].status for path in ("/", "/events")]
            self.assertEqual(asked, [200, 403])
        self.assertEqual(self.get("/events", Origin="http://evil.example")[0].status, 403)
        self.assertEqual(self.get("/../program.py")[0].status, 404)
        self.assertEqual(page.post("SET 1 POWER OFF\nSET 1 POWER ON"), "more than one line")
        self.assertEqual(page.post("TERM 0 SESSION"), "415 ERROR forbidden")
        self.assertEqual(page.post("SET 1 POWER ON " + "x" * 1000), "413")
        self.has("100 INFO 1 POWER OFF")

    def test_a_page_that_sends_10_megabytes(self):
        page = Events(self.port)
        much = b"SET 1 POWER ON\n" * 700000
        for begin in (b"POST /command HTTP/1.1\r\nHost: localhost\r\nX-Page: %s\r\nContent-Length: %d\r\n\r\n" % (
                page.key.encode(), len(much)), b"GET / HTTP/1.1\r\nHost: localhost\r\nCookie: ", b"", b"GET /\r\n\r\n",
                b"POST /command HTTP/1.1\r\nHost: localhost\r\nContent-Length: -5\r\n\r\n",
                b"POST /command HTTP/1.1\r\nHost: localhost\r\nContent-Length: many\r\n\r\n",
                b"\xff\xfe GET \0 HTTP\r\n: :\r\n\r\n"):
            with socket.create_connection(("127.0.0.1", self.port), WAIT) as connection:
                try:
                    connection.sendall(begin + much)
                    while connection.recv(65536):
                        pass
                except OSError:
                    pass  # it has closed it meanwhile
        self.assertEqual(page.post("SET 1 FB 3 1"), "200 OK")
        self.has("100 INFO 1 POWER OFF")
        self.assertNotIn("Traceback", self.web.told())

    def test_restart_and_overrun(self):
        page = Events(self.port)
        page.order("INIT 1 GL 3 N 1 28 5", "INIT 1 GL 4 N 1 28 5")
        until(lambda: self.same(page), "all rows")
        self.way.cut()
        self.throttle.order("TERM 1 GL 4", "SET 1 GL 3 1 9 28")
        self.way.free()
        until(lambda: self.same(page) and page.here, "an overrun")
        gone = [key for key in page.gone if key[1] != "SESSION"]
        self.assertCountEqual(gone, [(1, "GL", 4, "is"), (1, "GL", 4, "does")])  # a slider that is held stays
        self.restart()
        until(lambda: page.here and self.same(page), "a restart")
        self.assertEqual(page.post("SET 1 POWER ON"), "200 OK")
        self.server.stop()
        until(lambda: page.here is False, "it is told that the server is away")
        self.assertEqual(page.post("SET 1 POWER ON"), "the server is away")

    def test_a_server_that_is_full(self):
        page = Events(self.port)
        page.order("INIT 1 GL 3 N 1 28 5")
        others = sessions(self.server.port, 61)  # beside the throttle, and two of web.py
        self.assertEqual(page.post("SET 1 LOCK GL 3 0"), "the server is full")
        others[0].close()
        until(lambda: page.post("SET 1 LOCK GL 3 0") == "200 OK", "there is a place again")

    def test_more_pages_than_a_browser_has_connections(self):
        pages = [Events(self.port, Cookie="srcp_browser=one") for _ in range(4)]
        other = Events(self.port, Cookie="srcp_browser=two")
        pages.append(Events(self.port, Cookie="srcp_browser=one"))
        until(lambda: "elsewhere" in pages[0].events, "the first is told to close")
        self.assertFalse([page for page in [*pages[1:], other] if "elsewhere" in page.events])

    def test_killed_beside_a_guard(self):
        """What pages have taken stands, and what they drive without that drives on."""
        guard = self.starts("guard.py")
        until(lambda: "server: joined" in guard.told(), "the guard has joined")
        page = Events(self.port)
        page.order("INIT 1 GL 3 N 1 28 0", "INIT 1 GL 4 N 1 28 0", "SET 1 LOCK GL 3 0", "SET 1 GL 3 0 9 28",
                   "SET 1 GL 4 1 9 28")
        self.web.end(signal.SIGKILL)
        self.has("100 INFO 1 GL 3 0 0 28", "100 INFO 1 GL 4 1 9 28")

    def test_sigterm(self):
        page = Events(self.port)
        page.order("INIT 1 GL 8 N 1 28 1", "SET 1 LOCK GL 8 0", "INIT 1 GL 9 N 1 28 1", "SET 1 GL 9 1 20 28",
                   "SET 1 GL 8 1 20 28")
        self.assertEqual(self.web.end(), 0)
        self.has("100 INFO 1 GL 8 1 0 28", "100 INFO 1 GL 9 1 0 28")
        self.assertNotIn("Traceback", self.web.told())


class WebWithManyPages(WebCase):
    words = ("--silence", WAIT)

    def test_more_pages_than_the_server_has_places(self):
        pages = [Events(self.port, own=f"127.0.0.{2 + number % 4}") for number in range(80)]
        self.assertEqual({page.post("SET 1 FB 4 1") for page in pages}, {"200 OK"})
        until(lambda: self.same(*pages), "all have all")


class WebWithSilentPages(WebCase):
    words = ("--silence", 2)

    def test_a_page_that_is_silent(self):
        page, other = Events(self.port, answers=False), Events(self.port)
        page.order("INIT 1 GL 3 N 1 28 2", "SET 1 GL 3 1 9 28")
        other.order("INIT 1 GL 4 N 1 28 2", "SET 1 GL 4 1 9 28")
        self.has("100 INFO 1 GL 3 1 0 28")
        until(lambda: "END" in page.events, "it is closed")
        self.assertEqual(page.post("SET 1 GL 3 1 9 28"), "404")
        self.assertNotIn("END", other.events)
        self.has("100 INFO 1 GL 4 1 9 28")
        self.assertEqual(page.post("1 4", "/stop"), "200 OK")
        self.has("100 INFO 1 GL 4 1 0 28")

    def test_what_was_asked_while_it_slept(self):
        """If it slept for as long as makes a page silent, that was asked of it long ago; but a stop is a stop."""
        self.throttle.order("INIT 1 GL 3 N 1 28 2", "INIT 1 GL 4 N 1 28 2")
        for which in ["", "1 4"] * 2:  # whichever comes first, the request or that the page is silent
            self.throttle.order("SET 1 GL 4 1 9 28")
            page = Events(self.port)
            asks, stops = page.connect(), page.connect()  # which are open already, as a browser's are
            for connection in (asks, stops):
                connection.request("POST", "/alive", "", {"X-Page": page.key})
                connection.getresponse().read()
            self.web.send(signal.SIGSTOP)
            asks.request("POST", "/command", "SET 1 GL 3 1 9 28", {"X-Page": page.key})
            stops.request("POST", "/stop", which, {"X-Page": page.key})
            time.sleep(2.5)
            self.web.send(signal.SIGCONT)
            self.assertEqual([connection.getresponse().status for connection in (asks, stops)], [404, 200])
            self.has("100 INFO 1 GL 3 1 0 0", "100 INFO 1 GL 4 1 0 28")


class WebThatSleeps(WebCase):
    def test_a_real_overrun(self):
        page = Events(self.port)
        page.order("INIT 1 GL 3 N 1 28 5", "INIT 1 GL 4 N 1 28 5")
        until(lambda: self.same(page), "all rows")
        self.overruns(self.web, "TERM 1 GL 4", "SET 1 GL 3 1 9 28")
        page = Events(self.port) if "END" in page.events else page
        until(lambda: self.same(page), "after the overrun")
        self.assertEqual(page.post("SET 1 POWER ON"), "200 OK")
