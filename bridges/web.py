#!/usr/bin/env python3
"""A panel and throttle for browsers: one page, at http://127.0.0.1:8303 if not told otherwise.

Each page that is open is sent all rows and each change. Commands go by one session that all pages share; a page that
takes a locomotive for itself has one of its own from then on. As a page goes, or is silent for SILENCE seconds, the
locomotives stand that it has taken, and those that drive as it told them last.
`--bind 0.0.0.0` serves the home network, to whoever knows the word: WORD, or one that is made once, and printed at each
start. It goes over the network as it is. The address is printed too, as a code for phones if python3-qrcode is
installed, and announced if python3-zeroconf is. FILE (TOML) names devices: "1 GL 3" = "V 100".
"""
import argparse
import asyncio
import html
import json
import math
import secrets
import urllib.parse

from srcp_bridges.limits import (ARRIVE, BEHIND, CONNECTIONS, CONNECTIONS_OF_ONE, DRIVERS_LOOK, IDLE, KEPT, KEPT_OF_ONE,
                                 LONGEST_HEAD, PAGES_OF_ONE, PAGE_SILENCE)
from srcp_bridges.page.announce import announce
from srcp_bridges.page.entrance import Entrance, guest_of
from srcp_bridges.page.hosts import address_of, is_own, to_type
from srcp_bridges.page.network import kept_word, show_code
from srcp_bridges.page.page import Page, event, row_event
from srcp_bridges.page.page_files import EVENTS, FILES, PAGE, STOPPED, WORD
from srcp_bridges.page.places import Full, Places, add_arguments, listen
from srcp_bridges.page.request import NO_REQUEST, TEXT, Request, answer, read_request
from srcp_bridges.plan.plan import read_plan
from srcp_bridges.program import arguments, names, run, say
from srcp_bridges.srcp.mirrors import Mirror
from srcp_bridges.srcp.replies import Refused, outcome
from srcp_bridges.srcp.rows import ALL_STOOD, STOP_ALL, Change, Power
from srcp_bridges.srcp.stop import Fault, stop_all, unsure
from srcp_bridges.state import stations

HTML = "text/html; charset=utf-8"
JSON = "application/json"
Answer = tuple[int, str, str]  # status, kind and body
BEGUN = "HTTP/1.1 200 OK\r\nContent-Type: text/event-stream\r\nCache-Control: no-store\r\nConnection: close\r\n\r\n"


def is_ours(request: Request) -> bool:
    """Returns whether a page of ours asks: no other site's page, and no other site's name that leads here."""
    host = request.headers.get("host", "")
    site = request.headers.get("sec-fetch-site", "none")
    # A link may lead to the page, and no more.
    is_elsewhere = request.path != "/" and site not in ("none", "same-origin")
    return is_own(host) and request.headers.get("origin", f"http://{host}") == f"http://{host}" and not is_elsewhere


def enter(entrance: Entrance, writer: asyncio.StreamWriter, request: Request, guest: str) -> bool:
    """Asks for the word. Who was wrong too often has to wait; nobody else has."""
    page = WORD
    if wait := entrance.wait(guest):
        return answer(writer, 429, HTML, page.replace('data-wait="0"', f'data-wait="{math.ceil(wait)}"'))
    is_wrong = bool(request.cookies.get(entrance.cookie))  # of before a restart, or a guess
    if (request.method, request.path) == ("POST", "/word"):
        word = urllib.parse.parse_qs(request.body).get("word", [""])[0]
        if token := entrance.enter(guest, word):
            return answer(writer, 303, TEXT, "", [f"{entrance.cookie}={token}"])
        is_wrong = True
    elif is_wrong:
        entrance.wrong(guest)
    if is_wrong:
        say(f"page {guest}: a wrong word{', and has to wait' if entrance.wait(guest) else ''}")
    return answer(writer, 401, HTML, page, [f"{entrance.cookie}="] * is_wrong)


def told_of_stop(faults: list[Fault]) -> dict[str, object]:
    """Returns the outcome of a STOP ALL for a page, with each device that could not be stopped."""
    of_all = [fault.why for fault in faults if not fault.whose]
    whole = of_all[0] if of_all else Refused(None, "; ".join(map(str, faults))) if faults else None
    return outcome(whole) | {"faults": [outcome(fault.why) | {"key": fault.whose} for fault in faults if fault.whose]}


class Web:
    def __init__(self, asked: argparse.Namespace):
        self.asked = asked
        self.plan = read_plan(asked.plan)
        self.pages: dict[str, Page] = {}
        self.names = self.plan.names | names(asked.names)
        self.mirror = Mirror(asked, self.on_change, lambda anew: self.tell(event("here", True)),
                             lambda: self.tell(event("here", False)))
        address = address_of(asked.bind)
        self.is_open = not (address and address.is_loopback)
        self.word = asked.word or (kept_word() if self.is_open else None)
        self.entrance = Entrance(self.word, asked.web) if self.word else None
        self.places = Places(CONNECTIONS, CONNECTIONS_OF_ONE)
        self.kept = Places(KEPT, KEPT_OF_ONE)
        self.turned_away: str | None = None
        self.left_out: dict[str, dict[str, object]] = {}
        self.stops_told = 0  # the STOP ALLs that pages were told of
        self.asking: asyncio.Task[None] | None = None  # whether the drivers confirm the last one

    async def look_at_drivers(self) -> None:
        """Tells pages which devices the drivers of this machine cannot drive, and why; the driver of a device's bus
        counts. A driver of before an upgrade tells why in words alone."""
        while True:
            found = {name: {"why": why, **station.get("left_out_by", {}).get(name, {})}
                     for station in stations(self.asked.port) for name, why in station["left_out"].items()
                     if name.split(" ")[0] == str(station["bus"])}
            if self.left_out != found:
                self.left_out = found
                self.tell(event("leftOut", found))
            await asyncio.sleep(DRIVERS_LOOK)

    def on_change(self, change: Change) -> None:
        self.tell(row_event(self.mirror, change.key, change.row))
        if isinstance(change.row, Power) and change.row.text.startswith((STOP_ALL, ALL_STOOD)):
            self.tell_stop()

    def tell(self, text: str) -> None:
        for page in self.pages.values():
            page.tell(text)

    async def serve(self, reader: asyncio.StreamReader, writer: asyncio.StreamWriter) -> None:
        """Serves a connection that has a place. A connection without a place may only stop trains."""
        if not (peer := writer.get_extra_info("peername")):
            return writer.close()  # it is closed already
        guest = guest_of(peer[0])
        try:
            with self.places.place(guest):
                while await self.answer_next(reader, writer, guest):
                    await writer.drain()
        except Full as fault:
            await self.serve_stop(reader, writer, guest, fault)
        except NO_REQUEST:
            pass
        finally:
            writer.close()

    async def serve_stop(self, reader: asyncio.StreamReader, writer: asyncio.StreamWriter, guest: str,
                         fault: Full) -> None:
        """Serves a connection for which only the places are left that are kept for stops."""
        if self.turned_away != guest:
            say(f"page {guest}: turned away but for stops, {fault}")
        self.turned_away = guest
        try:
            with self.kept.place(guest):
                await self.answer_next(reader, writer, guest, only="/stop")
        except (Full, *NO_REQUEST):
            pass

    async def answer_next(self, reader: asyncio.StreamReader, writer: asyncio.StreamWriter, guest: str,
                          only: str | None = None) -> bool:
        """Answers a request; returns whether the connection goes on. `only`: the path that is not turned away."""
        request = await read_request(reader, ARRIVE if only else IDLE)
        if not is_ours(request):
            return answer(writer, 403, TEXT, "not from here\n")
        if only not in (None, request.path):
            return answer(writer, 503, TEXT, "too many connections\n")
        if request.body is None:
            return answer(writer, 413, TEXT, "too long\n")
        if request.method == "GET" and request.path in FILES:
            return answer(writer, 200, *FILES[request.path])
        if self.entrance and not self.entrance.is_open(request.cookies.get(self.entrance.cookie, "")):
            return enter(self.entrance, writer, request, guest)
        if (request.method, request.path) == ("GET", EVENTS):
            return await self.events(reader, writer, request.cookies.get("srcp_browser"))
        if (request.method, request.path) == ("GET", "/"):
            kept = [] if "srcp_browser" in request.cookies else [f"srcp_browser={secrets.token_hex(8)}"]
            return answer(writer, 200, HTML, PAGE, kept)
        if (request.method, request.path) == ("POST", "/stop") and "x-page" not in request.headers:
            return answer(writer, *await self.stop_by_form(request.cookies))
        if request.method == "POST" and "x-page" in request.headers:  # other sites cannot send this header
            seen = request.headers.get("x-stops", "0")
            return answer(writer, *await self.obey(request.path, request.headers["x-page"], request.body, int(seen)))
        return answer(writer, 404, TEXT, "no such page\n")

    async def stop_by_form(self, cookies: dict[str, str]) -> Answer:
        """Carries out a STOP ALL of a page whose script does not run; returns status, kind and body of the answer. The
        cookie is the page's: a browser sends this cookie with no form of another site."""
        if "srcp_browser" not in cookies:
            return 404, TEXT, "no such page\n"
        faults = await self.stop_all()
        said = f"STOP ALL FAILED. {'; '.join(map(str, faults))}" if faults else "All locomotives stand."
        return 200, HTML, STOPPED.replace("{class}", "failed" * bool(faults)).replace("{said}", html.escape(said))

    async def obey(self, path: str, key: str, body: str, seen: int = 0) -> Answer:
        """Does what a page asks for; returns status, kind and body of the answer."""
        page = self.pages.get(key)
        numbers = [int(word) for word in body.split() if word.isdecimal()]
        caller = page or Page(self.mirror, None)  # also one that is gone: a stop is wanted nonetheless
        now = asyncio.get_running_loop().time()
        if page and now > page.heard + self.asked.silence:
            page = None  # it counts as gone, or this program slept: what it asked for then is not wanted now
        if page:
            page.heard = now
        if path == "/stop" and not body:  # also of a page that is about to join again
            return 200, JSON, json.dumps(told_of_stop(await self.stop_all()))
        if path == "/stop" and len(numbers) == 2:
            refused = await caller.stop(*numbers)
        elif not page:
            return 404, TEXT, "no such page\n"
        elif path == "/command":
            refused = await page.ask(body, seen)
        elif path == "/function" and len(numbers) == 4:
            refused = await page.switch(*numbers)
        elif path == "/alive":
            refused = None
        else:
            return 404, TEXT, "no such page\n"
        return 200, JSON, json.dumps(outcome(refused) | {"session": caller.session and caller.session.id})

    async def stop_all(self) -> list[Fault]:
        """Stops all locomotives; returns what could not be stopped. Pages are told as soon as the stop is counted."""
        holders = {page.session.id: page.session for page in self.pages.values() if page.session and page.session.id}
        stopping = asyncio.create_task(stop_all(self.mirror, holders))
        await asyncio.sleep(0)
        self.tell_stop()
        return await stopping

    def tell_stop(self) -> None:
        """Tells pages of a counted STOP ALL, by whoever; and then whether all have stood."""
        count = self.mirror.stops.count
        if self.stops_told != self.mirror.stops.all:
            self.stops_told = self.mirror.stops.all
            self.tell(event("stop", {f"{bus} GL {address}": count(bus, address) for bus, group, address, part
                                     in self.mirror.rows if (group, part) == ("GL", "does")}))
        if self.asking:
            self.asking.cancel()
        self.asking = asyncio.create_task(self.tell_stood())

    async def tell_stood(self) -> None:
        """Tells pages the buses whose drivers do not confirm in time that all stand."""
        self.tell(event("stood", await unsure(self.mirror)))

    async def events(self, reader: asyncio.StreamReader, writer: asyncio.StreamWriter, browser: str | None) -> bool:
        """Sends a page all rows and each change, until it is gone, silent, or too far behind."""
        page = Page(self.mirror, browser)
        key = secrets.token_hex(16)
        first = event("page", {"key": key, "names": self.names, "functions": self.plan.functions,
                               "plan": self.plan.drawing, "silence": self.asked.silence})
        first += event("here", self.mirror.here)
        first += event("leftOut", self.left_out)
        rows = [row_event(self.mirror, *item) for item in self.mirror.rows.items()]
        writer.write("".join([BEGUN, first, *rows]).encode())
        self.pages[key] = page
        peer = writer.get_extra_info("peername")[0]
        why = "gone"
        for other in [other for other in self.pages.values() if browser and other.browser == browser][:-PAGES_OF_ONE]:
            other.tell(event("elsewhere", None))
        say(f"page {peer}: joined, {len(self.pages)} are open")
        try:
            why = await self.follow(page, reader, writer)
        finally:
            del self.pages[key]
            say(f"page {peer}: {why}, {len(self.pages)} are open")
            await page.close()
        return False

    async def follow(self, page: Page, reader: asyncio.StreamReader, writer: asyncio.StreamWriter) -> str:
        """Sends a page each change until the page goes; returns why it went."""
        loop = asyncio.get_running_loop()
        gone = asyncio.create_task(reader.read(1))
        beat = loop.time()
        try:
            while not gone.done() and len(page.events) <= BEHIND:
                if loop.time() >= beat:
                    page.tell(event("beat", None))  # which the page answers
                    beat = loop.time() + self.asked.silence / 3
                if loop.time() > page.heard + self.asked.silence:
                    return "silent"
                writer.write("".join(page.events).encode())
                page.events.clear()
                page.more.clear()
                async with asyncio.timeout(self.asked.silence):
                    await writer.drain()
                more = asyncio.create_task(page.more.wait())
                await asyncio.wait([more, gone], timeout=beat - loop.time(), return_when=asyncio.FIRST_COMPLETED)
                more.cancel()
            return "gone"
        finally:
            gone.cancel()

    async def run(self) -> None:
        async with listen(self.serve, self.asked.bind, self.asked.web, limit=LONGEST_HEAD) as server:
            asks = f" and asks for the word {self.word}" if self.word and not self.asked.word else ""
            address = f"http://{to_type(self.asked.bind)}:{self.asked.web}/"
            say(f"the page is at {address}{asks}")
            beside = [asyncio.create_task(self.look_at_drivers())]
            if self.is_open:
                show_code(address)
                beside.append(asyncio.create_task(announce("_http._tcp", server)))
            await self.mirror.run()
            for task in beside:
                task.cancel()


async def begin(asked: argparse.Namespace) -> None:
    await Web(asked).run()


def main() -> None:
    words = arguments(__doc__)
    add_arguments(words, "--web", 8303, "browsers")
    words.add_argument("--word", help="what a page is asked for; with --bind one that stays if none is given")
    words.add_argument("--names", metavar="FILE", help="names of devices")
    words.add_argument("--plan", metavar="FILE", help="names, labels of functions, and a track plan with its routes")
    words.add_argument("--silence", type=float, default=PAGE_SILENCE, metavar="SECONDS",
                       help="of a page until it counts as gone (%(default)s)")
    run(begin(words.parse_args()))


if __name__ == "__main__":
    main()
