"""The track plan of web.py's page in Chromium: clicks, keys, routes, and how it looks."""
import re
import time
from itertools import combinations
from pathlib import Path

from .browser import HELD, started
from .common import Session, layout_bus, new_folder, plan_of_two_buses, rows, until
from .test_chromium import SMALL, ChromiumCase

LAYOUT = ("port = {port}\n" + layout_bus(1, "POWER GL GA FB", gl_max=99, ga_max=64, fb_ports=64)
          + layout_bus(2, "GA FB", ga_max=64, ga_ports=4, fb_ports=16)
          + layout_bus(3, "GA FB", ga_max=32, ga_ports=3, fb_ports=32))


class PlanCase(ChromiumCase):
    program = "plan"
    layout = LAYOUT

    def plan(self):
        return plan_of_two_buses()

    def setUp(self):
        self.browser = started(language=self.language) or self.skipTest("chromium is not installed, or does not start")
        self.addCleanup(self.browser.end)
        self.words = ("--silence", self.silence, "--plan", self.plan())
        super(ChromiumCase, self).setUp()
        self.browser.opens(f"http://127.0.0.1:{self.port}/")
        until(lambda: self.js("document.querySelector('section.plan')?.hidden === false"), "the plan is drawn")
        until(lambda: self.js("document.getElementById('FB')?.children.length ?? 0") > 4, "the rows are there")

    def element(self, name):
        return f"document.querySelector('#drawing g[data-name=\"{name}\"]')"

    def said(self, name):
        return self.js(f"{self.element(name)}.ariaLabel")

    def says(self, name, label):
        until(lambda: self.said(name) == label, f"{name} is {label}, and not {self.said(name)}")

    def clicks(self, name):
        """Has the mouse press an element in its middle."""
        x, y = self.browser.place(self.element(name))
        self.browser.drags((x, y))

    def clicks_on(self, *names):
        for name in names:
            self.clicks(name)

    def drawn(self, kind):
        """How many tracks are drawn as free (""), "asked", "set", "lost" or "busy"."""
        return self.js(f"document.querySelectorAll('#drawing path[class=\"track {kind}\"]').length")

    def tells(self, words, failed=False):
        until(lambda: self.told() == [words, "failed" if failed else ""], f"{words} and not {self.told()}")

    def chip(self, name):
        return f"[...document.querySelectorAll('#routes button')].find(e => e.firstChild.textContent === '{name}')"

    def route_is(self, name, state):
        until(lambda: self.js(f"{self.chip(name)}.lastChild.textContent") == state, f"{name} is {state}")
        time.sleep(1)  # the plan moves to a route that is set: for half a second after that a click does nothing


class PlanInChromium(PlanCase):
    def test_in_chromium_turnouts_and_signals(self):
        """A click throws one, which is made if it is not there; one that another has taken stays, and it is told."""
        self.says("t1", "t1, West turnout: unknown")
        self.clicks("t1"), self.says("t1", "t1, West turnout: straight")
        self.clicks("t1"), self.says("t1", "t1, West turnout: branch")
        self.has("100 INFO 1 GA 1 0 0", "100 INFO 1 GA 1 1 0")  # each was a pulse
        self.clicks("s1"), self.says("s1", "s1, Home signal, to the right: stop")  # by each click: none shows go
        self.throttle.order("SET 2 GA 1 0 0 -1", "SET 2 GA 1 2 1 -1")
        self.says("s1", "s1, Home signal, to the right: go")
        self.clicks("s1"), self.says("s1", "s1, Home signal, to the right: stop")
        self.has("100 INFO 2 GA 1 2 0", "100 INFO 2 GA 1 0 1")
        self.throttle.order("SET 1 LOCK GA 1 0")
        self.clicks("t1"), self.tells("West turnout is taken by another throttle.", failed=True)
        self.says("t1", "t1, West turnout: branch")
        self.assertEqual(self.browser.faults, [])

    def test_in_chromium_signals_of_the_list(self):
        """Their buttons have the names of aspects. One of a route shows go by that alone: the others do nothing."""
        self.throttle.order("INIT 2 GA 1 N", "INIT 2 GA 7 N", "SET 2 GA 1 0 1 -1")
        until(lambda: self.has_card("2 GA 1") and self.has_card("2 GA 7"), "the cards")
        buttons = "[...{}.querySelectorAll('button')].map(e => e.textContent + (e.disabled ? ' -' : ''))"
        self.assertEqual(self.js(buttons.format(self.card("2 GA 1"))), ["stop", "1 -", "go -", "3 -"])
        self.assertEqual(self.js(buttons.format(self.card("2 GA 7"))), ["0", "1", "2", "3"])

    def test_in_chromium_which_leg_is_drawn(self):
        """That to which a turnout does not lead has a gap; both have one as long as nobody has thrown it."""
        gaps = "[...{}.querySelectorAll('.leg')].map(e => getComputedStyle(e).stroke !== 'none')"
        of = [gaps.format(self.element(name)) for name in ("t1", "t2")]
        self.assertEqual([self.js(each) for each in of], [[True, True], [True, True]])
        self.throttle.order("INIT 1 GA 1 N", "INIT 1 GA 2 N", "SET 1 GA 1 0 1 -1", "SET 1 GA 2 1 1 -1")
        until(lambda: [self.js(each) for each in of] == [[False, True], [True, False]], "the legs")

    def test_in_chromium_what_is_written(self):
        """Names of [names] stand above their elements if there is room for them; beside the tracks are a platform and a
        text."""
        above = "[...document.querySelectorAll('#drawing .name')].map(e => e.textContent).join(' | ')"
        self.assertEqual(self.js(above), "West | b1 | Home signal | West turnout | b5 | b2 | Track 1 | Exit of track 1 "
                         "| East turnout | b4 | East | b6 | b3 | Track 2 | Exit of track 2")
        spans = self.js("[...document.querySelectorAll('#drawing .name')].map(e => (r => [r.left, r.right, r.top])"
                        "(e.getBoundingClientRect()))")
        for (left, right, top), (other, beside, above) in combinations(spans, 2):
            self.assertTrue(right <= other or beside <= left or abs(top - above) > 20, (left, right, other, beside))
        notes = "[...document.querySelectorAll('#drawing .note')].map(e => e.textContent)"
        self.assertEqual(self.js(notes), ["to the valley", "Platform"])
        wide = "document.querySelector('{}').getBoundingClientRect().width"
        self.assertAlmostEqual(self.js(wide.format("#drawing .area")) / self.js(wide.format("#drawing")), 11 / 46, 2)

    def test_in_chromium_occupied_blocks(self):
        self.assertEqual((self.drawn(""), self.drawn("busy")), (15, 0))
        self.throttle.order("SET 1 FB 1 1", "SET 1 FB 3 1")
        self.says("b1", "b1, Sensor 1: occupied"), self.says("b2", "b2, Sensor 2: free")
        self.says("b3", "b3, Sensor 3: occupied")
        self.assertEqual((self.drawn(""), self.drawn("busy")), (10, 5))  # W b1 s1 t1, and b6 b3 Q
        red, blue, _ = self.js("getComputedStyle(document.querySelector('.track.busy')).stroke"
                               ".match(/[0-9]+/g).map(Number)")
        self.assertGreater(red, 2 * blue)
        colours = self.js("[['.track.busy', 'stroke'], ['.sensor.busy .mark', 'fill'], ['#FB .on', 'backgroundColor']]"
                          ".map(([path, key]) => getComputedStyle(document.querySelector(path))[key])")
        self.assertEqual(len(set(colours)), 1, colours)  # occupied has one colour everywhere
        self.throttle.order("SET 1 FB 1 0", "SET 1 FB 3 0")
        until(lambda: self.drawn("busy") == 0, "they are free")

    def test_in_chromium_routes(self):
        """Two clicks ask for one. It waits, is set, and keeps its turnouts from a click until it is given back."""
        self.clicks_on("W", "P")
        self.tells("West to track 1: no program sets routes on bus 3.", failed=True)
        self.throttle.order(*[f"INIT 3 GA {n} N" for n in (1, 2, 3, 4)], "INIT 1 GA 1 N", "SET 1 GA 1 0 1 -1")
        self.clicks("W"), self.tells("From West: choose where the route ends.")
        marks = "[...document.querySelectorAll('#drawing .{}')].map(e => e.dataset.name).join(' ')"
        until(lambda: self.js(marks.format("chosen")) == "W", "it is chosen")
        self.assertEqual((self.js(marks.format("may")), self.js(f"{self.element('W')}.ariaPressed")), ("P Q", "true"))
        self.clicks("E"), self.tells("No route leads from West to East.", failed=True)
        self.clicks_on("W", "W")
        until(lambda: self.js(marks.format("chosen")) == "", "nothing is chosen")
        self.assertFalse([row for row in rows(self.server.port) if row.startswith("100 INFO 3 GA") and row[-1] == "1"])
        self.js(HELD + ", window.holds = 'replies'")
        self.clicks("W"), self.tells("From West: choose where the route ends.")
        self.clicks("P"), until(lambda: self.js("window.held.length"), "it is asked for")
        self.assertEqual(self.told(), ["", ""])  # and so it stays if the route is set before the reply comes
        self.js("(window.holds = null, window.held.forEach(goes => goes()))")
        self.tells("The route West to track 1 is asked for.")
        self.route_is("West to track 1", "waits: no program sets routes")
        self.assertEqual((self.drawn("asked"), self.drawn("set")), (6, 0))
        self.throttle.order("INIT 2 GA 1 N", "SET 2 LOCK GA 1 0")  # as the program does that sets routes
        self.route_is("West to track 1", "waits")
        self.throttle.order("SET 1 LOCK GA 1 0", "SET 3 FB 1 1")
        self.route_is("West to track 1", "set")
        self.assertEqual((self.drawn("asked"), self.drawn("set")), (0, 6))
        self.says("t1", "t1, West turnout: straight, locked")
        self.clicks("t1"), self.tells("West turnout is locked by the route West to track 1.", failed=True)
        self.says("t1", "t1, West turnout: straight, locked")
        self.clicks_on("W", "P"), self.tells("The route West to track 1 is set.")
        self.throttle.order("SET 1 FB 2 1")
        until(lambda: (self.drawn("set"), self.drawn("busy")) == (4, 2), "a train is on it")
        self.gives_back()
        self.assertEqual(self.browser.faults, [])

    def test_in_chromium_what_asks_for_routes(self):
        """It is no turnout in the list of turnouts, and what tells of routes is no sensor there: nor is it counted.
        What is refused has the name of its route."""
        self.throttle.order("INIT 1 GA 1 N", "INIT 3 GA 1 N", "SET 3 LOCK GA 1 0", "SET 1 FB 2 1", "SET 3 FB 4 1")
        counts = "['countGA', 'countFB'].map(id => document.getElementById(id).textContent)"
        until(lambda: self.js(counts) == ["1", "80, 1 occupied"], f"the counts, and not {self.js(counts)}")
        cards = "[...document.querySelectorAll('#GA li, #FB li')].map(e => e.dataset.key.split(' ')[0])"
        self.assertEqual(set(self.js(cards)), {"1", "2"})
        self.clicks_on("W", "P"), self.tells("West to track 1 is taken by another throttle.", failed=True)

    def test_in_chromium_routes_that_are_not_set(self):
        """A route of which the sensor alone says that it is set is lost. Of one that waits it is said what for."""
        self.throttle.order(*[f"INIT {bus} GA {n} N" for bus in (1, 2, 3) for n in (1, 2, 3)], "SET 1 GA 1 0 1 -1",
                            "SET 3 FB 1 1")
        self.route_is("West to track 1", "lost: its turnouts are not locked")
        self.assertEqual((self.drawn("lost"), self.drawn("set")), (6, 0))
        self.throttle.order("SET 1 LOCK GA 1 0", "SET 2 LOCK GA 1 0")
        self.route_is("West to track 1", "set")
        self.throttle.order("SET 1 GA 1 0 0 -1", "SET 1 GA 1 1 1 -1")
        self.route_is("West to track 1", "lost: West turnout lies otherwise")
        self.throttle.order("SET 1 POWER ON thrown by hand: 1 1")
        said = "[...document.querySelectorAll('#track li:not([hidden])')].map(e => e.textContent)"
        why = "Power 1: a hand at the station has thrown West turnout, which is locked."
        until(lambda: self.js(said) == [why], why)
        self.throttle.order("SET 1 GA 1 1 0 -1", "SET 1 GA 1 0 1 -1")
        self.route_is("West to track 1", "set")
        self.throttle.order("SET 3 GA 2 1 1 250")
        self.route_is("West to track 2", "waits for West to track 1")
        self.throttle.order("SET 1 FB 3 1")
        self.route_is("West to track 2", "waits for Sensor 3")
        self.throttle.order("SET 3 FB 1 0", "SET 1 FB 3 0")
        self.route_is("West to track 2", "waits")

    def test_in_chromium_a_signal_of_a_set_route(self):
        """A click has its program stop it, and neither gives its route back nor asks for anything else."""
        self.throttle.order(*[f"INIT {bus} GA {n} N" for bus in (1, 2, 3) for n in (1, 2, 3)], "SET 1 GA 1 0 1 -1",
                            "SET 2 GA 1 2 1 -1", "SET 1 LOCK GA 1 0", "SET 2 LOCK GA 1 0", "SET 3 GA 1 1 1 250",
                            "SET 3 FB 1 1")
        self.route_is("West to track 1", "set"), self.says("s1", "s1, Home signal, to the right: go")
        panel = Session(self.server.port, "INFO")
        panel.hears_until(b" 100 INFO 3 FB 32 0\n")
        self.clicks("s1"), self.tells("Home signal is to show stop. The route West to track 1 stays set.")
        told = [panel.line().decode().partition(" ")[2].strip() for _ in range(2)]
        self.assertEqual(told, [f"100 INFO 3 GA 1 2 {value}" for value in (1, 0)])
        self.has("100 INFO 2 GA 1 2 1")
        self.route_is("West to track 1", "set")

    def test_in_chromium_a_begin_that_is_taken_back(self):
        """The first Escape takes a chosen begin back, and stops nothing; the next one stops all."""
        self.throttle.order("INIT 1 GL 3 N 1 28 3", "SET 1 GL 3 1 9 28")
        self.clicks("W"), self.tells("From West: choose where the route ends.")
        self.browser.presses("Escape", windowsVirtualKeyCode=27)
        until(lambda: self.js("document.querySelector('#drawing .chosen')") is None, "nothing is chosen")
        time.sleep(0.3)
        self.has("100 INFO 1 GL 3 1 9 28")
        self.browser.presses("Escape", windowsVirtualKeyCode=27), self.has("100 INFO 1 GL 3 1 0 28")

    def test_in_chromium_a_begin_that_is_forgotten(self):
        """A begin stays chosen for 10 s. Then the next click on a button chooses a begin again, and asks for nothing;
        what the bar says of something else stays."""
        chosen = "document.querySelector('#drawing .chosen')?.dataset.name"
        began = time.monotonic()
        self.clicks("W"), self.tells("From West: choose where the route ends.")
        self.throttle.order("INIT 1 GA 1 N", "SET 1 LOCK GA 1 0", *[f"INIT 3 GA {n} N" for n in (1, 2, 3, 4)])
        self.js("new Promise(then => setTimeout(then, 7000))")
        if time.monotonic() - began < 9:  # else the machine is too busy to say
            self.assertEqual(self.js(chosen), "W")
        self.clicks("t1"), self.tells("West turnout is taken by another throttle.", failed=True)
        until(lambda: self.js(chosen) is None, "it is forgotten")
        self.assertGreater(time.monotonic() - began, 9.5)
        self.assertEqual(self.told(), ["West turnout is taken by another throttle.", "failed"])
        self.clicks("P"), self.tells("From Track 1: choose where the route ends.")
        self.lacks("100 INFO 3 GA 1 1 1")

    def gives_back(self):
        self.js(f"{self.chip('West to track 1')}.click()")
        until(lambda: self.js("import('/layout.js').then(m => m.rowOf('3 GA 1').lies)") == 0, "it is given back")
        self.throttle.order("SET 3 FB 1 0", "TERM 1 LOCK GA 1", "TERM 2 LOCK GA 1")
        self.route_is("West to track 1", "free")
        self.clicks("t1"), self.says("t1", "t1, West turnout: branch")

    def test_in_chromium_keys(self):
        """Tab reaches each element in the order of the drawing, Enter and Space act, and Escape stops all."""
        self.throttle.order("INIT 1 GL 3 N 1 28 3", "SET 1 GL 3 1 9 28", *[f"INIT 3 GA {n} N" for n in (1, 2, 3, 4)])
        self.js(f"{self.element('W')}.focus()")
        reached, focused = ["W"], "document.activeElement.dataset.name"
        while reached[-1]:
            self.browser.presses("Tab", windowsVirtualKeyCode=9)
            reached.append(self.js(focused))
        self.assertEqual(" ".join(reached[:-1]), "W b1 s1 t1 b5 b2 P s2 t2 b4 E b6 b3 Q s3")
        self.js(f"{self.element('t1')}.focus()")
        self.browser.presses("Enter", windowsVirtualKeyCode=13), self.says("t1", "t1, West turnout: straight")
        outline = f"getComputedStyle({self.element('t1')}.querySelector('.hit')).strokeWidth"
        self.assertEqual(self.js(outline), "3px")
        top = self.js("scrollY")
        space = {"windowsVirtualKeyCode": 32, "text": " "}
        self.browser.presses(" ", **space), self.says("t1", "t1, West turnout: branch")
        time.sleep(0.5)
        self.assertEqual(self.js("scrollY"), top)
        self.js("document.activeElement.blur()"), self.browser.presses(" ", **space)
        until(lambda: self.js("scrollY") > top, "elsewhere it scrolls the page")
        for name in ("Q", "E"):
            self.js(f"{self.element(name)}.focus()"), self.browser.presses("Enter", windowsVirtualKeyCode=13)
        self.route_is("Track 2 to east", "waits: no program sets routes")
        self.browser.presses("Escape", windowsVirtualKeyCode=27), self.has("100 INFO 1 GL 3 1 0 28")
        tree = self.browser.call("Accessibility.getFullAXTree")["nodes"]
        told = {node["name"]["value"]: node["role"]["value"] for node in tree if node.get("name", {}).get("value")}
        for name, role in [("W, West", "button"), ("t1, West turnout: branch", "button"),
                           ("s2, Exit of track 1, to the right: unknown", "button"), ("b4, Sensor 4: free", "image")]:
            self.assertEqual(told.get(name), role, name)

    def test_in_chromium_labels_of_functions(self):
        self.throttle.order("INIT 1 GL 3 N 1 28 3", "SET 1 GL 3 1 0 28")
        until(lambda: self.has_card("1 GL 3"), "its card")
        buttons = "[...document.querySelectorAll('.functions button')].map(e => [e.textContent, e.ariaLabel])"
        self.assertEqual(self.js(buttons), [["Light", "Light, function 0"], ["Whistle", "Whistle, function 1"],
                                            ["F2", "function 2"]])
        self.assertTrue(self.js(f"{self.card('1 GL 3')}.textContent").startswith("V 100 1 GL 3"))
        self.press("1 GL 3", "Whistle"), self.has("100 INFO 1 GL 3 1 0 28 0 1 0")

    def test_in_chromium_the_picture(self):
        """The picture of the page in docs/: a train on a route that is set, and another one that waits."""
        self.throttle.order("SET 1 POWER ON", "INIT 1 GL 3 N 1 126 5", "SET 1 GL 3 1 40 126 1", "INIT 1 GL 7 N 1 126 5",
                            "SET 1 GL 7 0 88 126 1 0 1", *[f"INIT {bus} GA {n} N" for bus in (1, 2, 3) for n in (1, 2)],
                            "INIT 2 GA 3 N", *[f"SET 2 GA {n} {2 * (n == 1)} 1 -1" for n in (1, 2, 3)],
                            "SET 1 GA 1 1 1 -1", "SET 1 GA 2 0 1 -1", "SET 1 LOCK GA 1 0", "SET 3 FB 2 1",
                            "SET 2 LOCK GA 1 0", "SET 1 FB 1 1", "SET 1 FB 4 1")
        until(lambda: self.has_card("1 GL 7") and self.has_card("2 GA 3"), "the cards")
        until(lambda: (self.drawn("set"), self.drawn("busy")) == (3, 5), "the route, and both trains")
        self.picture("panel", 1160, 800)


class SignalsInChromium(PlanCase):
    """A signal of four aspects that have names, and two that no route passes. Accessories of routes have two ports."""
    layout = LAYOUT.replace("ga_ports = 3\n", "")

    def test_in_chromium_a_signal_that_its_route_alone_stops(self):
        """A click does nothing then, but the page says what does: not even that gives a route back by accident."""
        self.throttle.order(*[f"INIT {bus} GA {n} N" for bus in (1, 2, 3) for n in (1, 2, 3)], "SET 1 GA 1 0 1 -1",
                            "SET 2 GA 1 1 1 -1", "SET 1 LOCK GA 1 0", "SET 2 LOCK GA 1 0", "SET 3 FB 1 1")
        self.route_is("West to track 1", "set")
        said = "Home signal shows stop once the route West to track 1 is given back: press it below."
        self.clicks("s1"), self.tells(said, failed=True)
        time.sleep(0.3)
        self.route_is("West to track 1", "set")
        self.has("100 INFO 2 GA 1 1 1")
        self.lacks("100 INFO 3 GA 1 0 1", "100 INFO 3 GA 1 1 1")

    def plan(self):
        path, text = Path(new_folder(), "plan.toml"), plan_of_two_buses().read_text()
        for name, more in (("s1", 'aspects = ["stop", "caution", "proceed", "shunting"]'), ("s3", 'to = "left"')):
            text = re.sub(rf"^({name} = .*) }}", rf"\1, {more} }}", text, flags=re.M)
        text = re.sub("^signal = .*\n", "", text.replace("signal = [2, 1, 2, 0]\nfrees = [1, 6]", "frees = [1, 6]"),
                      flags=re.M) + 'signal = [2, 1, 2, 0]\n'
        text = text.replace("West turnout", "West turnout, which leads to track 1 or to track 2")
        path.write_text(text.replace("number = 1\n", "number = 1\nsignal = [2, 1, 1, 0]\n", 1))
        return path

    def test_in_chromium_aspects_of_a_signal(self):
        """Each is told and drawn by its name, and by another bar in the disc; another port is unknown."""
        self.throttle.order(*[f"INIT 2 GA {n} N" for n in (1, 2, 3)])
        drawn = self.element("s1") + ".querySelector('.aspect').textContent"
        bars = "[...{}.querySelectorAll('.bar')].map(e => getComputedStyle(e).stroke !== 'none').indexOf(true)"
        seen = []
        for port, name in enumerate(("stop", "caution", "proceed", "shunting")):
            self.throttle.order(*[f"SET 2 GA 1 {other} 0 -1" for other in range(4)], f"SET 2 GA 1 {port} 1 -1")
            self.says("s1", f"s1, Home signal, to the right: {name}")
            self.assertEqual(self.js(drawn), name)
            seen.append(self.js(bars.format(self.element("s1"))))
        self.assertEqual(sorted(seen), [0, 1, 2, 3])
        self.throttle.order("SET 2 GA 2 1 1 -1"), self.says("s2", "s2, Exit of track 1: unknown")
        self.says("s3", "s3, Exit of track 2, to the left: unknown")
        arrows = "[...document.querySelectorAll('#drawing .way.{}')].map(e => e.parentNode.dataset.name)"
        self.assertEqual([self.js(arrows.format(side)) for side in ("right", "left")], [["s1"], ["s3"]])
        self.picture("aspects", 1160, 800)
        above = "[...document.querySelectorAll('#drawing .name')].map(e => e.textContent)"
        self.assertEqual(self.js(above)[2:4], ["Home signal", "t1"])  # for the other name there is no room
        self.clicks("s1"), self.says("s1", "s1, Home signal, to the right: stop")


class PlanInGerman(PlanCase):
    language = "de-AT,en"

    def test_in_chromium_a_german_plan(self):
        """It speaks German, also on the narrowest phone, and English at a press."""
        self.throttle.order(*[f"INIT 3 GA {n} N" for n in (1, 2, 3, 4)], "INIT 1 GA 1 N", "SET 1 GA 1 1 1 -1")
        self.says("b1", "b1, Melder 1: frei"), self.says("t1", "t1, West turnout: Abzweig")
        self.says("s1", "s1, Home signal, nach rechts: unbekannt")
        self.clicks("W"), self.tells("Von West: das Ziel der Fahrstraße wählen.")
        self.clicks("Q"), self.tells("Die Fahrstraße West to track 2 ist angefordert.")
        self.route_is("West to track 2", "wartet: kein Programm stellt Fahrstraßen")
        self.throttle.order("INIT 2 GA 1 N", "SET 2 LOCK GA 1 0", "SET 3 FB 2 1", "SET 1 LOCK GA 1 0")
        self.says("t1", "t1, West turnout: Abzweig, verschlossen")
        self.clicks("t1"), self.tells("West turnout ist von der Fahrstraße West to track 2 verschlossen.", failed=True)
        self.picture("plan_german", 320, 640, True)
        self.assertLessEqual(self.js("document.documentElement.scrollWidth - innerWidth"), 0)
        self.assertEqual(self.js(SMALL), [])
        self.js("document.getElementById('language').click()")
        self.says("t1", "t1, West turnout: branch, locked"), self.route_is("West to track 2", "set")
        self.assertEqual(self.browser.faults, [])
