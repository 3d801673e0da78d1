"""The page of web.py in Chromium: throttles, stops, names, languages, and how it looks."""
import contextlib
import os
import re
import socket
import time
from pathlib import Path

from .browser import HELD, Navigated, started
from .common import LAYOUT, connects, free_port, new_folder, rows, until
from .test_web import Events, WebCase


class ChromiumCase(WebCase):
    """With SRCP_PICTURES=FOLDER pictures of the page are put there."""
    layout = LAYOUT.replace("fb_ports = 32", "fb_ports = 500")
    pictures = os.environ.get("SRCP_PICTURES")
    language, silence = "en-GB", 30

    def setUp(self):
        names = Path(new_folder(), "names.toml")
        names.write_text('"1 GL 3" = "V 100"\n"1 GL 7" = "ICE 3"\n"1 GA 1" = "Yard west"\n'
                         '"1 GA 2" = "Yard <b>east</b>"\n"1 FB 7" = "Block 7"\n')
        self.words = ("--silence", self.silence, "--names", names)
        self.browser = started(language=self.language) or self.skipTest("chromium is not installed, or does not start")
        self.addCleanup(self.browser.end)
        super().setUp()

    def opens(self, *keys):
        """Opens the page, and waits until it has the cards of these."""
        self.browser.opens(f"http://127.0.0.1:{self.port}/")
        until(lambda: all(self.has_card(key) for key in keys), "cards")

    def js(self, script):
        return self.browser.run(script)

    def card(self, key):
        return f"document.querySelector('li.card[data-key=\"{key}\"]')"

    def has_card(self, key):
        return self.js(f"!!{self.card(key)}")

    def press(self, key, text):
        self.js(f"[...{self.card(key)}.querySelectorAll('button')].find(b => b.textContent === '{text}').click()")

    def slide(self, key, value):
        """Moves a slider as a keyboard does, once it takes it."""
        slider = f"{self.card(key)}.querySelector('input')"
        until(lambda: not self.js(f"{slider}.disabled"), "its slider takes a value")
        self.js(f"(s => {{ s.value = {value}; s.oninput(); }})({slider})")

    def shown(self, key):
        return self.js(f"{self.card(key)}.querySelector('.speed').textContent")

    def told(self):
        """What the bar says, and whether it is red."""
        return self.js("[document.getElementById('told').textContent, document.getElementById('told').className]")

    def adds(self, group, **values):
        fields = "; ".join(f"f.elements.{name}.value = {value}" for name, value in values.items())
        self.js(f"(f => {{ {fields}; f.requestSubmit(); }})(document.getElementById('add{group}'))")

    def drives(self, **speeds):
        """Has locomotives of the bus 1 that drive: GL3=(0, 14) is the one of address 3, backward at 14 of 28."""
        for name, (mode, v) in speeds.items():
            self.throttle.order(f"INIT 1 GL {name[2:]} N 1 28 5", f"SET 1 GL {name[2:]} {mode} {v} 28")

    def speed(self, address):
        """The speed that was told last: a row that changes meanwhile is told again."""
        *_, row = (row for row in rows(self.server.port) if row.startswith(f"100 INFO 1 GL {address} "))
        return int(row.split()[6])

    def picture(self, name, width, height, phone=False, dark=False):
        self.browser.shows(width, height, phone, dark)
        if self.pictures:
            time.sleep(0.5)
            self.browser.picture(f"{self.pictures}/{name}.png")


class WebInChromium(ChromiumCase):
    def test_in_chromium_throttles(self):
        self.drives(GL3=(0, 14))
        self.throttle.order("SET 1 GL 3 0 14 28 1", "INIT 1 GA 5 N", "INIT 2 GA 7 N")
        self.opens("1 GL 3", "1 GA 5", "2 GA 7")
        self.press("1 GL 3", "F1"), self.has("100 INFO 1 GL 3 0 14 28 1 1 0 0 0")
        self.press("1 GL 3", "Take for this page alone"), self.has("100 INFO 1 LOCK GL 3")
        until(lambda: "Give back" in self.js(f"{self.card('1 GL 3')}.textContent"), "it is taken")
        self.press("1 GL 3", "Stop"), self.has("100 INFO 1 GL 3 0 0 28")
        until(lambda: self.shown("1 GL 3") == "0", "the page shows that it stands")
        self.slide("1 GL 3", 21), self.has("100 INFO 1 GL 3 0 21 28 1 1 0 0 0")
        self.press("1 GL 3", "+"), self.has("100 INFO 1 GL 3 0 22 28")
        self.press("1 GL 3", "−"), self.press("1 GL 3", "−"), self.has("100 INFO 1 GL 3 0 20 28")
        self.press("1 GL 3", "▶"), self.has("100 INFO 1 GL 3 1 0 28 1 1")
        self.press("1 GA 5", "branch"), self.has("100 INFO 1 GA 5 1 1"), self.has("100 INFO 1 GA 5 1 0")
        self.press("2 GA 7", "2"), self.has("100 INFO 2 GA 7 2 1")
        self.js("document.querySelector('#POWER button').click()"), self.has("100 INFO 1 POWER ON")
        self.throttle.order("SET 1 FB 4 1", "TERM 1 GA 5")
        lamp = "document.querySelector('#FB li[data-key=\"1 FB 4\"]')"
        until(lambda: self.js(f"{lamp}.className + {lamp}.ariaLabel") == "onSensor 4 of bus 1: occupied", "a lamp")
        until(lambda: not self.has_card("1 GA 5"), "a card goes")
        self.adds("GL", address=200), self.has("101 INFO 1 GL 200 N 2 126 9")
        until(lambda: self.has_card("1 GL 200"), "a locomotive that was added in the browser")
        self.slide("1 GL 200", 55), self.has("100 INFO 1 GL 200 1 55 126")
        self.press("1 GL 200", "+"), self.has("100 INFO 1 GL 200 1 60 126")
        self.browser.presses("Escape", windowsVirtualKeyCode=27)
        self.has("100 INFO 1 GL 200 1 0 126")
        self.restart()
        until(lambda: not self.has_card("1 GL 3") and self.js(f"{lamp}?.className") == "", "a restart")
        self.assertEqual(self.browser.faults, [])
        own = f"http://127.0.0.1:{self.port}/"
        self.assertEqual([asked for asked in self.browser.asked if not asked.startswith((own, "data:"))], [])

    def test_in_chromium_mouse_and_keys(self):
        """A mouse that presses on a slider has it jump there, and drags it; keys move it by steps."""
        self.drives(GL3=(1, 0))
        self.opens("1 GL 3")
        slider = f"{self.card('1 GL 3')}.querySelector('input')"
        x, y = self.browser.place(slider, 0.5)
        self.browser.drags((x, y)), self.has("100 INFO 1 GL 3 1 14 28")
        self.browser.drags((x, y), (x + 20, y), (x + 1000, y)), self.has("100 INFO 1 GL 3 1 28 28")
        self.assertEqual(self.js("document.activeElement.type"), "range")
        for _ in range(3):
            self.browser.presses("ArrowLeft", windowsVirtualKeyCode=37)
        self.has("100 INFO 1 GL 3 1 25 28")
        self.browser.presses("Home", windowsVirtualKeyCode=36), self.has("100 INFO 1 GL 3 1 0 28")
        self.browser.presses("PageUp", windowsVirtualKeyCode=33), self.has("100 INFO 1 GL 3 1 3 28")
        self.browser.presses("End", windowsVirtualKeyCode=35), self.has("100 INFO 1 GL 3 1 28 28")

    def test_in_chromium_stop_all(self):
        """Neither what the page still wanted nor a finger that moves on undoes it, and it keeps the direction."""
        self.throttle.order("SET 1 POWER ON")
        self.drives(GL3=(0, 9), GL4=(1, 0))
        self.opens("1 GL 3", "1 GL 4")
        self.browser.call("Network.emulateNetworkConditions", offline=False, latency=30, downloadThroughput=-1,
                          uploadThroughput=-1)
        slider = f"{self.card('1 GL 3')}.querySelector('input')"
        moves = f"(s => [20, 21, 22].forEach(v => {{ s.value = v; s.oninput(); }}))({slider})"
        for _ in range(8):
            self.slide("1 GL 3", 9), self.has("100 INFO 1 GL 3 0 9 28")
            self.js(f"{moves}; document.getElementById('stop').click(); {moves}")
            until(lambda: self.told() == ["All locomotives stand.", ""], "the page says so, and not in red")
            time.sleep(0.2)
            self.has("100 INFO 1 GL 3 0 0 28", "100 INFO 1 GL 4 1 0 28")
        self.throttle.order("SET 1 GL 4 1 5 28")
        self.bar_ends()
        self.opens("1 GL 3")
        self.slide("1 GL 3", 7), self.has("100 INFO 1 GL 3 0 7 28")

    def bar_ends(self):
        """Waits until the bar says no more that all stand. Then it says nothing: somebody has a train drive again."""
        until(lambda: self.told()[0] != "All locomotives stand.", "a train drives again")
        self.assertEqual(self.told()[0], "")

    def test_in_chromium_stop_all_takes_the_power_off(self):
        """For a train that another throttle has: the page says so, and that it stands."""
        self.throttle.order("SET 1 POWER ON")
        self.drives(GL3=(1, 9))
        self.throttle.order("SET 1 LOCK GL 3 0")
        self.opens("1 GL 3")
        self.js("document.getElementById('stop').click()")
        until(lambda: self.told() == ["All locomotives stand.", ""], "the page says so")
        track = self.js("document.getElementById('track').innerText")
        self.assertEqual(track, "Power 1 is off: STOP ALL cut it, for another throttle's train or at the station.")
        time.sleep(0.5)  # the reply comes behind what the page is told, and has the bar look once more
        self.throttle.order("SET 1 POWER ON")
        self.bar_ends()

    def test_in_chromium_a_page_that_is_told_late(self):
        """What it sends, and what it switches, undoes no stop of which it has not been told."""
        self.browser.call("Page.addScriptToEvaluateOnNewDocument", source=LATE)
        self.drives(GL3=(0, 9))
        self.opens("1 GL 3")
        self.js("window.late = []")
        self.assertEqual(Events(self.port).post("", "/stop"), "200 OK")
        self.assertEqual(self.shown("1 GL 3"), "◀ 9")
        self.slide("1 GL 3", 20)
        until(lambda: self.told() == ["V 100 was stopped meanwhile, so this was not done.", "failed"], "it is told so")
        self.press("1 GL 3", "F1"), self.has("100 INFO 1 GL 3 0 0 28 0 1")
        self.js("(late => { window.late = null; late.forEach(take => take()); })(window.late)")
        until(lambda: self.shown("1 GL 3") == "0", "it shows the stop")
        self.slide("1 GL 3", 20), self.has("100 INFO 1 GL 3 0 20 28 0 1")

    def test_in_chromium_a_reply_that_is_late(self):
        """What another has the locomotive do meanwhile stays on the page, and `−` makes that slower."""
        self.browser.call("Page.addScriptToEvaluateOnNewDocument", source=HELD)
        self.drives(GL3=(1, 0))
        self.opens("1 GL 3")
        self.js("window.holds = 'replies'")
        self.slide("1 GL 3", 24), self.has("100 INFO 1 GL 3 1 24 28")
        self.throttle.order("SET 1 GL 3 1 4 28")
        until(lambda: self.shown("1 GL 3") == "▶ 4", "the page shows what the other had it do")
        self.js("(window.holds = null, window.held.forEach(goes => goes()))")
        time.sleep(0.5)
        self.assertEqual(self.shown("1 GL 3"), "▶ 4")
        self.press("1 GL 3", "−"), self.has("100 INFO 1 GL 3 1 3 28")

    def test_in_chromium_a_station_that_is_away(self):
        self.drives(GL3=(1, 9))
        self.throttle.order("SET 1 POWER OFF no station")
        self.opens("1 GL 3")
        track = "document.getElementById('track').innerText"
        until(lambda: "Power 1 is off: no station answers" in self.js(track), "the page says what the track does")
        self.js("document.getElementById('stop').click()")
        until(lambda: self.told()[1] == "failed", "STOP ALL is told as what has failed")
        self.assertIn("The station of bus 1 does not hear: trains may drive on.", self.told()[0])
        self.throttle.order("SET 1 POWER OFF tripped by hand")
        until(lambda: self.js(track) == "Power 1 is off: tripped by hand", "any text is shown")
        self.throttle.order("SET 1 POWER ON not driven: 1 GL 5")
        until(lambda: self.js(track) == "Power 1: not driven: 1 GL 5", "also while it is on")
        self.throttle.order("SET 1 POWER ON")
        until(lambda: self.js(track) == "", "there is nothing to tell")

    def test_in_chromium_what_is_added(self):
        """What is there is taken over as it is, and what the layout does not have is told in a sentence."""
        self.drives(GL12=(1, 20))
        self.throttle.order("INIT 1 GA 3 M")
        self.opens("1 GL 12")
        was = [row for row in rows(self.server.port) if " GL " in row or " GA " in row]
        self.adds("GL", address=12)
        until(lambda: self.told() == ["Loco 12 is there already. It stays as it is.", ""], "it is told")
        self.adds("GA", address=3)
        until(lambda: self.told() == ["Turnout 3 is there already. It stays as it is.", ""], "it is told")
        self.adds("GA", bus=2, address=13)
        words = "Address 13 is above the greatest address of bus 2 in the layout (ga_max)."
        until(lambda: self.told() == [words, "failed"], "an address that is too high")
        self.adds("GL", bus=3, address=3)
        until(lambda: self.told() == ["The layout has no bus 3.", "failed"], "no such bus")
        self.adds("GL", bus=2, address=3)
        until(lambda: self.told() == ["Bus 2 of the layout has none of these.", "failed"], "no such group")
        self.assertEqual([row for row in rows(self.server.port) if " GL " in row or " GA " in row], was)
        self.throttle.order("SET 1 LOCK GA 3 0")
        self.js("import('/server.js').then(m => m.ask('1 GA 3', '/command', 'SET 1 GA 3 1 1 250'))")
        until(lambda: self.told() == ["Turnout 3 is taken by another throttle.", "failed"], "a refusal is a sentence")

    def test_in_chromium_escape_in_a_field(self):
        """The first one clears and leaves the field, and the second stops all."""
        self.drives(GL3=(1, 20), GL4=(1, 0))
        self.opens("1 GL 3", "1 GL 4")
        self.js("document.getElementById('find').focus()")
        self.browser.call("Input.insertText", text="4")
        until(lambda: self.js(f"{self.card('1 GL 3')}.hidden"), "it is found")
        self.browser.presses("Escape", windowsVirtualKeyCode=27)
        until(lambda: not self.js(f"{self.card('1 GL 3')}.hidden"), "the field is clear")
        self.js("document.querySelectorAll('main > details').forEach(part => part.open = true)")
        self.js("document.querySelector('#addGL [name=address]').focus()")
        self.browser.presses("Escape", windowsVirtualKeyCode=27)
        self.assertEqual(self.js("document.activeElement.tagName"), "BODY")
        time.sleep(0.3)
        self.has("100 INFO 1 GL 3 1 20 28")
        self.browser.presses("Escape", windowsVirtualKeyCode=27)
        self.has("100 INFO 1 GL 3 1 0 28")

    def test_in_chromium_the_word(self):
        """It is asked for, told to be wrong, and asked for anew after a restart, which counts no wrong word but one."""
        words = "web.py", "--web", free_port(), "--bind", "0.0.0.0", "--word", "sunday"
        text = "document.body?.innerText ?? ''"

        def enters(word):
            with contextlib.suppress(Navigated):
                self.js(f"document.getElementById('word').value = '{word}'; document.forms[0].requestSubmit()")

        web = self.starts(*words)
        until(lambda: connects(words[2]), "it is served")
        self.browser.opens(f"http://127.0.0.1:{words[2]}/")
        until(lambda: "The word that web.py was given" in self.js(text), "the word is asked for")
        enters("monday")
        until(lambda: "That is not the word." in self.js(text), "a wrong word")
        enters("sunday")
        until(lambda: "Add a locomotive" in self.js(text), "the page")
        web.end()
        web = self.starts(*words)
        until(lambda: "The word that web.py was given" in self.js(text), "the word is asked for again")
        self.assertEqual(web.told().count("a wrong word"), 1)  # the cookie of before
        count, begun = 1, time.monotonic()
        while "has to wait" not in web.told():
            enters("monday")
            count += 1
            until(lambda: web.told().count("a wrong word") == count, "a wrong word")
            until(lambda: self.js("document.readyState === 'complete' && !!document.forms[0]"), "it is asked again")
        self.assertTrue(10 <= count <= 10 + (time.monotonic() - begun) / 60, count)  # one a minute comes back
        self.browser.opens(f"http://127.0.0.1:{words[2]}/")
        until(lambda: re.search("The next one is taken in (60|[1-5]?[0-9]) seconds", self.js(text)), "it has to wait")
        self.assertTrue(self.js("document.querySelector('form button').disabled"))

    def test_in_chromium_no_place_for_the_page(self):
        """It says so, and comes back by itself once there is a place."""
        self.drives(GL3=(1, 0))
        self.opens("1 GL 3")
        own = f"http://127.0.0.1:{self.port}/"
        asked = self.browser.asked[own]
        self.web.end()
        self.web = self.starts("web.py", "--web", self.port, *self.words, port=self.way.port)
        until(lambda: "the page is at" in self.web.told(), "it is served again")  # who tried would have a place
        silent = [socket.create_connection(("127.0.0.1", self.port)) for _ in range(100)]
        until(lambda: "turned away but for stops" in self.web.told(), "the page is turned away")
        self.assertEqual(self.js("document.getElementById('state').textContent"), "web.py is away")
        until(lambda: self.browser.asked[own] > asked + 2, "it asks for its page again and again")
        self.assertTrue(self.has_card("1 GL 3"))  # the page is still there
        for connection in silent:
            connection.close()
        until(lambda: self.js("document.getElementById('state')?.textContent") == "Layout" and self.has_card("1 GL 3"),
              "the page is there")
        self.slide("1 GL 3", 9), self.has("100 INFO 1 GL 3 1 9 28")

    def fill(self):
        """A large layout: 60 locomotives, 200 turnouts, and the sensors of the bus."""
        self.throttle.flood([f"INIT 1 GL {n} N 1 126 {5 + n % 3 * 12}" for n in range(1, 61)])
        self.throttle.flood([f"INIT 1 GA {n} N" for n in range(1, 201)])
        self.throttle.flood([f"SET 1 GA {n} {n % 2} 1 -1" for n in range(1, 201)])
        self.throttle.flood([f"SET 1 FB {n} {int(n % 7 < 2)}" for n in range(1, 501)])
        self.throttle.order("SET 1 POWER ON", "SET 1 GL 3 1 40 126 1 0 1", "SET 1 GL 7 0 22 126 1",
                            "SET 1 GL 12 2 0 126", "SET 1 LOCK GL 7 0")

    def test_in_chromium_names(self):
        self.throttle.order("SET 1 POWER ON", "INIT 1 GL 3 N 1 126 9", "SET 1 GL 3 1 40 126 1", "INIT 1 GL 7 N 1 126 5",
                            "SET 1 GL 7 0 88 126 1 0 1", *[f"INIT 1 GA {n} N" for n in range(1, 5)],
                            "SET 1 GA 1 1 1 -1", "SET 1 GA 2 0 1 -1", "SET 1 FB 3 1", "SET 1 FB 4 1")
        self.throttle.order("INIT 2 GA 7 N", "SET 2 GA 7 1 1 -1", "SET 1 FB 7 1")
        self.opens("1 GL 7", "1 GA 2", "2 GA 7")
        self.assertTrue(self.js(f"{self.card('1 GL 3')}.textContent").startswith("V 100 1 GL 3"))
        self.assertTrue(self.js(f"{self.card('1 GA 2')}.textContent").startswith("Yard <b>east</b> 1 GA 2"))
        self.assertTrue(self.js(f"{self.card('2 GA 7')}.textContent").startswith("Signal 7 2 GA 7"))
        seen = "document.querySelector('#FB li[data-key=\"1 FB 7\"]').innerText"
        self.assertEqual(self.js(seen).split(), ["Block", "7", "7"])
        self.picture("names", 800, 600)
        self.js("Object.assign(document.getElementById('find'), { value: 'ice' }).oninput()")
        until(lambda: self.js(f"{self.card('1 GL 3')}.hidden && {self.card('1 GA 2')}.hidden"), "others are hidden")
        self.assertFalse(self.js(f"{self.card('1 GL 7')}.hidden"))

    def test_in_chromium_a_large_layout(self):
        """Each control of a large layout has a name for a screen reader, is reached by Tab, and is seen well."""
        self.fill()
        self.browser.opens(f"http://127.0.0.1:{self.port}/")
        until(lambda: self.js("document.querySelectorAll('#roster button').length") == 60, "60 locomotives")
        self.js("['3', '7'].forEach(n => document.querySelector(`#roster li[data-key=\"1 GL ${n}\"] button`).click())")
        until(lambda: self.has_card("1 GL 7") and not self.js(f"{self.card('1 GL 7')}.hidden"), "throttles")
        tree = self.browser.call("Accessibility.getFullAXTree")["nodes"]
        kinds = ("button", "slider", "textbox", "searchbox", "spinbutton", "link")
        controls = [node for node in tree if node.get("role", {}).get("value") in kinds]
        self.assertGreater(len(controls), 400)
        self.assertEqual([node for node in controls if not node.get("name", {}).get("value")], [])
        self.browser.presses("Tab", windowsVirtualKeyCode=9)
        outline = "getComputedStyle(document.activeElement).outlineStyle + ' ' + document.activeElement.id"
        self.assertEqual(self.js(outline), "solid stop")  # STOP ALL comes first
        for dark in (False, True):
            self.browser.shows(1280, 800, dark=dark)
            self.assertEqual(self.js(CONTRAST), [])
        for words in [("wide", 1280, 800), ("phone", 390, 844, True), ("dark", 1280, 800, False, True),
                      ("phone_dark", 390, 844, True, True)]:
            self.picture(*words)
            self.assertLessEqual(self.js("document.documentElement.scrollWidth - innerWidth"), 0, words)
            self.assertEqual(self.js(SMALL), [])
        self.assertEqual(self.browser.faults, [])


class WebInGerman(ChromiumCase):
    language = "de-AT,en"

    def test_in_chromium_german(self):
        """The page speaks the language of the browser, and the other one at a press, while trains drive on."""
        self.throttle.order("INIT 2 GA 7 N", "SET 1 FB 3 1")
        self.drives(GL5=(1, 0))
        self.opens("1 GL 5", "2 GA 7")
        self.slide("1 GL 5", 9), self.has("100 INFO 1 GL 5 1 9 28")
        words = "document.body.innerText.replace(/\\s+/g, ' ')"
        for text in ("ALLE HALT", "Lokomotiven 1, 1 in Fahrt", "Lok 5", "Signal 7", "Melder"):
            until(lambda: text in self.js(words), text)
        self.picture("german", 390, 844, True)
        for why in ("no station", "station was reset", "station says off", "server was away", "overload", "stop all"):
            self.throttle.order(f"SET 1 POWER OFF {why}")
            until(lambda: re.fullmatch("Strom 1 ist aus: .{20,}", self.js("document.getElementById('track').innerText"))
                  and why not in self.js(words), why)
        self.browser.shows(320, 640, True)
        self.assertLessEqual(self.js("document.documentElement.scrollWidth - innerWidth"), 0)
        self.throttle.order("SET 1 POWER ON")
        self.js("document.getElementById('language').click()")
        until(lambda: "STOP ALL" in self.js(words) and "Loco 5" in self.js(words), "English")
        self.has("100 INFO 1 GL 5 1 9 28")
        self.opens("1 GL 5")
        self.has("100 INFO 1 GL 5 1 0 28")  # a page that is loaded again leaves no train driving
        self.assertEqual(self.js("document.documentElement.lang"), "en")  # the choice is kept
        self.assertEqual(self.js(LACKING), [])
        self.assertEqual(self.browser.faults, [])


CONTRAST = """(() => {
  const numbers = colour => colour.match(/[\\d.]+/g).map(Number);
  const light = colour => numbers(colour).slice(0, 3)
    .map(c => (c /= 255) <= .03928 ? c / 12.92 : ((c + .055) / 1.055) ** 2.4)
    .reduce((sum, c, n) => sum + c * [.2126, .7152, .0722][n], 0);
  const behind = element => {
    for (; element; element = element.parentElement) {
      const colour = getComputedStyle(element).backgroundColor;
      if ((numbers(colour)[3] ?? 1) > 0) return colour;
    }
    return 'rgb(255, 255, 255)';
  };
  const seen = [...document.querySelectorAll('button:enabled, h1, h2, h3, small, li, a, label, summary')]
    .filter(e => e.offsetParent);
  return [...new Set(seen.map(e => [light(getComputedStyle(e).color), light(behind(e)), e])
    .map(([a, b, e]) => [(Math.max(a, b) + .05) / (Math.min(a, b) + .05), e])
    .filter(([ratio]) => ratio < 4.5).map(([ratio, e]) => `${e.tagName} ${e.className} ${ratio.toFixed(1)}`))];
})()"""

SMALL = """[...document.querySelectorAll('button, input, summary, nav a')].filter(e => e.offsetParent)
  .map(e => [e.getBoundingClientRect(), e]).filter(([r]) => r.height < 44 || r.width < 44)
  .map(([r, e]) => `${e.tagName} ${e.id || e.textContent} ${r.width} x ${r.height}`)"""

LATE = """(listen => {
  EventSource.prototype.addEventListener = function (name, take) {
    listen.call(this, name, e => window.late ? window.late.push(() => take(e)) : take(e));
  };
})(EventSource.prototype.addEventListener)"""

LACKING = """import('/texts.js').then(({ TEXTS }) => {
  const words = text => String(text.match(/{\\w+}/g)?.sort());
  return Object.values(TEXTS).filter(([en, de, ...more]) => !en || !de || more.length || words(en) !== words(de));
})"""
