"""The page of web.py in Chromium: one that stays open, one that is silent, and a web.py that is."""
import signal
import time

from .browser import HELD
from .common import stamped_lines, until
from .test_chromium import ChromiumCase

IMPATIENT = """(real => {
  JSON.parse = text => (told => told?.silence ? { ...told, silence: .5 } : told)(real(text));
})(JSON.parse)"""


class WebWithBeats(ChromiumCase):
    silence = 20

    def test_in_chromium_a_page_that_stays_open(self):
        """It answers the beats, so it is not silent, and its train drives on."""
        self.drives(GL3=(1, 0))
        self.opens("1 GL 3")
        self.slide("1 GL 3", 9), self.has("100 INFO 1 GL 3 1 9 28")
        time.sleep(21)
        self.has("100 INFO 1 GL 3 1 9 28")


class WebWithSilence(ChromiumCase):
    silence = 3

    def test_in_chromium_a_page_that_was_silent(self):
        """What was asked of it before it counted as gone is not done, and what is asked then waits for nothing."""
        self.browser.call("Page.addScriptToEvaluateOnNewDocument", source=HELD)
        self.drives(GL3=(1, 0), GL5=(1, 0))
        self.throttle.order("INIT 1 GA 1 N", "SET 1 GA 1 0 1 -1")
        self.opens("1 GL 3", "1 GL 5", "1 GA 1")
        self.press("1 GL 5", "+"), self.has("100 INFO 1 GL 5 1 1 28")
        self.js("window.holds = 'requests'")
        self.press("1 GL 3", "+"), self.press("1 GL 5", "+"), self.press("1 GA 1", "branch")
        until(lambda: "silent" in self.web.told(), "it counts as gone")
        self.js("window.holds = null")
        until(lambda: self.js("document.getElementById('state').textContent") == "Layout", "it has joined again")
        self.has("100 INFO 1 GL 5 1 0 28")
        until(lambda: self.has_card("1 GL 3"), "its card is there")
        self.press("1 GL 3", "+"), self.has("100 INFO 1 GL 3 1 1 28")
        before = [line for line in stamped_lines(self.server.port) if " 1 G" in line]
        self.js("window.held.forEach(goes => goes())")
        time.sleep(1)
        self.assertEqual([line for line in stamped_lines(self.server.port) if " 1 G" in line], before)

    def test_in_chromium_a_program_that_hangs(self):
        """STOP ALL says that nobody has answered it, and the page that it may show what was."""
        self.drives(GL3=(1, 9))
        self.opens("1 GL 3")
        state = "document.getElementById('state').textContent"
        self.web.send(signal.SIGSTOP)
        self.addCleanup(self.web.send, signal.SIGCONT)
        self.browser.presses("Escape", windowsVirtualKeyCode=27)
        failed = ["STOP ALL FAILED. Layout: web.py does not answer.", "failed"]
        until(lambda: self.told() == failed, "STOP ALL is told as what has failed")
        until(lambda: self.js(state) == "web.py is away", "the page says that it hears nothing")
        self.has("100 INFO 1 GL 3 1 9 28")
        self.web.send(signal.SIGCONT)
        self.has("100 INFO 1 GL 3 1 0 28")
        until(lambda: self.js(state) == "Layout" and self.shown("1 GL 3") == "0", "the page is back")
        self.browser.presses("Escape", windowsVirtualKeyCode=27)
        until(lambda: self.told() == ["All locomotives stand.", ""], "this STOP ALL is answered")
        time.sleep(2.5)  # by then one without an answer is told as failed
        self.assertEqual(self.told(), ["All locomotives stand.", ""])

    def test_in_chromium_beats_that_are_late(self):
        """A page that waits half a second for each says that it hears nothing, until the next one comes."""
        self.browser.call("Page.addScriptToEvaluateOnNewDocument", source=IMPATIENT)
        self.drives(GL3=(1, 0))
        self.opens("1 GL 3")
        for state in ["web.py is away", "Layout"] * 2:
            until(lambda: self.js("document.getElementById('state').textContent") == state, state)
