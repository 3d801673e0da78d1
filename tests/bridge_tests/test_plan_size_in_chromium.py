"""How large the track plan of web.py's page is drawn in Chromium: on phones, and if it is too wide for its window."""
import re
import time
from pathlib import Path

from .common import new_folder, rows, until
from .large_plan import large_plan
from .test_chromium import CONTRAST, SMALL
from .test_plan_in_chromium import PlanCase


class LargePlanInChromium(PlanCase):
    """64 elements and 30 routes."""

    def plan(self):
        path = Path(new_folder(), "plan.toml")
        path.write_text(large_plan(10))
        return path

    def fill(self):
        self.throttle.flood([f"INIT 1 GA {n + m} N" for n in range(1, 10) for m in (0, 20)])
        self.throttle.flood([f"SET 1 GA {n + m} {int(n + m != 4)} 1 -1" for n in range(1, 10) for m in (0, 20)])
        self.throttle.flood([f"INIT 2 GA {n} N" for n in (*range(1, 11), *range(21, 31), 40, 41)])
        self.throttle.flood([f"SET 2 GA {n} {2 * int(n in (4, 40))} 1 -1" for n in (*range(1, 11), 21, 22, 40)])
        self.throttle.flood([f"INIT 3 GA {n} N" for n in range(1, 31)])
        self.throttle.order("SET 3 GA 4 1 1 -1", "SET 3 FB 4 1", "SET 3 GA 28 1 1 -1", "SET 1 FB 2 1", "SET 1 FB 6 1")
        self.throttle.flood([f"SET 1 LOCK GA {n} 0" for n in range(1, 5)])
        until(lambda: self.drawn("set") and self.drawn("asked") and self.drawn("busy"), "it is drawn")

    def opens_again(self, *size):
        """Opens the page in a window of that size, or on a phone, and waits until its rows are drawn."""
        if size:
            self.browser.shows(*size)
        self.js("window.isBefore = true")
        self.browser.call("Page.reload")
        until(lambda: self.js("!window.isBefore && document.getElementById('FB')?.children.length > 4"), "the rows")
        until(lambda: self.drawn("") > 4, "it is drawn")
        time.sleep(1.2)  # then it stays as it is

    def rect(self, element):
        """Where an element is in the window: from the left, from the top, and how wide and how high."""
        return self.js(f"(r => [r.left, r.top, r.width, r.height])({element}.getBoundingClientRect())")

    def size(self):
        """How large the plan is drawn: 1 is full size."""
        return self.rect(f"{self.element('t1')}.querySelector('.hit')")[2] / 44

    def lies(self):
        return [row for row in rows(self.server.port) if re.match("100 INFO [12] GA", row)]

    def thrown(self):
        """What the page has seen thrown: a pulse is over before anybody looks at the server's rows."""
        return self.js("[...document.querySelectorAll('#drawing g[tabindex]')].filter(e => "
                       "/: (straight|branch|go|stop)/.test(e.ariaLabel)).map(e => e.dataset.name)")

    def test_in_chromium_a_plan_that_is_too_wide(self):
        """All of it is in sight as the page begins. Buttons make it larger and smaller, and show all of it again."""
        for words in ((1280, 900), (390, 844, True)):
            self.opens_again(*words)
            left, _, width, height = self.rect("document.getElementById('drawing')")
            self.assertTrue(left >= 0 and left + width <= words[0] and height < words[1], (left, width, height))
            self.assertGreater(width, 0.8 * words[0])
            size = self.size()
            self.js("document.getElementById('larger').click()")
            self.assertAlmostEqual(self.size(), 1.25 * size, 3)
            self.js("document.getElementById('smaller').click(), document.getElementById('smaller').click()")
            self.assertAlmostEqual(self.size(), 0.8 * size, 3)
            self.js("document.getElementById('whole').click()")
            self.assertAlmostEqual(self.size(), size, 3)
        self.opens_again(1000, 900)
        self.assertLess(self.size(), 0.5)
        self.clicks("t3"), until(lambda: self.size() == 1, "a click of a mouse makes it so large")
        time.sleep(0.5)
        self.assertEqual(self.thrown(), [])
        self.assertEqual(self.browser.faults, [])

    def test_in_chromium_a_phone_begins_at_the_set_route(self):
        """That part of the plan is in sight, in full size; a route that is set later moves nothing."""
        self.fill()
        self.throttle.order("SET 3 FB 4 0", *[f"TERM 1 LOCK GA {n}" for n in range(1, 5)])
        self.throttle.flood([f"SET 1 GA {n} 1 1 -1" for n in range(21, 29)])
        self.throttle.order("SET 1 GA 29 0 1 -1", "SET 3 GA 4 1 0 -1")
        self.throttle.flood([f"SET 1 LOCK GA {n} 0" for n in range(21, 30)])
        self.throttle.order("SET 3 FB 19 1")  # from the east to the ninth track
        self.opens_again(390, 844, True)
        self.assertEqual(self.size(), 1)
        self.assertTrue(self.js("!!document.querySelector('.track.set')"), "it is set")
        self.is_in_sight("E")
        left = self.js("document.getElementById('sheet').scrollLeft")
        self.throttle.flood([f"TERM 1 LOCK GA {n}" for n in range(21, 30)])
        self.throttle.order("SET 3 FB 19 0", "SET 1 GA 1 0 1 -1", "SET 1 LOCK GA 1 0", "SET 3 FB 1 1")
        until(lambda: self.js(f"{self.chip('W to P0')}.ariaPressed") == "true", "another one is set")
        time.sleep(0.3)
        self.assertEqual(self.js("document.getElementById('sheet').scrollLeft"), left)
        self.opens_again(390, 844, True)
        self.is_in_sight("W")

    def is_in_sight(self, name):
        left, top, width, height = self.rect(f"{self.element(name)}.querySelector('.hit')")
        self.assertTrue(0 <= left <= 390 - width and 0 <= top <= 844 - height, (left, top))

    def test_in_chromium_fingers_on_a_plan_that_is_too_small(self):
        """A tap brings its place to full size, and throws nothing, nor does a second tap that follows at once, nor do
        two fingers, which draw the plan larger and smaller."""
        self.throttle.flood([f"INIT 1 GA {n + m} N" for n in range(1, 10) for m in (0, 20)])
        self.opens_again(390, 844, True)
        self.assertLess(self.size(), 0.3)
        x, y = self.browser.place(self.element("t3"))
        self.browser.touches((x, y)), self.browser.touches((x, y))
        until(lambda: self.size() == 1, "it has its full size")
        left, top, width, height = self.rect(f"{self.element('t3')}.querySelector('.hit')")
        self.assertTrue(left <= x <= left + width and top <= y <= top + height, "it is where the finger was")
        time.sleep(1)
        self.assertEqual(self.thrown(), [])
        self.browser.pinches(*[((200 - step * 5, y), (200 + step * 5, y)) for step in range(12, 5, -1)])
        until(lambda: self.size() < 0.6, "two fingers have drawn it smaller")
        self.browser.pinches(*[((200 - step * 5, y), (200 + step * 5, y)) for step in range(6, 20)])
        until(lambda: self.size() > 1.1, "and larger")
        self.assertEqual(self.js("visualViewport.scale"), 1)
        time.sleep(0.6)
        self.assertEqual(self.thrown(), [])
        self.browser.touches(self.browser.place(self.element("t3")))
        self.says("t3", "t3, Turnout 4: branch")

    def test_in_chromium_a_large_plan(self):
        """In full size it is scrolled on a phone; each part of it is seen well and large enough for a finger."""
        self.fill()
        self.opens_again()
        size = "['width', 'height'].map(key => document.getElementById('drawing').getBoundingClientRect()[key])"
        wide, small = self.js(size), SMALL.replace("'button,", "'#drawing g[role=button], button,").replace(
            "e.offsetParent", "(e.offsetParent || e.ownerSVGElement)")
        self.assertEqual(len(self.js("[...document.querySelectorAll('#drawing g')].map(e => e.dataset.name)")), 64)
        for name, *words in [("plan_wide", 1280, 1100), ("plan_dark", 1280, 1100, False, True),
                             ("plan_phone", 390, 844, True), ("plan_phone_dark", 390, 844, True, True)]:
            self.picture(name, *words)
            self.assertEqual(self.js(size), wide)
            self.assertLessEqual(self.js("document.documentElement.scrollWidth - innerWidth"), 0, words)
            self.assertEqual((self.js(small), self.js(CONTRAST), self.js(FAINT)), ([], [], []), words)
        self.assertEqual(self.browser.faults, [])

    def test_in_chromium_fingers_on_a_plan(self):
        """A swipe scrolls it and throws nothing; a tap throws what is under it."""
        self.fill()
        self.opens_again(390, 844, True)
        left = "document.getElementById('sheet').scrollLeft"
        was = self.lies()
        x, y = self.browser.place(self.element("s1"))
        before = self.js(left)
        self.assertGreater(before, 0)
        self.browser.touches(*[(x - step * 12, y) for step in range(20)])
        until(lambda: self.js(left) > before + 50, "it is scrolled")
        time.sleep(0.5)
        self.assertEqual(self.lies(), was)
        self.says("t6", "t6, Turnout 7: straight")
        self.browser.touches(self.browser.place(self.element("t6")))
        self.says("t6", "t6, Turnout 7: branch")


FAINT = """(() => {
  const numbers = colour => colour.match(/[\\d.]+/g).slice(0, 3).map(Number);
  const light = colour => numbers(colour).map(c => (c /= 255) <= .03928 ? c / 12.92 : ((c + .055) / 1.055) ** 2.4)
    .reduce((sum, c, n) => sum + c * [.2126, .7152, .0722][n], 0);
  const back = light(getComputedStyle(document.getElementById('sheet')).backgroundColor);
  const seen = [['.track', 'stroke', 3], ['text.name', 'fill', 4.5], ['.turnout .mark', 'fill', 3]];
  return [...new Set(seen.flatMap(([path, key, least]) => [...document.querySelectorAll('#drawing ' + path)]
    .map(e => light(getComputedStyle(e)[e.matches('.locked .mark') ? 'stroke' : key]))
    .map(a => (Math.max(a, back) + .05) / (Math.min(a, back) + .05)).filter(ratio => ratio < least)
    .map(ratio => `${path} ${ratio.toFixed(1)}`)))];
})()"""
