"""The page of web.py in Chromium, under fingers."""
import time

from .common import rows, until
from .test_chromium import ChromiumCase

FINGER = """((slider, moves) => {
  const { left, top } = slider.getBoundingClientRect(), finger = { pointerId: 9, pointerType: 'touch', bubbles: true };
  const tells = (type, x, y) =>
    slider.dispatchEvent(new PointerEvent(type, { ...finger, clientX: left + 90 + x, clientY: top + y }));
  tells('pointerdown', 0, 0);
  moves.forEach(([x, y]) => tells('pointermove', x, y));
  tells('pointerup', ...moves.at(-1));
  return +slider.value;
})"""


class WebByTouch(ChromiumCase):
    def slider(self, address: int) -> str:
        """Returns the slider of a locomotive, as an expression of the page's language."""
        return f"{self.card(f'1 GL {address}')}.querySelector('input')"

    def opens_on_a_phone(self, *names: str) -> None:
        """Opens the page as a phone shows it, with the cards of these devices."""
        self.browser.shows(390, 844, phone=True)
        self.opens(*names)

    def test_in_chromium_fingers(self):
        """Swipes that begin on a slider scroll, and taps on it do nothing. A finger that moves sideways, or was held,
        drives by as much as it moves; and one that the browser takes away leaves no train faster."""
        self.drives(GL3=(1, 0), GL4=(1, 0), GL5=(1, 14))
        self.throttle.flood([f"INIT 1 GA {n} N" for n in range(1, 60)])
        self.opens_on_a_phone("1 GL 3", "1 GL 5", "1 GA 59")
        touched = self.slider(3)
        was = [row for row in rows(self.server.port) if " GL " in row]
        for across in (0.1, 0.3, 0.6, 0.9):
            self.js("scrollTo(0, 0)")
            x, y = self.browser.place(touched, across)
            top = self.js("scrollY")
            self.browser.touches(*[(x, y - step * 20) for step in range(16)])
            until(lambda: self.js("scrollY") > top + 50, f"a swipe at {across} of the slider scrolls")
        for across in (0.3, 0.9):
            self.browser.touches(self.browser.place(touched, across))
        time.sleep(0.5)
        self.assertEqual([row for row in rows(self.server.port) if " GL " in row], was)
        self.drags_by_touch(touched, 0.9, 60)
        until(lambda: 3 <= self.speed(3) <= 9, "from standing a finger drives by as much as it moves")
        x, y = self.browser.place(self.slider(4), 0.9)
        self.browser.touches((x, y), (x, y), (x - 4, y), (x + 9, y), (x + 9, y), pause=0.6)
        self.assertLess(self.speed(4), 3)
        fast = self.slider(5)
        self.drags_by_touch(fast, 0.5, 60, taken_away=True)
        self.has("100 INFO 1 GL 5 1 14 28")
        self.drags_by_touch(fast, 0.5, -60, taken_away=True)
        time.sleep(0.5)
        self.assertTrue(5 <= self.speed(5) <= 11, self.speed(5))
        self.drags_by_touch(fast, 0.5, 60, meanwhile=lambda x, y: self.stops_and_moves_on(x, y, 5))
        self.assertEqual(self.speed(5), 0)
        self.assertEqual(self.browser.faults, [])

    def test_in_chromium_fingers_that_drift(self):
        """A page may be told of several moves before its browser scrolls: neither those of a swipe nor a tap drive."""
        self.drives(GL3=(1, 0))
        self.opens_on_a_phone("1 GL 3")
        slider = self.slider(3)
        until(lambda: not self.js(f"{slider}.disabled"), "its slider takes a value")
        for moves in [[1, 0], [9, 0]], [[10, -40], [40, -90], [80, -160]]:
            self.assertEqual(self.js(f"{FINGER}({slider}, {moves})"), 0, moves)
        self.assertIn(self.js(f"{FINGER}({slider}, [[12, 0], [82, 0]])"), range(3, 10))
        until(lambda: 3 <= self.speed(3) <= 9, "a finger that moves sideways drives")

    def test_in_chromium_two_fingers_on_one_slider(self):
        """They pinch, and drive nothing: nor does the one of them that stays. One that comes to a finger that drives
        leaves the train no faster. On two sliders each finger drives, and so does the next one on the first."""
        self.drives(GL3=(1, 0), GL4=(1, 0), GL5=(1, 14))
        self.opens_on_a_phone("1 GL 3", "1 GL 4", "1 GL 5")
        sliders = {address: self.slider(address) for address in (3, 4, 5)}

        def touches(kind, *points):
            points = [{"x": x, "y": y, "id": number} for number, x, y in points]
            self.browser.call("Input.dispatchTouchEvent", type=f"touch{kind}", touchPoints=points)
            time.sleep(0.02)

        x, y = self.browser.place(sliders[3])
        touches("Start", (0, x - 5, y)), touches("Start", (0, x - 5, y), (1, x + 5, y))
        for step in range(1, 9):
            touches("Move", (0, x - 5 - step * 8, y), (1, x + 5 + step * 8, y))
        touches("End", (1, x + 69, y))
        for step in range(8):
            touches("Move", (1, x + 69 + step * 3, y))
        touches("End")
        time.sleep(0.5)
        self.assertEqual(self.speed(3), 0)

        x, y = self.browser.place(sliders[5])
        touches("Start", (0, x, y))
        for step in range(9):
            touches("Move", (0, x + step * 8, y))
        until(lambda: self.speed(5) > 16, "one finger drives")
        touches("Start", (0, x + 64, y), (1, x - 20, y))
        touches("Move", (0, x + 80, y), (1, x - 40, y))
        touches("End")
        until(lambda: self.speed(5) == 14, "two drive no faster")

        (x, y), (_, other) = self.browser.place(sliders[3], 0.3), self.browser.place(sliders[4], 0.3)
        _, y = self.js(f"(r => [0, r.top + r.height / 2])({sliders[3]}.getBoundingClientRect())")
        touches("Start", (0, x, y)), touches("Start", (0, x, y), (1, x, other))
        for step in range(9):
            touches("Move", (0, x + step * 8, y), (1, x + step * 8, other))
        touches("End")
        until(lambda: self.speed(3) and self.speed(4), "each of two sliders has its finger")
        self.assertEqual(self.browser.faults, [])

    def test_in_chromium_a_finger_beside_another_throttle(self):
        """One that the browser takes away leaves the train no faster than the other has it drive."""
        self.drives(GL5=(1, 14))
        self.opens_on_a_phone("1 GL 5")
        slider = self.slider(5)

        def slows(x, y):
            time.sleep(0.5)
            until(lambda: self.speed(5) == self.js(f"+{slider}.value") > 14, "it drives as the finger has the slider")
            self.throttle.order("SET 1 GL 5 1 3 28")
            until(lambda: self.shown("1 GL 5") == "▶ 3", "the page shows what the other had it do")

        self.drags_by_touch(slider, 0.5, 60, taken_away=True, meanwhile=slows)
        time.sleep(0.5)
        self.assertEqual(self.speed(5), 3)

    def drags_by_touch(self, element, across, by, taken_away=False, meanwhile=lambda x, y: time.sleep(0.5)):
        """Has a finger move sideways by so many pixels, and stay there for what happens meanwhile."""
        x, y = self.browser.place(element, across)
        points = [(x + by * step // 10, y) for step in range(11)]
        self.browser.touches(*points, taken_away=taken_away, meanwhile=lambda: meanwhile(x + by, y))

    def stops_and_moves_on(self, x, y, address):
        """Stops all, while a finger is on a slider, which moves on."""
        until(lambda: self.speed(address) > 11, "it drives")
        self.browser.presses("Escape", windowsVirtualKeyCode=27)
        until(lambda: self.speed(address) == 0, "it stands")
        for step in range(70):
            self.browser.call("Input.dispatchTouchEvent", type="touchMove", touchPoints=[{"x": x - step, "y": y}])
            time.sleep(0.02)
