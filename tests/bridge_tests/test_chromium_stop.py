"""The page of web.py in Chromium, and a driver that does not confirm a STOP ALL."""
import time

from .common import until
from .test_chromium import ChromiumCase

UNSURE = "STOP ALL is not confirmed by the driver of bus 1: trains may drive. Pull the station's plug."
STOPS = "document.getElementById('stop').click()"


class WebWithADriverThatSleeps(ChromiumCase):
    """The texts of power are those of a driver, which is played here."""

    def setUp(self):
        super().setUp()
        self.throttle.order("SET 1 POWER OFF no driver", "SET 1 POWER ON")
        self.drives(GL3=(1, 9))
        self.opens("1 GL 3")

    def test_in_chromium_a_stop_that_is_not_confirmed(self):
        """Also on a page that did not ask for it. It is told as done once the driver confirms it."""
        others = "SET 1 POWER ON stop all", "SET 1 GL 3 1 0 28"
        for press in (lambda: self.js(STOPS), lambda: self.throttle.order(*others)):
            self.throttle.order("SET 1 POWER ON", "SET 1 GL 3 1 9 28")
            until(lambda: self.shown("1 GL 3") != "0", "it drives")
            press()
            self.has("100 INFO 1 POWER ON stop all", "100 INFO 1 GL 3 1 0 28")
            until(lambda: self.told()[1] == "failed", "it is red")
            self.assertNotIn("All locomotives stand.", self.told())
            until(lambda: self.told() == [UNSURE, "failed"], "the page says why")
            until(lambda: self.confirms(), "it is confirmed")

    def confirms(self):
        """Says so again, since the page tries more than once; returns whether it shows that."""
        self.throttle.order("SET 1 POWER ON all stood")
        time.sleep(0.5)
        return self.told() == ["All locomotives stand.", ""]

    def test_in_chromium_what_the_texts_of_power_say(self):
        """Of power that is on, what the bar says is not said once more."""
        track = "[...document.querySelectorAll('#track li')].filter(li => !li.hidden).map(li => li.textContent).join()"
        for text, says in (
                ("ON all stood", ""), ("ON stop all", ""), ("ON confirms again", ""),
                ("OFF all stood", "Power 1 is off: STOP ALL cut it, for another throttle's train or at the station."),
                ("OFF no driver",
                 "Power 1 is off: its driver was killed, or sleeps. It stopped all trains before that."),
                ("ON does not confirm: 3 5", "Power 1: the station does not confirm what it is told. "
                                             "Perhaps these trains do not obey: V 100, Loco 5")):
            self.throttle.order(f"SET 1 POWER {text}")
            until(lambda: self.js(track) == says, (text, says))
