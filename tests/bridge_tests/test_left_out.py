"""The page beside a driver: what cannot be driven, and why."""
import os

from .common import new_folder, until
from .test_chromium import ChromiumCase


class WebBesideADriver(ChromiumCase):
    def setUp(self):
        from simulated_station import Station
        from srcp_bridges.state import stations
        super().setUp()
        link = os.path.join(new_folder(), "ttyACM0")
        self.station = Station(link)
        self.addCleanup(self.station.unplug)
        self.station.slots = 2
        self.driver = self.starts("dcc_ex.py", "--station", link, port=self.way.port)
        until(lambda: stations(self.way.port)[0]["slots"] == 2, "the driver has found the server and the station")

    def says(self, key, why):
        until(lambda: self.js(f"{self.card(key)}?.querySelector('.why').textContent") == why, f"{key}: {why}")

    def test_in_chromium_what_is_not_driven(self):
        self.throttle.order(*[f"INIT 1 GL {n} N 1 28 5" for n in (3, 4, 5)], "INIT 1 GL 7 M 1 28 5", "INIT 1 GA 9 S",
                            "INIT 2 GA 5 N", "SET 1 GL 3 1 14 28", "SET 1 GL 4 1 14 28")
        self.opens("1 GL 3", "1 GL 5", "1 GL 7", "1 GA 9", "2 GA 5")
        self.says("1 GL 7", "Not driven: the station has no commands for the protocol M.")
        self.says("1 GA 9", "Not driven: the station has no commands for the protocol S.")
        until(lambda: self.station.known == {3, 4}, "two have slots")
        self.throttle.order("SET 1 GL 5 1 14 28")
        self.says("1 GL 5", "Not driven: the station has 2 slots, and all were taken.")
        self.has("100 INFO 1 GL 5 1 0 28")
        self.js("document.getElementById('language').click()")
        self.says("1 GL 7", "Fährt nicht: Die Zentrale hat keine Befehle für das Protokoll M.")
        self.says("1 GL 5", "Fährt nicht: Die Zentrale hat 2 Plätze, und alle waren belegt.")
        self.says("1 GL 3", ""), self.says("2 GA 5", "")
        self.throttle.order("TERM 1 GL 7", "INIT 1 GL 7 N 1 28 5", "TERM 1 GL 3", "SET 1 GL 5 1 14 28")
        self.says("1 GL 7", ""), self.says("1 GL 5", "")
        self.driver.end()
        self.says("1 GA 9", "")
