"""The page of web.py in Chromium, if its script does not run."""
from .common import until
from .test_chromium import ChromiumCase


class WebWithoutAScript(ChromiumCase):
    def text(self) -> str:
        """What is to be seen; nothing of a page whose style has not come yet."""
        return str(self.js("document.styleSheets.length && document.body?.innerText || ''"))

    def stops(self) -> None:
        """The page says that it shows nothing, and STOP ALL works, on the page and on the answer to that."""
        self.browser.opens(f"http://127.0.0.1:{self.port}/")
        until(lambda: "this page shows nothing. STOP ALL works." in self.text(), "the page says so")
        self.assertEqual(self.js("[...document.querySelectorAll('button')].filter(b => b.offsetParent).length"), 1)
        for address in (3, 4):
            self.drives(**{f"GL{address}": (0, 14)})
            self.browser.drags(self.browser.place("document.getElementById('stop')"))
            self.has(f"100 INFO 1 GL {address} 0 0 28")
            until(lambda: "All locomotives stand." in self.text(), "that all stand")
        self.server.stop()
        until(lambda: "closed the connection" in self.web.told(), "the server is away")
        self.browser.drags(self.browser.place("document.getElementById('stop')"))
        until(lambda: "STOP ALL FAILED. the server is away" in self.text(), "that it failed")

    def test_in_chromium_without_event_source(self) -> None:
        self.browser.call("Page.addScriptToEvaluateOnNewDocument", source="delete window.EventSource")
        self.stops()

    def test_in_chromium_without_javascript(self) -> None:
        self.browser.call("Emulation.setScriptExecutionDisabled", value=True)
        self.stops()
