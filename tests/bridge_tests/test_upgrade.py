"""web.py and its page, if the files of both are replaced below a web.py that runs, as an upgrade does."""
import shutil
import time
from pathlib import Path

from .common import PROGRAMS, connects, free_port, new_folder, until
from .test_chromium import ChromiumCase
from .test_web import Events, WebCase

STATE = "document.getElementById('state')?.textContent"
VERSION = "document.documentElement?.dataset.version"


class WebOfOtherFiles(WebCase):
    def test_a_page_of_other_files_is_not_joined(self):
        """Also not one that names none: it loads itself anew, as a page does that is turned away so."""
        for path in ("/events", "/events?", "/events?0123456789abcdef"):
            self.assertEqual(self.get(path)[0].status, 404, path)
        self.assertEqual(Events(self.port).status, 200)


class WebThatIsUpgraded(ChromiumCase):
    def setUp(self):
        super().setUp()
        self.programs = Path(new_folder(), "bridges")
        shutil.copytree(PROGRAMS, self.programs, ignore=shutil.ignore_patterns("__pycache__"))
        self.port = free_port()
        self.starts_web()

    def starts_web(self):
        self.copy = self.starts(self.programs / "web.py", "--web", self.port)
        until(lambda: connects(self.port) and "joined" in self.copy.told(), "the page is served")

    def upgrade(self):
        """Has the program tell by another name what the page needs of it."""
        for path, old, new in (("web.py", '"silence":', '"quiet":'),
                               ("srcp_bridges/page/web.js", "beside.silence", "beside.quiet")):
            file = self.programs / path
            text = file.read_text()
            self.assertIn(old, text)
            file.write_text(text.replace(old, new))

    def test_in_chromium_an_upgrade_below_a_page(self):
        """A page that is loaded then goes on with the program of before; its restart has each open page load itself."""
        self.opens()
        self.upgrade()
        self.opens()
        until(lambda: self.js(STATE) == "Layout", "the page has joined")
        time.sleep(1)
        self.assertEqual(self.js(STATE), "Layout")
        before = self.js(VERSION)
        self.copy.end()
        self.starts_web()
        until(lambda: self.js(VERSION) not in (before, None), "the page has loaded itself anew")
        until(lambda: self.js(STATE) == "Layout", "it has joined")
        time.sleep(1)
        self.assertEqual(self.js(STATE), "Layout")
