"""The commands of the pages of bridges/, run as they stand there, and their units."""
import re
import shutil
import unittest
from contextlib import contextmanager
from pathlib import Path

import pages

from . import common
from .browser import started
from .common import PACKAGES, PROGRAMS, free_port, new_folder, rows, until
from .test_mqtt import IS_THERE, Broker
from .test_web import Events

PAGES = ("bridges/README.md", "bridges/stations.md", "bridges/page.md", "bridges/signal_box.md")  # read in this order
PORTS = ("8303", "8304", "8305", "12090", "1883")
BROKER = "bridges/mqtt.md"


def at_the_page(port, station):
    """What the page has its reader do in a browser: in Chromium, or, if there is none, as its script does. Like a
    reader, it looks at the station before it goes on: of changes that come together the urgent are sent first."""
    def printed(count):
        until(lambda: station.lines.qsize() >= count, f"{count} lines of the station")

    address = f"http://127.0.0.1:{port}/"
    if not (browser := started()):
        page = Events(port)
        page.order("INIT 1 GL 3 N 1 126 9", "SET 1 POWER ON")
        printed(1)
        page.order("SET 1 GL 3 1 60 126")
        return lambda: page.post("", "/stop")
    browser.opens(address)
    card = "document.querySelector('li.card[data-key=\"1 GL 3\"] input')"
    until(lambda: browser.run("document.querySelectorAll('#POWER button').length") == 2, "power of two buses")
    browser.run("Object.assign(document.querySelector('#addGL [name=address]'), { value: 3 }).form.requestSubmit()")
    until(lambda: browser.run(f"!!{card}"), "a throttle")
    browser.run("document.querySelector('#POWER button').click()")
    until(lambda: "on" in browser.run("document.querySelector('#POWER button').textContent.split(' ')"), "power")
    printed(1)
    browser.run(f"(s => {{ s.value = 60; s.oninput(); }})({card})")

    def stops():
        browser.run("document.getElementById('stop').click()")
        until(lambda: "stand" in browser.run("document.getElementById('told').textContent"), "all stand")
        browser.end()

    return stops


def at_the_plan(port):
    """What the page has its reader do at a track plan: in Chromium, or, if there is none, as its script does."""
    if not (browser := started()):
        return Events(port).order("SET 3 GA 1 1 1 250")
    browser.opens(f"http://127.0.0.1:{port}/")
    until(lambda: browser.run("document.querySelectorAll('#drawing g').length") > 4, "a plan")
    until(lambda: browser.run("document.getElementById('GA')?.children.length ?? 0") > 4, "the accessories of routes")
    for name in "WP":
        element = f"document.querySelector('#drawing g[data-name=\"{name}\"]')"
        browser.run(f"{element}.dispatchEvent(new MouseEvent('click'))")
    until(lambda: browser.run("!!document.querySelector('#drawing path.set')"), "a route that is set")
    browser.end()


class Readme(unittest.TestCase):
    program = "readme"

    @contextmanager
    def reader(self):
        """One who has the repository with the program built, on a machine with other ports."""
        with pages.reader_of_a_page(common.SERVER) as reader:
            reader.ports |= {named: free_port() for named in PORTS}
            reader.ports |= {"0.0.0.0": "localhost", "192.168.1.20": "localhost"}
            shutil.copytree(PROGRAMS, reader.folder / "bridges", ignore=shutil.ignore_patterns("__pycache__"))
            for file in (reader.folder / "bridges").rglob("*.py"):
                file.write_text(reader.at_ports(file.read_text()))
            config = Path(new_folder())
            for name in ("mosquitto_sub", "mosquitto_pub"):
                (config / name).write_text(f"-p {reader.ports['1883']}\n")
            reader.environment |= {"XDG_CONFIG_HOME": str(config), "PYTHONPATH": PACKAGES}
            yield reader

    def blocks(self, *names: str) -> list[list[str]]:
        """The blocks of these pages, one page after the other."""
        parts = [pages.console_blocks(page) for page in names]
        self.assertEqual([fault for _, fault in parts], [None] * len(names))
        return [block for blocks, _ in parts for block in blocks]

    def follows(self, reader, block):
        self.assertIsNone(reader.follows(block))

    def acts(self, reader):
        """Does what the page has its reader do before each block that no command begins."""
        station, server = reader.programs[-1], reader.ports["4303"]
        stops = at_the_page(reader.ports["8303"], station)
        yield
        stops()
        yield
        at_the_plan(reader.ports["8305"])
        yield
        for row in ("100 INFO 1 FB 5 1", "100 INFO 1 FB 5 0"):
            station.types("5")
            until(lambda: row in rows(server), row)
        yield

    def test_quarter_of_an_hour(self):
        with self.reader() as reader:
            acts = None
            for block in self.blocks(*PAGES):
                if not block[0].startswith("$ "):
                    acts = acts or self.acts(reader)
                    next(acts)
                self.follows(reader, block)
            self.assertEqual(next(acts, "all are done"), "all are done")

    @IS_THERE
    @unittest.skipUnless(shutil.which("mosquitto_sub"), "mosquitto-clients is not installed")
    def test_broker(self):
        with self.reader() as reader:
            broker = Broker(port=reader.ports["1883"])
            self.addCleanup(broker.stop)
            for block in self.blocks(*PAGES)[:1] + self.blocks(BROKER):
                self.follows(reader, block)

    def test_pages_that_have_commands(self) -> None:
        """All are read above, and no other one has a command."""
        for page in PROGRAMS.glob("*.md"):
            name = f"bridges/{page.name}"
            want = None if name in (*PAGES, BROKER) else "nothing to run"
            self.assertEqual(pages.console_blocks(name)[1], want, name)

    def test_units_and_links(self):
        """The units start programs that are there, and are as shut in as that of the server. Links lead to files."""
        unit = (PROGRAMS / "units" / "srcp_bridge@.service").read_text()
        own = (common.TOP / "examples" / "srcp_server.service").read_text()
        differ = {"RestrictAddressFamilies", "IPAddressAllow", "LimitNOFILE", "MemoryMax", "Type", "ExecStart",
                  "ExecStartPre", "ExecStartPost", "ExecReload"}
        hard = {line for line in own.partition("[Service]")[2].splitlines() if "=" in line and not line.startswith("#")}
        hard = {line for line in hard if line.partition("=")[0] not in differ}
        self.assertEqual(hard - set(unit.splitlines()), set())
        self.assertGreater(len(hard), 20)
        text = "".join(page.read_text() for page in sorted(PROGRAMS.glob("*.md")))
        for path in re.findall(r"\]\((?!http)([^)#]+)", text):
            self.assertTrue((PROGRAMS / path).exists(), path)
        for line in text.splitlines():
            other = re.search(r"`BRIDGE=(\w+)`", line)
            for names in re.findall(r"`srcp_bridge@(\w+)`|srcp_bridge_(\w+)`", line):
                name = other[1] if other else "".join(names).removesuffix("_2")
                self.assertTrue((PROGRAMS / f"{name}.py").exists(), name)
