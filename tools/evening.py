"""An evening of all programs of bridges/ beside one server and two stations, whose trains are watched.

Throttles, a phone, a page, an MQTT client and hand throttles change things at random, and two of them press STOP ALL.
Meanwhile programs are killed or sleep, stations are reset, hang or lose their cable, lines lose what they carry, the
Wi-Fi holds a phone's lines back, and the server hangs or is killed.
"""
import contextlib
import json
import os
import random
import re
import signal
import subprocess
import sys
import threading
import time
from collections import Counter
from collections.abc import Callable, Iterator, Mapping
from functools import partial
from pathlib import Path

from bridge_tests import common, test_mqtt, test_web, test_withrottle
from bridge_tests.common import Process, stamped_lines, until
from delays import Delays
from rails import ALL, LOSSES, POWER, REST, SPEED, Rails
from srcp_bridges.srcp.rows import FORWARD, Key, Row, Rows, parse, position
from wifi import WiFi

LAYOUT = "port = {port}\n" + "".join(
    f'[[bus]]\nnumber = {bus}\ngroups = ["POWER", "GL", "GA", "FB"]\ngl_max = 9999\nga_max = 99\nfb_ports = 64\n'
    for bus in (1, 2))
PACE = 0.03  # seconds between two changes of one
JOINED = 600  # seconds that programs may take to begin, on a machine that is busy
SENT = 1.0  # seconds until what was sent is carried out
HANG = 12.0  # seconds for which the server hangs: trains stand within 8
SILENT = 7.0  # seconds for which a station says nothing: its driver waits for 4
ENDED = 1.0  # seconds until each pulse has ended
QUIET = 4.0  # seconds until all has come to rest
TROUBLE = 4.0  # seconds between two troubles
STOPS = 7.0  # seconds between two STOP ALLs
NO_BUS = 9  # of which the layout has none
LOCOMOTIVES = range(1, 13)
TURNOUTS = range(1, 31)
KEYS = {"S3": 3, "S12": 12, "L300": 300}  # of a phone


class Evening:
    """A server, the programs beside it, two simulated stations, and clients that run until `ended` is set.

    While `playing` is cleared they change nothing.
    """

    def __init__(self, program: str, seed: int):
        common.SERVER, self.seed, self.draw = program, seed, random.Random(seed)
        self.began = time.monotonic()
        self.server, self.broker = common.Server(LAYOUT), test_mqtt.Broker()
        folder = common.new_folder()
        self.file = os.path.join(folder, "layout.srcp")
        self.web, self.phones = common.free_port(), common.free_port()
        self.wifi = WiFi(self.phones)
        self.taken: set[int] = set()  # by the phone
        self.rails = {rails.bus: rails for rails in self.stations(folder)}
        self.words = {"dcc_ex": self.rails[1].words, "z21": self.rails[2].words, "web": ["--web", self.web],
                      "guard": [], "withrottle": ["--listen", self.phones], "keep": [self.file, "--rest", "0.2"],
                      "mqtt": ["--broker-port", self.broker.port, "--home-assistant"]}
        self.programs: dict[str, Process] = {}
        self.troubles: Counter[str] = Counter()
        self.count: Counter[str] = Counter()
        self.playing, self.ended = threading.Event(), threading.Event()
        for name in self.words:
            self.starts(name)
        self.joined()
        self.panel_lines = os.path.join(folder, "panel")
        panel = [sys.executable, str(common.TOP / "examples" / "panel.py"), "--port", str(self.server.port)]
        with open(self.panel_lines, "w") as out:
            self.panel = subprocess.Popen(panel, stdout=out)
        self.page = test_web.Events(self.web)

    def stations(self, folder: str) -> Iterator[Rails]:
        from simulated_station import Station
        from simulated_z21 import Z21
        link, port = os.path.join(folder, "ttyACM0"), common.free_port()
        yield Rails(1, Station(link, seed=self.seed), "dcc_ex", ["--station", link], self.tells)
        yield Rails(2, Z21(port, loses=0, seed=self.seed), "z21", ["--station", f"127.0.0.1:{port}"], self.tells)

    def tells(self, text: str) -> None:
        print(f"{time.monotonic() - self.began:8.3f} {text}", flush=True)

    def starts(self, name: str) -> None:
        self.programs[name] = common.program(name + ".py", *self.words[name], "--port", self.server.port)

    def joined(self) -> None:
        until(lambda: all("server: joined" in started.told() for started in self.programs.values()), "all have joined",
              JOINED)

    # ---- changes

    def command(self, draw: random.Random) -> str:
        """A command for a throttle or a page."""
        bus, loco, turnout = draw.choice((1, 2)), draw.choice(LOCOMOTIVES), draw.choice(TURNOUTS)
        functions = " ".join(draw.choice("01") for _ in range(draw.randint(0, 5)))
        commands = [f"INIT {bus} GL {loco} N 1 {draw.choice([28, 126])} {draw.choice([5, 9])}",
                    f"SET {bus} GL {loco} {draw.choice([0, 1, 1, 2])} {draw.choice([0, draw.randint(1, 28)])} 28 "
                    f"{functions}", f"TERM {bus} GL {loco}", f"INIT 1 GA {turnout} N",
                    f"SET 1 GA {turnout} {draw.randint(0, 1)} 1 50", f"TERM 1 GA {turnout}",
                    f"SET {bus} POWER {draw.choice(['ON', 'ON', 'OFF'])} by hand",
                    f"SET 1 FB {draw.randint(17, 32)} 1", f"SET {bus} LOCK GL {loco} 1"]
        return draw.choices(commands, [3, 20, 1, 3, 5, 1, 2, 5, 1])[0].rstrip()

    def sends(self, send: Callable[[str], str], command: str) -> None:
        """Sends a command, and notes it at the rails that it is for."""
        if found := SPEED.match(command):
            bus, loco, mode, v = map(int, found.groups())
            drives = v > 0 and mode < 2
            with self.rails[bus].commanded(loco, drives) as noted:
                if not send(command).startswith("200") and not drives:
                    self.rails[bus].watch.refused(loco, noted)
        elif found := POWER.match(command):
            with self.rails[int(found[1])].commanded(ALL, found[2] == "ON"):
                send(command)
        else:
            send(command)

    def throttle(self, draw: random.Random) -> None:
        session = common.Session(self.server.port)
        with contextlib.closing(session):
            while self.may_go_on():
                self.sends(session.ask, self.command(draw))

    def pages(self, draw: random.Random) -> None:
        page = test_web.Events(self.web)
        while self.may_go_on():
            self.sends(page.post, self.command(draw))

    def phone(self, draw: random.Random) -> None:
        """A phone drives all that it has taken, by one line. Who loses its phone, drives nothing."""
        phone = test_withrottle.Phone(self.wifi.port, watched=True)
        self.taken.clear()
        while self.may_go_on():
            key, v = draw.choice(list(KEYS)), draw.choice([0, draw.randint(1, 126)])
            line = draw.choice([f"M0+{key}<;>{key}", f"M0A*<;>V{v}", f"M0A*<;>V{v}", f"M0-{key}<;>r", "M0A*<;>X",
                                f"M0A{key}<;>F1{draw.randint(0, 9)}", f"PTA2{draw.choice(TURNOUTS)}", "*"])
            self.taken |= {KEYS[key]} if line.startswith("M0+") else set()
            with contextlib.ExitStack() as noted:
                for loco in self.taken if "A*" in line else ():
                    noted.enter_context(self.rails[1].commanded(loco, "V" in line and v > 0, has_reply=False))
                phone.send(line)
            if "END" in phone.lines:
                return

    def display(self, draw: random.Random) -> None:
        """An MQTT client. A command waits in a queue there, so it is noted until another one behind it is refused."""
        client, mark = test_mqtt.Client(self.broker.port, "srcp/online", "srcp/error"), 0
        try:
            while self.may_go_on():
                bus, loco, v = draw.choice((1, 2)), draw.choice(LOCOMOTIVES), draw.choice([0, draw.randint(1, 28)])
                count = len(client.came.get("srcp/error", []))
                with self.rails[bus].commanded(loco, v > 0, has_reply=False) as noted:
                    client.client.publish(f"srcp/{bus}/GL/{loco}/set", json.dumps({"v": v, "v_max": 28}))
                    is_through = self.is_through(client, mark := (mark + 1) % 60000)
                refused = [json.loads(told)["topic"] for told in client.came.get("srcp/error", [])[count:]]
                if not v and (not is_through or f"srcp/{bus}/GL/{loco}" in refused):  # another has it locked
                    self.rails[bus].watch.refused(loco, noted)
        finally:
            client.close()

    def is_through(self, client: test_mqtt.Client, mark: int) -> bool:
        """Waits until all is carried out that a client of the broker has sent. Returns false if mqtt.py is gone,
        perhaps with the command."""
        client.client.publish(f"srcp/{NO_BUS}/GL/1/set", json.dumps({"v": mark, "v_max": 60000}))
        ends = time.monotonic() + HANG
        while time.monotonic() < ends and client.topics.get("srcp/online") != "offline":
            if any(f'"v\\": {mark},' in told for told in client.came.get("srcp/error", [])[-100:]):
                return True
            time.sleep(PACE / 3)
        return False

    def hand(self, draw: random.Random) -> None:
        """Throttles at the stations, and what happens there. They drive what the registry has, and at a Z21 nothing
        while its driver is away: a Z21 tells once, and the driver cannot know of what the registry has no more. Who has
        one stand that stands tells nobody."""
        with contextlib.closing(common.Session(self.server.port)) as session:
            while self.may_go_on():
                rails, loco = self.rails[draw.choice((1, 2))], draw.choice(LOCOMOTIVES)
                v, chance = draw.choice((-1, 0, 30, 90)), draw.random()
                if chance < 0.002:
                    stop = rails.watch.stops_all()
                    rails.station.acts()["stop"]()
                    rails.watch.stopped(stop, is_heard=False, has_reply=False)
                    self.count["stop buttons of hands"] += 1
                elif chance > 0.2:
                    rails.station.sensor(draw.randint(1, 16), draw.randint(0, 1))
                elif (not rails.is_z21 or not rails.away) and " INFO " in session.ask(f"GET {rails.bus} GL {loco}"):
                    is_told = v > 0 or rails.station.cabs.get(loco, (0, 1))[0] > 0
                    with rails.commanded(loco, v > 0, has_reply=False) if is_told else contextlib.nullcontext():
                        rails.station.hand(loco, v, draw.randint(0, 1))

    def stopper(self, draw: random.Random) -> None:
        """A page, and a topic, stop all; in a moment somebody switches the power on again."""
        page, client = test_web.Events(self.web), test_mqtt.Client(self.broker.port, "srcp/online")
        try:
            while self.may_go_on(STOPS):
                noted = [(rails, rails.watch.stops_all()) for rails in self.rails.values()]
                reply = ""
                try:
                    if draw.random() < 0.8:
                        reply = page.post("", "/stop")
                    else:
                        client.client.publish("srcp/stop/set", "x")
                        time.sleep(0.3)
                finally:
                    for rails, stop in noted:
                        rails.stopped(stop, reply)
                self.count[f"STOP ALL: {reply[:3] or 'by MQTT'}"] += 1
                time.sleep(draw.choice((0, 0.5, 2)))
                for bus in self.rails:
                    self.sends(page.post, f"SET {bus} POWER ON")
        finally:
            client.close()

    def may_go_on(self, seconds: float = PACE) -> bool:
        """Waits a while, and as long as nothing is to change; returns whether the evening goes on."""
        self.ended.wait(seconds)
        self.playing.wait()
        self.count["changes"] += 1
        return not self.ended.is_set()

    def plays(self, act: Callable[[random.Random], None]) -> None:
        """Begins a client anew and anew, as its program or the server goes."""
        draw = random.Random(f"{self.seed} {act.__name__}")
        while not self.ended.is_set():
            with contextlib.suppress(OSError, AssertionError):
                act(draw)
            self.ended.wait(0.5)

    # ---- troubles

    def killed(self, name: str) -> None:
        with contextlib.ExitStack() as losses:
            for rails in self.rails.values():
                if rails.program == name:
                    losses.enter_context(rails.lost(f"{name} killed"))
            self.programs[name].end(signal.SIGKILL)
            time.sleep(self.draw.choice((0, 2)))
            self.starts(name)
            self.joined()
            time.sleep(1)

    def slept(self, name: str) -> None:
        with contextlib.ExitStack() as troubles:
            for rails in self.rails.values():
                if rails.program == name or name not in ("dcc_ex", "z21"):
                    troubles.enter_context(rails.trouble())
            self.programs[name].send(signal.SIGSTOP)
            try:
                time.sleep(self.draw.choice((0.5, 3, 12)))
            finally:
                self.programs[name].send(signal.SIGCONT)

    def reset(self, rails: Rails) -> None:
        lies = rails.station.turnouts
        with rails.lost("reset"):
            rails.station.restart()
            rails.station.turnouts = lies | rails.station.turnouts
            time.sleep(3)

    def cable(self, rails: Rails) -> None:
        with rails.lost("cable off"):
            rails.station.unplug()
            time.sleep(SILENT if rails.is_z21 else 2)
            rails.station.plug()
            time.sleep(3)

    def hung(self, rails: Rails) -> None:
        with rails.lost("hang"):
            rails.station.hang()
            time.sleep(SILENT)
            rails.station.hang()
            time.sleep(2)

    def server_lost(self, what: str, act: Callable[[], None]) -> None:
        with self.rails[1].lost(what), self.rails[2].lost(what):
            act()
            time.sleep(3)

    def server_hung(self) -> None:
        self.server.process.send(signal.SIGSTOP)
        time.sleep(HANG)
        self.server.process.send(signal.SIGCONT)

    def wifi_away(self) -> None:
        """A phone's lines are held back. Those that it drives stand meanwhile, since its heartbeats stay out."""
        self.wifi.away()
        time.sleep(SENT)
        self.playing.clear()
        time.sleep(HANG)
        with contextlib.ExitStack() as stops:
            for loco in self.taken:
                stops.enter_context(self.rails[1].commanded(loco, False))
        time.sleep(SENT)
        self.wifi.back()
        time.sleep(REST)
        self.playing.set()

    def weather(self, rails: Rails) -> None:
        rails.station.loses = self.draw.choice(LOSSES)
        self.tells(f"{rails.watch.name} loses {rails.station.loses:.0%}")

    def trouble(self) -> None:
        name, rails = self.draw.choice(list(self.programs)), self.rails[self.draw.choice((1, 2))]
        driver = self.draw.choice(("dcc_ex", "z21"))
        kinds = {f"{name} killed": lambda: self.killed(name), f"{name} slept": lambda: self.slept(name),
                 f"{driver} is killed": lambda: self.killed(driver), f"{driver} sleeps": lambda: self.slept(driver),
                 f"{rails.program}'s station reset": lambda: self.reset(rails),
                 f"{rails.program}'s cable": lambda: self.cable(rails),
                 f"{rails.program}'s station hung": lambda: self.hung(rails),
                 "server hung": lambda: self.server_lost("server hung", self.server_hung),
                 "server killed": lambda: self.server_lost("server killed", self.server.restart),
                 f"{rails.program}'s weather": lambda: self.weather(rails), "Wi-Fi away": self.wifi_away}
        what, = self.draw.choices(list(kinds), [4, 4, 2, 2, 2, 2, 2, 1, 1, 4, 3])
        self.tells(what)
        self.troubles[what.rpartition(" ")[2]] += 1
        if self.draw.random() < 0.5 or what == "Wi-Fi away":
            kinds[what]()
        else:
            self.in_silence(kinds[what])

    def in_silence(self, act: Callable[[], None]) -> None:
        """Nobody commands anything meanwhile. So whatever starts, starts by itself."""
        self.playing.clear()
        time.sleep(SENT)
        act()
        time.sleep(REST)
        self.playing.set()

    def threads(self, rails: Rails) -> list[int]:
        """Those by which a command comes to a station."""
        programs = self.server.process, *(self.programs[name] for name in ("web", "mqtt", rails.program))
        return [*(started.pid for started in programs), rails.station.thread.native_id]

    def look(self) -> None:
        for rails in self.rails.values():
            rails.look()

    def run(self, seconds: int) -> None:
        acts = (self.throttle, self.throttle, self.pages, self.phone, self.display, self.hand, self.stopper)
        clients = [threading.Thread(target=self.plays, args=(act,), daemon=True) for act in acts]
        for rails in self.rails.values():
            delays = Delays(partial(self.threads, rails))
            rails.watch.delay = delays.between
            clients.append(threading.Thread(target=delays.run, args=(self.ended,), daemon=True))
        self.playing.set()
        for client in clients:
            client.start()
        end = time.monotonic() + seconds
        while time.monotonic() < end:
            self.ended.wait(TROUBLE)
            self.look()
            self.trouble()
        self.playing.clear()
        self.throw_each()
        time.sleep(QUIET)
        self.look()

    def throw_each(self) -> None:
        """Throws each turnout once more, behind all pulses. A panel that joins later cannot know how one lies of which
        an older pulse ended last."""
        time.sleep(ENDED)
        with contextlib.closing(common.Session(self.server.port)) as throttle:
            for turnout in TURNOUTS:
                throttle.ask(f"SET 1 GA {turnout} 0 1 50")

    # ---- what all say at the end

    def stamped(self) -> Rows:
        """The rows of a fresh panel, with their stamps."""
        found = Rows()
        found.update((key, row) for key, row in map(parse, stamped_lines(self.server.port)) if row)
        return found

    def differences(self) -> Iterator[str]:
        """Yields what does not say what a fresh panel is sent."""
        import keep
        rows = self.stamped()
        for rails in self.rails.values():
            for difference in rails.differences(rows):
                yield f"{rails.watch.name}: {difference}"
        yield from self.turnouts(rows)
        if "END" in self.page.events:  # a browser joins again
            self.page = test_web.Events(self.web)
        if not test_web.have_the_rows(self.server.port, self.page):
            yield "the page's rows"
        kept = Path(self.file).read_text("latin-1").split("\n")[:-1]
        told = [line.split() for line in kept if re.match(r"SET \d+ GL ", line)]
        ways = {(int(words[1]), int(words[3])): int(words[4]) for words in told}
        # After an emergency stop no row has a way.
        wanted = keep.commands_of(rows, False, lambda bus, address: ways.get((bus, address), FORWARD))
        if kept != wanted:
            yield f"the file of keep.py: {sorted(set(kept) ^ set(wanted))[:6]}"
        topics = {topic: payload for topic, payload in test_mqtt.retained(self.broker.port).items()
                  if topic.startswith("srcp/") and not topic.endswith(("/position", "/online"))}
        shown, due = test_mqtt.loaded(topics), test_mqtt.registry(self.server.port)
        if wrong := [topic for topic in shown.keys() | due.keys() if shown.get(topic) != due.get(topic)]:
            yield f"the retained topics: {[(topic, shown.get(topic), due.get(topic)) for topic in wrong][:5]}"
        yield from self.panel_differences(rows)

    def turnouts(self, rows: Rows) -> Iterator[str]:
        """Yields which turnouts lie otherwise. A station reports none of them: one that lost a command is left out."""
        lies = self.rails[1].station.turnouts
        wrong = [turnout for turnout in TURNOUTS if (port := position(rows, 1, turnout)) is not None
                 and lies.get(turnout) != int(port > 0)]
        if wrong and not self.rails[1].station.trouble.spoilt:
            yield f"turnouts {wrong}"

    def panel_differences(self, rows: Mapping[Key, Row]) -> Iterator[str]:
        text = Path(self.panel_lines).read_text("latin-1")
        counted = int([line for line in text.split("\n") if line.endswith(" rows")][-1].split()[1])
        if counted + 1 != len(rows):  # the fresh panel is one more
            yield f"examples/panel.py holds {counted} rows, a fresh panel {len(rows)}"

    def ends(self) -> None:
        self.ended.set()
        for started in self.programs.values():
            started.end(signal.SIGKILL)
        self.panel.kill()
        self.broker.stop()
        self.server.stop()
