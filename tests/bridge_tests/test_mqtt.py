"""mqtt.py with the real mosquitto, if it is installed."""
import argparse
import asyncio
import json
import os
import shutil
import signal
import subprocess
import sys
import threading
import time
import types
import unittest
from pathlib import Path

from .common import (PROGRAMS, WAIT, Case, Process, Session, connects, free_port, interpreter, listener, new_folder,
                     rows, until)

try:
    import paho.mqtt.client as paho
except ImportError:
    paho = None
MOSQUITTO = shutil.which("mosquitto", path=os.environ["PATH"] + ":/usr/sbin")
IS_THERE = unittest.skipUnless(paho and MOSQUITTO and interpreter("mqtt.py"),
                               "mosquitto or python3-paho-mqtt is not installed")


class Broker:
    def __init__(self, *more, port=None):
        self.folder = new_folder()
        self.port = port or free_port()
        lines = [f"listener {self.port} 127.0.0.1", "allow_anonymous true", "log_type none", "user root", *more, ""]
        Path(self.folder, "conf").write_text("\n".join(lines).format(folder=self.folder))
        self.start()

    def start(self):
        self.process = Process(MOSQUITTO, "-c", os.path.join(self.folder, "conf"))
        until(lambda: connects(self.port), "the broker listens")

    def stop(self):
        self.process.end(signal.SIGKILL)


class Client:
    """Follows topics; `topics` has what was retained or came since, `came` all payloads in order by topic."""

    def __init__(self, port, *levels):
        self.topics = {}
        self.came = {}
        self.ready = threading.Event()
        self.levels = levels or ("srcp/#", "homeassistant/#")
        version = [paho.CallbackAPIVersion.VERSION1] if hasattr(paho, "CallbackAPIVersion") else []
        self.client = paho.Client(*version)
        self.client.on_message = self.take
        self.client.on_connect = lambda *_: self.client.subscribe([(level, 0) for level in self.levels])
        self.client.on_subscribe = lambda *_: self.ready.set()
        self.client.on_disconnect = lambda *_: self.ready.clear()
        self.client.reconnect_delay_set(0.1, 0.1)
        self.client.connect("127.0.0.1", port)
        self.client.loop_start()

    def take(self, client, data, message):
        payload = message.payload.decode(errors="replace")
        self.came.setdefault(message.topic, []).append(payload)
        if payload:
            self.topics[message.topic] = payload
        else:
            self.topics.pop(message.topic, None)

    def say(self, topic, payload, retain=False):
        self.ready.wait(WAIT)
        self.client.publish(topic, payload, qos=1, retain=retain).wait_for_publish(WAIT)

    def close(self):
        self.client.disconnect()
        self.client.loop_stop()


def retained(port, *levels):
    """Returns what a new client is sent. A mark of its own says where that ends."""
    client = Client(port, *levels)
    mark = f"srcp/mark/{id(client)}"
    client.say(mark, "x")
    until(lambda: mark in client.topics, "the mark")
    client.close()
    return {topic: payload for topic, payload in client.topics.items() if not topic.startswith("srcp/mark")}


def registry(port):
    """Returns what the broker should retain, made here from a snapshot of the server."""
    wanted, snapshot = {}, rows(port)
    snapshot.remove([row for row in snapshot if " SESSION " in row][-1])  # its own session
    for row in snapshot:
        code, _, bus, group, *words = row.split(" ")
        n = words[0] if words else None
        if group == "SESSION":
            wanted[f"{bus}/SESSION/{n}"] = words[1]
        elif group == "POWER":
            wanted[f"{bus}/POWER"] = words[0]
            if words[1:]:
                wanted[f"{bus}/POWER/text"] = " ".join(words[1:])
        elif group == "FB" or group == "GA" and code == "100":
            wanted["/".join([bus, group, *words[:-1]])] = words[-1]
        elif group == "GA":
            wanted[f"{bus}/GA/{n}/is"] = words[1]
        elif group == "LOCK":
            wanted[f"{bus}/{n}/{words[1]}/lock"] = {"seconds": int(words[2]), "session": int(words[3])}
        elif group == "GL" and code == "101":
            members = ["protocol", "version", "steps", "functions"]
            values = [words[1], *map(int, words[2:])]
            wanted[f"{bus}/GL/{n}/is"] = dict(zip(members, values))
        elif group == "GL":
            mode, v, v_max, *functions = map(int, words[1:])
            wanted[f"{bus}/GL/{n}"] = {"mode": mode, "v": v, "v_max": v_max, "functions": functions}
    return {"srcp/" + topic: payload for topic, payload in wanted.items()}


def loaded(topics):
    """Payloads with the JSON among them as objects."""
    return {topic: json.loads(payload) if payload.startswith("{") else payload for topic, payload in topics.items()}


def new_bridge():
    """Returns a bridge that has reached nothing yet."""
    import mqtt
    asked = argparse.Namespace(host="", port=0, again=1, prefix="srcp", names=None, home_assistant=None)
    return mqtt.Bridge(asked)


class Payloads(unittest.TestCase):
    program = "mqtt"

    def test_payloads(self):
        from srcp_bridges.srcp import rows
        from srcp_bridges.page.topics import commands_for
        table = {(1, "GA", 5, "is"): rows.Accessory(0, "N"), (1, "GA", 5, 0): rows.Port(1, 1),
                 (1, "GA", 5, 1): rows.Port(0, 0)}
        for place, text, commands in [
            ("1/POWER", "ON main line", ["SET 1 POWER ON main line"]), ("1/FB/7", "on", ["SET 1 FB 7 1"]),
            ("1/GL/4/is", "N 1 28 5", ["INIT 1 GL 4 N 1 28 5"]), ("1/GL/4/is", "", ["TERM 1 GL 4"]),
            ("1/GA/5/1", "OFF", ["SET 1 GA 5 1 0 -1"]), ("1/GA/5/1", "1 20", ["SET 1 GA 5 1 1 20"]),
            ("1/GA/5/position", "1", ["SET 1 GA 5 0 0 -1", "SET 1 GA 5 1 1 250"]),
        ]:
            self.assertEqual(commands_for(table, place, text), commands)
        for place, text in [("0/SESSION/4/is", ""), ("1/GL/x", "1"), ("1/GL/3/lock", "1"), ("1/SM/3", "1"),
                            ("x/POWER", "ON"), ("1", "1"), ("1/GL/3", "1"), ("1/POWER/1", "ON"), ("1/GA/5", "1"),
                            ("1/POWER/text", "x"), ("1/GA/5/x", "1"), ("1/GL/3/is/is", ""),
                            ("1/FB/7/is", "")]:
            with self.assertRaises(Exception, msg=place):
                commands_for(table, place, text)

    def test_what_is_wanted_of_a_locomotive(self):
        from srcp_bridges.page.topics import locomotive_of, wanted_of
        for text, wanted in [
            ("12", (None, 12, None, {})), ('{"mode": 1}', (1, None, None, {})),
            ('{"functions": {"1": true}}', (None, None, None, {1: 1})),
            ('{"functions": [0, 1], "v": 0, "v_max": 5}', (None, 0, 5, {0: 0, 1: 1})),
        ]:
            self.assertEqual(wanted_of(text), wanted)
        for text in ("", "[", "[]", "{}", "null", "x", '{"v": Infinity}', '{"speed": 5}', '{"functions": []}',
                     '{"functions": {"x": 1}}', '{"functions": 5}', '{"v": "9\nSET 1 POWER OFF"}', "[" * 5000,
                     "true", "false", '"12"', '{"v": true}', '{"v": false}', '{"mode": true}', '{"v": "12"}',
                     '{"functions": "01"}', '{"v": 1, "functions": ""}', '{"v": 1, "functions": null}'):
            with self.assertRaises(Exception, msg=text):
                wanted_of(text)
        places = ["1/GL/3", "1/GL/3/is", "1/GA/3/1", "1/FB/3", "1_GL_3", "stop", "x"]
        self.assertEqual([locomotive_of(place) for place in places], [(1, 3)] + [None] * 6)

    def test_topics_of_our_form(self):
        from srcp_bridges.page.topics import device_of
        for place, device in [
            ("1/POWER", (1, "POWER", 0, False)), ("1/POWER/text", (1, "POWER", 0, False)),
            ("2/GL/3", (2, "GL", 3, False)), ("2/GL/3/is", (2, "GL", 3, False)), ("2/GL/3/lock", (2, "GL", 3, True)),
            ("1/GA/5/7", (1, "GA", 5, False)), ("1/GA/5/position", (1, "GA", 5, False)),
            ("1/FB/7", (1, "FB", 7, False)), ("0/SESSION/4", (0, "SESSION", 4, False)),
            ("1_POWER_0", (1, "POWER", 0, False)),
        ]:
            self.assertEqual(device_of(place), device)
        for place in ("", "1", "1/POWER/0", "1/POWER/", "1/GL", "1/GL/", "1/GL/3/", "1/GL/3/0", "1/GA/5", "1/GA/5/8",
                      "1/FB/7/is", "01/GL/3", "1/GL/x", "-1/GL/3", "1/GL/٣", "1/gl/3", "1_GL", "1_SESSION_4", "1/SM/3",
                      "1/GL/" + "9" * 5000, "1/GL/3\n"):
            self.assertIsNone(device_of(place), place)

    def test_without_paho(self):
        """`--help` needs no paho; all else says with one line what has to be installed."""
        folder = new_folder()
        Path(folder, "paho.py").touch()  # a module that has nothing of what is looked for
        for words, status, begin, lines in ((["--help"], 0, "usage:", 10), ([], 2, "-- mqtt.py needs paho-mqtt", 1)):
            ran = subprocess.run([sys.executable, PROGRAMS / "mqtt.py", *words], capture_output=True, text=True,
                                 env=os.environ | {"PYTHONPATH": folder}, timeout=WAIT)
            told = ran.stdout + ran.stderr
            self.assertEqual((ran.returncode, told[:len(begin)]), (status, begin), told)
            self.assertTrue(lines == 1 == told.count("\n") or told.count("\n") > lines > 1, told)

    @unittest.skipUnless(paho, "python3-paho-mqtt is not installed")
    def test_a_broker_that_is_too_slow(self):
        """What cannot be queued is shown later, in its last state; paho has numbers for 65,535 messages."""
        from srcp_bridges.page import broker
        bridge, limit = new_bridge(), broker.QUEUED
        bridge.client, bridge.following = paho.Client(client_id="slow"), True
        bridge.client.max_queued_messages_set(limit)
        queued = bridge.client._out_messages  # it is not connected, so that all of them wait

        async def main():
            for n in range(limit + 500):
                bridge.want("srcp/1/FB/1", str(n), False)
            bridge.want("srcp/1/FB/2", "1", False), bridge.want("srcp/1/FB/2", None, False)
            bridge.want("srcp/1/FB/3", "1", False)
            self.assertEqual(len(queued), limit)
            catching_up = asyncio.create_task(bridge.catch_up())
            await asyncio.sleep(1)
            queued.clear()
            await asyncio.sleep(1)
            catching_up.cancel()

        asyncio.run(main())
        shown = {message.topic: message.payload.decode() for message in queued.values()}
        self.assertEqual(shown, {"srcp/1/FB/1": str(limit + 499), "srcp/1/FB/3": "1"})


@IS_THERE
class MqttCase(Case):
    program = "mqtt"
    broker_words, words = (), ()

    def setUp(self):
        super().setUp()
        self.broker = Broker(*self.broker_words)
        self.addCleanup(lambda: self.broker.stop())
        self.throttle.order("SET 1 POWER ON main line", "INIT 1 GL 3 N 1 28 2", "SET 1 GL 3 1 9 28 1",
                            "SET 1 LOCK GL 3 0", "INIT 1 GA 5 N", "SET 1 GA 5 1 1 20", "INIT 2 GA 7 N")
        self.start()
        self.client = Client(self.broker.port)
        self.addCleanup(self.client.close)
        self.equal("the first listing")

    def start(self):
        self.bridge = self.starts("mqtt.py", "--broker-port", self.broker.port, *self.words, port=self.way.port)
        for joined in ("broker: joined", "server: joined"):
            until(lambda: joined in self.bridge.told(), joined)

    def shows(self):
        """Returns whether the broker retains what the registry has, and nothing else."""
        has_now = retained(self.broker.port)
        topics = {topic: payload for topic, payload in has_now.items() if topic.startswith("srcp/")
                  and not topic.endswith(("/position", "/online"))}
        return loaded(topics) == registry(self.server.port) and has_now.get("srcp/online") == "online"

    def equal(self, what, seconds=WAIT):
        until(self.shows, what, seconds)

    def change(self):
        self.throttle.order("TERM 1 GA 5", "INIT 1 GL 4 N 1 28 5", "SET 1 FB 4 1", "SET 1 GL 3 1 5 28 0")


class Mqtt(MqttCase):
    def test_follows(self):
        until(lambda: self.client.topics.get("srcp/1/GA/5/position") == "1", "the position")
        self.throttle.order("SET 1 GA 5 0 1 20", "INIT 1 GL 3 N 1 28 5", "SET 1 FB 4 1", "SET 1 POWER OFF",
                            "TERM 2 GA 7")
        until(lambda: self.client.topics.get("srcp/1/GA/5/position") == "0", "the turnout")
        self.throttle.order("TERM 1 GA 5")
        self.equal("changes and removals")
        until(lambda: "srcp/1/GA/5/position" not in self.client.topics, "no position")
        self.throttle.order("SET 1 POWER OFF no station")
        until(lambda: self.client.topics.get("srcp/1/POWER/text") == "no station", "the text of power")
        self.assertEqual(self.client.topics["srcp/1/POWER"], "OFF")
        self.throttle.order(*["SET 1 FB 4 1"] * 10)
        until(lambda: self.client.came.get("srcp/1/FB/4", [])[-10:] == ["1"] * 10, "equal SETs are changes")

    def test_a_turnout_lies_as_it_was_put_last(self):
        """Also if an older pulse, of another port, ends later."""
        self.throttle.order("SET 1 GA 5 0 1 600", "SET 1 GA 5 1 1 100")
        until(lambda: self.client.topics.get("srcp/1/GA/5/0") == "1", "the pulse")
        until(lambda: self.client.topics.get("srcp/1/GA/5/0") == "0", "its end")
        time.sleep(0.1)
        self.assertEqual(self.client.topics["srcp/1/GA/5/position"], "1")

    def test_commands(self):
        self.throttle.order("TERM 1 LOCK GL 3")
        for topic, payload, row in [
            ("1/GL/3", "14", "100 INFO 1 GL 3 1 14 28 1 0"),
            ("1/GL/3", '{"mode": 0, "functions": {"1": 1}}', "100 INFO 1 GL 3 0 14 28 1 1"),
            ("1/POWER", "OFF", "100 INFO 1 POWER OFF"), ("1/FB/7", "ON", "100 INFO 1 FB 7 1"),
            ("1/GL/8/is", "N 1 28 5", "101 INFO 1 GL 8 N 1 28 5"), ("2/GA/7/3", "1", "100 INFO 2 GA 7 3 1"),
            ("1/GA/5/position", "0", "100 INFO 1 GA 5 0 1"), ("stop", "now", "100 INFO 1 GL 3 0 0 28 1 1"),
        ]:
            self.client.say(f"srcp/{topic}/set", payload)
            self.has(row)
        self.client.say("srcp/1/GL/8/is/set", "")
        self.lacks("101 INFO 1 GL 8")
        self.client.say("srcp/1/FB/9/set", "1", retain=True)
        self.has("100 INFO 1 FB 9 1")
        self.throttle.order("SET 1 FB 9 0")
        self.bridge.end(signal.SIGKILL)
        self.start()
        time.sleep(0.3)
        self.has("100 INFO 1 FB 9 0")
        self.client.say("srcp/1/FB/9/set", "", retain=True)

    def test_what_is_refused(self):
        """Whatever is sent reaches no train, ends nothing, and is told."""
        self.throttle.order("TERM 1 LOCK GL 3")
        wrong = [("1/GL/99", "5"), ("1/GL/3", "{"), ("1/POWER", "ON\nSET 1 FB 1 1"), ("1/GL/x", "1"), ("1/GL/3", "[]"),
                 ("1/GL/3", "null"), ("1/GL/3", '{"v": Infinity}'), ("1/GL/3", "[" * 900), ("1/GL/3", "x" * 10_000_000),
                 ("0/SESSION/1/is", ""), ("1/GL/3", b"\xff\xfe"), ("x", "1"), ("1/GL/3", '{"functions": 5}'),
                 ("1/GL/3", "-1"), ("1/GL/3", "true"), ("1/GL/3", '{"v": true}'), ("1/GL/3", '"12"'),
                 ("1/GL/3", '{"functions": "01"}'),
                 ("1/GL/3 1 9 28", "1"), ("1/GL/3", '{"v": "9\\nSET 1 POWER OFF"}')]
        for topic, payload in wrong:
            self.client.say(f"srcp/{topic}/set", payload)
        until(lambda: len(self.client.came.get("srcp/error", [])) == len(wrong), "what is refused is told")
        self.has("100 INFO 1 POWER ON main line", "100 INFO 1 GL 3 1 9 28 1 0", "100 INFO 1 FB 1 0")
        for n in range(3000):
            self.client.client.publish("srcp/1/FB/9/set", str(n % 2), qos=0)

        def goes_on():
            self.client.say("srcp/1/FB/8/set", "1")  # which is refused while too many wait
            time.sleep(0.2)
            return "100 INFO 1 FB 8 1" in rows(self.server.port)

        until(goes_on, "it goes on")
        self.assertIsNone(self.bridge.process.poll())

    def test_killed_and_ended(self):
        self.bridge.end(signal.SIGKILL)
        until(lambda: self.client.topics.get("srcp/online") == "offline", "the last will")
        self.change()
        self.client.say("srcp/1/GL/77", "stale", retain=True)
        self.start()
        self.equal("a bridge again")
        self.assertEqual(self.bridge.end(), 0)
        until(lambda: self.client.topics.get("srcp/online") == "offline", "offline")

    def test_server(self):
        self.server.stop()
        until(lambda: self.client.topics.get("srcp/online") == "offline", "offline")
        self.server.start()
        self.equal("a server that was started anew")
        self.throttle = Session(self.server.port)
        self.throttle.order("INIT 1 GL 9 N 1 28 5")
        self.equal("and goes on")

    def test_overrun(self):
        self.way.cut()
        self.change()
        self.way.free()
        self.equal("an overrun")

    def test_a_real_overrun(self):
        self.overruns(self.bridge, "TERM 1 GA 5", "INIT 1 GL 4 N 1 28 5", "SET 1 FB 4 1", "SET 1 GL 3 1 5 28 0")
        self.equal("an overrun", 4 * WAIT)

    def test_broker(self):
        self.broker.stop()
        self.change()
        time.sleep(0.3)
        self.broker.start()
        self.equal("a broker that lost all, or has what it had before")
        self.client.say("srcp/1/FB/7/set", "1")
        self.has("100 INFO 1 FB 7 1")

    def test_many_topics(self):
        """More than a broker's queue takes."""
        self.throttle.flood([f"INIT 1 GA {n} N" for n in range(100, 900)])
        self.equal("2,400 topics more", 4 * WAIT)
        self.bridge.end(signal.SIGKILL)
        self.throttle.flood([f"TERM 1 GA {n}" for n in range(100, 900, 2)])
        self.start()
        self.equal("half of them gone while the bridge was away", 4 * WAIT)


class MqttWithPersistence(MqttCase):
    broker_words = ("persistence true", "persistence_location {folder}/", "autosave_interval 1")

    def test_a_broker_that_has_what_it_had_before(self):
        time.sleep(1.3)  # something is saved
        self.broker.stop()
        self.change()
        self.broker.start()
        self.equal("the broker again")


class MqttForHomeAssistant(MqttCase):
    words = ("--home-assistant",)

    def announced(self):
        shown = retained(self.broker.port)
        return {topic: json.loads(payload) for topic, payload in shown.items() if topic.startswith("home")}

    def test_a_slider_of_home_assistant(self):
        """It reaches 0, which 1 to 100 does not, and shows what drives above that."""
        self.throttle.order("TERM 1 LOCK GL 3")
        until(lambda: "homeassistant/number/srcp/1_GL_3/config" in self.announced(), "it learns of the locomotive")
        number = self.announced()["homeassistant/number/srcp/1_GL_3/config"]
        self.assertEqual((number["min"], number["max"]), (0, 100))
        for share in (100, 1, 0):
            wanted = number["command_template"].replace("{{ value | int }}", str(share))
            self.client.say(number["command_topic"], wanted)
            self.has(f"100 INFO 1 GL 3 1 {share} 100")
        shows = number["value_template"].removeprefix("{{").removesuffix("}}").strip()  # a template, and Python too
        for v, v_max, share in ((0, 28, 0), (1, 126, 1), (1, 28, 4), (27, 28, 97), (28, 28, 100), (0, 0, 0)):
            row = types.SimpleNamespace(v=v, v_max=v_max)
            self.assertEqual(eval(shows, {"value_json": row}), share)

    def test_what_it_learns(self):
        self.throttle.order("TERM 1 LOCK GL 3")
        until(lambda: len(self.announced()) == 1 + 1 + 1 + 2 + 32 + 16,
              "a button, power, a locomotive, two accessories, and sensors")
        found = self.announced()
        stop = found.pop("homeassistant/button/srcp/stop/config")
        for topic, words in found.items():
            self.assertLessEqual({"name", "unique_id", "state_topic", "availability_topic"}, words.keys())
            self.assertIn(words["state_topic"], self.client.topics | {"srcp/2/GA/7/position": ""})
        self.assertEqual(found["homeassistant/select/srcp/2_GA_7/config"]["options"], ["0", "1", "2", "3"])
        number = found["homeassistant/number/srcp/1_GL_3/config"]
        self.client.say(number["command_topic"], number["command_template"].replace("{{ value | int }}", "50"))
        self.has("100 INFO 1 GL 3 1 50 100")
        self.client.say(stop["command_topic"], stop["payload_press"])
        self.has("100 INFO 1 GL 3 1 0 100")
        switch = found["homeassistant/switch/srcp/1_POWER_0/config"]
        self.client.say(switch["command_topic"], "OFF")
        self.has("100 INFO 1 POWER OFF")
        self.bridge.end(signal.SIGKILL)
        self.client.say("homeassistant/switch/other/x/config", "{}", retain=True)
        self.throttle.order("TERM 1 GL 3", "TERM 2 GA 7")
        self.start()
        until(lambda: len(self.announced()) == 51 + 1, "what went while it was away; others' stays")
        self.throttle.order("TERM 1 GA 5")
        until(lambda: len(self.announced()) == 50 + 1, "what goes")


@unittest.skipUnless(paho and interpreter("mqtt.py"), "python3-paho-mqtt is not installed")
class MqttWithAWrongBroker(Case):
    program = "mqtt"

    def serve(self, door):
        """Accepts whoever comes, and sends what no broker sends: rubbish, or commands that nobody asked for."""
        connected, granted = b"\x20\x02\0\0", b"\x90\x03\0\1\0"

        def publish(topic, payload):
            body = len(topic).to_bytes(2, "big") + topic + payload
            return b"\x30" + bytes([len(body) % 128 + 128, len(body) // 128]) + body

        topics = (b"1/POWER/set", b"POWER/set", b"\xff\xfe", b"", b"x", b"$SYS/1/POWER/set")
        unasked = b"".join(publish(topic, b"OFF") for topic in topics)
        for text in (os.urandom(5000), connected + os.urandom(5000), connected + b"\xff" * 5000, b"",
                     connected + unasked * 100, connected + granted + publish(b"srcp/mark", b"read") + b"\x90\1\0",
                     connected + granted + unasked * 100 + publish(b"srcp/mark", b"read") + unasked):
            try:
                peer, _ = door.accept()
                with peer:
                    peer.settimeout(2)
                    peer.recv(1000)
                    peer.sendall(text)
                    self.came += 1
                    while peer.recv(1000):
                        pass
            except OSError:
                pass
        self.came = "all"

    def test_what_nobody_asked_for(self):
        self.came, broker = 0, listener()
        self.addCleanup(broker.close)
        self.throttle.order("SET 1 POWER ON")
        threading.Thread(target=self.serve, args=(broker,), daemon=True).start()
        bridge = self.starts("mqtt.py", "--broker-port", broker.getsockname()[1])
        until(lambda: self.came == "all", "all was sent")
        self.has("100 INFO 1 POWER ON")
        self.assertNotIn("Traceback", bridge.told())
        self.assertIsNone(bridge.process.poll())
