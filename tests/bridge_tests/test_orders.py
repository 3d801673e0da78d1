"""mqtt.py: what a stop refuses of the commands that came by topics, and what is told of those not carried out."""
import asyncio
import json
import time
import unittest

from .common import rows, until
from .test_mqtt import MqttCase, new_bridge, paho

AWAY = "the server is away"
DROPPED = "all was stopped meanwhile"


class SlowSession:
    """A session whose replies do not come until `replies` or `ended` is done."""

    def __init__(self, row):
        self.row = row
        self.asked = []
        self.replies, self.ended = (asyncio.get_running_loop().create_future() for _ in range(2))

    async def ask(self, command):
        self.asked.append(command)
        await asyncio.wait([self.replies, self.ended], return_when=asyncio.FIRST_COMPLETED)
        if self.ended.done():
            raise ConnectionError("closed the connection")
        return self.row if command.startswith("GET") else "OK"


@unittest.skipUnless(paho, "python3-paho-mqtt is not installed")
class Orders(unittest.IsolatedAsyncioTestCase):
    program = "mqtt"

    def setUp(self):
        from srcp_bridges.srcp import rows
        self.bridge, self.told = new_bridge(), []
        self.mirror, self.orders = self.bridge.mirror, self.bridge.orders
        self.row = rows.Drive(0, 1, 9, 28, ())
        self.mirror.rows.enter((1, "GL", 3, "does"), self.row)
        self.bridge.refused = lambda place, text, why: self.told.append((place, text, str(why)))
        self.orders.refused = self.bridge.refused

    async def asyncSetUp(self):
        asyncio.get_running_loop().set_debug(False)  # which is slow
        self.mirror.session, self.mirror.here = SlowSession(self.row), True
        running = asyncio.create_task(self.orders.run())
        self.addCleanup(running.cancel)

    async def hears(self, *messages):
        for place, text in messages:
            self.bridge.heard(f"srcp/{place}/set", text.encode(), False)
        for _ in range(50):
            await asyncio.sleep(0)

    async def test_power_and_stop_are_behind_nothing_else(self):
        """Of what is sent while none is carried out 1,000 commands wait; power and stops do not, and one drops them."""
        await self.hears(*[("1/FB/9", "1")] * 3000, ("1/POWER", "OFF"))
        self.assertEqual((self.orders.waits.qsize(), len(self.told)), (999, 2000))
        self.assertEqual(self.told[-1], ("1/FB/9", "1", "too many commands wait"))
        self.assertEqual(sorted(self.mirror.session.asked), ["SET 1 FB 9 1", "SET 1 POWER OFF"])
        for number, stop in enumerate((("1/GL/3", '{"mode": 2}'), ("stop", "")), 1):
            await self.hears(stop)
            self.assertEqual(self.mirror.session.asked.count("SET 1 GL 3 2 0 28"), number)
        self.assertEqual((self.orders.waits.qsize(), self.told[2000:]), (0, [("1/FB/9", "1", DROPPED)] * 999))

    async def test_what_comes_after_a_stop_is_not_dropped(self):
        """Messages of one moment are taken in their order."""
        await self.hears(("1/GL/3", "5"), ("1/GL/3", "6"), ("stop", ""), ("1/GL/3", "7"))
        self.assertEqual(self.told, [("1/GL/3", "5", DROPPED), ("1/GL/3", "6", DROPPED)])

    async def test_a_stop_by_others(self):
        """What came before that locomotive was stopped is refused after it, also what is under way."""
        await self.hears(("1/GL/3", "5"), ("1/GL/3", "6"), ("1/GL/4", "7"))
        self.mirror.take("1795358500.120 100 INFO 1 GL 3 2 0 28")
        self.mirror.session.replies.set_result(None)
        await self.hears()
        self.assertEqual(self.told, [("1/GL/3", v, "it was stopped meanwhile") for v in ("5", "6")])
        self.assertEqual([text for text in self.mirror.session.asked if "SET" in text], ["SET 1 GL 4 1 7 28"])

    async def test_no_command_outlives_its_server(self):
        """What came before a loss is refused, also if the server is back by then. A stop is tried all the same."""
        messages = [("1/FB/9", "1"), ("1/GL/3", "5"), ("1/GL/3", "6"), ("1/GA/5/1", "1")]
        await self.hears(*messages)
        session, self.mirror.session = self.mirror.session, SlowSession(self.row)
        session.ended.set_result(None)
        await self.hears()
        self.assertEqual(self.told, [(place, text, AWAY) for place, text in messages])
        self.mirror.here = False
        await self.hears(*messages, ("stop", ""), ("1/GL/3", '{"mode": 2}'))
        self.assertEqual(self.told[4:], [(place, text, AWAY) for place, text in messages])
        self.assertEqual(self.mirror.session.asked, ["GET 1 GL 3", "SET 1 GL 3 2 0 28"] * 2)

    async def test_a_topic_that_nobody_asked_for(self):
        for self.bridge.following in (False, True):
            for topic in ("x", "other/topic", "1/POWER/set", "homeassistant/switch/other/x/config"):
                self.bridge.heard(topic, b"OFF", True), self.bridge.heard(topic, b"OFF", False)
            self.bridge.heard("srcp/1/FB/9/set", b"1", True)  # retained: of a time that is over
        await self.hears()
        self.assertEqual((self.mirror.session.asked, self.bridge.there), ([], {}))
        self.assertEqual(self.told, [("1/FB/9", "1", "retained")])


class Stopping(MqttCase):
    def setUp(self):
        super().setUp()
        self.throttle.order("TERM 1 LOCK GL 3", "SET 1 GL 3 0 0 28 0 0")
        self.knows(mode=0, v=0)

    def knows(self, **members):
        """Waits until the bridge has shown this of the locomotive."""
        def shown():
            return json.loads(self.client.topics.get("srcp/1/GL/3", "{}"))

        until(lambda: all(shown().get(name) == value for name, value in members.items()), f"it shows {members}")

    def errors(self):
        return [json.loads(text) for text in self.client.came.get("srcp/error", [])]

    def test_a_stop_after_speeds(self):
        """One client sends speeds and then a stop: the train stands, however many speeds were on their way."""
        accessories = iter(range(10, 2000))

        def drives_on(count, topic, text):
            for v in range(1, count + 1):
                self.client.client.publish("srcp/1/GL/3/set", f'{{"mode": 0, "v": {v}}}', qos=1)
            self.client.client.publish(f"srcp/{topic}/set", text, qos=1)
            mark = next(accessories)

            def passed():
                self.client.say(f"srcp/1/GA/{mark}/is/set", "N")
                return "INFO" in self.throttle.ask(f"GET 1 GA {mark} 0")

            until(passed, "what came after the stop")
            return self.throttle.ask("GET 1 GL 3").split()[6] != "0"  # V

        for stop in (("stop", "now"), ("1/GL/3", '{"mode": 2}')):
            drove = {count: sum(drives_on(count, *stop) for _ in range(20)) for count in (2, 3, 5, 10)}
            self.assertEqual(drove, dict.fromkeys(drove, 0))

    def test_a_stop_of_all_behind_a_speed_that_the_panel_tells_late(self):
        """As on a busy machine. No driver is there that would hold the train."""
        self.way.late = b"GL 3 0 5 28"
        self.client.say("srcp/1/GL/3/set", '{"mode": 0, "v": 5}')
        self.has("100 INFO 1 GL 3 0 5 28")
        self.client.say("srcp/stop/set", "now")
        until(lambda: any(row.endswith(" stop all") for row in rows(self.server.port)), "it is told")
        time.sleep(0.4)
        self.way.free()
        self.has("100 INFO 1 GL 3 0 0 28")

    def test_after_a_stop_it_drives_again(self):
        """A number, and the slider of Home Assistant, need no direction: it is the one of before the stop."""
        for way in (0, 1):
            self.throttle.order(f"SET 1 GL 3 {way} 9 28")
            self.knows(mode=way, v=9)
            self.client.say("srcp/stop/set", "now")
            self.has(f"100 INFO 1 GL 3 {way} 0 28")
            self.client.say("srcp/1/GL/3/set", "14")
            self.has(f"100 INFO 1 GL 3 {way} 14 28")
            self.throttle.order("SET 1 GL 3 2 0 28")  # a stop that tells no direction
            self.knows(mode=2)
            self.client.say("srcp/1/GL/3/set", '{"v": 50, "v_max": 100}')
            self.has(f"100 INFO 1 GL 3 {way} 50 100")
        self.assertEqual(self.errors(), [])

    def test_a_function_undoes_no_stop(self):
        """Whoever only wants a light leaves speed and direction as they are at the server, and not as it saw them."""
        self.throttle.order("SET 1 GL 3 0 9 28")
        self.knows(v=9)
        for number, stop in enumerate(("0 0 28", "2 0 28")):
            self.way.late = f"GL 3 {stop}".encode()
            self.throttle.order(f"SET 1 GL 3 {stop}")
            self.client.say("srcp/1/GL/3/set", json.dumps({"functions": {str(number): 1}}))
            self.has(f"100 INFO 1 GL 3 0 0 28 1 {number}")
            self.way.free()
            self.throttle.order("SET 1 GL 3 0 9 28")
            self.knows(v=9)

    def test_a_stop_of_all_that_no_driver_confirms_is_told(self):
        """The bus has had a driver, and it says nothing."""
        self.throttle.order("SET 1 POWER OFF no driver", "SET 1 POWER ON", "SET 1 GL 3 0 5 28 0 0")
        self.knows(v=5)
        self.client.client.publish("srcp/stop/set", "", qos=1)
        self.has("100 INFO 1 POWER ON stop all", "100 INFO 1 GL 3 0 0 28")
        until(lambda: self.errors(), "it is told")
        self.assertEqual([error["reply"] for error in self.errors()], ["1 POWER: not confirmed: trains may drive"])

    def test_what_is_not_done_is_told(self):
        other = self.throttle
        other.order("INIT 1 GL 4 N 1 28 2", "SET 1 LOCK GL 4 0")
        self.has("100 INFO 1 LOCK GL 4")
        wrong = [("1/GL/3", '{"functions": {"2": 1}}', "it has no function 2"), ("1/GL/4", "5", "414"),
                 ("1/GL/3", '{"functions": [1, 0, 1]}', "it has no function 2"), ("1/GL/4", '{"mode": 2}', "414"),
                 ("1/GL/3", '{"speed": 5}', "no such member: speed"), ("1/GL/3", "{}", "nothing is wanted"),
                 ("1/GL/3", '{"functions": "01"}', "functions is no list"),
                 ("1/GL/99", "5", "416"), ("1/GA/9/1", "1", "416"), ("9/POWER", "ON", "412"),
                 *((place, "1", "no such topic") for place in ("x", "1/GL/3/functions/1", "1/GL/x"))]
        for place, text, reply in wrong:
            count = len(self.errors())
            self.client.say(f"srcp/{place}/set", text)
            until(lambda: len(self.errors()) > count, f"{place} {text}")
            self.assertEqual(self.errors()[-1] | {"reply": ""},
                             {"topic": f"srcp/{place}", "payload": text, "reply": ""})
            self.assertTrue(self.errors()[-1]["reply"].startswith(reply), self.errors()[-1])
        self.client.say("srcp/1/FB/9/set", "0", retain=True)
        self.bridge.end()
        self.start()
        until(lambda: self.errors()[-1]["reply"] == "retained", "a command of a time that is over")
