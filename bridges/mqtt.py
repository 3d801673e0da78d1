#!/usr/bin/env python3
"""Shows the registry at an MQTT broker, one retained message for each row, and takes commands from topics with /set.

PREFIX is `srcp` if not told otherwise. One value is a plain word, several are a JSON object:

  PREFIX/online                offline while this program, or the server, is away (last will)
  PREFIX/1/POWER               ON or OFF; its text, if there is one, at PREFIX/1/POWER/text
  PREFIX/1/GL/3                {"mode": 1, "v": 40, "v_max": 126, "functions": [1, 0]}
  PREFIX/1/GL/3/is             {"protocol": "N", "version": 1, "steps": 126, "functions": 2}
  PREFIX/1/GL/3/lock           {"seconds": 0, "session": 7}; so PREFIX/1/GA/5/lock
  PREFIX/1/GA/5/0, ../1        0 or 1, port by port; which was put to last at PREFIX/1/GA/5/position
  PREFIX/1/GA/5/is             N
  PREFIX/1/FB/7                0 or 1
  PREFIX/0/SESSION/4           COMMAND or INFO

To PREFIX/stop/set goes anything: all locomotives make an emergency stop. To PREFIX/1/POWER/set, 1/FB/7/set and
1/GA/5/1/set go ON, OFF, 1 or 0; to 1/GA/5/position/set the port; to 1/GL/3/set a speed, or any of the members above as
JSON (`functions` as a list, or as {"2": 1}), and what is left out stays; {"mode": 2} is an emergency stop. To
1/GL/3/is/set go the words of an INIT (`N 1 126 5`), and nothing for TERM. A command that came before a stop is refused
after it. What is not carried out is told at PREFIX/error. Retained commands are not carried out.
"""
import argparse
import asyncio
import json

from srcp_bridges.limits import BROKER_LOOK, LONGEST_PAYLOAD, LOOKED_AT, READING
from srcp_bridges.page.broker import check, connect, matches, paho, publish
from srcp_bridges.page.orders import TopicQueue
from srcp_bridges.page.topics import announced, device_of, node, shown, stop_button
from srcp_bridges.program import PORT, Wrong, arguments, names, run, say
from srcp_bridges.srcp.mirrors import Mirror
from srcp_bridges.srcp.replies import Code, Refused
from srcp_bridges.srcp.rows import Change, Device, keys_of


class Bridge:
    """`wanted` has what the broker is to show, `there` what it shows, as far as is known; both by topic.

    `late` has the topics that the broker was too slow to take: they are shown in their last state.
    """

    def __init__(self, asked: argparse.Namespace):
        self.asked = asked
        self.prefix = asked.prefix.strip("/") + "/"
        self.wanted: dict[str, str] = {}
        self.there: dict[str, str] = {}
        self.node = node(self.prefix)
        self.names = names(asked.names)
        self.other: str | None = None  # the topic by which another bridge tells that it is there
        self.client: paho.Client
        self.following = False
        self.late: set[str] = set()
        self.behind = asyncio.Event()
        self.lost: asyncio.Event
        self.marked: asyncio.Event
        self.mirror = Mirror(asked, self.on_change, lambda anew: self.online(), self.online)
        self.orders = TopicQueue(self.mirror, self.refused)
        if asked.home_assistant:
            self.announce(*stop_button(self.prefix))

    def on_change(self, change: Change) -> None:
        for place, payload in shown(self.mirror.rows, change.key).items():
            self.want(self.prefix + place, payload, place.endswith(("/position", "/text")))
        if self.asked.home_assistant and (found := announced(self.mirror.rows, change.key, self.prefix, self.names)):
            self.announce(*found)

    def announce(self, topic: str, payload: str | None) -> None:
        """Has Home Assistant know an entity, or, without a payload, forget it."""
        self.want(f"{self.asked.home_assistant}/{topic}/config", payload, True)

    def want(self, topic: str, payload: str | None, once: bool) -> None:
        """Has the broker show a payload; `once`: not again, if the broker shows the payload."""
        if payload:
            self.wanted[topic] = payload
        else:
            self.wanted.pop(topic, None)
        if not once or self.there.get(topic) != self.wanted.get(topic):
            self.put(topic)

    def put(self, topic: str) -> None:
        """Has the broker show the wanted payload at a topic; an empty message takes out a retained payload."""
        payload = self.wanted.get(topic, "")
        self.late.discard(topic)
        if not self.following or not payload and topic not in self.there:
            return
        if not publish(self.client, topic, payload):
            self.late.add(topic)
            self.behind.set()
            return
        self.there[topic] = payload
        if not payload:
            del self.there[topic]

    async def catch_up(self) -> None:
        while True:
            await self.behind.wait()
            self.behind.clear()
            await asyncio.sleep(BROKER_LOOK)
            for topic in list(self.late):
                self.put(topic)

    def online(self) -> None:
        self.want(self.prefix + "online", "online" if self.mirror.here else "offline", False)

    async def clear(self) -> None:
        """Takes out what the broker shows and the registry has not."""
        while stale := [topic for topic in self.there if topic not in self.wanted]:
            try:
                for topic in stale:
                    await self.look_at(topic)
            except OSError:
                pass  # the server has gone meanwhile
            await asyncio.sleep(BROKER_LOOK)

    async def look_at(self, topic: str) -> None:
        """Takes out payloads of no row. If the device is not listed (yet), the server is asked."""
        device = device_of(self.place(topic))
        assert device  # `found` took in no other
        if any(key in self.mirror.rows for key in keys_of(device)):
            self.put(topic)
        elif self.mirror.here and not await self.mirror.has(device):
            if await self.owns(device):
                self.put(topic)
            else:
                self.there.pop(topic, None)  # another layout shows it

    async def owns(self, device: Device) -> bool:
        """Returns whether the layout has devices of this group on the bus: then the server knows the address 1."""
        bus, group, _, is_lock = device
        words = "POWER" if group == "POWER" else f"LOCK {group} 1" if is_lock else f"{group} 1" + " 0" * (group == "GA")
        try:
            return bool(await self.mirror.ask(f"GET {bus} {words}"))
        except Refused as reply:
            return reply.code == Code.NO_DATA

    def place(self, topic: str) -> str:
        """Returns a topic without the prefix; of an announcement, the name of the device."""
        return topic.removeprefix(self.prefix) if topic.startswith(self.prefix) else topic.split("/")[-2]

    def refused(self, place: str, text: str, fault: Exception | str) -> None:
        if self.following:
            words = {"topic": f"{self.prefix}{place}", "payload": text, "reply": str(fault)}
            cut = {name: word[:LONGEST_PAYLOAD] for name, word in words.items()}
            self.client.publish(self.prefix + "error", json.dumps(cut))

    def heard(self, topic: str, payload: bytes, retained: bool) -> None:
        if not any(matches(levels, topic) for levels, _ in self.all_topics()):
            return  # nobody asked for it
        text = payload[:LOOKED_AT].decode("utf-8", "replace").strip()
        if topic == self.prefix + "mark" and not retained:
            self.marked.set()
        elif topic == self.prefix + "online":
            if text == "offline" and self.mirror.here:
                self.online()  # it was the last will of a connection before this one
        elif retained and not self.following:
            self.found(topic, text)
        elif topic.startswith(self.prefix) and topic.endswith("/set"):
            place = self.place(topic).removesuffix("/set")
            if retained or len(payload) > LONGEST_PAYLOAD:
                self.refused(place, text, "retained" if retained else "too long")
            else:
                self.orders.on_message(place, text)

    def found(self, topic: str, text: str) -> None:
        """Takes in the broker's retained messages: those of this bridge, as it seems, and another bridge's mark."""
        if topic.endswith("/online") and text in ("online", "offline"):
            self.other = topic
        elif device_of(self.place(topic)):
            self.there[topic] = text

    async def follow(self) -> None:
        """A connection to the broker: reads the topics shown, and has the wanted payloads shown, until the connection
        is lost."""
        joined = asyncio.Event()
        self.lost = asyncio.Event()
        self.marked = asyncio.Event()
        self.there = {}
        self.other = None
        words = self.node + "-bridge", self.prefix + "online", self.heard, joined, self.lost
        client = self.client = await asyncio.to_thread(connect, self.asked, *words, asyncio.get_running_loop())
        tasks: list[asyncio.Task[None]] = []
        try:
            await self.comes(joined)
            client.subscribe(self.all_topics())
            client.publish(self.prefix + "mark", "read")
            await self.comes(self.marked)
            if self.other:
                raise Wrong(f"{self.other} is of another bridge: choose a prefix neither below nor above its own")
            self.begin(client)
            tasks = [asyncio.create_task(self.clear()), asyncio.create_task(self.catch_up())]
            await self.lost.wait()
            raise ConnectionError("closed the connection")
        finally:
            for task in tasks:
                task.cancel()
            if self.following and not self.lost.is_set():  # this program is ended
                client.publish(self.prefix + "online", "offline", qos=1, retain=True).wait_for_publish(1)
            self.following = False
            client.disconnect()
            await asyncio.to_thread(client.loop_stop)

    def all_topics(self) -> list[tuple[str, int]]:
        """Returns what is read as a connection begins; by QoS 0, since of 1 mosquitto sends 1,000 messages at most."""
        levels = self.prefix.split("/")[:-1]
        node = f"+/{self.node}/+/config"
        above = ["/".join([*levels[:count], "online"]) for count in range(1, len(levels))]
        discovery = [f"{self.asked.home_assistant}/{node}"] if self.asked.home_assistant else []
        return [(topic, 0) for topic in (self.prefix + "#", *above, *discovery)]

    async def comes(self, event: asyncio.Event) -> None:
        """Waits for what has to come from the broker."""
        waits = [asyncio.create_task(each.wait()) for each in (event, self.lost)]
        await asyncio.wait(waits, timeout=READING, return_when=asyncio.FIRST_COMPLETED)
        for each in waits:
            each.cancel()
        if not event.is_set():
            raise ConnectionError("closed or refused the connection, or does not answer")

    def begin(self, client: "paho.Client") -> None:
        """The topics shown are known: has the broker show the wanted payloads, and takes commands from now on."""
        say(f"broker: joined; it had {len(self.there)} topics")
        client.unsubscribe([topic for topic, _ in self.all_topics()])
        sets = [f"{self.prefix}{'+/' * levels}set" for levels in range(1, 7)]  # more than there are, to tell of errors
        client.subscribe([(topic, 1) for topic in [*sets, self.prefix + "online"]])
        self.following = True
        self.late.clear()
        for topic, payload in list(self.wanted.items()):
            if self.there.get(topic) != payload:
                self.put(topic)
        self.online()

    async def keep_broker(self) -> None:
        while True:
            try:
                await self.follow()
            except (OSError, ValueError) as fault:
                say(f"broker: {fault}")
            await asyncio.sleep(self.asked.again)

    async def run(self) -> None:
        await asyncio.gather(self.mirror.run(), self.keep_broker(), self.orders.run())


async def bridge(asked: argparse.Namespace) -> None:
    check(asked)
    if not asked.prefix.strip("/") or set("+#") & set(asked.prefix):
        raise Wrong(f"--prefix {asked.prefix}: no topic begins so")
    await Bridge(asked).run()


def main() -> None:
    words = arguments(__doc__)
    words.add_argument("--broker", default="127.0.0.1", metavar="HOST", help="where the broker is (%(default)s)")
    words.add_argument("--broker-port", type=PORT, default=1883, metavar="PORT", help="its port (%(default)s)")
    words.add_argument("--prefix", default="srcp", help="what all topics begin with (%(default)s)")
    words.add_argument("--home-assistant", nargs="?", const="homeassistant", metavar="PREFIX",
                       help="announce all devices to Home Assistant, below its PREFIX (homeassistant)")
    words.add_argument("--names", metavar="FILE", help="names of devices, for Home Assistant")
    words.add_argument("--user", help="its password is taken from the environment: MQTT_PASSWORD")
    words.add_argument("--tls", action="store_true", help="encrypt, and trust the authorities that this machine trusts")
    words.add_argument("--cafile", metavar="FILE", help="encrypt, and trust the authorities in FILE (PEM) alone")
    run(bridge(words.parse_args()))


if __name__ == "__main__":
    main()
