"""mqtt.py at a broker that is not its own: topics and prefixes of others, long payloads, TLS, and wrong words."""
import json
import os
import shutil
import subprocess
import unittest
from pathlib import Path

from .common import WAIT, Case, new_folder, until
from .test_mqtt import IS_THERE, Broker, MqttCase, retained


def memory(pid):
    """Returns the most memory that a process has had, in KB."""
    status = Path(f"/proc/{pid}/status").read_text()
    return int(status.partition("VmHWM:")[2].split()[0])


class MqttBesideOthers(MqttCase):
    def test_topics_of_others(self):
        """What the layout cannot have is another's, and stays; what it could have, and has not, goes."""
        others = ["srcp/no/such", "srcp/1/GL/3/speed", "srcp/1/GL/03", "srcp/2/GL/7", "srcp/7/FB/1", "srcp/7/POWER",
                  "srcp/1/POWER/why", "srcp/1/GA/5/8", "srcp/1/GA/5", "srcp/club/1/POWER", "srcp/0/SESSION/1/is"]
        stale = ["srcp/1/GL/77", "srcp/1/GL/77/lock", "srcp/1/GA/5/7", "srcp/1/FB/999", "srcp/0/SESSION/999999",
                 "srcp/2/GA/8/position"]
        self.assertEqual(self.bridge.end(), 0)
        for topic in others + stale:
            self.client.say(topic, "kept", retain=True)
        self.start()
        until(lambda: not set(stale) & retained(self.broker.port).keys(), "what is stale goes")
        self.assertEqual([topic for topic in others if topic not in retained(self.broker.port)], [])

    def refused(self, *words):
        """Returns the lines of a program whose words are wrong."""
        ended = self.starts("mqtt.py", "--broker-port", self.broker.port, *words)
        self.assertEqual(ended.process.wait(WAIT), 2, ended.told())
        return ended.told().splitlines()

    def test_prefixes_below_and_above(self):
        """Two bridges whose topics are mixed would answer each other's commands."""
        inner = self.starts("mqtt.py", "--broker-port", self.broker.port, "--prefix", "club/srcp")
        until(lambda: "broker: joined" in inner.told(), "a prefix beside it")
        until(lambda: "club/srcp/1/GL/3" in retained(self.broker.port, "#"), "its rows")
        before = retained(self.broker.port, "#")
        for prefix, mark in (("srcp/club/attic", "srcp/online"), ("club", "club/srcp/online")):
            self.assertTrue(self.refused("--prefix", prefix)[-1].startswith(f"-- {mark} is of another bridge"))
        inner.end()
        self.assertTrue(self.refused("--prefix", "club")[-1].startswith("-- club/srcp/online is of another bridge"))
        self.client.say("club/srcp/online", "", retain=True)
        outer = self.starts("mqtt.py", "--broker-port", self.broker.port, "--prefix", "club")
        until(lambda: "broker: joined" in outer.told(), "the mark of one that is gone for good is taken out")
        outer.end()
        self.equal("nothing is changed")
        lost = before.keys() - retained(self.broker.port, "#").keys()
        self.assertEqual({topic for topic in lost if "/SESSION/" not in topic}, {"club/srcp/online"})

    def test_wrong_words(self):
        broken = Path(new_folder(), "names.toml")
        broken.write_text('"1 GL 3" = ')
        for words in (("--prefix", "srcp/+"), ("--prefix", "/"), ("--names", "/nix"), ("--names", broken),
                      ("--cafile", "/nix"), ("--cafile", broken), ("--broker-port", "99999")):
            self.assertRegex("\n".join(self.refused(*words)), f"^-- (argument )?{words[0]}[^\n]*$")

    def test_a_long_payload(self):
        """It is refused and told, and takes memory for four times its length at most."""
        before = memory(self.bridge.pid)
        self.client.say("srcp/1/GL/3/set", "9" * 20_000_000)
        until(lambda: self.client.came.get("srcp/error"), "it is refused")
        self.assertEqual(json.loads(self.client.came["srcp/error"][0])["reply"], "too long")
        self.assertLess(memory(self.bridge.pid), before + 4 * 20_000)
        self.equal("and it goes on")


class MqttWithLimits(MqttCase):
    broker_words, words = ("message_size_limit 20000",), ("--home-assistant",)

    def test_no_message_is_long(self):
        """The broker that README tells of drops what is long before `mqtt.py` reads it, and nothing of the bridge's."""
        self.throttle.order("INIT 1 GL 9 N 1 28 29", "SET 1 GL 9 1 9 28 " + " ".join("1" * 29), "TERM 1 LOCK GL 3")
        self.equal("the longest rows")
        self.client.say("srcp/1/GL/" + "3" * 15_000 + "/set", "\a" * 1000)
        until(lambda: self.client.came.get("srcp/error"), "the longest error")
        before = memory(self.bridge.pid)
        self.client.say("srcp/1/GL/3/set", "1" * 50_000_000)
        self.client.say("srcp/1/GL/3/set", "7")
        self.has("100 INFO 1 GL 3 1 7")
        self.assertEqual(len(self.client.came["srcp/error"]), 1)
        self.assertLess(memory(self.bridge.pid), before + 10_000)


@IS_THERE
@unittest.skipUnless(shutil.which("openssl"), "openssl is not installed")
class MqttWithTls(Case):
    program = "mqtt"

    def test_an_authority_of_ones_own(self):
        folder = new_folder()
        key, certificate = os.path.join(folder, "key"), os.path.join(folder, "certificate")
        subprocess.run(["openssl", "req", "-x509", "-newkey", "ec", "-pkeyopt", "ec_paramgen_curve:prime256v1",
                        "-nodes", "-keyout", key, "-out", certificate, "-subj", "/CN=broker",
                        "-addext", "subjectAltName=IP:127.0.0.1"], check=True, capture_output=True)
        broker = Broker(f"certfile {certificate}", f"keyfile {key}")
        self.addCleanup(broker.stop)
        for words, told in ((("--cafile", certificate), "broker: joined"), (("--tls",), "CERTIFICATE_VERIFY_FAILED")):
            bridge = self.starts("mqtt.py", "--broker-port", broker.port, *words)
            until(lambda: told in bridge.told(), told)
            bridge.end()
