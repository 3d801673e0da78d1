"""A connection to an MQTT broker by paho-mqtt. Its thread hands each message to the thread of asyncio."""
import argparse
import asyncio
import os
import ssl
import threading
from collections.abc import Callable
from typing import Any

try:
    import paho.mqtt.client as paho  # type: ignore[import]
except ImportError:
    paho = None  # type: ignore[assignment]

from srcp_bridges.limits import QUEUED
from srcp_bridges.program import Wrong

Heard = Callable[[str, bytes, bool], None]  # topic, payload, and whether the broker had retained it


def check(asked: argparse.Namespace) -> None:
    """Refuses words with which no broker can be reached."""
    if not paho:
        raise Wrong("mqtt.py needs paho-mqtt: apt install python3-paho-mqtt")
    try:
        trusted(asked)
    except OSError as fault:
        raise Wrong(f"--cafile {asked.cafile}: {fault}") from None


def trusted(asked: argparse.Namespace) -> ssl.SSLContext | None:
    """Returns what a broker's certificate is checked by; None if the connection is not encrypted."""
    return ssl.create_default_context(cafile=asked.cafile) if asked.tls or asked.cafile else None


def connect(asked: argparse.Namespace, name: str, will: str, heard: Heard, joined: asyncio.Event, lost: asyncio.Event,
            loop: asyncio.AbstractEventLoop) -> "paho.Client":
    """Connects a client, and waits until the broker is reached. `heard` is called with each message that comes; the
    events `joined` and `lost` are set. The topic `will` becomes `offline` if the connection is lost.
    """
    def came(client: "paho.Client", data: object, message: "paho.MQTTMessage") -> None:
        try:
            loop.call_soon_threadsafe(heard, message.topic, message.payload, message.retain)
        except UnicodeDecodeError:
            pass  # no topic of ours

    versions = getattr(paho, "CallbackAPIVersion", None)
    version: dict[str, Any] = {"callback_api_version": versions.VERSION1} if versions else {}
    client = paho.Client(client_id=name, clean_session=True, **version)
    client.will_set(will, "offline", qos=1, retain=True)
    if asked.user:
        client.username_pw_set(asked.user, os.environ.get("MQTT_PASSWORD"))
    if context := trusted(asked):
        client.tls_set_context(context)
    client.max_queued_messages_set(QUEUED)
    client.on_message = came
    client.on_connect = lambda _, __, ___, code: loop.call_soon_threadsafe(lost.set if code else joined.set)
    client.on_disconnect = lambda *_: loop.call_soon_threadsafe(lost.set)
    threading.excepthook = lambda _: loop.call_soon_threadsafe(lost.set)  # some packets end paho's thread
    client.connect(asked.broker, asked.broker_port, keepalive=10)
    client.loop_start()
    return client


def publish(client: "paho.Client", topic: str, payload: str | None) -> bool:
    """Has the broker retain a payload. Returns whether the message could be queued."""
    return client.publish(topic, payload, qos=1, retain=True).rc != paho.MQTT_ERR_QUEUE_SIZE


def matches(levels: str, topic: str) -> bool:
    return paho.topic_matches_sub(levels, topic)
