"""Topics of MQTT: at which of them rows are shown and how, and which commands their payloads stand for."""
import json
import re
from collections.abc import Mapping
from typing import NamedTuple

from srcp_bridges.limits import MOST_PORTS, PULSE
from srcp_bridges.srcp.rows import Device, Key, Power, Rows, position
from srcp_bridges.srcp.stop import Locomotive

NUMBER = "(0|[1-9][0-9]{0,8})"
FORMS = [re.compile(form) for form in (
    f"{NUMBER}/(POWER)(?:/text)?()()", f"{NUMBER}/(GL|FB|SESSION)/{NUMBER}()", f"{NUMBER}/(GL|GA)/{NUMBER}/(is|lock)",
    f"{NUMBER}/(GA)/{NUMBER}/([0-7]|position)", f"{NUMBER}_(POWER|GL|GA|FB)_{NUMBER}()")]
COMMAND = re.compile(f"{NUMBER}/(POWER|FB/{NUMBER}|(GL|GA)/{NUMBER}/is|GA/{NUMBER}/([0-7]|position))")
# The speed in hundredths of the top, rounded up: what drives is not shown at 0.
SHARE = "{{ -(-100 * value_json.v // value_json.v_max) if value_json.v_max else value_json.v }}"
BITS = {"ON": "1", "OFF": "0", "TRUE": "1", "FALSE": "0"}

Payload = str | None  # None: there is nothing any more


class Wanted(NamedTuple):
    """The wanted state of a locomotive. None: as before."""
    mode: int | None = None
    v: int | None = None
    v_max: int | None = None
    functions: dict[int, int] = {}


def shown(rows: Rows, key: Key) -> dict[str, Payload]:
    """Returns the topics of a row, and their payloads, which are None for a row that is gone."""
    bus, group, address, part = key
    row = rows.get(key)
    at = f"{bus}/{group}" + f"/{address}" * (group != "POWER")
    if group == "POWER":
        power = row if isinstance(row, Power) else None
        return {at: power and ("ON" if power.on else "OFF"), f"{at}/text": power and power.text}
    members = row and {name: value for name, value in row._asdict().items() if name != "stamp"}
    value = row and (str(row[1]) if len(row) == 2 else json.dumps(members))
    if isinstance(part, int):
        put = position(rows, bus, address)
        return {f"{at}/{part}": value, f"{at}/position": None if put is None else str(put)}
    return {at if part == "does" or group == "SESSION" else f"{at}/{part}": value}


def node(prefix: str) -> str:
    """Returns the name under which Home Assistant and the broker know the bridge with this prefix."""
    return prefix.strip("/").replace("/", "_")


def entity(rows: Rows, key: Key, at: str) -> tuple[str, dict[str, object]] | None:
    """Returns the kind of the entity by which Home Assistant shows the device of a row, and its topics, or None."""
    bus, group, address, part = key
    if group == "POWER":
        return "switch", {"state_topic": at, "command_topic": f"{at}/set"}
    if group == "FB":
        return "binary_sensor", {"state_topic": at, "payload_on": "1", "payload_off": "0"}
    if (group, part) == ("GL", "does"):
        return "number", {"state_topic": at, "value_template": SHARE, "command_topic": f"{at}/set",
                          "command_template": '{"v": {{ value | int }}, "v_max": 100}', "min": 0, "max": 100,
                          "unit_of_measurement": "%"}
    if group == "GA" and part != "lock":
        ports = [str(port) for port in range(MOST_PORTS) if (bus, group, address, port) in rows]
        return "select", {"state_topic": f"{at}/position", "command_topic": f"{at}/position/set", "options": ports}
    return None

def common(own: str, name: str, prefix: str) -> dict[str, object]:
    """Returns the part of each announcement to Home Assistant: the name, the sender, and whether the sender is there.
    """
    return {"name": name, "unique_id": f"{node(prefix)}_{own}", "availability_topic": f"{prefix}online",
            "device": {"identifiers": [node(prefix)], "name": "Layout"}}


def stop_button(prefix: str) -> tuple[str, str]:
    """Returns the topic, and the payload, by which Home Assistant learns of a button STOP ALL."""
    words = {"command_topic": f"{prefix}stop/set", "payload_press": "now", "icon": "mdi:alert-octagon"}
    return f"button/{node(prefix)}/stop", json.dumps(words | common("stop", "STOP ALL", prefix))


def announced(rows: Rows, key: Key, prefix: str, names: Mapping[str, str]) -> tuple[str, Payload] | None:
    """Returns the topic, and the payload, by which Home Assistant learns of the device of a row, or None."""
    bus, group, address, _ = key
    at = f"{bus}/{group}" + f"/{address}" * (group != "POWER")
    if not (found := entity(rows, key, prefix + at)):
        return None
    kind, words = found
    own = f"{bus}_{group}_{address}"
    name = at.replace("/", " ")
    is_there = words["options"] if kind == "select" else key in rows
    announcement = json.dumps(words | common(own, names.get(name, name), prefix)) if is_there else None
    return f"{kind}/{node(prefix)}/{own}", announcement


def device_of(place: str) -> Device | None:
    """Returns the device that a topic of our form (1/GL/3/is; 1_GL_3 of an announcement) is of, or None."""
    for form in FORMS:
        if match := form.fullmatch(place):
            bus, group, address, part = match.groups()
            return int(bus), group, int(address or 0), part == "lock"
    return None


def locomotive_of(place: str) -> Locomotive | None:
    """Returns bus and address, if this is the topic at which a locomotive is driven; else None."""
    device = device_of(place)
    if device is None:
        return None
    bus, _, address, _ = device
    return (bus, address) if place == f"{bus}/GL/{address}" else None


def wanted_of(text: str) -> Wanted:
    """Returns the state of a locomotive wanted by a payload: a speed, or members of the row as JSON."""
    given = json.loads(text)
    given = given if isinstance(given, dict) else {"v": given}
    if unknown := given.keys() - set(Wanted._fields):
        raise ValueError(f"no such member: {', '.join(unknown)}")
    if not (functions := given.pop("functions", {})) and not given:
        raise ValueError("nothing is wanted")
    if not isinstance(functions, (list, dict)):  # a text would be a list of its letters
        raise ValueError("functions is no list")
    if wrong := [name for name, value in given.items() if type(value) not in (int, float)]:  # True is an int too
        raise ValueError(f"{wrong[0]} is no number")
    numbered = functions.items() if isinstance(functions, dict) else enumerate(functions)
    words = {name: int(value) for name, value in given.items()}
    return Wanted(**words, functions={int(number): int(value) for number, value in numbered})


def commands_for(rows: Rows, place: str, text: str) -> list[str]:
    """Returns the commands of SRCP that a payload stands for; `place` is the topic without the prefix and /set."""
    if not COMMAND.fullmatch(place):
        raise ValueError("no such topic")
    bus, group, address, part = [*place.split("/"), "", ""][:4]
    device = f"{bus} {group} {address}"
    bit = BITS.get(text.upper(), text)
    if group == "POWER":
        return [f"SET {bus} POWER {text}"]
    if group == "FB":
        return [f"SET {device} {bit}"]
    if part == "is":
        return [f"INIT {device} {text}" if text else f"TERM {device}"]
    if part == "position":
        others = [port for port in range(MOST_PORTS) if port != int(text)]
        ports = {port: rows.get((int(bus), "GA", int(address), port)) for port in others}
        off = [f"SET {device} {port} 0 -1" for port, row in ports.items() if row and row.value]
        return [*off, f"SET {device} {int(text)} 1 {PULSE}"]
    return [f"SET {device} {part} {bit}" + " -1" * (len(bit.split()) == 1)]
