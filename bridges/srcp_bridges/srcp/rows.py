"""The rows of a registry: how a line tells them, and how an accessory lies."""
from collections.abc import Callable, Iterable
from typing import TYPE_CHECKING, Literal, NamedTuple, overload

from srcp_bridges.limits import MOST_PORTS

Key = tuple[int, str, int, str | int]  # bus, group, address, part
Device = tuple[int, str, int, bool]  # bus, group, address, and whether it is a lock


class Peer(NamedTuple):
    stamp: float
    mode: str


class Power(NamedTuple):
    stamp: float
    on: bool
    text: str


class Locomotive(NamedTuple):
    stamp: float
    protocol: str
    version: int
    steps: int
    functions: int


class Drive(NamedTuple):
    stamp: float
    mode: int
    v: int
    v_max: int
    functions: tuple[int, ...]


class Accessory(NamedTuple):
    stamp: float
    protocol: str


class Port(NamedTuple):
    stamp: float
    value: int


class Lock(NamedTuple):
    stamp: float
    seconds: int
    session: int


Sensor = Port
Row = Peer | Power | Locomotive | Drive | Accessory | Port | Lock
Reply = Row | str | None  # to a command: the row that GET tells, or the rest of a 200
PowerKey = tuple[int, Literal["POWER"], int, Literal["does"]]
LockKey = tuple[int, str, int, Literal["lock"]]


class Change(NamedTuple):
    """`row` None: the row is gone. `stamp` None: no one told the moment."""
    stamp: float | None
    key: Key
    row: Row | None
    before: Row | None


KINDS: dict[tuple[str, str | int], Callable[..., Row]] = {
    ("SESSION", "is"): Peer, ("GL", "is"): Locomotive, ("GA", "is"): Accessory, ("FB", "does"): Sensor}
BACKWARD = 0
FORWARD = 1
EMERGENCY_STOP = 2
# Texts of POWER. A STOP ALL is told by its text alone, with the power as it is; its driver answers once all stood.
STOP_ALL = "stop all"
ALL_STOOD = "all stood"
NO_STATION = "no station"
NO_DRIVER = "no driver"
UNCONFIRMED = "does not confirm:"  # and the addresses of locomotives
CONFIRMED = "confirms again"
THROWN = "thrown by hand:"  # and the address of a locked turnout, and the port to which it leads now
OF_DRIVERS = (ALL_STOOD, NO_STATION, NO_DRIVER, UNCONFIRMED, CONFIRMED, THROWN, "server was away", "station was reset",
              "station says off", "programming", "overload")
NOT_SRCP = (ValueError, KeyError, IndexError, TypeError)  # what reading a line raises that the server does not send


def is_of_driver(text: str) -> bool:
    """Returns whether a driver alone sets this text of POWER."""
    return text.startswith(OF_DRIVERS)


def switches(power: Power) -> bool:
    """Returns whether a row of power may switch the power on: not if only the text was to be told."""
    return power.text not in (STOP_ALL, ALL_STOOD, CONFIRMED) and not power.text.startswith((UNCONFIRMED, THROWN))


def may_drive(power: Power | None) -> bool:
    """Returns whether trains may drive after a STOP ALL, as the driver of a bus tells by the power. A text set by
    others does not tell of the track: the driver may sleep."""
    if not power or power.text == ALL_STOOD:
        return False
    is_told = is_of_driver(power.text) and not power.text.startswith((NO_STATION, NO_DRIVER, UNCONFIRMED))
    return power.on or not is_told


def drive_told(reply: Reply) -> Drive:
    """Returns how a locomotive drives, as a reply to GET tells. Raises ConnectionError if the reply tells no such row.
    """
    if not isinstance(reply, Drive):
        raise ConnectionError("does not speak SRCP")
    return reply


def parse(line: str) -> tuple[Key, Row | None]:
    """Returns the key (bus, group, address, part) and the row of an information line; None for the row of what is gone.

    The part is `is`, `does`, `lock`, or the number of an accessory's port.
    """
    moment, code, _, bus, group, *words = line.split(" ")
    stamp = float(moment)
    row = None
    part: str | int = "does" if code == "100" else "is"
    if group == "LOCK":
        group = words.pop(0)
        part = "lock"
    address = 0 if group == "POWER" else int(words.pop(0))
    if code != "102":
        if group == "GA" and part == "does":
            part = int(words.pop(0))
        row = row_of(group, part, stamp, words)
    return (int(bus), group, address, part), row


def row_of(group: str, part: str | int, stamp: float, words: list[str]) -> Row:
    """Returns the row that the rest of a line tells."""
    if group == "POWER":
        return Power(stamp, words[0] == "ON", " ".join(words[1:]))
    if part == "lock":
        return Lock(stamp, int(words[0]), int(words[1]))
    if group == "GL" and part == "does":
        mode, v, v_max, *functions = map(int, words)
        return Drive(stamp, mode, v, v_max, tuple(functions))
    if isinstance(part, int):
        return Port(stamp, int(words[0]))
    return KINDS[group, part](stamp, *(int(word) if word.isdecimal() else word for word in words))


class Rows(dict[Key, Row]):
    """Rows by their keys. `put` has, by (bus, address), when a port of that accessory was last set to 1, and which."""

    if TYPE_CHECKING:  # of which kind the row of a key is, as `row_of` makes it
        @overload  # type: ignore[override]  # dict's has a default too
        def get(self, key: PowerKey) -> Power | None: ...
        @overload
        def get(self, key: tuple[int, Literal["GL"], int, Literal["is"]]) -> Locomotive | None: ...
        @overload
        def get(self, key: tuple[int, Literal["GL"], int, Literal["does"]]) -> Drive | None: ...
        @overload
        def get(self, key: tuple[int, Literal["GA"], int, Literal["is"]]) -> Accessory | None: ...
        @overload
        def get(self, key: tuple[int, Literal["GA"], int, int]) -> Port | None: ...
        @overload
        def get(self, key: tuple[int, Literal["FB"], int, Literal["does"]]) -> Sensor | None: ...
        @overload
        def get(self, key: LockKey) -> Lock | None: ...
        @overload
        def get(self, key: Key) -> Row | None: ...
        def get(self, key: Key) -> Row | None: ...

    def __init__(self) -> None:
        super().__init__()
        self.put: dict[tuple[int, int], tuple[float, int]] = {}

    def enter(self, key: Key, row: Row, listed_again: bool = False) -> Row | None:
        """Puts a row in; returns the row before."""
        before = self.get(key)
        self[key] = row
        bus, group, address, part = key
        if group == "GA" and isinstance(part, int) and isinstance(row, Port):
            was_off = isinstance(before, Port) and not before.value
            unseen = listed_again and before and was_off and before.stamp < row.stamp  # on and off again
            if (row.value or unseen) and row.stamp >= self.put.get((bus, address), (0.0,))[0]:
                self.put[bus, address] = row.stamp, part
        return before

    def remove(self, key: Key) -> Row | None:
        """Takes a row out; returns it."""
        if key[1::2] == ("GA", "is"):
            self.put.pop((key[0], key[2]), None)
        return self.pop(key, None)


def position(rows: Rows, bus: int, address: int) -> int | None:
    """Returns the port that an accessory was put to last: the one that was last set to 1.

    Who was not there when it was set takes the port that is 1, else the one that changed last, else None.
    """
    if put := getattr(rows, "put", {}).get((bus, address)):
        return put[1]
    made = rows.get((bus, "GA", address, "is"))
    ports = {port: row for port in range(MOST_PORTS) if made and (row := rows.get((bus, "GA", address, port)))}
    on = [port for port in ports if ports[port].value]
    moved = on if len(on) == 1 else [port for port in ports if made and ports[port].stamp > made.stamp]
    return max(moved, key=lambda port: ports[port].stamp) if moved else None


def devices(keys: Iterable[Key]) -> list[Device]:
    """Returns the devices of these keys: (bus, group, address, whether a lock)."""
    return list(dict.fromkeys((*key[:3], key[3] == "lock") for key in keys))


def keys_of(device: Device) -> list[Key]:
    """Returns the keys that the rows of a device can have."""
    return [(*device[:3], part) for part in (["lock"] if device[3] else ["is", "does", *range(MOST_PORTS)])]
