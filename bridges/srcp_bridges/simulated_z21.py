"""A Z21 without hardware: what it knows, and its port."""
import socket
import threading
import time
from collections.abc import Callable
from functools import partial

from srcp_bridges.simulated import Acts, Simulated, Trouble

STEPS = {0: (14, 0), 2: (28, 2), 3: (126, 4)}  # by the format of a command: how many, and the format of its reports
STOPS_ALL = 1
NO_POWER = 2
SHORT = 4
PROGRAMMING = 32
UNLOCKED, LOCKED = 0, 1  # whether it drives and switches by the network
# Flags of who is told of what.
TO_ALL = 1  # power and turnouts
TO_PANELS = 2  # sensors
TO_HANDS = 0x10000  # locomotives
LONG_ON = 30.0  # seconds after which a turnout's coil burns
SPEEDS = {28: [0, -1, *(2 * code - 3 for code in range(2, 16)), 0, -1, *(2 * code - 2 for code in range(2, 16))]}


class Z21(Simulated):
    """What a Z21 knows, and its port. `log` has what has changed the track, with the moments.

    `commanded` is when the last command came that was no question; `looked` counts questions for locomotives since.
    `hand`, `throw`, `switch`, `stop`, `program` and
    `overload` are what happens at the station itself. It keeps speeds while its power is off, and while it stops all.
    Who says nothing for `patience` seconds is told nothing more. While it is `deaf` it hears questions alone. One that
    is `locked` hears all but what drives and switches, as a z21start without its code. `decoder` has the CVs of the one
    that is programmed; None: its track has a short circuit. `asked` counts questions for its status. `loses`, `doubles`
    and `shuffles` are of datagrams, to it and from it. While it is `stalled` it hangs.
    """

    def __init__(self, port: int, show: Callable[[str], None] = lambda text: None, loses: float = 0.1,
                 doubles: float = 0.0, shuffles: float = 0.0, locked: bool = False, seed: int = 1):
        super().__init__(show, Trouble(seed, loses, 0, doubles, shuffles))
        self.port = port
        self.patience = 60.0
        self.stalled = False
        self.deaf = False
        self.locked = locked
        self.sensors: set[int] = set()
        self.open()

    def open(self) -> None:
        """Its power comes."""
        self.reset()
        self.plug()

    def plug(self) -> None:
        """Its cable is on. What it knows it has kept."""
        self.socket = socket.socket(socket.AF_INET, socket.SOCK_DGRAM)
        self.socket.bind(("127.0.0.1", self.port))
        self.running = True
        self.thread = threading.Thread(target=self.run, daemon=True)
        self.thread.start()

    def reset(self) -> None:
        """Knows what it knows when its power comes. The track's is on."""
        self.cabs, self.functions, self.turnouts = {}, {}, {}
        self.turn(0)
        self.log = []
        self.commanded, self.looked, self.asked = 0.0, 0, 0
        self.steps: dict[int, int] = {}
        self.clients: dict[tuple, int] = {}
        self.heard: dict[tuple, float] = {}
        self.outputs: dict[tuple[int, int], float] = {}
        self.pulses: dict[tuple[int, int], float] = {}
        self.last: dict[tuple | str, str] = {}
        self.taken: set[int] = set()  # locomotives that a hand drove last: reports of them have three bits more

    restart = reset

    def unplug(self) -> None:
        """Its cable is off."""
        self.running = False
        self.thread.join()
        self.socket.close()

    @property
    def power(self) -> int:
        return int(not self.status)

    def turn(self, status: int) -> None:
        self.status = status
        self.look()

    def run(self) -> None:
        while self.running:
            self.look_at_outputs()
            self.trouble.come_late()
            self.socket.settimeout(0.005 if self.trouble.late else 0.05)
            try:
                datagram, client = self.socket.recvfrom(2000)
            except (TimeoutError, ConnectionError):  # who was told something is gone
                continue
            if not self.stalled:
                self.trouble.passes(datagram, partial(self.hears, client))

    def look_at_outputs(self) -> None:
        for output in [output for output, since in self.outputs.items() if since < time.monotonic() - LONG_ON]:
            self.fault(f"output {output} is left on")
            del self.outputs[output]

    def hears(self, client: tuple, datagram: bytes) -> None:
        self.client = client
        self.heard[client] = time.monotonic()
        while datagram:
            length = int.from_bytes(datagram[:2], "little")
            if not 4 <= length <= len(datagram):
                return self.fault(datagram.hex())
            if not self.take(int.from_bytes(datagram[2:4], "little"), datagram[4:length]):
                self.fault(datagram[:length].hex())
            datagram = datagram[length:]

    # ---- what it says

    def say(self, client: tuple, header: int, data: bytes | list[int]) -> None:
        begin = (len(data) + 4).to_bytes(2, "little") + header.to_bytes(2, "little")
        self.trouble.passes(begin + bytes(data), lambda datagram: self.socket.sendto(datagram, client))

    def say_bus(self, client: tuple, *data: int) -> None:
        check = 0
        for byte in data:
            check ^= byte
        self.say(client, 0x40, [*data, check])

    def tell(self, flag: int, *data: int) -> None:
        """Tells those who have asked for it, and have said something since."""
        for client, flags in self.clients.copy().items():
            if time.monotonic() > self.heard.get(client, 0) + self.patience:
                del self.clients[client]
            elif flags & flag:
                self.say_bus(client, *data)

    def cab(self, cab: int) -> tuple[int, ...]:
        """Returns how a locomotive is, as it is told of."""
        speed, way = self.cabs.get(cab, (0, 1))
        count, form = STEPS[self.steps.get(cab, 3)]
        step = speed * count // 126 if speed > 0 else speed
        code = SPEEDS[28].index(step) if count == 28 else step + 1 if step > 0 else -step
        on = sum(1 << number for (address, number), value in self.functions.copy().items() if address == cab and value)
        taken, double = (8, 0x60) if cab in self.taken else (0, 0)
        return (0xEF, cab >> 8 | (0xC0 if cab > 127 else 0), cab & 255, taken | form, way << 7 | code,
                double | (on & 1) << 4 | on >> 1 & 15, on >> 5 & 255, on >> 13 & 255, on >> 21 & 255)

    def sense(self, client: tuple, group: int) -> None:
        bits = sum(1 << number - group * 80 - 1 for number in self.sensors if group * 80 < number <= group * 80 + 80)
        self.say(client, 0x80, [group, *bits.to_bytes(10, "little")])

    # ---- what happens at the station itself

    def sensor(self, number: int, on: int | None = None) -> None:
        """A sensor is occupied, or free; None: the other of both."""
        on = number not in self.sensors if on is None else on
        (self.sensors.add if on else self.sensors.discard)(number)
        for client, flags in self.clients.copy().items():
            if flags & TO_PANELS:
                self.sense(client, (number - 1) // 80)

    def hand(self, cab: int, speed: int | None = None, way: int = 1, **functions: int) -> None:
        """A throttle at the station drives a locomotive, in the steps of its decoder, or switches functions: f0=1."""
        if speed is not None:
            count, _ = STEPS[self.steps.get(cab, 3)]
            step = speed * count // 126
            self.put(cab, -(-step * 126 // count) if step > 0 else min(speed, 0), way)
            self.taken.add(cab)
            self.last.pop(("cab", cab), None)
        for name, on in functions.items():
            self.functions[cab, int(name[1:])] = on
        self.tell(TO_HANDS, *self.cab(cab))

    def throw(self, address: int, port: int) -> None:
        """A throttle at the station throws a turnout, by two commands."""
        self.last.pop(("turnout", address), None)
        self.turnouts[address] = port
        for _ in range(2):
            self.tell(TO_ALL, 0x43, *divmod(address - 1, 256), port + 1)

    def switch(self, on: int) -> None:
        self.turn(0 if on else NO_POWER)
        self.last.pop("power", None)
        self.tell(TO_ALL, 0x61, on)

    def stop(self) -> None:
        self.turn(self.status | STOPS_ALL)
        self.tell(TO_ALL, 0x81, 0)

    def program(self) -> None:
        self.turn(PROGRAMMING)
        self.tell(TO_ALL, 0x61, 2)

    def programs(self) -> bool:
        return self.status == PROGRAMMING

    def overload(self) -> None:
        self.turn(SHORT | NO_POWER)
        self.tell(TO_ALL, 0x61, 8)

    def hang(self) -> None:
        self.stalled = not self.stalled

    def acts(self) -> Acts:
        return {"sensor": self.sensor, "on": partial(self.switch, 1), "off": partial(self.switch, 0),
                "stop": self.stop, "overload": self.overload, "program": self.program, "hand": self.hand,
                "throw": self.throw, "reset": self.restart, "hang": self.hang}

    def rubbish(self) -> None:
        """It sends what is not in its protocol: what is cut, too long, of no kind, and with a wrong check byte."""
        whole = bytes([7, 0, 0x40, 0, 0x61, 0, 0x61])
        for data in (b"", b"\0" * 9, whole[:5], whole[:6] + b"\0", bytes([4, 0, 0x40, 0]),
                     bytes([255, 255]) + whole[2:],
                     bytes([6, 0, 0x40, 0, 0xEF, 0xEF]), bytes([15, 0, 0x80, 0, 9]) + b"\xff" * 10):
            for client in self.clients:
                self.socket.sendto(data, client)

    # ---- what it is told

    def fault(self, text: str) -> None:
        self.faults.append(text)

    def changes(self, part: tuple | str, text: str) -> None:
        """Notes a command that changes a part of the track."""
        if self.last.get(part) != text:
            self.log.append((time.monotonic(), text))
            self.show(f"<{text}>")
        self.last[part] = text

    def take(self, header: int, data: bytes) -> bool:
        """Carries out a dataset; returns whether it is one of the protocol."""
        match header, *data:
            case 0x10, :
                self.say(self.client, 0x10, (123456).to_bytes(4, "little"))
            case 0x18, :
                self.say(self.client, 0x18, [LOCKED if self.locked else UNLOCKED])
            case 0x30, :
                self.clients.pop(self.client, None)
            case 0x50, _, _, _, _:
                self.clients[self.client] = int.from_bytes(data, "little")
            case 0x51, :
                self.say(self.client, 0x51, self.clients.get(self.client, 0).to_bytes(4, "little"))
            case 0x81, 0 | 1 as group:
                self.sense(self.client, group)
            case 0x40, _, _, *_:
                check = 0
                for byte in data:
                    check ^= byte
                return check == 0 and self.take_bus(*data[:-1])
            case _:
                return False
        return True

    def take_bus(self, *data: int) -> bool:
        if self.locked and data[0] in (0x53, 0xE4):
            return True
        if data[0] in (0x80, 0x53, 0xE4, 0x23, 0x24) or data[:2] in ((0x21, 0x80), (0x21, 0x81)):
            self.commanded, self.looked = time.monotonic(), 0
            if self.deaf:
                return True
        match data:
            case 0x21, 0x24:
                self.asked += 1
                self.say_bus(self.client, 0x62, 0x22, self.status)
            case 0x21, (0x80 | 0x81) as word:
                self.changes("power", f"{word & 1}")
                self.turn(NO_POWER * (1 - (word & 1)))
                self.tell(TO_ALL, 0x61, word & 1)
            case 0x80, :
                self.last.clear()  # what drives on is told so
                self.changes("power", "!")
                self.stop()
            case 0x53, high, low, bits if bits & 0xF6 == 0xA0 and high * 256 + low < 2044:
                self.take_output(high * 256 + low + 1, bits & 1, bits & 8)
            case 0x43, high, low:
                self.say_bus(self.client, 0x43, high, low, self.turnouts.get(high * 256 + low + 1, -1) + 1)
            case 0xE3, 0xF0, high, low:
                self.looked += 1
                self.say_bus(self.client, *self.cab((high & 63) << 8 | low))
            case 0xE4, 0x10 | 0x12 | 0x13 as form, high, low, code if high > 191 or high == 0 and low < 128:
                self.take_speed((high & 63) << 8 | low, form & 3, code & 127, code >> 7)
            case 0x23, 0x11, high, low if high < 4:
                self.take_cv(high * 256 + low + 1)
            case 0x24, 0x12, high, low, value if high < 4:
                self.take_cv(high * 256 + low + 1, value)
            case 0xE4, 0xF8, high, low, bits if bits & 63 <= 28 and bits < 128:
                self.take_function((high & 63) << 8 | low, bits & 63, bits >> 6)
            case _:
                return False
        return True

    def take_output(self, address: int, port: int, on: int) -> None:
        if on:
            self.changes(("turnout", address), f"a {address} {port}")
            self.turnouts[address] = port
            self.outputs.setdefault((address, port), time.monotonic())
        elif since := self.outputs.pop((address, port), None):
            self.pulses[address, port] = time.monotonic() - since
        self.tell(TO_ALL, 0x43, *divmod(address - 1, 256), self.turnouts.get(address, -1) + 1)

    def take_speed(self, cab: int, form: int, code: int, way: int) -> None:
        count, _ = STEPS[form]
        if not 1 <= cab <= 9999 + 240 or code > (count + 1 if count != 28 else 31):
            return self.fault(f"cab {cab} {code} of {count}")
        step = SPEEDS[28][code] if count == 28 else code - 1 if code > 1 else -code
        drives = (-(-step * 126 // count) if step > 0 else step), way
        self.changes(("cab", cab), f"t {cab} {drives[0]} {way}")
        self.steps[cab] = form
        self.put(cab, *drives)
        self.taken.discard(cab)
        self.tell(TO_HANDS, *self.cab(cab))

    def take_function(self, cab: int, number: int, on: int) -> None:
        self.changes(("function", cab, number), f"F {cab} {number} {on}")
        self.functions[cab, number] = on
        self.tell(TO_HANDS, *self.cab(cab))

    def take_cv(self, cv: int, value: int | None = None) -> None:
        """Reads a CV, or writes a value into it. What drives on its track would be written too."""
        if self.power and any(speed > 0 for speed, _ in self.cabs.values()):
            self.fault(f"CV {cv} while a train drives")
        text = f"R {cv}" if value is None else f"W {cv} {value}"
        self.log.append((time.monotonic(), text))
        self.show(f"<{text}>")
        self.program()
        if self.decoder is None:
            return self.say_bus(self.client, 0x61, 0x12)
        if cv not in self.decoder:
            return self.say_bus(self.client, 0x61, 0x13)
        if value is not None:
            self.decoder[cv] = value
        self.say_bus(self.client, 0x64, 0x14, *divmod(cv - 1, 256), self.decoder[cv])
