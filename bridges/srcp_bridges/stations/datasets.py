"""Datasets of the LAN protocol of a Z21, from memory of its description."""
import functools
import operator
import struct
from collections.abc import Iterator

SERIAL_NUMBER = 0x10
GET_CODE = 0x18  # whether it drives by the network
LOCKED = b"\1"
LOGOFF = 0x30
XBUS = 0x40
SET_FLAGS = 0x50
GET_FLAGS = 0x51
RMBUS = 0x80
GET_RMBUS = 0x81
FORMATS = {14: 0, 28: 2, 126: 3}  # of a command, by the numbers of steps
REPORTED = {0: 14, 2: 28, 4: 126}  # the numbers of steps of a report, by its format
FLAGS = (0x10003).to_bytes(4, "little")  # the station tells of its power, turnouts, sensors, and all locomotives
STOPS_ALL = 0x01  # a bit of its status: it stops all
SHORT_CIRCUIT = 0x04  # another
PROGRAMMING = 0x20  # another: it programs a decoder
NOT_DRIVING = 0x07 | PROGRAMMING  # all bits with which it does not drive: it stops all, power off, short circuit


def dataset(header: int, data: bytes = b"") -> bytes:
    return struct.pack("<HH", 4 + len(data), header) + data


def datasets(datagram: bytes) -> Iterator[tuple[int, bytes]]:
    """Yields the header and the data of each dataset, up to one that is cut or whose check byte is wrong."""
    while len(datagram) >= 4:
        length, header = struct.unpack_from("<HH", datagram)
        data = datagram[4:length]
        if not 4 <= length <= len(datagram) or header == XBUS and (not data or check(data)):
            return
        yield header, data
        datagram = datagram[length:]


def check(data: bytes) -> int:
    """Returns the byte that makes a command of the X-BUS whole; 0 if it is."""
    return functools.reduce(operator.xor, data)


def xbus(*data: int) -> bytes:
    """Returns a command of the X-BUS."""
    return dataset(XBUS, bytes([*data, check(bytes(data))]))


def locomotive(address: int) -> tuple[int, int]:
    return address >> 8 | (0xC0 if address > 127 else 0), address & 0xFF


ASK_STATUS = xbus(0x21, 0x24)


def drive(address: int, speed: int, way: int, top: int) -> bytes:
    return xbus(0xE4, 0x10 | FORMATS[top], *locomotive(address), way << 7 | code_of(speed, top))


def function(address: int, number: int, on: int) -> bytes:
    return xbus(0xE4, 0xF8, *locomotive(address), on << 6 | number)


def ask_locomotive(address: int) -> bytes:
    return xbus(0xE3, 0xF0, *locomotive(address))


def output(address: int, port: int, on: int) -> bytes:
    """Returns the command that switches an output of a turnout. The station carries out such commands one by one."""
    return xbus(0x53, *divmod(address - 1, 256), 0xA0 | on << 3 | port)


def ask_turnout(address: int) -> bytes:
    return xbus(0x43, *divmod(address - 1, 256))


def read_cv(cv: int) -> bytes:
    return xbus(0x23, 0x11, *divmod(cv - 1, 256))


def write_cv(cv: int, value: int) -> bytes:
    return xbus(0x24, 0x12, *divmod(cv - 1, 256), value)


def sensors_of(group: int, *states: int) -> Iterator[tuple[int, int]]:
    """Yields the number and the value of each sensor that a report of the R-BUS tells of."""
    bits = int.from_bytes(bytes(states), "little")
    for number in range(8 * len(states)):
        yield 80 * group + number + 1, bits >> number & 1


def functions_of(first: int, *more: int) -> int:
    """Returns a bit for each function that a report tells of."""
    return first >> 4 & 1 | (first & 15) << 1 | int.from_bytes(bytes(more[:3]), "little") << 5


def code_of(speed: int, top: int) -> int:
    """Returns the code of a step, or of an emergency stop (-1). Of 28 steps, bit 4 is the lowest."""
    if speed <= 0:
        return -speed
    return (speed + 3) >> 1 | ((speed + 3) & 1) << 4 if top == 28 else speed + 1


def speed_of(code: int, top: int) -> int:
    """Returns the step that a code tells."""
    low, high = (code & 15, code >> 4) if top == 28 else (code, 0)
    if low < 2:
        return -low
    return (low << 1 | high) - 3 if top == 28 else low - 1
