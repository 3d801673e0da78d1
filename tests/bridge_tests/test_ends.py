"""The end of the programs: at once, also beside clients that stay, and as a station's line is lost."""
import asyncio
import os
import signal
import socket
import struct
import unittest
from pathlib import Path
from unittest import mock

from .common import WAIT, Case, connects, free_port, new_folder, until
from .test_web import Events

NEWER = Path(__file__).resolve().parent.parent / "stand_ins" / "newer_asyncio"
AT_ONCE = 6.0  # seconds that a busy machine may take
ENDS = signal.SIGTERM, signal.SIGINT
STANDS = "100 INFO 1 GL 3 1 0 "


class Ends(Case):
    program = "ends"

    def setUp(self):
        super().setUp()
        self.throttle.order("INIT 1 GL 3 N 1 28 5")

    def serves(self, name: str, option: str, *words: object) -> socket.socket:
        """Starts a program that waits for its clients, if asyncio has it do so; returns the connection of one."""
        port = free_port()
        self.starts(name, option, port, *words, env=os.environ | {"PYTHONPATH": str(NEWER)})
        until(lambda: "joined" in self.started[name].told() and connects(port), f"{name} serves")
        client = socket.create_connection(("127.0.0.1", port), WAIT)
        self.addCleanup(client.close)
        return client

    def drives(self, client: socket.socket, *lines: str) -> None:
        for line in lines:
            client.sendall(line.encode())
        self.has("100 INFO 1 GL 3 1 ")
        self.lacks(STANDS)

    def ends(self, name: str, number: int) -> None:
        """A program is ended: it does so at once, though its client stays."""
        program = self.started[name]
        program.send(number)
        self.assertEqual(program.process.wait(AT_ONCE), 0, program.told())
        self.assertTrue(program.told().endswith("-- ended\n"), program.told())

    def test_a_phone_that_drives_does_not_hold_withrottle_up(self):
        for number in ENDS:
            phone = self.serves("withrottle.py", "--listen")
            self.drives(phone, "Nphone\nHU42\n", "M0+S3<;>S3\n", "M0AS3<;>V40\n")
            self.ends("withrottle.py", number)
            self.has(STANDS)

    def test_a_client_does_not_hold_srcpd_up(self):
        for number in ENDS:
            client = self.serves("srcpd.py", "--listen")
            self.drives(client, "SET CONNECTIONMODE SRCP COMMAND\nGO\n", "SET 1 GL 3 1 9 28\n")
            self.ends("srcpd.py", number)
            self.throttle.order("SET 1 GL 3 1 0 28")

    def test_a_page_that_is_open_does_not_hold_web_up(self):
        for number in ENDS:
            client = self.serves("web.py", "--web", "--silence", WAIT)
            self.assertEqual(Events(client.getpeername()[1]).status, 200)
            self.ends("web.py", number)

    def test_who_programs_a_decoder_does_not_hold_a_driver_up(self):
        from simulated_station import Station
        link = os.path.join(new_folder(), "ttyACM0")
        station = Station(link)
        self.addCleanup(station.unplug)
        for number in ENDS:
            driver = self.starts("dcc_ex.py", "--station", link, env=os.environ | {"PYTHONPATH": str(NEWER)})
            until(lambda: "iDCC" in driver.told() and "joined" in driver.told(), "the driver has found its station")
            door = socket.socket(socket.AF_UNIX)
            self.addCleanup(door.close)
            door.connect(os.path.join(os.environ["XDG_RUNTIME_DIR"], "srcp_bridges", f"{driver.pid}.door"))
            door.sendall(b"READ CV 1\n")
            self.ends("dcc_ex.py", number)

    def test_who_only_watches_ends_too(self):
        words = {"keep.py": [os.path.join(new_folder(), "kept")], "guard.py": [], "log.py": []}
        for name, more in words.items():
            for number in ENDS:
                started = self.starts(name, *more)
                until(lambda: "joined" in started.told(), f"{name} has joined")
                self.ends(name, number)


class ServerThatIsLeft(unittest.IsolatedAsyncioTestCase):
    """What a program serves is told of by no traceback, however it ends."""
    program = "server"

    async def asyncSetUp(self):
        self.told: list[str] = []
        self.ends: asyncio.Queue = asyncio.Queue()
        loop = asyncio.get_running_loop()
        loop.set_debug(False)
        loop.set_exception_handler(lambda _, context: self.told.append(context["message"]))

    async def serves(self, serve):
        """Serves one connection; returns this end of it, and that of the server."""
        from srcp_bridges.page.places import listen

        async def noted(reader, writer):
            self.ends.put_nowait(writer)
            await serve(writer)

        server = await self.enterAsyncContext(listen(noted, "127.0.0.1", 0))
        client = socket.create_connection(server.sockets[0].getsockname(), WAIT)
        self.addCleanup(client.close)
        return client, await self.ends.get()

    async def passes(self, is_true):
        async with asyncio.timeout(WAIT):
            while not is_true():
                await asyncio.sleep(0.01)

    async def test_a_connection_that_breaks_off_is_told_of_in_no_traceback(self):
        """Though what asyncio keeps of its end is collected before the connection."""
        async def write(writer):
            await self.passes(lambda: writer.write(b"row\n") or writer.is_closing())

        client, writer = await self.serves(write)
        protocol = writer.transport.get_protocol()
        client.setsockopt(socket.SOL_SOCKET, socket.SO_LINGER, struct.pack("ii", 1, 0))  # so it is reset
        client.close()
        await self.passes(lambda: protocol._closed.done())
        await asyncio.sleep(0.01)
        del protocol._closed
        self.assertEqual(self.told, [])

    async def test_a_client_that_is_served_at_the_end_is_told_of_in_no_traceback(self):
        async def wait(_):
            serving.append(asyncio.current_task())
            await asyncio.sleep(WAIT)

        serving: list[asyncio.Task] = []
        await self.serves(wait)
        await self.passes(lambda: serving)
        serving[0].cancel()
        await self.passes(lambda: serving[0].done())
        await asyncio.sleep(0.01)
        self.assertEqual(self.told, [])


class BrokenLine:
    """The line of a station that answers nothing, until it is lost."""

    def __init__(self) -> None:
        self.lost = asyncio.Event()

    async def read(self, end: bytes) -> bytes:
        await self.lost.wait()
        raise ConnectionError("its line is closed")

    async def drain(self) -> None:
        if self.lost.is_set():
            raise ConnectionResetError("connection lost")

    def write(self, data: bytes) -> None:
        pass

    def close(self) -> None:
        pass

    def number(self) -> int:
        return -1


class DriverThatEnds(unittest.IsolatedAsyncioTestCase):
    """What is lost, or comes, some turns of the loop before the program is ended: each number of them is tried."""
    program = "driver"
    turns = range(12)

    async def asyncSetUp(self):
        asyncio.get_running_loop().set_debug(False)  # which is slow

    def station(self):
        from srcp_bridges.stations.station import Station, words_of_driver

        class Silent(Station):
            async def connect(self):
                return BrokenLine()

            def encode(self, part, value):
                return b""

        asked = words_of_driver("").parse_args(["--silence", str(WAIT), "--again", "0"])
        asked.station = "silent"
        station = Silent(asked)
        station.last_words = mock.MagicMock(run=lambda: asyncio.sleep(WAIT))  # of a process beside it
        return station

    async def is_ended(self, task: asyncio.Task, turns: int) -> None:
        """Ends a task after some turns; it is gone then."""
        for _ in range(turns):
            await asyncio.sleep(0)
        task.cancel()
        await asyncio.wait([task], timeout=AT_ONCE)
        is_ended = task.cancelled()
        task.cancel()
        self.assertTrue(is_ended, f"it lives on, if that comes {turns} turns before its end")

    @mock.patch("srcp_bridges.stations.station.say")
    async def test_a_line_that_is_lost_just_before_the_end(self, _):
        for turns in self.turns:
            station = self.station()
            keeping = asyncio.create_task(station.keep_line())
            await asyncio.sleep(0.01)
            station.line.lost.set()
            await self.is_ended(keeping, turns)

    async def test_an_answer_that_comes_just_before_the_end(self):
        for turns in self.turns:
            station = self.station()
            station.line, station.again = BrokenLine(), WAIT
            telling = asyncio.create_task(station.tell())
            await asyncio.sleep(0.01)
            station.ready.set()
            await self.is_ended(telling, turns)
