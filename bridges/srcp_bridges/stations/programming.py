"""A door of a driver, by which programs of this machine have its station read and write the CVs of a decoder."""
from __future__ import annotations

import asyncio
import contextlib
import os
import re
from typing import TYPE_CHECKING
from srcp_bridges.limits import CV_TAKES
from srcp_bridges.program import say
from srcp_bridges.srcp.replies import Code
from srcp_bridges.state import folder

if TYPE_CHECKING:
    from srcp_bridges.stations.station import Station
# What a station may say in place of a value.
NOBODY = -1
CANNOT_MEASURE = -2
NO_TRACK = -3
SHORT = -4
WHY = {NOBODY: "no decoder answers", CANNOT_MEASURE: "the station cannot measure at its programming track",
       NO_TRACK: "the station has no programming track", SHORT: "a short circuit at the programming track"}
REQUEST = re.compile(r"(?:READ (\d{1,4})|WRITE (\d{1,4}) (\d{1,3}))\n?", re.ASCII)


class Programming:
    """Carries out one request after the other: READ CV, or WRITE CV VALUE. A reply is a code of SRCP, and the value or
    what is wrong: `200 6`, `416 no decoder answers`.

    The driver gives `encode_cv`, which returns the command that reads a CV, or writes a value into it. It calls `take`.
    `beside`: the station programs on a track of its own, and trains drive on meanwhile. `repeats`: the seconds after
    which it is told again, or None.
    """

    def __init__(self, station: Station, beside: bool, repeats: float | None):
        self.station = station
        self.beside = beside
        self.repeats = repeats
        self.path = str(folder() / f"{os.getpid()}.door")
        self.turn = asyncio.Lock()
        self.asked: tuple[int, int | None] = 0, None
        self.said: asyncio.Future[int] | None = None
        self.late: list[float] = []  # until when each answer may come that earlier requests have not had

    # ---- what the station does

    def take(self, cv: int | None, value: int) -> None:
        """Takes what the station says of a CV, or of the one that was asked for: its value, or one of WHY."""
        if cv is None and self.is_late():
            return
        if not self.said or self.said.done() or cv not in (None, self.asked[0]):
            return
        if value < 0 or self.asked[1] in (None, value):
            self.said.set_result(value)

    def is_late(self) -> bool:
        """Returns whether an answer that names no CV may be one to an earlier request. Then one less is to come."""
        now = asyncio.get_running_loop().time()
        self.late = [end for end in self.late if end > now]
        return bool(self.late and self.late.pop(0))

    def lose(self) -> None:
        """The station is away, or has begun anew: what was asked of it has no answer."""
        if self.said and not self.said.done():
            self.said.set_exception(ConnectionError("the station is away"))

    def refusal(self) -> str | None:
        """Returns why the station is told nothing at this moment, or None."""
        if not self.station.ready.is_set():
            return f"{Code.TIMEOUT} the station is away"
        if not self.beside and (driving := self.station.track.driving()):
            return f"{Code.PROHIBITED} locomotive {driving[0]} drives, and the station stops all to program"
        return None

    async def carry_out(self, cv: int, value: int | None) -> str:
        """Has the station read a CV, or write a value into it; returns the reply. Its time counts from when no late
        answer can come any more: until then one that is dropped may be its own."""
        loop = asyncio.get_running_loop()
        self.asked, self.said = (cv, value), loop.create_future()
        try:
            async with asyncio.timeout_at(max([loop.time(), *self.late]) + CV_TAKES):
                return await self.tell(self.said, self.station.encode_cv(cv, value))
        except TimeoutError:
            return f"{Code.TIMEOUT} the station does not answer"
        except OSError as fault:
            return f"{Code.TIMEOUT} {fault}"
        finally:
            self.said = None

    async def tell(self, said: asyncio.Future[int], command: bytes) -> str:
        """Tells the station a command, again and again if it has to be; returns the reply."""
        ends: list[float] = []  # until when each telling may be answered
        try:
            while not said.done():
                if why := self.refusal():  # a train may have started since the last time
                    return why
                self.station.line.write(command)
                ends.append(asyncio.get_running_loop().time() + 2 * (self.repeats or 0))
                await asyncio.wait([said], timeout=self.repeats)
            result = said.result()
            return f"{Code.NO_DATA} {WHY[result]}" if result in WHY else f"{Code.OK} {result}"
        finally:
            self.late += ends[said.done():]

    # ---- the door

    async def answer(self, line: str) -> str:
        """Returns the reply to a request."""
        if not (found := REQUEST.fullmatch(line)):
            return f"{Code.UNKNOWN_COMMAND} neither READ CV nor WRITE CV VALUE"
        cv, value = int(found[1] or found[2]), None if found[3] is None else int(found[3])
        if not 1 <= cv <= 1024 or (value or 0) > 255:
            return f"{Code.WRONG_VALUE} a CV is 1 to 1024, and its value 0 to 255"
        async with self.turn:
            return await self.carry_out(cv, value)

    async def serve(self, reader: asyncio.StreamReader, writer: asyncio.StreamWriter) -> None:
        """Answers the requests of one program until it has gone."""
        try:
            while line := await reader.readline():
                writer.write(f"{await self.answer(line.decode('latin-1'))}\n".encode())
                await writer.drain()
        except (OSError, ValueError, asyncio.CancelledError):
            pass  # it has gone, or sends what has no end, or this program is ended
        finally:
            writer.close()

    async def run(self) -> None:
        """Has the door open until this program is ended. Who may come to the server's port may come to it too."""
        try:
            os.makedirs(os.path.dirname(self.path), exist_ok=True)
            server = await asyncio.start_unix_server(self.serve, self.path)
        except OSError as fault:
            return say(f"no decoder can be programmed: {self.path}: {fault}")
        try:
            os.chmod(self.path, 0o666)
            await asyncio.get_running_loop().create_future()
        finally:
            server.close()
            with contextlib.suppress(OSError):
                os.unlink(self.path)
