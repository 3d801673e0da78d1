"""The requests of a browser, and the answers: as much of HTTP as the page takes."""
import asyncio
from collections.abc import Iterable
from typing import NamedTuple

from srcp_bridges.limits import ARRIVE, IDLE, LONGEST_BODY

STATUS = {200: "OK", 303: "See Other", 401: "Unauthorized", 403: "Forbidden", 404: "Not Found", 413: "Too Large",
          429: "Too Many Requests", 503: "Service Unavailable"}
HEAD = {"Cache-Control": "no-store", "X-Content-Type-Options": "nosniff", "Content-Security-Policy":
        "default-src 'none'; connect-src 'self'; style-src 'self'; script-src 'self'; img-src data:; "
        "base-uri 'none'; form-action 'self'; frame-ancestors 'none'"}
TEXT = "text/plain; charset=utf-8"
KEPT = "Max-Age=31536000; Path=/; HttpOnly; SameSite=Strict"  # of a cookie

NO_REQUEST = (OSError, EOFError,  # the connection is closed, or silent
              ValueError, asyncio.LimitOverrunError,  # it is not HTTP
              asyncio.CancelledError)  # the program ends


class Request(NamedTuple):
    """`body` None: it is too long."""
    method: str
    path: str
    headers: dict[str, str]
    cookies: dict[str, str]
    body: str | None


async def read_request(reader: asyncio.StreamReader, idle: float = IDLE) -> Request:
    """Returns the next request of a connection. If no readable request comes, raises one of NO_REQUEST."""
    async with asyncio.timeout(idle):
        begun = await reader.readexactly(1)
    async with asyncio.timeout(ARRIVE):
        text = (begun + await reader.readuntil(b"\r\n\r\n")).decode("latin-1")
        first, *lines = text.split("\r\n")[:-2]
        headers = {name.lower(): value.strip() for name, _, value in (line.partition(":") for line in lines)}
        length = headers.get("content-length", "0")
        if not (length.isascii() and length.isdecimal()) or "transfer-encoding" in headers:
            raise ValueError("a body without an end")
        body = None if int(length) > LONGEST_BODY else (await reader.readexactly(int(length))).decode("latin-1")
    method, path, _ = first.split(" ")
    cookies = dict(part.strip().partition("=")[::2] for part in headers.get("cookie", "").split(";"))
    return Request(method, path, headers, cookies, body)


def answer(writer: asyncio.StreamWriter, status: int, kind: str, body: str, cookies: Iterable[str] = ()) -> bool:
    """Sends an answer; returns whether the connection goes on."""
    head = HEAD | {"Content-Type": kind, "Content-Length": len(body.encode())}
    lines = [f"HTTP/1.1 {status} {STATUS[status]}", *(f"{name}: {value}" for name, value in head.items())]
    lines += ["Location: /"] * (status == 303)
    lines += [f"Set-Cookie: {cookie}; {KEPT}" for cookie in cookies]
    writer.write("\r\n".join([*lines, "", ""]).encode() + body.encode())
    return status in (200, 303)
