"""A Wi-Fi between a phone and its server: it goes away, and what was sent meanwhile comes when it is back."""
import contextlib
import socket
import threading

from bridge_tests.common import listener


class WiFi:
    """Phones connect to `port`. TCP keeps what they send while it is `away`, as the phone's system does."""

    def __init__(self, server: int) -> None:
        self.server = server
        self.door = listener()
        self.port = self.door.getsockname()[1]
        self.here = threading.Event()
        self.here.set()
        threading.Thread(target=self.accept, daemon=True).start()

    def away(self) -> None:
        self.here.clear()

    def back(self) -> None:
        self.here.set()

    def accept(self) -> None:
        while True:
            phone = self.door.accept()[0]
            try:
                server = socket.create_connection(("127.0.0.1", self.server))
            except OSError:
                phone.close()
                continue
            for ends in ((phone, server), (server, phone)):
                threading.Thread(target=self.carry, args=ends, daemon=True).start()

    def carry(self, take: socket.socket, give: socket.socket) -> None:
        with contextlib.suppress(OSError):
            while more := take.recv(65536):
                self.here.wait()
                give.sendall(more)
        for end in (take, give):
            with contextlib.suppress(OSError):
                end.shutdown(socket.SHUT_RDWR)
