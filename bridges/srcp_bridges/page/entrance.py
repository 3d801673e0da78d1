"""Who may see the page: who knows its word, and how often an address may be wrong."""
import hmac
import ipaddress
import secrets
import time
from collections.abc import Callable

from srcp_bridges.limits import PAUSE, TOKENS, WRONG_WORDS


def guest_of(peer: str) -> str:
    """Returns the name of a machine: an IPv4 address, or 64 bits of an IPv6 address, of which a machine chooses the
    rest."""
    address = ipaddress.ip_address(peer.partition("%")[0])
    if isinstance(address, ipaddress.IPv4Address):
        return str(address)
    return str(address.ipv4_mapped or ipaddress.ip_network((address, 64), strict=False))


class Entrance:
    """Knows the word, and the tokens of those who knew it.

    A token is random, one for each who enters, and kept here alone: after a restart everybody is asked again. `cookie`
    is the name under which a browser keeps a token. The name has the port, since a browser sends all cookies of a host
    to each port. `rested` has the moment at which a guest who was wrong has all trials again.
    """

    def __init__(self, word: str, port: int, now: Callable[[], float] = time.monotonic):
        self.word = word
        self.cookie = f"srcp_word_{port}"
        self.now = now
        self.tokens: dict[str, None] = {}
        self.rested: dict[str, float] = {}

    def is_open(self, token: str) -> bool:
        return token in self.tokens

    def wait(self, guest: str) -> float:
        """Returns the seconds until a guest may try a word."""
        return max(0.0, self.rested.get(guest, 0.0) - self.now() - (WRONG_WORDS - 1) * PAUSE)

    def wrong(self, guest: str) -> None:
        """Counts a wrong word of a guest."""
        now = self.now()
        self.rested = {other: moment for other, moment in self.rested.items() if moment > now}
        self.rested[guest] = max(self.rested.get(guest, now), now) + PAUSE

    def enter(self, guest: str, word: str) -> str | None:
        """Returns a new token for the right word, and counts any other as wrong."""
        if not hmac.compare_digest(word.encode(), self.word.encode()):
            self.wrong(guest)
            return None
        token = secrets.token_hex(16)
        self.tokens = dict.fromkeys([*self.tokens, token][-TOKENS:])
        return token
