"""The names and addresses of this machine: for requests, and for people to type."""
import ipaddress
import pathlib
import socket

RESOLVER = pathlib.Path("/etc/resolv.conf")
# Under these the internet gives nobody a name (local: RFC 6762, home.arpa: RFC 8375, internal: reserved; the others are
# no domains there), so no site can have its own name lead here by one. `fritz.box` is a domain there, of the maker of
# the routers that give it.
HOMES = {"local", "home.arpa", "internal", "lan", "home", "localdomain", "fritz.box"}
ELSEWHERE = {socket.AF_INET: ("192.0.2.1", 9), socket.AF_INET6: ("2001:db8::1", 9)}  # of nobody; nothing is sent there


def address_of(name: str) -> ipaddress.IPv4Address | ipaddress.IPv6Address | None:
    """Returns the IP address that a name is, or None."""
    try:
        return ipaddress.ip_address(name)
    except ValueError:
        return None


def suffixes(resolver: pathlib.Path = RESOLVER) -> set[str]:
    """Returns the suffixes that the network has told this machine, such as fritz.box."""
    try:
        lines = [line.lower().split() for line in resolver.read_text("latin-1").splitlines()]
    except OSError:
        return set()
    return {suffix.strip(".") for line in lines if line[:1] in (["search"], ["domain"]) for suffix in line[1:]} - {""}


def is_own(host: str, own: str | None = None, resolver: pathlib.Path = RESOLVER) -> bool:
    """Returns whether a request for this host means this machine: by a number, or by its name.

    Any site can have a name of its own lead here, also one that begins as this machine's does. So behind the machine's
    name stands nothing, or a suffix under which a network alone gives names, and no site: one of homes, or one that
    this network has told this machine.
    """
    name = host.rsplit(":", 1)[0] if ":" in host.rpartition("]")[2] else host
    if address_of(name.strip("[]")):
        return True
    own, dot, suffix = (own or socket.gethostname()).lower().partition(".")
    name, beside, asked = name.lower().removesuffix(".").partition(".")
    if not beside:
        return name in (own, "localhost")
    return name == own and asked in {suffix, *HOMES, *suffixes(resolver)}


def to_type(bind: str) -> str:
    """Returns the address by which a browser reaches a server at an address: no browser goes to 0.0.0.0."""
    address = address_of(bind)
    if not address or not address.is_unspecified:
        return f"[{bind}]" if address and address.version == 6 else bind
    family = socket.AF_INET if address.version == 4 else socket.AF_INET6
    try:
        with socket.socket(family, socket.SOCK_DGRAM) as way:
            way.connect(ELSEWHERE[family])
            found = way.getsockname()[0]
    except OSError:  # a network without a way out of it
        return socket.gethostname()
    return f"[{found}]" if family == socket.AF_INET6 else found
