"""Inputs cut after each byte, and inputs that are large: what a document, a script and a listing then come to."""
import re
import subprocess
import tempfile
import tomllib
from itertools import zip_longest
from pathlib import Path

from serving import expected_text, layout_bus

SECONDS = 300
PIECE = 256  # bytes that a connection takes at once
DOCUMENT = ("port = 4303\n" + layout_bus(1, "POWER GL GA FB", gl_max=10239, ga_max=2044, fb_ports=2)).encode()
STORED_RUN = Path(__file__).resolve().parent / "cases" / "stored-run"
LISTING = Path(__file__).resolve().parent / "cases" / "mirror-of-a-listing" / "stdin"
ROUTE = Path(__file__).resolve().parent / "cases" / "interlock-route-set-and-given-back"


def outcome(program, words, given=b""):
    done = subprocess.run([program, *words], input=given, capture_output=True, timeout=SECONDS)
    return done.returncode, done.stderr, done.stdout


def parse_record(out):
    """The output of replay: {number: {"sent", "word"}} and the refused events."""
    connections, at = {}, 0
    header = re.compile(rb"connection (\d+) (\d+) (\w+)\n")
    while match := header.match(out, at):
        sent = out[match.end():match.end() + int(match[2])]
        connections[match[1].decode()] = {"sent": sent.decode("latin-1"), "word": match[3].decode()}
        at = match.end() + len(sent) + (1 if sent and not sent.endswith(b"\n") else 0)
    before_rows = re.split(rb"^rows \d+\n", out[at:], maxsplit=1, flags=re.M)[0]
    refused = [line.removeprefix(b"refused ").decode() for line in before_rows.splitlines()]
    return connections, refused


def unlike(what, got, want):
    return None if got == want else f"{what}: got {got!r}, want {want!r}"[:400]


def check_document(program, document, words=("check", "--config"), given=b""):
    with tempfile.NamedTemporaryFile() as file:
        file.write(document)
        file.flush()
        return outcome(program, [*words, file.name], given)


def fault_of_document(document):
    """Returns the fault of a prefix of DOCUMENT, or None."""
    try:
        read = tomllib.loads(document.decode())
    except tomllib.TOMLDecodeError:
        return "not TOML"
    if "bus" not in read:
        return "bus missing"
    missing = (key for key in ("number", "groups", "gl_max", "ga_max", "fb_ports") if key not in read["bus"][0])
    return next((f"{key} missing" for key in missing), None)


def document_cut_after_each_byte(program):
    for count in range(len(DOCUMENT) + 1):
        document = DOCUMENT[:count]
        if fault := fault_of_document(document):
            want = (2, f"srcp_server: config: {fault}\n".encode(), b"")
        else:
            read = tomllib.loads(document.decode())
            bus = read["bus"][0]
            told = f"port {read['port']}\nbus 1 POWER GL {bus['gl_max']} GA {bus['ga_max']} FB {bus['fb_ports']}\n"
            want = (0, b"", told.encode())
        if fault := unlike(f"{count} bytes", check_document(program, document), want):
            return fault
    return None


def fault_of_line(line):
    """Returns why a line of a prefix of the stored run is no event, or None."""
    word, space, rest = line.partition(b" ")
    if word not in (b"open", b"room", b"bytes"):
        return "unknown event"
    if word == b"open":
        return None
    form = rb"1 [^\\]*(\\n[^\\]*)*" if word == b"bytes" else rb"1 \d+"
    if re.fullmatch(form, rest):
        return None
    return "wrong escape" if word == b"bytes" and rest.startswith(b"1 ") else "wrong number"


def fault_of_script(script):
    lines = enumerate(script.split(b"\n"), 1)
    return next((f"script line {at}: {fault}" for at, line in lines if line and (fault := fault_of_line(line))), None)


def script_cut_after_each_byte(program):
    script = (STORED_RUN / "stdin").read_bytes()
    whole = expected_text((STORED_RUN / "stdout").read_bytes())
    sent = whole.partition(b"\n")[2]
    for count in range(len(script) + 1):
        status, complaint, told = outcome(program, [], script[:count])
        if fault := fault_of_script(script[:count]):
            want = 2, f"srcp_server: {fault}\n".encode(), b""
            if fault := unlike(f"{count} bytes", (status, complaint, told), want):
                return fault
            continue
        head = re.match(rb"connection 1 (\d+) open\n", told)
        taken = told[head.end():head.end() + int(head[1])] if head else b""
        ends = told.endswith(b"0.000 100 INFO 1 POWER OFF\n")
        if status != 0 or complaint or not sent.startswith(taken) or not ends or bool(head) != (count > 0):
            return f"{count} bytes: got {(status, complaint, told)!r}"[:400]
    return None


def listing_cut_after_each_byte(program):
    """Each line of the listing is a row of its own, in key order, so the rows are the whole lines."""
    listing = LISTING.read_bytes()
    for count in range(len(listing) + 1):
        whole_lines = listing[:listing.rfind(b"\n", 0, count) + 1]
        if fault := unlike(f"{count} bytes", outcome(program, ["mirror"], listing[:count]), (0, b"", whole_lines)):
            return fault
    return None


def routes_cut_after_each_byte(program):
    """The LF of a line brings the next order at most, and no other byte brings one."""
    given, orders = (ROUTE / "stdin").read_bytes(), (ROUTE / "stdout").read_bytes().splitlines(keepends=True)
    sent = 0
    for count in range(len(given) + 1):
        got = outcome(program, ["interlock", "--plan", ROUTE / "plan.toml"], given[:count])
        if got != (0, b"", b"".join(orders[:sent])):
            sent += given[:count].endswith(b"\n")
            if fault := unlike(f"{count} bytes", got, (0, b"", b"".join(orders[:sent]))):
                return fault
    return unlike("orders", sent, len(orders))


def layout_of_250_buses(program):
    document = b"".join(b'[[bus]]\nnumber = %d\ngroups = ["POWER"]\n' % number for number in range(1, 251))
    told = b"port 4303\n" + b"".join(b"bus %d POWER\n" % number for number in range(1, 251))
    return unlike("check", check_document(program, document), (0, b"", told))


def mirror_of_70_000_rows(program):
    lines = b"".join(b"0.000 100 INFO %d FB %d 0\n" % (bus, port) for bus in range(1, 19) for port in range(1, 4001))
    return unlike("mirror", outcome(program, ["mirror"], lines), (0, b"", lines))


def run_of_200_000_events(program):
    script = b"open\nroom 1 1000\nbytes 1 GO\\n\nroom 1 1000\n" + b"bytes 1 GET 1 POWER\\n\nroom 1 1000\n" * 100_000
    status, complaint, told = outcome(program, [], script)
    answers = told.count(b"0.000 100 INFO 1 POWER OFF\n")
    return unlike("replay", (status, complaint, answers, b"refused" in told), (0, b"", 100_001, False))


def script_of_300_000_lines(program):
    status, complaint, told = outcome(program, [], b"at 7\n# none\n\n" * 100_000 + b"at x\n")
    return unlike("replay", (status, complaint, told), (2, b"srcp_server: script line 300001: wrong number\n", b""))


def pieces_of(lines):
    """Yields the lines, joined to pieces that a connection takes."""
    piece = b""
    for line in lines:
        if len(piece) + len(line) > PIECE:
            yield piece
            piece = b""
        piece += line
    yield piece


def lines_as_long_as_they_may_be_and_longer(program):
    """The CR of a line counts. Behind a line that is too long the next is read."""
    unknown, too_long = b"0.000 410 ERROR unknown command\n", b"0.000 418 ERROR list too long\n"
    for count, end, reply in ((1000, b"", unknown), (999, b"\\r", unknown), (1001, b"", too_long),
                              (1000, b"\\r", too_long), (5000, b"", too_long)):
        pieces = pieces_of([b"x"] * count)
        script = b"open\nroom 1 1000\n" + b"".join(b"bytes 1 %s\n" % piece for piece in pieces)
        given = script + b"bytes 1 %s\\nGO\\n\nroom 1 1000\n" % end
        sent = expected_text(b"{WELCOME}\n") + reply + b"0.000 200 OK GO 1\n"
        want = 0, b"", sent.decode()
        status, complaint, told = outcome(program, [], given)
        if fault := unlike(f"{count} bytes", (status, complaint, parse_record(told)[0]["1"]["sent"]), want):
            return fault
    return None


def every_device_made_and_locked(program):
    """A session makes each locomotive and each accessory of the largest bus, and locks it. None is refused its memory,
    and each has its rows."""
    gls, gas = range(1, 10_240), range(1, 2_045)
    lines = [*(b"INIT 1 GL %d N 1 28 0\n" % gl for gl in gls), *(b"INIT 1 GA %d N\n" % ga for ga in gas),
             *(b"SET 1 LOCK GL %d 0\n" % gl for gl in gls), *(b"SET 1 LOCK GA %d 0\n" % ga for ga in gas)]
    script = b"open\nroom 1 45\nbytes 1 GO\\n\nroom 1 18\n" + b"".join(
        b"bytes 1 %s\nroom 1 10000\n" % piece.replace(b"\n", b"\\n") for piece in pieces_of(lines))
    sent = [expected_text(b"{WELCOME}\n"), b"0.000 200 OK GO 1\n", *[b"0.000 200 OK\n"] * len(lines)]
    rows = [b"0.000 101 INFO 0 SESSION 1 COMMAND\n", b"0.000 100 INFO 1 POWER OFF\n"]
    for gl in gls:
        rows += [b"0.000 101 INFO 1 GL %d N 1 28 0\n" % gl, b"0.000 100 INFO 1 GL %d 1 0 0\n" % gl]
    for ga in gas:
        rows += [b"0.000 101 INFO 1 GA %d N\n" % ga, *(b"0.000 100 INFO 1 GA %d %d 0\n" % (ga, at) for at in (0, 1))]
    rows += [b"0.000 100 INFO 1 FB %d 0\n" % port for port in (1, 2)]
    rows += [*(b"0.000 100 INFO 1 LOCK GL %d 0 1\n" % gl for gl in gls),
             *(b"0.000 100 INFO 1 LOCK GA %d 0 1\n" % ga for ga in gas)]
    head = b"connection 1 %d open\n" % len(b"".join(sent))
    want = [head, *sent, b"rows %d\n" % len(rows), *rows]
    with tempfile.NamedTemporaryFile() as config:
        config.write(DOCUMENT)
        config.flush()
        status, complaint, told = outcome(program, ["replay", "--config", config.name], script)
    pairs = zip_longest(told.splitlines(keepends=True), want)
    unlike_line = next((unlike(f"line {at}", *pair) for at, pair in enumerate(pairs, 1) if pair[0] != pair[1]), None)
    return unlike("replay", (status, complaint), (0, b"")) or unlike_line


INPUT_CASES = (document_cut_after_each_byte, script_cut_after_each_byte, listing_cut_after_each_byte,
               routes_cut_after_each_byte, layout_of_250_buses, mirror_of_70_000_rows, run_of_200_000_events,
               script_of_300_000_lines, lines_as_long_as_they_may_be_and_longer,
               every_device_made_and_locked)
