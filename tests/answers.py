"""What each command is answered, and what a panel is told by it: each pair of a word and a group, refusals in their
order, and what moments and the end of a session bring."""
import tempfile

from inputs import DOCUMENT, outcome, parse_record

HEAD = "open\nroom {0} 1000\nbytes {0} {1}GO\\n\nroom {0} 100000\n"
PANEL = 3
# Two command sessions and a panel, which has the listing.
BEGUN = "".join(HEAD.format(conn, "SET CONNECTIONMODE SRCP INFO\\n" if conn == PANEL else "") for conn in (1, 2, PANEL))
ACCEPTED, LOCKED, NO_DATA = "200 OK", "414 ERROR device locked", "416 ERROR no data"
WRONG_VALUE, TOO_LONG = "412 ERROR wrong value", "418 ERROR list too long"
INIT_GL_3 = 1, "INIT 1 GL 3 N 1 28 0", ACCEPTED, "101 INFO 1 GL 3 N 1 28 0", "100 INFO 1 GL 3 1 0 0"
INIT_GL_3_F1 = 1, "INIT 1 GL 3 N 1 28 1", ACCEPTED, "101 INFO 1 GL 3 N 1 28 1", "100 INFO 1 GL 3 1 0 0 0"
INIT_GA_5 = 1, "INIT 1 GA 5 N", ACCEPTED, "101 INFO 1 GA 5 N", "100 INFO 1 GA 5 0 0", "100 INFO 1 GA 5 1 0"
LOCK_GL_3 = 1, "SET 1 LOCK GL 3 0", ACCEPTED, "100 INFO 1 LOCK GL 3 0 1"
LOCK_GL_3_FOR_60 = 1, "SET 1 LOCK GL 3 60", ACCEPTED, "100 INFO 1 LOCK GL 3 60 1"
LOCK_GA_5 = 1, "SET 1 LOCK GA 5 0", ACCEPTED, "100 INFO 1 LOCK GA 5 0 1"
LAST = 18_446_744_073_709_551_615
# Of each rule the lines in their order: a moment, a session, its line, the reply, and what the panel is told. The
# session 0 is for a moment alone, and the line `shut` for a hang-up. A text without a stamp has that of the moment.
ANSWERS = {
    "sessions and power": [
        (1000, 1, "GET 0 SESSION 1", "0.000 101 INFO 0 SESSION 1 COMMAND"),
        (1000, 1, "GET 1 POWER", "0.000 100 INFO 1 POWER OFF"),
        (1000, 1, "SET 1 POWER ON short  circuit", ACCEPTED, "100 INFO 1 POWER ON short circuit"),
        (2000, 1, "CHECK 1 POWER OFF", ACCEPTED),
        (2000, 1, "get 001 power", "1.000 100 INFO 1 POWER ON short circuit"),
        (2000, 1, " \t GET\t1 POWER \t", "1.000 100 INFO 1 POWER ON short circuit"),
        (2000, 1, "INIT 1 POWER any words", ACCEPTED),
        (2000, 1, "SET 1 POWER OFF", ACCEPTED, "100 INFO 1 POWER OFF")],
    "sensors": [
        (2000, 1, "GET 1 FB 2", "0.000 100 INFO 1 FB 2 0"),
        (2000, 1, "SET 1 FB 2 1", ACCEPTED, "100 INFO 1 FB 2 1"),
        (3000, 1, "CHECK 1 FB 2 0", ACCEPTED),
        (3000, 1, "INIT 1 FB", ACCEPTED),
        (3000, 1, "GET 1 FB 2", "2.000 100 INFO 1 FB 2 1")],
    "locomotives": [
        (1000, 1, "INIT 1 GL 3 N 1 28 2", ACCEPTED, "101 INFO 1 GL 3 N 1 28 2", "100 INFO 1 GL 3 1 0 0 0 0"),
        (1000, 1, "SET 1 GL 3 1 5 28 1", ACCEPTED, "100 INFO 1 GL 3 1 5 28 1 0"),
        (1000, 1, "SET 1 GL 3 0 40 0 0 1", ACCEPTED, "100 INFO 1 GL 3 0 40 0 0 1"),
        (1000, 1, "SET 1 GL 3 2 5 28 1", ACCEPTED, "100 INFO 1 GL 3 2 0 28 1 1"),
        (2000, 1, "CHECK 1 GL 3 0 5 0 0", ACCEPTED),
        (2000, 1, "GET 1 GL 3", "1.000 100 INFO 1 GL 3 2 0 28 1 1"),
        (2000, 1, "TERM 1 GL 3", ACCEPTED, "102 INFO 1 GL 3"),
        (2000, 1, "init\t1 gl 3 p", ACCEPTED, "101 INFO 1 GL 3 P 1 28 5", "100 INFO 1 GL 3 1 0 0 0 0 0 0 0"),
        (2000, 1, "INIT 1 GL 10239 S 255 1000 0", ACCEPTED, "101 INFO 1 GL 10239 S 255 1000 0",
         "100 INFO 1 GL 10239 1 0 0"),
        (2000, 1, "TERM 1 GL 10239", ACCEPTED, "102 INFO 1 GL 10239")],
    "accessories": [
        (1000, 1, "INIT 1 GA 5 m any words", ACCEPTED, "101 INFO 1 GA 5 M", "100 INFO 1 GA 5 0 0",
         "100 INFO 1 GA 5 1 0"),
        (1000, 1, "SET 1 GA 5 1 1 -1", ACCEPTED, "100 INFO 1 GA 5 1 1"),
        (2000, 1, "CHECK 1 GA 5 1 0 60000", ACCEPTED),
        (2000, 1, "GET 1 GA 5 1", "1.000 100 INFO 1 GA 5 1 1"),
        (2000, 1, "GET 1 GA 5 0", "1.000 100 INFO 1 GA 5 0 0"),
        (2000, 1, "TERM 1 GA 5", ACCEPTED, "102 INFO 1 GA 5"),
        (2000, 1, "GET 1 GA 5 0", NO_DATA)],
    "locks": [
        (1000, *INIT_GL_3),
        (1000, *LOCK_GL_3_FOR_60),
        (2000, 1, "CHECK 1 LOCK GL 3 86400", ACCEPTED),
        (2000, 1, "GET 1 LOCK GL 3", "1.000 100 INFO 1 LOCK GL 3 60 1"),
        (2000, 1, "SET 1 LOCK gl 3 0", ACCEPTED, "100 INFO 1 LOCK GL 3 0 1"),
        (2000, 1, "TERM 1 LOCK GL 3", ACCEPTED, "102 INFO 1 LOCK GL 3"),
        (2000, 1, "SET 1 LOCK GL 3 86400", ACCEPTED, "100 INFO 1 LOCK GL 3 86400 1"),
        (3000, 1, "TERM 1 GL 3", ACCEPTED, "102 INFO 1 LOCK GL 3", "102 INFO 1 GL 3"),
        (3000, 1, "GET 1 LOCK GL 3", NO_DATA)],
    "ports of two, four and eight": [
        (0, 1, "INIT 2 GA 9 N", ACCEPTED, "101 INFO 2 GA 9 N", *(f"100 INFO 2 GA 9 {port} 0" for port in range(4))),
        (0, 1, "SET 2 GA 9 3 1 0", ACCEPTED, "100 INFO 2 GA 9 3 1"),
        (0, 1, "GET 2 GA 9 4", WRONG_VALUE),
        (0, 1, "INIT 3 GA 9 N", ACCEPTED, "101 INFO 3 GA 9 N", *(f"100 INFO 3 GA 9 {port} 0" for port in range(8))),
        (0, 1, "SET 3 GA 9 7 1 0", ACCEPTED, "100 INFO 3 GA 9 7 1"),
        (0, 1, "GET 3 GA 9 8", WRONG_VALUE),
        (5, 1, "GET 3 GA 9 6", "0.000 100 INFO 3 GA 9 6 0"),
        (5, *INIT_GA_5),
        (5, 1, "SET 1 GA 5 1 1 0", ACCEPTED, "100 INFO 1 GA 5 1 1"),
        (5, 1, "SET 1 GA 5 2 1 0", WRONG_VALUE)],
    "a port goes back at its moment": [
        (1000, *INIT_GA_5),
        (1000, 1, "SET 1 GA 5 0 1 100", ACCEPTED, "100 INFO 1 GA 5 0 1"),
        (1099, 0, "at"),
        (1100, 0, "at", "100 INFO 1 GA 5 0 0"),
        (1101, 0, "at")],
    "a later SET of a port cancels its end": [
        (1000, *INIT_GA_5),
        (1000, 1, "SET 1 GA 5 0 1 100", ACCEPTED, "100 INFO 1 GA 5 0 1"),
        (1000, 1, "SET 1 GA 5 1 1 100", ACCEPTED, "100 INFO 1 GA 5 1 1"),
        (1050, 1, "SET 1 GA 5 0 1 -1", ACCEPTED, "100 INFO 1 GA 5 0 1"),
        (1050, 1, "SET 1 GA 5 1 0 100", ACCEPTED, "100 INFO 1 GA 5 1 0"),
        (2000, 0, "at"),
        (2000, 1, "GET 1 GA 5 0", "1.050 100 INFO 1 GA 5 0 1")],
    "a lock ends at its moment": [
        (1000, *INIT_GL_3),
        (1000, *LOCK_GL_3_FOR_60),
        (60_999, 0, "at"),
        (61_000, 0, "at", "102 INFO 1 LOCK GL 3"),
        (61_000, 1, "GET 1 LOCK GL 3", NO_DATA)],
    "a lock that is set again ends later": [
        (1000, *INIT_GL_3),
        (1000, *LOCK_GL_3_FOR_60),
        (31_000, *LOCK_GL_3_FOR_60),
        (61_000, 0, "at"),
        (90_999, 0, "at"),
        (91_000, 0, "at", "102 INFO 1 LOCK GL 3"),
        (92_000, 1, "SET 1 LOCK GL 3 1", ACCEPTED, "100 INFO 1 LOCK GL 3 1 1"),
        (92_500, *LOCK_GL_3),
        (99_000, 0, "at")],
    "a moment brings its changes in key order": [
        (0, *INIT_GL_3),
        (0, *INIT_GA_5),
        (0, 1, "SET 1 LOCK GA 5 1", ACCEPTED, "100 INFO 1 LOCK GA 5 1 1"),
        (0, 1, "SET 1 LOCK GL 3 1", ACCEPTED, "100 INFO 1 LOCK GL 3 1 1"),
        (0, 1, "SET 1 GA 5 1 1 900", ACCEPTED, "100 INFO 1 GA 5 1 1"),
        (0, 1, "SET 1 GA 5 0 1 950", ACCEPTED, "100 INFO 1 GA 5 0 1"),
        (5000, 0, "at", "100 INFO 1 GA 5 0 0", "100 INFO 1 GA 5 1 0", "102 INFO 1 LOCK GL 3", "102 INFO 1 LOCK GA 5")],
    "no end lies beyond the greatest moment": [
        (LAST, *INIT_GL_3),
        (LAST, *INIT_GA_5),
        (LAST, 1, "SET 1 GA 5 0 1 100", ACCEPTED, "100 INFO 1 GA 5 0 1"),
        (LAST, 1, "SET 1 LOCK GL 3 86400", ACCEPTED, "100 INFO 1 LOCK GL 3 86400 1"),
        (LAST, 1, "GET 1 GA 5 0", "100 INFO 1 GA 5 0 1"),
        (LAST, 0, "at", "100 INFO 1 GA 5 0 0", "102 INFO 1 LOCK GL 3")],
    "the end of a session frees its locks": [
        (0, *INIT_GL_3),
        (0, *INIT_GA_5),
        (0, 1, "INIT 1 GL 4 N 1 28 0", ACCEPTED, "101 INFO 1 GL 4 N 1 28 0", "100 INFO 1 GL 4 1 0 0"),
        (0, *LOCK_GA_5),
        (0, *LOCK_GL_3_FOR_60),
        (0, 2, "SET 1 LOCK GL 4 0", ACCEPTED, "100 INFO 1 LOCK GL 4 0 2"),
        (7000, 1, "shut", "102 INFO 1 LOCK GL 3", "102 INFO 1 LOCK GA 5", "102 INFO 0 SESSION 1"),
        (7000, 2, "GET 1 LOCK GL 4", "0.000 100 INFO 1 LOCK GL 4 0 2"),
        (7000, 2, "GET 0 SESSION 1", NO_DATA),
        (7000, 2, "SET 1 GL 3 1 0 0", ACCEPTED, "100 INFO 1 GL 3 1 0 0")],
    "an absent device before the rest": [
        (0, *INIT_GL_3_F1),
        (0, *LOCK_GL_3),
        *((1000, 1, line, NO_DATA) for line in (
            "SET 1 GL 4 1 0 0 1 1", "CHECK 1 GL 4 1 0 0 1 1", "TERM 1 GL 4", "GET 1 GL 4", "GET 1 GA 5 0",
            "TERM 1 GA 5", "GET 1 LOCK GL 4", "CHECK 1 LOCK GA 5 0", "TERM 1 LOCK GL 4")),
        (1000, 1, "SET 1 GL 3 1 0 0 1 1", TOO_LONG),
        (1000, 1, "CHECK 1 GL 3 1 0 0 1 1", TOO_LONG)],
    "the number of functions before the lock": [
        (0, *INIT_GL_3_F1),
        (0, *LOCK_GL_3),
        (1000, 2, "SET 1 GL 3 3 0 0", WRONG_VALUE),
        (1000, 2, "SET 1 GL 3 1 0 0 1 1", TOO_LONG),
        (1000, 2, "CHECK 1 GL 3 1 0 0 1 1", TOO_LONG),
        *((1000, 2, line, LOCKED) for line in (
            "SET 1 GL 3 1 0 0 1", "CHECK 1 GL 3 1 0 0 1", "TERM 1 GL 3", "SET 1 LOCK GL 3 0", "CHECK 1 LOCK GL 3 0",
            "TERM 1 LOCK GL 3")),
        (1000, 2, "GET 1 LOCK GL 3", "0.000 100 INFO 1 LOCK GL 3 0 1")],
    "the lock of an accessory": [
        (0, *INIT_GA_5),
        (0, 2, "TERM 1 LOCK GA 5", NO_DATA),
        (0, *LOCK_GA_5),
        (1000, 2, "SET 1 GA 5 0 2 0", WRONG_VALUE),
        *((1000, 2, line, LOCKED) for line in (
            "SET 1 GA 5 0 1 0", "CHECK 1 GA 5 0 1 0", "TERM 1 GA 5", "SET 1 LOCK GA 5 0", "TERM 1 LOCK GA 5")),
        (1000, 1, "SET 1 GA 5 0 1 0", ACCEPTED, "100 INFO 1 GA 5 0 1")],
    "sessions end themselves alone": [
        *((1000, 1, f"TERM 0 SESSION {session}", "415 ERROR forbidden") for session in (7, 2, 0)),
        (1000, 1, "GET 0 SESSION 7", NO_DATA),
        (1000, 1, "GET 0 SESSION 0", NO_DATA),
        (1000, 1, "TERM 0 SESSION 1", ACCEPTED, "102 INFO 0 SESSION 1"),
        (1000, 2, "TERM 0 SESSION", ACCEPTED, "102 INFO 0 SESSION 2")],
    "a locomotive is made again": [
        (0, *INIT_GL_3_F1),
        (0, *LOCK_GL_3),
        (2000, 1, "INIT 1 GL 3 N 1 28 1", ACCEPTED),
        (2000, 2, "INIT 1 GL 3 N 1 28 1", LOCKED),
        (2000, 2, "INIT 1 GL 3 N 2 28 1", LOCKED),
        (3000, 1, "INIT 1 GL 3 N 2 28 1", ACCEPTED, "102 INFO 1 LOCK GL 3", "102 INFO 1 GL 3",
         "101 INFO 1 GL 3 N 2 28 1", "100 INFO 1 GL 3 1 0 0 0"),
        (4000, 2, "INIT 1 GL 3 N 2 28 1", ACCEPTED),
        (4000, 2, "INIT 1 GL 3 N 2 28 2", ACCEPTED, "102 INFO 1 GL 3", "101 INFO 1 GL 3 N 2 28 2",
         "100 INFO 1 GL 3 1 0 0 0 0")],
    "an accessory is made again": [
        (1000, *INIT_GA_5),
        (1000, *LOCK_GA_5),
        (2000, 1, "INIT 1 GA 5 N", ACCEPTED),
        (2000, 2, "INIT 1 GA 5 N", LOCKED),
        (2000, 2, "INIT 1 GA 5 M", LOCKED),
        (3000, 1, "INIT 1 GA 5 M", ACCEPTED, "102 INFO 1 LOCK GA 5", "102 INFO 1 GA 5", "101 INFO 1 GA 5 M",
         "100 INFO 1 GA 5 0 0", "100 INFO 1 GA 5 1 0")],
}
# Each line is refused for the reason that comes first, and no other line is told the panel.
REFUSALS = {
    "410 ERROR unknown command": ["", " \t ", "FOO 9 XX", "GETS 1 POWER"],
    WRONG_VALUE: [
        "SET 9 XX", "SET XX XX", "SET -1 XX", "GET +1 POWER", "GET 1x POWER", "GET 251 POWER", "GET 4294967297 POWER",
        "GET 18446744073709551617 POWER", "GET 0 SESSION 4294967296", "INIT 1 GL 0 P", "INIT 1 GL 0 Q 1 28 5",
        "INIT 1 GL 4 N 256 28 5", "INIT 1 GL 4 N 1 0 5", "INIT 1 GL 4 N 1 1001 5", "INIT 1 GL 4 N 1 28 30",
        "SET 1 GL 10240 1 0 0", "SET 1 GL 3 3 0 0", "SET 1 GL 3 1 65536 0", "SET 1 GL 3 1 29 28", "SET 1 GL 3 2 29 28",
        "SET 1 GL 3 1 0 0 2", "INIT 1 GA 0 Q", "GET 1 LOCK SM 3", "GET 5 LOCK GL 3", "SET 1 LOCK GL 3 86401",
        "SET 1 GA 2045 0 0 0", "SET 1 GA 5 2 0 0", "SET 1 GA 5 0 2 0", "SET 1 GA 5 0 1 -2", "SET 1 GA 5 0 1 -01",
        "SET 1 GA 5 0 1 60001", "SET 1 FB 3 1", "SET 1 FB 0 1", "SET 1 FB 1 2", "SET 1 POWER MAYBE",
        "SET 1 POWER ON " + "x" * 81, "SET 1 POWER ON \x7f", "SET 1 GL 4 3 0 0", "SET 1 GA 4 0 1 60001",
        "SET 1 LOCK GL 4 86401"],
    NO_DATA: ["SET 1 GL 4 1 29 0", "SET 1 GA 4 0 1 60000", "SET 1 LOCK GL 4 86400"],
    TOO_LONG: [
        "GET 1 POWER x", "TERM 0 SESSION x 2", "GET 1 GL 0 1", "GET 1 FB 0 1", "SET 1 GL 0 9 0 0" + " 2" * 30,
        "INIT 1 GL 0 Q 256 0 30 1", "SET 1 GA 0 2 2 -2 1", "SET 1 LOCK SM 0 86401 1"],
    "419 ERROR list too short": [
        "GET", "GET 9", "SET 1 POWER", "GET 0 SESSION", "GET 1 GL", "SET 1 GL 0 9 9", "INIT 1 GL 0 Q",
        "INIT 1 GL 0 P 1 28", "SET 1 GA 0 2 2", "INIT 1 GA 0", "GET 1 LOCK SM"],
    "420 ERROR unsupported device protocol": ["INIT 1 GL 4 Q 256 28 5", "INIT 1 GA 5 Q any"],
    "421 ERROR unsupported device": ["GET 1 SM 3", "WAIT 1 SM"],
    "422 ERROR unsupported device group": [
        "GET 0 POWER", "WAIT 0 GL", "GET 5 POWER", "WAIT 4 GL 3", "WAIT 4 LOCK GL 3", "GET 1 SESSION 1"],
    "423 ERROR unsupported operation": [
        "WAIT 5 LOCK GL 3", "TERM 1 POWER x", "WAIT 1 GL", "VERIFY 1 FB", "RESET 1 GA", "TERM 1 FB", "INIT 1 LOCK",
        "SET 0 SESSION", "CHECK 0 SESSION", "INIT 0 SESSION"],
}
# Buses with accessories alone, of several ports, and one with sensors alone.
BUSES = DOCUMENT + b"".join(
    b'[[bus]]\nnumber = %d\ngroups = ["GA"]\nga_max = 2044\nga_ports = %d\n' % (number, ports)
    for number, ports in ((2, 4), (3, 8), (5, 2))) + b'[[bus]]\nnumber = 4\ngroups = ["FB"]\nfb_ports = 2\n'


def sent_in(program, config, script):
    """Returns what each connection is sent in a run over BUSES, by its number."""
    status, complaint, told = outcome(program, ["replay", "--config", config.name], script.encode("latin-1"))
    connections, refused = parse_record(told)
    assert (status, complaint, refused) == (0, b"", []), (status, complaint, refused)
    return {int(number): part["sent"] for number, part in connections.items()}


def events_of(moment, session, line):
    """The events of a line at a moment, which the panel reads all of."""
    sends = f"shut {session}\n" if line == "shut" else f"bytes {session} {line}\\n\nroom {session} 1000\n"
    return f"at {moment}\n" * (session == 0) + sends * (session > 0) + f"room {PANEL} 100000\n"


def stamped(text, moment):
    """A line, with the stamp of the moment if it has none."""
    return f"{text}\n" if "." in text.split()[0] else f"{moment // 1000}.{moment % 1000:03} {text}\n"


def fault_of_answers(program, config, lines):
    """Returns the first line whose reply or whose changes differ, or None. Each line is the last of a run."""
    script, now = BEGUN, 0
    want = sent_in(program, config, script)
    for moment, session, line, *texts in lines:
        script += f"at {moment}\n" * (moment != now and session > 0) + events_of(moment, session, line)
        now = moment
        if session and line != "shut":
            want[session] += stamped(texts.pop(0), moment)
        want[PANEL] += "".join(stamped(text, moment) for text in texts)
        got = sent_in(program, config, script)
        for number, sent in want.items():
            if got[number] != sent:
                return f"{moment} {line}: connection {number}: got {got[number][-300:]!r}, want {sent[-300:]!r}"
    return None


def answers_and_what_a_panel_is_told(program):
    with tempfile.NamedTemporaryFile() as config:
        config.write(BUSES)
        config.flush()
        for rule, lines in ANSWERS.items():
            if fault := fault_of_answers(program, config, lines):
                return f"{rule}: {fault}"
    return None


def refusals_by_the_reason_that_comes_first(program):
    """What is refused changes nothing: the panel is told none of it."""
    lines = [(1000, 1, line, refusal) for refusal, refused in REFUSALS.items() for line in refused]
    with tempfile.NamedTemporaryFile() as config:
        config.write(BUSES)
        config.flush()
        return fault_of_answers(program, config, lines)


ANSWER_CASES = (answers_and_what_a_panel_is_told, refusals_by_the_reason_that_comes_first)
