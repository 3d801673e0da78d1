"""Documents, scripts and lines, each with what the program tells of it."""
from inputs import check_document, outcome, unlike
from serving import WELCOME

FOUR_GROUPS = b'groups = ["FB", "GA", "GL", "POWER"], gl_max = 10239, ga_max = 2044, fb_ports = 2'
CHECKED = {
    b"bus = []": "port 4303",
    b"port = 1\nbus = []": "port 1",
    b"port = 65535\nbus = []": "port 65535",
    b'bus = []\nname = "attic"\n[club]\nport = 0': "port 4303",
    b"bus = [{number = 250, groups = []}]": "port 4303\nbus 250",
    b'bus = [{number = 1, groups = ["POWER", "POWER"], gl_max = 10240, ga_max = "no", ga_ports = 9}]':
        "port 4303\nbus 1 POWER",
    b"bus = [{number = 1, " + FOUR_GROUPS + b"}]": "port 4303\nbus 1 POWER GL 10239 GA 2044 FB 2",
    b'bus = [{number = 1, groups = ["GA", "FB"], ga_max = 2044, ga_ports = 4, fb_ports = 2}]':
        "port 4303\nbus 1 GA 2044 PORTS 4 FB 2",
    b'port = 80\nbus = [{number = 9, groups = []}, {number = 2, groups = ["GA"], ga_max = 1, ga_ports = 2}]':
        "port 80\nbus 2 GA 1\nbus 9",
    b'bus = [{number = 9, groups = ["GA"], ga_max = 1, ga_ports = 8}, '
    b'{number = 2, groups = ["GA"], ga_max = 1, ga_ports = 3}]':
        "port 4303\nbus 2 GA 1 PORTS 3\nbus 9 GA 1 PORTS 8",
}
REFUSED_DOCUMENTS = {
    b"port =": "not TOML",
    b"port = 18446744073709551616\nbus = []": "not TOML",
    b"bus = []\nbus = []": "not TOML",
    b"bus = [] # \xff": "not TOML",
    b"": "bus missing",
    b"port = 0\nbus = 1": "port out of range",
    b"port = 65536": "port out of range",
    b"port = -1": "port out of range",
    b"port = true": "port out of range",
    b"port = 1.0": "port out of range",
    b'port = "1"': "port out of range",
    b"port = 80": "bus missing",
    b"[bus]\nnumber = 1": "bus out of range",
    b"bus = [1]": "bus out of range",
    b"bus = [{}]": "number missing",
    b"bus = [{number = 0}]": "number out of range",
    b"bus = [{number = 251}]": "number out of range",
    b"bus = [{number = 1}]": "groups missing",
    b'bus = [{number = 1, groups = "GL"}]': "groups out of range",
    b'bus = [{number = 1, groups = ["GL", 1, "SM"]}]': "groups out of range",
    b'bus = [{number = 1, groups = ["SM", 1]}]': "unknown group",
    b'bus = [{number = 1, groups = ["gl"]}]': "unknown group",
    b'bus = [{number = 1, groups = []}, {number = 1, groups = ["SM"]}]': "bus 1 twice",
    b'bus = [{number = 1, groups = ["GA", "GL"], ga_max = 0}]': "gl_max missing",
    b'bus = [{number = 1, groups = ["GL"], gl_max = 10240}]': "gl_max out of range",
    b'bus = [{number = 1, groups = ["GA"], ga_ports = 9}]': "ga_max missing",
    b'bus = [{number = 1, groups = ["GA"], ga_max = 2045, ga_ports = 9}]': "ga_max out of range",
    b'bus = [{number = 1, groups = ["FB", "GA"], ga_max = 1, ga_ports = 9}]': "ga_ports out of range",
    b'bus = [{number = 1, groups = ["GA"], ga_max = 1, ga_ports = 1}]': "ga_ports out of range",
    b'bus = [{number = 1, groups = ["FB"]}]': "fb_ports missing",
    b'bus = [{number = 1, groups = ["FB"], fb_ports = 4097}]': "fb_ports out of range",
}
A_SIGNAL = b"{number = 3, signal = [1, 40, 1, 0]}"
A_TURNOUT = b"{number = 5, turnouts = [[1, 40, 1]]}"
MIXED = "a signal of one is a turnout of the other"
CROSSED = "a port is go for one and stop for the other"
# What is refused of a plan, or of the routes of one whose bus is 9
A_DRAWING = (b'bus = 9\nplan = "A=t=B"\nlegend = {t = {turnout = [1, 12, 1]}}\n'
             b"route = [{number = 1, ")
REFUSED_PLANS = {
    b"bus =": "not TOML",
    b"bus = 9\nbus = 9\nroute = []": "not TOML",
    b"bus = 9\nroute = [] # \xff": "not TOML",
    b"routes = 1": "a key that is none of a plan",
    b"bus = 9\nroute = []\nname = 1": "a key that is none of a plan",
    b"": "bus missing",
    b"route = 1": "bus missing",
    b"bus = 0\nroute = []": "bus out of range",
    b"bus = 251": "bus out of range",
    b'bus = "9"': "bus out of range",
    b"bus = 9": "route missing",
    b"bus = 9\nroute = 1": "route out of range",
    b"bus = 9\n[route]\nnumber = 1": "route out of range",
    A_DRAWING + b'from = "A", to = "B", turnouts = []}]': "route 1: no track leads over its turnouts",
    A_DRAWING + b'from = "A", to = "C"}]': "route 1: no track leads to its end",
    A_DRAWING + b'from = "A", to = "C", turnouts = [[1, 12, 0]]}]': "route 1: no track leads over its turnouts",
}
REFUSED_ROUTES = {
    b"1": "route out of range",
    b"{}": "number missing",
    b"{number = 0}": "number out of range",
    b"{number = 2045}": "number out of range",
    b"{number = 1}, {number = 1, turnouts = 1}": "route 1 twice",
    b"{number = 1, block = [[1, 5]], turnouts = 1}": "route 1: a key that is none of a route",
    b"{number = 1, bus = 9}": "route 1: a key that is none of a route",
    b"{block = [[1, 5]]}": "number missing",
    b"{number = 1, turnouts = 1}": "route 1: turnouts out of range",
    b"{number = 1, turnouts = [1, 12, 1]}": "route 1: turnouts out of range",
    b"{number = 1, turnouts = [[1, 12]]}": "route 1: turnouts out of range",
    b"{number = 1, turnouts = [[1, 12, 1, 0]]}": "route 1: turnouts out of range",
    b"{number = 1, turnouts = [[0, 12, 1]]}": "route 1: turnouts out of range",
    b"{number = 1, turnouts = [[251, 12, 1]]}": "route 1: turnouts out of range",
    b"{number = 1, turnouts = [[9, 12, 1]]}": "route 1: turnouts out of range",
    b"{number = 1, turnouts = [[1, 0, 1]]}": "route 1: turnouts out of range",
    b"{number = 1, turnouts = [[1, 2045, 1]]}": "route 1: turnouts out of range",
    b"{number = 1, turnouts = [[1, 12, 8]]}": "route 1: turnouts out of range",
    b"{number = 1, turnouts = [[1, 12, -1]]}": "route 1: turnouts out of range",
    b"{number = 1, turnouts = [[1, 12, 0], [1, 12, 1], 1], blocks = 1}": "route 1: an accessory twice",
    b"{number = 1, turnouts = [[1, 12, 0], 1, [1, 12, 1]], blocks = 1}": "route 1: turnouts out of range",
    b"{number = 1, blocks = 1, signal = 1}": "route 1: blocks out of range",
    b"{number = 1, blocks = [[1, 5], [1, 4097]]}": "route 1: blocks out of range",
    b"{number = 1, blocks = [[9, 5]]}": "route 1: blocks out of range",
    b"{number = 1, blocks = [[1, 5, 0]]}": "route 1: blocks out of range",
    b"{number = 1, signal = [1, 40, 1], frees = 1}": "route 1: signal out of range",
    b"{number = 1, signal = [9, 40, 1, 0]}": "route 1: signal out of range",
    b"{number = 1, signal = [1, 2045, 1, 0]}": "route 1: signal out of range",
    b"{number = 1, signal = [1, 40, 8, 0]}": "route 1: signal out of range",
    b"{number = 1, signal = [1, 40, 0, 8]}": "route 1: signal out of range",
    b"{number = 1, signal = [1, 40, 1, 1]}": "route 1: signal out of range",
    b"{number = 1, turnouts = [[1, 40, 1]], signal = [1, 40, 1, 0], frees = 1}": "route 1: an accessory twice",
    b"{number = 1, frees = [[1, 5]]}": "route 1: frees out of range",
    b"{number = 1, frees = [9, 5]}": "route 1: frees out of range",
    b"{number = 1, frees = [1, 4097]}": "route 1: frees out of range",
    b"{number = 1, approach = [[1, 1], [9, 1]]}": "route 1: approach out of range",
    b"{number = 1, delay = 0}": "route 1: delay out of range",
    b"{number = 1, delay = 601}": "route 1: delay out of range",
    A_SIGNAL + b", " + A_TURNOUT: f"routes 3 and 5: {MIXED}",
    A_TURNOUT + b", " + A_SIGNAL: f"routes 5 and 3: {MIXED}",
    A_SIGNAL + b", {number = 5, signal = [1, 40, 2, 1]}": f"routes 3 and 5: {CROSSED}",
    A_SIGNAL + b", {number = 5, signal = [1, 40, 0, 2]}": f"routes 3 and 5: {CROSSED}",
    A_SIGNAL + b", {number = 4, turnouts = [[2, 40, 1]]}, "
    b"{number = 5, turnouts = [[1, 12, 1]], signal = [1, 40, 0, 1], frees = [1, 5]}, 1": f"routes 3 and 5: {CROSSED}",
    A_SIGNAL + b", {number = 4, turnouts = [[2, 40, 1]]}, "
    b"{number = 5, turnouts = [[1, 40, 1]], signal = [2, 40, 0, 1]}": f"routes 3 and 5: {MIXED}",
}
PRINTED_PLANS = {
    A_DRAWING + b'from = "A", to = "B", turnouts = [[1, 12, 0]]}]': "bus 9\nroute 1 over t B",
    A_DRAWING + b'from = "B", to = "A", turnouts = [[1, 12, 0]]}]': "bus 9\nroute 1 over t A",
    A_DRAWING + b'from = "A", to = "B"}]': "bus 9\nroute 1 over t B",
    A_DRAWING + b'from = "A"}]': "bus 9\nroute 1",
    b'bus = 9\nplan = 1\nroute = [{number = 1, name = "West", from = "W"}]': "bus 9\nroute 1",
    b"bus = 9\nroute = [{number = 3, delay = 600, approach = [[1, 4096]]}]": "bus 9\nroute 3",
    b"bus = 250\nroute = [{number = 2044, turnouts = [[249, 2044, 7], [1, 2044, 0]], "
    b"blocks = [[249, 4096], [249, 4096]], signal = [249, 1, 7, 0], frees = [1, 4096]}]": "bus 250\nroute 2044",
    b"bus = 1\nroute = [{number = 2, turnouts = [[2, 12, 1]]}, {number = 1, turnouts = [[2, 13, 1]]}, "
    b"{number = 3, turnouts = [[3, 12, 1]], blocks = [[2, 12]]}]": "bus 1\nroute 2\nroute 1\nroute 3",
    b"bus = 9\nroute = [" + A_SIGNAL + b", {number = 5, signal = [1, 40, 2, 0]}]":
        "bus 9\nroute 3\nroute 5\nroute 3 conflicts with route 5: signal 1 40",
}
REFUSED_SCRIPTS = {
    b"shut x\n": "line 1: wrong number",
    b"open\n# none\n\nbytes 0 \\q\nOPEN\n": "line 4: wrong number",
    b"bytes 1 \\q": "line 1: wrong escape",
    b"bytes 1 \\x0": "line 1: wrong escape",
    b"bytes 1": "line 1: wrong number",
    b"bytes 4294967296 a": "line 1: wrong number",
    b"room 1 4294967296": "line 1: wrong number",
    b"room 1 5 ": "line 1: wrong number",
    b"at 18446744073709551616": "line 1: wrong number",
    b"open now": "line 1: wrong number",
    b"shut +1": "line 1: wrong number",
    b" open": "line 1: unknown event",
    b"open\r\n": "line 1: unknown event",
}
# Lines of changes, each with the least or the greatest that it can say. A mirror reads the line and writes it.
LINES = b"""\
1.000 101 INFO 0 SESSION 1 COMMAND
0.000 101 INFO 0 SESSION 4294967295 INFO
0.000 100 INFO 1 POWER OFF
0.999 100 INFO 250 POWER ON
7.000 100 INFO 1 POWER ON main line
7.000 100 INFO 9 POWER OFF !
7.000 100 INFO 9 POWER OFF ~\xff
18446744073709551.615 100 INFO 250 POWER OFF %s
2.000 101 INFO 1 GL 1 N 0 1 0
2.000 101 INFO 250 GL 10239 P 255 1000 29
2.000 101 INFO 3 GL 3 M 2 14 5
2.000 101 INFO 10 GL 10 S 1 126 9
3.000 100 INFO 1 GL 1 0 0 0
3.000 100 INFO 1 GL 1 1 65535 0 0
3.000 100 INFO 250 GL 10239 0 65535 65535 1
3.000 100 INFO 1 GL 3 1 5 28 0 1 1 0 1
3.000 100 INFO 250 GL 10239 2 0 65535%s
3.000 100 INFO 1 GL 7 1 0 0%s
4.000 101 INFO 1 GA 1 N
4.000 101 INFO 250 GA 2044 P
4.000 100 INFO 1 GA 1 0 0
4.000 100 INFO 1 GA 5 1 1
4.000 100 INFO 250 GA 2044 7 1
0.000 100 INFO 1 FB 1 0
1.050 100 INFO 1 FB 2 1
18446744073709551.615 100 INFO 1 FB 1 0
18446744073709551.614 100 INFO 250 FB 4096 1
5.000 100 INFO 1 LOCK GL 1 0 1
5.000 100 INFO 250 LOCK GL 10239 86400 4294967295
5.000 100 INFO 1 LOCK GA 1 60 2
5.000 100 INFO 250 LOCK GA 2044 86400 4294967295
""" % (b"12345678901234567890123456789012345678 01234567890123456789012345678901234567890", b" 1" * 29, b" 0" * 29)
# The rows that a mirror has after some lines. A lock is a device of its own.
MIRRORED = {
    b"0.000 100 INFO 1 FB 1 0\n1.050 100 INFO 1 FB 1 1\n": b"1.050 100 INFO 1 FB 1 1\n",
    b"1.000 100 INFO 1 LOCK GL 3 60 1\n1.000 100 INFO 1 GL 3 1 0 0 0 0\n1.000 101 INFO 0 SESSION 2 INFO\n"
    b"1.000 101 INFO 1 GL 3 N 1 28 2\n1.000 100 INFO 1 GL 3 0 9 28 1 1\n":
        b"1.000 101 INFO 0 SESSION 2 INFO\n1.000 101 INFO 1 GL 3 N 1 28 2\n1.000 100 INFO 1 GL 3 0 9 28 1 1\n"
        b"1.000 100 INFO 1 LOCK GL 3 60 1\n",
    b"1.000 100 INFO 1 LOCK GL 3 60 1\n1.000 100 INFO 1 GL 3 1 0 0 0 0\n1.000 101 INFO 1 GL 3 N 1 28 2\n"
    b"2.000 102 INFO 1 GL 3\n2.000 102 INFO 1 GL 3\n": b"1.000 100 INFO 1 LOCK GL 3 60 1\n",
}
# Lines of what goes, each with the line of what was there.
GOES = {
    b"0.001 102 INFO 0 SESSION 1": b"1.000 101 INFO 0 SESSION 1 COMMAND",
    b"18446744073709551.615 102 INFO 0 SESSION 4294967295": b"0.000 101 INFO 0 SESSION 4294967295 INFO",
    b"0.050 102 INFO 1 GL 1": b"3.000 100 INFO 1 GL 1 0 0 0",
    b"10.000 102 INFO 250 GL 10239": b"2.000 101 INFO 250 GL 10239 P 255 1000 29",
    b"4.000 102 INFO 1 GA 1": b"4.000 101 INFO 1 GA 1 N",
    b"4.000 102 INFO 250 GA 2044": b"4.000 100 INFO 250 GA 2044 7 1",
    b"5.000 102 INFO 1 LOCK GL 1": b"5.000 100 INFO 1 LOCK GL 1 0 1",
    b"5.000 102 INFO 250 LOCK GL 10239": b"5.000 100 INFO 250 LOCK GL 10239 86400 4294967295",
    b"5.000 102 INFO 1 LOCK GA 1": b"5.000 100 INFO 1 LOCK GA 1 60 2",
    b"5.000 102 INFO 250 LOCK GA 2044": b"5.000 100 INFO 250 LOCK GA 2044 86400 4294967295",
}
# What no server sends: another spelling, another word, and a number beyond its range.
NO_LINES = b"""\
1.000 100 INFO 1 FB 01 0
01.000 100 INFO 1 FB 1 0
1.000 100 INFO 01 FB 1 0
1.000 100 INFO 1 FB 1 00
1.00 100 INFO 1 FB 1 0
1.0000 100 INFO 1 FB 1 0
1 100 INFO 1 FB 1 0
1.000  100 INFO 1 FB 1 0
0.000 100 INFO 1  POWER OFF
 0.000 100 INFO 1 POWER OFF
0.000 100 INFO 1 POWER OFF\x20
0.000\t100 INFO 1 POWER OFF
0.000 100 INFO 1 POWER OFF\r
0.000 100 info 1 POWER OFF
0.000 100 INFO 1 power OFF
0.000 100 INFO 1 POWER off
0.000 101 INFO 1 GA 1 n

0.000
0.000 200 OK
0.000 200 OK GO 1
0.000 416 ERROR no data
%s
0.000 100 INFO 1 FB 1
0.000 100 INFO 1 FB 1 0 0
0.000 101 INFO 1 FB 1 0
0.000 100 INFO 0 SESSION 1 INFO
0.000 102 INFO 1 POWER
0.000 102 INFO 1 POWER 0
0.000 102 INFO 1 FB 1
0.000 100 INFO 1 LOCK FB 1 0 1
0.000 100 INFO 1 SM 1 0
0.000 101 INFO 1 GA 1 Q
0.000 100 INFO 1 FB 1 2
0.000 100 INFO 1 POWER ON a  b
0.000 100 INFO 1 POWER ON a\tb
0.000 100 INFO 1 POWER ON \x7f
18446744073709551.616 100 INFO 1 FB 1 0
18446744073709552.000 100 INFO 1 FB 1 0
99999999999999999999.000 100 INFO 1 FB 1 0
0.000 100 INFO 0 FB 1 0
0.000 100 INFO 251 FB 1 0
0.000 100 INFO 257 FB 1 0
0.000 100 INFO 1 FB 0 0
0.000 100 INFO 1 FB 4097 0
0.000 100 INFO 1 FB 4294967297 0
0.000 100 INFO 1 GL 10240 0 0 0
0.000 100 INFO 1 GL 1 3 0 0
0.000 100 INFO 1 GL 1 0 29 28
0.000 100 INFO 1 GL 1 2 1 28
0.000 100 INFO 1 GL 1 0 0 65536
0.000 100 INFO 1 GL 1 0 0 0%s
0.000 101 INFO 1 GL 1 N 256 1 0
0.000 101 INFO 1 GL 1 N 0 0 0
0.000 101 INFO 1 GL 1 N 0 1001 0
0.000 101 INFO 1 GL 1 N 0 1 30
0.000 101 INFO 1 GA 2045 N
0.000 100 INFO 1 GA 5 8 0
0.000 100 INFO 1 GA 5 255 0
0.000 100 INFO 1 LOCK GL 1 86401 1
0.000 100 INFO 1 LOCK GL 1 0 0
0.000 101 INFO 0 SESSION 0 INFO
0.000 101 INFO 1 SESSION 1 INFO
0.000 100 INFO 1 POWER ON %s
""" % (WELCOME.rstrip(b"\n"), b" 0" * 30, b"1234567890" * 8 + b"1")
REFUSED_LINES = {
    b"1.000 100 INFO 1 FB 1 0\n\n": 2,
    b"18446744073709551.615 100 INFO 1 FB 1 0\n18446744073709551.616 100 INFO 1 FB 1 0\n": 2,
    b"1.000 200 OK\nGET 1 POWER\n": 1,
} | {line: 1 for line in NO_LINES.splitlines(keepends=True)}


def first_difference(rows):
    """The first row of (input, got, want) that differs, or None."""
    return next((fault for given, got, want in rows if (fault := unlike(given, got, want))), None)


def fault_told(text):
    return 2, f"srcp_server: {text}\n".encode(), b""


def documents_that_are_checked(program):
    return first_difference((document, check_document(program, document), (0, b"", told.encode() + b"\n"))
                            for document, told in CHECKED.items())


def documents_that_are_refused(program):
    """By each word that reads a configuration."""
    words = ("check", "--config"), ("serve", "--turns", "1", "--config"), ("replay", "--config")
    return first_difference((document, check_document(program, document, word), fault_told(f"config: {fault}"))
                            for document, fault in REFUSED_DOCUMENTS.items() for word in words)


def plans_that_are_printed(program):
    return first_difference((plan, check_document(program, plan, ("check", "--plan")), (0, b"", told.encode() + b"\n"))
                            for plan, told in PRINTED_PLANS.items())


def plans_that_are_refused(program):
    """By each word that reads a plan."""
    plans = REFUSED_PLANS | {b"bus = 9\nroute = [" + routes + b"]": fault for routes, fault in REFUSED_ROUTES.items()}
    return first_difference((plan, check_document(program, plan, (word, "--plan")), fault_told(f"plan: {fault}"))
                            for plan, fault in plans.items() for word in ("interlock", "check"))


def moment_with_leading_zeros(program):
    """A number of a script may have any count of them."""
    script = b"at 0018446744073709551615\nopen\nroom 1 1000\nbytes 1 GO\\n\nroom 1 1000\n"
    sent = WELCOME + b"18446744073709551.615 200 OK GO 1\n"
    rows = b"rows 2\n18446744073709551.615 101 INFO 0 SESSION 1 COMMAND\n0.000 100 INFO 1 POWER OFF\n"
    return unlike("replay", outcome(program, [], script), (0, b"", b"connection 1 %d open\n" % len(sent) + sent + rows))


def scripts_that_are_refused(program):
    return first_difference((script, outcome(program, ["replay"], script), fault_told(f"script {fault}"))
                            for script, fault in REFUSED_SCRIPTS.items())


def lines_that_no_server_sends(program):
    return first_difference((lines, outcome(program, ["mirror"], lines),
                             fault_told(f"mirror line {number}: not an information line"))
                            for lines, number in REFUSED_LINES.items())


def lines_that_a_mirror_reads_and_writes(program):
    """Each is written as it was read. Of the lines of what goes none is left, nor any of what was there."""
    gone = {there + b"\n" + goes + b"\n": b"" for goes, there in GOES.items()}
    whole = {line + b"\n": line + b"\n" for line in LINES.split(b"\n")[:-1]}
    return first_difference((lines, outcome(program, ["mirror"], lines), (0, b"", left))
                            for lines, left in (whole | MIRRORED | gone).items())


TABLE_CASES = (documents_that_are_checked, documents_that_are_refused, plans_that_are_printed,
               plans_that_are_refused, moment_with_leading_zeros, scripts_that_are_refused,
               lines_that_no_server_sends, lines_that_a_mirror_reads_and_writes)
