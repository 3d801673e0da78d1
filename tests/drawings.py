"""Plans with a drawing: over which elements each route leads, which routes have a piece of track in common, and which
turnouts are found for a route that names its ends alone."""
import random
from typing import Any

from inputs import check_document
from tables import fault_told, first_difference


def plan_of(drawing, legend, *routes):
    """A plan with these texts of a drawing and of a legend, and with routes from 1 on, each with its keys."""
    tables = "".join(f"[[route]]\nnumber = {number}\n{keys}\n" for number, keys in enumerate(routes, 1))
    return f"bus = 3\nplan = '''\n{drawing}'''\n[legend]\n{legend}{tables}".encode()


CROSSING = r"""A==s1==\       /==C
        \     /
         \   /
          \ /
           +
          / \
         /   \
B==s2===/     \==D
""", """A = { button = 'A' }
B = { button = 'B' }
C = { button = 'C' }
D = { button = 'D' }
s1 = { signal = [2, 1, 2, 0] }
s2 = { signal = [2, 2, 2, 0] }
"""
LINE = """A==s1==b1==s2==B==s3==C
""", """A = { button = 'A' }
B = { button = 'B' }
C = { button = 'C' }
b1 = { sensor = [1, 1] }
s1 = { signal = [2, 1, 2, 0] }
s2 = { signal = [2, 2, 2, 0] }
s3 = { signal = [2, 3, 2, 0] }
"""
# Of two tracks, whose turnouts lead to the branch by port 1, and by port 0.
STATION = r"""W==b1===s1===t1===b5==b2==Pö===s2===t2===b4==E
 valley        \   ###p1######     /
                \=b6==b3==Q===s3==/
""", """W = { button = 'West' }
E = { button = 'East' }
'Pö' = { button = 'Track 1' }
Q = { button = 'Track 2' }
t1 = { turnout = [1, 1, 1] }
t2 = { turnout = [1, 2, 0] }
s1 = { signal = [1, 11, 1, 0] }
s2 = { signal = [1, 12, 1, 0] }
s3 = { signal = [1, 13, 1, 0] }
b1 = { sensor = [1, 1] }
b2 = { sensor = [1, 2] }
b3 = { sensor = [1, 3] }
b4 = { sensor = [1, 4] }
b5 = { sensor = [1, 5] }
b6 = { sensor = [1, 6] }
p1 = { platform = 'Platform' }
valley = { text = 'to the valley' }
"""
DRAWN = {
    # a crossing is one piece of two ways
    plan_of(*CROSSING, "from = 'A'\nto = 'D'", "from = 'B'\nto = 'C'"): """bus 3
route 1 over s1 D
route 2 over s2 C
route 1 conflicts with route 2: track in row 5 column 12
""",
    # no two trains meet on one track
    plan_of(*LINE, "from = 'A'\nto = 'B'", "from = 'B'\nto = 'A'", "from = 'B'\nto = 'C'", "from = 'C'\nto = 'B'", ""):
        """bus 3
route 1 over s1 b1 s2 B
route 2 over s2 b1 s1 A
route 3 over s3 C
route 4 over s3 B
route 5
route 1 conflicts with route 2: track in row 1 column 2
route 1 conflicts with route 4: track in row 1 column 16
route 3 conflicts with route 4: track in row 1 column 17
""",
    # a way leads where its turnouts are put
    plan_of(*STATION, "from = 'W'\nto = 'Pö'\nturnouts = [[1, 1, 0]]",
            "from = 'W'\nto = 'Q'\nturnouts = [[1, 1, 1], [1, 9, 7]]", "from = 'E'\nto = 'Pö'\nturnouts = [[1, 2, 1]]",
            "from = 'Q'\nto = 'E'\nturnouts = [[1, 2, 0]]"): """bus 3
route 1 over b1 s1 t1 b5 b2 Pö
route 2 over b1 s1 t1 b6 b3 Q
route 3 over b4 t2 s2 Pö
route 4 over s3 t2 b4 E
route 1 conflicts with route 2: turnout 1 1, track in row 1 column 2
route 1 conflicts with route 3: track in row 1 column 27
route 3 conflicts with route 4: turnout 1 2, track in row 1 column 44
""",
}
# Routes that the drawing of the station does not have.
NOT_DRAWN = ("from = 'W'\nto = 'Pö'\nturnouts = []", "from = 'W'\nto = 'Pö'\nturnouts = [[1, 1, 1]]",
             "from = 'W'\nto = 'E'\nturnouts = [[1, 1, 0], [1, 2, 0]]", "from = 'W'\nto = 'p1'\nturnouts = [[1, 1, 0]]",
             "from = 'West'\nto = 'Pö'\nturnouts = [[1, 1, 0]]", "from = 'W'\nto = 'W'\nturnouts = [[1, 1, 0]]",
             "from = 'Pö'\nto = 'Q'\nturnouts = [[1, 1, 0], [1, 2, 0]]")


def legend_of(**kinds):
    """A legend of elements of these kinds, each with the numbers or the text of its name."""
    return "".join(f"{name} = {{ {kind} = {given!r} }}\n"
                   for kind, names in kinds.items() for name, given in names.items())


# Two throats of four tracks, a ladder of eight, and a crossover of one motor.
THROATS = r"""                 /==b1===A1===sA1==\
W===sW==b0==t1==t2==b2===A2===sA2==t5==t6==b9==sE==E
              \                        /
               t3===b3===A3===sA3===t7=
                \                  /
                 \==b4===A4===sA4=/
""", legend_of(button={name: name for name in ("W", "E", "A1", "A2", "A3", "A4")},
               turnout={f"t{number}": [1, number, 1] for number in (1, 2, 3, 5, 6, 7)},
               sensor={f"b{number}": [1, number + 1] for number in (0, 1, 2, 3, 4, 9)},
               signal={f"s{name}": [2, number, 2, 0]
                       for number, name in enumerate(("W", "E", "A1", "A2", "A3", "A4"), 1)})
LADDER = r"""L==s0==b0==t1==Y1
            \
             t2==Y2
              \
               t3==Y3
                \
                 t4==Y4
                  \
                   t5==Y5
                    \
                     t6==Y6
                      \
                       t7==Y7
                        \
                         \==Y8
""", legend_of(button={"L": "Lead", **{f"Y{number}": f"Yard {number}" for number in range(1, 9)}},
               turnout={"t1": [1, 1, 1], **{f"t{number}": [1, number, 0] for number in range(2, 8)}},
               sensor={"b0": [1, 10]}, signal={"s0": [2, 1, 2, 0]})
ONE_MOTOR = r"""A==b1==t1=======b2==C
         \
          \
B==b3======t2===b4==D
""", legend_of(button={name: name for name in "ABCD"}, turnout={"t1": [1, 1, 1], "t2": [1, 1, 1]},
               sensor={f"b{number}": [1, number] for number in range(1, 5)})
# The turnouts of routes that name their ends alone.
ENDS: tuple[tuple[tuple[str, str], dict[str, list[list[int]]]], ...] = (
    (STATION, {"W Pö": [[1, 1, 0]], "W Q": [[1, 1, 1]], "E Pö": [[1, 2, 1]], "Q E": [[1, 2, 0]]}),
    (THROATS, {"W A1": [[1, 1, 0], [1, 2, 1]], "W A2": [[1, 1, 0], [1, 2, 0]], "A4 W": [[1, 3, 0], [1, 1, 1]],
               "A3 E": [[1, 7, 0], [1, 6, 1]], "E A4": [[1, 6, 1], [1, 7, 1]], "A1 E": [[1, 5, 1], [1, 6, 0]]}),
    (LADDER, {"L Y1": [[1, 1, 0]], "L Y3": [[1, 1, 1], [1, 2, 1], [1, 3, 0]],
              "L Y7": [[1, 1, 1], [1, 2, 1], [1, 3, 1], [1, 4, 1], [1, 5, 1], [1, 6, 1], [1, 7, 0]],
              "Y8 L": [[1, 7, 1], [1, 6, 1], [1, 5, 1], [1, 4, 1], [1, 3, 1], [1, 2, 1], [1, 1, 1]]}),
    (ONE_MOTOR, {"A C": [[1, 1, 0]], "B D": [[1, 1, 0]], "A D": [[1, 1, 1]], "D A": [[1, 1, 1]]}),
    (CROSSING, {"A D": [], "B C": []}))
# What is found of routes of the station that name their ends and their signal alone, and what if the blocks are written
# out too: a route of which one sensor lies behind all turnouts has no sections.
BOTH, LAST = [[1, 5], [1, 2]], [[1, 4]]
Keys = dict[str, list[Any]]
BEHIND: tuple[tuple[str, Keys, Keys], ...] = (
    ("W Pö", {"signal": [1, 11, 1, 0]}, {"turnouts": [[1, 1, 0]], "blocks": BOTH, "sections": BOTH}),
    ("W Pö", {"signal": [1, 11, 1, 0], "blocks": LAST}, {"turnouts": [[1, 1, 0]], "blocks": LAST, "sections": BOTH}),
    ("W Pö", {"signal": [1, 11, 1, 0], "sections": []}, {"turnouts": [[1, 1, 0]], "blocks": BOTH, "sections": []}),
    ("W Pö", {"signal": [1, 11, 1, 0], "turnouts": [[1, 1, 0]]}, {"blocks": [], "sections": []}),
    ("Q E", {"signal": [1, 13, 1, 0]}, {"turnouts": [[1, 2, 0]], "blocks": LAST, "sections": []}),
    ("E Pö", {"signal": [1, 12, 1, 0]}, {"turnouts": [[1, 2, 1]], "blocks": [], "sections": []}),
    ("W Q", {"signal": [1, 12, 1, 0]}, {"turnouts": [[1, 1, 1]], "blocks": [], "sections": []}),
    ("W Q", {}, {"turnouts": [[1, 1, 1]], "blocks": [], "sections": []}))
# Without its buttons the station has two ways from W to E.
PASSING = STATION[0].replace("=Pö=", "====").replace("=Q=", "==="), "".join(
    f"{line}\n" for line in STATION[1].splitlines() if not line.startswith(("'Pö'", "Q")))
NO_ENDS = (
    ("no track leads", STATION, ("W E", "Pö Q", "W p1", "W West")), ("no track leads", THROATS, ("A1 A2", "W E")),
    ("no track leads", ONE_MOTOR, ("B C",)), ("no track leads", CROSSING, ("A C",)),
    ("several tracks lead", PASSING, ("W E", "E W")))
RANDOM = 800  # drawings at random


def routes_of_drawings(program):
    return first_difference((plan, check_document(program, plan, ("check", "--plan")), (0, b"", table.encode()))
                            for plan, table in DRAWN.items())


def routes_that_a_drawing_does_not_have(program):
    plans = [plan_of(*STATION, keys) for keys in NOT_DRAWN]
    return first_difference((plan, check_document(program, plan, ("check", "--plan")),
                             fault_told("plan: route 1: no track leads over its turnouts")) for plan in plans)


def keys_of(ends, **keys):
    """The keys of a route by its two ends, and what else is written out."""
    begin, end = ends.split()
    return "\n".join([f"from = '{begin}'", f"to = '{end}'", *(f"{key} = {value!r}" for key, value in keys.items())])


def course(program, plan, count, sensors=()):
    """What is ordered as each of these routes is set and given back, one after the other: while one of the sensors of
    bus 1 is occupied, and as a train comes to them and leaves them."""
    def told(values):
        return [f"100 INFO 1 FB {sensor} {value}" for value, of in values for sensor in of]

    ready = ["200 OK"] * 20
    begins = ["200 OK GO 2", *ready]  # whose orders stand between those of one sensor and those of the next
    lines = [*begins, *told([(0, sensors)])]
    for number in range(1, count + 1):
        asks, gives = ([f"100 INFO 3 GA {number} {port} 1", *ready] for port in (1, 0))
        for sensor in sensors:
            lines += [*told([(1, [sensor])]), *asks, *gives, *told([(0, [sensor])]), *begins]
        for order in (sensors, sensors[::-1]):
            lines += [*asks, *told([(1, order)]), "200 OK", *told([(0, order)]), *ready, *asks, *gives, *begins]
    return check_document(program, plan, ("interlock", "--plan"), "".join(f"1.000 {line}\n" for line in lines).encode())


def routes_that_name_their_ends_alone(program):
    """They are read as if the turnouts that the drawing has between them were written out. If no way or several lead
    from one to the other, the plan is refused."""
    for drawing, routes in ENDS:
        alone = plan_of(*drawing, *map(keys_of, routes))
        written = plan_of(*drawing, *(keys_of(ends, turnouts=turnouts) for ends, turnouts in routes.items()))
        told, *want = check_document(program, written, ("check", "--plan")), course(program, written, len(routes))
        got = [check_document(program, alone, ("check", "--plan")), course(program, alone, len(routes))]
        if got != [told, *want] or told[0]:
            return f"{alone.decode()}: {got}, want {[told, *want]}"
    return first_difference(
        (plan, check_document(program, plan, ("check", "--plan")), fault_told(f"plan: route 1: {fault} to its end"))
        for fault, drawing, ends in NO_ENDS for plan in (plan_of(*drawing, keys_of(each)) for each in ends))


def sensors_behind_a_signal(program):
    """They are the blocks and the sections of a route that names its ends alone, if these are not written out."""
    return first_difference(
        (keys, *(course(program, plan_of(*STATION, keys_of(ends, **each)), 1, range(1, 7))
                 for each in (keys, keys | found)))
        for ends, keys, found in BEHIND)


def random_drawing(draw):
    """A drawing of tracks side by side with turnouts between them, and the names of its buttons. Some of the turnouts
    have one motor."""
    count, width = draw.randint(2, 4), draw.randint(2, 5)
    cells = [list("= "[row % 2] * (width * 10 + 16)) for row in range(2 * count - 1)]
    kinds = {"button": {}, "turnout": {}, "sensor": {}, "signal": {}}

    def put(row, column, name):
        cells[row][column:column + len(name)] = name

    for track in range(count):
        for kind, side, column in (("button", "L", 0), ("signal", "s", 3), ("button", "R", width * 10 + 14)):
            kinds[kind][f"{side}{track}"] = [2, track + 1, 2, 0] if kind == "signal" else "an end"
            put(2 * track, column, f"{side}{track}")
        for name, sensor, column in ((f"e{track}", 5, width * 10 + 7), (f"f{track}", 6, width * 10 + 10)):
            if draw.random() < 0.6:
                kinds["sensor"][name] = [1, sensor]
                put(2 * track, column, name)
    for place in range(width):
        track, rises, column = draw.randrange(count - 1), draw.random() < 0.5, 8 + 10 * place
        upper, lower = (column + 1, column - 2) if rises else (column - 2, column + 1)
        put(2 * track + 1, column, "/" if rises else "\\")
        for row, at, name in ((2 * track, upper, f"t{place}"), (2 * track + 2, lower, f"u{place}")):
            put(row, at, name)
            address = place + 1 if draw.random() < 0.3 else len(kinds["turnout"]) + 10
            kinds["turnout"][name] = [1, address, draw.randint(0, 1)]
        if draw.random() < 0.9:
            name, on = f"m{place}", draw.choice((1, 1, 1, 3))
            kinds["button" if draw.random() < 0.1 else "sensor"][name] = [on, place + 1]
            put(draw.randrange(count) * 2, column + 4, name)
    kinds["button"] = {name: "a button" for name in kinds["button"]}
    return ("\n".join("".join(row) for row in cells) + "\n", legend_of(**kinds)), [*kinds["button"]]


def routes_of_random_drawings(program):
    """The program finds the turnouts and the sensors that the page finds, or tells the same fault."""
    from srcp_bridges.plan import plan as page  # by then bridge_tests has said which programs these are
    draw, met = random.Random(80), {"no track leads": 0, "several tracks lead": 0, "found": 0, "sections": 0}
    for _ in range(RANDOM):
        drawing, buttons = random_drawing(draw)
        begin = draw.choice([button for button in buttons if button[0] == "L" or draw.random() < 0.2])
        ends = f"{begin} {draw.choice([button for button in buttons if button != begin])}"
        signal = int(begin[-1]) + 1 if draw.random() < 0.8 else draw.randint(1, 3)
        keys = {"name": "", **({"signal": [2, signal, 2, 0]} if draw.random() < 0.8 else {})}
        plan = plan_of(*drawing, keys_of(ends, **keys))
        try:
            [route] = page.plan_of(plan.decode()).routes
        except ValueError as refused:
            [fault] = [each for each in met if each in str(refused)] or [str(refused)]
            got = check_document(program, plan, ("check", "--plan"))
            want = fault_told(f"plan: route 1: {fault} to its end")
        else:
            fault = "sections" if route["sections"] else "found"
            got = course(program, plan, 1, range(1, 7))
            keys |= {key: route[key] for key in ("turnouts", "blocks", "sections")}
            want = course(program, plan_of(*drawing, keys_of(ends, **keys)), 1, range(1, 7))
        met[fault] = met.get(fault, 0) + 1
        if got != want:
            return f"{plan.decode()}: {got}, want {want}"
    return None if min(met.values()) > RANDOM / 50 and len(met) == 4 else f"drawings of {met}"


DRAWING_CASES = (routes_of_drawings, routes_that_a_drawing_does_not_have, routes_that_name_their_ends_alone,
                 sensors_behind_a_signal, routes_of_random_drawings)
