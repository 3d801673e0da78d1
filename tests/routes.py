"""What `interlock` orders for the routes of a plan, compared with a model that shares nothing with it."""
import random
import subprocess
import sys
import tempfile
import time
import tomllib
from contextlib import contextmanager
from itertools import takewhile
from pathlib import Path

from serving import SECONDS

sys.path.insert(0, str(Path(__file__).resolve().parent / "stand_ins"))
from interlocking import Interlocking  # noqa: E402

PLANS = 250
LISTS = 20  # of events, of each plan
EVENTS = 80  # of each list
TRAINS = 500  # so many at least give their routes back by sections, over all lists
DELAYS = 300  # so many delays begin at least, over all lists
OWN = 9  # the bus of the routes
TURNOUTS = [(bus, address) for bus in (1, 2) for address in range(1, 6)]
SIGNALS = [(bus, address) for bus in (1, 2) for address in range(11, 14)]
SENSORS = [(bus, address) for bus in (1, 2) for address in range(1, 5)]
REFUSALS = ("412 ERROR wrong value", "414 ERROR device locked", "416 ERROR no data", "500 ERROR out of resources")
NO_EVENTS = ("101 INFO 0 SESSION 5 COMMAND", "102 INFO 1 GA 3", "100 INFO 1 GA 1 1 1", "100 INFO 1 POWER ON by hand",
             f"100 INFO {OWN} GA 1 1 0", f"100 INFO {OWN} GA 1 0 0", f"100 INFO {OWN} GA 1 2 1",
             "202 OK CONNECTIONMODE", f"100 INFO {OWN} LOCK GA 1 0 3", "",
             f"101 INFO {OWN} GA 1 N", f"100 INFO {OWN} GA 2044 1 1")


def plan_of(draw):
    """A plan of 1 to 8 routes, many of which conflict."""
    lines = [f"bus = {OWN}"]
    for number in draw.sample(range(1, 13), draw.randint(1, 8)):
        turnouts = [[*each, draw.randint(0, 1)] for each in draw.sample(TURNOUTS, draw.randint(0, 3))]
        blocks = [list(each) for each in draw.sample(SENSORS, draw.randint(0, 2))]
        lines += ["[[route]]", f"number = {number}", f"turnouts = {turnouts}", f"blocks = {blocks}"]
        if draw.random() < 0.7:
            lines.append(f"signal = {[*draw.choice(SIGNALS), draw.randint(3, 7), draw.randint(0, 2)]}")
        if draw.random() < 0.5:
            lines.append(f"frees = {list(draw.choice(SENSORS))}")
        if draw.random() < 0.8:
            count = draw.randint(0, 4)
            sections = draw.sample(SENSORS, count) if draw.random() < 0.9 else draw.choices(SENSORS, k=count)
            lines.append(f"sections = {[list(each) for each in sections]}")
        if draw.random() < 0.5:
            approach = [list(each) for each in draw.sample(SENSORS, draw.randint(0, 2))]
            lines += [f"approach = {approach}", *draw.choice(([], [f"delay = {draw.randint(1, 4)}"]))]
    return "\n".join(lines) + "\n"


def drive(draw, sections):
    """Yields what sensors tell as a train comes into these sections and leaves them: most often it goes on, and may be
    in several of them, or in a gap between two. Else it goes back. Or a sensor tells once more what it is, flickers, or
    is not known for a while: then None stands for its value."""
    tail = head = 0  # it is in sections[tail:head]
    while tail < len(sections):
        what = draw.random()
        if what < 0.2 and head:
            place = draw.randrange(head)
            value = int(place >= tail)
            yield from [(sections[place], each) for each in draw.choice(([], [1 - value], [None]))]
            yield sections[place], value
        elif what < 0.3 and head > tail:
            head -= 1
            yield sections[head], 0
        elif what < 0.4 and tail:
            tail -= 1
            yield sections[tail], 1
        elif head < len(sections) and (head == tail or draw.random() < 0.6):
            yield sections[head], 1
            head += 1
        else:
            yield sections[tail], 0
            tail += 1


def driven(draw, model, drives):
    """What a train tells next: most often one that is followed, and seldom another. `drives` has those of before, by
    the numbers of their routes."""
    followed = [route for route in model.routes if route.train]
    others = [route for route in model.routes if route.sections and not route.train]
    if not (routes := followed if draw.random() < 0.8 else others if draw.random() < 0.5 else []):
        return None
    route = draw.choice(routes)
    if not (told := next(drives.get(route.number, iter(())), None)):
        drives[route.number] = drive(draw, route.sections)
        told = next(drives[route.number])
    (bus, sensor), value = told
    return f"102 INFO {bus} FB {sensor}" if value is None else f"100 INFO {bus} FB {sensor} {value}"


def event_of(draw, model, drives):
    """A line that may come next: most often the reply that is waited for, or what a train tells."""
    if model.waits and draw.random() < 0.6 or draw.random() < 0.03:
        return draw.choice(REFUSALS) if draw.random() < 0.15 else "200 OK"
    if told := driven(draw, model, drives):
        return told
    if draw.random() < 0.2:
        return f"100 INFO {draw.choice((0, 0, 7))} TIME"
    what, route = draw.random(), draw.choice(model.routes).number
    if what < 0.45:
        return f"100 INFO {OWN} GA {route} 1 1"
    if what < 0.6:
        return f"100 INFO {OWN} GA {route} 0 1"
    if what < 0.9:
        sensor = "{} FB {}".format(*draw.choice(SENSORS))
        return f"102 INFO {sensor}" if draw.random() < 0.1 else f"100 INFO {sensor} {draw.choice((0, 0, 1))}"
    return f"200 OK GO {draw.randint(1, 99)}" if what < 0.92 else draw.choice(NO_EVENTS)


def list_of(draw, model):
    """Yields the lines of a list, each with the order that follows in the model, or None. A session begins first, which
    most often knows that all sensors are 0."""
    drives = {}
    known = ["100 INFO {} FB {} 0".format(*each) for each in SENSORS if draw.random() < 0.9]
    before = [event_of(draw, model, drives) for _ in range(draw.choice((0, 3)))]
    for line in [*before, f"200 OK GO {draw.randint(1, 99)}", *known]:
        yield f"0.000 {line}", model.take(f"0.000 {line}")
    for _ in range(EVENTS):
        line = f"{draw.randint(0, 10 ** 12)}.{draw.randint(0, 999):03} {event_of(draw, model, drives)}"
        yield line, model.take(line)


@contextmanager
def plan_file(text):
    with tempfile.NamedTemporaryFile("w", suffix=".toml") as file:
        file.write(text)
        file.flush()
        yield file.name


def difference(program, text, lines):
    """Returns at which of these lines a plan has other orders than in the model, or None."""
    with plan_file(text) as path:
        done = subprocess.run([program, "interlock", "--plan", path], input="".join(f"{line}\n" for line, _ in lines),
                              capture_output=True, text=True, timeout=SECONDS)
    got, want = done.stdout.splitlines(), [(place, order) for place, (_, order) in enumerate(lines) if order]
    if (done.returncode, done.stderr, got) == (0, "", [order for _, order in want]):
        return None
    same = sum(1 for _ in takewhile(lambda pair: pair[0] == pair[1][1], zip(got, want)))
    place, order = want[same] if same < len(want) else (len(lines), None)
    before = [line for line, _ in lines[max(0, place - 8):place + 1]]
    return f"status {done.returncode}, {done.stderr!r}: order {same + 1} is {got[same:same + 1]}, want {order}, " \
           f"after {before}; the plan is {text}"


def routes_as_in_the_model(program):
    """5,000 lists of events at random, over plans at random: asks, give-backs, trains, sensors, seconds, refusals
    and lost sessions."""
    draw, trains, delays = random.Random(57), 0, 0
    for _ in range(PLANS):
        text = plan_of(draw)
        model = Interlocking(tomllib.loads(text))
        if fault := difference(program, text, [pair for _ in range(LISTS) for pair in list_of(draw, model)]):
            return fault
        trains += model.trains
        delays += sum(route.delays for route in model.routes)
    if trains < TRAINS:
        return f"{trains} trains have passed the sections of their routes, want {TRAINS}"
    return None if delays >= DELAYS else f"{delays} delays began, want {DELAYS}"


def orders_come_at_once(program):
    """Each order comes as soon as its line has come, and none later."""
    draw = random.Random(58)
    text = plan_of(draw)
    model = Interlocking(tomllib.loads(text))
    with plan_file(text) as path, subprocess.Popen([program, "interlock", "--plan", path], stdin=subprocess.PIPE,
                                                   stdout=subprocess.PIPE, text=True, bufsize=1) as box:
        assert box.stdin and box.stdout
        count, began = 0, time.monotonic()
        for line, order in list_of(draw, model):
            box.stdin.write(f"{line}\n")
            if order and (got := box.stdout.readline()) != f"{order}\n":
                return f"after {line}: {got!r}, want {order}"
            count += order is not None
        box.stdin.close()
        rest = box.stdout.read()
    seconds = time.monotonic() - began
    return None if count > 5 and not rest and seconds < SECONDS else f"{count} orders, then {rest!r}, in {seconds} s"


PLAN = """bus = 9
[[route]]
number = 1
turnouts = [[1, 1, 0]]
signal = [2, 1, 2, 0]
frees = [1, 5]
[[route]]
number = 2
turnouts = [[1, 2, 0]]
"""
BEGUN = ["200 OK GO 2", *["200 OK"] * 3]
SETS_1 = ["100 INFO 9 GA 1 1 1", *["200 OK"] * 4]
ORDERS = ["SET 2 GA 1 0 1 250", "SET 9 FB 1 0", "SET 9 FB 2 0"]
ORDERS_1 = ["SET 1 LOCK GA 1 0", "SET 1 GA 1 0 1 250", "SET 2 GA 1 2 1 250", "SET 9 FB 1 1"]
ENDS_1 = ["SET 2 GA 1 0 1 250", "SET 9 FB 1 0", "TERM 1 LOCK GA 1"]


def ordered(program, lines, plan=PLAN):
    with plan_file(plan) as path:
        done = subprocess.run([program, "interlock", "--plan", path], text=True, capture_output=True, timeout=SECONDS,
                              input="".join(f"1.000 {line}\n" for line in lines))
    return done.stdout.splitlines()


def give_backs_are_carried_out(program):
    """A route that is given back ends, and is set anew then, if it is asked for again before its stop was sent, while
    the order of another route, or its own, waits."""
    for given in (["100 INFO 1 FB 5 1", "100 INFO 1 FB 5 0"], ["100 INFO 9 GA 1 0 1"]):
        again = [*given, "100 INFO 9 GA 1 1 1"]
        got = ordered(program, [*BEGUN, *SETS_1, "100 INFO 9 GA 2 1 1", *again, *["200 OK"] * 10])
        want = [*ORDERS, *ORDERS_1, "SET 1 LOCK GA 2 0", *ENDS_1, *ORDERS_1, "SET 1 GA 2 0 1 250", "SET 9 FB 2 1"]
        if got != want:
            return f"{given}, while another waits: {got}, want {want}"
        got = ordered(program, [*BEGUN, *SETS_1[:4], *again, *["200 OK"] * 8])
        if got != (want := [*ORDERS, *ORDERS_1, *ENDS_1, *ORDERS_1]):
            return f"{given}, while its own order waits: {got}, want {want}"
    return None


def a_first_word_of_a_sensor_is_no_fall(program):
    """Nothing was known of the sensor before, or not any more: then 0 gives no route back."""
    for told in ([], ["100 INFO 1 FB 5 1", "102 INFO 1 FB 5"]):
        got = ordered(program, [*BEGUN, *SETS_1, *told, "100 INFO 1 FB 5 0"])
        if got != [*ORDERS, *ORDERS_1]:
            return f"{told}: {got}"
    return None


def no_order_before_a_session(program):
    """What comes before a command session began counts for nothing."""
    before = ["200 OK", "414 ERROR device locked", *SETS_1, "100 INFO 1 FB 5 0", "200 OK GO"]
    if got := ordered(program, before):
        return f"{got}"
    got = ordered(program, [*before, *BEGUN])
    return None if got == ORDERS else f"then {got}"


PLAN_OF_SECTIONS = """bus = 9
[[route]]
number = 1
turnouts = [[1, 1, 0]]
signal = [2, 1, 2, 0]
sections = [[1, 5], [1, 6], [1, 7]]
"""
BEGINS, SETS, GIVES, OK = ["200 OK GO 2", *["200 OK"] * 2], SETS_1, "100 INFO 9 GA 1 0 1", "200 OK"
# What the sensors of its sections tell: 1 by +, 0 by -, and that they are not known by ?.
GIVES_BACK = (
    "5+ 6+ 5- 7+ 6-", "5+ 6+ 7+ 5- 6-",  # a train that is shorter than two sections, and one that is longer
    "5+ 5- 5+ 6+ 6- 6+ 7+ 7- 5- 7+ 6-",  # each sensor flickers
    "5+ 6+ 5- 5+ 6- 6+ 5- 7+ 7- 7+ 6-",  # it goes back out of each section, and comes again
    "7+ 6+ 5+ 7- 6- 5- 5+ 6+ 5- 7+ 6-",  # behind one of the other direction
    "5+ 5- 6+ 6- 7+ 7- 5+ 6+ 5- 7+ 6-")  # behind one that is shorter than the gaps between the sections
STAYS = (
    "5+ 5- 5+ 5-", "6+ 6- 6+ 6-", "7+ 7- 7+ 7-",  # one sensor alone
    "5+ 5- 6+ 6- 7+ 7- 5+ 5- 6+ 6- 7+ 7-",  # there are gaps between the sections
    "7+ 6+ 7- 5+ 6- 5-", "6+ 5+ 5- 7+ 6-",  # it comes from the other side, or by the second section
    "5+ 7+ 6+ 5- 7- 6-", "5+ 6+ 7+ 6- 5- 7-",  # in another order
    "5+ 6+ 5- 7+ 7- 6-", "5+ 6+ 5- 7+ 7? 6-", "5+ 6+ 6- 5- 7+ 6+ 6-")  # the next one is not 1 as it leaves one


def told(words):
    """The lines of what sensors tell."""
    values = {"+": "100 INFO 1 FB {} 1", "-": "100 INFO 1 FB {} 0", "?": "102 INFO 1 FB {}"}
    return [values[word[-1]].format(word[:-1]) for word in words.split()]


def trains_over_sections(program):
    """A train gives its route back at the sensor by which it leaves the last section but one, and not before. It is
    followed from the command that shows go until the route is given back."""
    begins, sets, goes = [*BEGINS, "100 INFO 9 GA 1 1 1"], [OK] * 4, [*BEGINS, *SETS]
    *before, last = told(GIVES_BACK[0])
    again = [GIVES, *[OK] * 3]
    freed = [[*goes, *told(words)[:-1], OK, told(words)[-1]] for words in GIVES_BACK]
    freed += [[*begins, *sets[:2], *before[:at], *sets[2:], OK, *before[at:], OK, last] for at in range(5)]
    freed += [[*goes, *again, *SETS, *before, OK, last]]
    stay = [[*goes, *told(words), OK] for words in STAYS]
    stay += [[*begins, *sets[:1], before[0], *sets[1:], *before[1:], last]]  # before the signal shows go
    stay += [[*goes, *before[:at], *again, *SETS, *before[at:], last] for at in range(1, 5)]
    stay += [[*goes, *before[:at], *BEGINS, *SETS, *before[at:], last] for at in range(1, 5)]
    for lines in [each[:-1] for each in freed] + stay:
        if (got := ordered(program, lines, PLAN_OF_SECTIONS))[-1] not in (ORDERS_1[-1], ENDS_1[0]):
            return f"{lines}: {got}"
    for lines in freed:
        if (got := ordered(program, lines, PLAN_OF_SECTIONS))[-1] != ENDS_1[1]:
            return f"{lines}: {got}, want {ENDS_1[1]}"
    return None


def signals_fall_behind_the_head(program):
    """As a train comes into the first section, the next command stops the signal. It shows go for the next train only
    once the route is set anew, and falls behind that one too."""
    begun, goes, comes = [*BEGINS, "100 INFO 9 GA 1 1 1"], [*BEGINS, *SETS], told("5+")
    first, (*shown, is_set), (falls, *ends) = ORDERS[:2], ORDERS_1, ENDS_1
    set_1 = [*first, *shown, is_set]
    asks, refuses = [SETS[0], "100 INFO 9 GA 1 1 1"], "414 ERROR device locked"
    for lines, want in (
            ([*goes, *comes], [*set_1, falls]),
            ([*begun, *[OK] * 3, *comes, OK], [*set_1, falls]),  # it comes before the route is told to be set
            ([*begun, *[OK] * 2, *comes, *[OK] * 3], [*first, *shown, falls, is_set]),  # .. before go was accepted
            ([*begun, OK, *comes, *[OK] * 3], set_1),  # .. before go was sent
            ([*goes, *comes, *asks, OK, *told("5- 5+ 6+ 5-"), *asks, OK], [*set_1, falls]),  # a second train follows
            ([*goes, *comes, OK, GIVES, *[OK] * 2], [*set_1, falls, *ends]),
            ([*goes, *comes, GIVES, *[OK] * 3], [*set_1, falls, *ends]),
            ([*goes, *comes, refuses, OK, GIVES, *[OK] * 3], [*set_1, falls, falls, *ends]),
            ([*goes, *comes, OK, GIVES, *[OK] * 3, *SETS, *comes], [*set_1, falls, *ends, *shown, is_set, falls])):
        for plan in PLAN_OF_SECTIONS, PLAN_OF_SECTIONS.replace(", [1, 6], [1, 7]", ""):
            if (got := ordered(program, lines, plan)) != want:
                return f"{lines}: {got}, want {want}"
    return None


PLAN_OF_AN_APPROACH = """bus = 9
[[route]]
number = 1
turnouts = [[1, 1, 0]]
signal = [2, 1, 2, 0]
frees = [1, 5]
approach = [[1, 8], [1, 9]]
delay = 3
[[route]]
number = 2
turnouts = [[1, 1, 1]]
"""
SECOND = "100 INFO 0 TIME"


def routes_stay_locked_before_a_train(program):
    """A route that is given back while a train may have seen its go stops its signal at once, and keeps its locks for
    its delay. Another route over its turnout waits for so long."""
    begins, refuses = ["200 OK GO 2", *[OK] * 3], "414 ERROR device locked"
    begun = [*ORDERS, *ORDERS_1]
    stops, *ends = ENDS_1
    sets_2 = ["SET 1 LOCK GA 1 0", "SET 1 GA 1 1 1 250", "SET 9 FB 2 1"]
    free, comes, asks_2 = told("8- 9-"), told("8- 9+"), "100 INFO 9 GA 2 1 1"
    goes = [*begins, *comes, *SETS]
    for lines, want in (
            ([*begins, *free, *SETS, GIVES, OK], [stops, ends[0]]),  # no train is there
            ([*goes, GIVES, OK, SECOND, SECOND], [stops]),
            ([*goes, GIVES, OK, SECOND, SECOND, SECOND], [stops, ends[0]]),
            ([*goes, GIVES, SECOND, SECOND, SECOND, OK], [stops, ends[0]]),  # the server takes long
            ([*goes, SECOND, SECOND, GIVES, OK, SECOND, SECOND], [stops]),  # seconds of before count for nothing
            ([*goes, GIVES, *free, OK, SECOND, SECOND], [stops]),  # the train has come into the route meanwhile
            ([*goes, *free, GIVES, OK], [stops, ends[0]]),  # .. or before
            ([*begins, *SETS, GIVES, OK], [stops]),  # nothing is known of the sensors
            ([*begins, *free, *SETS, "102 INFO 1 FB 9", GIVES, OK], [stops]),
            ([*goes, *told("5+ 5-"), OK], [stops]),  # its train gives it back, and the next one is there
            ([*goes, GIVES, OK, asks_2, SECOND, SECOND], [stops]),
            ([*goes, GIVES, OK, asks_2, SECOND, SECOND, SECOND, *[OK] * 5], [stops, *ends, *sets_2]),
            ([*goes, GIVES, refuses, *[SECOND] * 3, GIVES, OK], [stops, stops]),  # the signal was stopped later
            ([*goes, GIVES, refuses, *[SECOND] * 3, *free, GIVES, OK], [stops, stops, ends[0]]),
            ([*goes, GIVES, refuses, SECOND, *free, GIVES, OK, SECOND], [stops, stops]),
            ([*goes, GIVES, OK, *begins], [stops, *ORDERS]),  # the locks are gone
            ([*goes, GIVES, OK, *begins, *free, *SETS, GIVES, OK], [stops, *begun, stops, ends[0]]),
            ([*goes, *begins, *SETS[:2], refuses, OK], [*begun[:5], *ends])):  # its signal stopped as a session began
        if (got := ordered(program, lines, PLAN_OF_AN_APPROACH)) != [*begun, *want]:
            return f"{lines}: {got}, want {[*begun, *want]}"
    goes = [*BEGINS, "100 INFO 1 FB 8 1", *SETS, *told("5+"), OK, *told("6+ 5- 7+ 6-"), OK]
    got, want = ordered(program, goes, f"{PLAN_OF_SECTIONS}approach = [[1, 8]]\n"), [*ORDERS[:2], *ORDERS_1, *ENDS_1]
    return None if got == want else f"behind a train: {got}, want {want}"


ROUTE_CASES = (routes_as_in_the_model, orders_come_at_once, give_backs_are_carried_out,
               a_first_word_of_a_sensor_is_no_fall, no_order_before_a_session, trains_over_sections,
               signals_fall_behind_the_head, routes_stay_locked_before_a_train)
