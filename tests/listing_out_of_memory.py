"""listing_out_of_memory.py: the record of the script of cases/listing-whole if one allocation of its run is refused.

No program computes these records. Each follows from what is promised of the one event that is refused its memory: an
`open` gives no connection, and the next one gets its number; a line that is refused is answered 500 and changes
nothing.
"""
from run_cases import CASES, parse_record
from serving import expected_text

SCRIPT = (CASES / "listing-whole" / "stdin").read_text()
OUTPUT = expected_text((CASES / "listing-whole" / "stdout").read_bytes())
# the lines that the throttle and the panel are sent if nothing is refused, without the listing, and the rows at the end
THROTTLE = parse_record(OUTPUT)[0]["1"]["sent"].splitlines()
PANEL = parse_record(OUTPUT)[0]["2"]["sent"].splitlines()[:3]
ROWS = OUTPUT.decode().partition("rows 13\n")[2].splitlines()
STEPS = ["Moment(1000)", "Began { session: 1, moment: 1000, mode: Command }"] + [
    f"Obeyed {{ session: 1, moment: 1000, command: {command} }}" for command in (
        "InitGl(NewGl { bus: 1, address: 3, letter: N, version: 1, steps: 28, functions: 2 })",
        "InitGl(NewGl { bus: 1, address: 7, letter: P, version: 1, steps: 28, functions: 5 })",
        "InitGa(NewGa { bus: 1, address: 5, letter: M, ports: 2 })",
        "SetLock(TimedLock { target: Target { bus: 1, group: Gl, address: 3 }, seconds: 60 })")
] + ["Began { session: 2, moment: 1000, mode: Info }"]
# a connection's session, `true` if that is an information session, and the number of steps once it had begun
NO_SESSION = "0 false 0"
THROTTLE_SESSION = "1 false 2"
PANEL_SESSION = "2 true 7"
NO_MEMORY = "1.000 500 ERROR out of resources"
NO_DATA = "1.000 416 ERROR no data"
UNKNOWN = "1.000 410 ERROR unknown command"


def printed(steps=STEPS, throttle=(THROTTLE_SESSION, THROTTLE), panel=(PANEL_SESSION, PANEL), refused=(), rows=ROWS):
    """A record as the trial prints it. An information session is sent the listing of the rows as they are at the
    end."""
    lines = list(steps)
    for session, sent in filter(None, (throttle, panel)):
        listed = rows if " true " in session else []
        lines += [f"connection {session} Live", *(f"item {len(steps)} Some({place})" for place in range(len(listed)))]
        lines += [*sent, *listed]
    lines += [f"refused {refusal}" for refusal in refused]
    lines += [f"{'Some(61000)' if ' LOCK ' in row else 'None'} {row}" for row in rows]
    return "".join(f"{line}\n" for line in lines)


def throttle_sent(changes):
    """Returns what the throttle is sent, with other replies at some indices."""
    return THROTTLE_SESSION, [changes.get(place, line) for place, line in enumerate(THROTTLE)]


def rows_without(word):
    """The rows at the end whose lines do not have the word."""
    return [row for row in ROWS if word not in row]


FIRST_ROWS = [row for row in ROWS if row.startswith("0.000 ")]
PANEL_GONE = [f"{event} NoSuch" for event in range(15, 21)]
# The record if the event of that number is refused its memory. At 0 none is.
RECORDS = {
    0: printed(),
    # the panel's `open` gives connection 1 then, and no event behind it names that
    2: printed(STEPS[:1], (NO_SESSION, []), None,
               ["2 Memory", *(f"{event} NoSuch" for event in range(3, 14)), *PANEL_GONE],
               FIRST_ROWS),
    # the reply is longer than the room for it, so the next command is refused; the others come before any session
    4: printed([STEPS[0], "Began { session: 1, moment: 1000, mode: Info }"],
               (NO_SESSION, [THROTTLE[0], NO_MEMORY, UNKNOWN, UNKNOWN, UNKNOWN]),
               ("1 true 2", [*PANEL[:2], "1.000 200 OK GO 1"]), ["6 Busy"],
               ["1.000 101 INFO 0 SESSION 1 INFO", *FIRST_ROWS]),
    6: printed(throttle=throttle_sent({2: NO_MEMORY, 5: NO_DATA}), rows=rows_without(" GL 3 ")),
    8: printed(throttle=throttle_sent({3: NO_MEMORY}), rows=rows_without(" GL 7 ")),
    10: printed(throttle=throttle_sent({4: NO_MEMORY}), rows=rows_without(" GA 5 ")),
    12: printed(throttle=throttle_sent({5: NO_MEMORY}), rows=rows_without(" LOCK ")),
    14: printed(STEPS[:-1], panel=None, refused=["14 Memory", *PANEL_GONE], rows=rows_without(" SESSION 2 ")),
    18: printed(STEPS[:-1], panel=(NO_SESSION, [*PANEL[:2], NO_MEMORY]), rows=rows_without(" SESSION 2 ")),
}


def event_refused(record):
    """Returns the event that is refused its memory in this record, 0 if none is, or None if it is none of RECORDS."""
    return next((event for event, expected in RECORDS.items() if expected == record), None)


def is_expected(outcome, record):
    """Returns whether the record goes with the outcome. If memory was refused to the record itself, there is none."""
    event = event_refused(record)
    return {"granted": event == 0, "refused": bool(event) or record == ""}.get(outcome, record == "")
