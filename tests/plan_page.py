"""What docs/plan.md says: the keys and the faults of a plan, and the steps of a route."""
import re
import tempfile
from collections.abc import Callable, Iterator
from itertools import pairwise
from pathlib import Path

from inputs import check_document, outcome
from page_tables import constants_of_the_code, quoted, rows_under

TOP = Path(__file__).resolve().parent.parent
PAGE = TOP / "docs" / "plan.md"
BEGIN = "bus = 9\nroute = "
# What stands before the plan in the rows of tracks.
DRAWN = r'''plan = "A=t===u=B\n   \\=/"
legend = {t = {turnout = [1, 12, 1]}, u = {turnout = [1, 13, 1]}}
'''
# The keys of the drawing, and those of the page: a value of another type is as if the key was left out.
NEVER_OUT_OF_RANGE = {"plan", "legend", "from", "to", "turnout", "sensor", "button", "names", "functions", "name"}
REFUSAL = "414 ERROR device locked"
ASKED, GIVEN = "100 INFO 9 GA 1 1 1", "100 INFO 9 GA 1 0 1"
# The steps behind those without a command: if the route is wanted and its block is free, and once it is given back.
AT_ONCE = {("idle", True): "locking the first", ("ready", True): "showing", ("ready", False): "hiding"}
GIVEN_BACK = {"set": "stopping", "blocked": "begun", "stuck": "stopping"}
# What the page says of the keys, and the constant of each number.
LIMITS = (("of at most {:,} bytes", "CONFIG_LIMIT"), ("| `bus` | 1 to {}:", "GREATEST_BUS"),
          ("| `number` | 1 to {},", "GREATEST_GA"), ("arrays of a bus, an address of 1 to {},", "GREATEST_GA"),
          ("and a port of 0 to {} |", "MOST_PORTS"), ("arrays of a bus and a sensor of 1 to {} |", "GREATEST_FB"),
          ("an array of a bus, an address of 1 to {},", "GREATEST_GA"),
          ("an array of a bus and a sensor of 1 to {} |", "GREATEST_FB"),
          ("| `delay` | 1 to {}:", "LONGEST_DELAY"), ("before such a train | {} |", "DEFAULT_DELAY"),
          ("The bus of a device is 1 to {},", "GREATEST_BUS"))


def limits_of_the_plan_page(_: str) -> str | None:
    """Each number of its keys is what its constant is set to; ports are counted from 0."""
    values = {name: value for (_, name), value in constants_of_the_code().items()}
    text = PAGE.read_text()
    missing = [form for form, name in LIMITS if form.format(values[name] - (name == "MOST_PORTS")) not in text]
    return f"the page does not say {missing}" if missing else None


def faults_of_the_plan_page(program: str) -> str | None:
    """Each text is printed of the plan beside it, also if that has a later fault, by each word that reads a plan. The
    code has no other text, and no other key."""
    rows = [(quoted(text)[0], quoted(plan)[0]) for text, plan in rows_under("plan.md", "Faults")]
    for text, plan in rows:
        document = ((DRAWN if "track" in text else "") + plan.replace("..", BEGIN)).encode()
        for word in ("check", "interlock"):
            got = check_document(program, document, (word, "--plan"))
            if got != (2, f"srcp_server: {text}\n".encode(), b""):
                return f"{word} of {plan}: {got}, want {text}"
    code = (TOP / "crates" / "srcp_plan_file" / "src" / "fault.rt").read_text()
    forms = [re.sub(r"\\{\w+\\}", r"\\w+", re.escape(form)) for form in re.findall(r'"(plan: [^"]*)"', code)]
    unlike = [form for form in forms if not any(re.fullmatch(form, text) for text, _ in rows)]
    others = [text for text, _ in rows if not any(re.fullmatch(form, text) for form in forms)]
    if not forms or unlike + others:
        return f"not on the page: {unlike}; not in the code: {others}"
    keys = set(re.findall(r'=> "(\w+)"', code))
    read = (TOP / "crates" / "srcp_plan_file" / "src" / "document.rt").read_text()
    wanted = {key.lower() for key in re.findall(r"(?:number|array)_at\(members, Field::(\w+)", read)}
    want = {f"plan: {key} {fault}" for key in wanted for fault in ("missing", "out of range")}
    want |= {f"plan: route 1: {key} out of range" for key in keys - wanted - NEVER_OUT_OF_RANGE}
    told = {text for text, _ in rows if text.endswith((" missing", " out of range"))}
    return None if told == want and wanted else f"of keys: {sorted(told)}, want {sorted(want)}"


def steps_of_the_page() -> dict[str, tuple[str, str, str]]:
    """Returns the command of each step, or nothing, and the steps behind it, accepted and refused."""
    rows = rows_under("plan.md", "Steps")
    return {step: ("".join(quoted(command)), accepted, refused) for step, command, accepted, refused in rows}


def course(steps: dict[str, tuple[str, str, str]], refused: int, given: list[str]) -> Iterator[tuple[str, str]]:
    """Yields the lines of a course, each with the command that is sent then, or nothing: a session begins, the block is
    free, and the route is asked for. The command of this place is refused, all others are accepted. Once the route
    rests, it is given back by these lines, and once more if it rests then."""
    step, wanted, place = "begun", True, 0
    yield "200 OK GO 2", steps[step][0]
    yield "100 INFO 1 FB 5 0", ""
    yield ASKED, ""
    while step != "idle" or wanted:
        command, accepted, not_accepted = steps[step]
        if command:
            step, wanted = (not_accepted, False) if place == refused else (accepted, wanted)
            reply, place = REFUSAL if place == refused else "200 OK", place + 1
            step = AT_ONCE.get((step, wanted), step)
            yield reply, steps[step][0]
        else:
            *before, last = given if step == "set" else [GIVEN]
            step, wanted = GIVEN_BACK[step], False
            yield from ((line, "") for line in before)
            yield last, steps[step][0]


def sent(program: str, plan: str, lines: list[str]) -> list[str]:
    """Returns the commands that `interlock` sends by these lines."""
    with tempfile.NamedTemporaryFile("w") as file:
        file.write(plan)
        file.flush()
        text = "".join(f"1.{number:03} {line}\n" for number, line in enumerate(lines))
        status, told, printed = outcome(program, ["interlock", "--plan", file.name], text.encode())
    return printed.decode().splitlines() if not status else [told.decode()]


def steps_of_the_plan_page(program: str) -> str | None:
    """`interlock` sends what the page says, whichever command is refused; a route that is set is given back by its
    accessory, or as its sensor falls."""
    plan = re.findall(r"^```toml\n(.*?)^```$", PAGE.read_text(), re.M | re.S)[0]
    steps, met = steps_of_the_page(), set()
    for refused in range(-1, 16):
        for given in ([GIVEN], ["100 INFO 1 FB 6 1", "100 INFO 1 FB 6 0"]):
            lines = list(course(steps, refused, given))
            want = [command for _, command in lines if command]
            got = sent(program, plan, [line for line, _ in lines])
            if got != want:
                return f"the command {refused} refused, {given}: {got}, want {want}"
            met |= set(pairwise(want))
    unmet = {command for command, *_ in steps.values() if command} - {command for pair in met for command in pair}
    return f"not met: {unmet}" if unmet else None


PLAN_PAGE_CASES: tuple[Callable[[str], str | None], ...] = (
    limits_of_the_plan_page, faults_of_the_plan_page, steps_of_the_plan_page)
