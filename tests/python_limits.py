"""The limits and the codes of the programs of bridges/: each stands once, and is as the server, the page and the texts
for people have it."""
import re
import sys
from pathlib import Path

from page_tables import constants_of_the_code

TOP = Path(__file__).resolve().parent.parent
BRIDGES = TOP / "bridges"
SHARED = BRIDGES / "srcp_bridges"
# What stands in a file of its own beside the limits: where, in which words, which limits, and how many of their units
# one there is.
ELSEWHERE = (
    ("crates/srcp_interlock/src/orders.rt", r"^const PULSE: u64 = (\d+);", ["PULSE"], 1),
    ("crates/srcp_driver/src/cab.rt", r"^pub const SILENCE: u64 = (\d+);", ["SILENT"], 0.001),
    ("crates/srcp_driver/src/changes.rt", r"^pub const CONFIRMS: u64 = (\d+);", ["CONFIRMS"], 0.001),
    ("bridges/srcp_bridges/page/devices.js", r"^export const PULSE = (\d+);", ["PULSE"], 1),
    ("bridges/srcp_bridges/page/routes.js", r'^const STOPS = "(\d)";', ["STOPS"], 1),
    ("bridges/srcp_bridges/page/web.js", r"^let silence = (\d+);", ["PAGE_SILENCE"], 1),
    ("bridges/srcp_bridges/page/web.html", r'name="steps" type="number" min="1" max="\d+" value="(\d+)"', ["TOP"], 1),
    ("bridges/srcp_bridges/page/web.html", r'name="functions" type="number" min="0" max="(\d+)"', ["MOST_FUNCTIONS"],
     1),
    ("examples/throttle.py", r"^CONFIRMS = ([\d.]+)  # seconds", ["ALL_CONFIRM"], 1),
    ("examples/doctor.py", r"^TOP = (\d+)  # steps", ["TOP"], 1),
    ("examples/program.py", r"^SECONDS = (\d+)  # for one CV", ["CV_PATIENCE"], 1),
    ("bridges/page.md", r"`web\.py` serves (\d+) connections, and (\d+) of one address\. Of further ones (\d+) can "
     r"stop trains and nothing else, (\d+) of one", ["CONNECTIONS", "CONNECTIONS_OF_ONE", "KEPT", "KEPT_OF_ONE"], 1),
    ("bridges/phones.md", r"At most (\d+) phones of one address are served, and (\d+) in all\. A phone has (\d+) s to",
     ["PHONES_OF_ONE", "PHONES", "NAMELESS"], 1),
    ("bridges/phones.md", r"At most (\d+) clients of one address are served, and (\d+) in all\.",
     ["CLIENTS_OF_ONE", "CLIENTS"], 1),
    ("bridges/phones.md", r"`0 0 -1` straight, for (\d+) ms each", ["PULSE"], 1),
    ("bridges/stations.md", r"A turnout's coil goes off ([\d.]+) s later", ["OUTPUT_ON"], 1),
    ("bridges/safety.md", r"thrown as they were put last \| (\d+) a second \(`--turnout-pace`\)", ["TURNOUT_PACE"], 1),
    ("bridges/signal_box.md", r"that it throws \(`--turnout-pace`, (\d+) a second\)", ["TURNOUT_PACE"], 1),
    ("bridges/mqtt.md", r"then refuses a command over ([\d,]+) bytes", ["LONGEST_PAYLOAD"], 1),
)
# Numbers of modules that are no limits, and what they are.
NO_LIMITS = (
    ("rows.py", {"BACKWARD", "FORWARD", "EMERGENCY_STOP"}, "words of SRCP"),
    ("drawing.py", {"EAST", "SOUTHEAST", "SOUTHWEST", "WEST", "NORTHWEST", "NORTHEAST"}, "directions"),
    ("programming.py", {"NOBODY", "CANNOT_MEASURE", "NO_TRACK", "SHORT"}, "what a station says of a CV"),
    ("phone_words.py", {"HORN", "URGENT", "USUAL"}, "a function, and turns"),
    ("z21.py", {"PORT"}, "of its protocol"),
    ("last_words.py", {"BEAT", "MOMENT", "REGISTRY", "LINES", "LONGEST"}, "limits of a process that loads no module"),
    ("simulated.py", {"LATER"}, "how stations without hardware are"),
    ("simulated_station.py", {"LOOP", "BAUD", "INPUT"}, "the same"),
    ("simulated_z21.py", {"STOPS_ALL", "NO_POWER", "SHORT", "PROGRAMMING", "TO_ALL", "TO_PANELS", "LONG_ON"},
     "the same"),
)
NUMBER = r"^([A-Z][A-Z_]*)(?:: [^=\n]+)? = -?\d[\d._]*(?: << \d+)?(?=\s|$)"


def limits() -> dict[str, float]:
    """Returns each limit of limits.py."""
    sys.path.insert(0, str(BRIDGES))
    from srcp_bridges import limits
    return {name: value for name, value in vars(limits).items() if name.isupper()}


def limits_of_the_bridges(_: str) -> str | None:
    """Each has a unit or says what it counts, is used, and stands in no other module. Those that the server, the page
    or the texts for people have too are the same there."""
    mine, text = limits(), (SHARED / "limits.py").read_text()
    if bare := [name for name in mine if not re.search(rf"^{name} = [^#\n]+  # \w", text, re.M)]:
        return f"nothing is said of {bare}"
    used, found = "", {}
    for file in BRIDGES.rglob("*.py"):
        if file.name != "limits.py":
            code = file.read_text()
            used += " ".join(["", *re.findall(r"^from srcp_bridges\.limits import (\([^)]*\)|.*)", code, re.M)])
            found[file.name] = set(re.findall(NUMBER, code, re.M))
    if idle := [name for name in mine if not re.search(rf"\b{name}\b", used)]:
        return f"used nowhere: {idle}"
    if astray := {place: names for place, names, _ in NO_LIMITS if names - found[place]}:
        return f"not there: {astray}"
    known = {place: names for place, names, _ in NO_LIMITS}
    if astray := {place: names for place, each in found.items() if (names := each - known.get(place, set()))
                  and place != "datasets.py"}:  # whose numbers are the bytes of a protocol
        return f"not in limits.py: {astray}"
    if unlike := limits_that_differ(mine):
        return "; ".join(unlike)
    return None if len(mine) > 80 else f"{len(mine)} limits"


def limits_that_differ(mine: dict[str, float]) -> list[str]:
    """Returns which limits others have otherwise, or not in the words of ELSEWHERE. The server has the same names."""
    theirs = {name: value for (_, name), value in constants_of_the_code().items()}
    head = (SHARED / "limits.py").read_text().split("# ---- ")[1]
    unlike = [f"{name}: {mine[name]} here, {theirs.get(name)} at the server"
              for name in re.findall(r"^([A-Z_]+) = ", head, re.M) if mine[name] != theirs.get(name)]
    for place, form, names, scale in ELSEWHERE:
        told = re.findall(form, " ".join((TOP / place).read_text().split()) if place.endswith(".md")
                          else (TOP / place).read_text(), re.M)
        if len(told) != 1:
            unlike.append(f"{place}: {len(told)} times {form}")
            continue
        for name, number in zip(names, told[0] if len(names) > 1 else told):
            if float(number.replace(",", "")) * scale != mine[name]:
                unlike.append(f"{name}: {mine[name]} here, {number} in {place}")
    return unlike


def codes_of_the_bridges(_: str) -> str | None:
    """The error replies of programs are those of the server, if the server has them. The page has a text for codes of
    the server and for reasons of web.py and of its own alone."""
    sys.path.insert(0, str(BRIDGES))
    from srcp_bridges.srcp.replies import TEXTS, Code, Reason, error
    words = (TOP / "crates" / "srcp_info" / "src" / "words.rt").read_text()
    theirs = {int(code): f"{code} {text}" for code, text in re.findall(r'Code::C\d+ => b"(\d+) (ERROR [^"]*)"', words)}
    if unlike := [code for code in TEXTS if code in theirs and error(code) != theirs[code]]:
        return f"other texts than the server's: {unlike}"
    both = set(TEXTS) & set(theirs)
    texts, asked = (SHARED / "page" / "texts.js").read_text(), (SHARED / "page" / "server.js").read_text()
    keys = set(re.findall(r"(\w+): \"", re.findall(r"^const REFUSALS = \{[^\n]*\n(.*?)^\};", texts, re.M | re.S)[0]))
    own = set(re.findall(r'\{ code: "([A-Z]+)"', asked))
    unknown = {key for key in keys if key not in own and key not in Reason.__members__ and int(
        key if key.isdecimal() else 0) not in theirs}
    untold = set(Reason.__members__) - keys
    if unknown or untold:
        return f"codes that nobody sends: {unknown}; reasons without a text: {untold}"
    return None if len(both) > 6 and Code.LOCKED in theirs else f"codes in both: {both}"


PYTHON_LIMIT_CASES = (limits_of_the_bridges, codes_of_the_bridges)
