"""What moves at a station, held against what was commanded, stopped and lost: an observer beside a simulated station.

It knows no driver and no registry. Who commands, stops or takes something away notes that just before, and the station
notes the moment of all that moves. All moments are those of `time.monotonic`.
"""
import time
from bisect import bisect_right
from collections import Counter, defaultdict
from collections.abc import Callable, Iterable
from dataclasses import dataclass
from math import inf

UNREPLIED = 0.3  # seconds within which a command that has no reply is carried out, or is refused after a stop or a loss
QUEUED = 5.0  # seconds for which it may wait in the queue of a program on a busy machine
STANDS = 0.1  # seconds after the reply to a STOP ALL: all stand
ON_ITS_WAY = 0.6  # seconds before a loss: what was commanded then may come to the station behind it
TOLD_AGAIN = 2.0  # seconds for which a command is told again at a line that loses some: then displays tell of that
STOOD = 0.5  # seconds after a command to stand: no older one is on its way
LOOKS_BACK = 20  # commands, of which one that was sent before may be done behind those that were sent later
AFTER_STOP_ALL = "after STOP ALL"
Clock = Callable[[], float]


@dataclass
class Command:
    """A command to a locomotive, which may be carried out at any moment until `done`; until `surely`, if no stop of all
    and no loss came between."""
    sent: float
    done: float = inf
    surely: float = inf


@dataclass
class Loss:
    what: str
    begin: float
    end: float = inf


@dataclass
class Check:
    """At a moment all locomotives stand without a command since another moment."""
    moment: float
    since: float
    what: str


class Watch:
    """The observer of one station. `breaches` has what may not be, each told as it is found, and `count` how often.

    `drives`, `stands`, `loses` and `stops_all` are called just before that happens; `done` and `found` behind it. The
    station's power is locomotive 0, if the observer `knows_power`: a STOP ALL does not matter to it. `is_lossy`: the
    line loses some of what it carries. What was commanded just before a loss is told again then, until the driver knows
    of that loss or the station confirms it. `delay` returns for how long the machine had one program wait between
    two moments: what comes too late by less is counted by itself, and is no breach.
    """

    def __init__(self, name: str, tell: Callable[[str], None], clock: Clock = time.monotonic, knows_power=True) -> None:
        self.name = name
        self.tell = tell
        self.clock = clock
        self.knows_power = knows_power
        self.began = clock()
        self.breaches: list[str] = []
        self.found_at: list[tuple[float, int]] = []  # the moment and the locomotive of each breach
        self.count: Counter[str] = Counter()
        self.driven: defaultdict[int, list[Command]] = defaultdict(list)
        self.stood: defaultdict[int, list[Command]] = defaultdict(list)
        self.losses: list[Loss] = []
        self.deaf: list[tuple[float, float]] = []  # from when to when a driver slept: it heard no command then
        self.stops: list[Command] = []
        self.checks: list[Check] = []
        self.moved: defaultdict[int, list[tuple[float, int]]] = defaultdict(list)
        self.is_lossy = False
        self.delay: Callable[[float, float], float] = lambda begin, end: 0.0
        self.latest = 0.0  # seconds by which the last one stood too late after a STOP ALL, at most
        self.seen = 0

    # ---- what happens

    def drives(self, cab: int) -> Command:
        """Somebody is about to have a locomotive drive."""
        self.driven[cab].append(command := Command(self.clock()))
        self.count["commands to drive"] += 1
        return command

    def stands(self, cab: int) -> Command:
        """Somebody is about to have a locomotive stand."""
        self.stood[cab].append(command := Command(self.clock()))
        return command

    def done(self, command: Command, has_reply=True) -> None:
        """The reply to a command has come; or it has none, and is carried out soon."""
        command.done = self.clock() + (0 if has_reply else UNREPLIED)
        command.surely = command.done if has_reply else self.clock() + QUEUED

    def refused(self, cab: int, command: Command) -> None:
        """A command to stand was refused: its locomotive may drive on."""
        self.stood[cab].remove(command)

    def loses(self, what: str) -> Loss:
        """A loss is about to come: all earlier commands are over."""
        self.losses.append(loss := Loss(what, self.clock()))
        self.count["losses"] += 1
        return loss

    def found(self, loss: Loss, within: float) -> None:
        """A loss is over. Some seconds later nothing moves by a command of before."""
        loss.end = self.clock()
        self.checks.append(Check(loss.end + within, loss.begin, f"after a loss ({loss.what})"))

    def stops_all(self) -> Command:
        """Somebody is about to press STOP ALL."""
        self.stops.append(stop := Command(self.clock()))
        self.count["STOP ALL"] += 1
        return stop

    def stopped(self, stop: Command, is_heard=True, within=STANDS, has_reply=True) -> None:
        """The reply to a STOP ALL has come; or the STOP ALL has none, and is carried out within QUEUED seconds. If the
        station hears the STOP ALL, all stand `within` seconds of the reply."""
        stop.done = self.clock() + (0 if has_reply else QUEUED)
        stop.surely = stop.done if has_reply else inf
        if is_heard:
            self.checks.append(Check(stop.done + within, stop.sent, AFTER_STOP_ALL))
            self.count["STOP ALL that are looked at"] += 1

    # ---- what is seen

    def look(self, moves: list[tuple[float, int, int]]) -> None:
        """Judges the station's notes since the last look, and each check that is two seconds old."""
        new, self.seen = moves[self.seen:], len(moves)
        before = {cab: moved[-1][1] for cab, moved in self.moved.items()}
        for moment, cab, speed in new:
            self.moved[cab].append((moment, speed))
        for moment, cab, speed in new:
            if speed and not before.get(cab) and (cab or self.knows_power):
                self.count["starts"] += 1
                self.judge(moment, cab, speed)
            before[cab] = speed
        due = [check for check in self.checks if check.moment < self.clock() - 2]
        self.checks = [check for check in self.checks if check not in due]
        for check in due:
            self.carry_out(check)

    def speed(self, cab: int, moment: float) -> int:
        """Returns the speed at which a locomotive moved at a moment."""
        return next((speed for begin, speed in reversed(self.moved[cab]) if begin <= moment), 0)

    def stands_from(self, cab: int, moment: float) -> float:
        """Returns when a locomotive that moved at a moment came to a stop."""
        return next((begin for begin, speed in self.moved[cab] if begin > moment and not speed), inf)

    def sent(self, cab: int, until: float) -> list[Command]:
        """Returns the last commands to drive that were sent until a moment."""
        commands = self.driven[cab]
        count = bisect_right(commands, until, key=lambda command: command.sent)
        return commands[max(0, count - LOOKS_BACK):count]

    def is_told_again(self, cab: int, ends: dict[str, float], moment: float) -> bool:
        """Returns whether a locomotive may move by a command that was lost on its way, and is told again behind a loss:
        one that came behind all else that ends it, and not too long ago."""
        since = max(*(when for name, when in ends.items() if name != "loss"), moment - TOLD_AGAIN)
        return self.is_lossy and self.is_driven(cab, since, moment)

    def is_driven(self, cab: int, since: float, until: float) -> bool:
        """Returns whether a command to drive may have been carried out within this time."""
        return any(command.done >= since for command in self.sent(cab, until))

    def is_commanded(self, cab: int) -> bool:
        """Returns whether somebody commanded a locomotive to drive since the last loss and since the last STOP ALL."""
        since = max(last([stop.sent for stop in self.stops]), last([loss.begin for loss in self.losses]))
        return self.is_driven(cab, since, self.clock())

    def judge(self, moment: float, cab: int, speed: int) -> None:
        """A locomotive begins to move: somebody has commanded that since all that was to end it."""
        is_deaf = any(begin <= moment <= end + STOOD for begin, end in self.deaf)
        surely = max((command.surely for command in self.sent(cab, moment)), default=-inf)
        stood = [each.sent for each in self.stood[cab]
                 if each.done + STOOD <= moment and each.sent > surely and not is_deaf]
        stops = [each.sent for each in self.stops if cab and each.done + STANDS <= moment]
        losses = [loss.begin - (ON_ITS_WAY if moment <= loss.end + ON_ITS_WAY else 0) for loss in self.losses
                  if loss.begin <= moment]
        ends = {"to stand": last(stood), "STOP ALL": last(stops), "loss": last(losses)}
        if not self.is_driven(cab, max(ends.values()), moment) and not self.is_told_again(cab, ends, moment):
            why = max(ends, key=lambda name: ends[name])
            unreplied = [stop.done + STANDS for stop in self.stops
                         if stop.sent == ends["STOP ALL"] and stop.surely == inf]
            ended = {"loss": last([loss.begin for loss in self.losses if loss.begin <= moment]),
                     "to stand": ends["to stand"] + STOOD, "STOP ALL": last(unreplied)}[why]
            since = max((command.sent for command in self.sent(cab, moment)), default=inf)
            if self.is_late_by_machine(cab, max(since, ended - QUEUED), moment, moment - ended):
                return
            self.breach(f"start after {why}", cab, f"starts at {self.at(moment)} at speed {speed}, "
                        f"stands at {self.at(self.stands_from(cab, moment))}", moment)

    def is_late_by_machine(self, cab: int, begin: float, end: float, late: float) -> bool:
        """Returns whether what was commanded at one moment, and came at another, would not have been late if no program
        had waited for a processor."""
        if not begin < end < inf or (delay := self.delay(begin, end)) < late:
            return False
        self.count["late by the machine"] += 1
        self.tell(f"{self.name}: locomotive {cab} is late by {late:.2f} s at {self.at(end)}; "
                  f"meanwhile a program waited {delay:.2f} s for a processor")
        return True

    def carry_out(self, check: Check) -> None:
        for cab in self.moved:
            if cab == 0 and (not self.knows_power or check.what == AFTER_STOP_ALL):
                continue
            if self.speed(cab, check.moment) and not self.is_driven(cab, check.since, check.moment):
                ended = self.stands_from(cab, check.moment)
                if check.what == AFTER_STOP_ALL:
                    self.latest = max(self.latest, ended - check.moment)
                    if self.is_late_by_machine(cab, check.since, ended, ended - check.moment):
                        continue
                self.breach(f"drive on {check.what}", cab,
                            f"still drives at {self.at(check.moment)}, stands at {self.at(ended)}", check.moment)

    def breach(self, kind: str, cab: int, what: str, moment: float) -> None:
        self.count[kind] += 1
        loss = next((loss for loss in reversed(self.losses) if loss.begin <= moment), None)
        lost = f"{self.at(loss.begin)} to {self.at(loss.end)} ({loss.what})" if loss else "never"
        text = (f"BREACH at {self.name}: locomotive {cab} {what}; commanded {self.told(self.driven[cab], moment)}; "
                f"to stand {self.told(self.stood[cab], moment)}; STOP ALL {self.told(self.stops, moment)}; lost {lost}")
        self.breaches.append(text)
        self.found_at.append((moment, cab))
        self.tell(text)

    def told(self, commands: Iterable[Command], moment: float) -> str:
        """Returns the moments of the last of these commands."""
        found = [each for each in commands if each.sent <= moment]
        return f"{self.at(found[-1].sent)}, done {self.at(found[-1].done)}" if found else "never"

    def at(self, moment: float) -> str:
        return "never" if moment == inf else f"{moment - self.began:.3f}"


def last(moments: list[float]) -> float:
    return max(moments, default=-inf)
