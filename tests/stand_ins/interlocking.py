#!/usr/bin/env python3
"""interlocking.py interlock --plan FILE: a model of `srcp_server interlock`, which shares nothing with it.

It is written from what the pages promise of routes, and not from the code that is proved. A route is a list of orders
that it goes through, and another by which it goes back.
"""
import sys
import tomllib


class Train:
    """How many of the sections of its route a train has entered, and how many of these it has passed."""

    def __init__(self, sections):
        self.sections = sections
        self.entered = self.passed = 0

    def sensed(self, sensor, is_on, occupied):
        """A sensor is told to be 1 or 0, and `occupied` are those that are 1 now. Returns whether the train has passed
        each section but the last."""
        if is_on:
            self.entered += self.sections[self.entered:self.entered + 1] == [sensor]
        elif self.sections[self.passed] == sensor and self.entered > self.passed + 1:
            self.passed += self.sections[self.passed + 1] in occupied
        return 0 < self.passed == len(self.sections) - 1


class Route:
    """`steps` has what it still orders, each a kind and a command. `asked`: somebody wants it. `leaves`: it goes back,
    and does so to its end, whoever asks meanwhile. `held`: it may hold locks. `shows`: its signal shows go. `is_stuck`:
    that could not be stopped. `train`: the one that is followed, or None. `runs`: the seconds left of its delay, and
    `delays` counts how often that began."""

    def __init__(self, bus, given):
        self.bus = bus
        self.number = given["number"]
        self.turnouts = [(of, address, port) for of, address, port in given.get("turnouts", [])]
        self.blocks = {tuple(block) for block in given.get("blocks", [])}
        self.signal = given.get("signal")
        self.frees = tuple(given.get("frees", []))
        self.sections = [tuple(section) for section in given.get("sections", [])]
        self.approach = {tuple(sensor) for sensor in given.get("approach", [])}
        self.delay = given.get("delay", 30)
        self.delays = 0
        self.accessories = {turnout[:2] for turnout in self.turnouts}
        if self.signal:
            self.accessories.add((self.signal[0], self.signal[1]))
        self.begins_anew()

    def conflicts(self, other):
        return bool(self.accessories & other.accessories or self.blocks & other.blocks)

    def report(self, is_set):
        return "report", f"SET {self.bus} FB {self.number} {int(is_set)}"

    def stop(self):
        return [("stop", "SET {} GA {} {} 1 250".format(*self.signal[:2], self.signal[3]))] if self.signal else []

    def unlocks(self, count):
        return [("unlock", f"TERM {bus} LOCK GA {address}") for bus, address, _ in reversed(self.turnouts[:count])]

    # ---- what it is about to do

    def begins_anew(self):
        """A session has begun: no lock is held, and nobody has asked."""
        self.asked = self.leaves = self.held = self.shows = self.is_stuck = self.is_set = self.goes = False
        self.train = None
        self.runs = 0
        self.steps = [*self.stop(), self.report(False)]

    def goes_forth(self):
        self.goes = self.held = True
        self.steps = [*[("lock", f"SET {bus} LOCK GA {address} 0") for bus, address, _ in self.turnouts],
                      *[("throw", f"SET {bus} GA {address} {port} 1 250") for bus, address, port in self.turnouts]]
        if self.signal:
            self.steps.append(("show", "SET {} GA {} {} 1 250".format(*self.signal[:3])))
        self.steps.append(self.report(True))

    def goes_back(self, was_tried=False):
        """Undoes what it has done up to its next step. `was_tried`: that step was refused, so it may have been done."""
        kind = self.steps[0][0] if self.steps else "report"
        locks = len(self.turnouts)
        if kind == "lock":
            self.steps = self.unlocks(locks - sum(step[0] == "lock" for step in self.steps))
        else:
            may_show = self.shows or kind == "show" and was_tried
            self.steps = [*(self.stop() if may_show else []), self.report(False), *self.unlocks(locks)]
        self.goes = self.is_set = self.shows = False
        self.leaves = True
        self.train = None
        self.comes_to_rest()

    def comes_to_rest(self):
        if self.is_idle():
            self.held = self.leaves = False

    def is_idle(self):
        return not self.steps and not self.is_set

    # ---- what comes

    def replied(self, is_accepted):
        if not is_accepted:
            self.asked = False
        if self.steps[0][0] == "fall":
            self.fell(is_accepted)
        elif self.goes:
            if not is_accepted:
                return self.goes_back(was_tried=True)
            self.shows = self.steps.pop(0)[0] == "show" or self.shows
            if not self.steps:
                self.goes, self.is_set = False, True
        elif self.steps[0][0] == "stop" and not is_accepted:
            self.is_stuck = True
        else:
            self.steps.pop(0)
            self.comes_to_rest()

    def fell(self, is_accepted):
        """The signal was to be stopped behind the head of the train."""
        if is_accepted:
            self.steps.pop(0)
            self.shows = False
        else:
            self.goes_back()
            self.is_stuck = True

    def given_back(self):
        self.asked = self.is_stuck = False
        self.leaves = not self.is_idle()

    def released(self):
        """Its train has passed. Who asked since it began to go back asks for the next train."""
        self.asked = self.asked and self.leaves
        self.leaves = True

    def order(self, free, is_clear):
        """Returns the command that it sends next, or None."""
        if (self.goes or self.is_set) and self.leaves:
            self.goes_back()
        elif self.is_idle() and self.asked and self.blocks <= free and is_clear:
            self.goes_forth()
        elif self.shows and self.train and self.train.entered:
            self.steps.insert(0, ("fall", self.stop()[0][1]))
        if not self.steps or self.is_stuck or self.steps[0][0] == "show" and not self.blocks <= free:
            return None
        kind, command = self.steps[0]
        if kind == "stop" and self.held and not self.approach <= free:
            self.runs = self.delay
            self.delays += 1
        elif kind == "report" and self.leaves and self.runs:
            return None
        if self.goes and kind == ("show" if self.signal else "report") and self.sections:
            self.train = Train(self.sections)
        return command


class Interlocking:
    """`free` and `occupied` have the sensors that were last told to be 0 or 1; `waits` is the route whose reply is to
    come. `has_begun`: there was a session; before that nothing counts. `trains` counts those that have passed the
    sections of their routes."""

    def __init__(self, plan):
        self.bus = plan["bus"]
        self.routes = [Route(plan["bus"], given) for given in plan.get("route", [])]
        self.free = set()
        self.occupied = set()
        self.has_begun = False
        self.waits = None
        self.trains = 0
        self.others = {route: [other for other in self.routes if other is not route and route.conflicts(other)]
                       for route in self.routes}

    def take(self, line):
        """Takes a line in. Returns the order that follows, or None."""
        words = line.split()
        self.has_begun = self.has_begun or words[1:4] == ["200", "OK", "GO"] and len(words) == 5
        match words if self.has_begun else []:
            case [_, "100", "INFO", bus, "FB", number, value]:
                self.sensed((int(bus), int(number)), value == "1")
            case [_, "102", "INFO", bus, "FB", number]:
                self.sensed((int(bus), int(number)), None)
            case [_, "100", "INFO", _, "TIME"]:
                for route in self.routes:
                    route.runs = max(0, route.runs - 1)
            case [_, "100", "INFO", bus, "GA", number, port, "1"] if int(bus) == self.bus:
                self.pressed(int(number), int(port))
            case [_, "200", "OK", "GO", _]:
                self.waits = None
                for route in self.routes:
                    route.begins_anew()
            case [_, code, *_] if code == "200" or code[0] in "45":
                if self.waits:
                    self.waits.replied(code == "200")
                self.waits = None
            case _:
                return None
        return self.next()

    def sensed(self, sensor, is_on):
        """A sensor is told to be 1 or 0; None: it is not known any more. Only a fall from 1 to 0 is that of a train."""
        if is_on is False and sensor in self.occupied:
            for route in self.routes:
                if route.held and route.frees == sensor:
                    route.released()
        for sensors, value in (self.free, False), (self.occupied, True):
            (sensors.add if is_on is value else sensors.discard)(sensor)
        for route in self.routes if is_on is not None else []:
            if route.train and not route.leaves and route.train.sensed(sensor, is_on, self.occupied):
                self.trains += 1
                route.released()

    def pressed(self, number, port):
        for route in self.routes:
            if route.number == number and port == 1:
                route.asked = True
            elif route.number == number and port == 0:
                route.given_back()

    def next(self):
        """One order at a time: that of the first route that has one."""
        for route in self.routes if not self.waits else []:
            if order := route.order(self.free, all(other.is_idle() for other in self.others[route])):
                self.waits = route
                return order
        return None


def main():
    _, _, path = sys.argv[1:]
    try:
        with open(path, "rb") as file:
            interlocking = Interlocking(tomllib.load(file))
    except (OSError, ValueError, LookupError, TypeError) as fault:
        print(f"srcp_server: plan: {fault}", file=sys.stderr)
        sys.exit(2)
    for line in sys.stdin:
        if order := interlocking.take(line):
            print(order, flush=True)


if __name__ == "__main__":
    main()
