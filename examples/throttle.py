#!/usr/bin/env python3
"""throttle.py [--host HOST] [--port PORT] [--bus BUS] [--address ADDRESS] [WORD ..]: a throttle for one locomotive.

Each word is a step: `faster`, `slower`, `turn`, `light`, `stop`, and `stop-all`, which is for all trains of the bus.
Without words it reads them from the keyboard, one a line, until the input ends (Ctrl-D). With words it drives until
Enter, or the end of the input. Then, at SIGINT, SIGTERM or SIGHUP, and once nobody reads what it prints, it stops the
locomotive if that drives as this throttle said.
"""
import argparse
import signal
import sys
import time
from contextlib import suppress

from panel import add_version, tell
from srcp_client import Refused, Session

if sys.version_info < (3, 11):
    sys.exit("this takes Python 3.11 or later")
WORDS = ("faster", "slower", "turn", "light", "stop", "stop-all")
STEPS = 28
FASTEST = 65535
CONFIRMS = 1.0  # seconds within which a driver says that all stand
BACKWARD = 0
FORWARD = 1
EMERGENCY_STOP = 2
ENDS = (signal.SIGINT, signal.SIGTERM, signal.SIGHUP)


class Throttle:
    """A command session that drives one locomotive."""

    def __init__(self, session: Session, bus: int, address: int) -> None:
        """Makes the locomotive only if there is none: a second INIT would stop a train."""
        self.session = session
        self.power = f"{bus} POWER"
        self.locomotive = f"{bus} GL {address}"
        self.direction = FORWARD
        self.drive_said: list[int] = []
        try:
            self.drive()
        except Refused as refused:
            if refused.code != "416":
                raise
            self.ask(f"INIT {self.locomotive} N 1 {STEPS} 1")

    def ask(self, command: str) -> str:
        """Returns the reply to a command. Ctrl-C waits until the reply is there."""
        before = signal.pthread_sigmask(signal.SIG_BLOCK, ENDS)
        try:
            return self.session.ask(command)
        finally:
            signal.pthread_sigmask(signal.SIG_SETMASK, before)

    def drive(self) -> list[int]:
        """Returns how the locomotive drives now: mode, speed, top speed, and functions."""
        return [int(word) for word in self.ask(f"GET {self.locomotive}").split(" ")[6:]]

    def set(self, *words: int) -> None:
        """Has the locomotive drive so, and prints what the server says of it then. Functions not given stay as they
        are."""
        self.ask(" ".join(["SET", self.locomotive, *map(str, words)]))
        tell(self.ask(f"GET {self.locomotive}"))

    def stop_all(self) -> None:
        """Has the driver of the bus stop all trains, and prints its answer. The power stays as it is."""
        is_on = " POWER ON" in self.ask(f"GET {self.power}")
        self.ask(f"SET {self.power} {'ON' if is_on else 'OFF'} stop all")
        ends = time.monotonic() + CONFIRMS
        while not (row := self.ask(f"GET {self.power}")).endswith(" all stood") and time.monotonic() < ends:
            time.sleep(0.01)
        tell(row if row.endswith(" all stood") else "not confirmed: trains may drive")

    def take(self, word: str) -> None:
        """Takes the step that the word asks for, from how the locomotive drives now: another may have stopped it."""
        if word == "stop-all":
            return self.stop_all()
        mode, speed, top, *functions = self.drive()
        if mode != EMERGENCY_STOP:  # which forgets the direction
            self.direction = mode
        if word == "light":
            if functions:
                self.set(mode, speed, top, 1 - functions[0])
            else:
                tell("it has no function")
            return
        top = top if speed else STEPS  # one that stands may get another top speed; 0 means that speeds have no top
        step = top // 7 or 1
        if word == "faster":
            said = self.direction, min(speed + step, top or FASTEST), top
        elif word == "slower":
            said = self.direction, max(speed - step, 0), top
        elif word == "turn":
            said = FORWARD + BACKWARD - self.direction, 0, top
        elif word == "stop":
            said = EMERGENCY_STOP, 0, 0
        else:
            tell(f"words: {', '.join(WORDS)}")
            return
        self.drive_said = list(said)
        self.set(*said)

    def drives(self) -> bool:
        """Returns whether the locomotive drives as this throttle said last."""
        return bool(self.drive_said and self.drive_said[1]) and self.drive()[:3] == self.drive_said

    def leave(self) -> None:
        """Stops the locomotive if it drives as this throttle said last."""
        signal.pthread_sigmask(signal.SIG_BLOCK, ENDS)
        if self.drives():
            mode, _, top = self.drive_said
            self.set(mode, 0, top)


def drive(throttle: Throttle, words: list[str]) -> None:
    """Takes the steps of these words, and waits for Enter if the locomotive drives then; without words those that are
    typed."""
    try:
        for word in words or sys.stdin:
            throttle.take(word.strip())
        if words and throttle.drives():
            tell("-- Enter stops it")
            sys.stdin.readline()
    except KeyboardInterrupt:
        pass
    finally:
        throttle.leave()


def main() -> None:
    words = argparse.ArgumentParser(description="Drives a locomotive, and stops it at the end.")
    add_version(words)
    words.add_argument("--host", default="127.0.0.1")
    words.add_argument("--port", type=int, default=4303)
    words.add_argument("--bus", type=int, default=1)
    words.add_argument("--address", type=int, default=12)
    words.add_argument("word", nargs="*", help=", ".join(WORDS))
    asked = words.parse_args()
    if unknown := [word for word in asked.word if word not in WORDS]:
        words.error(f"{unknown[0]} is none of the words {', '.join(WORDS)}")
    for number in ENDS:
        signal.signal(number, signal.default_int_handler)
    try:
        session = Session(asked.host, asked.port)
    except OSError as fault:
        sys.exit(f"no server at {asked.host}, port {asked.port}: {fault}")
    try:
        drive(Throttle(session, asked.bus, asked.address), asked.word)
    except (OSError, Refused) as fault:
        sys.exit(str(fault))


if __name__ == "__main__":
    with suppress(KeyboardInterrupt):
        main()
