#!/usr/bin/env python3
"""doctor.py ADDRESS [--bus BUS] [--host HOST] [--port PORT] [--seconds SECONDS]: why does this locomotive not move?

It looks at each link from the server to the track, and prints how it is. At the first broken one it says what to do,
and ends with that link's number as its status. Status 0: as far as it can tell, none is broken.
"""
import argparse
import pwd
import re
import shutil
import subprocess
import time
from contextlib import closing
from pathlib import Path

from panel import add_version, tell
from srcp_client import Full, Refused, Session
from status import Told, names, programs, snapshot

TOP = 126  # steps of a station
TOPS = {"z21.py": (14, 28, TOP)}  # of one that has several: a locomotive drives in the first that has all of its steps
DRIVERS = ("dcc_ex.py", "z21.py", "srcp-dcc-ex", "srcp-z21")
SETTLED = 2.5  # seconds after a command in which a driver tells its station, and tells of one that does not confirm
LOOKS = 4  # at a locomotive that is commanded again and again
FULL = "it is full: 64 programs are connected", "end some; status.py names those that it knows"
CURES = {"no station": "plug the station in. The power stays off until you switch it on",
         "overload": "something shorts the track: take it off, and switch the power on",
         "station says off": "it was switched off at the station: switch the power on",
         **dict.fromkeys(["stop all", "all stood"],
                         "STOP ALL did it, for a locomotive that somebody had locked, or at the station: switch it on"),
         "no driver": "its driver has ended, or stood still: start it, or have it go on, and switch the power on"}


class Broken(Exception):
    """A link that is broken: what is wrong, and what to do."""


def unseen(seen: list[int]) -> str:
    """Returns a word on a driver that runs on this machine and that is none of these: it tells of itself in a folder
    that this program does not look into, as that of another user."""
    for file in Path("/proc").glob("[0-9]*/cmdline"):
        try:
            words = [Path(word).name for word in file.read_bytes().decode("utf-8", "replace").split("\0")[:4]]
            driver = next((word for word in words if word in DRIVERS), None)
            if driver and int(file.parent.name) not in seen:
                user = pwd.getpwuid(file.stat().st_uid).pw_name
                return f"; I cannot see what {driver} of {user} does (process {file.parent.name}): run this as {user}"
        except (OSError, KeyError):
            pass  # it ended meanwhile, or has no name
    return ""


class Chain:
    """The links between a throttle and a locomotive. Each method is one: it says how its link is, or is Broken."""

    def __init__(self, asked: argparse.Namespace) -> None:
        self.at = (asked.host, asked.port)
        self.seconds = asked.seconds
        self.bus: int = asked.bus
        self.address: int = asked.address
        self.rows: dict = {}
        self.now = 0.0  # the server's
        self.look_at_drivers()

    def look_at_drivers(self) -> None:
        """Takes in what the programs of this machine tell of themselves."""
        self.names = names(self.at[1])
        self.drivers = [told for told in programs() if told["station"].get("bus") == self.bus]
        here = [told for told in self.drivers if told["station"]["here"]]
        self.driving: Told | None = next(iter(here or self.drivers), None)

    def look_at_rows(self) -> bool:
        """Takes in what the server has; returns whether it had a place for that."""
        try:
            own, self.rows = snapshot(*self.at, self.seconds)
        except Full:
            return False
        self.now = float(self.rows[("0", "SESSION", str(own)), "101", None].split(" ")[0])
        return True

    def words(self, code: str, *device: object) -> list[str] | None:
        """Returns the words of a row behind its device, or None if there is no such row."""
        line = self.rows.get((tuple(map(str, device)), code, None))
        return line and line.split(" ")[3 + len(device):]

    def ask(self, command: str) -> str:
        """Returns the code of the server's reply to a command."""
        try:
            with closing(Session(*self.at, seconds=self.seconds)) as session:
                return session.ask(command).split(" ")[1]
        except Refused as refused:
            return refused.code

    def left_out(self) -> str | None:
        """Returns why the driver does not drive it, if it does not."""
        return self.driving["station"]["left_out"].get(f"{self.bus} GL {self.address}") if self.driving else None

    def is_forgotten(self) -> bool:
        """Returns whether the station has forgotten it since it was told something of it."""
        return self.address in self.driving["station"].get("forgotten", []) if self.driving else False

    def settle(self) -> None:
        """Waits until the driver has had the time to tell its station the last command, and to hear what comes."""
        for _ in range(LOOKS):
            line = self.rows.get(((str(self.bus), "GL", str(self.address)), "100", None), "0")
            if not self.driving or (early := SETTLED - self.now + float(line.split(" ")[0])) <= 0:
                return
            time.sleep(early)
            self.look_at_rows()
            self.look_at_drivers()

    def server(self) -> str:
        try:
            if not self.look_at_rows():
                raise Broken(*FULL)
            self.settle()
        except OSError as fault:
            raise Broken(f"none answers at {self.at[0]}, port {self.at[1]}: {fault}{unit()}",
                         "sudo systemctl start srcp_server, or ./run serve --config FILE") from None
        return "it answers"

    def layout(self) -> str:
        reply = self.ask(f"GET {self.bus} GL {self.address}")
        if reply == "422" or self.ask(f"GET {self.bus} GL 1") == "412":
            raise Broken(f"it has no bus {self.bus} with locomotives",
                         "give --bus, or add GL to that bus and restart the server")
        if reply == "412":
            raise Broken(f"the greatest address of bus {self.bus} is below {self.address}",
                         "raise gl_max of that bus, and restart the server")
        return f"bus {self.bus} may have the address {self.address}"

    def locomotive(self) -> str:
        if not (made := self.words("101", self.bus, "GL", self.address)):
            raise Broken("it is not made", "add it on the page, or take it with a throttle")
        return f"protocol {made[0]}, {made[2]} steps, {made[3]} functions"

    def power(self) -> str:
        is_on, *text = self.words("100", self.bus, "POWER") or ["ON"]
        why = " ".join(text)
        if is_on == "OFF":
            raise Broken(f"it is off: {why}" if why else "it is off", CURES.get(why, "switch it on"))
        return "it is on"

    def lock(self) -> str:
        if not (lock := self.words("100", self.bus, "LOCK", "GL", self.address)):
            return "nobody has it"
        holder = self.names.get(lock[1], "of a program that is not known")
        return f"session {lock[1]} has it ({holder}), and alone may drive"

    def command(self) -> str:
        """A driver puts what it cannot drive back to 0: that is no link of whoever commands."""
        mode, v, v_max, *_ = self.words("100", self.bus, "GL", self.address) or ["1", "0", "0"]
        if mode != "2" and v != "0":
            return f"drive {'forward' if mode == '1' else 'backward'} at {v} of {v_max}"
        if self.left_out():
            return "it is told to stand, as the driver has what it does not drive"
        if self.is_forgotten():
            return "it is told to stand, as the driver has what its station has forgotten"
        raise Broken("it is told to stand", f"drive it; {self.lock()}{unseen([told['pid'] for told in self.drivers])}")

    def driver(self) -> str:
        if not self.driving:
            start = "sudo systemctl start srcp_bridge@dcc_ex, or python3 bridges/dcc_ex.py --station .."
            raise Broken(f"no program of this machine says that it drives bus {self.bus}", start + unseen([]))
        state = Path(f"/proc/{self.driving['pid']}/stat").read_text().rpartition(")")[2].split()[0]
        if state in "Tt":
            raise Broken("it stands still: somebody has stopped its process",
                         f"kill -CONT {self.driving['pid']}, and what was commanded meanwhile is done")
        return f"it drives bus {self.bus}"

    def station(self) -> str:
        assert self.driving
        station = self.driving["station"]
        if not station["here"]:
            raise Broken(f"{station['name']} does not answer", "look at its cable, its plug and its power")
        text = " ".join((self.words("100", self.bus, "POWER") or [])[1:])
        if text.startswith("does not confirm") and str(self.address) in re.findall("[0-9]+", text):
            raise Broken(f"{station['name']} {text}", "look at its cable, its plug and its power. A z21start drives "
                         "nothing by its network until it is given its code")
        slots = f", and has {station['slots']} slots, of which {station['taken']} are taken" if station["slots"] else ""
        return f"{station['name']} answers{slots}"

    def wanted(self) -> tuple[list[int], int]:
        """Returns the speed and the direction that the station is to be told, and of how many steps."""
        steps = int((self.words("101", self.bus, "GL", self.address) or ["", "", str(TOP)])[2])
        mode, v, v_max = map(int, (self.words("100", self.bus, "GL", self.address) or ["1", "0", "0"])[:3])
        tops = [top for name in self.programs_of_driver() for top in TOPS.get(name, ())]
        top = next((top for top in tops if steps <= top), TOP)
        return [min(top, -(-v * top // (v_max or steps))), mode], top

    def programs_of_driver(self) -> set[str]:
        """Returns the names of the driver's sessions: dcc_ex.py, or z21.py."""
        sessions = self.driving["sessions"] if self.driving else {}
        return {name for of_port in sessions.values() for name in of_port.values()}

    def told(self) -> str:
        assert self.driving
        if why := self.left_out():
            raise Broken(f"the station does not drive it: {why}",
                         "make it with another protocol, or remove one that you do not need")
        if self.is_forgotten():
            raise Broken("the station has forgotten it: another throttle there gave its slot away",
                         "drive it once more")
        if (told := self.driving["station"]["told"].get(str(self.address))) is None:
            raise Broken("the station was told nothing of it", "drive it once more, and read what its driver says")
        how = "nothing, since a hand throttle at the station drives it"
        if told:
            (*now, moment), (wanted, top) = told, self.wanted()
            how = f"{now[0]} of {top}, {'forward' if now[1] else 'backward'}, {time.monotonic() - moment:.0f} s ago"
            if now != wanted:
                way = "forward" if wanted[1] else "backward"
                raise Broken(f"{how}, and not {wanted[0]}, {way}: its driver does not do its work",
                             "read what its driver says, and start it anew")
        return f"{how}. If it stands still, look at rails, decoder and address"


LINKS = [Chain.server, Chain.layout, Chain.locomotive, Chain.power, Chain.lock, Chain.command, Chain.driver,
         Chain.station, Chain.told]


def unit() -> str:
    """Returns what systemd says of the server's unit, if there is one."""
    if not shutil.which("systemctl"):
        return ""
    said = subprocess.run(["systemctl", "is-active", "srcp_server"], capture_output=True, text=True).stdout.strip()
    return f"; its unit is {said}" if said else ""


def main() -> None:
    words = argparse.ArgumentParser(description="Tells why a locomotive does not move.")
    add_version(words)
    words.add_argument("address", type=int)
    words.add_argument("--bus", type=int, default=1)
    words.add_argument("--host", default="127.0.0.1")
    words.add_argument("--port", type=int, default=4303)
    words.add_argument("--seconds", type=float, default=5, help="how long it waits for an answer")
    chain = Chain(words.parse_args())
    for number, link in enumerate(LINKS, 1):
        try:
            tell(f"{number} {link.__name__}: {link(chain)}")
        except Broken as broken:
            what, cure = broken.args
            tell(f"{number} {link.__name__}: {what}\n-- {cure}")
            raise SystemExit(number)


if __name__ == "__main__":
    main()
