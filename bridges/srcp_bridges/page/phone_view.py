"""What a phone shows of the layout."""
from __future__ import annotations

from collections.abc import Callable
from typing import TYPE_CHECKING

from srcp_bridges.limits import TOP
from srcp_bridges.srcp.driving import Which
from srcp_bridges.srcp.rows import EMERGENCY_STOP, Drive

if TYPE_CHECKING:
    from srcp_bridges.page.phone_layout import Layout

# A part of a phone's screen: power and why it is off, an accessory or a route, or a part of a locomotive.
Part = str | tuple[str, int] | tuple[Which, int | str]


def speed_of(drive: Drive | None) -> int:
    """Returns the speed of a locomotive for phones, of 126: above 0 for a locomotive that drives."""
    return -(-drive.v * TOP // (drive.v_max or TOP)) if drive else 0


class View:
    """Tells a phone what the phone does not show yet. `shown` has what was told, by the parts of the screen.

    A locomotive on the screen is named by its throttle and key: ("0", "S3").
    """

    def __init__(self, layout: Layout, taken: dict[Which, int], say: Callable[[str], None]):
        self.layout = layout
        self.taken = taken
        self.say = say
        self.shown: dict[Part, str] = {}

    def begin(self) -> None:
        """Tells a new phone all parts."""
        for text in self.layout.greeting():
            self.say(text)
        self.shown |= self.layout.routes.shown()
        self.shown["power"] = self.layout.power()[0]
        self.power()

    def changed(self, group: str, address: int) -> None:
        if group == "POWER":
            self.power()
        elif group == "GA":
            self.show(("GA", address), f"PTA{self.layout.lies(address)}{address}")
        elif group == "GL" and (drive := self.layout.drive(address)):
            for which in [which for which, taken in self.taken.items() if taken == address]:
                self.drive(which, drive)

    def route(self, number: int) -> None:
        if text := self.layout.routes.shown().get(part := ("route", number)):
            self.show(part, text)

    def show(self, part: Part, text: str) -> None:
        if self.shown.get(part) != text:
            self.shown[part] = text
            self.say(text)

    def power(self) -> None:
        text, why = self.layout.power()
        self.show("power", text)
        if why != self.shown.get("why", ""):
            self.shown["why"] = why
            if why:
                self.say(f"HM{why}")

    def drive(self, which: Which, drive: Drive) -> None:
        begin = f"M{which[0]}A{which[1]}<;>"
        for number, value in enumerate(drive.functions):
            self.show((which, number), f"{begin}F{value}{number}")
        if drive.mode != EMERGENCY_STOP:
            self.show((which, "R"), f"{begin}R{drive.mode}")
        self.show((which, "V"), f"{begin}V{speed_of(drive)}")

    def forget(self, which: Which, *parts: str) -> None:
        """Forgets what the phone was told of a locomotive, or of a part."""
        for part in [part for part in self.shown if part[0] == which and (not parts or part[1] in parts)]:
            del self.shown[part]

    def anew(self, which: Which, *parts: str) -> None:
        """Tells a locomotive, or a part, though the phone may show this already."""
        self.forget(which, *parts)
        if which in self.taken:
            self.changed("GL", self.taken[which])

    def again(self, part: Part, group: str, address: int) -> None:
        """Tells another part of the screen, though the phone may show this already: the phone may show a wish."""
        self.shown.pop(part, None)
        self.changed(group, address)
