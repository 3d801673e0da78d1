"""box.py over routes that share no device: the drawing alone says that a train on one is in the way of the other."""
import re
from pathlib import Path

from . import common
from .common import LAYOUT, Case, new_folder, until

LEGEND = """
[legend]
A = { button = "A" }
B = { button = "B" }
C = { button = "C" }
D = { button = "D" }
s1 = { signal = [2, 1, 2, 0] }
s2 = { signal = [2, 2, 2, 0] }
"""
CROSSING = r"""
A==s1=\     /==C
       \   /
        \ /
         +
        / \
B==s2==/   \===D
"""
ONE_TRACK = """
A==s1======s2==B
C==============D
"""


def plan_of(drawing, *ends):
    """Writes a plan of this drawing, whose routes lead from end to end."""
    routes = [f'[[route]]\nnumber = {number}\nname = "{begin} to {end}"\nfrom = "{begin}"\nto = "{end}"\n'
              f"signal = [2, {number}, 2, 0]\n" for number, (begin, end) in enumerate(ends, 1)]
    path = Path(new_folder(), "plan.toml")
    path.write_text(f"bus = 3\nplan = '''{drawing}'''{LEGEND}{''.join(routes)}")
    return path


class BoxOfTracks(Case):
    program = "box"
    layout = LAYOUT + '[[bus]]\nnumber = 3\ngroups = ["GA", "FB"]\nga_max = 9\nga_ports = 3\nfb_ports = 9\n'

    def one_at_a_time(self, plan):
        """Asks for both routes of a plan: the second is set once the first was given back."""
        box = self.starts("box.py", "--plan", plan, "--program", common.SERVER, port=self.way.port,
                          start_new_session=True)
        until(lambda: "-- none of 2 routes is set" in box.told(), "the box hears asks")
        self.throttle.order("SET 3 GA 1 1 1 250", "SET 3 GA 2 1 1 250")
        until(lambda: "-- route 1 set" in box.told(), "route 1 is set")
        self.throttle.order("SET 3 GA 1 0 1 250")
        said = ["1 set", "1 given back", "2 set"]
        until(lambda: re.findall(r"-- route (.*):", box.told()) == said, said)

    def test_two_that_cross(self):
        self.one_at_a_time(plan_of(CROSSING, "AD", "BC"))

    def test_one_track_from_both_ends(self):
        self.one_at_a_time(plan_of(ONE_TRACK, "AB", "BA"))
