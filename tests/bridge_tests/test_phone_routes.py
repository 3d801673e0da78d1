"""withrottle.py with a plan: phones are offered its routes once a program sets them."""
import signal
import time

from .common import LAYOUT, TOP, WAIT, program
from .phones import WiThrottleCase

KINDS = "PRT]\\[Routes}|{Route]\\[Active}|{2]\\[Inactive}|{4"
LIST = "PRL]\\[1}|{West to track 1}|{%s]\\[2}|{West to track 2}|{4"


class WiThrottleWithRoutes(WiThrottleCase):
    layout = LAYOUT + '[[bus]]\nnumber = 3\ngroups = ["GA", "FB"]\nga_max = 9\nfb_ports = 9\n'
    words = *WiThrottleCase.words, "--plan", TOP / "examples" / "plan.toml"

    def lies(self, number, port):
        """Waits until the accessory of a route was put to a port last."""
        self.has(f"100 INFO 3 GA {number} {1 - port} 0", f"100 INFO 3 GA {number} {port} 1")

    def test_routes(self):
        phone = self.phone()
        phone.got("*1")
        phone.send("PRA21")
        phone.got("HMthis layout has no routes")  # nobody has made their accessories
        self.assertEqual(phone.told("PR"), [])
        self.throttle.order("INIT 3 GA 2 N", "INIT 3 GA 1 N", "INIT 3 GA 9 N", "SET 3 FB 9 1")
        phone.got(KINDS, LIST % 4)
        phone.send("PRA21"), self.lies(1, 1)
        self.throttle.order("SET 3 FB 1 1", "SET 3 FB 1 1", "SET 3 FB 4 1")
        phone.got("PRA21")
        self.greeted(LIST % 2)
        phone.send("PRA21"), self.lies(1, 0)
        self.throttle.order("SET 3 FB 1 0")
        phone.got("PRA41")
        phone.send("PRA22"), self.lies(2, 1)
        self.has("100 INFO 3 GA 2 1 0")  # the pulse has ended
        phone.send("PRA22"), self.lies(2, 0)  # one that waits is given back too
        self.has("100 INFO 3 GA 2 0 0")
        self.throttle.order("SET 3 FB 2 1")  # set, though its accessory lies as one that was given back
        phone.got("PRA22")
        phone.send("PRA22"), self.lies(2, 0)
        for name in ("9", "4", "x", ""):
            phone.send(f"PRA2{name}")
            phone.got(f"HMno route {name}")
        self.bridge.send(signal.SIGSTOP)
        phone.send("PRA21")
        time.sleep(1.5)
        self.bridge.send(signal.SIGCONT)
        phone.got("HMnot done, since this program was stopped meanwhile")
        self.assertEqual([line for line in phone.lines if line.startswith("PRA")], ["PRA21", "PRA41", "PRA22"])

    def test_routes_that_come_and_go(self):
        """What a list tells is what the phone shows: a route that is set later is told."""
        self.throttle.order("INIT 3 GA 2 N", "INIT 3 GA 1 N", "SET 3 FB 1 1")
        phone, one = self.greeted(LIST % 2), "PRL]\\[1}|{West to track 1}|{%s"
        self.throttle.order("TERM 3 GA 2")
        phone.got(one % 2)
        self.throttle.order("TERM 3 GA 1", "SET 3 FB 1 0")
        phone.got("PRL")
        self.throttle.order("INIT 3 GA 1 N")
        phone.got(one % 4)
        self.throttle.order("SET 3 FB 1 1")
        phone.got("PRA21")
        self.assertEqual(phone.lines.count("PRA21"), 1)

    def test_a_plan_that_is_wrong(self):
        ended = program("withrottle.py", "--plan", TOP / "README.md", "--port", self.server.port)
        self.assertEqual(ended.process.wait(WAIT), 2)
        self.assertRegex(ended.told(), r"\A-- --plan .*\n\Z")
