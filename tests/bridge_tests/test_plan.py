"""The file of --plan: what the page is sent of it, and that each fault is told with its line."""
import tomllib
import unittest

from .common import TOP


def route(number: int, name: str, begin: str, end: str, turnouts: list[list[int]]) -> str:
    """Returns a route of a plan."""
    return f'\n[[route]]\nnumber = {number}\nname = "{name}"\nfrom = "{begin}"\nto = "{end}"\nturnouts = {turnouts}\n'


PLAN = r"""bus = 3
plan = '''
W==b1==s1==t1===b2=====t2==E
             \        /
              ===b3===
'''

[legend]
W = { button = "West" }
E = { button = "East" }
b1 = { sensor = [1, 1] }
b2 = { sensor = [1, 2] }
b3 = { sensor = [1, 3] }
s1 = { signal = [2, 1, 2, 0] }
t1 = { turnout = [1, 1, 1] }
t2 = { turnout = [1, 2, 0] }

[names]
"1 GL 3" = "V  100"

[functions]
"1 GL 3" = ["Light", "Whistle"]
""" + "".join([route(1, "Straight on", "W", "E", [[1, 1, 0], [1, 2, 1]]),
                 route(2, "Back by the loop", "E", "W", [[1, 1, 1], [1, 2, 0]])])
FAULTS = [  # the text, what stands in its place, and the fault
    ("W==b1", "W=?b1", "line 3: '?' in column 3 is neither track nor a name"),
    ("b1==s1", "b1==s9", "line 3: s9 in column 8 is not in the legend"),
    ("===b3===", "===b2===", "line 5: b2 is drawn in line 3 already"),
    ("b3 = { sensor = [1, 3] }\n", "b3 = { sensor = [1, 3] }\nb4 = { sensor = [1, 4] }\n",
     "line 14: b4 is not drawn in the plan"),
    ("             \\  ", "               \\", "line 3: tracks meet at the = in column 15, where no turnout is named"),
    ("             \\", "          \\  ", "line 4: the track ends at the \\ in column 11"),
    (" ===b3===", " ===b3== ", "line 4: the track ends at the / in column 23"),
    ("t2==E", "==t2E", "line 3: tracks meet at the = in column 24, where no turnout is named"),
    ("t1===b2", "s2===b2", "line 3: s2 in column 12 is not in the legend"),
    ("W==b1==s1==t1", "W==b1==t1==s1", "line 3: t1 is a turnout: it has a track on one side, and two on the other"),
    ("t1 = { turnout = [1, 1, 1] }", "t1 = { sensor = [1, 1] }", "line 3: tracks meet at t1, which is no turnout"),
    ("s1 = { signal = [2, 1, 2, 0] }", "s1 = { turnout = [2, 1, 0] }", "line 3: s1 is a turnout: it has a"),
    ("==E\n", "==E   b1\n", "line 3: b1 in column 32 has no track beside it"),
    ("==E\n", "==+\n", "line 3: a track ends at the + in column 28"),
    ("t1 = { turnout = [1, 1, 1] }", "t1 = { turnout = [1, 1] }", "line 15: t1: a turnout is [bus, address, port of"),
    ("t1 = { turnout = [1, 1, 1] }", "t1 = { turnout = [1, 1, 2] }", "line 15: t1: a turnout is [bus, address, port"),
    ("t1 = { turnout = [1, 1, 1] }", "t1 = { turnout = [1, true, 1] }", "line 15: t1: a turnout is [bus"),
    ("[2, 1, 2, 0]", "[2, 2045, 2, 0]", "line 14: s1: a signal is [bus, address, port of go, port of stop]"),
    ("sensor = [1, 2]", "sensor = [0, 2]", "line 12: b2: a sensor is [bus, address]"),
    ("sensor = [1, 2]", "senser = [1, 2]", "line 12: b2 is one of turnout, signal, sensor, button, text and"),
    ("\"West\"", "5", "line 9: W: a button has a text"),
    ("b3 = { sensor = [1, 3] }", "b3 = { text = \"Yard\" }", "line 5: track leads to b3 in column 18, which stands"),
    ("bus = 3", "bus = 251", "line 1: the routes have a bus of their own: bus = 1 to 250"),
    ("\"V  100\"", "100", "line 19: 1 GL 3: a name is a text"),
    ("\"Whistle\"", "3", "line 22: 1 GL 3: the labels of F0, F1 .. are a list of texts"),
    ("number = 2", "number = 2045", "line 32: a route has a number from 1 to 2044"),
    ("number = 2", "number = 1", "line 32: there is a route 1 already"),
    ("name = \"Back by the loop\"\n", "", "line 31: a route has a name"),
    ("from = \"E\"", "from = \"b1\"", "line 34: a route leads from a button of the plan"),
    ("from = \"E\"\nto = \"W\"", "from = \"W\"\nto = \"E\"", "line 35: route 1 leads from W to E already"),
    ("[[1, 1, 1], [1, 2, 0]]", "[[1, 1, 1], [1, 2]]", "line 36: the turnouts of a route are a list of [bus, address"),
    ("[[1, 1, 1], [1, 2, 0]]", "[[1, 1, 1], [1, 2, 1]]", "line 36: no track leads from E to W over the turnouts"),
    ("[[1, 1, 1], [1, 2, 0]]", "[[1, 2, 0]]", "line 36: no track leads from E to W over the turnouts"),
    ("number = 2", "number = 2\nblock = [[1, 1]]", "line 33: block is no key of a route: number, name, from, to,"),
    ("number = 2", "number = 2\nsignals = [2, 1, 2, 0]", "line 33: signals is no key of a route"),
    ("number = 2", "number = 2\nblocks = [[1, 0]]", "line 33: the blocks of a route are a list of [bus, sensor]"),
    ("number = 2", "number = 2\nblocks = [[3, 1]]", "line 33: the blocks of a route are on other buses"),
    ("number = 2", "number = 2\nsignal = [2, 1, 2]", "line 33: the key signal of a route is [bus, address, port of go"),
    ("number = 2", "number = 2\nfrees = [[1, 1]]", "line 33: the key frees of a route is [bus, sensor]"),
    ("number = 2", "number = 2\nfrees = [3, 1]", "line 33: the key frees of a route is on another bus"),
    ("number = 2", "number = 2\nsections = [1, 1]", "line 33: the sections of a route are a list of [bus, sensor]"),
    ("number = 2", "number = 2\nsections = [[1, 1], [1, 4097]]", "line 33: the sections of a route are a list of"),
    ("number = 2", "number = 2\nsections = [[1, 1], [3, 1]]", "line 33: the sections of a route are on other buses"),
    ("number = 2", "number = 2\napproach = [[3, 1]]", "line 33: the sensors of the approach of a route are"),
    ("number = 2", "number = 2\napproach = [[1, 4097]]", "line 33: the sensors of the approach of a"),
    ("number = 2", "number = 2\ndelay = 601", "line 33: the delay of a route is 1 to 600 seconds"),
    ("number = 2", "number = 2\ndelay = 0", "line 33: the delay of a route is 1 to 600 seconds"),
    ("number = 2", "number = 2\ndelay = true", "line 33: the delay of a route is 1 to 600 seconds"),
    ("bus = 3\n", "bus = 3\nroutes = 4\n", "line 2: routes is no key of a plan: bus, plan, legend, names,"),
    ("bus = 3\n", "bus = 3\nbus = 3\n", "Cannot overwrite a value (at line 2, column 8)"),
]


def plan_of(content):
    from srcp_bridges.plan.plan import plan_of
    return plan_of(content)


class Plans(unittest.TestCase):
    program = "plan"

    def of(self, text, *entries):
        """What the page is sent of a drawing with these entries of the legend."""
        return plan_of("\n".join([f"plan = '''\n{text}\n'''", "[legend]", *entries])).drawing

    def test_what_the_page_is_sent(self):
        names, functions, drawing, _ = plan_of(PLAN)
        self.assertEqual((names, functions), ({"1 GL 3": "V 100"}, {"1 GL 3": ["Light", "Whistle"]}))
        self.assertEqual((drawing["width"], drawing["height"], drawing["bus"]), (28, 3, 3))
        of = {element["name"]: element for element in drawing["elements"]}
        self.assertEqual(list(of), ["W", "b1", "s1", "t1", "b2", "t2", "E", "b3"])  # as it is read
        self.assertEqual((of["W"]["text"], of["b2"]["key"], of["s1"]["key"]), ("West", "1 FB 2", "2 GA 1"))
        self.assertEqual((of["s1"]["go"], of["s1"]["stop"], of["s1"]["at"]), (2, 0, (8.0, 0.5)))
        self.assertEqual((of["t1"]["at"], of["t1"]["ends"]), ((12.5, 0.5), [(17.0, 0.5), (14.5, 2.5)]))
        self.assertEqual((of["t2"]["at"], of["t2"]["ends"]), ((23.5, 0.5), [(21.5, 2.5), (17.0, 0.5)]))

    def corners(self, drawing, tracks):
        return [tuple(drawing["tracks"][number]) for number in tracks]

    def test_the_tracks_of_routes_and_blocks(self):
        """A route takes the way to which its turnouts are put, and a block goes from its sensor to the next turnout."""
        drawing = plan_of(PLAN).drawing
        straight, loop = (self.corners(drawing, route["tracks"]) for route in drawing["routes"])
        west = (0.5, 0.5)
        b1 = (4.0, 0.5)
        s1 = (8.0, 0.5)
        t1 = (12.5, 0.5)
        b2 = (17.0, 0.5)
        t2 = (23.5, 0.5)
        east = (27.5, 0.5)
        self.assertEqual(straight, [(west, b1), (b1, s1), (s1, t1), (t1, b2), (b2, t2), (t2, east)])
        b3 = (18.0, 2.5)
        below = [(t1, (14.5, 2.5), b3), (t2, (21.5, 2.5), b3)]
        self.assertEqual({*loop}, {(t2, east), *below, (s1, t1), (b1, s1), (west, b1)})
        blocks = {each["name"]: {*self.corners(drawing, each["tracks"])} for each in drawing["elements"]
                  if each["kind"] == "sensor"}
        self.assertEqual(blocks, {"b1": {(west, b1), (b1, s1), (s1, t1)}, "b2": {(t1, b2), (b2, t2)}, "b3": {*below}})
        self.assertIn(b3, below[0])

    def test_crossings_and_turnouts_without_a_straight_way(self):
        """A crossing leads straight on alone. Of two ways that both branch off, the upper one counts as straight on."""
        cross = "bus = 9\nplan = '''\na=\\ /=b\n   +\nc=/ \\=d\n'''\n[legend]\n"
        cross += "".join(f"{name} = {{ button = \"\" }}\n" for name in "abcd")
        route = "[[route]]\nnumber = {}\nname = \"\"\nfrom = \"{}\"\nto = \"{}\"\n"
        drawing = plan_of(cross + route.format(1, "a", "d") + route.format(2, "b", "c")).drawing
        one, two = (self.corners(drawing, each["tracks"]) for each in drawing["routes"])
        self.assertEqual(one, [((0.5, 0.5), (2.0, 0.5), (3.5, 1.5)), ((3.5, 1.5), (5.0, 2.5), (6.5, 2.5))])
        self.assertEqual([track[-1] for track in two], [(3.5, 1.5), (0.5, 2.5)])
        pieces = [{*each["pieces"]} for each in drawing["routes"]]
        self.assertEqual(pieces[0] & pieces[1], {"1 3"})  # the crossing, by its row and its column
        flat = cross.replace("a=\\ /=b\n   +\nc=/ \\=d", "    /=b\na==+==d\nc=/   ")
        plan_of(flat + route.format(1, "a", "d") + route.format(2, "c", "b"))
        for text, end in [(cross, "b"), (cross, "c"), (flat, "b"), (flat, "c")]:
            with self.assertRaisesRegex(ValueError, f"line 16: no track leads from a to {end} past no button"):
                plan_of(text + route.format(1, "a", end))
        [y, *_] = self.of("    /=\n ==y\n    \\=", "y = { turnout = [1, 1, 1] }")["elements"]
        self.assertEqual(y["ends"], [(5.0, 0.5), (5.0, 2.5)])

    def test_routes_that_name_their_ends_alone(self):
        """They have the turnouts of the only way that passes no button, as if these were written out."""
        loop = "turnouts = [[1, 1, 1], [1, 2, 0]]\n"
        fault = "line 35: several tracks lead from E to W past no button: name the turnouts of route 2"
        with self.assertRaises(ValueError, msg=fault) as met:
            plan_of(PLAN.replace(loop, ""))
        self.assertIn(fault, str(met.exception))
        halt = PLAN.replace("===b2===", "=P=b2===").replace("[legend]", "[legend]\nP = { button = \"Halt\" }")
        for begin, turnouts in ("E", [[1, 2, 0], [1, 1, 1]]), ("P", [[1, 1, 0]]):
            text = halt.replace(loop, "").replace('from = "E"', f'from = "{begin}"')
            found = plan_of(text)
            self.assertEqual(found.routes[1]["turnouts"], turnouts)
            self.assertEqual(found.drawing, plan_of(text + f"turnouts = {turnouts}\n").drawing)

    def test_to_which_side_signals_are_passed(self):
        """As their routes pass them, or as the legend says. One that is passed to both sides has no direction."""
        signal, route = "s1 = { signal = [2, 1, 2, 0]", 'to = "E"\n'
        back = PLAN + "signal = [2, 1, 2, 0]\n"

        def told(text):
            return next(each for each in plan_of(text).drawing["elements"] if each["name"] == "s1")

        self.assertEqual(told(PLAN)["to"], None)
        self.assertEqual(told(PLAN.replace(signal, signal + ', to = "left"'))["to"], "left")
        ahead = PLAN.replace(route, route + "signal = [2, 1, 2, 0]\n")
        self.assertEqual([told(text)["to"] for text in (ahead, back)], ["right", "left"])
        self.assertEqual(told(ahead + "signal = [2, 1, 1, 0]\n")["to"], None)
        self.assertEqual(told(back.replace(signal, signal + ', aspects = ["halt", ""]'))["aspects"], ["halt", ""])
        for text, more, fault in (
                (back, ', to = "right"', "line 37: route 2 passes s1 to the left, and not to the right"),
                (PLAN, ', to = "east"', "line 14: s1: a train that obeys a signal drives to = \"left\" or"),
                (PLAN, ", aspects = 3", "line 14: s1: the aspects of a signal are the names of port 0, 1 ..: 4 texts"),
                (PLAN, f", aspects = {['a'] * 5}", "line 14: s1: the aspects of a signal are the names of port 0, 1"),
                (PLAN, ", turnout = [1, 5, 1]", "line 14: s1 is one of turnout, signal")):
            with self.assertRaises(ValueError, msg=fault) as met:
                plan_of(text.replace(signal, signal + more))
            self.assertIn(fault, str(met.exception))

    def test_tracks_that_end(self):
        """Each is drawn once, also one on which nothing stands."""
        drawing = self.of("==b\n\n====", "b = { sensor = [1, 1] }")
        self.assertEqual(drawing["tracks"], [[(2.5, 0.5), (0.5, 0.5)], [(0.5, 2.5), (3.5, 2.5)]])

    def test_the_example(self):
        """It has four routes, and all that it names is in the layout beside it."""
        text, layout = ((TOP / "examples" / name).read_text() for name in ("plan.toml", "layout.toml"))
        names, functions, drawing, _ = plan_of(text)
        buses = {bus["number"]: bus for bus in tomllib.loads(layout)["bus"]}
        keys = [each["key"] for each in drawing["elements"] if "key" in each] + [*names, *functions]
        keys += [f"{drawing['bus']} {group} {route['number']}" for route in drawing["routes"] for group in ("GA", "FB")]
        for bus, group, address in map(str.split, keys):
            most = buses[int(bus)][{"GL": "gl_max", "GA": "ga_max", "FB": "fb_ports"}[group]]
            self.assertLessEqual(int(address), most, (bus, group))
        self.assertEqual([route["number"] for route in drawing["routes"]], [1, 2, 3, 4])
        driven = {key.split()[0] for key in keys} - {str(drawing["bus"])}
        self.assertEqual([(bus, "POWER" in buses[int(bus)]["groups"]) for bus in driven], [("1", True)])  # one driver
        page = (TOP / "bridges" / "signal_box.md").read_text()
        self.assertIn(text[text.index("plan = '''"):text.index("[legend]")].rstrip(), page)
        with self.assertRaises(ValueError) as met:
            plan_of(text.replace("t1 =", "t8 ="))
        self.assertIn(f"--plan examples/plan.toml: {met.exception}`", page)

    def test_what_stands_beside_the_tracks(self):
        """A platform reaches as far as the # beside its name."""
        words = ("a==b", " #p# x", "c==d")
        legend = [f"{name} = {{ button = \"\" }}" for name in "abcd"]
        given = ["p = { platform = \"Platform\" }", "x = { text = \"to the valley\" }"]
        drawing = self.of("\n".join(words), *legend, *given)
        self.assertEqual([each["name"] for each in drawing["elements"]], list("abcd"))
        self.assertEqual(drawing["beside"], [
            {"name": "p", "kind": "platform", "at": (2.5, 1.5), "text": "Platform", "wide": 3},
            {"name": "x", "kind": "text", "at": (5.5, 1.5), "text": "to the valley", "wide": 1}])
        for line, entries, fault in (("a=x=b", given[1:], "line 2: track leads to x in column 3, which stands beside"),
                                     ("a==b  #p", ["p = { text = \"\" }"], "line 2: p in column 7 is a text: # is"),
                                     ("a==b  #p", ["p = { platform = 3 }"], "line 8: p: a platform has a text"),
                                     ("a==b  # p", given[:1], "line 2: '#' in column 7 is neither track nor a name")):
            with self.assertRaises(ValueError) as met:
                self.of(line, *legend[:2], "", *entries)
            self.assertIn(fault, str(met.exception))

    def test_sections(self):
        """Two routes may have the same, and one may have a sensor twice, or none. None has to be drawn."""
        for sections in [], [[1, 1]], [[1, 3], [1, 1], [250, 4096], [1, 1]]:
            drawing = plan_of(PLAN.replace("from = ", f"sections = {sections}\nfrom = ")).drawing
            self.assertEqual([route["number"] for route in drawing["routes"]], [1, 2])

    def test_faults(self):
        for old, new, fault in FAULTS:
            self.assertEqual(PLAN.count(old), 1, old)
            with self.assertRaises(ValueError, msg=fault) as met:
                plan_of(PLAN.replace(old, new))
            self.assertIn(fault, str(met.exception))
        for content, fault in [("plan = 3", "line 1: the plan is a text"), ("\nnames = 3", "line 2: names is a table"),
                               ("bus = 3\nplan = \"\"\nroute = 1", "line 3: a route is a table: [[route]]"),
                               ("plan = '''=#='''", "line 1: '#' in column 2")]:
            with self.assertRaises(ValueError, msg=fault) as met:
                plan_of(content)
            self.assertIn(fault, str(met.exception))
