"""What a hand throttle at a station did, and what comes before the registry is told of it."""
import asyncio
import types
import unittest
from unittest import mock


class HandsBeforeStops(unittest.IsolatedAsyncioTestCase):
    program = "hands"

    async def test_what_a_hand_did_before_a_stop_does_not_undo_it(self):
        from srcp_bridges.srcp.rows import Drive
        from srcp_bridges.stations.hands import Hands
        from srcp_bridges.stations.holds import Holds
        from srcp_bridges.stations.registry import Orders
        from srcp_bridges.srcp.stop import Stops
        asked, marked = [], []

        async def ask(command):
            asked.append(command)

        async def catches_up(device):
            self.assertEqual(device, (1, "GL", 3, False))

        mirror = types.SimpleNamespace(stops=Stops(), session=True, ask=ask, catches_up=catches_up)
        track = types.SimpleNamespace(top_of=lambda address: 126, mark=marked.append)
        orders = Orders(mirror)
        holds = Holds(1, mirror, orders, marked.append)
        hands = Hands(types.SimpleNamespace(number=1, track=track, orders=orders, mirror=mirror, holds=holds))
        hands.drives(3, 45, 1, Drive(0, 1, 0, 126, ()), (0, 0))
        mirror.stops.stopped(1, 3)
        with mock.patch("srcp_bridges.stations.registry.say"):
            await hands.orders.carry_out()
        self.assertEqual((asked, marked), ([], [("cab", 3)]))
        hands.drives(3, 46, 1, Drive(0, 2, 0, 126, ()), (1, 0))  # by who has seen that it was stopped
        await hands.orders.carry_out()
        self.assertEqual(asked, ["SET 1 GL 3 1 46 126"])

    async def test_an_echo_that_is_as_late_as_a_line_may_be_silent(self):
        """It is no hand's doing. What is later than that is one."""
        from srcp_bridges.stations.reports import Reports
        from srcp_bridges.stations.station import words_of_driver
        silence, loop = words_of_driver("").parse_args([]).silence, asyncio.get_running_loop()
        loop.set_debug(False)  # which looks at the clock
        for late, is_hand in ((silence, False), (silence + 5, True)):
            reports, now = Reports(), loop.time()
            reports.telling(("cab", 3), (60, 1))
            with mock.patch.object(loop, "time", lambda: now + late):
                self.assertEqual(reports.is_news(("cab", 3), (60, 1)), is_hand)


class HandsBeforeRows(unittest.IsolatedAsyncioTestCase):
    """A bus beside a server that is played here, and a locomotive 77 that it does not have and that a hand drives."""
    program = "hands"
    GET, INIT = "GET 1 GL 77", "INIT 1 GL 77 N 1 126 29"

    async def asyncSetUp(self):
        from srcp_bridges.stations.bus import Bus
        from srcp_bridges.stations.hands import Hands
        from srcp_bridges.stations.track import Hooks
        asked = types.SimpleNamespace(bus=1, patience=1, host="", port=0, again=1, turnout_pace=1)
        hooks = Hooks(lambda: None, lambda address: None, lambda part: False,
                      lambda *report: self.hands.locomotive(*report), (126,), None)
        self.bus = Bus(asked, {}, hooks)
        self.hands = Hands(self.bus)
        self.asked, self.between = [], lambda: None
        self.bus.mirror.session, self.bus.mirror.ask = True, self.answers
        self.bus.station_comes()

    async def answers(self, command):
        from srcp_bridges.srcp.replies import Refused
        self.asked.append(command)
        if command == self.GET:
            if row := self.bus.mirror.rows.get((1, "GL", 77, "does")):
                return row
            raise Refused(416, "416 ERROR no data")
        if command == self.INIT:
            self.tells("101 INFO 1 GL 77 N 1 126 29", "100 INFO 1 GL 77 1 0 0" + 29 * " 0")
            self.between()

    def tells(self, *lines):
        for line in lines:
            self.bus.mirror.take("1.5 " + line)

    async def told(self, before=lambda: None, between=lambda: None):
        """What the station is to be told of it, if so much happens before the GET, and between the INIT and the SET."""
        self.between = between
        self.hands.locomotive(77, 40, 1, 0)
        before()
        with mock.patch("srcp_bridges.stations.registry.say"):
            await self.hands.orders.carry_out()
        return self.waits()

    def waits(self):
        return next((waiting["cab", 77] for waiting in self.bus.track.waiting if ("cab", 77) in waiting), None)

    async def test_what_is_made_is_set_as_a_hand_drives_it(self):
        self.assertIsNone(await self.told(between=lambda: self.hands.locomotive(77, 41, 0, 0)))
        self.assertEqual(self.asked, [self.GET, self.INIT, "SET 1 GL 77 0 41 126"])
        self.assertEqual(self.bus.track.told["cab", 77], (41, 0))

    async def test_what_is_made_stands_after_a_stop(self):
        self.assertEqual(await self.told(between=lambda: self.tells("100 INFO 1 GL 77 2 0 0" + 29 * " 0")), (-1, 1))
        self.assertEqual(self.asked, [self.GET, self.INIT])

    async def test_what_is_made_stands_after_a_loss_behind_the_init(self):
        """As after a power that went off for a stop of all."""
        self.assertEqual(await self.told(between=lambda: self.tells("100 INFO 1 POWER OFF stop all")), (0, 1))
        self.assertEqual(self.asked, [self.GET, self.INIT])

    async def test_what_is_made_stands_after_an_overload_behind_the_init(self):
        self.assertEqual(await self.told(between=lambda: self.bus.lose("overload")), (0, 1))
        self.assertEqual(self.asked, [self.GET, self.INIT])

    async def test_what_is_made_stands_after_a_loss_before_the_init(self):
        self.assertEqual(await self.told(lambda: self.tells("100 INFO 1 POWER OFF stop all")), (0, 1))
        self.assertEqual(self.asked, [self.GET, self.INIT])

    async def test_two_commands_of_one_millisecond(self):
        """The second of them may look like the first: a light is no command to drive, and a speed is one."""
        drives, lit = "100 INFO 1 GL 77 1 40 126" + 29 * " 0", "100 INFO 1 GL 77 1 40 126 1" + 28 * " 0"
        self.tells("101 INFO 1 GL 77 N 1 126 29", drives)
        self.bus.track.told["cab", 77] = 40, 1
        self.tells("100 INFO 1 POWER ON stop all")
        self.assertEqual(self.waits(), (-1, 1))
        self.tells(lit)
        self.assertEqual(self.waits(), (-1, 1))
        self.tells(lit)
        self.assertIsNone(self.waits())
        self.assertEqual(self.bus.track.wanted(("cab", 77))[1], (40, 1))

    async def test_what_a_hand_drives_stands_once_this_program_has_slept(self):
        """Also as the power comes again."""
        await self.told()
        self.tells("100 INFO 1 GL 77 1 40 126" + 29 * " 0")
        self.assertIsNone(self.waits())
        self.tells("100 INFO 1 POWER OFF no driver", "100 INFO 1 POWER ON")
        self.assertEqual(self.waits(), (0, 1))

    async def test_two_reports_at_once_make_one(self):
        """The second comes while the server makes it, and is the one that counts."""
        async def late(command, answers=self.bus.mirror.ask):
            if command == self.INIT:
                self.hands.locomotive(77, 41, 1, 0)
            return await answers(command)

        self.bus.mirror.ask = late
        self.assertIsNone(await self.told(lambda: self.hands.locomotive(77, 39, 1, 0)))
        self.assertEqual(self.asked, [self.GET, self.INIT, "SET 1 GL 77 1 41 126"])

    async def test_one_that_somebody_else_makes_first_stands(self):
        rows = "101 INFO 1 GL 77 N 1 126 5", "100 INFO 1 GL 77 1 0 0 0 0 0 0 0"
        self.assertEqual(await self.told(lambda: self.tells(*rows)), (0, 1))
        self.assertEqual(self.asked, [self.GET])

    async def test_one_that_another_makes_and_locks_behind_the_get_stands(self):
        """Its row is told before the INIT is refused, or after. It is no fault: STOP ALL reaches it."""
        from srcp_bridges.srcp.replies import Refused
        rows = "101 INFO 1 GL 77 N 1 126 5", "100 INFO 1 GL 77 1 0 0 0 0 0 0 0"

        async def locked(command):
            if command == self.GET:
                return await self.answers(command)
            self.tells(*before)
            raise Refused(414, "414 ERROR device locked")

        for before, after in (rows, ()), ((), rows):
            await self.asyncSetUp()
            self.bus.mirror.ask = locked
            with mock.patch("srcp_bridges.stations.hands.say") as said:
                await self.told()
            self.tells(*after)
            self.assertEqual((self.waits(), said.called), ((0, 1), False))

    async def test_one_whose_server_goes_at_the_init_stands(self):
        async def lost(command):
            if command == self.INIT:
                raise ConnectionError
            return await self.answers(command)

        self.bus.mirror.ask = lost
        self.assertIsNone(await self.told())
        self.bus.join(True)
        self.assertEqual(self.waits(), (0, 1))

    async def test_an_echo_and_a_stand_make_nothing(self):
        """Of one that was taken out while its echo was on the way, and of one that a hand has stand."""
        self.hands.reports.telling(("cab", 77), (63, 1))
        self.hands.reports.telling(("cab", 77), (0, 1))
        for speed, functions in ((63, 0), (63, 1), (0, 1)):
            self.hands.locomotive(77, speed, 1, functions)
        self.hands.locomotive(78, 0, 0, 0)
        self.assertEqual(self.hands.orders.due, {})
