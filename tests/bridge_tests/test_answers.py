"""What the row of power says of a bus with a driver, as rows, replies and orders come in any order."""
import asyncio
import types
import unittest
from unittest import mock


class OfAnswers(unittest.IsolatedAsyncioTestCase):
    """Whether a driver answers each STOP ALL, and none too early, and what else it tells there. The server is played
    here: its panel tells a row once `tells` is called."""
    program = "answers"

    async def asyncSetUp(self):
        from srcp_bridges.srcp.rows import Power
        from srcp_bridges.stations.bus import Bus
        from srcp_bridges.stations.station import words_of_driver
        from srcp_bridges.stations.track import Hooks
        hooks = Hooks(lambda: None, lambda address: None, lambda part: False, lambda *seen: None, (126,), None)
        self.bus = Bus(words_of_driver("").parse_args([]), {}, hooks)
        self.row, self.untold, self.between, self.said = Power(0, True, ""), [], [], []
        self.bus.holds.station, self.bus.mirror.here, self.bus.mirror.anew = True, True, False
        self.bus.mirror.session = types.SimpleNamespace(ask=self.ask)
        self.sets("ON stop all")
        self.tells()

    def sets(self, words):
        """Sets the row of power, as anybody may."""
        stamp, (power, _, text) = self.row.stamp + 1, words.partition(" ")
        self.row = self.row._replace(stamp=stamp, on=power == "ON", text=text)
        self.untold.append(f"{stamp:.3f} 100 INFO 1 POWER {words}".rstrip())

    def tells(self):
        while self.untold:
            self.bus.mirror.take(self.untold.pop(0))

    async def ask(self, command):
        """Carries out a command; behind one that asks for the row, what is to come between that and the next."""
        if command.startswith("GET"):
            row = self.row
            if self.between:
                self.between.pop(0)()
            return row
        self.said.append(command.removeprefix("SET 1 POWER "))
        self.sets(self.said[-1])
        asyncio.get_running_loop().call_later(0.02, self.tells)
        return "OK"

    async def carries_out(self):
        """Returns what the row says once the driver has carried out its orders, and its panel has told that."""
        await self.bus.orders.carry_out()
        await asyncio.sleep(0.03)
        return self.row.text

    async def is_answered_in_the_end(self):
        self.assertTrue(self.bus.stopping)
        for _ in range(2):
            if self.bus.stopping:
                self.bus.all_stood()
            said = await self.carries_out()
        self.assertEqual((said, self.bus.stopping), ("all stood", False))

    async def test_an_answer_is_told_until_the_row_says_so(self):
        """The server was away, or the driver slept."""
        def fails():
            raise ConnectionError("does not answer")

        self.between = [fails, fails]
        for _ in range(2):
            self.bus.all_stood()
            self.assertEqual(await self.carries_out(), "stop all")
        await self.is_answered_in_the_end()

    async def test_a_newer_stop_all_has_an_answer_of_its_own(self):
        """It comes before the driver has asked for the row, and the panel tells it then or later; or behind that."""
        def comes():
            self.sets("ON stop all")

        for tells, text in ((lambda: None, "stop all"), (self.tells, "stop all"), (self.tells, "does not confirm: 3")):
            self.bus.all_stood()
            comes(), tells()
            if text != "stop all":
                self.sets(f"ON {text}")
            self.said.clear()
            self.assertEqual((await self.carries_out(), self.said), (text, []))
            self.tells()
            await self.is_answered_in_the_end()
            comes(), self.tells()
        self.bus.all_stood()
        self.between = [comes]
        self.assertEqual(await self.carries_out(), "stop all")
        await self.is_answered_in_the_end()

    async def test_other_texts_of_the_driver_take_no_stop_all_away(self):
        """It came as they were on their way."""
        from srcp_bridges.stations.thrown import Thrown
        thrown = Thrown(self.bus)
        texts = {"does not confirm: 3": self.bus.say_power, "confirms again": self.bus.say_power,
                 "thrown by hand: 5 1": thrown.tell}
        for text, tell in texts.items():
            for is_late in (True, False):  # behind the question for the row, or before it
                self.sets("ON does not confirm: 3")
                self.between = [lambda: self.sets("ON stop all")] * is_late
                if not is_late:
                    self.tells(), self.sets("ON stop all")
                await tell(text)
                self.assertTrue(is_late or "does" in text or self.row.text == "stop all")
                await asyncio.sleep(0.03)
                self.tells()
                await self.is_answered_in_the_end()
                self.sets("ON"), self.tells()

    async def test_a_driver_that_slept_answers_as_it_goes_on(self):
        """Its last words took the place of the STOP ALL, with the power."""
        self.sets("OFF no driver"), self.tells()
        await self.is_answered_in_the_end()
        self.assertFalse(self.row.on)

    async def test_what_does_not_confirm_is_told_until_the_row_says_so(self):
        """The row of power is about to say something else, or another has it say something else. What another driver of
        the bus says stays."""
        def are_silent(*addresses):
            with mock.patch("srcp_bridges.stations.bus.say"):
                self.bus.tell_silent(frozenset(addresses))

        async def says(text, *addresses):
            are_silent(*addresses)
            self.assertEqual(await self.carries_out(), text)

        self.sets("ON"), self.tells()
        for act, text in ((lambda: asyncio.sleep(0), ""), (lambda: self.ask("SET 1 POWER ON by hand"), "by hand")):
            self.bus.orders.put(("power",), act)
            await says(text, 3)
            await says("does not confirm: 3", 3)
            self.sets("ON"), self.tells()
        for words in ("ON", "ON by hand", "ON stop all"):
            self.sets(words), self.tells()
            await says("does not confirm: 3", 3)
        await says("does not confirm: 3 5", 5, 3)
        self.assertTrue(self.bus.stopping)
        await says("does not confirm: 3 5")  # what answers the STOP ALL says so
        await self.is_answered_in_the_end()
        await says("does not confirm: 3", 3)
        await says("confirms again")
        for text in ("by hand", "does not confirm: 7"):
            self.sets(f"OFF {text}"), self.tells()
            for addresses in ([3], []):
                are_silent(*addresses)
                self.assertEqual(self.bus.orders.due, {})
        self.sets("ON"), self.tells()
        await says("does not confirm: 3", 3)

    async def test_a_turnout_that_a_hand_threw_is_told_behind_a_stop_all(self):
        """That came as the telling was on its way."""
        from srcp_bridges.stations.thrown import Thrown
        thrown = Thrown(self.bus)
        with mock.patch("srcp_bridges.stations.thrown.say"):
            thrown.refused(5, 1)
        self.sets("ON"), self.tells()
        self.between = [lambda: (self.sets("ON stop all"), self.tells())]
        thrown.look()
        self.assertEqual(await self.carries_out(), "stop all")
        await self.is_answered_in_the_end()
        for text in ("thrown by hand: 5 1", ""):
            thrown.look()
            self.assertEqual(await self.carries_out(), text)
            self.sets("ON"), self.tells()

    async def test_power_that_somebody_switches_on_as_the_station_comes_stays_on(self):
        """The panel is late: for the driver there is still the text that there is no station."""
        for words, is_on in (("ON", True), ("OFF by hand", False), ("", False)):
            self.bus.holds.station = False
            self.sets("OFF no station"), self.tells()
            await self.carries_out()
            self.bus.station_comes()
            if words:
                self.sets(words)
            self.assertEqual((await self.carries_out(), self.row.on), (words.partition(" ")[2], is_on))

    async def test_who_switches_the_power_is_not_answered(self):
        for words in ("ON", "OFF", "OFF by hand"):
            self.sets("ON"), self.sets("ON stop all"), self.tells()
            self.bus.all_stood()
            self.sets(words)
            self.assertEqual(await self.carries_out(), words.partition(" ")[2])
            self.tells()
            self.assertFalse(self.bus.stopping)
