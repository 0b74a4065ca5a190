"""Commands, joins, the configuration and decisions: known cases and refusals."""

from dataclasses import replace

import eskelvor
from eskelvor import (
    Airports, AscentScheme, Box, Command, Configuration, Decision, DescentScheme, Flags, Hours, LevelFlight, Phase,
    Reason, Regions, check_command, command_fields, commute, join, minutes, read_command, section, write_command,
)
from known import BOTH, EXAMPLES, FIRST, FIVE, LONGEST, SECOND, SEVEN, Case, head


class Commands(Case):
    def test_read(self) -> None:
        self.assertEqual(read_command(eskelvor.NO_CHANGE), Command())
        command = read_command(BOTH)
        self.assertEqual(command.flags, Flags(amdar=True, inhibit_hours=True))
        self.assertEqual((command.downlink, command.level_flight, command.hours),
                         (1, LevelFlight(30, False), Hours(23, 1)))
        self.assertIsNone(command.regions)
        self.assertIsNone(command.ascent_routine)
        regions = read_command(head(2) + b"0110N10S010W010E0100N90S000E180E/").regions
        self.assertEqual(regions, Regions((Box(10, -10, -10, 10),), (Box(0, -90, 0, 180),)))
        airports = read_command(head(3) + b"01ABCD02EFGHIJKL00001/").airports
        self.assertEqual(airports, Airports(("ABCD",), ("EFGH", "IJKL"), (), (), True))
        scheme = read_command(head(5) + FIVE).ascent_scheme
        self.assertEqual(scheme, AscentScheme(1, 6, 90, 20, 51, 200, 2, 1))
        self.assertEqual((scheme.total_seconds, scheme.top_feet), (510, 20000))
        descent = read_command(head(7) + b"004020011/").descent_scheme
        self.assertEqual(descent, DescentScheme(0, 40, 200, 1, 1))
        self.assertEqual(descent.top_feet, 20000)
        self.assertIsNone(command.descent_scheme)

    def test_round_trips(self) -> None:
        texts = [
            eskelvor.NO_CHANGE, FIRST, SECOND, BOTH, LONGEST, head(2) + b"0000/", head(6) + b"0/", head(8) + b"1/",
            head(6, 8) + b"1/0/", head(2) + b"000190N90S180W180E/", head(2) + b"0210N10S170E170W10N10S180E180W00/",
            b"AWR040000000200000000/", head(9) + b"0000/",
            head(7) + SEVEN, head(7) + b"030035010/", head(6, 7, 8) + b"1/" + SEVEN + b"0/",
        ]
        texts += (EXAMPLES / "evening.commands").read_bytes().split()
        for text in texts:
            self.assertEqual(write_command(read_command(text)), text)
            self.assertIsNone(check_command(text))
        self.assertEqual(len(LONGEST), eskelvor.COMMAND_BYTES)

    def test_refused_texts(self) -> None:
        cases = [
            (b"", 8, 0), (b"AWR04", 8, 5), (b"AWR05", 3, 0), (eskelvor.NO_CHANGE + b"/", 8, 22), (head(2) + b"17", 5, 22),
            (head(4) + b"07x/", 4, 24), (b"AWR043999999000000000/", 4, 5), (head(4) + b"611/", 5, 22),
            (head(2) + b"0100S00S000E000E00/", 6, 24), (head(2) + b"0110N11N000E000E00/", 7, 27),
            (b"AWR049999999000000600/", 4, 18), (LONGEST + b"/", 1, 0), (head(7), 8, 22),
            (head(7) + b"204020021/", 4, 22), (head(7) + b"100920021/", 5, 23), (head(7) + b"130120021/", 5, 23),
            (head(7) + b"104014921/", 5, 26), (head(7) + b"104020001/", 4, 29), (head(7) + b"104020022/", 4, 30),
        ]
        for text, code, place in cases:
            for call in (check_command, read_command, command_fields):
                self.refused(code, place, lambda: call(text))

    def test_refused_records(self) -> None:
        box = Box(10, -10, -10, 10)
        cases = [
            (Command(downlink=3), 4, 12), (Command(downlink=-1), 4, 12), (Command(flags=Flags(amdar=7)), 4, 5),
            (Command(level_flight=LevelFlight(0, True)), 5, 22), (Command(level_flight=LevelFlight(300, True)), 5, 22),
            (Command(level_flight=LevelFlight(7, 2)), 5, 24), (Command(hours=Hours(-1, 0)), 5, 22),
            (Command(regions=Regions(17 * (box,))), 5, 22), (Command(regions=Regions((), 300 * (box,))), 5, 24),
            (Command(regions=Regions((Box(1, 2, 0, 0),))), 7, 27), (Command(regions=Regions((Box(1, 2, 170, -170),))), 7, 27),
            (Command(regions=Regions((Box(91, 0, 0, 0),))), 5, 24), (Command(regions=Regions((Box(999, 0, 0, 0),))), 5, 24),
            (Command(airports=Airports(("ABC",))), 4, 24), (Command(airports=Airports(21 * ("ABCD",))), 5, 22),
            (Command(ascent_scheme=AscentScheme(1, 6, 70000, 20, 51, 200, 2, 1)), 5, 25),
            (Command(ascent_scheme=AscentScheme(1, 6, 90, 20, 51, -5, 2, 1)), 5, 33),
            (Command(descent_scheme=DescentScheme(2, 40, 200, 2, 1)), 4, 22),
            (Command(descent_scheme=DescentScheme(1, 9, 200, 2, 1)), 5, 23),
            (Command(descent_scheme=DescentScheme(1, 70000, 200, 2, 1)), 5, 23),
            (Command(descent_scheme=DescentScheme(1, 40, 351, 2, 1)), 5, 26),
            (Command(descent_scheme=DescentScheme(1, 40, 200, 3, 1)), 4, 29),
            (Command(descent_scheme=DescentScheme(1, 40, 200, 2, -1)), 4, 30),
        ]
        for command, code, place in cases:
            self.refused(code, place, lambda: write_command(command))
        full = Command(regions=Regions(16 * (box,)))
        self.assertEqual(write_command(full), head(2) + b"16" + 16 * b"10N10S010W010E" + b"00/")

    def test_sections(self) -> None:
        for text in (BOTH, LONGEST, eskelvor.NO_CHANGE):
            parts = [section(k, text) for k in range(2, 10)]
            self.assertEqual(text[:22] + b"".join(parts), text)
            for k, part in zip(range(2, 10), parts):
                self.assertEqual(part != b"", text[11 + k] == 48 + k)
        self.assertEqual(section(9, BOTH.decode("ascii")), b"2301/")
        self.assertEqual(section(2, head(2) + b"0000?and more"), b"0000?")
        for number in (-1, 0, 1, 10, 2 ** 32 + 2):
            self.refused(5, 0, lambda: section(number, b""))
        for code, place, tail in ((8, 24, b"00"), (8, 22, b"01"), (8, 22, b"0000"), (4, 22, b"0a"), (5, 22, b"17")):
            self.refused(code, place, lambda: section(2, head(2) + tail))
        self.refused(1, 0, lambda: section(9, LONGEST + b"/"))
        self.refused(3, 0, lambda: section(9, b"AWR05"))

    def test_fields(self) -> None:
        for text in (eskelvor.NO_CHANGE, FIRST, BOTH, LONGEST, head(3) + b"01ABCD02EFGHIJKL00001/", head(6, 8) + b"1/0/"):
            fields = command_fields(text)
            self.assertEqual("".join(field.text for field in fields).encode(), text)
            place = 0
            for field in fields:
                self.assertEqual(field.place, place)
                self.assertTrue(field.name and field.meaning)
                place += len(field.text)
        said = {field.name: (field.text, field.meaning) for field in command_fields(BOTH)}
        self.assertEqual(said["flag AMDAR"], ("1", "on"))
        self.assertEqual(said["flag descent"], ("9", "no change"))
        self.assertEqual(said["downlink"], ("1", "the flags are sent down"))
        self.assertEqual(said["section 4, interval"], ("30", "30 minutes"))
        self.assertEqual(said["section 9, end hour"], ("01", "up to 01:00"))
        said = {field.name: field.meaning for field in command_fields(LONGEST)}
        self.assertEqual(said["section 2, inhibiting boxes, box 16, west edge"], "180 degrees west")
        self.assertEqual(said["section 3, descent inhibited, airfield 20"], "airfield EFGH")
        scheme = [field.meaning for field in command_fields(head(5) + FIVE) if field.name.startswith("section 5")]
        self.assertEqual(scheme, [
            "by time", "6 seconds", "90 seconds", "20 seconds", "510 seconds", "20000 feet", "list 2 of pressure levels",
            "on", "ends it",
        ])
        scheme = [field.meaning for field in command_fields(head(7) + SEVEN) if field.name.startswith("section 7")]
        self.assertEqual(scheme, ["by time", "40 seconds", "20000 feet", "list 2 of pressure levels", "on", "ends it"])


class Joins(Case):
    def test_known(self) -> None:
        self.assertEqual(join(FIRST, SECOND), BOTH)
        self.assertEqual(join(eskelvor.NO_CHANGE, BOTH), BOTH)
        self.assertEqual(join(BOTH, eskelvor.NO_CHANGE), BOTH)
        self.assertEqual(join(LONGEST, LONGEST), LONGEST)

    def test_refusals_name_the_text(self) -> None:
        refusal = self.refused(8, 5, lambda: join(b"AWR04", b""), text=1, kind=eskelvor.WrongEnd)
        self.assertIn("of text 1", str(refusal))
        refusal = self.refused(5, 22, lambda: join(FIRST, head(4) + b"611/"), text=2, kind=eskelvor.OutOfRange)
        self.assertEqual(str(refusal), "code 5 at byte 22 of text 2: a number outside its range")


class Orders(Case):
    def test_known(self) -> None:
        self.assertEqual(commute(FIRST, SECOND), (False, (), (4,)))
        self.assertEqual(commute(FIRST, eskelvor.NO_CHANGE), (True, (), ()))
        self.assertEqual(commute(LONGEST, LONGEST), (True, (), ()))
        every = ("amdar", "inhibit_hours", "regions", "airports", "ascent", "enroute", "descent")
        off, on = b"AWR040000000000000000/", b"AWR041111111200000000/"
        self.assertEqual(commute(off, on), eskelvor.Order(False, every, ()))
        for k, (one, other) in {2: (b"0000/", b"000110N10S010W010E/"), 3: (b"000000000/", b"000000001/"), 4: (b"151/", b"150/"),
                                6: (b"0/", b"1/"), 8: (b"1/", b"0/"), 9: (b"0000/", b"0001/")}.items():
            self.assertEqual(commute(head(k) + one, head(k) + other), (False, (), (k,)))
            self.assertEqual(commute(head(k) + one, head(k) + one), (True, (), ()))

    def test_the_law(self) -> None:
        """The answer is yes exactly where both orders leave the same configuration after reset, and then the joins are equal."""
        texts = [FIRST, SECOND, BOTH, LONGEST, eskelvor.NO_CHANGE, head(4) + b"300/", head(9) + b"2301/", b"AWR041999999100000000/"]
        for one in texts:
            for other in texts:
                forth, back = Configuration(), Configuration()
                forth.apply(one), forth.apply(other)
                back.apply(other), back.apply(one)
                yes = commute(one, other).either_way
                self.assertEqual(yes, forth == back, (one, other))
                if yes:
                    self.assertEqual(join(one, other), join(other, one))

    def test_refusals_name_the_text(self) -> None:
        self.refused(8, 5, lambda: commute(b"AWR04", b""), text=1, kind=eskelvor.WrongEnd)
        self.refused(5, 22, lambda: commute(FIRST, head(4) + b"611/"), text=2, kind=eskelvor.OutOfRange)


class Differences(Case):
    def held(self, *texts: bytes) -> Configuration:
        configuration = Configuration()
        for text in texts:
            configuration.apply(text)
        return configuration

    def test_known(self) -> None:
        reset, changed = Configuration(), self.held(SECOND)
        self.assertEqual(reset.difference(reset), eskelvor.Difference((), (), eskelvor.NO_CHANGE))
        self.assertEqual(reset.difference(changed), (("inhibit_hours",), (4, 9), b"AWR049199999000400009/300/2301/"))
        self.assertEqual(changed.difference(reset), (("inhibit_hours",), (4, 9), b"AWR049099999000400009/071/0000/"))
        every = ("amdar", "inhibit_hours", "regions", "airports", "ascent", "enroute", "descent")
        self.assertEqual(reset.difference(self.held(b"AWR040111000000000000/")).flags, every)
        for k, one in {2: b"000110N10S010W010E/", 3: b"000000001/", 4: b"150/", 6: b"0/", 8: b"0/", 9: b"0001/"}.items():
            self.assertEqual(reset.difference(self.held(head(k) + one)), ((), (k,), head(k) + one))

    def test_the_law(self) -> None:
        """The command makes the one into the other, asks for nothing, and sets what differs: the settings say what that is."""
        texts = [FIRST, SECOND, BOTH, LONGEST, eskelvor.NO_CHANGE, head(7) + b"004020011/", b"AWR040111000000000000/"]
        for one in texts:
            for other in texts:
                first, second = self.held(one), self.held(other)
                found = first.difference(second)
                made = first.copy()
                self.assertEqual(made.apply(found.command), 0)
                self.assertEqual(made, second)
                self.assertEqual(found.command == eskelvor.NO_CHANGE, first == second)
                had, has = first.settings.flags, second.settings.flags
                self.assertEqual(found.flags, tuple(n for n, a, b in zip(Flags._fields, had, has) if a != b))
                self.assertEqual(found.sections, tuple(k for k in range(2, 10) if section(k, found.command)))

    def test_both_stay(self) -> None:
        first, second = self.held(FIRST), self.held(LONGEST)
        before = first.copy(), second.copy()
        first.difference(second)
        self.assertEqual((first, second), before)


class Configurations(Case):
    def test_after_reset(self) -> None:
        settings = Configuration().settings
        self.assertEqual(settings.flags, Flags(True, False, False, False, True, True, True))
        self.assertEqual((settings.regions, settings.airports), (Regions(), Airports()))
        self.assertEqual((settings.level_flight, settings.hours), (LevelFlight(7, True), Hours(0, 0)))
        self.assertEqual(settings.ascent_scheme, AscentScheme(1, 6, 90, 20, 51, 200, 2, 1))
        self.assertEqual(settings.descent_scheme, DescentScheme(1, 40, 200, 2, 1))
        self.assertEqual((settings.ascent_routine, settings.descent_routine), (True, True))
        self.assertEqual(Configuration(settings), Configuration())

    def test_apply(self) -> None:
        held = Configuration()
        before = held.copy()
        self.assertEqual(held.apply(BOTH), 1)
        self.assertEqual(held.settings.hours, Hours(23, 1))
        self.assertEqual(held.settings.level_flight, LevelFlight(30, False))
        held.apply(head(7) + b"030035010/")
        self.assertEqual(held.settings.descent_scheme, DescentScheme(0, 300, 350, 1, 0))
        self.assertEqual(held.settings.hours, Hours(23, 1))
        self.assertEqual(before, Configuration())
        self.assertNotEqual(held, before)
        one_by_one = Configuration()
        one_by_one.apply(FIRST)
        one_by_one.apply(SECOND)
        one_by_one.apply(head(7) + b"030035010/")
        self.assertEqual(one_by_one, held)
        self.assertEqual(Configuration(held.settings), held)

    def test_a_refused_apply_changes_nothing(self) -> None:
        held = Configuration()
        held.apply(LONGEST)
        before = held.copy()
        self.refused(8, 22, lambda: held.apply(head(4)))
        self.refused(1, 0, lambda: held.apply(LONGEST + b"x"))
        self.assertEqual(held, before)

    def test_not_valid(self) -> None:
        settings = Configuration().settings
        for wrong in (
            replace(settings, flags=Flags()),
            replace(settings, hours=Hours(24, 0)),
            replace(settings, descent_scheme=DescentScheme(1, 301, 200, 2, 1)),
            replace(settings, descent_scheme=DescentScheme(0, 0, 0, 0, 0)),
            replace(settings, regions=Regions((Box(-1, 1, 0, 0),))),
            replace(settings, airports=Airports(("abcd",))),
        ):
            self.refused(12, 0, lambda: Configuration(wrong), kind=eskelvor.ConfigurationNotValid)

    def test_the_hours(self) -> None:
        held = Configuration()
        held.apply(SECOND)
        decisions = [held.decide(Phase.LEVEL, 0, 0, hour) for hour in (22, 23, 0, 1)]
        self.assertEqual(decisions, [Decision.ROUTINE, Decision.SILENT, Decision.SILENT, Decision.ROUTINE])
        self.assertEqual(held.decide(Phase.ASCENT, 0, 0, 1, "YMML"), Decision.SCHEME)

    def test_over_the_date_line(self) -> None:
        over = Regions((), (Box(10, -10, 170, -170),))
        text = write_command(Command(Flags(regions=True), regions=over))
        self.assertEqual(text, b"AWR049919999020000000/000110N10S170E170W/")
        self.assertEqual(read_command(text).regions, over)
        held = Configuration()
        held.apply(text)
        for longitude in (10200, 10799, 10800, -10800, -10799, -10200):
            self.assertEqual(held.explain(Phase.LEVEL, 0, longitude, 0)[1:3], (Reason.INHIBITING_BOX, 1))
        for longitude in (10199, 0, -10199):
            self.assertEqual(held.decide(Phase.LEVEL, 0, longitude, 0), Decision.ROUTINE)
        held = Configuration(replace(held.settings, regions=Regions((Box(10, -10, 170, 180),))))
        self.assertEqual(held.decide(Phase.LEVEL, 0, -10800, 0), Decision.ROUTINE)
        self.assertEqual(held.decide(Phase.LEVEL, 0, -10799, 0), Decision.SILENT)

    def test_every_reason(self) -> None:
        cases = [
            (b"AWR040999999000000000/", Phase.LEVEL, Decision.SILENT, Reason.AMDAR_OFF, 0),
            (SECOND, Phase.LEVEL, Decision.SILENT, Reason.HOURS, 0),
            (b"AWR049919999020000000/000250N40N000E010E10N10S010W010E/", Phase.LEVEL, Decision.SILENT,
             Reason.INHIBITING_BOX, 2),
            (b"AWR049919999020000000/0150N40N000E010E00/", Phase.LEVEL, Decision.SILENT, Reason.NO_REPORTING_BOX, 0),
            (eskelvor.NO_CHANGE, Phase.LEVEL, Decision.ROUTINE, Reason.FLAG_ON, 6),
            (eskelvor.NO_CHANGE, Phase.DESCENT, Decision.SCHEME, Reason.FLAG_ON, 7),
            (b"AWR049999099000000000/", Phase.ASCENT, Decision.ROUTINE, Reason.DIGIT, 6),
            (b"AWR049999909000000000/", Phase.LEVEL, Decision.SILENT, Reason.FLAG_OFF, 6),
            (b"AWR049991999003000000/000001YMML000/", Phase.ASCENT, Decision.SILENT, Reason.INHIBITED, 0),
            (b"AWR049991999003000000/01YPAD0000000/", Phase.ASCENT, Decision.SILENT, Reason.NOT_SELECTED, 0),
        ]
        self.assertEqual({case[3] for case in cases}, set(Reason))
        for text, phase, decision, reason, number in cases:
            held = Configuration()
            held.apply(text)
            why = held.explain(phase, 0, 0, 23, "YMML")
            self.assertEqual(why[:3], (decision, reason, number))
            self.assertEqual(why.words, reason.words)
            self.assertEqual(held.decide(phase, 0, 0, 23, "YMML"), decision)
        self.assertEqual(len({reason.words for reason in Reason}), 9)
        self.assertEqual(Reason.HOURS.words, "the hour is in the hours of silence")

    def test_refused_questions(self) -> None:
        held = Configuration()
        for call in (held.decide, held.explain):
            for wrong in ((3, 0, 0, 0), (256, 0, 0, 0), (-1, 0, 0, 0), (1, 5401, 0, 0), (1, 0, 10 ** 10, 0), (1, 0, 0, 24),
                          (1, 0, 0, 280), (1, 0, -10801, 0), (1, -(10 ** 10), 0, 0)):
                self.refused(5, 0, lambda: call(*wrong), kind=eskelvor.OutOfRange)
            for name in ("", "ABC", "abcd", "ABCDE", "AB\u00e9"):
                self.refused(4, 0, lambda: call(Phase.LEVEL, 0, 0, 0, name), kind=eskelvor.ByteNotAllowed)
        self.assertEqual((minutes(-37.67), minutes(0.5), minutes(180)), (-2260, 30, 10800))
