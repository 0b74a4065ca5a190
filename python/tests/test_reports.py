"""Packed figures and reports: known cases, units, refusals, a file with damaged ones."""

import io
import json
import subprocess
from dataclasses import replace
from datetime import timedelta

import eskelvor
from eskelvor import Observation, Report, read_packed, read_report, write_packed, write_report
from known import EXAMPLES, FULL, PRINTED, ROOT, Case


class Packed(Case):
    def test_known_figures(self) -> None:
        figures = {
            "INZ": -2245, "LAE": 2014, "D5": -275, " U": 10, " UK": 420, " YZ9F": 952375, "  K": 0, "KK": 20,
            "JJ": -21, "//": None, "0": -20, ".": 19, ".....": 51199999, "00000": -51200000, ":": 16, ",": 17, "-": 18,
        }
        for field, number in figures.items():
            self.assertEqual(read_packed(field), number, field)
            self.assertEqual(write_packed(number, len(field)), field.encode())

    def test_refusals(self) -> None:
        self.refused(6, 0, lambda: read_packed("K5"), kind=eskelvor.WrongSpelling)
        for field, place in (("/5", 1), (" /", 1), ("  ", 1), (" ", 0), ("K/", 1), ("a5", 0), ("K  /", 1), ("////K", 4)):
            self.refused(4, place, lambda: read_packed(field), kind=eskelvor.ByteNotAllowed)
        self.refused(1, 0, lambda: read_packed(b""), kind=eskelvor.WrongLength)
        self.refused(1, 0, lambda: read_packed(b"     K"))
        self.refused(4, 0, lambda: read_packed("\u00e9"))
        self.refused(4, 0, lambda: read_packed(b"\0"))
        self.refused(5, 0, lambda: write_packed(20, 1), kind=eskelvor.OutOfRange)
        for number in (2 ** 31, -(2 ** 31) - 1, 10 ** 30, -(10 ** 30)):
            self.refused(5, 0, lambda: write_packed(number, 5))
        for width in (0, 6, -1, 2 ** 70):
            self.refused(1, 0, lambda: write_packed(0, width))
        with self.assertRaises(TypeError):
            write_packed(1.5, 3)  # type: ignore[arg-type]


class One(Case):
    def test_the_printed_one(self) -> None:
        report = read_report(PRINTED)
        self.assertEqual((report.departure, report.arrival, report.designator), ("ABCD", "EFGH", "XY0001"))
        self.assertEqual(len(report.observations), 1)
        only = report.observations[0]
        zero = Observation("A", 0, 0, 0, 0, 0, 0, 0, None, None, "/")
        self.assertEqual(only, zero)
        self.assertEqual((only.temperature_celsius, only.gust_metres_per_second), (0.0, None))
        self.assertEqual(write_report(report), PRINTED)

    def test_units(self) -> None:
        first, second, third, fourth = read_report(FULL).observations[:4]
        self.assertEqual((first.kind, first.kind_in_words, first.quality), ("R", "level flight", "9"))
        self.assertEqual(first.latitude, -2245)
        self.assertAlmostEqual(first.latitude_degrees, -37.416667, 5)
        self.assertEqual((first.altitude, first.altitude_feet), (2014, 20140))
        self.assertEqual((first.temperature, first.temperature_celsius), (-275, -27.5))
        self.assertEqual(first.since_month_began, timedelta(seconds=952375))
        self.assertEqual(first.day, 12)
        self.assertEqual((first.wind_speed, first.wind_speed_knots), (10, 10))
        self.assertEqual(first.wind_direction_degrees, first.wind_direction)
        figures = [second.latitude, second.time, second.altitude, second.temperature, second.wind_speed, second.gust]
        self.assertEqual(figures + [second.vapour, second.latitude_degrees, second.day], 9 * [None])
        # The second has no position, so that the third's change leads nowhere known; its own figures are there.
        self.assertEqual((third.latitude, third.latitude_degrees), (19, None))
        self.assertEqual((fourth.gust, fourth.vapour), (0, 31999))
        self.assertEqual((fourth.gust_metres_per_second, fourth.vapour_grams_per_kilogram), (0.0, 31.999))

    def test_fixes(self) -> None:
        start = Observation("R", 5390, 10790, 100, 0)
        step = Observation("R", 5, 15, 60, 0)
        fixes = [one.fix for one in Report("ABCD", "EFGH", "XY0001", (start, step, step, step)).observations]
        self.assertEqual(fixes[1], (5395, -10795, 160))
        self.assertEqual(fixes[2], (5400, -10780, 220))
        self.assertEqual(fixes[3], (None, -10765, 280))
        back = Report("ABCD", "EFGH", "XY0001", (replace(start, longitude=-10799), replace(step, longitude=-2)))
        self.assertEqual(back.observations[1].fix.longitude, 10799)

    def test_tracks(self) -> None:
        self.assertEqual(eskelvor.track(PRINTED), ((0, 0, 0),))
        self.assertEqual(eskelvor.track(FULL), ((-2245, 8636, 952375),) + 7 * ((None, None, None),))
        cases = [
            ("latitude", (5399, 1, 1, -5), (5399, 5400, None, None)), ("latitude", (-5400, 0, -1, 1), (-5400, -5400, None, None)),
            ("longitude", (10000, 799, 1, 1), (10000, 10799, 10800, -10799)),
            ("longitude", (-10000, -800, -1, 0), (-10000, -10800, 10799, 10799)),
            ("longitude", (10790, 20, -10), (10790, -10790, -10800)), ("time", (2678399, 1, 31999), (2678399, 2678400, 2710399)),
            ("time", (7, None, 5), (7, None, None)), ("latitude", (None, 1), (None, None)),
        ]
        for name, steps, sums in cases:
            text = write_report(Report("ABCD", "EFGH", "XY0001", tuple(Observation("R", **{name: step}) for step in steps)))
            fixes = eskelvor.track(text)
            self.assertEqual(tuple(getattr(fix, name) for fix in fixes), sums)
            self.assertEqual(fixes, tuple(one.fix for one in read_report(text).observations))
            self.assertEqual(sum(figure is not None for fix in fixes for figure in fix), sum(one is not None for one in sums))
        self.refused(1, 0, lambda: eskelvor.track(FULL[:-1]), kind=eskelvor.WrongLength)
        self.refused(5, 25, lambda: eskelvor.track(PRINTED[:25] + b"NF1" + PRINTED[28:]), kind=eskelvor.OutOfRange)

    def test_no_fix_of_what_is_no_report(self) -> None:
        outside = Report("ABCD", "EFGH", "XY0001", (Observation("R", 5401, 0, 0), Observation("R", 0, 0, 0)))
        self.assertEqual([one.fix for one in outside.observations], 2 * [(None, None, None)])
        self.refused(5, 25, lambda: write_report(outside))
        self.assertEqual(Report("ABCD", "EFGH", "XY0001", ()).observations, ())

    def test_round_trip(self) -> None:
        self.assertEqual(write_report(read_report(FULL)), FULL)
        self.assertEqual(write_report(read_report(bytearray(FULL))), FULL)
        self.assertEqual(write_report(read_report(FULL.decode("ascii"))), FULL)
        self.assertEqual(read_report(write_report(read_report(FULL))), read_report(FULL))

    def test_refused_texts(self) -> None:
        changes = [
            (0, b"a", 4, 0), (5, b" ", 4, 4), (8, b"\n", 3, 8), (15, b"4", 3, 10), (21, b"/", 4, 16), (24, b"/", 4, 24),
            (25, b" K5", 6, 25), (25, b"NF1", 5, 25), (25, b"K  ", 4, 26), (31, b"     ", 4, 35), (36, b"/K/", 4, 37),
            (41, b"//", 7, 43), (50, b":", 4, 50), (73, b"K", 7, 51),
            (76, b"R", 7, 76), (218, b"\n", 3, 218),
        ]
        for at, put, code, place in changes:
            text = PRINTED[:at] + put + PRINTED[at + len(put):]
            self.refused(code, place, lambda: read_report(text))
            self.refused(code, place, lambda: eskelvor.check_report(text))
        for length in (0, 219, 221):
            self.refused(1, 0, lambda: read_report((FULL + FULL)[:length]), kind=eskelvor.WrongLength)
        self.assertIsNone(eskelvor.check_report(FULL))

    def test_refused_records(self) -> None:
        report = read_report(FULL)
        first = report.observations[0]

        def wrong(code: int, place: int, **members: object) -> None:
            one = replace(report, observations=(replace(first, **members), *report.observations[1:]))
            self.refused(code, place, lambda: write_report(one))

        wrong(5, 25, latitude=5401)
        wrong(5, 25, latitude=10 ** 12)
        wrong(5, 31, time=-1)
        wrong(5, 31, time=-(10 ** 12))
        wrong(7, 43, wind_speed=None)
        wrong(4, 24, kind="B")
        wrong(4, 24, kind="AA")
        wrong(4, 50, quality="")
        self.refused(4, 0, lambda: write_report(replace(report, departure="ABC")))
        self.refused(4, 4, lambda: write_report(replace(report, arrival="ABCDE")))
        self.refused(4, 16, lambda: write_report(replace(report, designator="xy0001")))
        for count in (0, 9):
            with self.assertRaisesRegex(ValueError, "1 to 8 observations"):
                write_report(replace(report, observations=count * (first,)))


class Several(Case):
    def test_sources(self) -> None:
        path = EXAMPLES / "three.reports"
        data = path.read_bytes()
        expected = list(eskelvor.reports(data))
        self.assertEqual(len(expected), 3)
        with open(path, "rb") as file:
            self.assertEqual(list(eskelvor.reports(file)), expected)
        sources = (path, str(path), bytearray(data), memoryview(data), io.BytesIO(data), b"\r\n" + data + b"\n\n")
        for source in sources:
            self.assertEqual(list(eskelvor.reports(source)), expected)
        self.assertEqual(list(eskelvor.reports(b"")), [])
        self.assertEqual(list(eskelvor.reports(b"\r\n\n")), [])

    def test_damaged_ones(self) -> None:
        refused: list = []
        good = list(eskelvor.reports(EXAMPLES / "damaged.reports", refused=refused.append))
        self.assertEqual([report.designator for report in good], ["AU0137", "XY0001", "AU0137"])
        told = [(one.number, one.offset, one.code, one.place, len(one.piece)) for one in refused]
        self.assertEqual(told, [(2, 220, 5, 25, 220), (4, 660, 1, 0, 213)])
        self.assertTrue(str(refused[0]).startswith("report 2 from byte 220 on: code 5 at byte 25: a number"))
        reading = eskelvor.reports(EXAMPLES / "damaged.reports")
        self.assertEqual(next(reading).departure, "YMML")
        refusal = self.refused(5, 25, lambda: next(reading), kind=eskelvor.OutOfRange)
        self.assertEqual((refusal.number, refusal.offset), (2, 220))
        self.assertEqual(list(reading), [])

    def test_something_else(self) -> None:
        refused: list = []
        data = 9000 * b"x" + FULL + 300 * b"?"
        good = list(eskelvor.reports(data, refused=refused.append))
        self.assertEqual(good, [read_report(FULL)])
        self.assertEqual(len(refused), 22)
        self.assertEqual(sum(len(one.piece) for one in refused), 9300)

    def test_as_the_desk_program_shows_them(self) -> None:
        program = ROOT / "target" / "native" / "eskelvor"
        for name in ("night.reports", "three.reports", "damaged.reports"):
            ran = subprocess.run([program, "report", "--json", EXAMPLES / name], stdout=subprocess.PIPE)
            shown = [one for one in json.loads(ran.stdout)["results"] if one.get("accepted") and "departure" in one]
            ours = list(eskelvor.reports(EXAMPLES / name, refused=lambda refusal: None))
            self.assertEqual(len(ours), len(shown), name)
            for report, theirs in zip(ours, shown):
                self.assertEqual(report.designator, theirs["designator"])
                present = [one for one in theirs["observations"] if one["present"]]
                self.assertEqual(len(report.observations), len(present))
                for observation, one in zip(report.observations, present):
                    self.alike(observation, one)

    def alike(self, observation: Observation, theirs: dict) -> None:
        self.assertEqual(observation.fix.latitude, theirs["latitude_minutes"])
        self.assertEqual(observation.fix.longitude, theirs["longitude_minutes"])
        self.assertEqual(observation.fix.time, theirs["seconds_into_month"])
        keys = (
            "altitude_feet", "temperature_celsius", "wind_direction_degrees", "wind_speed_knots",
            "gust_metres_per_second", "vapour_grams_per_kilogram", "quality", "kind", "kind_in_words",
        )
        for key in keys:
            self.assertEqual(getattr(observation, key), theirs[key], key)
