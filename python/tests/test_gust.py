"""Gusts: document 02's cases, the types as the header numbers them, each range, numbers that no C type holds."""

import re

import eskelvor
from known import ROOT, Case

GOOD = {"aircraft": "A310", "height": 0, "mass": 120000, "acceleration": 1000, "speed": 250}


class Gusts(Case):
    def test_the_cases(self) -> None:
        self.assertEqual(eskelvor.gust("A320-200", 10000, 54321, 1303, 101), 396)
        self.assertEqual(eskelvor.gust(4, 10000, 54321, 1303, 101), 396)
        self.assertEqual(eskelvor.gust("B737-300", 20000, 50000, 3565, 150), 799)
        self.assertEqual(eskelvor.gust("KingAir 100", 0, 500000, 0, 1), 0)
        self.assertEqual(eskelvor.gust(**GOOD), 180)
        self.refused(5, 0, lambda: eskelvor.gust("B737-300", 20000, 50000, 3566, 150))
        self.refused(5, 0, lambda: eskelvor.gust("KingAir 100", 0, 10000, 1, 500))

    def test_the_types_are_the_headers(self) -> None:
        header = (ROOT / "host" / "eskelvor.h").read_text(encoding="ascii")
        part = header[header.index("---- the derived equivalent gust") : header.index("A figure of a report")]
        listed = {int(row): name for row, name in re.findall(r"(\d+)  ([A-Z][\w-]+(?: 100)?)", part)}
        self.assertEqual(listed, dict(enumerate(eskelvor.GUST_TYPES)))
        for row, name in listed.items():
            self.assertEqual(eskelvor.gust(row, 0, 3000, 100, 400), eskelvor.gust(name, 0, 3000, 100, 400), name)

    def test_the_ranges(self) -> None:
        ends = {"aircraft": (0, 35), "height": (-1000, 50000), "mass": (1, 500000), "acceleration": (0, 5000)}
        ends["speed"] = (1, 500)
        still = dict(GOOD, acceleration=0)
        for name, (least, most) in ends.items():
            base = dict(GOOD, speed=500, mass=3000) if name == "acceleration" else still
            for number in (least, most):
                self.assertGreaterEqual(eskelvor.gust(**dict(base, **{name: number})), 0)
            far = (2 ** 31, 2 ** 32, 2 ** 32 + least + 1, -(2 ** 31) - 1, 10 ** 30, -(10 ** 30))
            for number in (least - 1, most + 1, *far):
                self.refused(5, 0, lambda: eskelvor.gust(**dict(base, **{name: number})))

    def test_what_is_no_type_or_number(self) -> None:
        for name in ("", "A399", "a310", "A310 ", "36"):
            self.refused(5, 0, lambda: eskelvor.gust(**dict(GOOD, aircraft=name)))
        with self.assertRaises(TypeError):
            eskelvor.gust(**dict(GOOD, height=0.5))
