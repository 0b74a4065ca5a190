"""Status sheets: the printed one, read and written back, and what is refused."""

import unittest

import eskelvor

PRINTED = "\r\n".join([
    "- AMDARSTATUS3 AU0115",
    "AD10/50 RR421 DR50/10",
    "T1 690 T2 500  0",
    "S2 SP1 SC5 SD5 I1",
    "B0     0/  5400 -5399/  9600 1",
    "B1     0/  9600 -3000/ -9600 1",
    "B2     0/     0     0/     0 0",
    "B3     0/     0     0/     0 0",
    "B4     0/     0     0/     0 0",
    "B5     0/     0     0/     0 0",
    "B6     0/     0     0/     0 0",
    "B7     0/     0     0/     0 0",
    "B8     0/     0     0/     0 0",
    "B9     0/     0     0/     0 0",
    "A1 YPDN/0 A110000/0 A210000/0 A310000/0 A410000/0",
    "A2 WSSS/1 A120000/0 A220000/0 A320000/0 A420000/0",
    "A3 0000/0 A130000/0 A230000/0 A330000/0 A430000/0",
    "A4 0000/0 A140000/0 A240000/0 A340000/0 A440000/0",
    "A5 0000/0 A150000/0 A250000/0 A350000/0 A450000/0",
    "A6 0000/0 A160000/0 A260000/0 A360000/0 A460000/0",
    "A7 0000/0 A170000/0 A270000/0 A370000/0 A470000/0",
    "A8 0000/0 A180000/0 A280000/0 A380000/0 A480000/0",
    "A9 0000/0 A190000/0 A290000/0 A390000/0 A490000/0",
    "A100000/0 A200000/0 A300000/0 A400000/0 A500000/0",
    "",
]).encode("ascii")


class Sheets(unittest.TestCase):
    def test_the_printed_one(self) -> None:
        eskelvor.check_sheet(PRINTED)
        sheet = eskelvor.read_sheet(PRINTED)
        self.assertEqual(sheet.designator, "AU0115")
        self.assertEqual(sheet.numbers["level_interval"], 421)
        self.assertEqual(sheet.boxes[1], (0, 9600, -3000, -9600, 1))
        self.assertEqual(sheet.airports[:2], [("YPDN", 0), ("WSSS", 1)])
        self.assertEqual(sheet.text(), PRINTED)

    def test_a_changed_one(self) -> None:
        sheet = eskelvor.read_sheet(PRINTED)
        sheet.airports[11] = ("EHAM", 1)
        sheet.boxes[9] = (-5400, -10800, 5400, 10800, 1)
        self.assertEqual(eskelvor.read_sheet(sheet.text()), sheet)

    def test_refusals(self) -> None:
        with self.assertRaises(eskelvor.Refusal) as short:
            eskelvor.read_sheet(PRINTED[:912])
        self.assertEqual((short.exception.code, short.exception.place), (8, 911))
        sheet = eskelvor.read_sheet(PRINTED)
        sheet.numbers["trigger1"] = 10 ** 6
        with self.assertRaises(eskelvor.Refusal) as far:
            sheet.text()
        self.assertEqual((far.exception.code, far.exception.place), (5, 48))


if __name__ == "__main__":
    unittest.main()
