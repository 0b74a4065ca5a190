"""The layouts as the header's comments have them, read from there and held against what the library accepts."""

import re
from typing import List, NamedTuple, Optional, Tuple

import eskelvor
from known import FIVE, FULL, LONGEST, ROOT, SEVEN, Case, head

HEADER = (ROOT / "host" / "eskelvor.h").read_text(encoding="ascii")


def comment(begin: str, end: str) -> List[str]:
    """The lines of a comment between two texts, without the stars."""
    part = HEADER[HEADER.index(begin) : HEADER.index(end)]
    return [re.sub(r"^ \* ?", "", line) for line in part.splitlines()]


class Digits(Case):
    LINES = comment("A packed figure is a whole number", "/* The answer of esk_packed_read.")

    def test_every_digit(self) -> None:
        text = "\n".join(self.LINES)
        worths = {}
        for first, last, least, most in re.findall(r"'(.)' to '(.)'  (\d+) to (\d+)", text):
            self.assertEqual(ord(last) - ord(first), int(most) - int(least))
            worths.update({chr(ord(first) + i): int(least) + i for i in range(int(most) - int(least) + 1)})
        worths.update({digit: int(worth) for digit, worth in re.findall(r"'([^A-Z0-9])'  (\d+)", text)})
        self.assertEqual(sorted(worths.values()), list(range(40)))
        for byte in range(256):
            digit = chr(byte)
            if digit in worths:
                self.assertEqual(eskelvor.read_packed(bytes([byte])), worths[digit] - 20)
            elif digit == "/":
                self.assertIsNone(eskelvor.read_packed(b"/"))
            else:
                self.refused(4, 0, lambda: eskelvor.read_packed(bytes([byte])))

    def test_every_width(self) -> None:
        rows = re.findall(r"(\d) digits? +(-\d+) to (\d+)", "\n".join(self.LINES))
        self.assertEqual([int(row[0]) for row in rows], [1, 2, 3, 4, 5])
        for width, least, most in ((int(a), int(b), int(c)) for a, b, c in rows):
            for number in (least, most):
                self.assertEqual(eskelvor.read_packed(eskelvor.write_packed(number, width)), number)
            for number in (least - 1, most + 1):
                self.refused(5, 0, lambda: eskelvor.write_packed(number, width))

    def test_the_spellings(self) -> None:
        text = " ".join(self.LINES)
        spelt = re.findall(r'(zero|-?\d+) is "(...)"', text)
        self.assertEqual(len(spelt), 3)
        for number, field in spelt:
            self.assertEqual(eskelvor.read_packed(field), 0 if number == "zero" else int(number))


class Row(NamedTuple):
    first: int
    later: int
    says: str


class Report(Case):
    LINES = comment("the observation report, 220 bytes", "#define ESK_REPORT_BYTES")

    def rows(self) -> List[Row]:
        """The fields of an observation: bytes in the first, in a later one, and what is said; 0 bytes: not there."""
        begin = self.LINES.index("  first  later")
        found = []
        for line in self.LINES[begin + 1 :]:
            match = re.match(r"^  (\d| )      (\d| )    (\S.*)$", line)
            if match and (match.group(1) != " " or match.group(2) != " "):
                found.append(Row(int(match.group(1).strip() or 0), int(match.group(2).strip() or 0), match.group(3)))
        self.assertEqual(len(found), 14)
        return found

    def parts(self) -> List[Tuple[int, int]]:
        """Every part of the report: its place and its bytes."""
        found: List[Tuple[int, int]] = []
        for line in self.LINES[: self.LINES.index("  first  later")]:
            match = re.match(r"^  ([\d, ]+?) +(\d+) +[a-zA-Z]", line)
            if match:
                found += [(int(place), int(match.group(2))) for place in match.group(1).split(",")]
            found += [(int(place), 2) for place in re.findall(r"CR LF at (\d+)", line)]
        return sorted(found)

    def test_the_parts_are_the_report(self) -> None:
        place = 0
        for begin, length in self.parts():
            self.assertEqual(begin, place)
            place += length
        self.assertEqual(place, eskelvor.REPORT_BYTES)

    def test_every_field_stands_where_it_is_said(self) -> None:
        """A byte that nothing allows, at the first byte of each field, is refused at that place."""
        places = [place for place, length in self.parts() if length < 23]
        for place, length in self.parts():
            if length >= 23:
                widths = [row.first if length == 27 else row.later for row in self.rows()]
                self.assertEqual(sum(widths), length)
                places += [place + sum(widths[:i]) for i in range(len(widths)) if widths[i]]
        self.assertEqual(len(places), 10 + 8 * 11)
        for place in places:
            text = FULL[:place] + b"\x7f" + FULL[place + 1 :]
            with self.assertRaises(eskelvor.Refusal) as caught:
                eskelvor.check_report(text)
            self.assertEqual((caught.exception.place, caught.exception.code in (3, 4)), (place, True))

    def test_ranges(self) -> None:
        held = 0
        for first in (True, False):
            at = 24 if first else 76
            for row in self.rows():
                width = row.first if first else row.later
                limits = re.search(r"(-?\d+) to (\d+)", row.says)
                if width and limits and "'" not in row.says:
                    held += 1
                    self.limits(at, width, int(limits.group(1)), int(limits.group(2)))
                at += width
        self.assertEqual(held, 18)

    def limits(self, at: int, width: int, least: int, most: int) -> None:
        def told(number: int) -> Optional[int]:
            field = eskelvor.write_packed(number, width)
            try:
                eskelvor.check_report(FULL[:at] + field + FULL[at + width :])
            except eskelvor.Refusal as refusal:
                self.assertEqual(refusal.place, at)
                return refusal.code
            return None

        half = 20 * 40 ** (width - 1)
        self.assertIsNone(told(least))
        self.assertIsNone(told(most))
        if least > -half:
            self.assertEqual(told(least - 1), 5)
        if most < half - 1:
            self.assertEqual(told(most + 1), 5)

    def test_kinds(self) -> None:
        row = next(row for row in self.rows() if row.says.startswith("kind"))
        said = dict(re.findall(r"'([A-Z])' ([a-z]+)", row.says))
        self.assertEqual(set(said), set(eskelvor.KINDS))
        for kind, words in said.items():
            self.assertTrue(eskelvor.KINDS[kind].startswith(words))
            eskelvor.check_report(FULL[:24] + kind.encode() + FULL[25:])
        for byte in set(range(256)) - {ord(kind) for kind in said}:
            self.refused(4, 24, lambda: eskelvor.check_report(FULL[:24] + bytes([byte]) + FULL[25:]))


SOUND = {2: b"0000", 3: b"000000000", 4: b"071", 5: FIVE[:-1], 6: b"1", 7: SEVEN[:-1], 8: b"1", 9: b"0000"}


class Command(Case):
    LINES = comment("the uplink command, 22 to 845 bytes", "#define ESK_COMMAND_BYTES")

    def sections(self) -> dict:
        """The rows of each section: bytes and what is said."""
        found: dict = {}
        numbers: List[int] = []
        for line in self.LINES:
            title = re.match(r"^  section (\d)", line)
            row = re.match(r"^    (\d)    (\S.*)$", line)
            if title:
                numbers = [int(k) for k in re.findall(r"section (\d)", line)]
                found.update({k: [] for k in numbers})
            elif row:
                for k in numbers:
                    found[k].append((int(row.group(1)), row.group(2)))
        return found

    def test_the_first_bytes(self) -> None:
        rows = [re.match(r"^  (\d+) +(\d+) +\S", line) for line in self.LINES]
        place = 0
        for row in filter(None, rows):
            self.assertEqual(int(row.group(1)), place)
            place += int(row.group(2))
        self.assertEqual(place, 22)

    def test_every_number(self) -> None:
        """The least and the greatest are accepted where they stand, the next ones refused at that place."""
        held = 0
        for k, rows in self.sections().items():
            self.assertIn(k, SOUND)
            if k in (2, 3):
                continue
            at = 0
            self.assertEqual(sum(width for width, _ in rows), len(SOUND[k]))
            for width, says in rows:
                limits = re.search(r"(\d+) to (\d+)|'?(\d)'? [a-z, ]*(?:or )?.*?'?(\d)'?", says)
                assert limits is not None
                least, most = (int(one) for one in limits.groups() if one is not None)
                for number, sound in ((least - 1, False), (least, True), (most, True), (most + 1, False)):
                    if 0 <= number < 10 ** width:
                        self.number(k, at, b"%0*d" % (width, number), sound)
                        held += 1
                at += width
        self.assertEqual(sorted(self.sections()), sorted(SOUND))
        self.assertEqual(held, 67)

    def number(self, k: int, at: int, digits: bytes, sound: bool) -> None:
        text = head(k) + SOUND[k][:at] + digits + SOUND[k][at + len(digits) :] + b"/"
        if sound:
            self.assertIsNone(eskelvor.check_command(text), text)
            return
        with self.assertRaises(eskelvor.Refusal) as caught:
            eskelvor.check_command(text)
        self.assertEqual((caught.exception.place, caught.exception.code in (4, 5)), (22 + at, True), text)

    def test_the_counts(self) -> None:
        for k, item, lists in ((2, b"10N10S010W010E", 2), (3, b"ABCD", 4)):
            says = [row for row in self.sections()[k] if "count" in row[1]]
            most = {int(found) for _, row in says for found in re.findall(r"00 to (\d+)", row)}
            self.assertEqual(len(most), 1)
            full = most.pop()
            behind = b"1/" if k == 3 else b"/"
            text = head(k) + lists * (b"%02d" % full + full * item) + behind
            self.assertIsNone(eskelvor.check_command(text))
            self.refused(5, 22, lambda: eskelvor.check_command(head(k) + b"%02d" % (full + 1)))
            length = re.search(r"section %d, .*: (\d+) to (\d+) bytes" % k, "\n".join(self.LINES))
            assert length is not None
            self.assertEqual((len(SOUND[k]) + 1, len(text) - 22), (int(length.group(1)), int(length.group(2))))

    def test_the_lengths(self) -> None:
        text = "\n".join(self.LINES)
        for k in range(4, 10):
            length = re.search(r"section %d, .*: (\d+) bytes" % k, text)
            assert length is not None
            self.assertEqual(int(length.group(1)), len(SOUND[k]) + 1)
        total = re.search(r"that is ([\d +]+)\s+= (\d+)", text)
        assert total is not None
        self.assertEqual(sum(int(one) for one in total.group(1).split("+")), int(total.group(2)))
        self.assertEqual(int(total.group(2)), eskelvor.COMMAND_BYTES)


class Journal(Case):
    LINES = comment("The journal holds the commands that were taken", "#define ESK_JOURNAL_BYTES")

    def rows(self) -> List[Tuple[int, int, str]]:
        """The parts of an entry: least and most bytes, and what is said."""
        found = []
        for line in self.LINES:
            row = re.match(r"^  (\d+)(?: to (\d+))? +(\S.*)$", line)
            if row:
                found.append((int(row.group(1)), int(row.group(2) or row.group(1)), row.group(3)))
        self.assertEqual(len(found), 4)
        return found

    def entry(self, text: bytes) -> bytes:
        """An entry, part by part as the rows have it."""
        designator, said, length, letter = self.rows()
        self.assertTrue(said[0] <= len(text) <= said[1])
        self.assertIn("the high byte first", length[2])
        name = re.findall(r"'(.)' to '(.)'", designator[2])
        last = re.match(r"'(.)'", letter[2])
        assert last is not None
        spelt = "".join(one for pair in name for one in pair).ljust(designator[0], name[0][0])
        return spelt.encode() + text + len(text).to_bytes(length[0], "big") + last.group(1).encode()

    def test_the_parts_are_an_entry(self) -> None:
        for text, at in ((eskelvor.NO_CHANGE, 0), (LONGEST, 1)):
            entry = self.entry(text)
            self.assertEqual(len(entry), sum(row[at] for row in self.rows()))
            journal = eskelvor.Journal.load(entry)
            self.assertEqual([one.text for one in journal.entries()], [text])
            again = eskelvor.Journal(room=len(entry))
            self.assertEqual(again.add(entry[: self.rows()[0][0]], text), len(entry))
            self.assertEqual(bytes(again), entry)

    def test_every_part_stands_where_it_is_said(self) -> None:
        """A byte that nothing allows, at the first byte of each part, breaks the journal at the trailer."""
        entry = self.entry(eskelvor.NO_CHANGE)
        trailer = len(entry) - sum(row[0] for row in self.rows()[2:])
        at = 0
        for least, _, _ in self.rows():
            for before in (b"", entry):
                spoilt = before + entry[:at] + b"\x7f" + entry[at + 1 :]
                self.refused(14, len(before) + trailer, lambda: eskelvor.Journal.load(spoilt))
                self.refused(14, trailer, lambda: eskelvor.Journal.load(spoilt[len(before) :] + before))
            at += least

    def test_the_letters_of_a_designator(self) -> None:
        pairs = re.findall(r"'(.)' to '(.)'", self.rows()[0][2])
        allowed = {byte for first, last in pairs for byte in range(ord(first), ord(last) + 1)}
        self.assertEqual(len(allowed), 36)
        entry = self.entry(eskelvor.NO_CHANGE)
        for byte in range(256):
            data = entry[:5] + bytes([byte]) + entry[6:]
            if byte in allowed:
                self.assertEqual(eskelvor.Journal.load(data).printed()[2:8], data[:6])
            else:
                self.refused(14, 28, lambda: eskelvor.Journal.load(data))
                self.refused(4, 0, lambda: eskelvor.Journal().add(data[:6], eskelvor.NO_CHANGE))

    def test_the_most(self) -> None:
        said = re.search(r"`end`\s+is above (\d+), or above `room`", "\n".join(self.LINES))
        assert said is not None
        self.assertEqual(int(said.group(1)), eskelvor.JOURNAL_BYTES)
