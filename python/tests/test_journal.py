"""The journal over lent memory: the printed case, broken ones with their places, limits, a night against a plain model."""

import ctypes
import random
import threading
import time
from typing import Dict, Iterator, List, Optional, Tuple
from unittest import mock

import eskelvor
from eskelvor import Configuration, Entry, Journal, _journal, _library, _refusals
from known import BOTH, FIRST, FIVE, LONGEST, SECOND, SEVEN, Case, head

GUARD = 64
MOST = eskelvor.JOURNAL_BYTES
HUGE = 2 ** (8 * ctypes.sizeof(ctypes.c_size_t)) - 1
ONE = b"XY0001" + eskelvor.NO_CHANGE + b"\x00\x16J"
EVERY_HOUR = head(4) + b"601/"

FLEET = ("XY0001", "XY0002", "AU0137", "000000", "ZZZZZZ")
ACCEPTED = [
    eskelvor.NO_CHANGE, FIRST, SECOND, BOTH, LONGEST, EVERY_HOUR, head(2) + b"0110N10S010W010E00/",
    head(3) + b"01ABCD02EFGHIJKL00001/", head(5) + FIVE, head(6) + b"0/", head(7) + SEVEN, head(8) + b"1/",
    head(9) + b"2301/", b"AWR040000000200000000/", b"AWR041111111000000000/",
]
REFUSED: List[Tuple[bytes, int, int]] = [
    (b"", 8, 0), (b"AWR04", 8, 5), (b"AWR05", 3, 0), (eskelvor.NO_CHANGE + b"/", 8, 22), (head(2) + b"17", 5, 22),
    (head(4) + b"07x/", 4, 24), (LONGEST + b"/", 1, 0),
]
NO_NAMES = ("", "XY000", "xy0001", "XY00011", "XY000\u00e9", "XY000\0", "XY 001", "XY000/")


def entry(designator: str, text: bytes) -> bytes:
    """An entry's bytes, as document 02 has them."""
    return designator.encode() + text + len(text).to_bytes(2, "big") + b"J"


def printed(entries: List[Entry]) -> bytes:
    """The lines of entries, the newest first."""
    return b"".join(b"%d %s %s\n" % (one.offset, one.designator.encode(), one.text) for one in entries)


def sound(call: object, *words: object) -> bool:
    try:
        call(*words)  # type: ignore[operator]
    except eskelvor.Refusal:
        return False
    return True


def model(data: bytes) -> Optional[int]:
    """Where a journal of these bytes is broken, as document 02 says it; None where it is sound."""
    if len(data) > MOST:
        return 0
    end = len(data)
    while end:
        if end < 3:
            return 0
        place = end - 3
        begin = place - int.from_bytes(data[place : place + 2], "big")
        name = data[max(begin - 6, 0) : max(begin, 0)]
        good = data[end - 1 : end] == b"J" and begin >= 6 and all(48 <= c <= 57 or 65 <= c <= 90 for c in name)
        if not good or not sound(eskelvor.check_command, data[begin:place]):
            return place
        end = begin - 6
    return None


class Lent:
    """A journal between canary bytes, what all of the memory ought to be, and what is in the journal, the oldest first."""

    def __init__(self, room: int, case: Case, data: bytes = b"") -> None:
        self.memory = bytearray((0xC3 + 29 * i) % 256 for i in range(2 * GUARD + room))
        self.memory[GUARD : GUARD + len(data)] = data
        self.want = bytearray(self.memory)
        self.journal = Journal(memoryview(self.memory)[GUARD : GUARD + room], len(data))
        self.list: List[Entry] = []
        self.length, self.case = len(data), case

    def add(self, designator: str, text: bytes) -> None:
        self.list.append(Entry(self.length, designator, text))
        at, more = GUARD + self.length, entry(designator, text)
        self.want[at : at + len(more)] = more
        self.length += len(more)
        self.case.assertEqual(self.journal.add(designator, text), self.length)
        self.holds()

    def drop(self, count: int) -> None:
        if count:
            self.length = self.list[-count].offset
            del self.list[-count:]
        self.case.assertEqual(self.journal.drop(count), self.length)
        self.holds()

    def holds(self) -> None:
        self.case.assertTrue(self.memory == self.want, "the lent memory is another than expected")
        self.case.assertEqual(self.journal.length, self.length)

    def replayed(self, designator: str) -> None:
        """What the calls that apply one text each give, the oldest first."""
        held = Configuration()
        for one in self.list:
            if one.designator == designator:
                held.apply(one.text)
        self.case.assertEqual(self.journal.replay(designator), held)

    def all_of_it(self) -> None:
        newest_first = self.list[::-1]
        self.case.assertIsNone(self.journal.check())
        self.case.assertTrue(list(self.journal.entries()) == newest_first, "other entries than expected")
        self.case.assertEqual(self.journal.printed(), printed(newest_first))
        self.case.assertEqual(bytes(self.journal), bytes(self.want[GUARD : GUARD + self.length]))
        for designator in (*FLEET, "NOBODY"):
            self.replayed(designator)
        self.holds()


class Broken(Case):
    """A case that holds a broken journal: whatever is asked of it, 14 comes first, and nothing is written."""

    def broken(self, lent: Lent, place: int) -> None:
        journal = lent.journal
        for call in (
            journal.check, journal.entries, journal.printed, lambda: bytes(journal), lambda: journal.drop(0),
            lambda: journal.drop(-1), lambda: journal.replay("XY0001"), lambda: journal.replay(""),
            lambda: journal.add("XY0001", FIRST), lambda: journal.add("", ""),
        ):
            refusal = self.refused(14, place, call, kind=eskelvor.JournalBroken)
            self.assertEqual(str(refusal), "code 14 at byte %d: the journal is broken" % place)
            lent.holds()

    def broken_bytes(self, data: bytes, place: int) -> None:
        self.broken(Lent(len(data) + 900, self, data), place)
        self.refused(14, place, lambda: Journal.load(data), kind=eskelvor.JournalBroken)
        self.refused(14, place, lambda: Journal(bytearray(data), len(data)).check())
        self.assertEqual(model(data), place)


class Known(Case):
    def test_the_printed_one(self) -> None:
        lent = Lent(100, self)
        lent.all_of_it()
        self.assertEqual((lent.journal.printed(), bytes(lent.journal)), (b"", b""))
        lent.add("XY0001", eskelvor.NO_CHANGE)
        self.assertEqual((lent.journal.length, lent.journal.room, bytes(lent.journal)), (31, 100, ONE))
        self.assertEqual(lent.journal.printed(), b"0 XY0001 AWR049999999000000000/\n")
        self.assertEqual(list(lent.journal.entries()), [(0, "XY0001", eskelvor.NO_CHANGE)])
        self.assertEqual(lent.journal.replay("XY0001"), Configuration())
        lent.all_of_it()

    def test_memory_of_its_own(self) -> None:
        for journal, room in ((Journal(), MOST), (Journal(room=31), 31), (Journal.load(b"", room=40), 40)):
            self.assertEqual((journal.room, journal.length), (room, 0))
            self.assertEqual(journal.add(b"XY0001", memoryview(eskelvor.NO_CHANGE)), 31)
            self.assertEqual(bytes(journal), ONE)

    def test_kept_and_loaded(self) -> None:
        journal = Journal()
        for designator, text in zip(FLEET, ACCEPTED):
            journal.add(designator, text)
        kept = bytes(journal)
        for data in (kept, bytearray(kept), memoryview(kept)):
            again = Journal.load(data)
            self.assertEqual((bytes(again), again.printed(), again.room), (kept, journal.printed(), MOST))
            again.add("XY0009", FIRST)
        self.assertEqual(bytes(journal), kept)
        exact = Journal.load(kept, room=len(kept))
        self.refused(2, 0, lambda: exact.add("XY0001", FIRST))
        self.refused(14, 0, lambda: Journal.load(kept, room=len(kept) - 1), kind=eskelvor.JournalBroken)
        older = Journal.load(kept[: next(journal.entries()).offset])
        self.assertEqual(list(older.entries()), list(journal.entries())[1:])

    def test_memory_of_another_kind(self) -> None:
        with self.assertRaises(TypeError):
            Journal(bytes(100))  # type: ignore[arg-type]
        with self.assertRaises(TypeError):
            Journal(bytearray(100), room=50)
        with self.assertRaises(TypeError):
            Journal(memoryview(bytearray(100))[::2])
        with self.assertRaises(TypeError):
            Journal.load("XY0001")  # type: ignore[arg-type]
        with self.assertRaises(TypeError):
            Journal(length=1.5)  # type: ignore[arg-type]
        with self.assertRaises(ValueError):
            Journal(room=-1)
        memory = bytearray(100)
        journal = Journal(memoryview(memory)[1:])  # at an odd address
        with self.assertRaises(BufferError):
            memory.append(0)
        self.assertEqual(journal.add("XY0001", eskelvor.NO_CHANGE), 31)
        self.assertEqual(bytes(memory), b"\0" + ONE + bytes(68))
        del journal
        memory.append(0)

    def test_order_of_refusals(self) -> None:
        lent = Lent(130, self)
        lent.add("XY0001", eskelvor.NO_CHANGE)
        lent.add("XY0002", EVERY_HOUR)
        lent.add("XY0001", eskelvor.NO_CHANGE)
        for name in NO_NAMES:
            self.refused(4, 0, lambda: lent.journal.add(name, b"AWR04"), kind=eskelvor.ByteNotAllowed)
            self.refused(4, 0, lambda: lent.journal.add(name, LONGEST), kind=eskelvor.ByteNotAllowed)
            self.refused(4, 0, lambda: lent.journal.replay(name), kind=eskelvor.ByteNotAllowed)
        for text, code, place in REFUSED:
            self.refused(code, place, lambda: lent.journal.add("XY0001", text))
        self.refused(2, 0, lambda: lent.journal.add("XY0001", LONGEST), kind=eskelvor.NoRoom)
        lent.all_of_it()


class Gone(Case):
    """Entries while the journal changes."""

    def journal(self) -> Journal:
        journal = Journal()
        for name in ("XY0001", "XY0002", "XY0003"):
            journal.add(name, FIRST)
        return journal

    def test_added_meanwhile(self) -> None:
        journal = self.journal()
        going = journal.entries()
        self.assertIsInstance(going, Iterator)
        for _ in range(3):
            journal.add("XY0009", SECOND)
        self.assertEqual([one.designator for one in going], ["XY0003", "XY0002", "XY0001"])
        self.assertEqual(len(list(journal.entries())), 6)

    def test_dropped_meanwhile(self) -> None:
        journal = self.journal()
        going = journal.entries()
        journal.drop(0)
        self.assertEqual(next(going).designator, "XY0003")
        journal.drop(3)
        self.assertRaisesRegex(RuntimeError, "were dropped", next, going)
        self.assertEqual(list(journal.entries()), [])

    def test_overwritten_meanwhile(self) -> None:
        memory = bytearray(200)
        journal = Journal(memory)
        journal.add("XY0001", FIRST)
        journal.add("XY0002", FIRST)
        going = journal.entries()
        next(going)
        memory[:] = 200 * b"\xff"
        self.refused(14, 32, lambda: next(going), kind=eskelvor.JournalBroken)

    def test_several_threads(self) -> None:
        """Each gives way between the call and the new length: no add is lost, and none overwrites another."""
        journal = Journal(room=3000)
        full: List[object] = []
        lengths: List[int] = []

        def slowly(code: int, place: int) -> None:
            time.sleep(0.0005)
            _refusals.refuse(code, place)

        def work(name: str) -> None:
            try:
                while True:
                    lengths.append(journal.add(name, eskelvor.NO_CHANGE))
            except eskelvor.NoRoom:
                full.append(name)

        giving_way = mock.patch.object(_journal, "refuse", slowly)
        giving_way.start()
        self.addCleanup(giving_way.stop)

        names = ["XY000%d" % i for i in range(4)]
        threads = [threading.Thread(target=work, args=(name,)) for name in names]
        for thread in threads:
            thread.start()
        for thread in threads:
            thread.join()
        self.assertEqual(sorted(full), names)
        self.assertEqual((journal.length, len(list(journal.entries()))), (31 * 96, 96))
        self.assertEqual(sorted(lengths), [31 * i for i in range(1, 97)])


class BrokenOnes(Broken):
    THREE = entry("XY0001", eskelvor.NO_CHANGE), entry("AU0137", EVERY_HOUR), entry("XY0001", head(9) + b"2301/")

    def spoilt(self, at: int, byte: bytes) -> bytes:
        data = b"".join(self.THREE)
        self.assertNotEqual(data[at : at + 1], byte)
        return data[:at] + byte + data[at + 1 :]

    def test_each_part_of_each_entry(self) -> None:
        begin = 0
        for one in self.THREE:
            trailer = begin + len(one) - 3
            length = len(one) - 9
            for at, byte in (
                (trailer + 2, b"j"), (trailer + 2, b"\0"), (trailer, b"\1"), (trailer, b"\xff"),
                (trailer + 1, bytes([length + 1])), (trailer + 1, bytes([length - 1])), (trailer + 1, b"\0"),
                (begin, b"a"), (begin + 5, b"/"), (begin + 6, b"B"), (trailer - 1, b"."),
            ):
                self.broken_bytes(self.spoilt(at, byte), trailer)
            begin += len(one)

    def test_of_two_faults_the_one_nearer_to_the_end(self) -> None:
        data = self.spoilt(6, b"B")[:-1] + b"K"
        self.broken_bytes(data, len(data) - 3)

    def test_entries_that_do_not_end_at_byte_0(self) -> None:
        for before in range(1, 12):
            self.broken_bytes(before * b"J" + self.THREE[0] + self.THREE[1], max(before - 3, 0))

    def test_the_newest_alone_is_not_enough(self) -> None:
        """The call that finds the newest looks at no other; ``entries`` gives none of a broken journal."""
        journal = Journal(bytearray(self.spoilt(6, b"B")), len(b"".join(self.THREE)))
        found = _library.lib.esk_journal_last(*journal._lent())
        self.assertEqual((found.code, found.given), (0, 1))
        self.refused(14, 28, journal.entries)

    def test_every_cut_and_every_byte(self) -> None:
        data = b"".join(self.THREE)
        cuts = [model(data[:end]) for end in range(len(data) + 1)]
        self.assertEqual(cuts.count(None), 4)
        chance = random.Random(11)
        tried = [data[:end] for end in range(len(data) + 1)]
        tried += [data[:at] + bytes([chance.randrange(256)]) + data[at + 1 :] for at in range(len(data)) for _ in range(12)]
        for one in tried:
            place = model(one)
            if place is None:
                self.assertEqual(bytes(Journal.load(one)), one)
            else:
                self.refused(14, place, lambda: Journal.load(one))


class Limits(Broken):
    def test_lengths_that_are_none(self) -> None:
        for room in (0, 1, 2, 3, 31, MOST, MOST + 1, 70000):
            lent = Lent(room, self)
            lent.all_of_it()
            for length in (1, 2, 3, 31, MOST, MOST + 1, 70001, HUGE, HUGE + 1, -1, 10 ** 30):
                place = length - 3 if 3 <= length <= min(room, MOST) else 0
                journal = Journal(memoryview(lent.memory)[GUARD : GUARD + room], length)
                self.refused(14, place, journal.check, kind=eskelvor.JournalBroken)
                self.refused(14, place, lambda: bytes(journal))
                self.refused(14, place, journal.entries)
                self.refused(14, place, lambda: journal.add("XY0001", FIRST))
                lent.holds()

    def test_a_buffer_that_is_smaller(self) -> None:
        self.assertEqual(Journal(bytearray(ONE), 31).printed(), b"0 XY0001 AWR049999999000000000/\n")
        self.refused(14, 0, Journal(bytearray(ONE[:-1]), 31).check, kind=eskelvor.JournalBroken)

    def test_exact_room_and_one_byte_less(self) -> None:
        for text in (eskelvor.NO_CHANGE, EVERY_HOUR, LONGEST):
            for before in (0, 1, 5):
                exact = 31 * before + len(text) + 9
                for room in (exact - 1, exact, exact + 1):
                    lent = Lent(room, self)
                    for _ in range(before):
                        lent.add("XY0001", eskelvor.NO_CHANGE)
                    if room < exact:
                        self.refused(2, 0, lambda: lent.journal.add("XY0002", text), kind=eskelvor.NoRoom)
                    else:
                        lent.add("XY0002", text)
                        self.refused(2, 0, lambda: lent.journal.add("XY0002", eskelvor.NO_CHANGE))
                    lent.all_of_it()

    def test_65535_bytes(self) -> None:
        lent = Lent(MOST + 1, self)
        for text, times in ((LONGEST, 75), (EVERY_HOUR, 7), (eskelvor.NO_CHANGE, 39)):
            for _ in range(times):
                lent.add("XY0001", text)
        self.refused(2, 0, lambda: lent.journal.add("XY0002", EVERY_HOUR), kind=eskelvor.NoRoom)
        lent.add("XY0002", eskelvor.NO_CHANGE)
        self.assertEqual(lent.journal.length, MOST)
        self.refused(2, 0, lambda: lent.journal.add("XY0002", eskelvor.NO_CHANGE), kind=eskelvor.NoRoom)
        lent.all_of_it()
        full = bytes(lent.journal)
        self.assertEqual(bytes(Journal.load(full)), full)
        for room in (MOST, MOST + 1, 70000):
            self.refused(14, 0, lambda: Journal.load(full + b"J", room=room))
        self.refused(14, 0, Journal(bytearray(full + b"J"), MOST + 1).check)

    def test_as_many_lines_as_there_can_be(self) -> None:
        data = MOST // 31 * ONE
        journal = Journal.load(data)
        lines = journal.printed()
        self.assertEqual(lines.count(b"\n"), 2114)
        self.assertTrue(lines == printed(list(journal.entries())), "other lines than expected")
        self.assertLessEqual(len(lines), _library.JOURNAL_PRINTED)
        self.assertEqual(_library.JOURNAL_PRINTED, MOST + 5 * 2114)
        self.assertEqual((journal.drop(2114), journal.printed()), (0, b""))

    def test_room_for_the_lines(self) -> None:
        """The call itself: this module always lends enough."""
        journal = Journal.load(ONE + ONE)
        lines = journal.printed()
        for less in (0, 1, len(lines)):
            out = ctypes.create_string_buffer(len(lines) * b"\xc3")
            answer = _library.lib.esk_journal_print(*journal._lent(), out, len(lines) - less)
            self.assertEqual((answer.code, answer.place, answer.length), (2, 0, 0) if less else (0, 0, len(lines)))
            self.assertEqual(out.raw, (len(lines) * b"\xc3" if less else lines) + b"\0")


class Night(Case):
    """Adds and droppings in a long random row; after each, every byte of the lent memory is as the model has it."""

    def test_several_aircraft(self) -> None:
        chance = random.Random(8)
        lent = Lent(9000, self)
        counts: Dict[str, int] = {}
        for i in range(1500):
            what = self.event(lent, chance)
            counts[what] = counts.get(what, 0) + 1
            lent.holds()
            lent.replayed(chance.choice(FLEET))
            if i % 50 == 0:
                lent.all_of_it()
        for what in ("added", "dropped", "refused", "no room", "too many"):
            self.assertGreater(counts.get(what, 0), 20, counts)

    def event(self, lent: Lent, chance: random.Random) -> str:
        designator, text, which = chance.choice(FLEET), chance.choice(ACCEPTED), chance.random()
        if which < 0.1:
            text, code, place = chance.choice(REFUSED)
            self.refused(code, place, lambda: lent.journal.add(designator, text))
            return "refused"
        if which < 0.15:
            more = chance.choice((len(lent.list) + 1, len(lent.list) + 256, 65536 + len(lent.list), HUGE, HUGE + 1, -1))
            self.refused(5, 0, lambda: lent.journal.drop(more), kind=eskelvor.OutOfRange)
            return "too many"
        if which < 0.2:
            lent.drop(chance.randrange(min(len(lent.list), 12) + 1))
            return "dropped"
        if lent.length + len(text) + 9 > lent.journal.room:
            self.refused(2, 0, lambda: lent.journal.add(designator, text), kind=eskelvor.NoRoom)
            return "no room"
        lent.add(designator, text)
        return "added"

    def test_without_the_newest_n(self) -> None:
        """For every n up to the count: what is left is what the rest give, byte by byte and applied one by one."""
        chance = random.Random(9)
        night = [(chance.choice(FLEET), chance.choice(ACCEPTED)) for _ in range(40)]
        for n in range(len(night) + 1):
            lent = Lent(40 * (eskelvor.COMMAND_BYTES + 9), self)
            rest = Journal()
            for i, (designator, text) in enumerate(night):
                lent.add(designator, text)
                if i < len(night) - n:
                    rest.add(designator, text)
            lent.drop(n)
            self.assertEqual(bytes(lent.journal), bytes(rest))
            lent.all_of_it()
            self.refused(5, 0, lambda: lent.journal.drop(len(night) - n + 1), kind=eskelvor.OutOfRange)
            lent.add("XY0001", SECOND)
            lent.all_of_it()


class Garbage(Broken):
    def test_any_bytes(self) -> None:
        chance = random.Random(10)
        counts = {True: 0, False: 0}
        for _ in range(1500):
            some = [entry(chance.choice(FLEET), chance.choice(ACCEPTED)) for _ in range(chance.randrange(5))]
            data = bytearray(b"".join(some))
            if chance.random() < 0.2:
                data = bytearray(chance.randrange(256) for _ in range(chance.choice((1, 2, 3, 9, 31, 40, 900))))
            for _ in range(chance.randrange(3) if data else 0):
                data[chance.randrange(len(data))] = chance.choice(b"0123456789ABZJ/ \r\n\0\x16\xff")
            if chance.random() < 0.2:
                data = data[chance.randrange(len(data) + 1) :]
            place = model(bytes(data))
            counts[place is None] += 1
            if place is None:
                lent = Lent(len(data), self, bytes(data))
                found = list(lent.journal.entries())
                self.assertEqual(lent.journal.printed(), printed(found))
                self.assertEqual(b"".join(entry(one.designator, one.text) for one in reversed(found)), data)
                lent.holds()
            else:
                self.broken(Lent(len(data) + 900, self, bytes(data)), place)
        self.assertGreater(min(counts.values()), 300, counts)

    def test_random_bytes_behind_the_journal_do_not_matter(self) -> None:
        for behind in (b"J", 3 * b"J", b"\x00\x16J", ONE[1:], 900 * b"\xff"):
            journal = Journal(bytearray(ONE + behind), 31)
            self.assertEqual((bytes(journal), journal.printed()), (ONE, b"0 XY0001 AWR049999999000000000/\n"))
