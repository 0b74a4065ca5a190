"""The board over lent memory: known cases, refusals, a whole night against a plain model, canaries on both sides."""

import ctypes
import random
import threading
from typing import Dict, List, Optional, Tuple

import eskelvor
from eskelvor import Board, _library
from known import BOTH, FIRST, FIVE, LONGEST, SECOND, SEVEN, Case, head

GUARD = 64
SLOT = 8
TEXT = eskelvor.COMMAND_BYTES


class Lent:
    """A board between canary bytes, and what all of the memory ought to be."""

    def __init__(self, slots: int, case: Case) -> None:
        size = Board.size(slots)
        self.memory = bytearray((0xC3 + 29 * i) % 256 for i in range(2 * GUARD + size))
        self.memory[GUARD:-GUARD] = bytes(size)
        self.want = bytearray(self.memory)
        self.board = Board(memoryview(self.memory)[GUARD:-GUARD])
        self.slots, self.case = slots, case

    def expect(self, slot: int, designator: str, text: bytes) -> None:
        at, area = GUARD + SLOT * slot, GUARD + SLOT * self.slots + TEXT * slot
        self.want[at : at + SLOT] = designator.encode() + len(text).to_bytes(2, "little")
        self.want[area : area + len(text)] = text

    def free(self, slot: int) -> None:
        self.want[GUARD + SLOT * slot + 6 : GUARD + SLOT * slot + 8] = b"\0\0"

    def holds(self) -> None:
        self.case.assertTrue(self.memory == self.want, "the lent memory is another than expected")


class Boards(Case):
    def test_an_evening(self) -> None:
        lent = Lent(2, self)
        board = lent.board
        self.assertEqual(board.slots, 2)
        self.assertEqual((len(board), list(board), board.look("XY0001")), (0, [], None))
        self.assertEqual(board.add("XY0001", FIRST), len(FIRST))
        lent.expect(0, "XY0001", FIRST)
        lent.holds()
        self.assertEqual(board.add(b"XY0002", eskelvor.NO_CHANGE), 22)
        lent.expect(1, "XY0002", eskelvor.NO_CHANGE)
        self.refused(9, 0, lambda: board.add("XY0003", FIRST), kind=eskelvor.NoFreeSlot)
        self.refused(8, 5, lambda: board.add("XY0003", "AWR04"), kind=eskelvor.WrongEnd)
        lent.holds()
        self.assertEqual(board.add("XY0001", SECOND), len(BOTH))
        lent.expect(0, "XY0001", BOTH)
        self.assertEqual(board.look("XY0001"), BOTH)
        self.assertEqual(list(board), [(0, "XY0001", BOTH), (1, "XY0002", eskelvor.NO_CHANGE)])
        lent.holds()
        self.assertEqual(board.take("XY0001"), BOTH)
        lent.free(0)
        lent.holds()
        self.refused(11, 0, lambda: board.take("XY0001"), kind=eskelvor.NothingWaits)
        self.assertIsNone(board.look("XY0001"))
        self.assertEqual(len(board), 1)
        for name in ("", "XY000", "xy0001", "XY00011", "XY000\u00e9", "XY000\0"):
            self.refused(4, 0, lambda: board.add(name, FIRST), kind=eskelvor.ByteNotAllowed)
            self.refused(4, 0, lambda: board.take(name))
            self.assertIsNone(board.look(name))
        lent.holds()

    def test_two_offices(self) -> None:
        east = eskelvor.Grant(flags=["amdar", "ascent"], sections=[4], downlinks=True)
        west = eskelvor.Grant(flags=["inhibit_hours"], sections=[9])
        memory = bytearray(Board.size(1))
        board = Board(memory)
        both = eskelvor.Grant(flags=["amdar"])
        for one, other in ((east, both), (both, east), (east, east)):
            self.refused(13, 0, lambda: board.add_for(one, other, "", ""), kind=eskelvor.NotGranted)
        was = bytes(memory)
        outside = (b"AWR041199999000000000/", b"AWR049999999000000009/2301/", SECOND, BOTH)
        for text in outside:
            self.refused(13, 0, lambda: board.add_for(east, west, "XY0001", text), kind=eskelvor.NotGranted)
        self.refused(4, 0, lambda: board.add_for(east, west, "xy0001", outside[0]))
        self.refused(8, 5, lambda: board.add_for(east, west, "XY0001", b"AWR04"))
        self.assertEqual(bytes(memory), was)
        self.assertEqual(board.add_for(east, west, "XY0001", FIRST), len(FIRST))
        self.refused(13, 0, lambda: board.add_for(west, east, "XY0002", FIRST))
        self.refused(9, 0, lambda: board.add_for(west, east, "XY0002", eskelvor.NO_CHANGE))
        self.assertEqual(board.add_for(west, east, "XY0001", b"AWR049199999000000009/2301/"), 31)
        self.assertEqual(board.take("XY0001"), b"AWR041199999000400009/151/2301/")
        self.assertEqual(repr(west), "Grant(flags=['inhibit_hours'], sections=[9], downlinks=False)")
        for wrong in ({"flags": ["wings"]}, {"sections": [1]}, {"sections": [10]}):
            with self.assertRaisesRegex(ValueError, "no flag or section"):
                eskelvor.Grant(**wrong)  # type: ignore[arg-type]

    def test_the_bytes_are_the_board(self) -> None:
        memory = bytearray(Board.size(3))
        Board(memory).add("XY0001", FIRST)
        kept = bytes(memory)
        self.assertEqual(Board(bytearray(kept)).take("XY0001"), FIRST)

    def test_what_waits_is_what_waited(self) -> None:
        memory = bytearray(Board.size(3))
        board = Board(memory)
        for name in ("XY0001", "XY0002", "XY0003"):
            board.add(name, FIRST)
        taken = [(one.designator, one.text, board.take(one.designator)) for one in board]
        self.assertEqual(taken, [(name, FIRST, FIRST) for name in ("XY0001", "XY0002", "XY0003")])
        board.add("XY0001", FIRST)
        board.add("XY0002", FIRST)
        going = iter(board)
        memory[:] = len(memory) * b"\xff"  # no length is then within the memory
        self.assertEqual([one.text for one in going], [FIRST, FIRST])
        self.refused(10, 0, lambda: list(board))

    def test_several_threads(self) -> None:
        """Calls hold the interpreter's lock, so that threads may share a board."""
        self.assertIsInstance(_library.lib, ctypes.PyDLL)
        board = Board(bytearray(Board.size(8)))
        wrong: List[object] = []

        def work(name: str) -> None:
            for _ in range(200):
                board.add(name, FIRST)
                board.add(name, SECOND)
                if board.take(name) != BOTH:
                    wrong.append(name)

        threads = [threading.Thread(target=work, args=("XY000%d" % i,)) for i in range(4)]
        for thread in threads:
            thread.start()
        for thread in threads:
            thread.join()
        self.assertEqual((wrong, len(board)), ([], 0))

    def test_memory_of_another_kind(self) -> None:
        with self.assertRaises(TypeError):
            Board(bytes(Board.size(1)))  # type: ignore[arg-type]
        memory = bytearray(Board.size(1) + 1)
        with self.assertRaisesRegex(ValueError, "even address"):
            Board(memoryview(memory)[1:])
        board = Board(memoryview(memory)[:-1])
        with self.assertRaises(BufferError):
            memory.append(0)
        self.assertEqual(board.add("XY0001", FIRST), len(FIRST))
        del board
        memory.append(0)

    def test_not_valid(self) -> None:
        size = Board.size(2)
        doubled = bytearray(size)
        board = Board(doubled)
        board.add("XY0001", FIRST)
        board.add("XY0002", FIRST)
        doubled[8:14] = b"XY0001"
        cases: List[bytearray] = [
            bytearray(size - 1), bytearray(size + 1), bytearray(size + 852), bytearray(1), bytearray(852),
            *(bytearray(843 * slots) for slots in range(1, 65)),
            bytearray(Board.size(65)), doubled,
            bytearray(b"XY0001\x01\x00" + bytes(size - 8)), bytearray(b"XY0001\xff\xff" + bytes(size - 8)),
            bytearray(b"xy0001\x16\x00" + bytes(8) + eskelvor.NO_CHANGE + bytes(size - 16 - 22)),
        ]
        for memory in cases:
            was = bytes(memory)
            board = Board(memory)
            calls = (board.check, lambda: board.add("XY0009", FIRST), lambda: board.take("XY0001"),
                     lambda: board.look("XY0001"), lambda: list(board), lambda: len(board))
            for call in calls:
                self.refused(10, 0, call, kind=eskelvor.BoardNotValid)
            self.assertEqual(bytes(memory), was)

    def older(self, waiting: Dict[int, Tuple[str, bytes]], slots: int) -> bytearray:
        """A board as a version before 4 had it; what is not given is a pattern."""
        memory = bytearray((7 * i + 1) % 256 for i in range(843 * slots))
        for i in range(slots):
            designator, text = waiting.get(i, ("??????", b""))
            memory[8 * i : 8 * i + 8] = designator.encode() + len(text).to_bytes(2, "little")
            memory[8 * slots + 835 * i : 8 * slots + 835 * i + len(text)] = text
        return memory

    def test_boards_from_before_section_7(self) -> None:
        longest = LONGEST[:18] + b"0" + LONGEST[19:].replace(b"1/" + SEVEN + b"0/", b"1/0/")
        self.assertEqual(len(longest), 835)
        flags = [b"AWR04" + bytes(48 + (i >> bit & 1) for bit in range(7)) + longest[12:] for i in range(64)]
        full = {i: ("XY%04d" % (99 - i), flags[i]) for i in range(64)}
        some = {0: ("XY0001", BOTH), 2: ("AU0137", longest)}
        for waiting, slots in ((full, 64), (some, 4), ({}, 3), ({}, 0)):
            old = self.older(waiting, slots)
            was = bytes(old)
            for lent in (old, bytes(old), memoryview(old)):
                memory = Board.carry_over(lent)
                self.assertEqual(list(Board(memory)), [(i, name, text) for i, (name, text) in sorted(waiting.items())])
                self.assertEqual(Board(memory).slots, slots)
                for i in range(slots):
                    self.assertEqual(memory[8 * i : 8 * i + 8], old[8 * i : 8 * i + 8])
                    area, at = 8 * slots + 845 * i, 8 * slots + 835 * i
                    self.assertEqual(memory[area : area + 845], old[at : at + 835] + bytes(10))
            self.assertEqual(bytes(old), was)
        wrong = [
            self.older({0: ("XY0001", BOTH), 1: ("XY0001", BOTH)}, 2), self.older({0: ("xy0001", BOTH)}, 2),
            self.older({0: ("XY0001", BOTH[:-1])}, 2), self.older({0: ("XY0001", head(7) + SEVEN)}, 2),
            self.older({}, 65), self.older(some, 4)[:-1], self.older(some, 4) + b"x", bytearray(Board.size(2)),
        ]
        for old in wrong:
            self.refused(10, 0, lambda: Board.carry_over(old), kind=eskelvor.BoardNotValid)

    def test_sizes_that_are_boards(self) -> None:
        for slots in (0, 1, 64):
            board = Board(bytearray(Board.size(slots)))
            self.assertIsNone(board.check())
            self.assertEqual((board.slots, len(board)), (slots, 0))
        self.refused(9, 0, lambda: Board(bytearray()).add("XY0001", FIRST))
        self.refused(11, 0, lambda: Board(bytearray()).take("XY0001"))


# ---- a night -------------------------------------------------------------------------------------------------------------

ACCEPTED = [
    eskelvor.NO_CHANGE, FIRST, SECOND, BOTH, LONGEST, head(2) + b"0000/", head(2) + b"0110N10S010W010E00/",
    head(3) + b"000000000/", head(3) + b"01ABCD02EFGHIJKL00001/", head(4) + b"071/", head(4) + b"600/", head(5) + FIVE,
    head(6) + b"0/", head(6) + b"1/", head(7) + SEVEN, head(7) + b"030035010/", head(8) + b"1/", head(9) + b"2301/",
    b"AWR040000000200000000/", b"AWR041111111000000000/", b"AWR049990999100000080/1/",
]
REFUSED: List[Tuple[bytes, int, int]] = [
    (b"", 8, 0), (b"AWR04", 8, 5), (eskelvor.NO_CHANGE + b"/", 8, 22), (head(2) + b"17", 5, 22), (head(4) + b"07x/", 4, 24),
    (head(7) + b"100920021/", 5, 23),
]


def joined(first: Optional[bytes], second: bytes) -> bytes:
    """A model of the join that goes by the bytes alone: no solidus stands inside a section."""
    if first is None:
        return second
    flags = bytes(b if b != ord("9") else a for a, b in zip(first[5:12], second[5:12]))
    sections: Dict[int, bytes] = {}
    for text in (first, second):
        parts = iter(text[22:].split(b"/"))
        for k in range(2, 10):
            if text[11 + k] != ord("0"):
                sections[k] = next(parts) + b"/"
    named = b"".join(b"%d" % (k if k in sections else 0) for k in range(2, 10))
    downlink = max(first[12:13], second[12:13])
    return b"AWR04" + flags + downlink + named + b"/" + b"".join(sections[k] for k in sorted(sections))


class Night(Case):
    """Adds and takings in a long random row; after each, every byte of the lent memory is as the model has it."""

    def play(self, slots: int, events: int, takings: float, seed: int) -> None:
        chance = random.Random(seed)
        lent = Lent(slots, self)
        waits: Dict[str, bytes] = {}
        at: Dict[str, int] = {}
        counts: Dict[str, int] = {}
        for _ in range(events):
            designator = "AU%04d" % chance.randrange(slots + slots // 5 + 1)
            if chance.random() < takings:
                what = self.take(lent, designator, waits, at)
            elif chance.random() < 0.05:
                text, code, place = chance.choice(REFUSED)
                self.refused(code, place, lambda: lent.board.add(designator, text))
                what = "refused"
            else:
                what = self.add(lent, designator, chance.choice(ACCEPTED), waits, at)
            counts[what] = counts.get(what, 0) + 1
            lent.holds()
        self.assertEqual({one.designator: one.text for one in lent.board}, waits)
        self.assertEqual({one.designator: one.slot for one in lent.board}, at)
        for what in ("added", "joined", "taken", "nothing", "refused", "no slot"):
            self.assertGreater(counts.get(what, 0), 5, what)

    def add(self, lent: Lent, designator: str, text: bytes, waits: Dict[str, bytes], at: Dict[str, int]) -> str:
        free = next((slot for slot in range(lent.slots) if slot not in at.values()), None)
        if designator not in waits and free is None:
            self.refused(9, 0, lambda: lent.board.add(designator, text))
            return "no slot"
        new = designator not in waits
        if free is not None and new:
            at[designator] = free
        waits[designator] = joined(waits.get(designator), text)
        lent.expect(at[designator], designator, waits[designator])
        self.assertEqual(lent.board.add(designator, text), len(waits[designator]))
        return "added" if new else "joined"

    def take(self, lent: Lent, designator: str, waits: Dict[str, bytes], at: Dict[str, int]) -> str:
        self.assertEqual(lent.board.look(designator), waits.get(designator))
        if designator not in waits:
            self.refused(11, 0, lambda: lent.board.take(designator))
            return "nothing"
        self.assertEqual(lent.board.take(designator), waits.pop(designator))
        lent.free(at.pop(designator))
        return "taken"

    def test_a_small_board(self) -> None:
        self.play(3, 1500, 0.3, 1)

    def test_a_full_night(self) -> None:
        self.play(64, 3000, 0.2, 2)


class ListedBoards(Case):
    def test_by_hand(self) -> None:
        board = eskelvor.ListedBoard(bytearray(Board.size(4)))
        self.assertEqual(board.designators(), [])
        self.assertIsNone(board.find("XY0001"))
        for name in ["XY0005", "XY0001", "AB0003"]:
            self.assertEqual(board.add(name, FIRST), len(FIRST))
        self.assertEqual(board.add("XY0005", SECOND), len(BOTH))
        self.assertEqual(board.designators(), ["AB0003", "XY0001", "XY0005"])
        self.assertEqual(board.designators("XY"), ["XY0001", "XY0005"])
        self.assertEqual(board.designators("XY0002"), [])
        self.assertEqual([board.find(name) for name in ["XY0005", "XY0001", "AB0003", "AB0004"]], [0, 1, 2, None])
        with self.assertRaises(eskelvor.NothingWaits):
            board.take("AB0004")
        with self.assertRaises(eskelvor.Refusal) as refused:
            board.find("xy")
        self.assertEqual(refused.exception.code, 4)
        self.assertEqual(board.take("XY0005"), BOTH)
        self.assertEqual(board.designators(), ["AB0003", "XY0001"])

    def test_memory_that_another_changed(self) -> None:
        memory = bytearray(Board.size(2))
        board = eskelvor.ListedBoard(memory)
        Board(memory).add("XY0001", FIRST)
        was = bytes(memory)
        for call in (lambda: board.find("XY0001"), lambda: board.add("XY0001", FIRST), lambda: board.take("XY0001")):
            with self.assertRaises(eskelvor.BoardNotValid):
                call()
        self.assertEqual(bytes(memory), was)
        self.assertEqual(eskelvor.ListedBoard(memory).designators(), ["XY0001"])

    def test_a_night(self) -> None:
        dice = random.Random(9)
        one, other = bytearray(Board.size(9)), bytearray(Board.size(9))
        listed, plain = eskelvor.ListedBoard(one), Board(other)
        names = ["%s%04d" % (dice.choice(["AA", "ZZ", "M0"]), i) for i in range(14)]
        for _ in range(600):
            name, text = dice.choice(names), dice.choice([FIRST, SECOND, b"AWR04"])
            takes, told = dice.random() < 0.4, []
            for board in (listed, plain):
                try:
                    told.append(board.take(name) if takes else board.add(name, text))
                except eskelvor.Refusal as refused:
                    told.append((refused.code, refused.place))
            self.assertEqual(told[0], told[1])
            self.assertEqual(one, other)
            self.assertEqual(listed.designators(), sorted(waiting.designator for waiting in plain))
