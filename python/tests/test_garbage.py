"""Any bytes at all get an answer: a result that writes back the same bytes, or a refusal with a code and a place."""

import doctest
import pickle
import random
from typing import Callable, Dict, List

import eskelvor
from eskelvor import _commands, _configuration, _gust, _journal, _packed, _reports
from known import BOTH, FIRST, FULL, LONGEST, PRINTED, SECOND, Case


def garbage(chance: random.Random, good: List[bytes]) -> bytes:
    """Random bytes, or a good text with a few of them changed, cut, or longer."""
    if chance.random() < 0.3:
        length = chance.choice((0, 1, 2, 5, 6, 22, 219, 220, 221, 845, 846, 2000))
        return bytes(chance.randrange(256) for _ in range(length))
    text = bytearray(chance.choice(good))
    for _ in range(chance.randrange(3)):
        text[chance.randrange(len(text))] = chance.choice(b"0123456789ABZK/ .:\r\n\0\xff")
    cut = chance.random()
    if cut < 0.1:
        return bytes(text[: chance.randrange(len(text))])
    return bytes(text) + (bytes([chance.randrange(256)]) if cut < 0.2 else b"")


class Garbage(Case):
    def answers(self, call: Callable[[bytes], bytes], good: List[bytes], rounds: int, seed: int, least: int) -> None:
        """``call`` reads and writes back; accepted texts come back the same, each refusal has a code and a place."""
        chance = random.Random(seed)
        counts: Dict[int, int] = {}
        for _ in range(rounds):
            text = garbage(chance, good)
            try:
                self.assertEqual(call(text), text)
                code = 0
            except eskelvor.Refusal as refusal:
                code = refusal.code
                self.assertIn(code, range(1, 13))
                self.assertTrue(0 <= refusal.place <= len(text), text)
            counts[code] = counts.get(code, 0) + 1
        self.assertGreaterEqual(len(counts), least, counts)
        self.assertGreater(counts[0], rounds // 50)

    def test_reports(self) -> None:
        call = lambda text: eskelvor.write_report(eskelvor.read_report(text))  # noqa: E731
        self.answers(call, [PRINTED, FULL], 3000, 3, 6)

    def test_commands(self) -> None:
        call = lambda text: eskelvor.write_command(eskelvor.read_command(text))  # noqa: E731
        self.answers(call, [eskelvor.NO_CHANGE, FIRST, SECOND, BOTH, LONGEST], 3000, 4, 6)

    def test_fields(self) -> None:
        call = lambda text: "".join(field.text for field in eskelvor.command_fields(text)).encode()  # noqa: E731
        self.answers(call, [eskelvor.NO_CHANGE, FIRST, SECOND, BOTH, LONGEST], 1000, 5, 6)

    def test_packed(self) -> None:
        call = lambda text: eskelvor.write_packed(eskelvor.read_packed(text), len(text))  # noqa: E731
        self.answers(call, [b"INZ", b" UK", b"//", b" YZ9F", b"K5"], 3000, 6, 4)

    def test_a_file_of_garbage(self) -> None:
        chance = random.Random(7)
        for _ in range(40):
            pieces = [garbage(chance, [PRINTED, FULL]) for _ in range(chance.randrange(8))]
            data = b"".join(pieces)
            refused: List[eskelvor.Refusal] = []
            good = list(eskelvor.reports(data, refused=refused.append))
            told = sum(len(one.piece or b"") for one in refused) + 220 * len(good)
            ends = len(data) - told  # the rest are line ends between pieces
            self.assertTrue(0 <= ends <= data.count(b"\r") + data.count(b"\n"))
            self.assertEqual(sorted(one.offset for one in refused), [one.offset for one in refused])

    def test_strings_of_any_letters(self) -> None:
        for text in ("\u00e9", "\udcff", "\U0001f600" * 300, "\0", "AWR04\u0661999999000000000/"):
            for call in (eskelvor.read_command, eskelvor.read_report, eskelvor.read_packed, eskelvor.check_command):
                with self.assertRaises(eskelvor.Refusal):
                    call(text)
            self.assertRaises(eskelvor.Refusal, eskelvor.join, FIRST, text)
        for wrong in (None, 5, 1.5, ["A"]):
            self.assertRaises(TypeError, eskelvor.check_command, wrong)

    def test_words(self) -> None:
        kinds = {kind.code: kind for kind in eskelvor.Refusal.__subclasses__()}
        self.assertEqual(sorted(kinds), [*range(1, 15)])
        self.assertEqual(len({eskelvor.words_of(code) for code in (0, *kinds)}), 15)
        self.assertEqual(eskelvor.words_of(14), "the journal is broken")
        for code in (15, 255, 256, 2 ** 32, -1):
            self.assertEqual(eskelvor.words_of(code), "an unknown code")

    def test_a_refusal_can_be_handed_on(self) -> None:
        with self.assertRaises(eskelvor.Refusal) as caught:
            eskelvor.join(FIRST, b"AWR04")
        again = pickle.loads(pickle.dumps(caught.exception))
        self.assertIs(type(again), type(caught.exception))
        self.assertEqual(str(again), str(caught.exception))
        self.assertEqual((again.code, again.place, again.text), (8, 5, 2))

    def test_the_examples_of_the_docstrings(self) -> None:
        tried = 0
        for module in (eskelvor, _commands, _configuration, _gust, _journal, _packed, _reports):
            result = doctest.testmod(module, extraglobs={"eskelvor": eskelvor})
            self.assertEqual(result.failed, 0, module)
            tried += result.attempted
        self.assertGreaterEqual(tried, 9)
