"""Texts that several tests begin with, and how a refusal is held."""

import unittest
from pathlib import Path
from typing import Callable, Optional

import eskelvor

ROOT = Path(__file__).resolve().parents[2]
EXAMPLES = ROOT / "examples"

FIRST = b"AWR041999999000400000/151/"
SECOND = b"AWR049199999100400009/300/2301/"
BOTH = b"AWR041199999100400009/300/2301/"
FIVE = b"1060902005120021/"  # section 5 as after reset
SEVEN = b"104020021/"  # section 7 as after reset

_BOXES = b"16" + 16 * b"90N90S180W180E"
_NAMES = b"20" + 10 * b"ABCDEFGH"
LONGEST = b"AWR041111111223456789/" + 2 * _BOXES + b"/" + 4 * _NAMES + b"1/601/" + FIVE + b"1/" + SEVEN + b"0/2301/"

_SOLIDI = 46 * b"/" + b"\r\n"
PRINTED = b"ABCDEFGH\r\nAMDAR3XY0001\r\nA  K  K    K  K K K K" + 29 * b"/" + b"\r\n" + 3 * _SOLIDI
FULL = (
    b"YMMLYPAD\r\nAMDAR3AU0137\r\n"
    b"RINZPF: YZ9FLAED5RT U L///9R//////////////////////\r\n"
    b"D .IM UKM335UQEL4 M///9A K K  K HKKLT0.. K.../\r\n"
    b"W0000  KNU000 K K..  K0U.......  K K L K K  K5\r\n"
    b"E K K  K  K K K K K  K5R K K  K  K////// K///9\r\n"
)


def head(*sections: int) -> bytes:
    """The first 22 bytes of a command that names these sections and sets no flag."""
    return b"AWR0499999990" + b"".join(b"%d" % (k if k in sections else 0) for k in range(2, 10)) + b"/"


class Case(unittest.TestCase):
    """A test case that holds refusals: the class, the code, the place, for a join the text, and the words."""

    def refused(
        self, code: int, place: int, call: Callable[[], object], text: int = 0, kind: Optional[type] = None
    ) -> eskelvor.Refusal:
        with self.assertRaises(eskelvor.Refusal) as caught:
            call()
        refusal = caught.exception
        self.assertEqual((refusal.code, refusal.place, refusal.text), (code, place, text))
        self.assertIsNot(type(refusal), eskelvor.Refusal)
        self.assertIs(type(refusal), kind or type(refusal))
        self.assertEqual(type(refusal).code, code)
        self.assertEqual(refusal.words, eskelvor.words_of(code))
        return refusal
