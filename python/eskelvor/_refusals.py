"""Refusals: a code, a place, for a join which text, and the code's words."""

from typing import Dict, Optional, Type

from ._library import lib


class Refusal(ValueError):
    """What a call answers instead of a result. Nothing that was lent has changed.

    ``code`` is the number of ``eskelvor.h``, ``place`` the offset of the byte that it speaks of, ``text`` which of two texts
    a join means (1 or 2, else 0), ``words`` what the code means. A refusal of ``reports()`` also has ``number`` and
    ``offset``, which piece of the bytes it is, from 1, and where that begins, and ``piece``, its bytes; else they are None.
    """

    code: int = 0

    def __init__(self, place: int = 0, text: int = 0, code: Optional[int] = None) -> None:
        super().__init__(place, text, code)
        self.place = place
        self.text = text
        if code is not None:
            self.code = code
        self.number: Optional[int] = None
        self.offset: Optional[int] = None
        self.piece: Optional[bytes] = None

    @property
    def words(self) -> str:
        """What the code means, in the library's words."""
        return words_of(self.code)

    def __str__(self) -> str:
        which = " of text %d" % self.text if self.text else ""
        piece = "report %d from byte %d on: " % (self.number, self.offset) if self.number is not None else ""
        return "%scode %d at byte %d%s: %s" % (piece, self.code, self.place, which, self.words)


class WrongLength(Refusal):
    """1: a report that has not 220 bytes, a command of more than 845, a packed field of none or more than 5."""

    code = 1


class NoRoom(Refusal):
    """2: too little room for the entry in a journal. For a text this module lends enough, so that it does not come up."""

    code = 2


class WrongFixedByte(Refusal):
    """3: AWR04, AMDAR3, a CR LF or a delimiter is another byte."""

    code = 3


class ByteNotAllowed(Refusal):
    """4: a byte that its field does not allow."""

    code = 4


class OutOfRange(Refusal):
    """5: a number outside its range, no section of that number, or more entries to be dropped than a journal has."""

    code = 5


class WrongSpelling(Refusal):
    """6: a number that is not in its one spelling."""

    code = 6


class FieldsDisagree(Refusal):
    """7: fields that disagree, as wind direction without speed, or a box whose north is below its south."""

    code = 7


class WrongEnd(Refusal):
    """8: a command that ends inside a field, or goes on behind its last delimiter."""

    code = 8


class NoFreeSlot(Refusal):
    """9: nothing waits for the aircraft, and no slot is free. The command was not accepted."""

    code = 9


class BoardNotValid(Refusal):
    """10: the board is not valid."""

    code = 10


class NothingWaits(Refusal):
    """11: nothing waits for the aircraft."""

    code = 11


class ConfigurationNotValid(Refusal):
    """12: the configuration is not valid."""

    code = 12


class NotGranted(Refusal):
    """13: the command is outside its office's grant; or the two grants overlap, which is looked for before all else."""

    code = 13


class JournalBroken(Refusal):
    """14: the journal is broken, at the trailer where reading it from its end first fails, or at 0."""

    code = 14


BY_CODE: Dict[int, Type[Refusal]] = {
    kind.code: kind
    for kind in (
        WrongLength,
        NoRoom,
        WrongFixedByte,
        ByteNotAllowed,
        OutOfRange,
        WrongSpelling,
        FieldsDisagree,
        WrongEnd,
        NoFreeSlot,
        BoardNotValid,
        NothingWaits,
        ConfigurationNotValid,
        NotGranted,
        JournalBroken,
    )
}


def words_of(code: int) -> str:
    """What a code means; of one that no call answers, that it is unknown."""
    return lib.esk_words(code if 0 <= code < 2 ** 32 else 2 ** 32 - 1).decode("ascii")


def refuse(code: int, place: int = 0, text: int = 0) -> None:
    """Raises the refusal of a code; nothing where the code is 0."""
    if code == 0:
        return
    kind = BY_CODE.get(code)
    raise Refusal(place, text, code) if kind is None else kind(place, text)
