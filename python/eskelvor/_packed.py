"""Packed figures: whole numbers in base 40, in fields of 1 to 5 bytes."""

from typing import Optional

from ._library import Figure, Text, as_bytes, i32, lib, room
from ._refusals import refuse


def read_packed(field: Text) -> Optional[int]:
    """The figure of a field; None where it is missing, which is not 0.

    >>> read_packed("INZ"), read_packed("  K"), read_packed("//")
    (-2245, 0, None)

    A byte that is not allowed is refused at its own offset: the first up to and with which no field could begin.

    >>> try:
    ...     read_packed("K  /")
    ... except eskelvor.ByteNotAllowed as refusal:
    ...     refusal.place
    1
    """
    data = as_bytes(field)
    got = lib.esk_packed_read(data, len(data))
    refuse(got.code, got.place)
    return got.number if got.given else None


def write_packed(number: Optional[int], width: int) -> bytes:
    """A figure as a field of ``width`` bytes, 1 to 5; None as solidi.

    >>> write_packed(420, 3), write_packed(None, 2)
    (b' UK', b'//')
    """
    out = room(5)
    figure = Figure(0, 0) if number is None else Figure(i32(number), 1)
    answer = lib.esk_packed_write(figure, width if 0 <= width <= 5 else 6, out, len(out))
    refuse(answer.code, answer.place)
    return out.raw[: answer.length]
