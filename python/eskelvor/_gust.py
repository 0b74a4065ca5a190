"""The derived equivalent gust, worked out from an aircraft's acceleration."""

from typing import Tuple, Union

from ._library import i32, lib, u32
from ._refusals import refuse

#: The types of aircraft that have constants, by the numbers of eskelvor.h.
GUST_TYPES: Tuple[str, ...] = (
    "A300B4", "A310", "A318", "A319", "A320-200", "A321", "A330-200", "A330-300", "A340-200", "A340-300", "B727",
    "B737-200", "B737-300", "B737-400", "B737-500", "B737-600", "B737-700", "B737-800", "B747-200", "B747-300",
    "B747-400", "B747SP", "B757-200", "B757-300", "B767-200", "B767-300", "B767-400", "B777-200", "B777-300",
    "BAC111-200", "BAC111-475", "DC10-30", "Electra", "Fokker-100", "KingAir 100", "L1011-500",
)


def gust(aircraft: Union[str, int], height: int, mass: int, acceleration: int, speed: int) -> int:
    """The gust that an aircraft met, in tenths of a metre a second, as ``Observation.gust`` is.

    ``aircraft`` is a type of ``GUST_TYPES`` or its number there; ``height`` is in feet, ``mass`` in kilograms, ``speed`` in
    knots, and ``acceleration`` the greatest distance from 1 g, in thousandths of g. A type that has no constants, an input
    outside its range and a gust below 0 or above 799 are refused with ``OutOfRange``.

    >>> gust("A320-200", 10000, 54321, 1303, 101)
    396
    """
    row = aircraft
    if isinstance(aircraft, str):
        row = GUST_TYPES.index(aircraft) if aircraft in GUST_TYPES else len(GUST_TYPES)
    got = lib.esk_gust(u32(row), i32(height), u32(mass), u32(acceleration), u32(speed))
    refuse(got.code, 0)
    return got.gust
