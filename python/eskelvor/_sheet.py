"""The status sheet AMDARSTATUS3: 24 lines, 913 bytes."""

from dataclasses import dataclass, field
from typing import Dict, List, Tuple

from ._library import SHEET_BYTES, SHEET_NUMBERS, RawSheet, Text, as_bytes, i16, lib, name_bytes, room, u8
from ._refusals import refuse

#: Latitude and longitude of one corner and of the other, in minutes, north and east positive; 1 active, 0 disabled.
Box = Tuple[int, int, int, int, int]
#: An airport of four bytes; 1 active, 0 disabled.
Airport = Tuple[str, int]


@dataclass
class Sheet:
    """A status sheet. ``numbers`` has the members of lines 2 to 4 by their names in eskelvor.h."""

    designator: str
    numbers: Dict[str, int]
    boxes: List[Box] = field(default_factory=lambda: [(0, 0, 0, 0, 0)] * 10)
    airports: List[Airport] = field(default_factory=lambda: [("0000", 0)] * 50)

    def text(self) -> bytes:
        """The sheet's 913 bytes; a member that no sheet allows is refused."""
        raw = RawSheet()
        for name in SHEET_NUMBERS:
            setattr(raw, name, i16(self.numbers[name]))
        for to, box in zip(raw.boxes, self.boxes):
            to.latitude1, to.longitude1, to.latitude2, to.longitude2, to.status = (i16(number) for number in box)
        raw.designator[:] = name_bytes(self.designator, 6)
        for to, (icao, status) in zip(raw.airports, self.airports):
            to.icao[:] = name_bytes(icao, 4)
            to.status = u8(status)
        out = room(SHEET_BYTES)
        answer = lib.esk_sheet_write(raw, out, SHEET_BYTES)
        refuse(answer.code, answer.place)
        return out.raw


def check_sheet(text: Text) -> None:
    """Refuses a text that is no status sheet."""
    given = as_bytes(text)
    answer = lib.esk_sheet_check(given, len(given))
    refuse(answer.code, answer.place)


def read_sheet(text: Text) -> Sheet:
    """The sheet that a text holds."""
    given = as_bytes(text)
    got = lib.esk_sheet_read(given, len(given))
    refuse(got.answer.code, got.answer.place)
    raw = got.sheet
    return Sheet(
        bytes(raw.designator).decode("ascii"),
        {name: getattr(raw, name) for name in SHEET_NUMBERS},
        [(box.latitude1, box.longitude1, box.latitude2, box.longitude2, box.status) for box in raw.boxes],
        [(bytes(airport.icao).decode("ascii"), airport.status) for airport in raw.airports],
    )
