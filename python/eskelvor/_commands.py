"""Uplink commands, 22 to 845 bytes: checked, read, written, told field by field, taken apart, joined, held against each other."""

from dataclasses import dataclass
from typing import Iterator, List, NamedTuple, Optional, Sequence, Tuple

from ._library import (
    Edge,
    Enroute,
    RawAirfields,
    RawAirports,
    RawAscent,
    RawBoxes,
    RawCommand,
    RawDescent,
    RawHours,
    RawSettings,
    Text,
    as_bytes,
    lib,
    name_bytes,
    room,
    u8,
    u16,
    u32,
)
from ._refusals import refuse

NO_CHANGE = b"AWR049999999000000000/"
_KEEP = 9  # a flag that a command leaves as it is


class Flags(NamedTuple):
    """The seven flags. In a command None is no change; in a configuration each is True or False."""

    amdar: Optional[bool] = None
    inhibit_hours: Optional[bool] = None
    regions: Optional[bool] = None
    airports: Optional[bool] = None
    ascent: Optional[bool] = None
    enroute: Optional[bool] = None
    descent: Optional[bool] = None


class Box(NamedTuple):
    """A box, in whole degrees: north and east are positive. North is not below south. It runs eastward from west to east, over
    180 degrees where west is above east: 170 to -170 is 20 degrees wide. 180 and -180 are two spellings of one meridian."""

    north: int
    south: int
    west: int
    east: int


@dataclass(frozen=True)
class Regions:
    """Section 2: boxes in which to report, at most 16 (none: everywhere), and boxes in which not to, at most 16."""

    reporting: Tuple[Box, ...] = ()
    inhibiting: Tuple[Box, ...] = ()


@dataclass(frozen=True)
class Airports:
    """Section 3: airfields with and without a scheme, at most 20 in each list; whether to report routinely instead."""

    ascent_selected: Tuple[str, ...] = ()
    descent_selected: Tuple[str, ...] = ()
    ascent_inhibited: Tuple[str, ...] = ()
    descent_inhibited: Tuple[str, ...] = ()
    routine: bool = False


@dataclass(frozen=True)
class LevelFlight:
    """Section 4: minutes between reports, 1 to 60, and whether the maximum wind is reported."""

    interval: int
    maximum_wind: bool


@dataclass(frozen=True)
class AscentScheme:
    """Section 5. The figures are the command's own; the properties have them in feet and seconds."""

    mode: int  #: 0 by pressure level, 1 by time
    interval1: int  #: of series 1, seconds, 3 to 20
    duration: int  #: of series 1, seconds, 30 to 600
    interval2: int  #: of series 2, seconds, 3 to 60
    total: int  #: tens of seconds, 51 to 111
    top: int  #: hundreds of feet, 150 to 350
    list: int  #: of pressure levels, 1 or 2
    timer: int  #: for level stretches, 0 or 1

    @property
    def total_seconds(self) -> int:
        """Both series together."""
        return self.total * 10

    @property
    def top_feet(self) -> int:
        """Where the ascent ends."""
        return self.top * 100


@dataclass(frozen=True)
class DescentScheme:
    """Section 7. The figures are the command's own; the property has the top in feet."""

    mode: int  #: 0 by pressure level, 1 by time
    interval: int  #: seconds, 10 to 300, in both modes
    top: int  #: hundreds of feet, 150 to 350
    list: int  #: of pressure levels, 1 or 2
    timer: int  #: for level stretches, 0 or 1

    @property
    def top_feet(self) -> int:
        """Where the descent begins."""
        return self.top * 100


@dataclass(frozen=True)
class Hours:
    """Section 9: silent from the start hour up to the end hour, 0 to 23 each, over midnight; equal hours are none."""

    start: int
    end: int


@dataclass(frozen=True)
class Command:
    """What a command says. A section that it does not name is None, and a flag that it leaves as it is too."""

    flags: Flags = Flags()
    downlink: int = 0  #: what is to be sent down: 0 nothing, 1 the flags, 2 the whole configuration
    regions: Optional[Regions] = None  #: section 2
    airports: Optional[Airports] = None  #: section 3
    level_flight: Optional[LevelFlight] = None  #: section 4
    ascent_scheme: Optional[AscentScheme] = None  #: section 5
    ascent_routine: Optional[bool] = None  #: section 6
    descent_scheme: Optional[DescentScheme] = None  #: section 7
    descent_routine: Optional[bool] = None  #: section 8
    hours: Optional[Hours] = None  #: section 9


# ---- records of the library, and back ----------------------------------------------------------------------------------


def _signed(edge: Edge, below: str) -> int:
    return -edge.degrees if chr(edge.letter) == below else edge.degrees


def _edge(degrees: int, letters: str) -> Edge:
    return Edge(u8(abs(degrees)), ord(letters[degrees < 0]))


def _boxes(raw: RawBoxes) -> Tuple[Box, ...]:
    return tuple(
        Box(_signed(one.north, "S"), _signed(one.south, "S"), _signed(one.west, "W"), _signed(one.east, "W"))
        for one in raw.regions[: raw.count]
    )


def _fill_boxes(raw: RawBoxes, boxes: Sequence[Box]) -> None:
    raw.count = u8(len(boxes))
    for one, box in zip(raw.regions, boxes):
        one.north, one.south = _edge(box.north, "NS"), _edge(box.south, "NS")
        one.west, one.east = _edge(box.west, "EW"), _edge(box.east, "EW")


def _names(raw: RawAirfields) -> Tuple[str, ...]:
    text = bytes(raw.names).decode("ascii")
    return tuple(text[4 * i : 4 * i + 4] for i in range(raw.count))


def _fill_names(raw: RawAirfields, names: Sequence[str]) -> None:
    raw.count = u8(len(names))
    for i, name in enumerate(names[:20]):
        raw.names[4 * i : 4 * i + 4] = name_bytes(name, 4)


def regions_of(raw: RawSettings) -> Regions:
    """Section 2 of a record."""
    return Regions(_boxes(raw.regions.reporting), _boxes(raw.regions.inhibiting))


def airports_of(raw: RawAirports) -> Airports:
    """Section 3 of a record."""
    selected, inhibited = raw.selected, raw.inhibited
    return Airports(
        _names(selected.ascent),
        _names(selected.descent),
        _names(inhibited.ascent),
        _names(inhibited.descent),
        bool(raw.routine),
    )


def level_flight_of(raw: Enroute) -> LevelFlight:
    """Section 4 of a record."""
    return LevelFlight(raw.interval, bool(raw.wind))


def ascent_scheme_of(raw: RawAscent) -> AscentScheme:
    """Section 5 of a record."""
    return AscentScheme(
        raw.mode, raw.interval1, raw.duration, raw.interval2, raw.total, raw.top, raw.list, raw.timer
    )


def descent_scheme_of(raw: RawDescent) -> DescentScheme:
    """Section 7 of a record."""
    return DescentScheme(raw.mode, raw.interval, raw.top, raw.list, raw.timer)


def hours_of(raw: RawHours) -> Hours:
    """Section 9 of a record."""
    return Hours(raw.start, raw.end)


def flags_of(raw: RawSettings) -> Flags:
    """The flags of a record."""
    return Flags(*(None if flag == _KEEP else bool(flag) for flag in raw.flags))


def fill_flags(raw: RawSettings, flags: Flags) -> None:
    """Puts flags into a record."""
    raw.flags[:] = [_KEEP if flag is None else u8(flag) for flag in flags]


def fill_regions(raw: RawSettings, regions: Regions) -> None:
    """Puts section 2 into a record."""
    _fill_boxes(raw.regions.reporting, regions.reporting)
    _fill_boxes(raw.regions.inhibiting, regions.inhibiting)


def fill_airports(raw: RawSettings, airports: Airports) -> None:
    """Puts section 3 into a record."""
    to = raw.airports
    _fill_names(to.selected.ascent, airports.ascent_selected)
    _fill_names(to.selected.descent, airports.descent_selected)
    _fill_names(to.inhibited.ascent, airports.ascent_inhibited)
    _fill_names(to.inhibited.descent, airports.descent_inhibited)
    to.routine = u8(airports.routine)


def fill_numbers(
    raw: RawSettings,
    level_flight: Optional[LevelFlight],
    scheme: Optional[AscentScheme],
    ascent_routine: Optional[bool],
    descent_scheme: Optional[DescentScheme],
    descent_routine: Optional[bool],
    hours: Optional[Hours],
) -> None:
    """Puts sections 4 to 9 into a record; what is None is left."""
    if level_flight is not None:
        raw.enroute = Enroute(u8(level_flight.interval), u8(level_flight.maximum_wind))
    if scheme is not None:
        raw.ascent = RawAscent(
            u8(scheme.mode),
            u8(scheme.interval1),
            u16(scheme.duration),
            u8(scheme.interval2),
            u8(scheme.total),
            u16(scheme.top),
            u8(scheme.list),
            u8(scheme.timer),
        )
    if ascent_routine is not None:
        raw.routine6 = u8(ascent_routine)
    if descent_scheme is not None:
        raw.descent = RawDescent(
            u16(descent_scheme.mode),
            u16(descent_scheme.interval),
            u16(descent_scheme.top),
            u8(descent_scheme.list),
            u8(descent_scheme.timer),
        )
    if descent_routine is not None:
        raw.routine8 = u8(descent_routine)
    if hours is not None:
        raw.hours = RawHours(u8(hours.start), u8(hours.end))


# ---- the calls ---------------------------------------------------------------------------------------------------------


def check_command(text: Text) -> None:
    """Raises the refusal of a command's text; an accepted one passes."""
    data = as_bytes(text)
    answer = lib.esk_command_check(data, len(data))
    refuse(answer.code, answer.place)


def read_command(text: Text) -> Command:
    """Reads a command."""
    data = as_bytes(text)
    got = lib.esk_command_read(data, len(data))
    refuse(got.answer.code, got.answer.place)
    raw, named = got.command.settings, list(got.command.named)
    return Command(
        flags=flags_of(raw),
        downlink=got.command.downlink,
        regions=regions_of(raw) if named[0] else None,
        airports=airports_of(raw.airports) if named[1] else None,
        level_flight=level_flight_of(raw.enroute) if named[2] else None,
        ascent_scheme=ascent_scheme_of(raw.ascent) if named[3] else None,
        ascent_routine=bool(raw.routine6) if named[4] else None,
        descent_scheme=descent_scheme_of(raw.descent) if named[5] else None,
        descent_routine=bool(raw.routine8) if named[6] else None,
        hours=hours_of(raw.hours) if named[7] else None,
    )


def write_command(command: Command) -> bytes:
    """The text of a command. A number outside its range, and the like, is refused where it would stand."""
    raw = RawCommand()
    fill_flags(raw.settings, command.flags)
    raw.downlink = u8(command.downlink)
    sections = (
        command.regions,
        command.airports,
        command.level_flight,
        command.ascent_scheme,
        command.ascent_routine,
        command.descent_scheme,
        command.descent_routine,
        command.hours,
    )
    raw.named[:] = [0 if section is None else 2 + i for i, section in enumerate(sections)]
    if command.regions is not None:
        fill_regions(raw.settings, command.regions)
    if command.airports is not None:
        fill_airports(raw.settings, command.airports)
    fill_numbers(
        raw.settings,
        command.level_flight,
        command.ascent_scheme,
        command.ascent_routine,
        command.descent_scheme,
        command.descent_routine,
        command.hours,
    )
    out = room()
    answer = lib.esk_command_write(raw, out, len(out))
    refuse(answer.code, answer.place)
    return out.raw[: answer.length]


def section(number: int, text: Text) -> bytes:
    """The bytes of one section of a command, 2 to 9, its delimiter included; none where the command doesn't name it.

    It is found from the first 22 bytes and the counts of lists alone: what else is wrong with the command isn't seen.

    >>> section(9, "AWR049199999100400009/300/2301/")
    b'2301/'
    """
    data = as_bytes(text)
    part = lib.esk_section(u32(number), data, len(data))
    refuse(part.code, part.place)
    return data[part.place : part.place + part.length]


def join(first: Text, second: Text) -> bytes:
    """Joins two commands into one that acts as the first and then the second.

    A refusal says in ``text`` which of the two it speaks of.

    >>> join("AWR041999999000400000/151/", "AWR049199999100400009/300/2301/")
    b'AWR041199999100400009/300/2301/'
    """
    one, other, out = as_bytes(first), as_bytes(second), room()
    answer = lib.esk_join(one, len(one), other, len(other), out, len(out))
    refuse(answer.code, answer.place, answer.text)
    return out.raw[: answer.length]


class Order(NamedTuple):
    """Whether two commands may be sent either way round, and the flags and sections that both set, and differently."""

    either_way: bool
    flags: Tuple[str, ...] = ()
    sections: Tuple[int, ...] = ()


def commute(first: Text, second: Text) -> Order:
    """Says whether two commands may be sent either way round: both orders give the same configuration, from every valid one.

    A refusal says in ``text`` which of the two it speaks of.

    >>> commute("AWR041999999000400000/151/", "AWR049199999100400009/300/2301/")
    Order(either_way=False, flags=(), sections=(4,))
    """
    one, other = as_bytes(first), as_bytes(second)
    answer = lib.esk_commute(one, len(one), other, len(other))
    refuse(answer.code, answer.place, answer.text)
    return Order(
        bool(answer.yes),
        tuple(name for i, name in enumerate(Flags._fields) if answer.flags >> i & 1),
        tuple(k for k in range(2, 10) if answer.sections >> (k - 2) & 1),
    )


# ---- a command field by field ------------------------------------------------------------------------------------------


class Field(NamedTuple):
    """One field of an accepted command: where it stands, its bytes, what it is and what it says."""

    place: int
    text: str
    name: str
    meaning: str


_FLAGS = ("AMDAR", "inhibit hours", "regions", "airports", "ascent", "enroute", "descent")
_FLAG_SAYS = {"0": "off", "1": "on", "9": "no change"}
_DOWNLINK_SAYS = {
    "0": "nothing is sent down",
    "1": "the flags are sent down",
    "2": "the whole configuration is sent down",
}
_YES = {"0": "no", "1": "yes"}
_COMPASS = {"N": "north", "S": "south", "E": "east", "W": "west"}
_LISTS = {
    2: ("reporting boxes", "inhibiting boxes"),
    3: ("ascent selected", "descent selected", "ascent inhibited", "descent inhibited"),
}
_EDGES = ((3, "north edge"), (3, "south edge"), (4, "west edge"), (4, "east edge"))

_MODE = {"0": "by pressure level", "1": "by time"}

# Width, name, and how the number is said: a format, or words for each. First what the two schemes end with.
_LEVELS = (
    (3, "top", "{}00 feet"),
    (1, "list", "list {} of pressure levels"),
    (1, "timer", {"0": "off", "1": "on"}),
)
_NUMBERS = {
    3: ((1, "routine", _YES),),
    4: ((2, "interval", "{} minutes"), (1, "maximum wind", _YES)),
    5: (
        (1, "mode", _MODE),
        (2, "series 1 interval", "{} seconds"),
        (3, "series 1 duration", "{} seconds"),
        (2, "series 2 interval", "{} seconds"),
        (3, "total duration", "{}0 seconds"),
        *_LEVELS,
    ),
    6: ((1, "routine", _YES),),
    7: ((1, "mode", _MODE), (3, "interval", "{} seconds"), *_LEVELS),
    8: ((1, "routine", _YES),),
    9: ((2, "start hour", "from {:02d}:00"), (2, "end hour", "up to {:02d}:00")),
}


class _Walk:
    """Goes through an accepted text from left to right."""

    def __init__(self, text: str) -> None:
        self.text = text
        self.at = 0
        self.fields: List[Field] = []

    def take(self, width: int, name: str, says: object) -> str:
        part = self.text[self.at : self.at + width]
        meaning = says[part] if isinstance(says, dict) else str(says).format(int(part) if part.isdigit() else part)
        self.fields.append(Field(self.at, part, name, meaning))
        self.at += width
        return part

    def delimiter(self, name: str) -> None:
        self.take(1, name, "ends it")

    def head(self) -> Iterator[int]:
        self.take(5, "AWR04", "a command of version 4")
        for name in _FLAGS:
            self.take(1, "flag " + name, _FLAG_SAYS)
        self.take(1, "downlink", _DOWNLINK_SAYS)
        named = [
            self.take(1, "indicator E%d" % k, {"0": "section %d is not named" % k, str(k): "section %d follows" % k})
            for k in range(2, 10)
        ]
        self.delimiter("delimiter")
        return (k for k, digit in enumerate(named, 2) if digit != "0")

    def box(self, name: str) -> None:
        for width, edge in _EDGES:
            part = self.text[self.at : self.at + width]
            degrees, letter = int(part[:-1]), _COMPASS[part[-1]]
            self.take(width, "%s, %s" % (name, edge), "%d degrees %s" % (degrees, letter))

    def section(self, k: int) -> None:
        begin = "section %d, " % k
        for name in _LISTS.get(k, ()):
            count = int(self.take(2, begin + name, "{} of them"))
            for i in range(1, count + 1):
                if k == 2:
                    self.box("%s%s, box %d" % (begin, name, i))
                else:
                    self.take(4, "%s%s, airfield %d" % (begin, name, i), "airfield " + self.text[self.at : self.at + 4])
        for width, name, says in _NUMBERS.get(k, ()):
            self.take(width, begin + name, says)
        self.delimiter(begin + "delimiter")


def command_fields(text: Text) -> Tuple[Field, ...]:
    """An accepted command, field by field from left to right: the fields' texts are the command's, none left out.

    >>> [field for field in command_fields("AWR049999999000400000/151/") if field.place >= 22][0]
    Field(place=22, text='15', name='section 4, interval', meaning='15 minutes')
    """
    check_command(text)
    walk = _Walk(as_bytes(text).decode("ascii"))
    for k in walk.head():
        walk.section(k)
    return tuple(walk.fields)
