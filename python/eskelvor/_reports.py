"""Observation reports, 220 bytes each: one, or all that stand in a file, read into records and written back."""

import re
from dataclasses import dataclass, field, replace
from datetime import timedelta
from os import PathLike
from typing import BinaryIO, Callable, Iterator, NamedTuple, Optional, Tuple, Union

from ._library import REPORT_BYTES, Figure, Point, RawObservation, RawReport, Text, as_bytes, i32, lib, name_bytes, room
from ._refusals import Refusal, refuse

#: What an observation's kind stands for.
KINDS = {
    "A": "ascent",
    "D": "descent",
    "R": "level flight",
    "W": "highest wind",
    "U": "unstable",
    "E": "error in the observation before",
}

_FIGURES = (
    "latitude",
    "longitude",
    "time",
    "altitude",
    "temperature",
    "wind_direction",
    "wind_speed",
    "gust",
    "vapour",
)
_DAY = 86400


class Fix(NamedTuple):
    """Where and when an observation was made: minutes north, minutes east, seconds into the month; None is not known."""

    latitude: Optional[int] = None
    longitude: Optional[int] = None
    time: Optional[int] = None


@dataclass(frozen=True)
class Observation:
    """One observation. The members are the report's own figures, None where one is missing; the properties beside them
    have them in their units.

    In the first observation of a report ``latitude``, ``longitude`` and ``time`` are absolute, in a later one they are
    changes since the one before. ``fix`` is what they add up to, as ``track`` has it; in a record that would be refused
    nothing is known.
    """

    kind: str
    latitude: Optional[int] = None  #: minutes, north positive
    longitude: Optional[int] = None  #: minutes, east positive
    time: Optional[int] = None  #: seconds, into the month or since the one before
    altitude: Optional[int] = None  #: tens of feet
    temperature: Optional[int] = None  #: tenths of a degree Celsius
    wind_direction: Optional[int] = None  #: degrees that it blows from
    wind_speed: Optional[int] = None  #: knots
    gust: Optional[int] = None  #: tenths of a metre a second
    vapour: Optional[int] = None  #: thousandths of a gram a kilogram
    quality: str = "/"  #: of the vapour, 0 to 9, or / for none
    fix: Fix = field(default=Fix(), compare=False)  #: set by the report that it stands in

    @property
    def kind_in_words(self) -> str:
        """``ascent``, ``level flight`` .."""
        return KINDS.get(self.kind, "unknown")

    @property
    def latitude_degrees(self) -> Optional[float]:
        """Where it was made, degrees north; south is negative."""
        return _scaled(self.fix.latitude, 60)

    @property
    def longitude_degrees(self) -> Optional[float]:
        """Where it was made, degrees east; west is negative."""
        return _scaled(self.fix.longitude, 60)

    @property
    def since_month_began(self) -> Optional[timedelta]:
        """When it was made. At the month's end it may run past the last day."""
        return None if self.fix.time is None else timedelta(seconds=self.fix.time)

    @property
    def day(self) -> Optional[int]:
        """The day of the month on which it was made, from 1."""
        return None if self.fix.time is None else self.fix.time // _DAY + 1

    @property
    def altitude_feet(self) -> Optional[int]:
        """Feet."""
        return None if self.altitude is None else self.altitude * 10

    @property
    def temperature_celsius(self) -> Optional[float]:
        """Degrees Celsius."""
        return _scaled(self.temperature, 10)

    @property
    def wind_direction_degrees(self) -> Optional[int]:
        """Degrees that the wind blows from, 0 to 360."""
        return self.wind_direction

    @property
    def wind_speed_knots(self) -> Optional[int]:
        """Knots."""
        return self.wind_speed

    @property
    def gust_metres_per_second(self) -> Optional[float]:
        """Metres a second."""
        return _scaled(self.gust, 10)

    @property
    def vapour_grams_per_kilogram(self) -> Optional[float]:
        """Grams of water vapour a kilogram of air."""
        return _scaled(self.vapour, 1000)


@dataclass(frozen=True)
class Report:
    """A report: from where to where, which aircraft, and its one to eight observations. Absent ones are not among them."""

    departure: str
    arrival: str
    designator: str
    observations: Tuple[Observation, ...]

    def __post_init__(self) -> None:
        _fixed(self, _fixes_of(self))


def _scaled(number: Optional[int], per: int) -> Optional[float]:
    return None if number is None else number / per


def _fixed(report: Report, fixes: Tuple[Fix, ...]) -> None:
    both = zip(report.observations, fixes)
    object.__setattr__(report, "observations", tuple(replace(observation, fix=fix) for observation, fix in both))


def _fixes_of(report: Report) -> Tuple[Fix, ...]:
    """Where and when the observations of a record were made: what its text says. One that is no report says nothing."""
    try:
        return track(write_report(report))
    except (Refusal, ValueError, TypeError):
        return (Fix(),) * len(report.observations)


# ---- one report --------------------------------------------------------------------------------------------------------


def _name(raw: bytes) -> str:
    return bytes(raw).decode("ascii")


def _observation(raw: RawObservation) -> Observation:
    figures = {name: getattr(raw, name) for name in _FIGURES}
    return Observation(
        kind=chr(raw.kind),
        quality=chr(raw.quality),
        **{name: figure.number if figure.given else None for name, figure in figures.items()},
    )


def _fill(raw: RawObservation, observation: Observation) -> None:
    for name in _FIGURES:
        number = getattr(observation, name)
        setattr(raw, name, Figure(0, 0) if number is None else Figure(i32(number), 1))
    raw.kind = name_bytes(observation.kind, 1)[0]
    raw.quality = name_bytes(observation.quality, 1)[0]
    raw.present = 1


def check_report(text: Text) -> None:
    """Raises the refusal of a report's text; a sound one passes."""
    data = as_bytes(text)
    answer = lib.esk_report_check(data, len(data))
    refuse(answer.code, answer.place)


def read_report(text: Text) -> Report:
    """Reads one report of 220 bytes."""
    data = as_bytes(text)
    got = lib.esk_report_read(data, len(data))
    refuse(got.answer.code, got.answer.place)
    raw = got.report
    report = object.__new__(Report)  # its fixes are the text's own: it is not written to find them
    for name in ("departure", "arrival", "designator"):
        object.__setattr__(report, name, _name(getattr(raw, name)))
    present = tuple(_observation(one) for one in (raw.first, *raw.later) if one.present)
    object.__setattr__(report, "observations", present)
    _fixed(report, track(data))
    return report


def track(text: Text) -> Tuple[Fix, ...]:
    """Where and when each observation of a report was made, the changes added up from the first; absent ones have no fix.

    A figure is known, not None, as long as every observation up to there gives it, and a latitude as long as no sum goes
    beyond a pole. A longitude goes on from the other side at 180 degrees; time runs on past the month's end.

    >>> east = Observation("R", longitude=15)
    >>> report = Report("NFFN", "PHNL", "FJ0822", (Observation("R", 0, 10790, 60), east))
    >>> track(write_report(report))
    (Fix(latitude=0, longitude=10790, time=60), Fix(latitude=None, longitude=-10795, time=None))
    """
    data = as_bytes(text)
    got = lib.esk_report_track(data, len(data))
    refuse(got.answer.code, got.answer.place)
    return tuple(_fix(point) for point in got.points[: got.count])


def _fix(point: Point) -> Fix:
    return Fix(*(one.number if one.given else None for one in (point.latitude, point.longitude, point.seconds)))


def write_report(report: Report) -> bytes:
    """The 220 bytes of a report. A record with a figure outside its range, and the like, is refused where it would stand."""
    if not 1 <= len(report.observations) <= 8:
        raise ValueError("a report has 1 to 8 observations, not %d" % len(report.observations))
    raw = RawReport()
    raw.departure[:] = name_bytes(report.departure, 4)
    raw.arrival[:] = name_bytes(report.arrival, 4)
    raw.designator[:] = name_bytes(report.designator, 6)
    for one, observation in zip((raw.first, *raw.later), report.observations):
        _fill(one, observation)
    out = room(REPORT_BYTES)
    answer = lib.esk_report_write(raw, out, len(out))
    refuse(answer.code, answer.place)
    return out.raw[: answer.length]


# ---- all that stand in a file ------------------------------------------------------------------------------------------

_REACH = 2 * REPORT_BYTES  # how far a damaged report may run
_LOST = 20  # pieces in a row after which the bytes seem to be something else
_BEGINNING = re.compile(rb"[A-Z0-9]{8}\r?\nAMDAR3")
_NOT_AN_END = re.compile(rb"[^\r\n]")

#: Reports one behind the other: their bytes, a file that is open for reading bytes, or the name of one.
Source = Union[bytes, bytearray, memoryview, BinaryIO, str, "PathLike[str]"]


def _all_of(source: Source) -> bytes:
    if isinstance(source, (bytes, bytearray, memoryview)):
        return bytes(source)
    if isinstance(source, (str, PathLike)):
        with open(source, "rb") as file:
            return file.read()
    return source.read()


def _damaged_end(data: bytes, at: int, lost: int) -> int:
    """Where a piece ends that is no report: where the next one seems to begin, or after 220 bytes."""
    match = _BEGINNING.search(data, at + 1)
    begins = match.start() if match else len(data)
    if lost >= _LOST or begins - at < _REACH:
        return begins
    return at + REPORT_BYTES


def reports(source: Source, refused: Optional[Callable[[Refusal], None]] = None) -> Iterator[Report]:
    """Reads reports that stand one behind the other; CR and LF bytes between them are passed over.

    A report that is not accepted is told to ``refused``, and the reading goes on where the next one seems to begin; without
    ``refused`` its refusal is raised, and the reading ends there.
    """
    data = _all_of(source)
    at, number, lost = 0, 0, 0
    while True:
        start = _NOT_AN_END.search(data, at)
        if start is None:
            return
        at, number = start.start(), number + 1
        try:
            report = read_report(data[at : at + REPORT_BYTES])
        except Refusal:
            end = _damaged_end(data, at, lost)
            lost = 0 if lost >= _LOST else lost + 1
            refusal = _refusal(data[at:end], number, at)
            if refused is None:
                raise refusal from None
            refused(refusal)
        else:
            end, lost = at + REPORT_BYTES, 0
            yield report
        at = end


def _refusal(piece: bytes, number: int, offset: int) -> Refusal:
    """What is said of a piece that is no report: of one that has another length, its length."""
    try:
        check_report(piece)
    except Refusal as refusal:
        refusal.number, refusal.offset, refusal.piece = number, offset, piece
        return refusal
    raise AssertionError("a piece that was refused is a report")
