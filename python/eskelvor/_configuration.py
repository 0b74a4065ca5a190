"""The configuration that an aircraft holds: commands applied to it, whether it reports, and why."""

from dataclasses import dataclass
from enum import IntEnum
from typing import NamedTuple, Optional, Tuple

from . import _commands as commands
from ._library import RawSettings, Text, as_bytes, i32, lib, room, u8
from ._commands import Airports, AscentScheme, DescentScheme, Flags, Hours, LevelFlight, Regions
from ._refusals import refuse


class Phase(IntEnum):
    """The phase of a flight."""

    ASCENT = 0
    LEVEL = 1
    DESCENT = 2


class Decision(IntEnum):
    """Whether an aircraft reports."""

    SILENT = 0
    ROUTINE = 1
    SCHEME = 2


class Reason(IntEnum):
    """Why: the first that holds, in this order."""

    AMDAR_OFF = 1
    HOURS = 2
    INHIBITING_BOX = 3
    NO_REPORTING_BOX = 4
    FLAG_ON = 5
    DIGIT = 6
    FLAG_OFF = 7
    INHIBITED = 8
    NOT_SELECTED = 9

    @property
    def words(self) -> str:
        """What the reason means, in the library's words."""
        return lib.esk_reason_words(int(self)).decode("ascii")


class Explanation(NamedTuple):
    """A decision and its reason. ``number`` is that of the box, the flag (5 ascent, 6 enroute, 7 descent) or the section
    that the reason names, 0 where it names none."""

    decision: Decision
    reason: Reason
    number: int
    words: str


class Difference(NamedTuple):
    """The flags and sections in which two configurations differ, in the order of the command, and the command that makes the
    first into the second. It sets these and nothing else; no command that does the same sets fewer."""

    flags: Tuple[str, ...]
    sections: Tuple[int, ...]
    command: bytes


@dataclass(frozen=True)
class Settings:
    """All that a configuration holds: seven flags, each True or False, and every section."""

    flags: Flags
    regions: Regions
    airports: Airports
    level_flight: LevelFlight
    ascent_scheme: AscentScheme
    ascent_routine: bool
    descent_scheme: DescentScheme
    descent_routine: bool
    hours: Hours


def minutes(degrees: float) -> int:
    """Degrees as whole minutes, to the nearest: what positions are asked in.

    >>> minutes(-37.67)
    -2260
    """
    return round(degrees * 60)


class Configuration:
    """An aircraft's configuration; a new one is that after reset. It is changed by ``apply`` alone."""

    def __init__(self, settings: Optional[Settings] = None) -> None:
        self._raw: RawSettings = lib.esk_reset()
        if settings is not None:
            raw = RawSettings()
            commands.fill_flags(raw, settings.flags)
            commands.fill_regions(raw, settings.regions)
            commands.fill_airports(raw, settings.airports)
            commands.fill_numbers(
                raw,
                settings.level_flight,
                settings.ascent_scheme,
                settings.ascent_routine,
                settings.descent_scheme,
                settings.descent_routine,
                settings.hours,
            )
            answer = lib.esk_settings_valid(raw)
            refuse(answer.code, answer.place)
            self._raw = raw

    @property
    def settings(self) -> Settings:
        """What it holds now."""
        raw = self._raw
        return Settings(
            commands.flags_of(raw),
            commands.regions_of(raw),
            commands.airports_of(raw.airports),
            commands.level_flight_of(raw.enroute),
            commands.ascent_scheme_of(raw.ascent),
            bool(raw.routine6),
            commands.descent_scheme_of(raw.descent),
            bool(raw.routine8),
            commands.hours_of(raw.hours),
        )

    def __eq__(self, other: object) -> bool:
        return bytes(self._raw) == bytes(other._raw) if isinstance(other, Configuration) else NotImplemented

    __hash__ = None  # type: ignore[assignment]

    def __repr__(self) -> str:
        return "Configuration(%r)" % (self.settings,)

    def copy(self) -> "Configuration":
        """Another one that holds the same."""
        other = Configuration()
        other._raw = RawSettings.from_buffer_copy(self._raw)
        return other

    def apply(self, text: Text) -> int:
        """Applies a command, in place, and gives its downlink digit. A refusal leaves the configuration as it was."""
        data = as_bytes(text)
        applied = lib.esk_apply(self._raw, data, len(data))
        refuse(applied.code, applied.place)
        return applied.downlink

    def difference(self, other: "Configuration") -> Difference:
        """What differs in another one, and the command that makes this one into that.

        >>> changed = Configuration()
        >>> changed.apply("AWR049199999100400009/300/2301/")
        1
        >>> Configuration().difference(changed)
        Difference(flags=('inhibit_hours',), sections=(4, 9), command=b'AWR049199999000400009/300/2301/')
        """
        out = room()
        found = lib.esk_difference(self._raw, other._raw, out, len(out))
        refuse(found.answer.code, found.answer.place)
        items = found.items[: found.count]
        return Difference(
            tuple(name for i, name in enumerate(Flags._fields) if i + 1 in items),
            tuple(item - 10 for item in items if item > 10),
            out.raw[: found.answer.length],
        )

    def decide(self, phase: int, latitude: int, longitude: int, hour: int, airfield: Text = "0000") -> Decision:
        """Whether the aircraft reports: in a phase, at a position in minutes, in an hour, at an airfield.

        In level flight no airfield is looked at, but it must be four letters or digits all the same.
        """
        decided = lib.esk_decide(*self._asked(phase, latitude, longitude, hour, airfield))
        refuse(decided.code, decided.place)
        return Decision(decided.decision)

    def explain(self, phase: int, latitude: int, longitude: int, hour: int, airfield: Text = "0000") -> Explanation:
        """Why it reports or stays silent. It is asked as ``decide`` is, and decides and refuses as that does."""
        explained = lib.esk_explain(*self._asked(phase, latitude, longitude, hour, airfield))
        refuse(explained.code, explained.place)
        reason = Reason(explained.reason)
        return Explanation(Decision(explained.decision), reason, explained.number, reason.words)

    def _asked(self, phase: int, latitude: int, longitude: int, hour: int, airfield: Text) -> Tuple[object, ...]:
        name = as_bytes(airfield)
        return self._raw, u8(phase), i32(latitude), i32(longitude), u8(hour), name, len(name)
