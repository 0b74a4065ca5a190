"""Eskelvor for Python: the proved calls of a weather desk, over ``libeskelvor.so.4``.

    >>> import eskelvor
    >>> eskelvor.join("AWR041999999000400000/151/", "AWR049199999100400009/300/2301/")
    b'AWR041199999100400009/300/2301/'

Reports: ``reports``, ``read_report``, ``write_report``, ``check_report``, ``track``. Commands: ``read_command``, ``write_command``,
``check_command``, ``command_fields``, ``section``, ``join``, ``commute``. An aircraft's configuration: ``Configuration``, with
``apply``, ``difference``, ``decide`` and ``explain``. What waits for aircraft out of coverage: ``Board``, and ``ListedBoard``, which keeps a list of them. What was taken for them: ``Journal``. One
figure: ``read_packed``, ``write_packed``. A gust out of an acceleration: ``gust``. A status sheet:
``read_sheet``, ``check_sheet``, ``Sheet.text``.

Every verdict is one call's of the library. A refusal is raised as a ``Refusal``, with code, place and words; nothing that
was lent has then changed. The library is the file that ``ESKELVOR_LIBRARY`` names, else the one beside this module, else the
one that the system's loader finds; ``LibraryError`` says where it cannot be used.
"""

from ._library import BOARD_SLOTS, COMMAND_BYTES, JOURNAL_BYTES, REPORT_BYTES, LibraryError, library_version
from ._board import Board, Grant, ListedBoard, Waiting
from ._commands import (
    NO_CHANGE,
    Airports,
    AscentScheme,
    Box,
    Command,
    DescentScheme,
    Field,
    Flags,
    Hours,
    LevelFlight,
    Order,
    Regions,
    check_command,
    command_fields,
    commute,
    join,
    read_command,
    section,
    write_command,
)
from ._configuration import Configuration, Decision, Difference, Explanation, Phase, Reason, Settings, minutes
from ._gust import GUST_TYPES, gust
from ._sheet import Sheet, check_sheet, read_sheet
from ._journal import Entry, Journal
from ._packed import read_packed, write_packed
from ._refusals import (
    BoardNotValid,
    ByteNotAllowed,
    ConfigurationNotValid,
    FieldsDisagree,
    JournalBroken,
    NoFreeSlot,
    NoRoom,
    NotGranted,
    NothingWaits,
    OutOfRange,
    Refusal,
    WrongEnd,
    WrongFixedByte,
    WrongLength,
    WrongSpelling,
    words_of,
)
from ._reports import KINDS, Fix, Observation, Report, check_report, read_report, reports, track, write_report

__all__ = [
    "Airports",
    "AscentScheme",
    "BOARD_SLOTS",
    "Board",
    "BoardNotValid",
    "Box",
    "ByteNotAllowed",
    "COMMAND_BYTES",
    "Command",
    "Configuration",
    "ConfigurationNotValid",
    "Decision",
    "DescentScheme",
    "Difference",
    "Entry",
    "Explanation",
    "Field",
    "FieldsDisagree",
    "Fix",
    "Flags",
    "GUST_TYPES",
    "Grant",
    "Hours",
    "JOURNAL_BYTES",
    "Journal",
    "JournalBroken",
    "KINDS",
    "LevelFlight",
    "LibraryError",
    "ListedBoard",
    "NO_CHANGE",
    "NoFreeSlot",
    "NoRoom",
    "NotGranted",
    "NothingWaits",
    "Observation",
    "Order",
    "OutOfRange",
    "Phase",
    "REPORT_BYTES",
    "Reason",
    "Refusal",
    "Regions",
    "Report",
    "Settings",
    "Sheet",
    "Waiting",
    "WrongEnd",
    "WrongFixedByte",
    "WrongLength",
    "WrongSpelling",
    "check_command",
    "check_report",
    "check_sheet",
    "command_fields",
    "commute",
    "gust",
    "join",
    "library_version",
    "minutes",
    "read_command",
    "read_packed",
    "read_report",
    "read_sheet",
    "reports",
    "section",
    "track",
    "words_of",
    "write_command",
    "write_packed",
    "write_report",
]
