"""The shared library: where it is found, its records as ctypes lays them out, its calls.

Nothing here decides anything about a text: it finds ``libeskelvor.so.4``, refuses one that is of another version or lays its
records out in another way, and declares the calls of ``eskelvor.h``.
"""

import ctypes
import operator
import os
from pathlib import Path
from typing import Dict, List, Optional, Tuple, Type, Union

#: The version of eskelvor.h that this module is written for: the first number must be the library's, the second not above.
HEADER_VERSION = (4, 8)
SONAME = "libeskelvor.so.%d" % HEADER_VERSION[0]
ENVIRONMENT = "ESKELVOR_LIBRARY"

REPORT_BYTES = 220
COMMAND_BYTES = 845
BOARD_SLOTS = 64
SHEET_BYTES = 913

#: The numbers of lines 2 to 4 of a status sheet, in their order.
SHEET_NUMBERS = (
    "ascent", "ascent_interval1", "ascent_interval2", "level", "level_interval", "descent", "descent_interval1",
    "descent_interval2", "trigger1", "trigger2", "observations", "smoothing", "profile_constant", "cruise_constant",
    "gust_constant", "instant_constant",
)
JOURNAL_BYTES = 65535
JOURNAL_PRINTED = 76105

#: What a text may be handed over as. A ``str`` is taken as its UTF-8 bytes, so that any at all gets an answer.
Text = Union[bytes, bytearray, memoryview, str]


class LibraryError(ImportError):
    """The shared library was not found, or is not one that this module can use."""


# ---- records -----------------------------------------------------------------------------------------------------------
# Member by member as in the header. Where an answer of 16 bytes has an array of spare bytes, it stands here as numbers of
# the same bytes: such an answer comes back in registers, and an array among its members has kept ctypes from seeing that.

_u8, _u16, _u32, _size = ctypes.c_uint8, ctypes.c_uint16, ctypes.c_uint32, ctypes.c_size_t
_i16, _i32 = ctypes.c_int16, ctypes.c_int32


class Answer(ctypes.Structure):
    _fields_ = [("place", _size), ("length", _u32), ("code", _u8), ("text", _u8), ("spare", _u16)]


class Figure(ctypes.Structure):
    _fields_ = [("number", _i32), ("given", _u32)]


class Packed(ctypes.Structure):
    _fields_ = [("number", _i32), ("place", _u16), ("code", _u8), ("given", _u8)]


class RawObservation(ctypes.Structure):
    _fields_ = [
        ("latitude", Figure),
        ("longitude", Figure),
        ("time", Figure),
        ("altitude", Figure),
        ("temperature", Figure),
        ("wind_direction", Figure),
        ("wind_speed", Figure),
        ("gust", Figure),
        ("vapour", Figure),
        ("kind", _u8),
        ("quality", _u8),
        ("present", _u16),
    ]


class RawReport(ctypes.Structure):
    _fields_ = [
        ("departure", _u8 * 4),
        ("arrival", _u8 * 4),
        ("designator", _u8 * 6),
        ("spare", _u8 * 2),
        ("first", RawObservation),
        ("later", RawObservation * 7),
    ]


class ReportGot(ctypes.Structure):
    _fields_ = [("answer", Answer), ("report", RawReport)]


class Point(ctypes.Structure):
    _fields_ = [("latitude", Figure), ("longitude", Figure), ("seconds", Figure)]


class Track(ctypes.Structure):
    _fields_ = [("answer", Answer), ("count", _u32), ("spare", _u32), ("points", Point * 8)]


class Edge(ctypes.Structure):
    _fields_ = [("degrees", _u8), ("letter", _u8)]


class Region(ctypes.Structure):
    _fields_ = [("north", Edge), ("south", Edge), ("west", Edge), ("east", Edge)]


class RawBoxes(ctypes.Structure):
    _fields_ = [("count", _u8), ("regions", Region * 16)]


class RawAirfields(ctypes.Structure):
    _fields_ = [("count", _u8), ("names", _u8 * 80)]


class RawRegions(ctypes.Structure):
    _fields_ = [("reporting", RawBoxes), ("inhibiting", RawBoxes)]


class ByPhase(ctypes.Structure):
    _fields_ = [("ascent", RawAirfields), ("descent", RawAirfields)]


class RawAirports(ctypes.Structure):
    _fields_ = [("selected", ByPhase), ("inhibited", ByPhase), ("routine", _u8)]


class Enroute(ctypes.Structure):
    _fields_ = [("interval", _u8), ("wind", _u8)]


class RawAscent(ctypes.Structure):
    _fields_ = [
        ("mode", _u8),
        ("interval1", _u8),
        ("duration", _u16),
        ("interval2", _u8),
        ("total", _u8),
        ("top", _u16),
        ("list", _u8),
        ("timer", _u8),
    ]


class RawDescent(ctypes.Structure):
    _fields_ = [("mode", _u16), ("interval", _u16), ("top", _u16), ("list", _u8), ("timer", _u8)]


class RawHours(ctypes.Structure):
    _fields_ = [("start", _u8), ("end", _u8)]


class RawSettings(ctypes.Structure):
    _fields_ = [
        ("flags", _u8 * 7),
        ("regions", RawRegions),
        ("airports", RawAirports),
        ("enroute", Enroute),
        ("ascent", RawAscent),
        ("descent", RawDescent),
        ("routine6", _u8),
        ("routine8", _u8),
        ("hours", RawHours),
    ]


class RawCommand(ctypes.Structure):
    _fields_ = [("settings", RawSettings), ("downlink", _u8), ("named", _u8 * 8), ("spare", _u8)]


class CommandGot(ctypes.Structure):
    _fields_ = [("answer", Answer), ("command", RawCommand)]


class Applied(ctypes.Structure):
    _fields_ = [("place", _size), ("code", _u8), ("downlink", _u8), ("spare", _u16), ("spare_on", _u32)]


class Differing(ctypes.Structure):
    _fields_ = [("answer", Answer), ("count", _u8), ("items", _u8 * 15)]


class Decided(ctypes.Structure):
    _fields_ = [("place", _size), ("code", _u8), ("decision", _u8), ("spare", _u16), ("spare_on", _u32)]


class Explained(ctypes.Structure):
    _fields_ = [
        ("place", _size),
        ("code", _u8),
        ("decision", _u8),
        ("reason", _u8),
        ("number", _u8),
        ("spare", _u32),
    ]


class CommuteAnswer(ctypes.Structure):
    _fields_ = [
        ("place", _size),
        ("code", _u8),
        ("text", _u8),
        ("yes", _u8),
        ("flags", _u8),
        ("sections", _u8),
        ("spare", _u8),
        ("spare_on", _u16),
    ]


class Slot(ctypes.Structure):
    _fields_ = [("designator", _u8 * 6), ("length", _u16)]


class RawGrant(ctypes.Structure):
    _fields_ = [("flags", _u8 * 7), ("downlinks", _u8), ("sections", _u8 * 8)]


class Tail(ctypes.Structure):
    _fields_ = [("place", _size), ("code", _u8), ("slot", _u8), ("at", _u8), ("spare", _u8), ("rest", _u32)]


class RawEntry(ctypes.Structure):
    _fields_ = [
        ("place", _size),
        ("offset", _size),
        ("text", _size),
        ("length", _u32),
        ("code", _u8),
        ("given", _u8),
        ("spare", _u16),
    ]


class Part(ctypes.Structure):
    _fields_ = [("place", _size), ("length", _u32), ("code", _u8), ("spare", _u8 * 3)]


class GustAnswer(ctypes.Structure):
    _fields_ = [("gust", _i32), ("code", _u8), ("spare", _u8), ("spare_on", _u16)]


#: Every record of the header by its name there.
class SheetBox(ctypes.Structure):
    _fields_ = [(name, _i16) for name in ("latitude1", "longitude1", "latitude2", "longitude2", "status")]


class SheetAirport(ctypes.Structure):
    _fields_ = [("icao", _u8 * 4), ("status", _u8)]


class RawSheet(ctypes.Structure):
    _fields_ = [
        *((name, _i16) for name in SHEET_NUMBERS),
        ("boxes", SheetBox * 10),
        ("designator", _u8 * 6),
        ("airports", SheetAirport * 50),
    ]


class SheetGot(ctypes.Structure):
    _fields_ = [("answer", Answer), ("sheet", RawSheet), ("spare", _u32)]


RECORDS: Dict[str, Type[ctypes.Structure]] = {
    "esk_answer": Answer,
    "esk_figure": Figure,
    "esk_packed": Packed,
    "esk_observation": RawObservation,
    "esk_report": RawReport,
    "esk_report_got": ReportGot,
    "esk_point": Point,
    "esk_track": Track,
    "esk_edge": Edge,
    "esk_region": Region,
    "esk_boxes": RawBoxes,
    "esk_airfields": RawAirfields,
    "esk_regions": RawRegions,
    "esk_by_phase": ByPhase,
    "esk_airports": RawAirports,
    "esk_enroute": Enroute,
    "esk_ascent": RawAscent,
    "esk_descent": RawDescent,
    "esk_hours": RawHours,
    "esk_settings": RawSettings,
    "esk_command": RawCommand,
    "esk_command_got": CommandGot,
    "esk_applied": Applied,
    "esk_differing": Differing,
    "esk_decided": Decided,
    "esk_explained": Explained,
    "esk_commute_answer": CommuteAnswer,
    "esk_slot": Slot,
    "esk_grant": RawGrant,
    "esk_tail": Tail,
    "esk_entry": RawEntry,
    "esk_part": Part,
    "esk_gust_answer": GustAnswer,
    "esk_sheet_box": SheetBox,
    "esk_sheet_airport": SheetAirport,
    "esk_sheet": RawSheet,
    "esk_sheet_got": SheetGot,
}

# ---- calls -------------------------------------------------------------------------------------------------------------

_bytes = ctypes.c_char_p  # lent for reading
_room = ctypes.c_void_p  # lent for writing
_settings = ctypes.POINTER(RawSettings)
_slots = ctypes.c_void_p
_journal = [ctypes.c_void_p, _size, _size]  # its memory, the bytes of that, and how many the journal is
_asked = [_settings, _u8, _i32, _i32, _u8, _bytes, _size]

#: Every call of the header: what it answers, and what it is lent.
CALLS: Dict[str, Tuple[object, List[object]]] = {
    "esk_packed_read": (Packed, [_bytes, _size]),
    "esk_packed_write": (Answer, [Figure, _size, _room, _size]),
    "esk_report_check": (Answer, [_bytes, _size]),
    "esk_report_read": (ReportGot, [_bytes, _size]),
    "esk_report_track": (Track, [_bytes, _size]),
    "esk_report_write": (Answer, [RawReport, _room, _size]),
    "esk_command_check": (Answer, [_bytes, _size]),
    "esk_command_read": (CommandGot, [_bytes, _size]),
    "esk_command_write": (Answer, [ctypes.POINTER(RawCommand), _room, _size]),
    "esk_section": (Part, [_u32, _bytes, _size]),
    "esk_reset": (RawSettings, []),
    "esk_settings_valid": (Answer, [_settings]),
    "esk_apply": (Applied, [_settings, _bytes, _size]),
    "esk_difference": (Differing, [_settings, _settings, _room, _size]),
    "esk_decide": (Decided, _asked),
    "esk_explain": (Explained, _asked),
    "esk_join": (Answer, [_bytes, _size, _bytes, _size, _room, _size]),
    "esk_commute": (CommuteAnswer, [_bytes, _size, _bytes, _size]),
    "esk_board_check": (Answer, [_slots, _size, _room, _size]),
    "esk_board_add": (Answer, [_slots, _size, _room, _size, _bytes, _size, _bytes, _size]),
    "esk_board_take": (Answer, [_slots, _size, _room, _size, _bytes, _size, _room, _size]),
    "esk_office_add": (
        Answer, [_slots, _size, _room, _size, _bytes, _size, _bytes, _size, RawGrant, RawGrant]),
    "esk_tails_make": (Answer, [_slots, _size, _room, _size]),
    "esk_tails_find": (Tail, [_slots, _size, _bytes, _size, _bytes, _size]),
    "esk_tails_add": (Answer, [_slots, _size, _room, _size, _room, _size, _bytes, _size, _bytes, _size]),
    "esk_tails_take": (Answer, [_slots, _size, _room, _size, _room, _size, _bytes, _size, _room, _size]),
    "esk_journal_check": (Answer, _journal),
    "esk_journal_last": (RawEntry, _journal),
    "esk_journal_add": (Answer, [*_journal, _bytes, _size, _bytes, _size]),
    "esk_journal_drop": (Answer, [*_journal, _size]),
    "esk_journal_print": (Answer, [*_journal, _room, _size]),
    "esk_journal_replay": (Answer, [_settings, *_journal, _bytes, _size]),
    "esk_gust": (GustAnswer, [_u32, _i32, _u32, _u32, _u32]),
    "esk_sheet_check": (Answer, [_bytes, _size]),
    "esk_sheet_read": (SheetGot, [_bytes, _size]),
    "esk_sheet_write": (Answer, [RawSheet, _room, _size]),
    "esk_words": (ctypes.c_char_p, [ctypes.c_uint]),
    "esk_reason_words": (ctypes.c_char_p, [ctypes.c_uint]),
    "esk_version": (ctypes.c_char_p, []),
    "esk_size_of": (_size, [_bytes]),
}


# ---- finding it --------------------------------------------------------------------------------------------------------


def _where() -> str:
    """What the loader is asked for: the file that the environment names, the one beside this module, or the soname."""
    named = os.environ.get(ENVIRONMENT)
    if named:
        return os.path.abspath(named)
    beside = Path(__file__).resolve().parent / SONAME
    return str(beside) if beside.exists() else SONAME


def _open(name: str) -> ctypes.CDLL:
    # PyDLL keeps other Python threads out while a call runs, so that no two are ever lent the same memory for writing. A
    # call takes microseconds.
    try:
        return ctypes.PyDLL(name)
    except OSError as why:
        raise LibraryError(
            "the Eskelvor library cannot be loaded: %s (set %s to the file %s)" % (why, ENVIRONMENT, SONAME)
        ) from None


def _numbers(version: str) -> Optional[Tuple[int, int]]:
    parts = version.split(".")
    if len(parts) < 2 or not all(part.isdigit() for part in parts):
        return None
    return int(parts[0]), int(parts[1])


def _check_version(library: ctypes.CDLL, name: str) -> str:
    try:
        call = library.esk_version
    except AttributeError:
        raise LibraryError("%s has no esk_version: it is no Eskelvor library, or one before 3.2.0" % name) from None
    call.restype, call.argtypes = ctypes.c_char_p, []
    version = (call() or b"").decode("ascii", "replace")
    numbers = _numbers(version)
    if numbers is None or numbers[0] != HEADER_VERSION[0] or numbers[1] < HEADER_VERSION[1]:
        raise LibraryError("%s is version %s; this module is for %d.%d and later ones of %d" % (
            name, version, HEADER_VERSION[0], HEADER_VERSION[1], HEADER_VERSION[0]))
    return version


def _declare(library: ctypes.CDLL, name: str) -> None:
    for call, (answer, lent) in CALLS.items():
        try:
            function = getattr(library, call)
        except AttributeError:
            raise LibraryError("%s has no %s" % (name, call)) from None
        function.restype, function.argtypes = answer, lent


def _check_sizes(library: ctypes.CDLL, name: str) -> None:
    for record, layout in RECORDS.items():
        theirs = library.esk_size_of(record.encode("ascii"))
        if theirs != ctypes.sizeof(layout):
            raise LibraryError("%s: %s has %d bytes there and %d here" % (name, record, theirs, ctypes.sizeof(layout)))


def load(name: Optional[str] = None) -> Tuple[ctypes.CDLL, str]:
    """Loads the library and holds its version and its records' sizes against this module's; gives it and its version."""
    name = name or _where()
    library = _open(name)
    version = _check_version(library, name)
    _declare(library, name)
    _check_sizes(library, name)
    return library, version


lib, library_version = load()


# ---- what is handed over -----------------------------------------------------------------------------------------------


def as_bytes(text: Text) -> bytes:
    """The bytes of a text."""
    if isinstance(text, str):
        return text.encode("utf-8", "surrogatepass")
    return bytes(memoryview(text))


def within(number: int, least: int, most: int) -> int:
    """A number that the C type cannot hold becomes ``most``, which no field allows: the call refuses it, as it should."""
    return number if least <= number <= most else most


def u8(number: Optional[int]) -> int:
    """A byte; what is none, or is missing, becomes 255, which no field allows."""
    return 255 if number is None else within(operator.index(number), 0, 255)


def u16(number: int) -> int:
    """Two bytes, likewise."""
    return within(operator.index(number), 0, 65535)


def u32(number: int) -> int:
    """Four bytes, likewise."""
    return within(operator.index(number), 0, 2 ** 32 - 1)


def i32(number: int) -> int:
    """Four bytes with a sign, likewise."""
    return within(operator.index(number), -(2 ** 31), 2 ** 31 - 1)


def i16(number: int) -> int:
    """Two bytes with a sign, likewise."""
    return within(operator.index(number), -(2 ** 15), 2 ** 15 - 1)


def size(number: int) -> int:
    """A number of bytes or of entries, likewise."""
    return within(operator.index(number), 0, _size(-1).value)


def name_bytes(name: Text, width: int) -> bytes:
    """The bytes of a name; one of another length becomes NULs, which no name allows."""
    given = as_bytes(name)
    return given if len(given) == width else bytes(width)


def room(size: int = COMMAND_BYTES) -> ctypes.Array:
    """Memory for a text that a call writes."""
    return ctypes.create_string_buffer(size)
