"""The journal of what was taken for aircraft, in memory that the caller lends or the journal's own."""

import ctypes
import threading
from typing import Iterator, NamedTuple, Optional, Union

from ._configuration import Configuration
from ._library import JOURNAL_BYTES, JOURNAL_PRINTED, Text, as_bytes, lib, room as room_for, size
from ._refusals import refuse

_NAME_BYTES = 6


class Entry(NamedTuple):
    """What was taken once, for one aircraft."""

    offset: int  #: of its first byte; so many bytes are the journal of all that is older
    designator: str
    text: bytes


class Journal:
    """A journal over a ``bytearray`` (or a ``memoryview`` of one), of which it is the first ``length`` bytes.

    Without memory it has some of its own, ``room`` bytes, at most 65,535 of which it can fill. No bytes are the empty
    journal. Nothing is kept but the memory and the length, so the bytes may be stored and lent again; as long as the journal
    lives the number of the memory's bytes cannot change. Every call checks the whole journal first, and raises
    ``JournalBroken`` where it is none; a refusal changes no byte. Threads may share a journal; two journals over the same
    memory do not know of each other's lengths.

    >>> journal = Journal()
    >>> journal.add("XY0001", "AWR049999999000000000/")
    31
    >>> journal.printed()
    b'0 XY0001 AWR049999999000000000/\\n'
    """

    def __init__(
        self, memory: Union[bytearray, memoryview, None] = None, length: int = 0, room: Optional[int] = None
    ) -> None:
        if memory is None:
            memory = bytearray(JOURNAL_BYTES if room is None else room)
        elif room is not None:
            raise TypeError("the room of a journal is that of the memory that is lent for it")
        view = memoryview(memory)
        if view.readonly:
            raise TypeError("the memory of a journal must be writable")
        # Kept for as long as the journal: they hold the memory where it is.
        self._view = view.cast("B")
        self._memory = (ctypes.c_uint8 * len(self._view)).from_buffer(self._view)
        self._length = size(length)
        self._drops = 0
        # The memory and the length change together.
        self._lock = threading.Lock()

    @classmethod
    def load(cls, data: Union[bytes, bytearray, memoryview], room: int = JOURNAL_BYTES) -> "Journal":
        """A journal in memory of its own, ``room`` bytes, that begins with a copy of these: what ``bytes(journal)`` gave.

        Raises ``JournalBroken`` where they are no journal, or are more than the room.
        """
        given = memoryview(data).cast("B")
        journal = cls(length=len(given), room=room)
        kept = min(len(given), room)
        journal._view[:kept] = given[:kept]
        journal.check()
        return journal

    @property
    def length(self) -> int:
        """Its bytes, from the memory's first on; those behind them are not looked at."""
        return self._length

    @property
    def room(self) -> int:
        """The bytes of its memory."""
        return len(self._view)

    def _lent(self) -> tuple:
        return ctypes.addressof(self._memory), len(self._view), self._length

    def check(self) -> None:
        """Raises ``JournalBroken`` where the bytes are no journal.

        The place is that of the trailer where reading them from their end first fails; 0 where fewer than three bytes are
        left for one, or the length is above 65,535 or above the memory's.
        """
        answer = lib.esk_journal_check(*self._lent())
        refuse(answer.code, answer.place)

    def add(self, designator: Text, text: Text) -> int:
        """Adds what was taken for an aircraft, behind all else, and gives the journal's new length.

        Raises ``NoRoom`` where the entry, the text and nine bytes, does not fit in the memory or in 65,535 bytes.
        """
        name, data = as_bytes(designator), as_bytes(text)
        with self._lock:
            answer = lib.esk_journal_add(*self._lent(), name, len(name), data, len(data))
            refuse(answer.code, answer.place)
            self._length = answer.length
            return answer.length

    def drop(self, count: int) -> int:
        """Drops the newest ``count`` entries, and gives the journal's new length. The memory's bytes stay as they are.

        Raises ``OutOfRange`` where there are fewer.
        """
        with self._lock:
            answer = lib.esk_journal_drop(*self._lent(), size(count))
            refuse(answer.code, answer.place)
            if answer.length != self._length:
                self._drops += 1
                self._length = answer.length
            return answer.length

    def entries(self) -> Iterator[Entry]:
        """The entries that there are now, the newest first, each read when it is asked for.

        What is added meanwhile is not among them; where entries are dropped meanwhile, ``RuntimeError`` is raised.
        """
        with self._lock:
            self.check()
            return self._from(self._length, self._drops)

    def _from(self, end: int, drops: int) -> Iterator[Entry]:
        while True:
            if drops != self._drops:
                raise RuntimeError("entries were dropped while the journal was gone through")
            found = lib.esk_journal_last(ctypes.addressof(self._memory), len(self._view), end)
            refuse(found.code, found.place)
            if not found.given:
                return
            end = found.offset
            name = bytes(self._view[end : end + _NAME_BYTES])
            yield Entry(end, name.decode("ascii"), bytes(self._view[found.text : found.text + found.length]))

    def printed(self) -> bytes:
        """A line for each entry, the newest first: its offset, a space, the designator, a space, the text, LF."""
        out = room_for(JOURNAL_PRINTED)
        answer = lib.esk_journal_print(*self._lent(), out, len(out))
        refuse(answer.code, answer.place)
        return out.raw[: answer.length]

    def replay(self, designator: Text) -> Configuration:
        """The configuration of an aircraft that began after reset and applied each of its texts, the oldest first."""
        name, held = as_bytes(designator), Configuration()
        answer = lib.esk_journal_replay(held._raw, *self._lent(), name, len(name))
        refuse(answer.code, answer.place)
        return held

    def __bytes__(self) -> bytes:
        """The journal's bytes, without the memory behind them."""
        with self._lock:
            self.check()
            return bytes(self._view[: self._length])
