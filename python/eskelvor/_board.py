"""The board of commands that wait for aircraft out of coverage, in memory that the caller lends."""

import ctypes
from typing import FrozenSet, Iterable, Iterator, List, NamedTuple, Optional, Union

from ._commands import Flags
from ._library import COMMAND_BYTES, RawGrant, Slot, Text, as_bytes, lib, room
from ._refusals import BoardNotValid, NothingWaits, refuse

_SLOT_BYTES = ctypes.sizeof(Slot)
_OLDER_BYTES = 835  # of text for each slot, before section 7


class Waiting(NamedTuple):
    """What waits for one aircraft."""

    slot: int  #: from 0
    designator: str
    text: bytes


class Grant:
    """What an office may do on a board that two offices share: flags by their names in ``Flags``, sections 2 to 9, downlinks."""

    def __init__(self, flags: Iterable[str] = (), sections: Iterable[int] = (), downlinks: bool = False) -> None:
        self.flags: FrozenSet[str] = frozenset(flags)
        self.sections: FrozenSet[int] = frozenset(sections)
        self.downlinks = bool(downlinks)
        unknown = (self.flags - frozenset(Flags._fields)) or (self.sections - frozenset(range(2, 10)))
        if unknown:
            raise ValueError("no flag or section of a command: %s" % ", ".join(sorted(map(str, unknown))))

    def __repr__(self) -> str:
        return "Grant(flags=%r, sections=%r, downlinks=%r)" % (sorted(self.flags), sorted(self.sections), self.downlinks)

    def _raw(self) -> RawGrant:
        raw = RawGrant(downlinks=self.downlinks)
        for i, name in enumerate(Flags._fields):
            raw.flags[i] = name in self.flags
        for k in range(2, 10):
            raw.sections[k - 2] = k in self.sections
        return raw


class Board:
    """A board over a ``bytearray`` (or a ``memoryview`` of one): first the slots, then 845 bytes of text for each.

    ``bytearray(Board.size(n))`` is an empty board of n slots, at most 64. The board keeps nothing but the memory, so the
    bytes may be stored and lent again; as long as the board lives their number cannot change. Every call checks the whole
    board first, and raises ``BoardNotValid`` where it is none; a refusal changes no byte.
    """

    @staticmethod
    def size(slots: int) -> int:
        """The bytes of a board of so many slots."""
        return slots * (_SLOT_BYTES + COMMAND_BYTES)

    @staticmethod
    def carry_over(older: Union[bytes, bytearray, memoryview]) -> bytearray:
        """The memory of a board of a version before 4, which had 835 bytes of text for each slot, as that of a board now.

        Every slot keeps its number and all its bytes. What was no valid board is refused as ``BoardNotValid``, and so is a
        text that such a board could not hold.
        """
        old = bytes(older)
        slots = len(old) // (_SLOT_BYTES + _OLDER_BYTES)
        memory = bytearray(Board.size(slots))
        memory[: slots * _SLOT_BYTES] = old[: slots * _SLOT_BYTES]
        for i in range(slots):
            begin, to = slots * _SLOT_BYTES + i * _OLDER_BYTES, slots * _SLOT_BYTES + i * COMMAND_BYTES
            memory[to : to + _OLDER_BYTES] = old[begin : begin + _OLDER_BYTES]
        sound = len(old) == slots * (_SLOT_BYTES + _OLDER_BYTES)
        texts = [waiting.text for waiting in Board(memory)] if sound else []
        if not sound or any(len(text) > _OLDER_BYTES or text[18:19] == b"7" for text in texts):
            refuse(BoardNotValid.code)
        return memory

    def __init__(self, memory: Union[bytearray, memoryview]) -> None:
        view = memoryview(memory)
        if view.readonly:
            raise TypeError("the memory of a board must be writable")
        view = view.cast("B")
        self.slots = len(view) // Board.size(1)
        # Kept for as long as the board: they hold the memory where it is.
        self._view = view
        self._memory = (ctypes.c_uint8 * len(view)).from_buffer(view)
        begin = ctypes.addressof(self._memory)
        if begin % ctypes.alignment(Slot):
            raise ValueError("the memory of a board must begin at an even address")
        self._slots = (Slot * self.slots).from_buffer(self._memory)
        self._area_at = begin + self.slots * _SLOT_BYTES
        # Bytes that make no whole slot are lent with the area, so that the board is refused for its length.
        self._area_length = len(view) - self.slots * _SLOT_BYTES

    def _lent(self) -> tuple:
        return ctypes.addressof(self._slots), self.slots, self._area_at, self._area_length

    def check(self) -> None:
        """Raises ``BoardNotValid`` where the memory is no valid board."""
        refuse(lib.esk_board_check(*self._lent()).code)

    def add(self, designator: Text, text: Text) -> int:
        """Adds a command for an aircraft: joined onto what waits for it, or into the lowest free slot.

        Gives the length of what then waits.
        """
        name, data = as_bytes(designator), as_bytes(text)
        answer = lib.esk_board_add(*self._lent(), name, len(name), data, len(data))
        refuse(answer.code, answer.place)
        return answer.length

    def add_for(self, own: Grant, other: Grant, designator: Text, text: Text) -> int:
        """Adds a command of the office that has the grant ``own``, beside one that has ``other``.

        ``NotGranted`` where the two overlap, before all else, and where the command is outside ``own``, before it is
        looked whether a slot is free.
        """
        name, data = as_bytes(designator), as_bytes(text)
        answer = lib.esk_office_add(*self._lent(), name, len(name), data, len(data), own._raw(), other._raw())
        refuse(answer.code, answer.place)
        return answer.length

    def take(self, designator: Text) -> bytes:
        """Takes what waits for an aircraft, and frees its slot."""
        name, out = as_bytes(designator), room()
        answer = lib.esk_board_take(*self._lent(), name, len(name), out, len(out))
        refuse(answer.code, answer.place)
        return out.raw[: answer.length]

    def look(self, designator: Text) -> Optional[bytes]:
        """What waits for an aircraft, left where it is; None where nothing does."""
        name = as_bytes(designator)
        for waiting in self:
            if waiting.designator.encode("ascii") == name:
                return waiting.text
        return None

    def __iter__(self) -> Iterator[Waiting]:
        """What waits, slot by slot, as it is now: what is added or taken meanwhile does not change it."""
        self.check()
        area = self._view[self.slots * _SLOT_BYTES :]
        waiting = []
        for i, slot in enumerate(self._slots):
            if slot.length:
                text = bytes(area[i * COMMAND_BYTES : i * COMMAND_BYTES + slot.length])
                waiting.append(Waiting(i, bytes(slot.designator).decode("ascii"), text))
        return iter(waiting)

    def __len__(self) -> int:
        """How many aircraft something waits for."""
        return sum(1 for _ in self)


class ListedBoard(Board):
    """A board with the list of its aircraft beside it, in rising order of designator, which every add and take keeps.

    What it answers is what ``Board`` answers. The memory must not be changed by another meanwhile: the list then disagrees
    with it, and every call is refused as ``BoardNotValid``.
    """

    def __init__(self, memory: Union[bytearray, memoryview]) -> None:
        super().__init__(memory)
        self._list = (ctypes.c_uint8 * self.slots)()
        slots, n, _, _ = self._lent()
        refuse(lib.esk_tails_make(slots, n, self._list, n).code)

    def add(self, designator: Text, text: Text) -> int:
        name, data = as_bytes(designator), as_bytes(text)
        answer = lib.esk_tails_add(*self._lent(), self._list, self.slots, name, len(name), data, len(data))
        refuse(answer.code, answer.place)
        return answer.length

    def take(self, designator: Text) -> bytes:
        name, out = as_bytes(designator), room()
        answer = lib.esk_tails_take(*self._lent(), self._list, self.slots, name, len(name), out, len(out))
        refuse(answer.code, answer.place)
        return out.raw[: answer.length]

    def _search(self, name: bytes):
        slots, n, _, _ = self._lent()
        return lib.esk_tails_find(slots, n, bytes(self._list), n, name, len(name))

    def find(self, designator: Text) -> Optional[int]:
        """The slot of an aircraft, by bisecting, without a look at any text; None where nothing waits for it."""
        found = self._search(as_bytes(designator))
        if found.code == NothingWaits.code:
            return None
        refuse(found.code, found.place)
        return found.slot

    def designators(self, prefix: str = "") -> List[str]:
        """The aircraft whose designators begin so, in rising order."""
        found = self._search(prefix.encode("ascii").ljust(6, b"0"))
        if found.code != NothingWaits.code:
            refuse(found.code, found.place)
        names = [bytes(self._slots[i].designator).decode("ascii") for i in bytes(self._list) if i != 255]
        return [name for name in names[found.at :] if name.startswith(prefix)]
