"""One desk for many threads."""

import threading
from types import TracebackType
from typing import Any, List, NoReturn, Optional, Tuple, Type, TypeVar

from pfair._errors import Pending, check
from pfair._events import Event, raw_event, unsigned
from pfair._library import CALLS, NUMBERS, U32, U64, struct
from pfair._told import Pick, Quantum, Row

AnyHandle = TypeVar("AnyHandle", bound="Handle")


def row_of(room: Any) -> Row:
    """Who runs on each processor."""
    return [Pick(it.task, it.sub) if it.task else None for it in room]


class Handle:
    """What one has of a shared desk. It keeps the desk, and is closed at the end of `with`, or with the last reference to it."""

    KIND: str

    def __init__(self) -> None:
        self._raw = struct(self.KIND)()
        self._turn = threading.RLock()

    def _call(self, name: str, *words: Any) -> int:
        # ctypes lets other threads run during a call, and a handle is in one call at a time.
        with self._turn:
            return CALLS[f"{self.KIND}_{name}"](self._raw, *words)

    def close(self) -> None:
        """Gives it back. What is closed stays so."""
        self._call("close")

    def __enter__(self: AnyHandle) -> AnyHandle:
        return self

    def __exit__(
        self, kind: Optional[Type[BaseException]], error: Optional[BaseException], trace: Optional[TracebackType]
    ) -> None:
        self.close()

    def __del__(self) -> None:
        if hasattr(self, "_turn"):
            self.close()

    def __reduce_ex__(self, protocol: object) -> NoReturn:
        raise TypeError(f"a {type(self).__name__} cannot be copied or pickled")


class SharedDesk(Handle):
    """One desk for many threads: its callers, which are planners and dispatchers, and its readers, until they are opened.

        desk = SharedDesk(processors=2, base=3, callers=3)
        clock, workers = desk.caller(), [desk.caller(), desk.caller()]

    Each caller and each reader is for a thread of its own. None of their calls waits for another: where a caller is at the
    desk, an edit or a step of another raises Busy, and nothing was done. Takes and reads go on meanwhile.

    processors, base, cap and every are as for Desk; there are 2^22 slots.
    callers     how many callers there are, 1 to 128
    readers     how many readers there are, at most 64

    Raises BadSettings where a number is out of its limits.
    """

    KIND = "shared"

    def __init__(
        self, processors: int, base: int, callers: int, readers: int = 0, cap: Optional[int] = None, every: int = 64
    ) -> None:
        super().__init__()
        numbers = (processors, base, processors * base if cap is None else cap, every, callers, readers)
        check(self._call("open", *map(unsigned, numbers)))
        self._processors = processors

    @property
    def processors(self) -> int:
        """How many processors there are."""
        return self._processors

    def caller(self) -> "Caller":
        """Opens the next caller. The history keeps its commands under its number, 0 for the first. Raises NoPlace."""
        caller = Caller(self._processors)
        with self._turn:
            check(CALLS["caller_open"](self._raw, caller._raw))
        return caller

    def reader(self) -> "Reader":
        """Opens the next reader. Raises NoPlace."""
        reader = Reader(self._processors)
        with self._turn:
            check(CALLS["reader_open"](self._raw, reader._raw))
        return reader


class Caller(Handle):
    """A caller of a shared desk: a planner, a dispatcher, or both. `SharedDesk.caller` opens one."""

    KIND = "caller"

    def __init__(self, processors: int) -> None:
        super().__init__()
        self._processors = processors

    def _edit(self, kind: str, number: int, event: Any, strict: bool) -> int:
        reply = struct("reply")()
        change = struct("change")(NUMBERS[kind], unsigned(number), event)
        check(self._call("edit", change, strict, reply), reply.event, reply.reason)
        return reply.event

    def insert(self, event: Event, strict: bool = False) -> int:
        """Puts an event into the plan and gives its number, as Desk.insert does; the answer is an entry of the one history.

        Raises Refused, which is an entry too; Busy, where there is none.
        """
        return self._edit("INSERT", 0, raw_event(event), strict)

    def alter(self, number: int, event: Event, strict: bool = False) -> int:
        """Puts an event in the place of the one of this number, which it keeps. Else as insert."""
        return self._edit("ALTER", number, raw_event(event), strict)

    def strike(self, number: int, strict: bool = False) -> int:
        """Takes the event of this number out of the plan. Else as insert."""
        return self._edit("STRIKE", number, struct("event")(), strict)

    def step(self) -> Tuple[int, Row]:
        """Takes the next slot, and gives it with who runs where; its quanta lie on the processors, each to be taken once.

        Raises Pending where a quantum was not taken yet, Busy, and Refused at the horizon.
        """
        slot, processor, room = U64(), U32(), (struct("pick") * self._processors)()
        status = self._call("step", slot, processor, room, self._processors)
        if status == NUMBERS["PENDING"]:
            raise Pending(processor.value)
        check(status)
        return slot.value, row_of(room)

    def _take(self, call: str, *words: int) -> Optional[Quantum]:
        raw = struct("quantum")()
        status = self._call(call, *words, raw)
        if status == NUMBERS["NOTHING"]:
            return None
        check(status)
        return Quantum(raw.slot, raw.processor, raw.task, raw.sub)

    def take(self, processor: int) -> Optional[Quantum]:
        """Takes the quantum that lies on a processor, which is then this caller's and no other's; None where none does.

        Raises OutOfRange where there is no such processor.
        """
        return self._take("take", unsigned(processor, 32))

    def take_in(self, processor: int, slot: int) -> Optional[Quantum]:
        """The same where the slot is the last one that was stepped; None where the processor is idle in it, or a later slot is
        stepped already. Where several callers take from one processor it may be a quantum of a later slot.

        Raises NotYet where the slot is not stepped yet.
        """
        return self._take("take_in", unsigned(processor, 32), unsigned(slot))

    @property
    def stepped(self) -> int:
        """How many slots were stepped."""
        slots = U64()
        check(self._call("stepped", slots))
        return slots.value

    @property
    def entries(self) -> int:
        """How many entries the history has: changes and steps, refused ones too."""
        entries = U64()
        check(self._call("look", entries))
        return entries.value


class Reader(Handle):
    """A reader of a shared desk. `SharedDesk.reader` opens one."""

    KIND = "reader"

    def __init__(self, processors: int) -> None:
        super().__init__()
        self._processors = processors

    def read(self) -> "Snapshot":
        """The desk as it stands: its history is no shorter than the one that was read last. Raises Busy."""
        snapshot = Snapshot(self._processors)
        check(self._call("read", snapshot._raw))
        return snapshot


class Snapshot(Handle):
    """A shared desk as it stood, which never changes."""

    KIND = "snapshot"

    def __init__(self, processors: int) -> None:
        super().__init__()
        self._processors = processors

    def _numbers(self) -> Tuple[int, int]:
        entries, slots = U64(), U64()
        check(self._call("now", entries, slots))
        return entries.value, slots.value

    @property
    def entries(self) -> int:
        """How many entries the history had."""
        return self._numbers()[0]

    @property
    def now(self) -> int:
        """How many slots were stepped."""
        return self._numbers()[1]

    def row(self, slot: int) -> Row:
        """Who runs on each processor in a slot, or None where it is idle. Raises OutOfRange."""
        room = (struct("pick") * self._processors)()
        check(self._call("row", unsigned(slot), room, self._processors))
        return row_of(room)

    def rows(self, start: int = 0, end: Optional[int] = None) -> List[Row]:
        """Who runs on each processor in the slots from start on and below end, or below now. Raises OutOfRange."""
        end = self.now if end is None else end
        # No slot at or above now has a row, so the room is as long as what there is to tell at most.
        count = max(0, min(end, self.now) - start) * self._processors
        room = (struct("pick") * max(count, 1))()
        check(self._call("rows", unsigned(start), unsigned(end), room, count))
        return [row_of(room[at : at + self._processors]) for at in range(0, count, self._processors)]

    def again(self) -> "Snapshot":
        """The same snapshot once more, for a thread that is not to wait for another's calls."""
        more = Snapshot(self._processors)
        check(self._call("again", more._raw))
        return more
