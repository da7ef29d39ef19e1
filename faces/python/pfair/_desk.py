"""The desk."""

import ctypes
import json
import threading
from types import TracebackType
from typing import Any, Dict, Iterator, List, NoReturn, Optional, Type, Union, overload

from pfair._errors import BadRecord, ClosedDesk, check, name, record_faults, script_faults
from pfair._events import Event, event_of, raw_event, unsigned
from pfair._html import page, table
from pfair._library import CALLS, NUMBERS, SIZE, U64, filled, struct
from pfair._texts import raw_look, text_number
from pfair._told import NEVER, Denial, Figures, Fit, Lag, Miss, Pick, Quantum, Row, Settings, figures_of

# How many slots one call takes: between two of them Python sees Ctrl-C.
PART = 10_000

# How many of its last slots a notebook shows of a desk.
SHOWN_SLOTS = 200

NO_COPY = 'a desk cannot be copied or pickled: Desk.of_script(desk.text("script")) opens another one that stands as it does'


class Desk:
    """A planner's desk: a plan of tasks, and its schedule slot by slot.

    It is a sequence of the rows that were stepped: len(desk), desk[3], desk[-2:], for row in desk. A desk without a row is
    true, too.

    Threads may share a desk: a lock of its own lets one call after another have it. While a call runs, the interpreter's lock
    (GIL) is let go, so that other threads of Python run meanwhile, with other desks too. Ctrl-C is seen between calls.

    processors  1 to 64
    base        a number that each period divides, 1 to 2^30
    cap         the most load, in 1/base, 1 to 2^44; processors * base, where it is left out, fills the processors
    every       a checkpoint is kept each so many slots, 1 to 4,096: a change of the past is replayed from the last one
    wide        whether there are 2^22 slots in place of 2^20
    caller      the number under which the history keeps what is asked here

    Raises BadSettings where a number is out of its limits, ValueError where 64 bits do not hold it. Each call may raise
    MemoryError, and then the desk is as before; and ClosedDesk.
    """

    def __init__(
        self, processors: int, base: int, cap: Optional[int] = None, every: int = 64, wide: bool = False, caller: int = 0
    ) -> None:
        self._begin(caller)
        numbers = (processors, base, processors * base if cap is None else cap, every)
        check(self._call("open_wide" if wide else "open", *map(unsigned, numbers)))
        self._settings = self._read_settings()

    def _begin(self, caller: int) -> None:
        self._raw = struct("desk")()
        self._turn = threading.RLock()
        self._caller = unsigned(caller, 32)
        # How often the plan was changed, or may have been: who reads rows one by one sees by it that they are of one plan.
        self._changes = 0

    def _read_settings(self) -> Settings:
        setup = struct("setup")()
        check(self._call("settings", setup))
        return Settings(setup.processors, setup.base, setup.cap, setup.every, setup.horizon)

    @classmethod
    def of_script(cls, script: str, caller: int = 0) -> "Desk":
        """A desk with the settings of a whole script of any version, which carried out the records behind them.

        The texts of a desk that a plan opened tell the names of its tasks and how long a slot is. Raises
        BadRecord.
        """
        desk = cls.__new__(cls)
        desk._begin(caller)
        desk._carry_out("open_script", script)
        desk._settings = desk._read_settings()
        return desk

    @property
    def settings(self) -> Settings:
        """What the desk was opened with."""
        return self._settings

    @property
    def processors(self) -> int:
        """How many processors there are."""
        return self._settings.processors

    def __repr__(self) -> str:
        try:
            with self._turn:
                now, events = self.now, self._count("events", struct("numbered"))
        except ClosedDesk:
            return "Desk(closed)"
        return f"Desk(processors={self.processors}, base={self._settings.base}, now={now}, events={events})"

    def __reduce_ex__(self, protocol: object) -> NoReturn:
        # copy.copy, copy.deepcopy and pickle all ask here. Of two copies of a handle each would close the desk of both.
        raise TypeError(NO_COPY)

    def _call(self, name: str, *words: Any) -> int:
        # ctypes lets other threads run during a call, and a handle is in one call at a time.
        with self._turn:
            return CALLS[name](self._raw, *words)

    def close(self) -> None:
        """Gives the memory back. A desk that is closed stays so."""
        self._call("close")

    def __enter__(self) -> "Desk":
        return self

    def __exit__(
        self, kind: Optional[Type[BaseException]], error: Optional[BaseException], trace: Optional[TracebackType]
    ) -> None:
        self.close()

    def __del__(self) -> None:
        if hasattr(self, "_turn"):
            self.close()

    def _edit(self, kind: str, number: int, event: Any, strict: bool) -> int:
        reply = struct("reply")()
        change = struct("change")(NUMBERS[kind], unsigned(number), event)
        with self._turn:
            check(self._call("edit", self._caller, change, strict, reply), reply.event, reply.reason)
            self._changes += 1
        return reply.event

    def _what_if(self, text: str, kind: str, number: int, event: Any, strict: bool) -> str:
        reply = struct("reply")()
        change = struct("change")(NUMBERS[kind], unsigned(number), event)
        words = (self._caller, change, strict, reply, text_number(text))
        told: bytes = self._all("what_if", ctypes.c_char, *words, reply=reply)
        return told.decode("ascii")

    def if_inserted(self, event: Event, text: str = "schedule", strict: bool = False) -> str:
        """A text of the desk as it would be after an insert, which is not made; of the kinds of text. Raises Refused."""
        return self._what_if(text, "INSERT", 0, raw_event(event), strict)

    def if_altered(self, number: int, event: Event, text: str = "schedule", strict: bool = False) -> str:
        """The same of an alter."""
        return self._what_if(text, "ALTER", number, raw_event(event), strict)

    def if_struck(self, number: int, text: str = "schedule", strict: bool = False) -> str:
        """The same of a strike."""
        return self._what_if(text, "STRIKE", number, struct("event")(), strict)

    def insert(self, event: Event, strict: bool = False) -> int:
        """Puts an event into the plan and gives its number.

        The slots stepped are as though it had always stood there. A strict change is refused where the slots stepped would
        then have any denial. Raises Refused.
        """
        return self._edit("INSERT", 0, raw_event(event), strict)

    def alter(self, number: int, event: Event, strict: bool = False) -> int:
        """Puts an event in the place of the one of this number, which it keeps. Else as insert."""
        return self._edit("ALTER", number, raw_event(event), strict)

    def strike(self, number: int, strict: bool = False) -> int:
        """Takes the event of this number out of the plan. Else as insert."""
        return self._edit("STRIKE", number, struct("event")(), strict)

    def run(self, records: str) -> List[str]:
        """Asks for what records say, one after another, as they stand behind the settings in a script of version 2,
        without names and labels.

            desk.run("join,0,1,2,3,0\\nstep,3\\n")

        Gives the reply lines. A command that is refused is no error here. Raises BadRecord at the first record that is
        none; those before it were carried out, and replies has what they were answered.
        """
        with self._turn:
            first = self.entries
            # Those before a bad record are carried out, too.
            self._changes += 1
            self._carry_out("run", records)
            return self.replies(first)

    def _carry_out(self, call: str, records: str) -> None:
        text, bad = records.encode(), struct("bad_record")()
        status = self._call(call, self._caller, text, len(text), bad)
        if status == NUMBERS["BAD_RECORD"]:
            faults = record_faults(records) if call == "run" else script_faults(records)
            raise BadRecord(bad.number, bad.line, bad.field, faults[0])
        check(status)

    @property
    def entries(self) -> int:
        """How many commands the desk has answered: changes and steps, refused ones too."""
        count = SIZE()
        check(self._call("entries", count))
        return count.value

    def replies(self, first: int = 0) -> List[str]:
        """The reply lines of the commands that the desk has answered, from the first on, counted from 0."""
        text: bytes = self._all("replies", ctypes.c_char, unsigned(first))
        return text.decode("ascii").splitlines()

    def step(self) -> None:
        """Takes the next slot. Raises Refused where none is left."""
        check(self._call("step", self._caller))

    def advance(self, count: int) -> int:
        """Takes so many slots, or as many as are left: how many were taken.

        Ctrl-C is seen each 10,000 slots: those that were taken stay, and now tells how many there are.
        """
        count, taken, part = unsigned(count), 0, U64()
        with self._turn:
            while True:
                status = self._call("advance", self._caller, min(count - taken, PART), part)
                taken += part.value
                if status == NUMBERS["AT_HORIZON"]:
                    return taken
                check(status)
                if taken == count:
                    return taken

    @property
    def now(self) -> int:
        """How many slots were stepped."""
        now = U64()
        check(self._call("now", now))
        return now.value

    def row(self, slot: int) -> Row:
        """Who runs on each processor in a slot. Raises OutOfRange where it was not stepped."""
        room = (struct("pick") * self.processors)()
        check(self._call("row", unsigned(slot), room, len(room)))
        return [Pick(it.task, it.sub) if it.task else None for it in room]

    def rows(self) -> Iterator[Row]:
        """The rows of the slots stepped so far, one by one, all of one plan.

        Raises RuntimeError where the plan was changed, or run was called, before the last one was read. Steps add rows and
        change none.
        """
        with self._turn:
            return self._rows(range(self.now), self._changes)

    def _rows(self, slots: range, changes: int) -> Iterator[Row]:
        for slot in slots:
            with self._turn:
                if self._changes != changes:
                    raise RuntimeError("the plan was changed while its rows were read: desk.schedule() reads them at once")
                row = self.row(slot)
            yield row

    def __iter__(self) -> Iterator[Row]:
        return self.rows()

    def __len__(self) -> int:
        """How many slots were stepped."""
        return self.now

    def __bool__(self) -> bool:
        return True

    @overload
    def __getitem__(self, at: int) -> Row: ...

    @overload
    def __getitem__(self, at: slice) -> List[Row]: ...

    def __getitem__(self, at: Union[int, slice]) -> Union[Row, List[Row]]:
        """The row of a slot, or those of some slots, all of one plan; below 0 they are counted from the last one.

        Raises IndexError.
        """
        with self._turn:
            slots = range(self.now)[at]
            return self.row(slots) if isinstance(slots, int) else list(map(self.row, slots))

    def schedule(self) -> List[Row]:
        """All rows as a list, a slot each, with a column for each processor."""
        return self[:]

    def quanta(self, first: int = 0, end: Optional[int] = None) -> List[Quantum]:
        """The quanta of the slots from first on and below end, or all, by slot, then by processor: what pandas.DataFrame takes.

        Raises OutOfRange.
        """
        lines = self.part("quanta", first, end).splitlines()[1:]
        return [Quantum(*map(int, line.split(","))) for line in lines]

    def _count(self, name: str, element: Any) -> int:
        """How many values a call would fill a room with."""
        count = SIZE()
        status = self._call(name, (element * 1)(), 0, count)
        check(NUMBERS["OK"] if status == NUMBERS["TOO_SHORT"] else status)
        return count.value

    def _all(self, name: str, element: Any, *words: Any, reply: Any = None) -> Any:
        """What a call fills, in a room that is made as long as the call asks for."""
        with self._turn:
            status, told = filled(name, element, self._raw, *words)
        check(status, *((reply.event, reply.reason) if reply else ()))
        return told

    def lags(self) -> List[Lag]:
        """How far each task inside is from its fair share, by task."""
        return [Lag(it.task, it.cost, it.period, it.received, it.scaled) for it in self._all("lags", struct("lag"))]

    def misses(self) -> List[Miss]:
        """The missed windows, by deadline, then by task."""
        raw = self._all("misses", struct("miss"))
        return [Miss(it.task, it.sub, it.deadline, None if it.ran == NEVER else it.ran) for it in raw]

    def denials(self) -> List[Denial]:
        """The denials of the slots stepped, in the order in which the events were taken."""
        return [Denial(it.slot, it.event, name(it.reason)) for it in self._all("denials", struct("denial"))]

    def figures(self) -> List[Figures]:
        """The figures of each task admitted in a slot stepped, by task."""
        return [figures_of(it) for it in self._all("figures", struct("task_figures"))]

    def never_misses(self) -> bool:
        """Whether no window can ever be missed, whatever joins, leaves, is delayed and runs early.

        So it stays until a limit comes that leaves too few processors in use.
        """
        never = ctypes.c_bool()
        check(self._call("never_misses", never))
        return never.value

    def fits(self) -> Fit:
        """Whether the loads of the slots stepped were within the processors in use, and if not, from which slot on."""
        raw = struct("fit")()
        check(self._call("fits", raw))
        return Fit(None if raw.first == NEVER else raw.first, raw.overload_high << 64 | raw.overload_low)

    def events(self) -> Dict[int, Event]:
        """The events held, by number."""
        return {it.id: event_of(it.event) for it in self._all("events", struct("numbered"))}

    def text(self, kind: str) -> str:
        """A text of the desk: what the program pfair writes in a format (docs/TABLES.md), without reply lines.

        The tables "schedule", "lags", "misses", "denials", "events", "processors", "stats", "windows", "jobs", "load" and
        "quanta" are CSV, and "tables" has the first four, each behind a line with its name; "script" is for the program
        pfair; "json" is the report; "full" has settings, events, figures and refused commands too, each of these by its
        number among those that the desk has answered, from 1 on; "html" is a page to look around in, of at most 65,536
        slots, else OutOfRange is raised; "chart" is the schedule in characters; "trace" has the run as trace events, for
        Perfetto and chrome://tracing; "c" the schedule as a C header.
        """
        text: bytes = self._all("text", ctypes.c_char, text_number(kind))
        return text.decode("ascii")

    def part(self, kind: str, first: int = 0, end: Optional[int] = None) -> str:
        """The part of a text that has the slots from first on and below end, or all.

        The kind is "schedule", "chart", "windows", "load" or "quanta". Raises OutOfRange, ValueError.
        """
        return self._shown("part", first, end, before=(text_number(kind),))

    def chart(self, first: int = 0, end: Optional[int] = None) -> str:
        """A chart in characters of the slots from first on and below end, or all. Raises OutOfRange."""
        return self.part("chart", first, end)

    def svg(
        self, first: int = 0, end: Optional[int] = None, cell: int = 20, wrap: int = 4096, style: str = "strips"
    ) -> str:
        """A picture as SVG of these slots, at most 4,096.

        Each slot is `cell` wide, 6 to 40, and `wrap` of them stand side by side, 1 to 4,096. The style is "strips" or
        "stairs". Raises OutOfRange, ValueError.
        """
        return self._shown("svg", first, end, behind=(raw_look(cell, wrap, style),))

    def _repr_svg_(self) -> str:
        """A picture of its last slots, at most 200."""
        return self.svg(max(0, self.now - SHOWN_SLOTS))

    def _repr_html_(self) -> str:
        """What a notebook shows of a desk: that picture, the figures of each task, and what was missed and denied."""
        with self._turn:
            figures = table("Figures", Figures._fields, self.figures())
            misses = table("Missed windows", Miss._fields, self.misses())
            denials = table("Denials", Denial._fields, self.denials())
            return page(repr(self), self._repr_svg_(), figures, misses, denials)

    def _shown(self, name: str, first: int, end: Optional[int], before: tuple = (), behind: tuple = ()) -> str:
        with self._turn:
            slots = map(unsigned, (first, self.now if end is None else end))
            text: bytes = self._all(name, ctypes.c_char, *before, *slots, *behind)
            return text.decode("ascii")

    def report(self) -> Dict[str, Any]:
        """The report, read from its JSON: the keys are denials, entries, lags, misses, now and schedule.

        What it calls a lag is what lags() calls scaled: the lag in quanta, times the period.
        """
        report: Dict[str, Any] = json.loads(self.text("json"))
        return report
