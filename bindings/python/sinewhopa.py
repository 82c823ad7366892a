"""Sinewhopa, a proved scheduler for work done in other people's systems, for hosts in Python.

A plan has events, steps and rules. A host opens a `State` for each of its plans, hands in events as they are reported
to it, closes steps and winds up. The answer is the event's `Fate`. The host carries an event out (publishes, books,
pays) only when it is told `Fate.DONE` or `Fate.FORCED`. `Fate.HELD` says "not yet": a later call does or refuses it.

>>> state = State.open(bytes([1, 0, 6, 1, 1, 6, 2, 0, 1, 5]))  # two events; event 0 before event 1
>>> print(state.submit(1))
held
>>> print(state.submit(0))
done
>>> print(*state.history)
0 done 1 done

What a sheet is, byte by byte, and what each call does is in the repository's docs/SHEETS.md.

In place of the state, a host may store a journal: the sheet's bytes, and a record behind them for each call. A loss of
power may cut it at any byte behind the sheet: `State.open_journal` gives the state after the calls of all whole
records. `append` makes a call on a journal; `record` gives the bytes to a host that keeps the state too.

>>> journal = bytearray([1, 0, 6, 5])  # a new journal is a sheet alone; this one declares an event
>>> append(journal, Submit(0))
slice(4, 6, None)
>>> del journal[5:]  # the power goes
>>> opened = State.open_journal(journal)
>>> print(opened.end, opened.leftover, *opened.state.fates)
4 1 open

The functions are those of the shared library `libsinewhopa.so`, called by ctypes. The module looks for it at the path
in the environment variable SINEWHOPA_LIBRARY, else in its own folder, else where the system's loader looks. Numbers
that C could not take are a `TypeError` or a `ValueError` before the library is called; no number wraps.

The library keeps nothing between calls, so that states of their own may be used from any thread. One `State` is not
thread-safe: two threads that share one need a lock.
"""

from __future__ import annotations

import ctypes
import ctypes.util
import operator
import os
from dataclasses import dataclass
from enum import IntEnum, IntFlag
from typing import Callable, Iterable, List, NamedTuple, Optional, Tuple, Union

__all__ = [
    "Advance", "Attributes", "CallFault", "CloseStep", "Event", "Fate", "Finish", "Journal", "JournalFault", "Preview",
    "Rule", "RuleKind", "Settlement", "SheetFault", "SinewhopaError", "State", "Submit", "Version", "Window",
    "append", "append_into", "check", "record", "run", "version",
    "LONGEST_BATCH", "LONGEST_REPORT", "LONGEST_SHEET", "STATE_LENGTH",
]

# As in include/sinewhopa.h.
STATE_LENGTH = 384
LONGEST_REPORT = 320
LONGEST_BATCH = 64
LONGEST_SHEET = 273
_VERSION = (1, 7)  # the version that this module was written for
_SUBMIT, _CLOSE_STEP, _FINISH, _ADVANCE = 16, 17, 18, 19  # kinds of calls; an entry is of one of the first two
_RECORD_ROOM = 8  # what is lent for the record of a call; the longest has 5 bytes
_NO_ROOM, _BAD_RECORD = 14, 17
_EVENTS = _RULES = 16
_STEPS = 8

_MOST_BYTE = 2**8 - 1
_MOST_MINUTE = 2**32 - 1
_MOST_COUNT = 2 ** (8 * ctypes.sizeof(ctypes.c_size_t)) - 1

# The words of each number, as in include/sinewhopa.h.
_SHEET_TEXTS = {
    1: "the bytes run out before the end record is whole",
    2: "a kind of record that there is not",
    3: "a seventeenth event or rule",
    4: "a step above 7",
    5: "attributes above 7, or delayable without rejectable",
    6: "a rule with an event that is not declared, or with one twice",
    7: "a rule that cannot be enforced",
    8: "bytes after the end record",
    15: "a window that is empty, or that its event may not have",
}
_CALL_TEXTS = {
    2: "a kind of entry that there is not",
    9: "no such event, or a step without events",
    10: "the step is closed already",
    11: "a step with events is not closed yet",
    12: "the bytes are not those of a state that hangs together",
    13: "more entries than a batch may have",
    14: "a lent buffer that is too short",
    16: "a minute below the current one",
}
_JOURNAL_TEXTS = {
    _BAD_RECORD: "a record that is no call's, or a call that the state there turns down",
}


class SinewhopaError(Exception):
    """Why a sheet or a call is turned down: `number` is the library's number for it, and the text says it in words."""

    number: int

    def __eq__(self, other: object) -> bool:
        return type(other) is type(self) and self.args == other.args

    def __hash__(self) -> int:
        return hash((type(self), self.args))


class SheetFault(SinewhopaError):
    """Why a sheet is turned down. `offset` is where the record at fault begins."""

    def __init__(self, number: int, offset: int) -> None:
        super().__init__(number, offset)
        self.number = number
        self.offset = offset

    def __str__(self) -> str:
        text = _SHEET_TEXTS.get(self.number, f"turned down by number {self.number}")
        return f"{text}, at offset {self.offset} of the sheet"


class CallFault(SinewhopaError):
    """Why a call, a whole batch or stored bytes are turned down. The state is as it was before the call."""

    def __init__(self, number: int) -> None:
        super().__init__(number)
        self.number = number

    def __str__(self) -> str:
        return _CALL_TEXTS.get(self.number, f"turned down by number {self.number}")


class JournalFault(SinewhopaError):
    """Why a journal with a sound sheet does not open: a record that is no call's, or that is turned down there.

    `offset` is where the record begins, `before` is the state before it. A cut never leads to this.
    """

    def __init__(self, number: int, offset: int, before: State) -> None:
        super().__init__(number, offset)
        self.number = number
        self.offset = offset
        self.before = before

    def __str__(self) -> str:
        text = _JOURNAL_TEXTS.get(self.number, f"turned down by number {self.number}")
        return f"{text}, at offset {self.offset} of the journal"

    def __eq__(self, other: object) -> bool:
        return super().__eq__(other) and self.before == other.before

    __hash__ = SinewhopaError.__hash__

    def __reduce__(self) -> tuple:
        return type(self), (self.number, self.offset, self.before)


class Fate(IntEnum):
    """What has become of an event. `str(fate)` is its word in reports.

    A number that a later version of the library adds is a `Fate` too, of the name `FATE_n`.
    """

    OPEN = 0  # it has not been handed in
    HELD = 1  # it was handed in and waits: for another event, or for its window; a later call does or refuses it
    DONE = 2  # it is done: the host carries it out
    REFUSED = 3  # it is refused
    LAPSED = 4  # it was open when its step was closed
    FORCED = 5  # it was open, a rule asked for it and the scheduler brought it about; it counts as done for every rule

    @classmethod
    def _missing_(cls, value: object) -> Optional[Fate]:
        if not isinstance(value, int) or not 0 <= value <= _MOST_BYTE:
            return None
        fate = int.__new__(cls, value)
        fate._name_ = f"FATE_{int(value)}"
        fate._value_ = int(value)
        return fate

    @property
    def is_settled(self) -> bool:
        """Neither open nor held: the event has its line in the history, and its fate never changes again."""
        return self > Fate.HELD

    @property
    def counts_as_done(self) -> bool:
        """Done or forced: the event has come about. Rules make no difference between the two."""
        return self in (Fate.DONE, Fate.FORCED)

    def __str__(self) -> str:
        return self._name_.lower().replace("_", " ")

    def __format__(self, form: str) -> str:
        return format(str(self), form)


class Attributes(IntFlag):
    """What the scheduler may do with an event: bring it about unasked, refuse it, make it wait."""

    FORCIBLE = 1
    REJECTABLE = 2
    DELAYABLE = 4


class RuleKind(IntEnum):
    """Order: a before b. Need: a only if b. Conditional: if a and b, then c."""

    ORDER = 2
    NEED = 3
    CONDITIONAL = 4


class Window(NamedTuple):
    """An event with a window is done or forced only from the minute `from_` up to, but not including, `until`."""

    from_: int
    until: int


class Event(NamedTuple):
    """What the sheet says of an event. `window` is None where it has none."""

    step: int
    attributes: Attributes
    window: Optional[Window]


class Rule(NamedTuple):
    """What the sheet says of a rule, and whether it is recorded as broken. Only a conditional has a `c`."""

    kind: RuleKind
    a: int
    b: int
    c: Optional[int]
    broken: bool


class Settlement(NamedTuple):
    """A line of the history: an event and how it was settled."""

    event: int
    fate: Fate

    def __str__(self) -> str:
        return f"{self.event} {self.fate}"


class Preview(NamedTuple):
    """How many events a hand-in would settle, by fate."""

    done: int
    refused: int
    lapsed: int
    forced: int

    @property
    def settled(self) -> int:
        """How many events it would settle in all: the history would grow by so many lines."""
        return sum(self)


class Version(NamedTuple):
    """A version of the library. The major number rises only where older states are no longer read."""

    major: int
    minor: int


class Journal(NamedTuple):
    """What a journal opens to: the state after the calls of all whole records, and of no others.

    `end` is the offset behind the last whole record, `leftover` how many bytes come behind it. A host cuts the stored
    journal back to `end` before it stores a new record there: then whatever a loss of power takes is at its end.
    """

    state: State
    end: int
    leftover: int


@dataclass(frozen=True)
class Submit:
    """A call of a batch or a journal: hands in an event, as `State.submit` does."""

    event: int

    def __post_init__(self) -> None:
        _number("event", self.event, _MOST_BYTE)


@dataclass(frozen=True)
class CloseStep:
    """A call of a batch or a journal: closes a step, as `State.close_step` does."""

    step: int

    def __post_init__(self) -> None:
        _number("step", self.step, _MOST_BYTE)


@dataclass(frozen=True)
class Finish:
    """A call of a journal: winds up, as `State.finish` does."""


@dataclass(frozen=True)
class Advance:
    """A call of a journal: moves the minute, as `State.advance` does."""

    minute: int

    def __post_init__(self) -> None:
        _number("minute", self.minute, _MOST_MINUTE)


Call = Union[Submit, CloseStep]
JournalCall = Union[Submit, CloseStep, Finish, Advance]
Answer = Union[Fate, None, CallFault]
Bytes = Union[bytes, bytearray, memoryview]


class _Image(ctypes.Structure):
    """The 384 bytes of a state, as `sinewhopa_state` in the header."""

    _fields_ = [
        ("version", ctypes.c_uint8),
        ("events", ctypes.c_uint8),
        ("rules", ctypes.c_uint8),
        ("lines", ctypes.c_uint8),
        ("step", ctypes.c_uint8 * _EVENTS),
        ("attributes", ctypes.c_uint8 * _EVENTS),
        ("rule_kind", ctypes.c_uint8 * _RULES),
        ("rule_a", ctypes.c_uint8 * _RULES),
        ("rule_b", ctypes.c_uint8 * _RULES),
        ("rule_c", ctypes.c_uint8 * _RULES),
        ("fate", ctypes.c_uint8 * _EVENTS),
        ("broken", ctypes.c_uint8 * _RULES),
        ("closed", ctypes.c_uint8 * _STEPS),
        ("line_event", ctypes.c_uint8 * _EVENTS),
        ("line_fate", ctypes.c_uint8 * _EVENTS),
        ("minute", ctypes.c_uint8 * 4),
        ("from", ctypes.c_uint8 * 4 * _EVENTS),
        ("until", ctypes.c_uint8 * 4 * _EVENTS),
        ("spare", ctypes.c_uint8 * 80),
    ]


class _Entry(ctypes.Structure):
    """An entry of a batch, as `sinewhopa_entry` in the header."""

    _fields_ = [
        ("kind", ctypes.c_uint8),
        ("number", ctypes.c_uint8),
        ("refused", ctypes.c_uint8),
        ("fate", ctypes.c_uint8),
    ]


def _signatures() -> dict:
    """The functions of the header: of each, what it returns and what it takes."""
    byte, minute, size = ctypes.c_uint8, ctypes.c_uint32, ctypes.c_size_t
    text, out, at = ctypes.c_char_p, ctypes.POINTER(ctypes.c_char), ctypes.POINTER(size)
    state = ctypes.POINTER(_Image)
    return {
        "sinewhopa_version": (ctypes.c_uint16, []),
        "sinewhopa_open": (byte, [state, text, size, at]),
        "sinewhopa_submit": (byte, [state, byte]),
        "sinewhopa_close_step": (byte, [state, byte]),
        "sinewhopa_finish": (byte, [state]),
        "sinewhopa_advance": (byte, [state, minute]),
        "sinewhopa_submit_all": (byte, [state, ctypes.POINTER(_Entry), size]),
        "sinewhopa_preview": (byte, [state, byte, ctypes.POINTER(byte)]),
        "sinewhopa_write_sheet": (byte, [state, out, size, at]),
        "sinewhopa_open_journal": (byte, [state, text, size, at, at]),
        "sinewhopa_append": (byte, [out, size, size, byte, minute, at, at]),
        "sinewhopa_record": (size, [byte, minute, out]),
        "sinewhopa_check": (byte, [state]),
        "sinewhopa_report": (size, [state, size, out, size]),
        "sinewhopa_run": (size, [text, size, text, size, out, size]),
    }


def _library_path() -> str:
    """Where the shared library is."""
    named = os.environ.get("SINEWHOPA_LIBRARY")
    if named:
        return os.path.abspath(named)
    folder = os.path.dirname(os.path.abspath(__file__))
    names = ("libsinewhopa.so", f"libsinewhopa.so.{_VERSION[0]}")
    beside = [os.path.join(folder, name) for name in names if os.path.exists(os.path.join(folder, name))]
    found = beside[0] if beside else ctypes.util.find_library("sinewhopa")
    if found:
        return found
    raise ImportError(
        "sinewhopa: found no libsinewhopa.so. Build it with `make` at the top of the repository and set "
        "SINEWHOPA_LIBRARY to its path, target/shared/libsinewhopa.so; or install it with `make install` and `ldconfig`"
    )


def _load() -> ctypes.CDLL:
    """The shared library, with its functions declared."""
    path = _library_path()
    try:
        library = ctypes.CDLL(path)
    except OSError as error:
        raise ImportError(f"sinewhopa: cannot load {path}: {error}") from error
    for name, (returned, taken) in _signatures().items():
        try:
            function = getattr(library, name)
        except AttributeError as error:
            raise ImportError(f"sinewhopa: {path} has no function {name}: it is another or an older library") from error
        function.restype, function.argtypes = returned, taken
    linked = divmod(library.sinewhopa_version(), 256)
    if linked[0] != _VERSION[0] or linked[1] < _VERSION[1]:
        there, here = (".".join(map(str, each)) for each in (linked, _VERSION))
        raise ImportError(f"sinewhopa: {path} is version {there}; this module needs {here} or a later {_VERSION[0]}.x")
    return library


def _number(what: str, value: object, most: int) -> int:
    """The value as a number from 0 to `most`; an error where it is none."""
    if isinstance(value, bool):
        raise TypeError(f"{what}: a number is needed, not {value!r}")
    try:
        number = operator.index(value)
    except TypeError:
        raise TypeError(f"{what}: a number is needed, not {value!r}") from None
    if not 0 <= number <= most:
        raise ValueError(f"{what}: {number} is not from 0 to {most}")
    return number


def _bytes(what: str, value: object) -> bytes:
    """The value as bytes; an error where it is neither bytes nor a buffer of them."""
    if not isinstance(value, (bytes, bytearray, memoryview)):
        raise TypeError(f"{what}: bytes are needed, not {type(value).__name__}")
    return bytes(value)


def _lent(buffer: object) -> memoryview:
    """The bytes of a buffer that can be written; an error where there are none."""
    if not isinstance(buffer, (bytearray, memoryview)):
        raise TypeError(f"buffer: a bytearray or a memoryview is needed, not {type(buffer).__name__}")
    view = memoryview(buffer)
    if view.readonly or not view.c_contiguous:
        raise TypeError("buffer: one is needed that can be written, and whose bytes stand in a row")
    return view.cast("B")


def _expect_taken(number: int) -> None:
    if number != 0:
        raise CallFault(number)


def _image(data: Bytes) -> Optional[_Image]:
    """The bytes as a state; none where they are not those of one."""
    data = _bytes("state", data)
    if len(data) != STATE_LENGTH:
        return None
    image = _Image.from_buffer_copy(data)
    return image if _library.sinewhopa_check(image) == 0 else None


def _written(write: Callable[[ctypes.Array, int], int]) -> str:
    """The report that `write` writes into a buffer of as many bytes as it asks for."""
    length = LONGEST_REPORT
    out = ctypes.create_string_buffer(length)
    needed = write(out, length)
    if needed > length:
        out = ctypes.create_string_buffer(needed)
        needed = write(out, needed)
    return out.raw[:needed].decode("ascii")


def _entry(call: Call) -> Tuple[int, int]:
    """The kind and the number of a call's entry."""
    if isinstance(call, Submit):
        return _SUBMIT, _number("event", call.event, _MOST_BYTE)
    if isinstance(call, CloseStep):
        return _CLOSE_STEP, _number("step", call.step, _MOST_BYTE)
    raise TypeError(f"calls: a Submit or a CloseStep is needed, not {call!r}")


def _journal_call(call: JournalCall) -> Tuple[int, int]:
    """The kind and the number of a journal's call."""
    if isinstance(call, Finish):
        return _FINISH, 0
    if isinstance(call, Advance):
        return _ADVANCE, _number("minute", call.minute, _MOST_MINUTE)
    if isinstance(call, (Submit, CloseStep)):
        return _entry(call)
    raise TypeError(f"call: a Submit, a CloseStep, a Finish or an Advance is needed, not {call!r}")


def _answer(entry: _Entry) -> Answer:
    """What the entry of a batch is answered."""
    if entry.refused != 0:
        return CallFault(entry.refused)
    return Fate(entry.fate) if entry.kind == _SUBMIT else None


class State:
    """The state of one plan: what its sheet declares, what has become of each event, the history and the minute.

    `State.open` makes one from a sheet, `State.from_bytes` from stored bytes, `State.open_journal` from a journal. A
    call that is turned down raises `CallFault` and leaves every byte of the state as it was. What a call has settled
    are the new lines of the history: `settled_since` gives them. Two states are equal where their bytes are. A state
    can be changed, so it has no hash. One state is not thread-safe.
    """

    __slots__ = ("_image",)
    __hash__ = None  # type: ignore[assignment]

    def __init__(self) -> None:
        raise TypeError("a State is made by State.open(sheet) or State.from_bytes(data)")

    @classmethod
    def _of(cls, image: _Image) -> State:
        state = cls.__new__(cls)
        state._image = image
        return state

    @classmethod
    def open(cls, sheet: Bytes) -> State:
        """Reads a sheet and gives its first state, at minute 0. Raises `SheetFault` where the sheet is turned down."""
        sheet = _bytes("sheet", sheet)
        image, at = _Image(), ctypes.c_size_t()
        number = _library.sinewhopa_open(image, sheet, len(sheet), at)
        if number != 0:
            raise SheetFault(number, at.value)
        return cls._of(image)

    @classmethod
    def open_journal(cls, journal: Bytes) -> Journal:
        """Opens a journal: a sheet's bytes and, behind them, the record of each call that was taken.

        It may have been cut at any byte behind the sheet: this gives the state after the calls of all whole records.
        Raises `SheetFault` where the sheet is turned down, also for a cut in it (number 1; 8 is never given), and
        `JournalFault` (17) for a record that is no call's or that is turned down there.
        """
        journal = _bytes("journal", journal)
        image, at, leftover = _Image(), ctypes.c_size_t(), ctypes.c_size_t()
        number = _library.sinewhopa_open_journal(image, journal, len(journal), at, leftover)
        if number == _BAD_RECORD:
            raise JournalFault(number, at.value, cls._of(image))
        if number != 0:
            raise SheetFault(number, at.value)
        return Journal(cls._of(image), at.value, leftover.value)

    @classmethod
    def from_bytes(cls, data: Bytes) -> State:
        """The state that `to_bytes` gave. Raises `CallFault` 12 where these are not the bytes of a sound state."""
        image = _image(data)
        if image is None:
            raise CallFault(12)
        return cls._of(image)

    def to_bytes(self) -> bytes:
        """The 384 bytes of the state, to be stored or sent. The layout is the same in later versions."""
        return bytes(self._image)

    def copy(self) -> State:
        """A state of its own with the same bytes."""
        return type(self)._of(_Image.from_buffer_copy(self._image))

    def submit(self, event: int) -> Fate:
        """Hands in an event, at the current minute, and gives its fate: held, done or refused.

        Further events may be settled with it; those of them that were open are forced. An event that is not open any
        more keeps its fate, which is given again. Raises `CallFault` 9 where there is no such event.
        """
        event = _number("event", event, _MOST_BYTE)
        _expect_taken(_library.sinewhopa_submit(self._image, event))
        return Fate(self._image.fate[event])

    def close_step(self, step: int) -> None:
        """Closes a step: its open events lapse; its held ones stay. Raises `CallFault` 9 or 10."""
        _expect_taken(_library.sinewhopa_close_step(self._image, _number("step", step, _MOST_BYTE)))

    def finish(self) -> None:
        """Winds up: what is still held is refused. Raises `CallFault` 11 where a step with events is not closed."""
        _expect_taken(_library.sinewhopa_finish(self._image))

    def advance(self, minute: int) -> None:
        """Moves the minute forward, or to where it stands, and settles what may be settled then.

        What a minute counts from is the host's choice; the library has no clock. A host calls this whenever its clock
        moves, and before it hands in an event. Raises `CallFault` 16 where the minute is below the current one.
        """
        _expect_taken(_library.sinewhopa_advance(self._image, _number("minute", minute, _MOST_MINUTE)))

    def submit_all(self, calls: Iterable[Call]) -> List[Answer]:
        """Makes the calls of a batch in their order, and gives the answer of each.

        The answer is that of a single call: the fate of an event that is handed in, None for a step that is closed, or
        a `CallFault`, which is not raised; the later calls still go ahead. Raises `CallFault` 13 where there are more
        than 64 calls, and then makes none of them.
        """
        asked = [_entry(call) for call in calls]
        entries = (_Entry * max(1, len(asked)))(*asked)
        _expect_taken(_library.sinewhopa_submit_all(self._image, entries, len(asked)))
        return [_answer(entry) for entry in entries[:len(asked)]]

    def preview(self, event: int) -> Preview:
        """Counts, by fate, what handing in the event would settle now. Nothing changes.

        Raises the `CallFault` that `submit` would raise.
        """
        added = (ctypes.c_uint8 * len(Preview._fields))()
        _expect_taken(_library.sinewhopa_preview(self._image, _number("event", event, _MOST_BYTE), added))
        return Preview(*added)

    def settled_since(self, lines: int) -> List[Settlement]:
        """The lines of the history after the first `lines` of them: what was settled since it had so many.

        A host asks for `len(state.history)` before a call and for this after it; or it stores the number of lines that
        it has acted upon, and goes on from there after a restart.
        """
        return self.history[_number("lines", lines, self._image.lines):]

    def to_sheet(self) -> bytes:
        """The state written out as a sheet, to be passed on: events, rules and windows, whatever calls were made."""
        out, need = ctypes.create_string_buffer(1), ctypes.c_size_t()
        _library.sinewhopa_write_sheet(self._image, out, 0, need)  # only asks for the length
        out = ctypes.create_string_buffer(need.value)
        _expect_taken(_library.sinewhopa_write_sheet(self._image, out, len(out), need))
        return out.raw

    def report(self, refused: int = 0) -> str:
        """The report of the state, as the runner prints it after a list in which `refused` calls were turned down."""
        refused = _number("refused", refused, _MOST_COUNT)
        return _written(lambda out, length: _library.sinewhopa_report(self._image, refused, out, length))

    def fate(self, event: int) -> Fate:
        """What has become of an event. Raises `CallFault` 9 where there is no such event."""
        event = _number("event", event, _MOST_BYTE)
        if event >= self._image.events:
            raise CallFault(9)
        return Fate(self._image.fate[event])

    @property
    def fates(self) -> List[Fate]:
        """The fate of each event."""
        return [Fate(number) for number in self._image.fate[:self._image.events]]

    @property
    def held(self) -> List[int]:
        """The events that are held, the lowest first."""
        return [event for event, fate in enumerate(self.fates) if fate == Fate.HELD]

    @property
    def history(self) -> List[Settlement]:
        """The settled events and how each was settled, the oldest first. It only ever grows at its end."""
        image = self._image
        lines = zip(image.line_event[:image.lines], image.line_fate[:image.lines])
        return [Settlement(event, Fate(fate)) for event, fate in lines]

    @property
    def events(self) -> List[Event]:
        """The events that the sheet declares."""
        return [self._event(number) for number in range(self._image.events)]

    @property
    def rules(self) -> List[Rule]:
        """The rules that the sheet declares, each with whether it is recorded as broken."""
        return [self._rule(number) for number in range(self._image.rules)]

    @property
    def minute(self) -> int:
        """The current minute: 0 at first, then the last one that `advance` has taken."""
        return int.from_bytes(self._image.minute, "little")

    def is_closed(self, step: int) -> bool:
        """Whether the step is closed. A step without events never is."""
        step = _number("step", step, _MOST_BYTE)
        return step < _STEPS and self._image.closed[step] == 1

    def _event(self, number: int) -> Event:
        image = self._image
        from_, until = (int.from_bytes(row[number], "little") for row in (getattr(image, "from"), image.until))
        # Where there is no window both are 0; a window ends above 0.
        window = Window(from_, until) if until > 0 else None
        return Event(image.step[number], Attributes(image.attributes[number]), window)

    def _rule(self, number: int) -> Rule:
        image = self._image
        kind = RuleKind(image.rule_kind[number])
        c = image.rule_c[number] if kind == RuleKind.CONDITIONAL else None
        return Rule(kind, image.rule_a[number], image.rule_b[number], c, image.broken[number] == 1)

    def __eq__(self, other: object) -> bool:
        return self.to_bytes() == other.to_bytes() if isinstance(other, State) else NotImplemented

    def __copy__(self) -> State:
        return self.copy()

    def __deepcopy__(self, memo: dict) -> State:
        return self.copy()

    def __reduce__(self) -> tuple:
        return type(self).from_bytes, (self.to_bytes(),)

    def __repr__(self) -> str:
        fates = ", ".join(map(str, self.fates))
        history = ", ".join(map(str, self.history))
        closed = [step for step in range(_STEPS) if self.is_closed(step)]
        broken = [number for number, rule in enumerate(self.rules) if rule.broken]
        return f"<State minute={self.minute} fates=[{fates}] closed={closed} broken={broken} history=[{history}]>"


def append(journal: bytearray, call: JournalCall) -> slice:
    """Makes a call on a journal that grows: its record becomes the journal's end. Gives where the record is.

    Leftover bytes are cut off, but only with the record: what is turned down raises as `append_into` does, and the
    journal stays as it is. A host cuts the stored journal back to the record's `start`, and then stores the record.
    """
    if not isinstance(journal, bytearray):
        raise TypeError(f"journal: a bytearray is needed, not {type(journal).__name__}")
    buffer = journal + bytes(_RECORD_ROOM)
    written = append_into(buffer, len(journal), call)
    journal[written.start:] = buffer[written]
    return written


def append_into(buffer: Union[bytearray, memoryview], length: int, call: JournalCall) -> slice:
    """Makes a call on the journal in the first `length` bytes of a buffer, which may end in leftover bytes.

    The call's record is written behind the last whole one, over leftover bytes, and no other byte changes. Gives where
    it is; its `stop` is the journal's new length. Opening that gives the state after the call. Where anything is turned
    down nothing is written. The first that is so is raised: `CallFault` 14 where `length` is more than the buffer has;
    what `State.open_journal` raises; the `CallFault` of the call; `CallFault` 14 where the record does not fit.
    """
    length = _number("length", length, _MOST_COUNT)
    answer, written = _appended(buffer, length, *_journal_call(call))
    if answer not in (0, _NO_ROOM):
        State.open_journal(bytes(_lent(buffer)[:length]))  # raises where it is the journal that is turned down
    _expect_taken(answer)
    return written


def record(call: JournalCall) -> bytes:
    """The bytes of a call's record.

    A host that keeps a state makes the call on it, and stores these bytes behind the last whole record once the call
    is taken. Its journal is the one that `append` makes, and it needs no replay.
    """
    out = ctypes.create_string_buffer(_RECORD_ROOM)
    length = _library.sinewhopa_record(*_journal_call(call), out)
    return out.raw[:length]


def _appended(buffer: Union[bytearray, memoryview], length: int, kind: int, number: int) -> Tuple[int, slice]:
    """What the library answers, and from where to where it has written. The buffer is lent no longer than this."""
    view = _lent(buffer)
    new_length, at = ctypes.c_size_t(), ctypes.c_size_t()
    lent = (ctypes.c_char * len(view)).from_buffer(view)
    answer = _library.sinewhopa_append(lent, len(view), length, kind, number, new_length, at)
    return answer, slice(at.value, new_length.value)


def check(data: Bytes) -> bool:
    """Whether these are the bytes of a sound state, so that `State.from_bytes` takes them."""
    return _image(data) is not None


def run(sheet: Bytes, calls: Bytes) -> str:
    """Makes a whole list of calls on a sheet and gives the report, as the runner prints it. Any bytes may be given."""
    sheet, calls = _bytes("sheet", sheet), _bytes("calls", calls)
    return _written(lambda out, length: _library.sinewhopa_run(sheet, len(sheet), calls, len(calls), out, length))


def version() -> Version:
    """The version of the library that is loaded."""
    return Version(*divmod(_library.sinewhopa_version(), 256))


_library = _load()
