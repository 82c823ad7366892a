"""A chapel that confirms only within hours: from 14:30 up to, but not including, 15:00.

A reply that comes too early waits until the clock is there; one that comes too late is refused. The notice goes out
after the chapel has confirmed, and only if it has. The host moves the state's minute whenever its clock moves, and
before it hands in a reply. It prints what examples/chapel of the repository prints in C, and fails where anything is
not so.

    export PYTHONPATH=bindings/python SINEWHOPA_LIBRARY=target/shared/libsinewhopa.so
    python3 bindings/python/examples/chapel.py
"""

import sys
import tempfile

from sinewhopa import CallFault, Fate, State, Window

CHAPEL, NOTICE = 0, 1
NAMES = ("chapel", "notice")


def at(hours: int, minutes: int) -> int:
    """A time of the day as a minute. Here minutes count from the plan's first midnight; any start will do."""
    return hours * 60 + minutes


WINDOW = Window(at(14, 30), at(15, 0))

# As `State.to_sheet` writes it.
SHEET = (
    bytes([1, 0, 6])  # event 0, the chapel confirms: step 0; may be refused and can wait
    + bytes([1, 1, 6])  # event 1, the notice goes out: step 1; may be refused and can wait
    + bytes([2, 0, 1])  # rule 0, order: the chapel before the notice
    + bytes([3, 1, 0])  # rule 1, need: the notice only if the chapel
    + bytes([7, 0])  # a window of the chapel: from, until
    + WINDOW.from_.to_bytes(4, "little")
    + WINDOW.until.to_bytes(4, "little")
    + bytes([5])  # the end
)


def time(minute: int) -> str:
    """A minute as a time of the day."""
    return f"{minute // 60:02}:{minute % 60:02}"


def expect(so: bool) -> None:
    """Ends the program where it is not so."""
    if not so:
        sys.exit("something is not as it has to be")


def open_plan(name: str) -> State:
    print(f"{name}:")
    state = State.open(SHEET)
    expect(state.events[CHAPEL].window == WINDOW and state.events[NOTICE].window is None)
    return state


def clock_moves(state: State, minute: int, settles: int) -> None:
    """What a host does whenever its clock moves: the minute, then what it has settled."""
    before = len(state.history)
    state.advance(minute)
    lines = [f"{NAMES[event]} {fate}" for event, fate in state.settled_since(before)]
    print(time(minute), ", ".join(lines) or "nothing settled")
    expect(len(lines) == settles and state.minute == minute)


def reply(state: State, minute: int, event: int, fate: Fate) -> None:
    """A reply comes in: first the minute, then the event."""
    state.advance(minute)
    answer = state.submit(event)
    print(f"{time(minute)} {NAMES[event]} handed in: {answer}")
    expect(answer == fate)


def save_and_load(state: State) -> State:
    """Saves the state and reads it back."""
    with tempfile.TemporaryFile() as file:
        file.write(state.to_bytes())
        file.seek(0)
        loaded = State.from_bytes(file.read())
    print(time(loaded.minute), "saved and read back")
    expect(loaded == state)
    return loaded


def try_backward(state: State, minute: int) -> None:
    """No minute comes again: an earlier one is turned down, and nothing changes."""
    before = state.copy()
    try:
        state.advance(minute)
    except CallFault as fault:
        print(f"{time(minute)} turned down, {fault.number}")
    expect(state == before)


def write_out(state: State) -> None:
    """The sheet is written with its window, whatever the minute is."""
    sheet = state.to_sheet()
    print("sheet", *(f"{byte:02x}" for byte in sheet))
    expect(sheet == SHEET)


def too_early() -> None:
    """The reply waits, and the notice with it. Both are done when the window opens, on the state that was read back."""
    state = open_plan("too early")
    reply(state, at(14, 0), NOTICE, Fate.HELD)
    reply(state, at(14, 10), CHAPEL, Fate.HELD)
    clock_moves(state, at(14, 29), 0)
    state = save_and_load(state)
    clock_moves(state, at(14, 30), 2)
    expect(state.fate(NOTICE) == Fate.DONE)
    clock_moves(state, at(14, 30), 0)
    try_backward(state, at(14, 29))
    write_out(state)


def too_late() -> None:
    """At 15:00 it is over. The open event stays open, is refused when it is handed in, and the notice with it."""
    state = open_plan("too late")
    reply(state, at(14, 59), NOTICE, Fate.HELD)
    clock_moves(state, at(15, 0), 0)
    expect(state.fate(CHAPEL) == Fate.OPEN)
    reply(state, at(15, 0), CHAPEL, Fate.REFUSED)
    expect(state.fate(NOTICE) == Fate.REFUSED)


def slept() -> None:
    """The clock leaps over the whole window: the reply that waits is refused. So a host moves the minute often."""
    state = open_plan("slept")
    reply(state, at(14, 29), CHAPEL, Fate.HELD)
    clock_moves(state, at(15, 0), 1)
    expect(state.fate(CHAPEL) == Fate.REFUSED)


def main() -> None:
    too_early()
    too_late()
    slept()
    reply(open_plan("first minute"), at(14, 30), CHAPEL, Fate.DONE)
    reply(open_plan("last minute"), at(14, 59), CHAPEL, Fate.DONE)


if __name__ == "__main__":
    main()
