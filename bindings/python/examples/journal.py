"""An office that keeps a journal: a sheet, and a record behind it for each call.

The machine loses power in the middle of a record. The journal then opens to the state before that call, the chapel's
reply is taken again, and nothing is carried out twice. A bytearray stands for the disk. The office carries out what a
call has settled only once the record is stored, and writes down how many lines of the history it has carried out. It
prints what examples/journal of the repository prints in C, and fails where anything is not so.

    export PYTHONPATH=bindings/python SINEWHOPA_LIBRARY=target/shared/libsinewhopa.so
    python3 bindings/python/examples/journal.py
"""

import sys

from sinewhopa import Advance, CallFault, JournalFault, SheetFault, State, Submit, append, record

CHAPEL, NOTICE = 0, 1
NAMES = ("chapel", "notice")

# Both events may be refused and can wait. The chapel before the notice, the notice only if the chapel; and the chapel
# confirms from 14:30 up to, but not including, 15:00.
SHEET = bytes([1, 0, 6, 1, 1, 6, 2, 0, 1, 3, 1, 0, 7, 0, 102, 3, 0, 0, 132, 3, 0, 0, 5])


def at(hours: int, minutes: int) -> int:
    """A time of the day as a minute."""
    return hours * 60 + minutes


def told(minute: int, call) -> str:
    """A call at a minute, in words."""
    words = f"{NAMES[call.event]} handed in" if isinstance(call, Submit) else "advance"
    return f"{minute // 60:02}:{minute % 60:02} {words}"


def expect(so: bool) -> None:
    """Ends the program where it is not so."""
    if not so:
        sys.exit("something is not as it has to be")


def tell_fates(state: State) -> None:
    print(" ", ", ".join(f"{name} {fate}" for name, fate in zip(NAMES, state.fates)))


class Office:
    """What outlasts a loss of power: the journal, and how many lines of the history were carried out."""

    def __init__(self) -> None:
        self.journal = bytearray(SHEET)
        self.carried_out = 0
        print(f"a new journal: the sheet, {len(SHEET)} bytes")

    def state(self) -> State:
        return State.open_journal(self.journal).state

    def store(self, minute: int, call) -> None:
        """Makes a call: its record is stored behind the last whole one."""
        written = append(self.journal, call)
        length = written.stop - written.start
        print(f"{told(minute, call)}: {length} bytes at {written.start}, journal {len(self.journal)}")

    def lose_power(self, minute: int, call: Submit) -> None:
        """Makes a call on a state that the office keeps; of its record only the first byte gets onto the disk."""
        self.state().submit(call.event)
        each = record(call)
        self.journal += each[:1]
        print(f"{told(minute, call)}: the power goes after 1 of {len(each)} bytes")

    def open_again(self, leftover: int) -> None:
        """The machine starts again, and so many bytes are left over."""
        opened = State.open_journal(self.journal)
        print(f"opened again: {len(self.journal)} bytes, whole up to {opened.end}, leftover {opened.leftover}")
        expect(opened.leftover == leftover and opened.state.minute == at(14, 30))
        self.go_on()
        if leftover > 0:
            del self.journal[opened.end:]  # before a record is stored: only the end can be lost then
            print(f"cut back to {opened.end}")

    def go_on(self) -> None:
        """Carries out what is settled, and was not carried out before."""
        state = self.state()
        tell_fates(state)
        new = [NAMES[event] for event, fate in state.settled_since(self.carried_out) if fate.counts_as_done]
        self.carried_out = len(state.history)
        print("  carried out:", ", ".join(new) or "nothing")

    def try_backward(self, minute: int) -> None:
        """An earlier minute is turned down, and no byte is written."""
        before = bytes(self.journal)
        try:
            append(self.journal, Advance(minute))
        except CallFault as fault:
            print(f"{told(minute, Advance(minute))}: turned down, {fault.number}, journal {len(self.journal)}")
        expect(self.journal == before)

    def damage(self, place: int, kind: int) -> None:
        """A byte that was changed is no cut. The state before it is given."""
        damaged = bytearray(self.journal)
        damaged[place] = kind
        try:
            State.open_journal(damaged)
        except JournalFault as fault:
            print(f"kind {kind} at {place}: turned down, {fault.number} at {fault.offset}")
            tell_fates(fault.before)

    def cut_everywhere(self) -> None:
        """Wherever the journal is cut, the state is the one after the whole records."""
        sheet = inside = behind = 0
        for length in range(len(self.journal) + 1):
            try:
                opened = State.open_journal(self.journal[:length])
            except SheetFault:
                sheet += 1
                continue
            expect(State.open_journal(self.journal[: opened.end]) == (opened.state, opened.end, 0))
            inside += opened.leftover > 0
            behind += opened.leftover == 0
        print(f"cut at every byte: {sheet} in the sheet, {inside} in a record, {behind} behind one")


def main() -> None:
    office = Office()
    office.store(at(14, 0), Advance(at(14, 0)))
    office.store(at(14, 0), Submit(NOTICE))
    tell_fates(office.state())
    office.store(at(14, 30), Advance(at(14, 30)))
    office.lose_power(at(14, 30), Submit(CHAPEL))
    office.open_again(1)
    office.store(at(14, 30), Submit(CHAPEL))
    office.go_on()
    office.open_again(0)
    office.store(at(14, 30), Submit(CHAPEL))  # the reply comes twice
    office.go_on()
    office.try_backward(at(14, 29))
    office.damage(30, 20)
    office.cut_everywhere()


if __name__ == "__main__":
    main()
