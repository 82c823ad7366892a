"""Journals: what opens after a cut and after damage, what appending writes, and what is turned down."""

import pickle
import random
import unittest

from common import CASE_A, CHAPEL, CIRCLE, EVERY_KIND, FORCES

import sinewhopa
from sinewhopa import (
    Advance,
    CallFault,
    CloseStep,
    Fate,
    Finish,
    JournalFault,
    SheetFault,
    SinewhopaError,
    State,
    Submit,
    append,
    append_into,
    record,
)

# Calls that CHAPEL takes, one after another, with their records.
CALLS = [
    (Advance(840), bytes([19, 72, 3, 0, 0])),
    (Submit(0), bytes([16, 0])),  # held: too early
    (Advance(870), bytes([19, 102, 3, 0, 0])),  # done
    (Submit(0), bytes([16, 0])),  # it only gives its fate
    (Advance(870), bytes([19, 102, 3, 0, 0])),  # the same minute
    (CloseStep(0), bytes([17, 0])),
    (Finish(), bytes([18])),
]
JOURNAL = CHAPEL + b"".join(each for _, each in CALLS)

# Records that are turned down: what was taken before, the record, and by which number.
TURNED_DOWN = [
    (b"", bytes([16, 1]), 9),
    (b"", bytes([17, 1]), 9),
    (bytes([17, 0]), bytes([17, 0]), 10),
    (b"", bytes([18]), 11),
    (bytes([19, 0, 1, 0, 0]), bytes([19, 255, 0, 0, 0]), 16),
]


def call_of(data):
    """The call of the record at the start of the bytes, and its length; None where it is cut."""
    length = {16: 2, 17: 2, 18: 1, 19: 5}[data[0]]
    if len(data) < length:
        return None
    number = int.from_bytes(data[1:length], "little")
    return {16: Submit, 17: CloseStep, 18: lambda _: Finish(), 19: Advance}[data[0]](number), length


def make(state, call):
    """Makes the call on the state. Gives its fault, or None."""
    try:
        if isinstance(call, Submit):
            state.submit(call.event)
        elif isinstance(call, CloseStep):
            state.close_step(call.step)
        elif isinstance(call, Finish):
            state.finish()
        else:
            state.advance(call.minute)
    except CallFault as fault:
        return fault
    return None


def expected(journal):
    """What opening has to give or to raise, made of the calls of a state."""
    try:
        state, end = State.open(journal), len(journal)
    except SheetFault as fault:
        if fault.number != 8:
            return fault
        state, end = State.open(journal[: fault.offset]), fault.offset
    while end < len(journal):
        if not 16 <= journal[end] <= 19:
            return JournalFault(17, end, state)
        found = call_of(journal[end:])
        if found is None:
            break
        if make(state, found[0]) is not None:
            return JournalFault(17, end, state)
        end += found[1]
    return state, end, len(journal) - end


def result(function, *given):
    """What a function gives or raises."""
    try:
        return function(*given)
    except SinewhopaError as fault:
        return fault


class Journals(unittest.TestCase):
    def opened(self, journal):
        given = result(State.open_journal, journal)
        self.assertEqual(given, expected(bytes(journal)), bytes(journal))
        return given

    def appended(self, buffer, length, call):
        """Appends through both functions. Sees that only the record is written, and nothing where it is turned down."""
        lent = bytearray(buffer)
        given = result(append_into, lent, length, call)
        wanted, grown = bytearray(buffer), bytearray(buffer[:length])
        if isinstance(given, slice):
            wanted[given] = record(call)
            self.assertEqual(append(grown, call), given)
            self.assertEqual(grown, wanted[: given.stop])
        elif given != CallFault(14):
            self.assertEqual(result(append, grown, call), given)
            self.assertEqual(grown, buffer[:length])
        self.assertEqual(lent, wanted)
        return given

    def test_records(self):
        for number in range(256):
            self.assertEqual(record(Submit(number)), bytes([16, number]))
            self.assertEqual(record(CloseStep(number)), bytes([17, number]))
        self.assertEqual(record(Finish()), b"\x12")
        for minute in (0, 1, 255, 256, 870, 0x04030201, 2**32 - 1):
            self.assertEqual(record(Advance(minute)), b"\x13" + minute.to_bytes(4, "little"))
        self.assertEqual([record(call) for call, _ in CALLS], [each for _, each in CALLS])

    def test_a_journal_may_be_cut_at_each_byte(self):
        state, end, calls = State.open(CHAPEL), len(CHAPEL), list(CALLS)
        for length in range(len(CHAPEL)):
            fault = self.opened(JOURNAL[:length])
            self.assertEqual((type(fault), fault.number), (SheetFault, 1))
        for length in range(len(CHAPEL), len(JOURNAL) + 1):
            if calls and end + len(calls[0][1]) == length:
                self.assertIsNone(make(state, calls.pop(0)[0]))
                end = length
            self.assertEqual(self.opened(JOURNAL[:length]), (state, end, length - end))
        self.assertEqual((end, calls), (len(JOURNAL), []))

    def test_what_a_journal_may_be(self):
        for given in (JOURNAL, bytearray(JOURNAL), memoryview(JOURNAL)):
            opened = self.opened(given)
            self.assertEqual((opened.state.fate(0), opened.end, opened.leftover), (Fate.DONE, len(JOURNAL), 0))
        for wrong in (None, 5, "", [5], object()):
            with self.assertRaises(TypeError):
                State.open_journal(wrong)

    def test_faults_of_the_sheet(self):
        for sheet in (b"", b"\x08", bytes([6, 0, 6, 1, 6, 2, 6, 3, 6, 4, 5]), bytes([1, 8, 0, 5]), bytes([1, 0, 4, 5]),
                      bytes([1, 0, 6, 2, 0, 1, 5]), bytes([1, 0, 1, 1, 1, 6, 3, 0, 1, 5]),
                      bytes([1, 0, 2, 7, 0, 0, 0, 0, 0, 1, 0, 0, 0, 5])):
            fault = self.opened(sheet)
            self.assertEqual((type(fault), fault), (SheetFault, result(State.open, sheet)))
            self.assertEqual(self.appended(sheet + bytes(5), len(sheet), Submit(0)), fault)
        self.assertEqual(self.opened(b"\x05\x05"), JournalFault(17, 1, State.open(b"\x05")))

    def test_kinds_that_are_no_calls(self):
        for kind in [*range(16), *range(20, 256)]:
            for behind in (b"", b"\0", bytes([16, 0])):
                fault = self.opened(JOURNAL + bytes([kind]) + behind)
                self.assertEqual((fault.number, fault.offset), (17, len(JOURNAL)))
                self.assertEqual(fault.before, State.open_journal(JOURNAL).state)

    def test_records_that_are_turned_down(self):
        for taken, each, number in TURNED_DOWN:
            whole = CHAPEL + taken
            state = self.opened(whole).state
            for length in range(len(each)):  # left over, whatever stands in it
                self.assertEqual(self.opened(whole + each[:length]), (state, len(whole), length))
            for behind in (b"", bytes([16, 0]), b"\x63"):
                self.assertEqual(self.opened(whole + each + behind), JournalFault(17, len(whole), state))
            self.assertEqual(self.appended(whole + bytes(5), len(whole), call_of(each)[0]), CallFault(number))

    def test_the_first_fault_is_raised(self):
        damaged, end = CHAPEL + b"\x63", len(CHAPEL)
        bad = JournalFault(17, end, State.open(CHAPEL))
        for buffer, length, call, fault in [
            (damaged, end + 2, Submit(9), CallFault(14)),
            (damaged, 2**64 - 1, Submit(9), CallFault(14)),
            (b"", 1, Submit(9), CallFault(14)),
            (b"", 0, Submit(9), SheetFault(1, 0)),
            (damaged, end + 1, Submit(9), bad),
            (damaged, end + 1, Submit(0), bad),
            (damaged[:5], 5, Submit(9), SheetFault(1, 3)),
            (CHAPEL, end, Submit(9), CallFault(9)),
            (CHAPEL, end, Finish(), CallFault(11)),
            (CHAPEL, end, Submit(0), CallFault(14)),
            (CHAPEL + b"\0", end, Submit(0), CallFault(14)),
            (CHAPEL + b"\x13\0\0\0", end + 4, Advance(7), CallFault(14)),
            (CHAPEL + b"\x13\0\0\0", end + 4, Submit(0), slice(end, end + 2)),
        ]:
            self.assertEqual(self.appended(buffer, length, call), fault)

    def test_leftover_bytes_are_written_over(self):
        stored = CHAPEL + bytes([19, 1, 2, 3])
        end = len(CHAPEL)
        buffer = bytearray(stored + b"MMM")
        self.assertEqual(append_into(buffer, len(stored), Submit(0)), slice(end, end + 2))
        self.assertEqual(buffer, CHAPEL + bytes([16, 0, 2, 3]) + b"MMM")
        grown = bytearray(stored)
        with self.assertRaises(CallFault):
            append(grown, Finish())
        self.assertEqual(grown, stored)
        self.assertEqual(append(grown, Submit(0)), slice(end, end + 2))
        self.assertEqual(grown, CHAPEL + bytes([16, 0]))

    def test_appending_equals_a_call(self):
        numbers, met = random.Random(8), set()
        for sheet in [CASE_A, CHAPEL, CIRCLE, EVERY_KIND, FORCES] * 40:
            state, journal = State.open(sheet), sheet
            for _ in range(10):
                minute = max(0, state.minute + numbers.randrange(-1, 3))
                submit, close = Submit(numbers.randrange(6)), CloseStep(numbers.choice([0, 1, 7, 9]))
                call = numbers.choice([submit, submit, close, Finish(), Advance(minute)])
                stored = journal + numbers.choice([b"", b"\x10", b"\x11", b"\x13\x09\x09"])
                given, fault = self.appended(stored + b"M" * 9, len(stored), call), make(state, call)
                met.add(fault)
                if fault is None:
                    self.assertEqual(given, slice(len(journal), len(journal) + len(record(call))))
                    journal += record(call)
                else:
                    self.assertEqual(given, fault)
                self.assertEqual(self.opened(journal), (state, len(journal), 0))
        self.assertEqual(met, {None, CallFault(9), CallFault(10), CallFault(11), CallFault(16)})

    def test_damaged_bytes(self):
        met = set()
        for place in range(len(JOURNAL)):
            for value in range(256):
                damaged = JOURNAL[:place] + bytes([value]) + JOURNAL[place + 1 :]
                opened = self.opened(damaged)
                met.add(getattr(opened, "number", 0))
                given = self.appended(damaged + b"MM", len(damaged), Submit(0))
                self.assertEqual(isinstance(given, SinewhopaError), isinstance(opened, SinewhopaError))
        self.assertEqual(met, {0, 2, 4, 5, 6, 15, 17})


class Arguments(unittest.TestCase):
    def test_what_is_no_call(self):
        journal = bytearray(CHAPEL)
        for wrong in (0, (16, 0), "finish", None, Finish, Submit):
            for call in (lambda: record(wrong), lambda: append(journal, wrong), lambda: append_into(journal, 1, wrong)):
                with self.assertRaises(TypeError) as caught:
                    call()
                self.assertIn(repr(wrong), str(caught.exception))
        for changed, name, value in ((Submit(0), "event", 256), (Advance(0), "minute", 2**32)):
            object.__setattr__(changed, name, value)
            with self.assertRaises(ValueError):
                append(journal, changed)
        self.assertEqual(journal, CHAPEL)
        for call in (Finish(), Advance(0)):
            with self.assertRaises(TypeError):
                State.open(CHAPEL).submit_all([call])

    def test_numbers(self):
        for wrong in (-1, 2**32, 2**64):
            with self.assertRaises(ValueError):
                Advance(wrong)
            if wrong != 2**32:
                with self.assertRaises(ValueError):
                    append_into(bytearray(CHAPEL), wrong, Finish())
        for wrong in (True, None, 1.0, "1"):
            with self.assertRaises(TypeError):
                Advance(wrong)
            with self.assertRaises(TypeError):
                append_into(bytearray(CHAPEL), wrong, Finish())

    def test_buffers(self):
        for wrong in (CHAPEL, list(CHAPEL), "a", None):
            with self.assertRaises(TypeError):
                append(wrong, Submit(0))
        room = bytearray(CHAPEL + bytes(8))
        for wrong in (CHAPEL, list(CHAPEL), None, memoryview(CHAPEL), memoryview(room)[::2]):
            with self.assertRaises(TypeError):
                append_into(wrong, 1, Submit(0))
        with self.assertRaises(TypeError):
            append(memoryview(room), Submit(0))
        end = len(CHAPEL)
        self.assertEqual(append_into(memoryview(room)[: end + 2], end, Submit(0)), slice(end, end + 2))
        self.assertEqual(room, CHAPEL + bytes([16, 0]) + bytes(6))

    def test_a_buffer_is_not_lent_for_longer(self):
        for length in (len(CHAPEL), 3):
            buffer = bytearray(CHAPEL)
            try:
                append_into(buffer, length, Submit(0))
            except SinewhopaError:
                buffer.extend(bytes(2))
            self.assertEqual(buffer, CHAPEL + bytes(2))

    def test_calls_and_faults_are_values(self):
        self.assertEqual({Finish(): 1, Advance(7): 2}[Advance(minute=7)], 2)
        self.assertNotEqual(Advance(7), Advance(8))
        self.assertEqual((repr(Finish()), repr(Advance(7))), ("Finish()", "Advance(minute=7)"))
        state = State.open(CHAPEL)
        fault = JournalFault(17, 14, state)
        self.assertEqual((fault, hash(fault)), (JournalFault(17, 14, state.copy()), hash(JournalFault(17, 14, state))))
        self.assertNotEqual(fault, JournalFault(17, 15, state))
        self.assertNotEqual(fault, JournalFault(17, 14, State.open(CASE_A)))
        self.assertNotEqual(fault, SheetFault(17, 14))
        again = pickle.loads(pickle.dumps(fault))
        self.assertEqual((again, again.before), (fault, state))
        self.assertEqual(str(JournalFault(60, 2, state)), "turned down by number 60, at offset 2 of the journal")


if __name__ == "__main__":
    unittest.main()
