"""What is turned down: every number that can be reached from here, wrong types and ranges, and damaged bytes."""

import pickle
import unittest

from common import CASE_A, CHAPEL

import sinewhopa
from sinewhopa import CallFault, CloseStep, SheetFault, SinewhopaError, State, Submit

# A sheet of each fault, with its number and offset.
SHEETS = [
    (bytes([1, 0, 6]), 1, 3),
    (b"", 1, 0),
    (bytes([8]), 2, 0),
    (bytes([6, 0, 6, 1, 6, 2, 6, 3, 6, 4, 5]), 3, 8),
    (bytes([1, 8, 0, 5]), 4, 0),
    (bytes([1, 0, 4, 5]), 5, 0),
    (bytes([1, 0, 6, 2, 0, 1, 5]), 6, 3),
    (bytes([1, 0, 1, 1, 1, 6, 3, 0, 1, 5]), 7, 6),
    (bytes([5, 5]), 8, 1),
    (bytes([1, 0, 2, 7, 0, 0, 0, 0, 0, 1, 0, 0, 0, 5]), 15, 3),
]

# What is no number of a byte: of another type, or out of range.
WRONG_TYPES = [True, False, None, 1.0, "1", b"\x01", [1], 1j]
WRONG_BYTES = [-1, 256, 257, 2**32, 2**64, -(2**64)]


class Sheets(unittest.TestCase):
    def test_each_fault_of_a_sheet(self):
        for sheet, number, offset in SHEETS:
            with self.assertRaises(SheetFault) as caught:
                State.open(sheet)
            fault = caught.exception
            self.assertEqual((fault.number, fault.offset), (number, offset))
            self.assertTrue(str(fault).endswith(f", at offset {offset} of the sheet"))
            self.assertNotIn("number", str(fault))
            self.assertEqual(sinewhopa.run(sheet, b""), f"refused {number} at {offset}\n")

    def test_what_is_no_sheet(self):
        for sheet in (None, 5, "", [5], (5,), object()):
            with self.assertRaises(TypeError):
                State.open(sheet)
            with self.assertRaises(TypeError):
                sinewhopa.run(sheet, b"")
            with self.assertRaises(TypeError):
                sinewhopa.run(b"", sheet)


class Calls(unittest.TestCase):
    def setUp(self):
        self.state = State.open(CASE_A)
        self.state.submit(0)
        self.state.advance(7)
        self.before = self.state.to_bytes()

    def turned_down(self, number, call, *given):
        with self.assertRaises(CallFault) as caught:
            call(*given)
        self.assertEqual(caught.exception.number, number)
        self.assertEqual(self.state.to_bytes(), self.before)

    def test_each_fault_of_a_call(self):
        state = self.state
        for event in (2, 16, 255):
            self.turned_down(9, state.submit, event)
            self.turned_down(9, state.preview, event)
            self.turned_down(9, state.fate, event)
        for step in (2, 8, 255):
            self.turned_down(9, state.close_step, step)
        self.turned_down(11, state.finish)
        self.turned_down(16, state.advance, 6)
        self.turned_down(13, state.submit_all, [Submit(1)] * 65)
        self.assertEqual(state.submit_all([Submit(2), CloseStep(2)]), [CallFault(9)] * 2)
        self.assertEqual(state.to_bytes(), self.before)
        state.close_step(0)
        self.before = state.to_bytes()
        self.turned_down(10, state.close_step, 0)

    def test_bytes_of_no_state(self):
        for data in (b"", bytes(384), self.before[:-1], self.before + b"\0", self.before * 2):
            self.turned_down(12, State.from_bytes, data)
            self.assertFalse(sinewhopa.check(data))
        for data in (None, 384, "a", list(self.before)):
            with self.assertRaises(TypeError):
                State.from_bytes(data)
            with self.assertRaises(TypeError):
                sinewhopa.check(data)

    def test_damaged_bytes_are_no_state_or_one_that_works(self):
        taken, values = 0, (0, 1, 2, 3, 4, 5, 6, 7, 16, 17, 128, 255)
        for place in range(len(self.before)):
            for value in values:
                data = bytearray(self.before)
                data[place] = value
                if sinewhopa.check(data):
                    taken += 1
                    self.works(State.from_bytes(data), bytes(data))
                else:
                    self.turned_down(12, State.from_bytes, data)
        # The byte as it was, at each place, and others; but not nearly all.
        self.assertGreater(taken, len(self.before))
        self.assertLess(taken, len(self.before) * len(values) // 2)

    def works(self, state, data):
        self.assertEqual(state.to_bytes(), data)
        self.assertTrue(repr(state).startswith("<State minute="))
        self.assertEqual((len(state.events), len(state.rules)), (data[1], data[2]))
        self.assertEqual(State.open(state.to_sheet()).events, state.events)
        answers = state.submit_all([Submit(0), Submit(1), CloseStep(0), CloseStep(1)])
        self.assertEqual(len(answers), 4)
        state.advance(2**32 - 1)
        self.assertTrue(sinewhopa.check(state.to_bytes()))


class Numbers(unittest.TestCase):
    def setUp(self):
        self.state = State.open(CHAPEL)
        self.before = self.state.to_bytes()

    def tearDown(self):
        self.assertEqual(self.state.to_bytes(), self.before)

    def test_numbers_of_other_types(self):
        state = self.state
        calls = [state.submit, state.close_step, state.advance, state.preview, state.fate, state.is_closed]
        for call in calls + [state.report, state.settled_since, Submit, CloseStep]:
            for wrong in WRONG_TYPES:
                with self.assertRaises(TypeError) as caught:
                    call(wrong)
                self.assertIn(repr(wrong), str(caught.exception))

    def test_numbers_out_of_range(self):
        state = self.state
        for call in [state.submit, state.close_step, state.preview, state.fate, state.is_closed, Submit, CloseStep]:
            for wrong in WRONG_BYTES:
                with self.assertRaises(ValueError) as caught:
                    call(wrong)
                self.assertIn(f"{wrong} is not from 0 to 255", str(caught.exception))
        for call, wrongs in [
            (state.advance, [-1, 2**32, 2**64]),
            (state.report, [-1, 2**64]),
            (state.settled_since, [-1, 1, 17]),
        ]:
            for wrong in wrongs:
                with self.assertRaises(ValueError):
                    call(wrong)

    def test_what_is_no_call(self):
        for wrong in (0, (16, 0), "submit", None, Submit):
            with self.assertRaises(TypeError):
                self.state.submit_all([Submit(0), wrong])
        with self.assertRaises(TypeError):
            self.state.submit_all(Submit(0))
        for changed, name in ((Submit(0), "event"), (CloseStep(0), "step")):
            object.__setattr__(changed, name, 256)
            with self.assertRaises(ValueError):
                self.state.submit_all([changed])

    def test_anything_that_is_a_whole_number(self):
        class Zero:
            def __index__(self):
                return 0

        self.assertEqual(self.state.copy().submit(Zero()), sinewhopa.Fate.HELD)
        self.assertEqual(self.state.submit_all([]), [])
        self.assertEqual(self.state.copy().submit_all([Submit(Zero())]), [sinewhopa.Fate.HELD])


class Faults(unittest.TestCase):
    def test_faults_are_values(self):
        self.assertEqual(CallFault(9), CallFault(9))
        self.assertNotEqual(CallFault(9), CallFault(10))
        self.assertNotEqual(SheetFault(2, 0), SheetFault(2, 1))
        self.assertNotEqual(CallFault(2), SheetFault(2, 0))
        self.assertEqual(len({CallFault(9), CallFault(9), SheetFault(2, 0)}), 2)
        for fault in (CallFault(9), SheetFault(2, 5)):
            self.assertIsInstance(fault, SinewhopaError)
            self.assertEqual(pickle.loads(pickle.dumps(fault)), fault)
        self.assertEqual(repr(SheetFault(2, 5)), "SheetFault(2, 5)")

    def test_numbers_without_words(self):
        self.assertEqual(str(CallFault(61)), "turned down by number 61")
        self.assertEqual(str(SheetFault(60, 2)), "turned down by number 60, at offset 2 of the sheet")


if __name__ == "__main__":
    unittest.main()
