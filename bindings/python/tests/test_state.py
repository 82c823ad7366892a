"""Every method of a state, and what each gives."""

import copy
import doctest
import pickle
import unittest

from common import CASE_A, CHAPEL, CIRCLE, EVERY_KIND, FORCES

import sinewhopa
from sinewhopa import (
    Attributes,
    CallFault,
    CloseStep,
    Event,
    Fate,
    Preview,
    Rule,
    RuleKind,
    State,
    Submit,
    Version,
    Window,
)


class Calls(unittest.TestCase):
    def test_an_event_waits_and_is_done_with_another(self):
        state = State.open(CASE_A)
        self.assertEqual(state.submit(0), Fate.HELD)
        self.assertEqual((state.fate(0), state.fate(1)), (Fate.HELD, Fate.OPEN))
        self.assertEqual((state.held, state.history), ([0], []))
        self.assertEqual(state.submit(1), Fate.DONE)
        self.assertEqual(state.fates, [Fate.DONE, Fate.DONE])
        self.assertEqual((state.held, state.history), ([], [(0, Fate.DONE), (1, Fate.DONE)]))
        self.assertEqual(state.submit(0), Fate.DONE)

    def test_a_step_is_closed(self):
        state = State.open(CASE_A)
        state.submit(0)
        self.assertIsNone(state.close_step(1))
        self.assertEqual(state.history, [(1, Fate.LAPSED), (0, Fate.REFUSED)])
        self.assertEqual([step for step in range(256) if state.is_closed(step)], [1])

    def test_winding_up_refuses_what_is_held(self):
        state = State.open(CIRCLE)
        state.submit(0)
        state.submit(1)
        state.close_step(0)
        self.assertEqual(state.held, [0, 1])
        self.assertIsNone(state.finish())
        self.assertEqual(state.history, [(0, Fate.REFUSED), (1, Fate.DONE)])

    def test_a_window_opens_and_is_over(self):
        for minute, fate in [(869, Fate.HELD), (870, Fate.DONE), (899, Fate.DONE), (900, Fate.REFUSED)]:
            state = State.open(CHAPEL)
            self.assertEqual(state.minute, 0)
            self.assertIsNone(state.advance(minute))
            self.assertEqual((state.minute, state.submit(0)), (minute, fate))
        state = State.open(CHAPEL)
        state.submit(0)
        state.advance(2**32 - 1)
        self.assertEqual((state.minute, state.fate(0)), (2**32 - 1, Fate.REFUSED))

    def test_a_rule_forces_and_is_broken(self):
        state = State.open(FORCES)
        self.assertEqual(state.submit(0), Fate.DONE)
        self.assertEqual((state.fate(1), state.submit(1)), (Fate.FORCED, Fate.FORCED))
        self.assertFalse(state.rules[0].broken)
        state = State.open(FORCES)
        state.close_step(1)
        self.assertEqual(state.submit(0), Fate.DONE)
        self.assertTrue(state.rules[0].broken)

    def test_a_batch_is_answered_as_single_calls(self):
        calls = [Submit(1), Submit(7), CloseStep(9), Submit(0), CloseStep(1), CloseStep(1), Submit(0)]
        state = State.open(CASE_A)
        answers = state.submit_all(calls)
        self.assertEqual(
            answers,
            [Fate.HELD, CallFault(9), CallFault(9), Fate.DONE, None, CallFault(10), Fate.DONE],
        )
        single = State.open(CASE_A)
        for call, answer in zip(calls, answers):
            try:
                got = single.submit(call.event) if isinstance(call, Submit) else single.close_step(call.step)
            except CallFault as fault:
                got = fault
            self.assertEqual((type(got), got), (type(answer), answer))
        self.assertEqual(single, state)

    def test_batches_of_none_and_of_the_most(self):
        state = State.open(CASE_A)
        before = state.to_bytes()
        self.assertEqual(state.submit_all([]), [])
        self.assertEqual(state.to_bytes(), before)
        answers = state.submit_all(Submit(0) for _ in range(sinewhopa.LONGEST_BATCH))
        self.assertEqual(answers, [Fate.HELD] * 64)

    def test_a_preview_counts_and_leaves_the_state(self):
        state = State.open(FORCES)
        before = state.to_bytes()
        preview = state.preview(0)
        self.assertEqual(preview, Preview(done=1, refused=0, lapsed=0, forced=1))
        self.assertEqual((preview.settled, state.to_bytes()), (2, before))
        state.submit(0)
        self.assertEqual(len(state.history), preview.settled)
        self.assertEqual(state.preview(0), Preview(0, 0, 0, 0))
        # 0 comes as it comes; 1 only if 2, and 1 before 0.
        state = State.open(bytes([1, 0, 0, 1, 1, 6, 1, 2, 0, 3, 1, 2, 2, 1, 0, 5]))
        state.submit(1)
        self.assertEqual(state.preview(0), Preview(done=1, refused=1, lapsed=0, forced=0))

    def test_what_a_call_settled(self):
        state = State.open(CASE_A)
        state.submit(0)
        self.assertEqual(state.settled_since(0), [])
        before = len(state.history)
        state.submit(1)
        settled = state.settled_since(before)
        self.assertEqual(settled, [(0, Fate.DONE), (1, Fate.DONE)])
        self.assertEqual([(line.event, line.fate) for line in settled], settled)
        self.assertEqual([state.settled_since(lines) for lines in (1, 2)], [settled[1:], []])


class Reading(unittest.TestCase):
    def test_what_a_sheet_declares(self):
        state = State.open(EVERY_KIND)
        can_wait = Attributes.REJECTABLE | Attributes.DELAYABLE
        self.assertEqual(
            state.events,
            [
                Event(0, can_wait | Attributes.FORCIBLE, None),
                Event(0, Attributes(0), None),
                Event(0, can_wait, None),
                Event(0, Attributes.FORCIBLE, None),
                Event(7, can_wait, Window(from_=1, until=2**24)),
            ],
        )
        self.assertEqual(
            state.rules,
            [
                Rule(RuleKind.ORDER, 1, 2, None, False),
                Rule(RuleKind.NEED, 4, 2, None, False),
                Rule(RuleKind.CONDITIONAL, 0, 2, 3, False),
            ],
        )

    def test_an_empty_plan(self):
        state = State.open(b"\x05")
        self.assertEqual((state.events, state.rules, state.fates, state.history, state.held), ([], [], [], [], []))
        self.assertEqual((state.to_sheet(), state.minute, state.is_closed(0)), (b"\x05", 0, False))
        self.assertIsNone(state.finish())

    def test_a_state_written_as_a_sheet(self):
        state = State.open(EVERY_KIND)
        state.submit(1)
        state.advance(5)
        sheet = state.to_sheet()
        events = [1, 0, 7, 1, 0, 0, 1, 0, 6, 1, 0, 1, 1, 7, 6]
        rest = [2, 1, 2, 3, 4, 2, 4, 0, 2, 3, 7, 4, 1, 0, 0, 0, 0, 0, 0, 1, 5]
        self.assertEqual(sheet, bytes(events + rest))
        self.assertEqual(State.open(sheet), State.open(EVERY_KIND))
        self.assertEqual(State.open(sheet).to_sheet(), sheet)

    def test_the_longest_sheet(self):
        events = bytes([1, 7, 6]) * 16
        rules = bytes([4, 0, 1, 2]) * 16
        windows = b"".join(bytes([7, event, 0, 0, 0, 0, 1, 0, 0, 0]) for event in range(16))
        sheet = events + rules + windows + b"\x05"
        self.assertEqual(len(sheet), sinewhopa.LONGEST_SHEET)
        self.assertEqual(State.open(sheet).to_sheet(), sheet)

    def test_reports(self):
        state = State.open(CASE_A)
        state.submit(0)
        self.assertEqual(state.report(), "events 2 rules 2\nheld 1\nbroken 0\nrefused calls 0\n")
        self.assertEqual(state.report(2).splitlines()[-1], "refused calls 2")
        self.assertEqual(state.report(refused=2**64 - 1).splitlines()[-1], f"refused calls {2**64 - 1}")
        self.assertEqual(sinewhopa.run(CASE_A, bytes([16, 0, 16, 9, 18])), state.report(2))
        self.assertEqual(sinewhopa.run(b"", b""), "refused 1 at 0\n")


class Values(unittest.TestCase):
    def test_bytes_make_the_same_state(self):
        state = State.open(CASE_A)
        state.submit(0)
        state.advance(7)
        data = state.to_bytes()
        self.assertEqual((type(data), len(data)), (bytes, sinewhopa.STATE_LENGTH))
        for given in (data, bytearray(data), memoryview(data)):
            self.assertTrue(sinewhopa.check(given))
            again = State.from_bytes(given)
            self.assertEqual(again, state)
            again.submit(1)
            self.assertEqual(state.to_bytes(), data)

    def test_copies_are_states_of_their_own(self):
        state = State.open(CASE_A)
        made = [state.copy(), copy.copy(state), copy.deepcopy([state])[0], pickle.loads(pickle.dumps(state))]
        for other in made:
            self.assertEqual((type(other), other), (State, state))
            other.submit(0)
            self.assertNotEqual(other, state)
        self.assertEqual(state.fates, [Fate.OPEN, Fate.OPEN])

    def test_equality_and_hash(self):
        state = State.open(CASE_A)
        self.assertFalse(state != State.open(bytearray(CASE_A)))
        self.assertNotEqual(state, State.open(CIRCLE))
        self.assertNotEqual(state, state.to_bytes())
        self.assertNotEqual(state, None)
        with self.assertRaises(TypeError):
            hash(state)
        with self.assertRaises(TypeError):
            State()
        with self.assertRaises(AttributeError):
            state.color = 1

    def test_a_state_says_what_it_holds(self):
        state = State.open(FORCES)
        self.assertEqual(repr(state), "<State minute=0 fates=[open, open] closed=[] broken=[] history=[]>")
        state.close_step(1)
        state.submit(0)
        state.advance(9)
        said = "<State minute=9 fates=[done, lapsed] closed=[1] broken=[0] history=[1 lapsed, 0 done]>"
        self.assertEqual(repr(state), said)

    def test_fates(self):
        self.assertEqual([fate.is_settled for fate in Fate], [False, False, True, True, True, True])
        self.assertEqual([fate for fate in Fate if fate.counts_as_done], [Fate.DONE, Fate.FORCED])
        self.assertEqual(f"{Fate.DONE} {Fate.HELD:>6} {str(Fate.LAPSED)} {int(Fate.FORCED)}", "done   held lapsed 5")
        later = Fate(6)
        self.assertEqual((later, later.name, str(later), later.is_settled), (6, "FATE_6", "fate 6", True))
        for number in (-1, 256, "2", None):
            with self.assertRaises(ValueError):
                Fate(number)

    def test_calls_of_a_batch_are_values(self):
        self.assertEqual({Submit(1): "a"}[Submit(event=1)], "a")
        self.assertNotEqual(Submit(1), CloseStep(1))
        self.assertNotEqual(Submit(1), Submit(2))
        self.assertEqual(repr(CloseStep(1)), "CloseStep(step=1)")
        with self.assertRaises(AttributeError):
            Submit(1).event = 300

    def test_the_version(self):
        version = sinewhopa.version()
        self.assertIsInstance(version, Version)
        self.assertEqual(version, (version.major, version.minor))
        self.assertEqual(State.open(CASE_A).to_bytes()[0], version.major)

    def test_the_module_says_what_is_so(self):
        result = doctest.testmod(sinewhopa)
        self.assertEqual((result.failed, result.attempted > 2), (0, True))


if __name__ == "__main__":
    unittest.main()
