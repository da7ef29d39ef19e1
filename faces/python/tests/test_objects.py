"""What Python expects of an object: how a desk is shown, copied, indexed and read, and what events say of wrong numbers."""

import copy
import ctypes.util
import fractions
import os
import pickle
import subprocess
import sys
import threading
import unittest
from unittest import mock

import pfair._desk
from pfair import ClosedDesk, Delay, Desk, Join, Leave, Limit, OutOfRange, Quantum, Refused, Settings


def three_of_two_thirds() -> Desk:
    """Three tasks on two processors, three slots of which were stepped."""
    desk = Desk(processors=2, base=3)
    for task in (1, 2, 3):
        desk.insert(Join(slot=0, task=task, cost=2, period=3))
    desk.advance(3)
    return desk


ROWS = [[(1, 1), (2, 1)], [(1, 2), (3, 1)], [(2, 2), (3, 2)]]


class Objects(unittest.TestCase):
    def test_a_desk_cannot_be_copied(self) -> None:
        with three_of_two_thirds() as desk:
            for made in (copy.copy, copy.deepcopy, pickle.dumps):
                with self.assertRaisesRegex(TypeError, r"Desk.of_script\(desk.text\("):
                    made(desk)
            self.assertEqual(desk.now, 3)
            with Desk.of_script(desk.text("script")) as other:
                other.strike(1)
                self.assertEqual((len(other.events()), len(desk.events())), (2, 3))

    def test_how_a_desk_is_shown(self) -> None:
        with three_of_two_thirds() as desk:
            self.assertEqual(repr(desk), "Desk(processors=2, base=3, now=3, events=3)")
        self.assertEqual(repr(desk), "Desk(closed)")

    def test_a_notebook_shows_a_desk(self) -> None:
        with three_of_two_thirds() as desk:
            shown = desk._repr_html_()
            self.assertIn(desk._repr_svg_(), shown)
            self.assertIn("<caption>Figures: 3</caption>", shown)
            # Task 1 of weight 2/3 had two quanta and one job, whose response was 2 slots.
            self.assertIn("<tr><td>1</td><td>2</td><td>3</td><td>2</td>", shown)
            self.assertNotIn("Missed windows", shown)
            desk.insert(Limit(slot=0, count=1))
            self.assertIn("<caption>Missed windows: ", desk._repr_html_())

    def test_the_settings(self) -> None:
        with Desk(2, 3) as desk:
            self.assertEqual(desk.settings, Settings(processors=2, base=3, cap=6, every=64, horizon=1 << 20))
        with Desk.of_script("settings,1,2,2,8\n") as desk:
            self.assertEqual((desk.settings, desk.processors), (Settings(1, 2, 2, 8, 1 << 20), 1))

    def test_a_desk_is_a_sequence_of_rows(self) -> None:
        with three_of_two_thirds() as desk:
            self.assertEqual((len(desk), list(desk), desk.schedule()), (3, ROWS, ROWS))
            self.assertEqual((desk[0], desk[-1], desk[1:], desk[::-2]), (ROWS[0], ROWS[2], ROWS[1:], ROWS[::-2]))
            for slot in (3, -4):
                with self.assertRaises(IndexError):
                    desk[slot]
        with Desk(2, 3) as desk:
            self.assertEqual((len(desk), desk[:], bool(desk)), (0, [], True))
        with self.assertRaises(ClosedDesk):
            len(desk)

    def test_rows_are_of_one_plan(self) -> None:
        with three_of_two_thirds() as desk:
            rows = desk.rows()
            self.assertEqual(next(rows), ROWS[0])
            desk.step()
            with self.assertRaises(Refused):
                desk.strike(9)
            self.assertEqual(next(rows), ROWS[1])
            desk.strike(1)
            with self.assertRaisesRegex(RuntimeError, "the plan was changed"):
                next(rows)
            rows = iter(desk)
            desk.run("strike,2\n")
            with self.assertRaises(RuntimeError):
                next(rows)

    def test_quanta(self) -> None:
        with three_of_two_thirds() as desk:
            desk.strike(3)
            quanta = [Quantum(0, 0, 1, 1), Quantum(0, 1, 2, 1), Quantum(1, 0, 1, 2), Quantum(1, 1, 2, 2)]
            self.assertEqual((desk.quanta(), desk.quanta(1, 2), desk.quanta(2)), (quanta, quanta[2:], []))
            with self.assertRaises(OutOfRange):
                desk.quanta(0, 4)

    def test_events_name_the_field_at_fault(self) -> None:
        wrong = (
            (lambda: Join(0, "camera", 1, 3), TypeError, "task of Join is a whole number, not 'camera'"),
            (lambda: Join(0, 7, 0.5, 3), TypeError, "cost of Join is a whole number, not 0.5"),
            (lambda: Join(0, 7, fractions.Fraction(1, 2), 3), TypeError, "cost of Join is a whole number, not Fraction"),
            (lambda: Join(0, 7, 1, 3, early=None), TypeError, "early of Join is a whole number, not None"),
            (lambda: Leave(-1, 7), ValueError, "slot of Leave: -1 is not 0 to 2"),
            (lambda: Delay(0, 7, 1 << 64), ValueError, "by of Delay: 18446744073709551616 is not 0 to 2"),
            (lambda: Limit(0, count="2"), TypeError, "count of Limit is a whole number, not '2'"),
        )
        for made, error, text in wrong:
            with self.assertRaisesRegex(error, text):
                made()

    def test_other_kinds_of_whole_numbers(self) -> None:
        class Two:
            def __index__(self) -> int:
                return 2

        join = Join(0, Two(), 1, 2)
        self.assertEqual((join, type(join.task)), (Join(0, 2, 1, 2), int))

    def test_slots_are_taken_in_parts(self) -> None:
        with mock.patch.object(pfair._desk, "PART", 7), Desk(2, 3) as desk:
            self.assertEqual([desk.advance(count) for count in (20, 0, 7, 1)], [20, 0, 7, 1])
            self.assertEqual((desk.now, desk.entries), (28, 28))
        with Desk(1, 1) as desk:
            self.assertEqual((desk.advance(1 << 21), desk.advance(1)), (1 << 20, 0))
            # Each of the two was told that no slot is left.
            self.assertEqual(desk.entries, (1 << 20) + 2)

    def test_ctrl_c_is_seen_between_two_parts(self) -> None:
        calls = dict(pfair._desk.CALLS)
        advance = calls["advance"]

        def interrupted(*words: object) -> int:
            status = advance(*words)
            if words[0].now_is_enough:  # type: ignore[attr-defined]
                raise KeyboardInterrupt
            words[0].now_is_enough = True  # type: ignore[attr-defined]
            return status

        with Desk(1, 1) as desk:
            desk._raw.now_is_enough = False
            with mock.patch.dict(pfair._desk.CALLS, {"advance": interrupted}):
                with self.assertRaises(KeyboardInterrupt):
                    desk.advance(1 << 19)
            self.assertEqual(desk.now, 2 * pfair._desk.PART)
            # Its lock was let go: another thread may have it.
            thread = threading.Thread(target=desk.step)
            thread.start()
            thread.join(60)
            self.assertEqual(desk.now, 2 * pfair._desk.PART + 1)

    @unittest.skipUnless(ctypes.util.find_library("c"), "there is no other library")
    def test_another_library_is_refused(self) -> None:
        env = {**os.environ, "PFAIR_LIBRARY": str(ctypes.util.find_library("c"))}
        done = subprocess.run([sys.executable, "-c", "import pfair"], env=env, capture_output=True, text=True)
        self.assertEqual(done.returncode, 1)
        self.assertIn("ImportError: libc.so.6 does not go with this package: its PFAIR_ABI is None, not 1", done.stderr)


if __name__ == "__main__":
    unittest.main()
