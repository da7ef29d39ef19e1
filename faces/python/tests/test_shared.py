"""One desk for many threads."""

import copy
import threading
import unittest
from typing import Any, Callable, List, Tuple

from pfair import BadSettings, Busy, Caller, ClosedDesk, Join, NoPlace, NotYet, OutOfRange, Pending, Quantum, Refused, SharedDesk


def opened(callers: int, readers: int = 0) -> Tuple[SharedDesk, Caller]:
    """Three tasks that fill two processors, and their caller."""
    desk = SharedDesk(processors=2, base=3, callers=callers, readers=readers)
    first = desk.caller()
    for task in (1, 2, 3):
        first.insert(Join(slot=0, task=task, cost=2, period=3))
    return desk, first


def insist(call: Callable[[], Any]) -> Any:
    """Does this until it is done, whatever others do at the desk."""
    while True:
        try:
            return call()
        except (Busy, Pending):
            pass


class Calls(unittest.TestCase):
    def test_places_are_given_once(self) -> None:
        desk, _first = opened(2, 1)
        second, reader = desk.caller(), desk.reader()
        for call in (desk.caller, desk.reader):
            self.assertRaises(NoPlace, call)
        second.close()
        self.assertRaises(NoPlace, desk.caller)
        desk.close()
        self.assertRaises(ClosedDesk, desk.reader)
        self.assertEqual(reader.read().entries, 3)
        for callers, readers in ((0, 0), (129, 0), (1, 65)):
            self.assertRaises(BadSettings, SharedDesk, 2, 3, callers, readers)

    def test_quanta_are_taken_before_the_next_step(self) -> None:
        _desk, caller = opened(1)
        self.assertRaises(NotYet, caller.take_in, 0, 0)
        self.assertEqual(caller.step(), (0, [(1, 1), (2, 1)]))
        with self.assertRaisesRegex(Pending, "a quantum was not taken yet: processor 0") as raised:
            caller.step()
        self.assertEqual(raised.exception.processor, 0)
        self.assertEqual(caller.take(0), Quantum(0, 0, 1, 1))
        self.assertIsNone(caller.take(0))
        self.assertRaises(OutOfRange, caller.take, 2)
        self.assertEqual(caller.take_in(1, 0), Quantum(0, 1, 2, 1))
        self.assertEqual((caller.stepped, caller.entries), (1, 4))
        self.assertRaises(Refused, caller.strike, 9)
        self.assertEqual(caller.strike(3), 3)
        caller.close()
        self.assertRaises(ClosedDesk, caller.take, 0)

    def test_a_snapshot_never_changes(self) -> None:
        desk, caller = opened(1, 1)
        caller.step()
        with desk.reader() as reader:
            snapshot = reader.read()
            again = snapshot.again()
            self.assertRaises(TypeError, copy.copy, snapshot)
            caller.alter(1, Join(slot=1, task=1, cost=1, period=3))
            for it in (snapshot, again):
                self.assertEqual((it.entries, it.now, it.row(0)), (4, 1, [(1, 1), (2, 1)]))
            snapshot.close()
            self.assertRaises(OutOfRange, again.row, 1)
            self.assertEqual((again.rows(), again.rows(1)), ([[(1, 1), (2, 1)]], []))
            self.assertRaises(OutOfRange, again.rows, 0, 2)
            self.assertEqual(reader.read().row(0), [(2, 1), (3, 1)])


class Threads(unittest.TestCase):
    SLOTS = 300

    def test_each_quantum_goes_to_one_thread(self) -> None:
        desk, clock = opened(4, 1)
        planner, workers, reader = desk.caller(), [desk.caller(), desk.caller()], desk.reader()
        far = planner.insert(Join(slot=4_000_000, task=9, cost=1, period=3))
        done, versions = threading.Event(), [0]
        taken: List[List[Quantum]] = [[], []]

        def work(number: int) -> None:
            while True:
                last = done.is_set()
                found = [it for it in map(workers[number].take, (0, 1)) if it is not None]
                taken[number] += found
                if last and not found:
                    return

        def plan() -> None:
            while not done.is_set():
                insist(lambda: planner.alter(far, Join(slot=4_000_000, task=9, cost=1, period=3)))

        def follow() -> None:
            while not done.is_set():
                versions.append(insist(reader.read).entries)

        threads = [threading.Thread(target=it) for it in (lambda: work(0), lambda: work(1), plan, follow)]
        for it in threads:
            it.start()
        try:
            for slot in range(self.SLOTS):
                self.assertEqual(insist(clock.step)[0], slot)
        finally:
            done.set()
            for it in threads:
                it.join()
        quanta = [(it.slot, it.processor) for it in taken[0] + taken[1]]
        self.assertEqual(sorted(quanta), [(slot, processor) for slot in range(self.SLOTS) for processor in (0, 1)])
        self.assertEqual(versions, sorted(versions))


if __name__ == "__main__":
    unittest.main()
