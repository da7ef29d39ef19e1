"""Each call once, with values worked out by hand from docs/RULES.md."""

import doctest
import importlib.util
import json
import threading
import unittest

import pfair
from pfair import BadRecord, BadSettings, ClosedDesk, Delay, Denial, Desk, Fit, Join, Lag, Leave, Limit, Miss, OutOfRange
from pfair import Refused


def three_of_two_thirds() -> Desk:
    """Three tasks on two processors: each gets two quanta in three slots."""
    desk = Desk(processors=2, base=3)
    for task in (1, 2, 3):
        desk.insert(Join(slot=0, task=task, cost=2, period=3))
    return desk


class Calls(unittest.TestCase):
    def test_a_plan_and_what_is_told_of_it(self) -> None:
        with three_of_two_thirds() as desk:
            self.assertEqual(desk.advance(3), 3)
            rows = [[(1, 1), (2, 1)], [(1, 2), (3, 1)], [(2, 2), (3, 2)]]
            self.assertEqual(desk.schedule(), rows)
            self.assertEqual(desk.lags(), [Lag(task, 2, 3, 2, 0) for task in (1, 2, 3)])
            self.assertEqual(desk.lags()[0].lag, 0)
            self.assertEqual((desk.misses(), desk.denials()), ([], []))
            figures = desk.figures()[1]
            self.assertEqual((figures.quanta, figures.jobs, figures.response), (2, 1, (3, 3)))
            self.assertEqual(desk.events(), {task: Join(0, task, 2, 3) for task in (1, 2, 3)})
            self.assertEqual(desk.text("schedule"), "slot,p0,p1\n0,1/1,2/1\n1,1/2,3/1\n2,2/2,3/2\n")
            with self.assertRaises(ValueError):
                desk.text("replies")
            self.assertTrue(desk.chart().startswith("slots 0 to 3 of 3; processors 2; base 3; cap 6\n"))
            self.assertTrue(desk.chart(1, 2).startswith("slots 1 to 2 of 3;"))
            self.assertTrue(desk.svg(cell=6).endswith("</svg>\n"))
            self.assertTrue(desk._repr_svg_().startswith("<svg "))
            self.assertTrue(desk.text("stats").startswith("task,cost,period,quanta,"))
            self.assertEqual(desk.part("quanta", 2), "slot,processor,task,sub\n2,0,2,2\n2,1,3,2\n")
            for kind in ("schedule", "chart", "windows", "load", "quanta"):
                self.assertEqual(desk.part(kind), desk.text(kind))
            with self.assertRaises(ValueError):
                desk.part("jobs")
            self.assertTrue(desk.text("jobs").startswith("task,job,release,deadline,finish,response,tardiness\n1,1,0,3,"))
            self.assertIn("[3][2]", desk.text("c"))
            self.assertIn("traceEvents", json.loads(desk.text("trace")))
            tables = (f"{kind}\n{desk.text(kind)}" for kind in ("schedule", "lags", "misses", "denials"))
            self.assertEqual(desk.text("tables"), "".join(tables))
            self.assertEqual(len({desk.svg(), desk.svg(wrap=2), desk.svg(style="stairs")}), 3)
            with self.assertRaises(ValueError):
                desk.svg(style="lines")
            with self.assertRaises(OutOfRange):
                desk.svg(0, 4)
            with self.assertRaises(OutOfRange):
                desk.svg(wrap=0)
            report = desk.report()
            self.assertEqual((report["now"], report["entries"]), (3, 6))
            self.assertEqual(report["schedule"], [[list(pick) for pick in row] for row in rows])
            with self.assertRaises(OutOfRange):
                desk.row(3)

    def test_the_past_is_changed(self) -> None:
        with three_of_two_thirds() as desk:
            desk.advance(2)
            desk.alter(1, Join(slot=1, task=1, cost=2, period=3))
            self.assertEqual(desk.row(0), [(2, 1), (3, 1)])
            desk.strike(1)
            self.assertEqual(desk.row(1), [(2, 2), (3, 2)])
            self.assertEqual(desk.insert(Limit(slot=0, count=1)), 4)
            desk.step()
            self.assertEqual(desk.misses(), [Miss(3, 2, 3, None)])
            desk.insert(Delay(slot=5, task=2, by=2))
            desk.insert(Leave(slot=9, task=2))

    def test_whether_the_plan_fits(self) -> None:
        with three_of_two_thirds() as desk:
            desk.advance(2)
            self.assertEqual((desk.never_misses(), desk.fits()), (True, Fit(None, 0)))
            # In slot 1 three tasks of 2 units ask for 6, and one processor has 3.
            desk.insert(Limit(slot=1, count=1))
            self.assertEqual((desk.never_misses(), desk.fits()), (False, Fit(1, 3)))

    def test_what_would_be(self) -> None:
        with three_of_two_thirds() as desk:
            desk.advance(3)
            before = desk.text("schedule")
            self.assertEqual(desk.if_struck(3), "slot,p0,p1\n0,1/1,2/1\n1,1/2,2/2\n2,,\n")
            self.assertIn('"event":4', desk.if_inserted(Join(0, 4, 1, 3), "json"))
            self.assertTrue(desk.if_altered(1, Join(1, 1, 2, 3)).startswith("slot,p0,p1\n0,2/1,3/1\n"))
            with self.assertRaises(Refused) as twice:
                desk.if_inserted(Join(0, 3, 2, 3))
            self.assertEqual(twice.exception.name, "JoinTwice")
            self.assertEqual(desk.text("schedule"), before)

    def test_refusals_tell_why(self) -> None:
        with three_of_two_thirds() as desk:
            with self.assertRaises(Refused) as twice:
                desk.insert(Join(0, 3, 2, 3))
            self.assertEqual((twice.exception.number, twice.exception.name), (16, "JoinTwice"))
            self.assertEqual(twice.exception.sentence, "another event joins the task")
            with self.assertRaises(Refused) as weight:
                desk.insert(Join(0, 4, 2, 7))
            self.assertEqual(weight.exception.reason, "PeriodNotInBase")
            desk.step()
            with self.assertRaises(Refused) as strict:
                desk.insert(Join(0, 4, 1, 3), strict=True)
            told = strict.exception
            self.assertEqual((told.name, told.event, told.reason), ("WouldDeny", 4, "OverCapacity"))
            self.assertEqual(str(told), "refused 31 WouldDeny 4 OverCapacity: the load would be above the cap")
            desk.insert(Join(0, 4, 1, 3))
            self.assertEqual(desk.denials(), [Denial(0, 4, "OverCapacity")])

    def test_the_whole_run_is_told_in_one_text(self) -> None:
        with three_of_two_thirds() as desk:
            with self.assertRaises(Refused):
                desk.strike(9)
            desk.advance(3)
            full = json.loads(desk.text("full"))
            # The fourth command was refused.
            self.assertEqual(full["refusals"], [{"code": 10, "reason": "EventNotFound", "record": 4}])
            self.assertEqual((full["now"], full["entries"], len(full["events"])), (3, 7, 3))
            page = desk.text("html")
            self.assertTrue(page.startswith("<!doctype html>"))
            self.assertIn(desk.text("full").rstrip(), page)

    def test_numbers_out_of_their_limits(self) -> None:
        for numbers in ((0, 4), (65, 4), (2, 0), (2, 4, 0), (2, 4, 8, 0), (2, 4, 8, 4097)):
            with self.assertRaises(BadSettings):
                Desk(*numbers)
        with self.assertRaises(ValueError):
            Desk(processors=-1, base=4)
        with Desk(2, 4) as desk:
            with self.assertRaises(ValueError):
                desk.advance(1 << 64)
            with self.assertRaises(Refused):
                desk.insert(Join(1 << 20, 1, 1, 4))
        with Desk(2, 4, wide=True) as desk:
            self.assertEqual(desk.insert(Join(1 << 20, 1, 1, 4)), 1)
        with self.assertRaises(ClosedDesk):
            desk.row(0)

    def test_records_are_carried_out(self) -> None:
        with Desk(processors=1, base=2) as desk:
            lines = ["event 1", "refused 10 EventNotFound", "slot 0: 1/1", "slot 1: -"]
            self.assertEqual(desk.run("join,0,1,1,2,0\nstrike,9\nstep,2\n"), lines)
            self.assertEqual(desk.schedule(), [[(1, 1)], [None]])
            with self.assertRaises(BadRecord) as bad:
                desk.run("step\nstep,2,3\nstep\n")
            told = bad.exception
            self.assertEqual((told.number, told.line, told.field), (2, 2, 3))
            self.assertEqual(desk.replies(4), ["slot 2: 1/2"])

    def test_a_script_opens_a_desk(self) -> None:
        with Desk.of_script("settings,1,2,2,64\njoin,0,1,1,2,0\nstep,2\n") as desk:
            self.assertEqual((desk.processors, desk.schedule()), (1, [[(1, 1)], [None]]))
            self.assertEqual((desk.entries, desk.text("script")), (3, "settings,1,2,2,64\njoin,0,1,1,2,0\nstep,2\n"))
        with self.assertRaises(BadRecord) as bad:
            Desk.of_script("settings,65,2,2,64\n")
        self.assertEqual(str(bad.exception), "line 1, record 1, field 2: 65 is not within 1 to 64")

    def test_a_plan_tells_names(self) -> None:
        rig = ["# camera rig", "plan, 1", "settings, 2, 6", "slot, 500, us", "name, 1, camera"]
        rig += ["label, in, join, 0, camera, 2, 3", "step, 6", "label, out, leave, 6, camera", "step, 3", ""]
        again = "plan,1\nsettings,2,6,12,64\nslot,500,us\nname,1,camera\njoin,0,1,2,3,0\nleave,6,1\nstep,9\n"
        with Desk.of_script("\n".join(rig)) as desk:
            self.assertEqual(desk.text("script"), again)
            self.assertEqual(desk.report()["names"], [{"name": "camera", "task": 1}])
            self.assertEqual(desk.report()["slot"], {"length": 500, "unit": "us"})
            with self.assertRaises(BadRecord):
                desk.run("name,2,lidar\n")
        with self.assertRaises(BadRecord) as bad:
            Desk.of_script("plan,1\nsettings,1,2\nstrike,x\nlabel,x,join,0,1,1,2\n")
        self.assertEqual(str(bad.exception), 'line 3, record 3, field 2: "x" labels no event so far')

    def test_what_is_wrong_with_records(self) -> None:
        self.assertEqual(pfair.script_faults("settings,1,2,2,64\nstep\n"), [])
        lines = ["line 2, record 2: settings are expected", "line 1, record 1, field 2: 0 is not within 1 to 64"]
        self.assertEqual(pfair.script_faults("settings,0,2,2,64\nstep\n")[:2], lines[::-1])
        told = ['line 2, record 2, field 2: "x" is no number of 1 to 15 digits']
        self.assertEqual(pfair.record_faults("step\nstep,x\n"), told)

    def test_names_and_sentences(self) -> None:
        self.assertEqual((pfair.name(16), pfair.sentence(16)), ("JoinTwice", "another event joins the task"))
        for number in (5, -1, 1 << 32):
            with self.assertRaises(ValueError):
                pfair.name(number)

    @unittest.skipUnless(importlib.util.find_spec("pandas"), "there is no pandas")
    def test_pandas_takes_a_schedule(self) -> None:
        import pandas

        with three_of_two_thirds() as desk:
            desk.advance(3)
            self.assertEqual(pandas.DataFrame(desk.schedule()).shape, (3, 2))

    def test_threads_share_a_desk(self) -> None:
        with three_of_two_thirds() as desk:
            threads = [threading.Thread(target=lambda: [desk.step() for _ in range(500)]) for _ in range(4)]
            for thread in threads:
                thread.start()
            for thread in threads:
                thread.join()
            self.assertEqual(desk.now, 2000)

    def test_the_example_of_the_documentation(self) -> None:
        self.assertEqual(doctest.testmod(pfair).failed, 0)


if __name__ == "__main__":
    unittest.main()
