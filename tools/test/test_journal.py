"""What is followed, drawn and told of journals."""

import json
import subprocess
import sys
import unittest
from collections import Counter, defaultdict
from pathlib import Path
from xml.etree import ElementTree

TOP = Path(__file__).parents[2]
sys.path.insert(0, str(TOP / "tools"))

from journal import diagram, lines, run, stuck, trace  # noqa: E402

STORED = sorted(TOP.glob("examples/*.journal"))
SVG = "{http://www.w3.org/2000/svg}"


def stored(name: str) -> lines.Journal:
    """A journal that stands beside its script."""
    return lines.read((TOP / f"{name}.journal").read_text(encoding="utf-8"))


def journal(*events: str) -> list[lines.Event]:
    return [lines.event(f"{number} {event}", number) for number, event in enumerate(events)]


def after(events: list[lines.Event]) -> run.Run:
    *_, (last, _, _) = run.follow(events)
    return last


class Follow(unittest.TestCase):
    def held(self, what: str, *events: str) -> list[str]:
        return list(after(journal(f"make t0 p1 {what}", *events)).ports[1].held)

    def test_each_buffer_keeps_its_values(self) -> None:
        puts = [f"done t0 0 put p1 {value} true" for value in (1, 2, 3)]
        take = "done t0 0 take p1 1"
        for what, full, taken in (
            ("chan fixed 4", ["1", "2", "3"], ["2", "3"]),
            ("chan dropping 2", ["1", "2"], ["2"]),
            ("chan sliding 2", ["2", "3"], ["3"]),
            ("chan promise", ["1"], ["1"]),
        ):
            with self.subTest(what):
                self.assertEqual((self.held(what, *puts), self.held(what, *puts, take)), (full, taken))

    def test_settled_values_come_and_go_and_others_do_not(self) -> None:
        park, fill = "park t0 w1 put p1 5", "done t0 0 put p1 4 true"
        self.assertEqual(self.held("chan fixed 1", fill, park, "done t0 0 take p1 4", "settle w1 0 put p1 5"), ["5"])
        self.assertEqual(self.held("chan fixed 1", fill, "close t0 p1", "done t0 0 put p1 5 false"), ["4"])
        self.assertEqual(self.held("chan fixed 1", "close t0 p1", "done t0 0 take p1 nil"), [])
        self.assertEqual(self.held("chan none", "post t0 w1 p1 5", "meet t0 0 take p1 5 w1 0"), [])

    def test_tasks_run_wait_and_end(self) -> None:
        events = stored("examples/channel").events
        modes = [[(task.is_running, task.is_over) for task in at.tasks.values()] for at, _, _ in run.follow(events)]
        runs, waits, over = (True, False), (False, False), (False, True)
        self.assertEqual(modes[2:5], [[runs, runs], [waits, runs], [runs, runs]])
        self.assertEqual(modes[7:], [[runs, over], [runs, over], [over, over]])

    def test_faults_and_ticks_close(self) -> None:
        faulted = after(journal("make t0 p1 chan fixed 1", "spawn t0 t1 go p1", "fault t1 NilPut 1:5 p1"))
        self.assertEqual((faulted.ports[1].is_closed, faulted.tasks[1].fault), (True, "NilPut at 1:5"))
        ticked = after(journal("make t0 p1 timeout 20 at 3", "tick 25 p1"))
        self.assertEqual((ticked.ports[1].is_closed, ticked.ports[1].ends, ticked.moment), (True, 23, 25))

    def test_what_is_not_there_is_refused(self) -> None:
        for events in (["end t1"], ["close t0 p1"], ["settle w1 0 take p1 1"], ["make t0 p1 chan fixed 1", "done t0 0 take p1 1"]):
            with self.subTest(events), self.assertRaises(lines.NotAJournal):
                after(journal(*events))


class Diagram(unittest.TestCase):
    def drawn(self, events: list[lines.Event]) -> Counter:
        """How many shapes of each class there are."""
        document = ElementTree.fromstring(diagram.svg(events, 0, len(events)))
        self.assertEqual(document.tag, SVG + "svg")
        return Counter((shape.tag.removeprefix(SVG), shape.get("class")) for shape in document.iter())

    def test_each_value_that_passes_is_an_arrow(self) -> None:
        for file in STORED:
            with self.subTest(file.stem):
                events = stored(f"examples/{file.stem}").events
                hidden = diagram.Diagram(events, 0, len(events)).hidden
                passages = [passage for _, _, passage in run.follow(events) if passage and passage.port.number not in hidden]
                values = [passage for passage in passages if passage.value != "nil" and passage.source is not passage.target]
                self.assertEqual(self.drawn(events)[("line", "value")], len(values))

    def test_the_shapes_of_workers(self) -> None:
        drawn = self.drawn(stored("examples/workers").events)
        self.assertEqual(drawn[("line", "value")], 10)
        self.assertEqual(drawn[("line", "spawn")], 5)
        self.assertEqual(drawn[("rect", "task")], 6)
        self.assertEqual(drawn[("rect", "port")], 2)
        self.assertEqual(drawn[("rect", "waits")], 10)
        self.assertEqual(drawn[("path", "over")], 1)

    def test_bars_refusals_posts_and_faults(self) -> None:
        drawn = self.drawn(
            journal(
                "make t0 p1 chan fixed 2", "done t0 0 put p1 1 true", "post t0 w1 p1 2", "close t0 p1", "done t0 0 put p1 3 false",
                "done t0 0 take p1 1", "settle w1 0 put p1 2", "done t0 0 take p1 2", "done t0 0 take p1 nil", "fault t0 NilPut 1:1 -",
            )
        )  # fmt: skip
        self.assertEqual(drawn[("rect", "holds")], 2)
        self.assertEqual(drawn[("line", "refused")], 1)
        self.assertEqual(drawn[("line", "post")], 1)
        self.assertEqual(drawn[("line", "close")], 1)
        self.assertEqual(drawn[("line", "none")], 1)
        self.assertEqual(drawn[("line", "value")], 3)
        self.assertEqual(drawn[("path", "fault")], 1)

    def test_any_text_may_stand_in_it(self) -> None:
        events = journal('print t0 "<&>\x01\ufffe\\n\\"\\n"', "end t0")
        labels = [shape.text for shape in ElementTree.fromstring(diagram.svg(events, 0, 9)).iter(SVG + "text")]
        self.assertIn('prints <&>\ufffd\ufffd↵"', labels)

    def test_a_part_has_its_rows_alone(self) -> None:
        document = ElementTree.fromstring(diagram.svg(stored("examples/mult").events, 40, 60))
        numbers = [shape.text for shape in document.iter(SVG + "text") if shape.get("class") == "number"]
        self.assertEqual(numbers, [str(number) for number in range(40, 61)])

    def test_the_pictures_of_the_documents_are_these(self) -> None:
        for file in sorted(TOP.glob("docs/img/*.svg")):
            with self.subTest(file.name):
                events = stored(f"examples/{file.stem}").events
                self.assertEqual(file.read_text(encoding="utf-8"), diagram.svg(events, 0, len(events)))


class Trace(unittest.TestCase):
    def traced(self, events: list[lines.Event]) -> list[dict]:
        return json.loads("".join(trace.chunks(events)))["traceEvents"]

    def test_each_flow_begins_in_the_putters_slice_and_ends_in_the_takers(self) -> None:
        for file in STORED:
            with self.subTest(file.stem):
                events = stored(f"examples/{file.stem}").events
                traced = self.traced(events)
                starts = {event["id"]: event for event in traced if event["ph"] == "s"}
                ends = {event["id"]: event for event in traced if event["ph"] == "f"}
                self.assertEqual(len(starts), sum(event["ph"] == "s" for event in traced))
                self.assertEqual(starts.keys(), ends.keys())
                slices = defaultdict(list)
                for event in traced:
                    if event["ph"] == "X":
                        slices[event["tid"]].append((event["ts"], event["ts"] + event["dur"]))
                for number, start in starts.items():
                    self.assertLess(start["ts"], ends[number]["ts"])
                    for end in (start, ends[number]):
                        self.assertEqual(sum(a <= end["ts"] < b for a, b in slices[end["tid"]]), 1)

    def test_meetings_of_two_tasks_are_flows(self) -> None:
        flows = [event["name"] for event in self.traced(stored("examples/channel").events) if event["ph"] == "s"]
        self.assertEqual(flows, ["p1 42"])
        posted = journal("make t0 p1 chan none", "post t0 w1 p1 5", "meet t0 0 take p1 5 w1 0", "end t0")
        self.assertFalse([event for event in self.traced(posted) if event["ph"] == "s"])

    def test_slices_of_a_task_do_not_overlap(self) -> None:
        for file in STORED:
            with self.subTest(file.stem):
                ends: dict[int, int] = defaultdict(int)
                slices = [event for event in self.traced(stored(f"examples/{file.stem}").events) if event["ph"] == "X"]
                for event in sorted(slices, key=lambda event: event["ts"]):
                    self.assertLessEqual(ends[event["tid"]], event["ts"])
                    ends[event["tid"]] = event["ts"] + event["dur"]

    def test_counters_go_on_in_time_and_by_one_value(self) -> None:
        for file in STORED:
            with self.subTest(file.stem):
                counts: dict[str, list[tuple[int, int]]] = defaultdict(list)
                for event in self.traced(stored(f"examples/{file.stem}").events):
                    if event["ph"] == "C":
                        counts[event["name"]].append((event["ts"], event["args"]["holds"]))
                for name, points in counts.items():
                    self.assertEqual(points[0][1], 0)
                    self.assertEqual(len({at for at, _ in points}), len(points), name)
                    self.assertEqual(points, sorted(points, key=lambda point: point[0]))
                    self.assertTrue(all(abs(b - a) <= 1 for (_, a), (_, b) in zip(points, points[1:])))

    def test_a_wait_is_a_slice_to_its_end(self) -> None:
        waits = [event for event in self.traced(stored("examples/channel").events) if event.get("cat") == "wait"]
        self.assertEqual([(wait["tid"], wait["ts"], wait["dur"]) for wait in waits], [(0, 3000, 2000)])
        endless = [event for event in self.traced(stored("examples/stuck").events) if "for good" in event["name"]]
        names = [(wait["tid"], wait["name"]) for wait in endless]
        self.assertEqual(names, [(0, "waits: put p2 1 (for good)"), (1, "waits: put p1 2 (for good)")])


class Stuck(unittest.TestCase):
    def test_two_that_wait_for_one_another(self) -> None:
        told = stuck.report(stored("examples/stuck")._replace(end="stuck"))
        self.assertEqual(
            told,
            "after 16 events (stuck): 0 tasks over, 0 could go on, 2 waiting\n"
            "t0 main waits since event 14:\n"
            "    to put into p2 [chan none]: t1 (waits) took from it; nobody can come\n"
            "t1 go waits since event 15:\n"
            "    to put into p1 [chan none]: t0 (waits) took from it; nobody can come\n"
            "in a circle: t0 waits for t1 waits for t0\n",
        )

    def test_nobody_ever_came(self) -> None:
        self.assertEqual(
            stuck.report(stored("conformance/g033")),
            "after 6 events: 0 tasks over, 0 could go on, 2 waiting\n"
            "t0 main waits since event 3:\n"
            "    to take from p1 [chan fixed 1, holds 0]: nobody ever put into it; nobody can come\n"
            "t1 go waits since event 5:\n"
            "    to take from p2 [chan none]: nobody ever put into it; nobody can come\n",
        )

    def test_a_choice_waits_for_each_branch(self) -> None:
        self.assertEqual(
            stuck.report(stored("conformance/g035")),
            "after 4 events: 0 tasks over, 0 could go on, 1 waiting\n"
            "t0 main waits since event 3:\n"
            "    to take from p1 [chan none]: nobody ever put into it; nobody can come\n"
            "    to take from p2 [chan none]: nobody ever put into it; nobody can come\n",
        )

    def test_a_faulted_server_is_named(self) -> None:
        events = journal(
            "make t0 p1 chan none", "make t0 p2 chan none", "make t0 p3 chan fixed 1", "spawn t0 t1 go p3", "park t0 w1 put p1 5",
            "meet t1 0 take p1 5 w1 0", "park t1 w2 put p2 20", "meet t0 0 take p2 20 w2 0", "park t0 w3 put p1 0",
            "meet t1 0 take p1 0 w3 0", "fault t1 ZeroDivisor 5:17 p3", "park t0 w4 take p2",
        )  # fmt: skip
        told = stuck.report(lines.Journal("", events, "stuck"))
        self.assertIn("to take from p2 [chan none]: t1 (faulted at event 10: ZeroDivisor at 5:17) put into it; nobody can come\n", told)

    def test_who_could_come_is_told(self) -> None:
        begin = ["make t0 p1 chan none", "make t0 p2 chan fixed 1", "spawn t0 t1 go p2", "park t0 w1 take p1"]
        told = stuck.report(lines.Journal("", journal(*begin), "budget"))
        self.assertIn("after 4 events (budget): 0 tasks over, 1 could go on, 1 waiting\n", told)
        self.assertIn("nobody ever put into it; t1 could go on, and may come\n", told)
        again = journal(*begin, "meet t1 0 put p1 1 w1 0", "park t0 w2 take p1")
        self.assertIn("t1 (could go on) put into it; somebody of these can come\n", stuck.report(lines.Journal("", again, "budget")))

    def test_a_timeout_closes(self) -> None:
        told = stuck.report(lines.Journal("", journal("make t0 p1 timeout 20 at 3", "park t0 w1 take p1"), ""))
        self.assertIn("it closes at 23 ms\n", told)

    def test_many_that_wait_alike_are_told_together(self) -> None:
        events = ["make t0 p1 chan none"]
        for task in range(1, 13):
            events += [f"make t0 p{task + 1} chan fixed 1", f"spawn t0 t{task} go p{task + 1}"]
        events += [f"park t{task} w{task} take p1" for task in range(1, 13)] + ["end t0"]
        told = stuck.report(lines.Journal("", journal(*events), "")).split("\n")
        self.assertEqual(told[0], "after 38 events: 1 task over, 0 could go on, 12 waiting")
        self.assertEqual(told[1], "t1, t2, t3, t4, t5, t6, t7, t8, 4 more go wait since event 25, 26, 27, 28, 29, 30, 31, 32, 4 more:")
        self.assertEqual(len(told), 4)

    def test_an_alts_does_not_meet_itself(self) -> None:
        told = stuck.report(lines.Journal("", journal("make t0 p1 chan none", "park t0 w1 take p1, put p1 1"), "stuck"))
        self.assertEqual(told.count("a choice doesn't meet itself"), 2)


class Command(unittest.TestCase):
    def journal(self, text: str, *words: str) -> subprocess.CompletedProcess:
        return subprocess.run([TOP / "tools/journal.py", *words], input=text, capture_output=True, text=True, check=False)

    def test_it_reads_a_file_or_standard_input(self) -> None:
        file = TOP / "examples/channel.journal"
        named, piped = self.journal("", "svg", str(file)), self.journal(file.read_text(encoding="utf-8"), "svg")
        self.assertEqual((named.returncode, named.stdout), (0, piped.stdout))
        ElementTree.fromstring(named.stdout)

    def test_a_long_journal_is_cut_and_that_is_said(self) -> None:
        drawn = self.journal("".join(f'{number} print t0 "x\\n"\n' for number in range(400)), "svg")
        self.assertEqual(drawn.stdout.count('class="number"'), 300)
        self.assertIn("of 400 events 0 to 299 are drawn", drawn.stderr)

    def test_what_is_no_journal_is_refused(self) -> None:
        refused = self.journal("error BadForm at 1:1\n", "stuck")
        self.assertEqual((refused.returncode, refused.stdout), (1, ""))
        self.assertIn("there is no journal in it", refused.stderr)


if __name__ == "__main__":
    unittest.main()
