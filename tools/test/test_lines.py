"""Every kind of line is read exactly."""

import sys
import unittest
from pathlib import Path

sys.path.insert(0, str(Path(__file__).parents[1]))

from journal import lines  # noqa: E402

LINES = {
    "make t0 p1 chan none": lines.Make(0, 1, "chan none"),
    "make t0 p2 chan fixed 1": lines.Make(0, 2, "chan fixed 1"),
    "make t0 p2 chan dropping 12": lines.Make(0, 2, "chan dropping 12"),
    "make t0 p2 chan sliding 4096": lines.Make(0, 2, "chan sliding 4096"),
    "make t0 p2 chan promise": lines.Make(0, 2, "chan promise"),
    "make t3 p10 timeout 20 at 4": lines.Make(3, 10, "timeout 20 at 4"),
    "make t0 p3 mult p1": lines.Make(0, 3, "mult p1"),
    "make t0 p3 mix p1 p2": lines.Make(0, 3, "mix p1 p2"),
    "make t0 p3 pub p1": lines.Make(0, 3, "pub p1"),
    "spawn t0 t1 go p2": lines.Spawn(0, 1, "go", 2),
    "spawn t12 t13 deliver -": lines.Spawn(12, 13, "deliver", None),
    "done t1 0 take p4 nil": lines.Done(1, 0, "take", 4, "nil", True),
    "done t1 2 take p4 [1 [2 3]]": lines.Done(1, 2, "take", 4, "[1 [2 3]]", True),
    "done t1 0 put p4 true true": lines.Done(1, 0, "put", 4, "true", True),
    "done t1 0 put p4 false false": lines.Done(1, 0, "put", 4, "false", False),
    'done t1 0 put p4 {:a "b c] \\" \\\\", #port 3 []} true': lines.Done(1, 0, "put", 4, '{:a "b c] \\" \\\\", #port 3 []}', True),
    "meet t1 0 put p1 42 w1 0": lines.Meet(1, 0, "put", 1, "42", 1, 0),
    "meet t1 3 take p1 #port 7 w11 2": lines.Meet(1, 3, "take", 1, "#port 7", 11, 2),
    "park t0 w1 take p1": lines.Park(0, 1, (lines.Branch("take", 1, None),)),
    'park t0 w1 take p1, put p2 {1 2, 3 "x, y"}, take p3': lines.Park(
        0, 1, (lines.Branch("take", 1, None), lines.Branch("put", 2, '{1 2, 3 "x, y"}'), lines.Branch("take", 3, None))
    ),
    "post t0 w2 p4 :key/word": lines.Post(0, 2, 4, ":key/word"),
    "settle w3 0 take p5 nil": lines.Settle(3, 0, "take", 5, "nil"),
    "settle w3 1 put p5 -9": lines.Settle(3, 1, "put", 5, "-9"),
    "default t0 :none": lines.Default(0, ":none"),
    "close t1 p2": lines.Close(1, 2),
    "register t0 tap #port 3 #port 4 true #port 4": lines.Register(0, "tap", ("#port 3", "#port 4", "true"), "#port 4"),
    "register t1 taps #port 3 [[#port 4 true]]": lines.Register(1, "taps", ("#port 3",), "[[#port 4 true]]"),
    'print t0 "a\\"b\\\\\\n\\t\\r\\n"': lines.Print(0, 'a"b\\\n\t\r\n'),
    "tick 20 p2": lines.Tick(20, (2,)),
    "tick 20 p2 p7": lines.Tick(20, (2, 7)),
    "end t0": lines.End(0),
    "fault t1 ZeroDivisor 11:12 p5": lines.Fault(1, "ZeroDivisor", 11, 12, 5),
    "fault t0 NilPut 2:1 -": lines.Fault(0, "NilPut", 2, 1, None),
}

WRONG = (
    "", "end", "end 0", "end t0 ", "end t", "ends t0", "make t0 p1 chan", "make t0 p1 chan fixed", "make t0 p1 queue 3",
    "done t1 0 put p4 3", "done t1 0 put p4 3 yes", "done t1 0 take p4 [1", "done t1 0 take p4 1 2", "meet t1 0 put p1 w1 0",
    "park t0 w1", "park t0 w1 take p1,", "park t0 w1 put p1", 'print t0 "a', "print t0 a", 'print t0 "\\x"', "register t0 tap",
    "fault t1 NilPut 2 -", "settle t3 0 take p5 nil",
)  # fmt: skip


class Lines(unittest.TestCase):
    def test_each_line_is_its_event(self) -> None:
        for number, (line, event) in enumerate(LINES.items()):
            with self.subTest(line):
                self.assertEqual(lines.event(f"{number} {line}", number), event)

    def test_each_kind_of_line_is_among_them(self) -> None:
        self.assertEqual({line.split()[0] for line in LINES}, set(lines.KINDS))

    def test_other_lines_are_refused(self) -> None:
        for line in WRONG:
            with self.subTest(line), self.assertRaises(lines.NotAJournal):
                lines.event(f"5 {line}", 5)

    def test_a_line_has_its_number(self) -> None:
        for line in ("1 end t0", "00 end t0", "end t0", " 0 end t0"):
            with self.subTest(line), self.assertRaises(lines.NotAJournal):
                lines.event(line, 0)


class Journals(unittest.TestCase):
    def test_output_journal_and_end_are_told_apart(self) -> None:
        read = lines.read('a\n0 print t0 "a\\n"\n1 park t0 w1 take p1\nstuck\n')
        self.assertEqual((read.output, len(read.events), read.end), ("a\n", 2, "stuck"))

    def test_the_output_may_look_like_a_journal(self) -> None:
        read = lines.read('0 end t0\n1 end t0\nstuck\n0 print t0 "..\\n"\n1 end t0\n')
        self.assertEqual(read.output, "0 end t0\n1 end t0\nstuck\n")
        self.assertEqual(read.events, [lines.Print(0, "..\n"), lines.End(0)])
        self.assertEqual(read.end, "")

    def test_a_journal_alone_is_one(self) -> None:
        self.assertEqual(lines.read("0 end t0\n"), ("", [lines.End(0)], ""))
        self.assertEqual(lines.read("0 fault t0 NilPut 2:1 -\nfault NilPut at 2:1\n").end, "fault NilPut at 2:1")

    def test_only_line_feeds_end_lines(self) -> None:
        read = lines.read('a\x0b\u2028\x85b\n0 print t0 "a\x0b\u2028\x85b\\n"\n1 end t0\n')
        self.assertEqual(read.events[0], lines.Print(0, "a\x0b\u2028\x85b\n"))

    def test_what_is_none_is_refused(self) -> None:
        for text in ("", "stuck\n", "42\n", "error BadForm at 1:1\n", "3 end t0\n", "0 end t0\n2 end t0\n"):
            with self.subTest(text), self.assertRaises(lines.NotAJournal):
                lines.read(text)

    def test_stored_journals_are_read_whole(self) -> None:
        top = Path(__file__).parents[2]
        for file in [*top.glob("examples/*.journal"), *top.glob("conformance/*.journal")]:
            with self.subTest(file.name):
                text = file.read_text(encoding="utf-8")
                self.assertEqual(len(lines.read(text).events), text.count("\n"))


if __name__ == "__main__":
    unittest.main()
