"""`tools/check-docs` over documents of a test's own, with a program that answers as a table says."""

import subprocess
import tempfile
import unittest
from pathlib import Path

CHECK = Path(__file__).parents[1] / "check-docs"

PROGRAM = r"""#!/bin/sh
script=$(cat) journal=
case "$script" in
"(one)") echo 1 && journal='0 print t0 "1\\n"\n1 end t0' ;;
"(two)") printf '1\n2\n' ;;
"(none)") ;;
"(wait)") journal='0 make t0 p1 timeout 5 at 7\n1 tick 12 p1\n2 park t0 w1 take p2\nstuck' ;;
"(bad | x)") echo "error BadForm at 1:2" ;;
*) echo "$* $script" ;;
esac
case "$*" in *--journal*) if [ -n "$journal" ]; then printf "$journal\n"; fi ;; esac
if [ "$script" = "(wait)" ]; then exit 4; fi
"""


class CheckDocs(unittest.TestCase):
    def setUp(self) -> None:
        room = tempfile.TemporaryDirectory()
        self.addCleanup(room.cleanup)
        self.document, self.program = Path(room.name, "document.md"), Path(room.name, "program")
        self.program.write_text(PROGRAM)
        self.program.chmod(0o755)

    def check(self, document: str) -> tuple[int, int, list[int]]:
        """How many examples there are, how many differ, and at which lines."""
        self.document.write_text(document)
        ended = subprocess.run([CHECK, self.program, self.document], capture_output=True, text=True, check=False)
        *problems, last = ended.stdout.splitlines()
        words = last.split()
        lines = [int(line.split(":")[1]) for line in problems if ".md:" in line]
        self.assertEqual(ended.returncode, 1 if int(words[-2]) else 0, ended.stderr)
        return int(words[0]), int(words[-2]), lines

    def right(self, *documents: str) -> None:
        """Each of the documents has one example, and it is as shown; they are checked as one."""
        self.assertEqual(self.check("\n# next\n\n".join(documents)), (len(documents), 0, []))

    def wrong(self, line: int, *documents: str) -> None:
        """Each of the documents has one example, at this line, and it differs."""
        lines, before = [], 0
        for document in documents:
            lines.append(before + line)
            before += document.count("\n") + 3
        self.assertEqual(self.check("\n# next\n\n".join(documents)), (len(documents), len(documents), lines))

    def test_console_blocks_are_commands_and_what_they_write(self) -> None:
        self.right(
            "```console\n$ echo '(one)' | ./runzolev run\n1\n```\n",
            "```console\n$ echo '(wait)' | ./runzolev run --journal >/dev/null; echo $?\n4\n```\n",
            "```console\n$ ./runzolev run <<'END'\n(two)\nEND\n1\n2\n```\n",
            "```console\n$ ls examples/first.clj README.md; echo gone >&2\nREADME.md\nexamples/first.clj\ngone\n```\n",
            "```console\n$ seq 9\n1\n...\n9\n```\n",
        )
        self.wrong(
            2, "```console\n$ echo '(one)' | ./runzolev run\n2\n```\n", "```console\n$ echo a\n```\n", "```console\nno command\n```\n"
        )  # fmt: skip
        self.assertEqual(self.check("x\n\n```console\n$ echo a\na\n$ echo b\nc\n$ echo d\nd\n```\n"), (3, 1, [6]))

    def test_commands_run_in_a_copy(self) -> None:
        self.assertEqual(self.check("```console\n$ rm README.md; echo x >docs/new.md; ls README.md 2>/dev/null\n```\n"), (1, 0, []))
        self.assertTrue((CHECK.parents[1] / "README.md").exists())
        self.assertFalse((CHECK.parents[1] / "docs/new.md").exists())

    def test_blocks_behind_a_script(self) -> None:
        script, events = "```clojure\n(one)\n```\n\n", '0 print t0 "1\\n"\n1 end t0\n'
        self.right(
            script + "```output\n1\n```\n",
            script + "```journal\n1\n" + events + "```\n",
            script + "```journal\n" + events + "```\n",
            "```clojure\n(wait)\n```\n\n```journal\n0 make t0 p1 timeout 5 at 0\n1 tick 5 p1\n...\nstuck\n```\n",
        )
        self.wrong(2, script + "```output\n1\n2\n```\n", script + "```journal\n0 end t0\n```\n")

    def test_paragraphs_behind_a_script(self) -> None:
        for script in ("    (two)\n\n", "```\n(two)\n```\n", "```clojure\n(two)\n```\n"):
            told = ("prints `1` and `2`. More `text`.\n", "writes `1`, `2`: so\nit goes.\n", "writes\n\n    1\n    2\n")
            self.right(*(script + way for way in told))
        self.right("    (none)\n\nwrites nothing.\n", "    (one)\n\nprints:\n\n    0 print t0 \"1\\n\"\n    1 end t0\n")
        self.wrong(1, "    (two)\n\nprints `1`.\n", "    (two)\n\nprints `2` and `1`.\n", "    (one)\n\nwrites nothing.\n")

    def test_commands_of_plain_blocks(self) -> None:
        command = "    ./runzolev run --journal < examples/none.clj\n\n"
        self.wrong(1, command + "writes `1`.\n")
        self.right("    ./runzolev --help < README.md | sed d\n\nstarts it, and prints nothing. It prints `3`.\n")
        self.right("    ./runzolev run < examples/first.clj | wc -l\n\ncounts, and writes `5`:\n\n    1\n")

    def test_scripts_within_lines(self) -> None:
        self.right(
            "So `(one)` writes `1`.\n", "- `(two)` prints `1` and `2`\n", "`(bad | x)`, with a bar, is `error BadForm at 1:2`.\n",
            "| a | `(one)` prints `1` |\n|---|---|\n| b | `(one)` prints `1` |\n",
        )  # fmt: skip
        for end in (":", ", and", ", and no more:"):
            self.assertEqual(self.check("`(one)` writes `1`" + end + "\n\n    0 print t0 \"1\\n\"\n    1 end t0\n"), (2, 0, []))
        self.wrong(2, "Text\nand `(one)` writes `2`.\n", "x\n`(one)` is `fault NilPut at 1:1`.\n")

    def test_tables_with_scripts(self) -> None:
        table = "| what | a script | here | there |\n|---|---|---|---|\n| x | {} | {} | `2` |\n"
        self.right(
            table.format("`(one)`", "`1`"), table.format("`(two)`", "`1`, and `2`"), table.format("`(bad \\| x)`", "`error BadForm at 1:2`")
        )  # fmt: skip
        self.wrong(3, table.format("`(one)`", "`2`"))
        for cells in (("the script below", "`1`"), ("", "`TooMany`"), ("`(one)`", "what it likes")):
            self.assertEqual(self.check(table.format(*cells)), (0, 0, []))

    def test_rows_of_errors(self) -> None:
        table = "| error | where |\n|---|---|\n| `BadForm` | it is so: `(bad \\| x)` at {} |\n"
        self.right(table.format("1:2"))
        self.wrong(3, table.format("1:1"))

    def test_all_else_is_left_alone(self) -> None:
        for document in (
            "", "text `(one)` and `1`\n", "    (one)\n\nis a script.\n", "```sh\nrt ci\n```\n\nprints `0`.\n", "```clojure\n(one)\n```\n",
            "```text\n(one)\n```\n\nwrites `2`.\n", "a ``` b\n", "```\nunclosed\n", "| a |\n", "    \n",
        ):  # fmt: skip
            with self.subTest(document):
                self.assertEqual(self.check(document), (0, 0, []))


if __name__ == "__main__":
    unittest.main()
