"""`tools/rz` over a program that writes what a test says."""

import os
import subprocess
import tempfile
import unittest
from pathlib import Path

RZ = Path(__file__).parents[1] / "rz"


class Rz(unittest.TestCase):
    def setUp(self) -> None:
        room = tempfile.TemporaryDirectory()
        self.addCleanup(room.cleanup)
        self.room = Path(room.name)

    def rz(self, script: bytes, writes: bytes, status: int, *words: str) -> subprocess.CompletedProcess:
        """Runs `rz` over a script, with a program that notes its words and its input, writes this and ends so."""
        (self.room / "s.clj").write_bytes(script)
        (self.room / "writes").write_bytes(writes)
        program = self.room / "program"
        program.write_text('#!/bin/sh\ncd "$(dirname "$0")"\necho "$*" >words\ncat >input\ncat writes\nexit ' + str(status))
        program.chmod(0o755)
        given = {**os.environ, "RUNZOLEV": str(program)}
        return subprocess.run([RZ, *words], cwd=self.room, env=given, capture_output=True, check=False)

    def test_a_fault_stands_with_its_line(self) -> None:
        ended = self.rz(b"(println 1)\n(+ 1 :a)\n", b"1\nfault WrongKind at 2:1\n", 3, "s.clj", "--workers", "4")
        message = b"s.clj:2:1: fault WrongKind: an argument is of another kind than is needed\n    (+ 1 :a)\n    ^\n"
        self.assertEqual((ended.stdout, ended.returncode), (b"1\n" + message, 3))
        self.assertEqual((self.room / "words").read_text(), "run --workers 4\n")
        self.assertEqual((self.room / "input").read_bytes(), b"(println 1)\n(+ 1 :a)\n")

    def test_the_caret_counts_characters_where_the_column_counts_bytes(self) -> None:
        ended = self.rz('(f "é"\tx)'.encode(), b"error UnknownName at 1:9\n", 2, "--check", "s.clj")
        line, caret = ended.stdout.decode().split("\n")[1:3]
        self.assertEqual((line, caret), ('    (f "é"\tx)', "          \t^"))
        self.assertEqual((self.room / "words").read_text(), "check\n")

    def test_faults_of_go_blocks_stand_among_the_output(self) -> None:
        ended = self.rz(b"x\ny", b"a\nfault NilPut at 2:1\nb fault NilPut at 1:1\nstuck\n", 4, "s.clj")
        expected = b"a\ns.clj:2:1: fault NilPut: nil can't be put on a channel\n    y\n    ^\nb fault NilPut at 1:1\nstuck\n"
        self.assertEqual((ended.stdout, ended.returncode), (expected, 4))

    def test_a_place_behind_the_end_has_an_empty_line(self) -> None:
        ended = self.rz(b"", b"error UnclosedText at 3:1\n", 2, "s.clj")
        self.assertEqual(ended.stdout, b"s.clj:3:1: error UnclosedText: this text is never closed\n    \n    ^\n")

    def test_all_else_is_passed_on(self) -> None:
        ended = self.rz(b"", b"\xff\r\x00 no line feed", 0, "s.clj")
        self.assertEqual((ended.stdout, ended.returncode), (b"\xff\r\x00 no line feed", 0))

    def test_no_file_is_told(self) -> None:
        self.assertEqual(self.rz(b"", b"", 0).returncode, 1)
        self.assertIn(b"none.clj", self.rz(b"", b"", 0, "none.clj").stderr)


if __name__ == "__main__":
    unittest.main()
