"""`tools/definitions`: each definition with the comment above it."""

import subprocess
import unittest
from pathlib import Path

TOOL = Path(__file__).parents[1] / "definitions"


class Definitions(unittest.TestCase):
    def told(self, *words: str) -> tuple[int, list[str]]:
        """The status, and the lines that are written."""
        ended = subprocess.run([TOOL, *words], capture_output=True, text=True, check=False)
        return ended.returncode, ended.stdout.splitlines()

    def test_a_definition_has_its_comment_and_its_text(self) -> None:
        status, lines = self.told("Legal")
        self.assertEqual(status, 0)
        self.assertEqual(lines[:2], ["ca_meaning/specs/Legal", "-- the journal is a run of the program"])
        self.assertTrue(lines[2].startswith("pub record Legal"))
        self.assertTrue(any("reaches" in line for line in lines[3:]))

    def test_a_crates_definitions_are_a_line_each(self) -> None:
        status, lines = self.told("ca_meaning")
        self.assertEqual(status, 0)
        self.assertTrue(all(line.startswith(("ca_meaning/specs/", "    ")) for line in lines))
        self.assertIn("    Legal: the journal is a run of the program", lines)

    def test_crates_stand_in_the_order_of_their_libraries(self) -> None:
        _, lines = self.told()
        heads = [line.split("/")[0] for line in lines if not line.startswith(" ")]
        self.assertLess(heads.index("ca_value"), heads.index("ca_meaning"))
        self.assertLess(heads.index("ca_meaning"), heads.index("ca_run"))

    def test_a_name_that_is_none_is_told(self) -> None:
        self.assertEqual(self.told("NoSuchDefinition"), (1, []))


if __name__ == "__main__":
    unittest.main()
