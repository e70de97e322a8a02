"""That the pages are short: their lines, their sentences, and what an entry may take."""

import pathlib
import re
import unittest
from typing import List

from pages import entries, sentences

ROOT = pathlib.Path(__file__).resolve().parent.parent

MOST_LINES = 1600
MOST_WORDS = 30
MOST_LINES_OF = {"contracts.md": 300, "GATE.md": 120}
MOST_LINES_OF_A_DECISION = 8


def pages() -> List[pathlib.Path]:
    return sorted((ROOT / "docs").glob("*.md"))

# What was measured stands in one page, with its date, as another machine makes it false.
MEASURED = re.compile(r"\b\d[\d.,]* (?:ns|ms|microseconds|seconds|minutes|hours)\b")


class Lengths(unittest.TestCase):
    """The pages of docs/ and the README."""

    def test_all_pages_together(self) -> None:
        self.assertLessEqual(sum(len(page.read_text().splitlines()) for page in pages()), MOST_LINES)

    def test_single_pages(self) -> None:
        for name, most in MOST_LINES_OF.items():
            with self.subTest(page=name):
                self.assertLessEqual(len((ROOT / "docs" / name).read_text().splitlines()), most)

    def test_sentences(self) -> None:
        for page in [*pages(), ROOT / "README.md"]:
            for sentence in sentences(page.read_text()):
                with self.subTest(page=page.name, line=sentence.line, sentence=sentence.text):
                    self.assertLessEqual(sentence.words(), MOST_WORDS)

    def test_decisions(self) -> None:
        decisions = list(entries((ROOT / "docs" / "DECISIONS.md").read_text(), "### "))
        self.assertTrue(decisions)
        for decision in decisions:
            with self.subTest(line=decision.line, heading=decision.text.splitlines()[0]):
                self.assertLessEqual(len([line for line in decision.text.splitlines() if line.strip()]), MOST_LINES_OF_A_DECISION)

    def test_measured_times_stand_in_one_page(self) -> None:
        for page in [*pages(), ROOT / "README.md"]:
            if page.name != "measurements.md":
                with self.subTest(page=page.name):
                    self.assertEqual(MEASURED.findall(page.read_text()), [])


class Reading(unittest.TestCase):
    """How a page is taken apart."""

    def counts(self, page: str) -> List[int]:
        return [sentence.words() for sentence in sentences(page)]

    def test_sentences_end_at_their_marks(self) -> None:
        self.assertEqual(self.counts("One two. Three four five?\nSix seven\neight."), [2, 3, 3])

    def test_a_long_sentence_is_counted_over_lines_and_items(self) -> None:
        self.assertEqual(self.counts("# A heading\n\nAll of this: " + "word " * 30 + "\nand more; with that.\n"), [2, 37])
        self.assertEqual(self.counts("- one two\n  three\n- four\n"), [3, 1])

    def test_tables_and_code_are_left_out(self) -> None:
        self.assertEqual(self.counts("A b.\n\n| c | d |\n|---|---|\n\n    code here\n\n```\nmore code\n```\n\nE f g.\n"), [2, 3])

    def test_spans_of_code_and_links_are_words(self) -> None:
        self.assertEqual(self.counts("See `a b c d` and [two words](x/y z.md)."), [5])

    def test_a_quote_is_prose(self) -> None:
        self.assertEqual(self.counts("> One two:\n>\n> - three four\n"), [2, 2])

    def test_measured_times_are_found(self) -> None:
        self.assertEqual(MEASURED.findall("It took 12.5 seconds, 1,000 ns or some minutes; 100 frames."), ["12.5 seconds", "1,000 ns"])

    def test_entries_end_at_the_next_heading(self) -> None:
        page = "# Title\n## Part\n### One\ntext\n\n### Two\nmore\n## Next\n"
        self.assertEqual([(entry.line, entry.text) for entry in entries(page, "### ")], [(3, "### One\ntext"), (6, "### Two\nmore")])


if __name__ == "__main__":
    unittest.main()
