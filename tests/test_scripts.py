"""The scripts in Python: short modules, short functions, and each of these with its types."""

import ast
import pathlib
import unittest
from typing import Iterator, Tuple

ROOT = pathlib.Path(__file__).resolve().parent.parent

MOST_LINES, MOST_OF_A_FUNCTION = 300, 40


def scripts() -> Iterator[Tuple[pathlib.Path, str]]:
    """Each script and its text."""
    folders = ROOT / "scripts", ROOT / "bindings" / "python"
    for path in (*sorted(path for folder in folders for path in folder.iterdir()), ROOT / "prove", ROOT / "test"):
        if path.is_file():
            text = path.read_text()
            if path.suffix == ".py" or text.startswith("#!/usr/bin/env python3"):
                yield path, text


def untyped(function: ast.FunctionDef) -> Iterator[str]:
    """What of a function's head has no type."""
    if function.returns is None:
        yield "its answer"
    for given in (*function.args.args, *function.args.kwonlyargs):
        if given.annotation is None and given.arg not in ("self", "cls"):
            yield given.arg


class Scripts(unittest.TestCase):
    def test_lengths_and_types(self) -> None:
        for path, text in scripts():
            with self.subTest(path.name):
                self.assertLess(len(text.splitlines()), MOST_LINES)
                for node in ast.walk(ast.parse(text)):
                    if isinstance(node, ast.FunctionDef):
                        self.assertLess((node.end_lineno or 0) - node.lineno + 1, MOST_OF_A_FUNCTION, node.name)
                        self.assertEqual(list(untyped(node)), [], node.name)

    def test_each_is_named(self) -> None:
        page = (ROOT / "docs" / "GATE.md").read_text()
        for path in (ROOT / "scripts").iterdir():
            if path.is_file():
                self.assertRegex(page, rf"(`|scripts/){path.name}`", "what it is for stands in docs/GATE.md")

    def test_the_two_commands_of_the_top(self) -> None:
        self.assertLessEqual(len((ROOT / "lpt").read_text().splitlines()), 40)
        self.assertLessEqual(len((ROOT / "prove").read_text().splitlines()), 60)

    def test_forced_branches(self) -> None:
        for edit in sorted((ROOT / "tests" / "forced").glob("*.edit")):
            text = ""
            for line in edit.read_text().splitlines():
                word, _, rest = line.partition(": ")
                text = (ROOT / "crates" / "lp_board" / rest).read_text() if word == "file" else text
                if word == "old":
                    self.assertEqual(text.count(rest), 1, f"{edit.name}: {rest}")


if __name__ == "__main__":
    unittest.main()
