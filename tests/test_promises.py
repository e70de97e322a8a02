"""That the pages and the code agree: links lead somewhere, and signatures and clauses stand in the sources."""

import pathlib
import re
import tempfile
import unittest

from promises import ROOT, anchors, code, contracts, exports, has_clause, laws, links, paths, plain, promises, signatures

PAGES = [*sorted((ROOT / "docs").glob("*.md")), ROOT / "README.md", ROOT / "tests" / "README.md", ROOT / "examples" / "README.md"]


class Pages(unittest.TestCase):
    """The pages as they are."""

    def test_links_lead_to_files_and_headings(self) -> None:
        for page in PAGES:
            for file, anchor in links(page):
                with self.subTest(page=page.name, file=str(file), anchor=anchor):
                    self.assertTrue(file.exists())
                    if anchor and file.suffix == ".md":
                        self.assertIn(anchor, anchors(file))

    def test_signatures_stand_in_the_sources(self) -> None:
        text = plain(code())
        found = signatures(ROOT / "docs" / "contracts.md")
        self.assertGreater(len(found), 20)
        for signature in found:
            with self.subTest(signature=signature):
                self.assertTrue(f"pub {signature} " in text)

    def test_clauses_stand_in_the_contracts(self) -> None:
        found = [*promises(ROOT / "README.md"), *exports(ROOT / "docs" / "c.md")]
        self.assertGreater(len(found), 40)
        for promise in found:
            with self.subTest(promise=promise):
                self.assertTrue(any(has_clause(contract, promise.clause) for contract in contracts(promise.owner, promise.function)))

    def test_paths_name_what_there_is(self) -> None:
        for page in PAGES:
            for owner, name in paths(page):
                with self.subTest(page=page.name, owner=owner, name=name):
                    self.assertTrue(re.search(rf"\b{name}\b", code(owner)))

    def test_laws_are_functions(self) -> None:
        found = laws(ROOT / "docs" / "laws.md")
        self.assertGreater(len(found), 10)
        for law in found:
            with self.subTest(law=law):
                self.assertTrue(re.search(rf"\bpub fn {law}\b", code()))


class Reading(unittest.TestCase):
    """How pages are read."""

    def page(self, text: str) -> pathlib.Path:
        folder = tempfile.TemporaryDirectory()
        self.addCleanup(folder.cleanup)
        file = pathlib.Path(folder.name) / "page.md"
        file.write_text(text)
        return file

    def test_a_page_is_taken_apart(self) -> None:
        page = self.page("# One `b`, two\n\n[x](other.md#y) [z](#w) [web](https://a.b/c)\n\n```rust\n// T\nfn f(a: u8,) -> u8\n```\n")
        self.assertEqual(anchors(page), ["one-b-two"])
        self.assertEqual([(file.name, anchor) for file, anchor in links(page)], [("other.md", "y"), ("page.md", "w")])
        self.assertEqual(signatures(page), ["fn f(a: u8,) -> u8"])

    def test_promises_are_read_off_rows(self) -> None:
        page = self.page("| p | `a::f`, `T::g` | `x`, `y` |\n| q | `a::b::h` | (one) |\n")
        self.assertEqual([tuple(one) for one in promises(page)], [
            ("a", "f", "x"), ("a", "f", "y"), ("T", "g", "x"), ("T", "g", "y"), ("a", "h", "")])

    def test_paths_and_laws_are_read(self) -> None:
        page = self.page("| `some_law` | `T::new` and `a::b::c`, not `d` or `T::e(x)` |\n| `a::other_law` | |\n")
        self.assertEqual((paths(page), laws(page)), ([("T", "new"), ("a", "c"), ("a", "other_law")], ["some_law", "other_law"]))

    def test_a_clause_is_looked_for_by_its_name(self) -> None:
        contract = "fn f()\n    ensures some { a }\n"
        self.assertTrue(has_clause(contract, "some"))
        self.assertFalse(has_clause(contract, "som"))
        self.assertFalse(has_clause(contract, ""))


if __name__ == "__main__":
    unittest.main()
