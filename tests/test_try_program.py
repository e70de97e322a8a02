"""Faults planted round the program, each of which its row has to refuse, and data files that are none."""

import contextlib
import io
import os
import pathlib
import sys
import tempfile
import unittest
from typing import Dict

sys.dont_write_bytecode = True

from rows import NoRow, Row, rows_of
from try_program import BUILT, ROOT, try_row

PROGRAM = pathlib.Path(os.environ.get("LPT", BUILT)).resolve()

HONEST = 'exec "$PROGRAM" "$@"'


def passes(row: Row, script: str) -> bool:
    """Whether a row passes on a shell's script, which starts the program as $PROGRAM."""
    with tempfile.TemporaryDirectory() as folder:
        wrapper = pathlib.Path(folder) / "wrapper"
        wrapper.write_text(f"#!/bin/sh\nPROGRAM='{PROGRAM}'\nFOLDER='{folder}'\n{script}\n")
        wrapper.chmod(0o755)
        with contextlib.redirect_stdout(io.StringIO()):
            return try_row(str(wrapper), row)


@unittest.skipUnless(PROGRAM.is_file(), "the program isn't built")
class PlantedFaults(unittest.TestCase):
    """Each fault is a script round the program, which passes the row where the script does nothing else."""

    rows: Dict[str, Row] = {}

    @classmethod
    def setUpClass(cls) -> None:
        files = [*sorted((ROOT / "tests" / "program").glob("*.rows")), ROOT / "crates" / "lp_rows" / "data" / "comparisons.rows"]
        cls.rows = {row.name: row for file in files for row in rows_of(file)}

    def refuses(self, name: str, script: str) -> None:
        row = self.rows[name]
        self.assertTrue(passes(row, HONEST), "the row passes without the fault")
        self.assertFalse(passes(row, script), "the row refuses the fault")

    def test_further_words_are_ignored(self) -> None:
        self.refuses("words_too_few_or_too_many", f'[ $# -le 2 ] || set -- "$1" "$2"\n{HONEST}')

    def test_two_words_are_always_usage(self) -> None:
        self.refuses("compare_without_a_flag", f'[ $# -ge 2 ] || {{ echo "lpt: usage" >&2; exit 2; }}\n{HONEST}')

    def test_a_word_that_is_no_text_is_want_of_memory(self) -> None:
        decode = f"'{sys.executable}' -c 'import os, sys; [os.fsencode(word).decode() for word in sys.argv]' \"$@\" 2>/dev/null"
        self.refuses("words_that_are_not_utf_8", f'{decode} || {{ echo "lpt: out of memory" >&2; exit 5; }}\n{HONEST}')

    def test_a_word_that_is_no_text_is_an_unknown_model(self) -> None:
        script = 'case "$2" in *hybrid*) ;; *) [ $# -ne 2 ] || set -- "$1" nobody ;; esac'
        self.refuses("words_that_are_not_utf_8", f"{script}\n{HONEST}")

    def test_other_words_read_the_input(self) -> None:
        self.refuses("no_help", f"cat >/dev/null\n{HONEST}")

    def test_success_has_status_1(self) -> None:
        self.refuses("status_0", '"$PROGRAM" "$@" || exit $?\nexit 1')

    def test_a_fault_has_status_1(self) -> None:
        script = '"$PROGRAM" "$@" && exit\nstatus=$?\n[ $status = 4 ] && exit 4\nexit 1'
        for name in ("status_2_other_words", "status_3_the_input_is_no_trace"):
            self.refuses(name, script)

    def test_a_refusal_has_status_0(self) -> None:
        self.refuses("status_4_the_certificate_is_refused", '"$PROGRAM" "$@" || [ $? = 4 ]')

    def test_nothing_is_said(self) -> None:
        self.refuses("status_2_other_words", 'exec "$PROGRAM" "$@" 2>/dev/null')

    def test_more_is_said(self) -> None:
        self.refuses("status_0", f"echo note >&2\n{HONEST}")

    def test_a_failed_write_is_passed_over(self) -> None:
        script = '"$PROGRAM" "$@" >"$FOLDER/report" || exit $?\ncat "$FOLDER/report" 2>/dev/null\nexit 0'
        for name in ("output_closed", "output_full", "output_gone", "output_gone_after_two_lines", "output_full_after_many_lines"):
            self.refuses(name, script)

    def test_a_failed_read_is_an_end(self) -> None:
        for name in ("input_closed", "input_folder", "input_broken"):
            self.refuses(name, 'cat 2>/dev/null | "$PROGRAM" "$@"')

    def test_a_short_read_is_an_end(self) -> None:
        self.refuses("input_in_pieces", 'dd bs=1M count=1 2>/dev/null | "$PROGRAM" "$@"')

    def test_a_failed_line_on_standard_error_changes_the_status(self) -> None:
        script = '"$PROGRAM" "$@" 2>"$FOLDER/said"\nstatus=$?\ncat "$FOLDER/said" >&2 2>/dev/null || status=1\nexit $status'
        for name in ("error_closed", "error_full", "error_gone"):
            self.refuses(name, script)

    def test_a_text_that_is_too_long_is_cut(self) -> None:
        self.refuses("input_one_byte_longer", 'head -c 134217728 | "$PROGRAM" "$@"')


class DataFiles(unittest.TestCase):
    """A line that can't be read isn't passed over: its row would test less than it says."""

    def refuses(self, text: str, why: str) -> None:
        with tempfile.NamedTemporaryFile("w", suffix=".rows") as file:
            file.write(text)
            file.flush()
            with self.assertRaisesRegex(NoRow, why):
                rows_of(pathlib.Path(file.name))

    def test_a_line_of_another_word(self) -> None:
        self.refuses("row a\nwords run hybrid\noutput x\n", "line 3: no line begins with output")

    def test_a_line_before_any_row(self) -> None:
        self.refuses("in walk\n", "line 1: no row has begun")

    def test_a_row_without_words(self) -> None:
        self.refuses("row a\nin walk\n", "rows without words: a")

    def test_a_stream_of_another_way(self) -> None:
        self.refuses("row a\nprogram lpt\nstdin shut\n", "line 3: shut is none of closed, folder, pieces")

    def test_a_status_that_is_no_number(self) -> None:
        self.refuses("row a\nprogram lpt\nends two\n", "line 3")


if __name__ == "__main__":
    unittest.main()
