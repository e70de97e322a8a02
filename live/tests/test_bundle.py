"""The one file: what it starts, where it was copied to."""
import os
import subprocess
import sys
import tempfile
import unittest
from typing import List

from support import PROGRAM

from lpt_live import bundle
from lpt_live.cli import WORDS, main


class BundleTest(unittest.TestCase):
    """A copy alone in a folder, started by an interpreter that knows of nothing else."""
    holder: 'tempfile.TemporaryDirectory[str]'
    file: str

    @classmethod
    def setUpClass(cls) -> None:
        cls.holder = tempfile.TemporaryDirectory()
        cls.file = os.path.join(cls.holder.name, 'lpt-live.pyz')
        done = subprocess.run([sys.executable, PROGRAM, 'bundle', cls.file], stderr=subprocess.PIPE, text=True)
        assert done.returncode == 0, done.stderr

    @classmethod
    def tearDownClass(cls) -> None:
        cls.holder.cleanup()

    def start(self, *words: str) -> 'subprocess.CompletedProcess[str]':
        """Starts the copy, isolated, in a folder where nothing is."""
        command: List[str] = [sys.executable, '-I', '-S', self.file, *words]
        return subprocess.run(command, cwd='/', text=True, stdout=subprocess.PIPE, stderr=subprocess.PIPE)

    def test_each_word_can_be_had(self) -> None:
        for word in WORDS:
            done = self.start(word, '--help')
            self.assertEqual((word, done.returncode, done.stderr), (word, 0, ''))
            self.assertIn(f'usage: lpt-live {word}', done.stdout)

    def test_the_words_for_the_machine_work(self) -> None:
        self.assertIn(self.start('doctor').returncode, (0, 5))
        self.assertIn(self.start('now').returncode, (0, 5))

    def test_nothing_but_the_file_is_left(self) -> None:
        self.assertEqual(os.listdir(self.holder.name), ['lpt-live.pyz'])

    def test_the_copy_makes_no_copy(self) -> None:
        done = self.start('bundle', os.path.join(self.holder.name, 'other.pyz'))
        self.assertEqual(done.returncode, 3)
        self.assertIn('such a file already', done.stderr)

    def test_a_place_that_cannot_be_written(self) -> None:
        self.assertEqual(main(['bundle', '/no/such/folder/x.pyz']), 3)

    def test_it_needs_the_standard_library_alone(self) -> None:
        for where, _, files in os.walk(bundle.SOURCE):
            for name in files:
                self.assertTrue(name.endswith(('.py', '.pyc')), os.path.join(where, name))


if __name__ == '__main__':
    unittest.main()
