"""`explain --html` and `--svg`: one well-formed file that needs nothing else, with all that comes of a recording escaped."""
import os
import re
import tempfile
import unittest
import xml.etree.ElementTree as ElementTree
from html.parser import HTMLParser
from typing import Dict, List, Optional, Tuple

from explain_support import TRACE, explain, names_data, recorded
from support import data, needs_lpt

from lpt_live.escape import markup, printable
from lpt_live.explain.case import Case, chosen
from lpt_live.explain.drawing import drawing
from lpt_live.explain.page_html import html_of
from lpt_live.explain.page import Question, naming_of, page_of
from lpt_live.explain.page_text import text_of

STUCK = data('explain', 'stuck.lptrace')
EVIL = '<script>alert("&1")</script>\x1b[31m\u202e'
VOID = ('meta', 'br')


class Checked(HTMLParser):
    """Whether each element is closed where it should be; the tables' rows and the tags seen."""

    def __init__(self, text: str) -> None:
        super().__init__()
        self.open: List[str] = []
        self.tags: Dict[str, int] = {}
        self.rows: List[List[str]] = []
        self.feed(text)
        self.close()
        assert not self.open, self.open

    def handle_starttag(self, tag: str, attrs: List[Tuple[str, Optional[str]]]) -> None:
        self.tags[tag] = self.tags.get(tag, 0) + 1
        if tag not in VOID:
            self.open.append(tag)
        if tag == 'tr':
            self.rows.append([])
        if tag in ('td', 'th'):
            self.rows[-1].append('')

    def handle_startendtag(self, tag: str, attrs: List[Tuple[str, Optional[str]]]) -> None:
        self.tags[tag] = self.tags.get(tag, 0) + 1

    def handle_endtag(self, tag: str) -> None:
        assert self.open and self.open[-1] == tag, (tag, self.open)
        self.open.pop()

    def handle_data(self, data_of_it: str) -> None:
        if 'td' in self.open or 'th' in self.open:
            self.rows[-1][-1] += data_of_it


def html(case: Case) -> str:
    """The page of a case as HTML."""
    transition = chosen(case, None)
    assert transition is not None
    naming = naming_of(case)
    page = page_of(case, naming, transition, Question(what_if='reverse', timeline=True))
    return html_of(page, drawing(case, naming, transition))


@needs_lpt
class Html(unittest.TestCase):
    """The page as one file."""

    def test_well_formed_and_by_itself(self) -> None:
        with tempfile.TemporaryDirectory() as folder:
            path = os.path.join(folder, 'page.html')
            self.assertEqual(explain(STUCK, '--html', path, '--timeline').status, 0)
            with open(path, encoding='utf-8') as file:
                text = file.read()
            self.assertEqual(os.listdir(folder), ['page.html'])
        for one in (text, html(recorded())):
            tags = Checked(one).tags
            self.assertEqual(set(re.findall(r'https?://[^"\s<]*', one)), {'http://www.w3.org/2000/svg'})
            for tag in ('script', 'link', 'img', 'iframe', 'object', 'a', 'base', 'form'):
                self.assertNotIn(tag, tags)
            self.assertNotRegex(one, r'(?i)url\(|@import|\bon\w+=|\bsrc=|\bhref=')
            self.assertEqual((tags['svg'], tags['table'], tags['h1']), (1, 2, 1))

    def test_light_and_dark(self) -> None:
        text = html(recorded())
        self.assertIn('color-scheme:light dark', text)
        self.assertEqual(text.count('@media (prefers-color-scheme:dark)'), 2)       # of the page and of the picture

    def test_cautions_stand_out(self) -> None:
        """What may make the page wrong is set apart; how precise its times are is no more than a note."""
        self.assertIn('<div class="caution" role="note">\n<p>Caution: probes missed calls (walk 3)', html(recorded(missed={'walk': 3})))
        self.assertIn('<div class="dim" role="note">\n<p>missing: kernel exits</p>', html(recorded(missing=['kernel exits'])))
        self.assertNotIn('role="note"', html(recorded()))

    def test_the_tables(self) -> None:
        rows = Checked(html(recorded())).rows
        self.assertEqual(rows[0], ['Who', 'Where, and since when', 'Refused', 'Goes over', 'Would help', 'What became of it'])
        self.assertEqual(rows[1][0], 'reader (pid 70000)')
        self.assertEqual(rows[1][1], 'is in pipe_read, which the patch replaces, since before the recording (event 2); now off its CPU in the kernelpipe_read < vfs_read')
        self.assertEqual(rows[2][5], 'Went over 12:00:02.0 (event 11), at a walk, 2.0 s after the opening (1 walk refused it)')
        self.assertEqual([row[0] for row in rows[5:]], ['hybrid (Linux)', 'leave-kernel (kGraft)', 'all-at-once (Ksplice)',
                                                        'immediate (no condition)', 'process-group'])

    def test_the_picture_has_the_names(self) -> None:
        text = html(recorded())
        self.assertIn('reader (pid 70000), walk 12:00:01.0 (event 8): refused, pipe_read, called before the recording (event 2), '
                      'is on its stack', text)
        self.assertIn('>reader 70000<', text)
        self.assertIn('>idle, CPU 0<', text)

    def test_whatever_a_recording_says_is_escaped(self) -> None:
        """Of the names of tasks, patches, functions, kernels, of stacks and messages nothing gets through as it is."""
        told = names_data()
        told['tasks']['2']['comm'] = EVIL
        case = recorded(TRACE.replace('pipe_read', '<img>&"'), tasks=told['tasks'], kernel=EVIL, patches=[EVIL], functions={EVIL: [EVIL]}, stacks={'2': [[0, ['<img>', EVIL], 'S']]},
                        missing=[EVIL], missed={EVIL: 3})
        text = html(case)
        tags = Checked(text).tags
        self.assertNotIn('script', tags)
        self.assertNotIn('img', tags)
        self.assertIn('is in &lt;img&gt;&amp;&quot;, which the patch replaces, since', text)
        self.assertNotIn('\x1b', text)
        self.assertNotIn('\u202e', text)
        transition = chosen(case, None)
        assert transition is not None
        page = page_of(case, naming_of(case), transition, Question(timeline=True))
        terminal = text_of(page, True)
        self.assertNotIn('\x1b', terminal)
        self.assertIn('\\x1b[31m', terminal)

    def test_escapes(self) -> None:
        self.assertEqual(printable('a\x1b\n\u202e\udcffé'), 'a\\x1b\\n\\u202e\\udcffé')
        self.assertEqual(markup('<"&\'\x00'), '&lt;&quot;&amp;&#x27;\\x00')


@needs_lpt
class Svg(unittest.TestCase):
    """The picture of a transition."""

    def test_written_and_well_formed(self) -> None:
        with tempfile.TemporaryDirectory() as folder:
            path = os.path.join(folder, 'picture.svg')
            self.assertEqual(explain(STUCK, '--svg', path).status, 0)
            ElementTree.parse(path)

    def test_nothing_is_written_where_it_is_refused(self) -> None:
        with tempfile.TemporaryDirectory() as folder:
            svg, page = os.path.join(folder, 'picture.svg'), os.path.join(folder, 'none', 'page.html')
            said = explain(STUCK, '--svg', svg, '--html', page)
            self.assertEqual((said.status, said.output), (3, ''))
            self.assertEqual(explain(STUCK, '--leg', '2', '--svg', svg).status, 3)
            self.assertEqual(os.listdir(folder), [])

    def test_time_is_the_axis_of_a_recording(self) -> None:
        transition = chosen(recorded(), None)
        assert transition is not None
        drawn = drawing(recorded(), naming_of(recorded()), transition)
        self.assertIn('>time</text>', drawn)
        labels = {text: float(x) for x, text in re.findall(r'<text x="([\d.]+)"[^>]*>(12:00:\d\d\.\d)</text>', drawn)}
        # What is shown begins with the recording and ends a little after the completion at 12:00:03: 3.3 s on 1200 pixels.
        self.assertAlmostEqual(labels['12:00:03.0'] - labels['12:00:01.0'], 2 / 3.3 * 1200, delta=0.3)
        walk = re.search(r'<g transform="translate\(([\d.]+) [^\n]*\n[^\n]*\n[^\n]*reader \(pid 70000\), walk 12:00:01.0', drawn)
        assert walk is not None
        self.assertAlmostEqual(float(walk[1]), labels['12:00:01.0'], delta=0.3)
        bars = [float(x) for x in re.findall(r'<rect x="([\d.]+)"[^>]*><title>reader ', drawn)]
        self.assertAlmostEqual(min(bars), labels['12:00:01.0'] - 1 / 3.3 * 1200, delta=0.3)        # from the left edge on


if __name__ == '__main__':
    unittest.main()
