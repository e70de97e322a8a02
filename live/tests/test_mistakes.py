"""Each row of docs/mistakes.md, tried: the program names this cause, and `explain` the line with advice where the line shows it."""
import os
import re
import unittest
from typing import Dict, List, NamedTuple, Tuple

from support import ROOT, needs_lpt

from lpt_live import lpt
from lpt_live.errors import Refused
from lpt_live.explain.case import Case
from lpt_live.explain.causes import cause_in_words
from lpt_live.explain.naming import Naming
from lpt_live.explain.refusals import Refusals

HEADER = 'lptrace 1\nsym a\npatch a\n'
ONE = HEADER + 'boot 1 normal\n'
INSIDE = ONE + 'enter 1\n'
NEW = 'lptrace 3\nsym a\npatch 1 a\n'        # of a kernel whose tasks check themselves at cond_resched


class Try(NamedTuple):
    """A text that has the mistake, the line that is named, and what `explain` says of it (nothing where the line doesn't show it)."""
    text: str
    line: int
    says: str = ''


# By the cause and the second column of the page.
REFUSED_TEXTS: Dict[Tuple[str, str], List[Try]] = {
    ('L1', 'the input is empty: a wrong file, or a program before `lpt` failed'): [Try('', 1, 'ends before it')],
    ('L1', 'a byte order mark before `lptrace`'): [Try('\ufeff' + HEADER, 1, 'byte order mark')],
    ('L1', 'all lines end in CR LF'): [Try(INSIDE.replace('\n', '\r\n'), 1, 'CR LF')],
    ('L1', 'a space, a tab or another number after the header'): [
        Try(HEADER.replace('1\n', '1 \n', 1), 1, 'ends with a space'), Try(HEADER.replace('1\n', '1\t\n', 1), 1, 'a tab'),
        Try(HEADER.replace('1', '4', 1), 1)],
    ('L1', 'another text: a report, JSON'): [Try('lpreport 1\nmodel hybrid\n', 1, 'this is a report'), Try('{"leg":1}\n', 1)],
    ('L2', 'the last line has no line feed at its end'): [Try(INSIDE[:-1], 5), Try('lptrace 1', 1)],
    ('L2', 'a copy was cut'): [Try(INSIDE[:-4], 5)],
    ('L3', 'a comment line'): [Try(HEADER.replace('sym', '# functions\nsym'), 2, 'a comment')],
    ('L3', 'an empty line, often the last'): [Try(INSIDE + '\n', 6, 'is empty'), Try(INSIDE.replace('boot', '\nboot'), 4, 'is empty')],
    ('L3', 'a tab between the words, or a space before the first'): [
        Try(HEADER.replace('sym ', 'sym\t'), 2, 'a tab'), Try(HEADER.replace('sym', ' sym'), 2, 'begins with a space')],
    ('L3', '`sym` after `patch`, or `boot` after an event'): [
        Try(ONE.replace('boot', 'sym b\nboot'), 4, '`sym` lines come first'), Try(INSIDE + 'boot 2 normal\n', 6, '`sym` lines come first')],
    ('L3', 'a word in capitals, or one that no trace has'): [Try(ONE + 'Enter 1\n', 5, 'small letters'), Try(ONE + 'exec 1\n', 5)],
    ('L3', '`resched` in `lptrace 1` or `lptrace 2`'): [
        Try(INSIDE + 'resched 1\n', 6, 'a word of `lptrace 3` alone'),
        Try(INSIDE.replace('patch', 'patch 1').replace('1', '2', 1) + 'resched 1\n', 6, 'a word of `lptrace 3` alone')],
    ('L3', 'CR LF at the end of `walk`, `stop` or a control'): [
        Try(ONE + f'{word}\r\n', 5, 'CR LF') for word in ('walk', 'stop', 'enable', 'disable', 'reverse')],
    ('L4', 'CR LF at the end of another line'): [Try(HEADER + 'boot 1 normal\r\n', 4, 'CR LF'), Try(ONE + 'enter 1\r\n', 5, 'CR LF')],
    ('L4', 'two spaces, or a space at the end'): [
        Try(ONE + 'enter  1\n', 5, 'two spaces'), Try(HEADER.replace('sym a', 'sym a '), 2, 'ends with a space')],
    ('L4', 'a comment after an event'): [Try(ONE + 'enter 1 # reads\n', 5, 'a comment')],
    ('L4', 'a number of six digits, such as a large pid'): [
        Try(HEADER + 'boot 123456 normal\n', 4, 'up to 65,535'), Try(INSIDE + 'fork 1 123456 own\n', 6)],
    ('L4', 'a leading zero'): [Try(HEADER + 'boot 01 normal\n', 4, 'leading zeros'), Try(ONE + 'enter 01\n', 5, 'leading zeros')],
    ('L4', '`boot 7 kthread` or another class'): [Try(HEADER + 'boot 7 kthread\n', 4, 'a kernel thread is `normal`')],
    ('L4', 'a `fork` without `own` or `share`'): [
        Try(INSIDE + 'fork 1 2\n', 6, '`own` (a process) or `share`'), Try(INSIDE + 'fork 1 2 thread\n', 6, '`own` (a process)')],
    ('L4', '`ret 1 a`, `call 1`, `walk 1` or `enable 2`'): [
        Try(INSIDE + 'call 1 a\nret 1 a\n', 7, 'names no function'), Try(INSIDE + 'call 1\n', 6, 'names the function'),
        Try(ONE + 'walk 1\n', 5, 'no further words'), Try(ONE + 'enable 2\n', 5, 'no further words')],
    ('L4', '`patch a` in `lptrace 2` or `3`, or `patch 1 a` in `lptrace 1`'): [
        Try('lptrace 2\nsym a\npatch a\n', 3), Try('lptrace 3\nsym a\npatch a\n', 3), Try('lptrace 1\nsym a\npatch 1 a\n', 3)],
    ('L4', 'a name with a space'): [Try('lptrace 1\nsym do read\npatch do read\n', 2)],
    ('L5', 'CR LF at the end of a `sym` line'): [Try('lptrace 1\nsym a\r\npatch a\n', 2, 'CR LF')],
    ('L5', 'a name with a letter outside ASCII, or longer than 512 bytes'): [
        Try('lptrace 1\nsym f\xfc\npatch a\n', 2, 'outside ASCII'), Try(f'lptrace 1\nsym {"a" * 513}\n', 2)],
    ('L6', 'a function has two `sym` lines'): [Try('lptrace 1\nsym a\nsym a\n', 3)],
    ('L7', 'a `patch` line before the `sym` line of its function'): [Try('lptrace 1\npatch a\nsym a\n', 2)],
    ('L7', 'a called function without a `sym` line, often misspelled'): [Try(INSIDE + 'call 1 b\n', 6)],
    ('L8', 'a function twice in one patch'): [Try(HEADER + 'patch a\n', 4)],
    ('L8', 'patches that don\'t count up from 1, or one left open and taken up again'): [
        Try('lptrace 2\nsym a\npatch 2 a\n', 3), Try('lptrace 2\nsym a\npatch 1 a\npatch 3 a\n', 4),
        Try('lptrace 2\nsym a\nsym b\npatch 1 a\npatch 2 a\npatch 1 b\n', 6)],
    ('L8', 'no `patch` line at all'): [Try('lptrace 1\nsym a\nboot 1 normal\n', 3), Try('lptrace 1\nsym a\n', 3, 'ends before it')],
    ('L9', 'a pid above 65,535'): [
        Try(HEADER + 'boot 70000 normal\n', 4, 'up to 65,535'), Try(INSIDE + 'fork 1 65536 own\n', 6, 'up to 65,535')],
    ('L9', '`boot 0 idle`, since Linux gives every idle task the pid 0'): [Try(HEADER + 'boot 0 idle\n', 4, 'the idle task of each CPU')],
    ('L9', 'a task has two `boot` lines'): [Try(ONE + 'boot 1 normal\n', 5)],
    ('L10', 'more than 4,096 functions, 256 in a patch, or 1,000,000 events'): [
        Try('lptrace 1\n' + ''.join(f'sym f{number}\n' for number in range(4097)), 4098),
        Try('lptrace 1\n' + ''.join(f'{word} f{number}\n' for word in ('sym', 'patch') for number in range(257)), 515),
        Try(ONE + 'walk\n' * 1000001, 1000005)],
}

# By the refusal and the second column: a trace, the line of its first refused event, and what `explain` says of it.
REFUSED_EVENTS: Dict[Tuple[str, str], List[Try]] = {
    ('E1', 'the task has no `boot` line, and no fork made it'): [Try(ONE + 'enter 2\n', 5, 'There is no task 2 by then')],
    ('E1', 'the task has ended, and its pid was used again'): [Try(INSIDE + 'die 1\nenter 1\n', 7, 'Task 1 ended at line 6 (event 2)')],
    ('E4', 'a fork gives a number that was used before'): [
        Try(INSIDE + 'fork 1 2 own\nfork 1 2 own\n', 7, 'in use from line 6 (event 2) on'),
        Try(INSIDE + 'fork 1 1 own\n', 6, 'in use from the start')],
    ('E5', '`enter`, `exit`, `resched`, `fork` or `die` of an idle task, or `idle` of a normal one'): [
        Try(NEW + 'boot 9 idle\nresched 9\n', 5, '`resched` is an event of a normal task, and task 9 is idle'),
        Try(HEADER + 'boot 9 idle\nenter 9\n', 5, '`enter` is an event of a normal task, and task 9 is idle'),
        Try(INSIDE + 'idle 1\n', 6, '`idle` is an event of an idle task, and task 1 is normal')],
    ('E6', 'an `enter` before the call is missing'): [
        Try(ONE + 'call 1 a\n', 5, '`call` needs a task in the kernel on a CPU, and task 1 is in user space.\n  Usually an `enter 1` before it')],
    ('E6', 'a `wake` before the return is missing'): [
        Try(INSIDE + 'call 1 a\nsleep 1\nret 1\n', 8, 'task 1 is off its CPU in the kernel.\n  Usually a `wake 1` before it is missing')],
    ('E6', 'an `exit` is missing, so that the next `enter` comes twice'): [
        Try(INSIDE + 'enter 1\n', 6, '`enter` needs a task in user space, and task 1 is in the kernel on a CPU.\n  Usually an `exit 1` before it')],
    ('E7', 'calls without returns, up to 100 frames'): [Try(INSIDE + 'call 1 a\n' * 101, 106, 'Task 1 has 100 frames on its stack')],
    ('E8', 'a `ret` too many, or its `call` is missing'): [Try(INSIDE + 'ret 1\n', 6, 'Task 1 has no frame on its stack')],
    ('E9', 'an `exit`, `idle` or `die` before the last `ret`'): [
        Try(INSIDE + 'call 1 a\nexit 1\n', 7, 'still has frames on its stack: a (line 6).\n  Usually 1 `ret` of it before this is missing')],
    ('E10', '`enable` or `disable` while a transition is under way'): [
        Try(ONE + 'enable\nenable\n', 6, 'opened at line 5 (event 1) isn\'t complete')],
    ('E11', '`reverse` where no transition is under way'): [
        Try(ONE + 'reverse\n', 5, 'none opened'),
        Try(ONE + 'enable\nenter 1\nexit 1\nreverse\n', 8, 'the last one was complete at line 7 (event 3)')],
    ('E12', '`enable` above the last patch, or `disable` with nothing enabled'): [
        Try(ONE + 'disable\n', 5, 'no level below level 0'), Try(ONE + 'enable\nenter 1\nexit 1\nenable\n', 8, 'no level above the last patch')],
}


def page() -> str:
    """The page's text."""
    with open(os.path.join(ROOT, 'docs', 'mistakes.md'), encoding='utf-8') as file:
        return file.read()


def rows(letter: str) -> List[Tuple[str, str]]:
    """The first two columns of the rows of a table, the first without its place: L1 at line 1."""
    found = re.findall(rf'^\| ({letter}\d+)[^|]*\| (.*?) \| .* \|$', page(), re.M)
    return [(cause, usually) for cause, usually in found]


class Rows(unittest.TestCase):
    """The tables and the tries have the same rows."""

    def test_each_row_of_a_refused_text_is_tried(self) -> None:
        elsewhere = [('L11', 'more than 134,217,728 bytes'), ('L12', 'no line `lpcert 1` after the trace'),
                     ('L12', 'a certificate that begins without its claim, or has two')]
        self.assertEqual(rows('L'), [*REFUSED_TEXTS, *elsewhere])

    def test_each_row_of_a_refused_event_is_tried(self) -> None:
        self.assertEqual(rows('E'), list(REFUSED_EVENTS))


@needs_lpt
class Texts(unittest.TestCase):
    """The mistakes for which `lpt` refuses a text."""

    def test_refused_texts(self) -> None:
        for (cause, usually), tries in REFUSED_TEXTS.items():
            for one in tries:
                with self.subTest(cause=cause, usually=usually, text=one.text[:60]):
                    answer = lpt.answer(['run', 'hybrid'], one.text)
                    self.assertEqual((answer.status, answer.output, answer.fault), (3, '', f'lpt: line {one.line}: {cause}'))
                    told = cause_in_words(answer.fault, one.text)
                    self.assertIn(f'line {one.line}: {cause}: ', told)
                    self.assertIn(one.says, told)
                    self.assertLess(len(told), 400)

    def test_a_text_that_is_too_long(self) -> None:
        answer = lpt.answer(['run', 'hybrid'], HEADER + 'x' * (134217729 - len(HEADER)))
        self.assertEqual((answer.status, answer.fault), (3, 'lpt: line 0: L11'))

    def test_inputs_of_check(self) -> None:
        claim = 'waiting 1 1 1\n'
        for text, line in ((ONE + 'enable\n', 6), (ONE + 'enable\nlpcert 1\nbusy 1 1 1\n', 7),
                           (ONE + f'enable\nlpcert 1\n{claim}{claim}', 8)):
            self.assertEqual(lpt.answer(['check', 'hybrid'], text).fault, f'lpt: line {line}: L12')
        self.assertEqual(lpt.answer(['check', 'hybrid'], ONE + f'enable\nlpcert 1\n{claim}').output, 'accepted\n')

    def test_explain_refuses_with_the_words(self) -> None:
        with self.assertRaisesRegex(Refused, r'line 5: L4: .*The line is `enter  1`; two spaces stand where one is wanted'):
            Case(ONE + 'enter  1\n', 'hybrid', None, 'T')


@needs_lpt
class Events(unittest.TestCase):
    """The mistakes for which events are refused, which `lpt run` tells with status 0."""

    def test_refused_events(self) -> None:
        for (why, usually), tries in REFUSED_EVENTS.items():
            for one in tries:
                with self.subTest(why=why, usually=usually, text=one.text[-40:]):
                    case = Case(one.text, 'hybrid', None, 'T')
                    first = min(case.refused)
                    self.assertEqual((case.refused[first], case.trace.line_of(first)), (why, one.line))
                    told = '\n'.join(Refusals(case, Naming(case)).lines())
                    self.assertIn(f'The first is line {one.line} (event {first}), `{case.events[first - 1].text}`: {why}. ', told)
                    self.assertIn(one.says, told)

    def test_the_counts(self) -> None:
        case = Case(ONE + 'call 1 a\nret 1\nenter 1\nret 1\nexit 1\n', 'hybrid', None, 'T')
        told = Refusals(case, Naming(case)).lines()
        self.assertIn('CAUTION: 3 of 5 events were refused and changed nothing (E6 2 times, E8 once)', told[0])


@needs_lpt
class Page(unittest.TestCase):
    """What else the page says."""

    def trace(self) -> str:
        """The trace that the page names."""
        self.assertIn('`examples/roles.lptrace`', page())
        with open(os.path.join(ROOT, 'examples', 'roles.lptrace'), encoding='utf-8') as file:
            return file.read()

    def test_the_trace_of_who_is_who(self) -> None:
        """None of its events is refused, and it comes to what the page says."""
        case = Case(self.trace(), 'hybrid', None, 'T')
        self.assertEqual(case.refused, {})
        walks = [event.number for event in case.events if event.word == 'walk']
        self.assertEqual(case.report.reply(walks[1]).groups, (2, 103, 104, 65535))
        reasons = {one.group: [reason.word for reason in one.reasons] for one in case.report.legs[-1].certificates}
        self.assertEqual(reasons, {101: ['busy']})

    def test_from_event_to_line(self) -> None:
        """The command on the page prints the line that the trace has for event 12."""
        found = re.search(r'^    grep (.*) \| sed -n 12p$', page(), re.M)
        assert found is not None
        pattern = re.search(r'\'(.*?)\'', found[1])
        assert pattern is not None
        case = Case(self.trace(), 'hybrid', None, 'T')
        lines = [(number, line) for number, line in enumerate(self.trace().splitlines(), 1) if not re.search(pattern[1], line)]
        self.assertEqual(lines[11], (case.trace.line_of(12), case.events[11].text))

    def test_modes_are_the_engines(self) -> None:
        """Each row of what an event needs: accepted in that mode, refused as E6 in the others."""
        begin = {'user': '', 'kernel': 'enter 1\n', 'asleep': 'enter 1\nsleep 1\n'}
        needs = {'enter': 'user', 'call': 'kernel', 'ret': 'kernel', 'sleep': 'kernel', 'wake': 'asleep', 'exit': 'kernel', 'resched': 'kernel',
                 'fork': 'kernel', 'die': 'kernel'}
        words = {'call': 'call 1 a', 'fork': 'fork 1 2 own'}
        for word, need in needs.items():
            for mode, before in begin.items():
                text = NEW + 'boot 1 normal\n' + before + words.get(word, f'{word} 1') + '\n'
                if word == 'ret' and mode == 'kernel':
                    text = INSIDE + 'call 1 a\nret 1\n'
                refused = set(Case(text, 'hybrid', None, 'T').refused.values())
                self.assertEqual(refused, set() if mode == need else {'E6'}, (word, mode))


if __name__ == '__main__':
    unittest.main()
