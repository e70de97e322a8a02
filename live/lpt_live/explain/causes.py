"""Why a text is no trace, in plain words: the cause that `lpt` names, and what the line looks like."""
import re
from typing import Callable, List, NamedTuple, Sequence

from ..escape import printable

CAUSES = {
    'L1': 'the first line is none of `lptrace 1`, `lptrace 2` and `lptrace 3`',
    'L2': 'the last line lacks its end, a byte 10',
    'L3': 'the first word is none of a trace, or belongs to an earlier part (sym, patch, boot, events, in this order)',
    'L4': 'a wrong number of words, an empty word, a number not of 1 to 5 digits without leading zeros, another class or kind '
          'of fork',
    'L5': 'a name is longer than 512 bytes or has a byte outside 33 to 126',
    'L6': 'the function is there already',
    'L7': 'the function has no `sym` line before this one',
    'L8': 'the function is in its patch already, the patch\'s number is out of turn, or no `patch` line stands before this one',
    'L9': 'a task\'s number isn\'t from 1 to 65,535, or a boot task is there already',
    'L10': 'one line more than this part may have',
    'L11': 'the text has more than 134,217,728 bytes'}


class Sign(NamedTuple):
    """What a line at fault looks like, and what to do about it."""
    seen: Callable[[str], bool]
    advice: str


def has(pattern: str) -> Callable[[str], bool]:
    """Whether the line has it."""
    return lambda line: re.search(pattern, line) is not None


SIGNS: Sequence[Sign] = (
    Sign(has('^\ufeff'), 'the text begins with a byte order mark; save it as UTF-8 without one'),
    Sign(has(r'\r$'), 'the line ends in CR LF; save the text with LF alone (dos2unix does it)'),
    Sign(has(r'^\x1f'), 'this is compressed; unpack it first, unless it is a recording'),
    Sign(has(r'^lpreport '), 'this is a report; the trace is wanted'),
    Sign(has(r'^$'), 'the line is empty; a trace has no empty lines'),
    Sign(has(r'#|//'), 'this looks like a comment; a trace has none'),
    Sign(has(r'\t'), 'a tab stands where one space is wanted'),
    Sign(has(r'^ '), 'the line begins with a space'),
    Sign(has(r' $'), 'the line ends with a space'),
    Sign(has(r'  '), 'two spaces stand where one is wanted'),
    Sign(has(r'^boot 0 '), 'Linux gives the idle task of each CPU the pid 0; give each a number of its own, as 65535, 65534, ..'),
    Sign(has(r'^(boot|fork|call|\w+) (\d+ )?(0\d+)( |$)'), 'a number has leading zeros'),
    Sign(has(r'^boot \d+ (?!normal$|idle$)\S+$'), 'a boot task is `normal` or `idle`; a kernel thread is `normal`'),
    Sign(has(r'^fork \d+ \d+( (?!own$|share$)\S+)?$'), 'a fork ends with `own` (a process) or `share` (a thread)'),
    Sign(has(r'^\w+ (\d+ )?(\d{6,}|6553[6-9]|655[4-9]\d|65[6-9]\d\d|6[6-9]\d{3}|[7-9]\d{4})( |$)'),
         'task numbers go up to 65,535 and this is above; number the tasks anew, any number once'),
    Sign(has(r'^ret \d+ \S'), '`ret` names no function: it is the last one called'),
    Sign(has(r'^call \d+$'), '`call` names the function'),
    Sign(has(r'^(walk|stop|enable|disable|reverse) '), 'walks, stops and controls have no further words'),
    Sign(has(r'^resched \d+$'), '`resched` is a word of `lptrace 3` alone'),
    Sign(has(r'[^\x00-\x7f]'), 'a name has a letter outside ASCII'),
    Sign(has(r'^(sym|patch|boot)\b'), '`sym` lines come first, then `patch`, then `boot`, then the events'),
    Sign(has(r'^[a-z]*[A-Z]'), 'the words of a trace are in small letters'))


def lines_of(text: str) -> List[str]:
    """The lines, as `lpt` counts them."""
    return text.split('\n')


def cause_in_words(fault: str, text: str) -> str:
    """What is wrong with the text; the fault is `lpt: line 3: L6`."""
    found = re.fullmatch(r'lpt: line (\d+): (L\d+)', fault)
    if not found:
        return f'lpt refused the trace: {fault}'
    number, cause = int(found[1]), found[2]
    lines = lines_of(text)
    line = lines[number - 1] if 0 < number <= len(lines) else ''
    told = f'line {number}: {cause}: {CAUSES.get(cause, "no trace")}'
    if number > len(lines) or (number == len(lines) and not line):
        return f'{told} (the text ends before it); docs/mistakes.md has more'
    advice = next((sign.advice for sign in SIGNS if cause not in ('L2', 'L6', 'L7', 'L10') and sign.seen(line)), '')
    shown = printable(line[:60]) + (' ..' if len(line) > 60 else '')
    return f'{told}. The line is `{shown}`{"; " + advice if advice else ""}; docs/mistakes.md has more'
