"""Draws a run as a picture.

Reads a trace and, after it, its report, as `cat T.lptrace R.report` gives them, and writes SVG, which every browser shows.
Tasks go down and events across; the legend tells the signs. Pointing at a bar, a mark or a leg tells more.
"""
import argparse
import os
import re
import sys
from typing import List, Optional, Tuple

from .. import report, trace
from ..errors import Ended, Refused
from . import draw
from .story import Story


def span(word: str) -> Tuple[int, int]:
    """The first event and the last of FROM-TO."""
    found = re.fullmatch(r'(\d{1,7})-(\d{1,7})', word)
    if not found or not 1 <= int(found[1]) <= int(found[2]):
        raise argparse.ArgumentTypeError(f'FROM-TO is wanted, as 1560-1720, and not {word}')
    return int(found[1]), int(found[2])


def numbers(word: str) -> List[int]:
    """The tasks of N,N,.."""
    if not re.fullmatch(r'\d{1,5}(,\d{1,5})*', word):
        raise argparse.ArgumentTypeError(f'numbers of tasks are wanted, as 1,2,7, and not {word}')
    return [int(number) for number in word.split(',')]


def divide(text: str) -> Tuple[str, str]:
    """The trace and its report, which begins at the first line `lpreport`."""
    if not text:
        raise Refused('the input is empty; a trace and its report are wanted')
    at = 0 if text.startswith('lpreport ') else text.find('\nlpreport ') + 1
    if text.startswith('lpreport '):
        raise Refused('a report without its trace; a picture needs both: cat T.lptrace R.report')
    if not at:
        raise Refused('a trace without its report; a picture needs both: cat T.lptrace R.report')
    return text[:at], text[at:]


def picture(text: str, events: Optional[Tuple[int, int]], tasks: List[int]) -> str:
    """The picture of an input; Refused where it is none."""
    of_trace, of_report = divide(text)
    try:
        told = report.parse(of_report)
    except (Ended, ValueError, IndexError, TypeError):
        raise Refused('the report can\'t be read; is it whole, and of `lpt run`?') from None
    return draw(Story(trace.parse(of_trace), told), events, tasks)


def main(arguments: Optional[List[str]] = None) -> int:
    """The command: the status of the process."""
    parser = argparse.ArgumentParser(prog='picture', description=__doc__, formatter_class=argparse.RawDescriptionHelpFormatter,
                                     usage='scripts/picture [--events FROM-TO] [--tasks N,N,..] < TRACE-AND-REPORT > PICTURE.svg')
    parser.add_argument('--events', type=span, metavar='FROM-TO', help='from which event to which; else all')
    parser.add_argument('--tasks', type=numbers, default=[], metavar='N,N,..', help='of these tasks alone')
    options = parser.parse_args(arguments)
    try:
        text = sys.stdin.buffer.read().decode('utf-8', 'surrogateescape')
        drawn = picture(text, options.events, options.tasks)
    except Ended as end:
        print(f'picture: {end}', file=sys.stderr)
        return end.status
    try:
        sys.stdout.write(drawn)
        sys.stdout.flush()
    except BrokenPipeError:         # the reader went away, which is no fault of this program
        os.dup2(os.open(os.devnull, os.O_WRONLY), sys.stdout.fileno())
    return 0
