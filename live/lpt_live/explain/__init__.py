"""Who held a transition open, since when, in which function, and what would help.

FILE is a recording of `lpt-live record`, the BASE of `lpt-live convert`, or a plain trace, written by hand or by a simulator
(`-` for standard input). All decisions are those of `lpt`.
"""
import argparse
import sys

from ..errors import DONE, Refused, Usage
from ..files import write_all
from ..rules import MODELS
from .case import Case, chosen, load
from .certificate import certified
from .drawing import drawing
from .naming import Naming
from .page import Question, moment_of, naming_of, page_of
from .page_html import html_of
from .page_text import nothing, text_of
from .refusals import Refusals


def add_arguments(parser: argparse.ArgumentParser) -> None:
    """The further words of `explain`."""
    parser.add_argument('file', metavar='FILE', help='a recording, a converted BASE, or a plain trace')
    parser.add_argument('--leg', type=int, metavar='N', help='the N-th transition; else the last')
    parser.add_argument('--at', metavar='TIME', help='who waited at this moment: an event\'s number, a time as 14:03:07.2 of a '
                        'recording, line:N of a plain trace; else at the end, or after the first walk if it became complete')
    parser.add_argument('--what-if', choices=['reverse'], help='who would hold up the way back, if it were turned round there')
    parser.add_argument('--timeline', action='store_true', help='a timeline for the terminal')
    parser.add_argument('--svg', metavar='F', help='write the picture of the transition to F')
    parser.add_argument('--html', metavar='F', help='write the page with the picture to F: one file, readable without a network')
    parser.add_argument('--certificate', metavar='PID', help='instead of the page, write the trace with the certificate that PID '
                        '(of a plain trace: this group) waits, for `lpt check MODEL`')
    parser.add_argument('--model', choices=MODELS, default='hybrid',
                        help='of a plain trace, the model; else hybrid, which is Linux\'s')


def run(options: argparse.Namespace) -> int:
    """Writes the page."""
    if options.certificate and (options.svg or options.html or options.timeline or options.what_if):
        raise Usage('--certificate is written in place of the page, so nothing of a page goes with it')
    case = load(options.file, options.model)
    if case.names and options.model != 'hybrid':
        raise Usage('--model is for plain traces; a recording is of Linux, which is hybrid (the page compares the models)')
    naming = naming_of(case)
    transition = chosen(case, options.leg)
    if transition is None:
        if options.certificate or options.svg or options.html or options.at:
            raise Refused(f'{case.title}: no transition in it')
        sys.stdout.write(nothing(case.title, len(case.events)) + refused_lines(case, naming))
        return DONE
    if options.certificate:
        at = moment_of(naming, transition, options.at) if options.at else None
        sys.stdout.write(certified(case, naming, transition, options.certificate, at))
        return DONE
    page = page_of(case, naming, transition, Question(options.at, options.what_if, options.timeline))
    picture = drawing(case, naming, transition) if options.svg or options.html else ''
    texts = {options.svg: picture, options.html: html_of(page, picture)}
    write_all({path: text for path, text in texts.items() if path})
    sys.stdout.write(text_of(page, case.names is not None))
    return DONE


def refused_lines(case: Case, naming: Naming) -> str:
    """The refused events of a plain trace without a transition: they may be why there is none."""
    return ''.join(f'{line}\n' for line in Refusals(case, naming).lines()) if case.names is None else ''
