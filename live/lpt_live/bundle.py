"""Makes one file of this program: python3 and the file are all that a machine needs for `record`, `now` and `doctor`.

    lpt-live bundle lpt-live.pyz
    scp lpt-live.pyz MACHINE: && ssh MACHINE python3 lpt-live.pyz record -o stuck.rec

The other words work there too, where `lpt` is.
"""
import argparse
import os
import shutil
import tempfile
import zipapp

from .errors import DONE, Refused

SOURCE = os.path.dirname(os.path.abspath(__file__))
LEFT_OUT = shutil.ignore_patterns('__pycache__', '*.pyc')
START = '''import sys
from lpt_live.cli import main
sys.exit(main(sys.argv[1:]))
'''


def add_arguments(parser: argparse.ArgumentParser) -> None:
    """The word's arguments."""
    parser.add_argument('file', metavar='FILE', help='the file to be made, as lpt-live.pyz')


def run(options: argparse.Namespace) -> int:
    """Makes it beside its place, and puts it there whole."""
    beside = f'{options.file}.{os.getpid()}.part'
    try:
        make(beside)
        os.replace(beside, options.file)
    except OSError as fault:
        raise Refused(f'{options.file}: {fault.strerror}') from None
    finally:
        if os.path.exists(beside):
            os.unlink(beside)
    return DONE


def make(file: str) -> None:
    """A zip file that python3 starts, with the package in it."""
    if not os.path.isdir(SOURCE):
        raise Refused('this program is such a file already: copy it')
    with tempfile.TemporaryDirectory() as folder:
        shutil.copytree(SOURCE, os.path.join(folder, 'lpt_live'), ignore=LEFT_OUT)
        with open(os.path.join(folder, '__main__.py'), 'w', encoding='utf-8') as start:
            start.write(START)
        zipapp.create_archive(folder, file, interpreter='/usr/bin/env python3', compressed=True)
