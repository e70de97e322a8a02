"""What the tests of this folder share: the package on the path, the data, and `lpt` or a reason to skip."""
import os
import sys
import unittest
from typing import Callable, TypeVar

sys.dont_write_bytecode = True
HERE = os.path.dirname(os.path.abspath(__file__))
LIVE = os.path.dirname(HERE)
ROOT = os.path.dirname(LIVE)
DATA = os.path.join(HERE, 'data')
PROGRAM = os.path.join(ROOT, 'lpt-live')
if LIVE not in sys.path:
    sys.path.insert(0, LIVE)

from lpt_live import lpt  # noqa: E402

T = TypeVar('T')


def data(*parts: str) -> str:
    """The path of a file of tests/data."""
    return os.path.join(DATA, *parts)


def text_of(*parts: str) -> str:
    """The text of a file of tests/data."""
    with open(data(*parts), encoding='utf-8', newline='') as file:
        return file.read()


def built_lpt() -> bool:
    """Whether there is an lpt that answers at once: LPT, or the program that ./prove built."""
    command = lpt.find()
    return command is not None and command != [os.path.join(ROOT, 'lpt')]


def needs_lpt(test: Callable[..., T]) -> Callable[..., T]:
    """Skips a test where there is no built lpt, with a message."""
    return unittest.skipUnless(built_lpt(), 'no built lpt here: ./prove builds it, or LPT says how it is started')(test)
