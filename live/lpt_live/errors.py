"""How a word can end.  Each way has a status and, but for success, a reason on standard error.

| Status | Case |
|---|---|
| 0 | done; of `verify`: the kernel and the engine agree |
| 1 | of `verify`: they differ |
| 2 | other words than there are |
| 3 | a bad input: the reason says what is wrong with it |
| 4 | `lpt` wasn't found, or failed |
| 5 | not possible on this kernel, or not without root |
| 6 | the output couldn't be written, or the program itself is at fault |
| 130 | interrupted |
"""

DONE = 0
DIFFERS = 1
USAGE = 2
FAILED = 6
INTERRUPTED = 130


class Ended(Exception):
    """A word that can't go on; `status` is the program's, the text its reason."""
    status = 3


class Usage(Ended):
    """Words that can't be followed, where argparse can't tell."""
    status = 2


class Refused(Ended):
    """A bad input: a text or a recording that can't be used, and why."""
    status = 3


class NoEngine(Ended):
    """`lpt` wasn't found, couldn't be started, or gave no answer."""
    status = 4


class NotPossible(Ended):
    """This kernel, or this user, can't do it."""
    status = 5
