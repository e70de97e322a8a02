"""What the tests of `explain` share: a small recording's case, and the program's words with their output."""
import contextlib
import io
import os
import time
from typing import Any, Dict, List, NamedTuple

import support  # noqa: F401  (puts the package on the path)

from lpt_live.cli import main
from lpt_live.explain.case import Case
from lpt_live.names import Names

os.environ['TZ'] = 'UTC'        # pages tell local times
time.tzset()

# A recording by hand: pid 70000 (task 2) sleeps in `pipe_read` from before it, a kernel thread is on a CPU at the first walk, an idle task goes
# over by itself. The marks are one second apart.
TRACE = '''lptrace 1
sym pipe_read
patch pipe_read
boot 2 normal
boot 3 normal
boot 4 normal
boot 65535 idle
enter 2
call 2 pipe_read
sleep 2
enter 3
enter 4
sleep 4
enable
walk
idle 65535
sleep 3
walk
wake 2
ret 2
exit 2
walk
'''
NOON = 1795953600.0             # 2026-11-29, 12:00 UTC


def names_data() -> Dict[str, Any]:
    """The names of the recording."""
    return {
        'version': 1, 'kernel': '6.1.0-test', 'patches': ['fix'], 'functions': {'fix': ['pipe_read']}, 'prologue': 6,
        'tasks': {'2': {'pid': 70000, 'tgid': 70000, 'kind': 'user', 'comm': 'reader'},
                  '3': {'pid': 33, 'tgid': 33, 'kind': 'kthread', 'comm': 'worker'},
                  '4': {'pid': 44, 'tgid': 40, 'kind': 'user', 'comm': 'thread'},
                  '65535': {'pid': 0, 'tgid': 0, 'kind': 'idle', 'comm': 'swapper', 'cpu': 0}},
        'times': [[7, NOON], [8, NOON + 1], [11, NOON + 2], [14, NOON + 3], [15, NOON + 4]], 'began_in_transition': False,
        'marks': [NOON + tenth / 10 for tenth in range(41)],
        'stacks': {'2': [[0, ['pipe_read', 'vfs_read'], 'S']]}, 'kernel_legs': [['leg', '7', 'enable', 'new', 'from', '7', 'complete', '15', 'shown', '15']],
        'kernel_says': ['over 8 4 walk kernel', 'stays 8 2 frame', 'stays 8 3 busy', 'stays 8 65535 busy', 'over 9 65535 idle', 'over 11 3 walk',
                        'stays 11 2 frame', 'over 14 2 exit'],
        'missing': [], 'missed': {}, 'light': False, 'calls_known': True, 'messages': [], 'me': 4, 'log': {}}


def recorded(text: str = TRACE, **changes: Any) -> Case:
    """The recording's case, with some of its names changed."""
    return Case(text, 'hybrid', Names({**names_data(), **changes}), 'hand.rec')


class Said(NamedTuple):
    """What the program wrote, and its status."""
    status: int
    output: str
    fault: str


def explain(*words: str) -> Said:
    """`lpt-live explain` with these words."""
    output, fault = io.StringIO(), io.StringIO()
    with contextlib.redirect_stdout(output), contextlib.redirect_stderr(fault):
        status = main(['explain', *words])
    return Said(status, output.getvalue(), fault.getvalue())


def page_lines(case: Case, *words: str) -> List[str]:
    """The page of a case, line by line."""
    from lpt_live.explain import case as cases
    from lpt_live.explain.page import Question, naming_of, page_of
    from lpt_live.explain.page_text import text_of
    transition = cases.chosen(case, None)
    assert transition is not None
    question = Question(at=words[1] if words[:1] == ('--at',) else None, what_if='reverse' if 'reverse' in words else None,
                        timeline='--timeline' in words)
    page = page_of(case, naming_of(case), transition, question)
    return text_of(page, case.names is not None).splitlines()
