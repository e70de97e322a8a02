"""What a recording's lines say, one task each, before they are events.

| Kind | `task` | Further members |
|---|---|---|
| out | leaves its CPU | `text`: its state letter (R, S, D, Z ..) |
| in | is on a CPU again | |
| enter, exit | begins or ends a system call | |
| dying | is on its way to its end | |
| forked | made a child that lives | `about`: the child |
| copy | makes a child | `about`, `state` of both at the birth, `flag`: a thread |
| release | is taken out of the kernel's list | |
| call | calls an old function | `text`: the symbol, `sp`: where its return address lies |
| newcall | runs a new function | `text`: the symbol that it stands for, `module`: the patch |
| init | begins to prepare a transition | `state`: the target, `module`: the patch, `flag`: atomic replace |
| reverse, start | turns a transition round; sets the pending flags | `start` has the `target` |
| walk, walked | begins or ends a walk | `walk` has the `target`; once sorted both it and `open` have `checks` |
| complete, force | completes or forces the transition | |
| check | the walk of `task` looks at a task | `about`: which, `result`: the verdict, `was`, `state` |
| resched | looks at itself at cond_resched | `result`, `was`, `state` |
| update, updated | klp_update_patch_state of it begins, is over | `state`, of an update `flag`: it was pending, `own`: by itself |
| control | its control was refused | `text`: enable or disable, `result` |
| ask, told | the recorder begins or ends a look into /proc | `about`: the look's number |
| time | the recorder's mark | `seconds` |
| open | (made of init .. start) the transition is open | `target`, `flag`: a reversal, `checks` |
| gone | (made) the unpatching of a patch is complete | `module`: the patch |

States are the kernel's: 1 patched, 0 unpatched, -1 undefined, outside of transitions.
"""
from typing import Optional, Sequence, Tuple

UNDEFINED = -1
EBUSY, EINVAL, EADDRINUSE, EAGAIN = -16, -22, -98, -11


class Record:
    """One record; the members that its kind has not are empty."""
    __slots__ = ('kind', 'task', 'place', 'cpu', 'text', 'module', 'about', 'state', 'was', 'target', 'result',
                 'flag', 'own', 'sp', 'seconds', 'checks')

    def __init__(self, kind: str, task: int, place: int, cpu: int, *, text: str = '', module: str = '', about: int = 0,
                 state: int = UNDEFINED, was: int = UNDEFINED, target: int = UNDEFINED, result: int = 0,
                 flag: bool = False, own: bool = True, sp: Optional[int] = None, seconds: float = 0.0) -> None:
        self.kind = kind
        self.task = task
        self.place = place
        self.cpu = cpu
        self.text = text
        self.module = module
        self.about = about
        self.state = state
        self.was = was
        self.target = target
        self.result = result
        self.flag = flag
        self.own = own
        self.sp = sp
        self.seconds = seconds
        self.checks: Sequence[Tuple[int, int]] = ()

    @property
    def subject(self) -> int:
        """The task whose patch state it tells: of a check the one that is looked at."""
        return self.about if self.kind == 'check' else self.task

    def __repr__(self) -> str:
        return f'record {self.place} ({self.kind} of task {self.task})'
