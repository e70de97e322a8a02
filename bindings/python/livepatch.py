"""The livepatch transition engine, by its C interface (include/livepatch.h).

    with Engine(model="hybrid", patches=[["a"]], boots=[1]) as engine:
        engine.step("enter", 1)
        engine.step("call", 1, "a")

Functions are given by their names, which are kept on this side and numbered in the order in which they come.
"""

from __future__ import annotations

import ctypes
import functools
import itertools
import os
from typing import Dict, NamedTuple, Optional, Sequence, Tuple, Type, Union

KINDS = tuple("call ret sleep wake enter exit idle fork thread die walk stop enable disable reverse resched".split())
MODES = ("user", "kernel", "asleep")
STATUSES = {13: "NO_MEMORY", 14: "JOURNAL_FULL"}
STATUSES.update(enumerate("NO_ENGINE HAS_ENGINE NO_MODEL NO_EVENT NOT_THERE".split(), 20))
STATUSES.update(enumerate("PATCH_EMPTY PATCH_UNKNOWN PATCH_DOUBLED PATCH_TOO_MANY".split(), 31))
STATUSES.update({36: "TOO_MANY_PATCHES", 37: "PATCH_LENGTHS", 41: "TASK_RANGE", 42: "TASK_DOUBLED"})
NO_MODEL, NO_EVENT, NOT_THERE, PATCH_LENGTHS = 22, 23, 24, 37


class LivepatchError(Exception):
    """A call that did nothing; `name` is its status."""

    def __init__(self, status: int) -> None:
        self.status = status
        self.name = STATUSES.get(status, str(status))
        super().__init__(self.name)


class Reply(NamedTuple):
    """What an event did: "ran", "done", "over" or "refused"."""

    what: str
    level: Optional[int]
    groups: Tuple[int, ...]
    refusal: Optional[int]
    complete: bool

    def __str__(self) -> str:
        """As the report of a stack of patches has it."""
        if self.what == "ran":
            text = f"ran {self.level}"
        elif self.what == "over":
            text = " ".join(["over", *map(str, self.groups)])
        elif self.what == "refused":
            text = f"refused E{self.refusal}"
        else:
            text = self.what
        return text + " complete" * self.complete


class Task(NamedTuple):
    """A live task as it stands."""

    level: int
    group: int
    mode: str
    depth: int


class State(NamedTuple):
    """Where the engine stands."""

    events: int
    target: int
    in_transition: bool


class Blame(NamedTuple):
    """The frame that holds a group back: its task, and the number of the event that pushed it."""

    task: int
    serial: int


class Certificate(NamedTuple):
    """Why a group waits; as a text, what `lpt check` reads after `lpcert 1`."""

    leg: int
    group: int
    upto: int
    lines: Tuple[str, ...]

    def __str__(self) -> str:
        return "\n".join([f"waiting {self.leg} {self.group} {self.upto}", *self.lines])


class _Slot(ctypes.Structure):
    _fields_ = [("at", ctypes.c_void_p)]


class _BootTask(ctypes.Structure):
    _fields_ = [("task", ctypes.c_uint16), ("idle", ctypes.c_uint16)]


class _Event(ctypes.Structure):
    _fields_ = [("kind", ctypes.c_uint32), ("task", ctypes.c_uint16), ("other", ctypes.c_uint16)]


class _Told(ctypes.Structure):
    _fields_ = [*((name, ctypes.c_uint32) for name in ("what", "level", "refusal", "complete")), ("groups", ctypes.c_size_t)]


class _State(ctypes.Structure):
    _fields_ = [("events", ctypes.c_uint64), ("target", ctypes.c_uint32), ("in_transition", ctypes.c_uint32)]


class _Task(ctypes.Structure):
    _fields_ = [*((name, ctypes.c_uint32) for name in ("level", "group", "mode", "unused")), ("depth", ctypes.c_size_t)]


class _Blame(ctypes.Structure):
    _fields_ = [("serial", ctypes.c_uint64), ("task", ctypes.c_uint32), ("unused", ctypes.c_uint32)]


class _Cert(ctypes.Structure):
    _fields_ = [("leg", ctypes.c_uint64), ("upto", ctypes.c_uint64), ("lines", ctypes.c_size_t)]


class _Line(ctypes.Structure):
    _fields_ = [
        *((name, ctypes.c_uint32) for name in ("kind", "group", "task", "unused")),
        *((name, ctypes.c_uint64) for name in ("serial", "from_event", "to_event")),
    ]


def _place() -> str:
    """Where scripts/build-c leaves the library; LIVEPATCH_LIBRARY names another."""
    top = os.path.dirname(os.path.dirname(os.path.dirname(os.path.abspath(__file__))))
    return os.environ.get("LIVEPATCH_LIBRARY", os.path.join(top, "crates", "lp_c", "out", "liblivepatch.so"))


@functools.lru_cache(maxsize=None)
def library() -> ctypes.CDLL:
    """The library, opened once, with the types of its calls."""
    opened = ctypes.CDLL(_place())
    short, number, size, to = ctypes.c_uint16, ctypes.c_uint32, ctypes.c_size_t, ctypes.POINTER
    slot = to(_Slot)
    shapes: Dict[str, Sequence[type]] = {
        "lp_create": (slot, number, short, to(short), size, to(number), size, to(_BootTask), size),
        "lp_step": (slot, to(_Event), to(_Told)),
        "lp_group": (slot, size, to(number)),
        "lp_state": (slot, to(_State)),
        "lp_task": (slot, short, to(_Task)),
        "lp_blame": (slot, short, to(_Blame)),
        "lp_certificate": (slot, short, to(_Cert)),
        "lp_line": (slot, size, to(_Line)),
        "lp_free": (slot,),
        "lp_model_name": (number, size, to(number)),
    }
    for name, arguments in shapes.items():
        call = getattr(opened, name)
        call.argtypes = list(arguments)
        call.restype = None if name == "lp_free" else number
    return opened


@functools.lru_cache(maxsize=None)
def models() -> Tuple[str, ...]:
    """The names of the models, each at the place of its number: what the library has."""
    names = map(_model_name, itertools.count())
    return tuple(itertools.takewhile(bool, names))


def _model_name(model: int) -> str:
    """The name of the model of a number; empty where there is none."""
    letter, name = ctypes.c_uint32(), ""
    while library().lp_model_name(model, len(name), ctypes.byref(letter)) == 0:
        name += chr(letter.value)
    return name


def _raise_on(status: int) -> None:
    if status:
        raise LivepatchError(status)


class Engine:
    """One engine. `boots` are task numbers, or pairs of a number and "normal" or "idle"."""

    def __init__(
        self,
        model: str,
        patches: Sequence[Sequence[str]],
        boots: Sequence[Union[int, Tuple[int, str]]],
        symbols: Sequence[str] = (),
    ) -> None:
        self._library = library()
        self._slot = _Slot()
        if model not in models():
            raise LivepatchError(NO_MODEL)
        self._names: Dict[str, int] = {}
        for name in [*symbols, *(name for patch in patches for name in patch)]:
            self._names.setdefault(name, len(self._names))
        functions = [self._names[name] for patch in patches for name in patch]
        tasks = [(boot, "normal") if isinstance(boot, int) else boot for boot in boots]
        if len(self._names) > 4096:
            raise LivepatchError(PATCH_LENGTHS)
        _raise_on(
            self._library.lp_create(
                ctypes.byref(self._slot),
                models().index(model),
                len(self._names),
                (ctypes.c_uint16 * max(1, len(functions)))(*functions),
                len(functions),
                (ctypes.c_uint32 * max(1, len(patches)))(*map(len, patches)),
                len(patches),
                (_BootTask * max(1, len(tasks)))(*((_number(task), kind == "idle") for task, kind in tasks)),
                len(tasks),
            )
        )

    def __enter__(self) -> Engine:
        return self

    def __exit__(self, kind: Optional[Type[BaseException]], error: Optional[BaseException], trace: object) -> None:
        self.close()

    def __del__(self) -> None:
        if hasattr(self, "_slot"):
            self.close()

    def close(self) -> None:
        """Frees the engine. May be called twice."""
        self._library.lp_free(ctypes.byref(self._slot))

    def step(self, kind: str, task: int = 0, other: Union[str, int] = 0) -> Reply:
        """Takes one event. `other` is the name of a called function, or the child of a fork or a thread."""
        if kind not in KINDS:
            raise LivepatchError(NO_EVENT)
        number = self._names.get(other, 0xFFFF) if isinstance(other, str) else other
        event = _Event(KINDS.index(kind), _number(task), _number(number))
        told = _Told()
        _raise_on(self._library.lp_step(ctypes.byref(self._slot), ctypes.byref(event), ctypes.byref(told)))
        what = ("ran", "done", "over", "refused")[told.what]
        return Reply(
            what,
            told.level if what == "ran" else None,
            tuple(map(self._group, range(told.groups))),
            told.refusal if what == "refused" else None,
            bool(told.complete),
        )

    def _group(self, place: int) -> int:
        group = ctypes.c_uint32()
        _raise_on(self._library.lp_group(ctypes.byref(self._slot), place, ctypes.byref(group)))
        return group.value

    def state(self) -> State:
        """Where the engine stands."""
        state = _State()
        _raise_on(self._library.lp_state(ctypes.byref(self._slot), ctypes.byref(state)))
        return State(state.events, state.target, bool(state.in_transition))

    def task(self, task: int) -> Optional[Task]:
        """A live task; None for any other number."""
        state = _Task()
        found = self._finds("lp_task", task, state)
        return Task(state.level, state.group, MODES[state.mode], state.depth) if found else None

    def blame(self, group: int) -> Optional[Blame]:
        """The standing blame of a group; None where there is none."""
        blame = _Blame()
        return Blame(blame.task, blame.serial) if self._finds("lp_blame", group, blame) else None

    def certificate(self, group: int) -> Optional[Certificate]:
        """The certificate that a group waits; None where it doesn't."""
        cert = _Cert()
        found = self._finds("lp_certificate", group, cert)
        return Certificate(cert.leg, group, cert.upto, tuple(map(self._line, range(cert.lines)))) if found else None

    def _finds(self, call: str, number: int, found: ctypes.Structure) -> bool:
        """Whether there is what a call looks for by a task's or a group's number; it is then put there."""
        status = getattr(self._library, call)(ctypes.byref(self._slot), _number(number), ctypes.byref(found))
        if status == NOT_THERE:
            return False
        _raise_on(status)
        return True

    def _line(self, place: int) -> str:
        line = _Line()
        _raise_on(self._library.lp_line(ctypes.byref(self._slot), place, ctypes.byref(line)))
        if line.kind == 0:
            return f"hold {line.group} {line.task} {line.serial} {line.from_event} {line.to_event}"
        return f"{('busy', 'born')[line.kind - 1]} {line.group} {line.task} {line.from_event}"


def _number(number: int) -> int:
    """A number that fits 16 bits: ctypes would cut off the rest."""
    if not 0 <= number <= 0xFFFF:
        raise ValueError(f"{number} is not between 0 and 65,535")
    return number
