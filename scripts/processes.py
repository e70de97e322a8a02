"""The processor time and the memory of a process that reads a file."""
import ctypes
import os
import pathlib
import re
import resource
import signal
import subprocess
import sys
from typing import List, Optional, Union

PathLike = Union[str, pathlib.Path]

# What the system's `ptrace` is asked for: see its manual page.
TRACE_ME, CONTINUE, SET_OPTIONS, STOP_AT_EXIT = 0, 7, 0x4200, 0x40

trace = ctypes.CDLL(None).ptrace
trace.argtypes = [ctypes.c_int, ctypes.c_int, ctypes.c_void_p, ctypes.c_void_p]


def ending(code: int) -> str:
    """How a run ended, by its status, which is below 0 for a signal."""
    return f"status {code}" if code >= 0 else f"ended by signal {-code} ({signal.strsignal(-code)})"


def timed(command: List[str], source: PathLike, target: PathLike, most: int) -> Optional[float]:
    """The seconds of processor time of one run, or None where it took too long. A run that ends otherwise ends the script."""
    with open(source, "rb") as given, open(target, "wb") as wanted:
        child = subprocess.Popen(command, stdin=given, stdout=wanted)
        resource.prlimit(child.pid, resource.RLIMIT_CPU, (most, most))
        _, status, used = os.wait4(child.pid, 0)
    child.returncode = os.waitstatus_to_exitcode(status)
    seconds = used.ru_utime + used.ru_stime
    if child.returncode == 0:
        return seconds
    # The system ends it by its count of ticks, of which what it tells of the run may be a little short.
    if child.returncode in (-signal.SIGKILL, -signal.SIGXCPU) and seconds > 0.9 * most:
        return None
    sys.exit(f"{' '.join(command)}: {ending(child.returncode)} after {seconds:.1f} s of processor time")


def least(command: List[str], source: PathLike, target: PathLike, runs: int, most: int) -> Optional[float]:
    """The least seconds of some runs; None where the first took too long. One of ten seconds is run once."""
    seconds = timed(command, source, target, most)
    for _ in range(runs - 1):
        if seconds is None or seconds > 10:
            break
        seconds = min(seconds, timed(command, source, target, most) or seconds)
    return seconds


def peak_memory(command: List[str], source: PathLike, runs: int = 3) -> int:
    """The most bytes that a run has at once, of some runs the least: the system may map more of a file than is used."""
    return min(memory_of_run(command, source) for _ in range(runs))


def memory_of_run(command: List[str], source: PathLike) -> int:
    """The most bytes that one run has at once.

    What `wait4` says is never below what this script itself has, so the process is stopped as it exits, and the system asked.
    """
    child = os.fork()
    if child == 0:
        try:
            os.dup2(os.open(source, os.O_RDONLY), 0)
            os.dup2(os.open(os.devnull, os.O_WRONLY), 1)
            trace(TRACE_ME, 0, None, None)
            os.execv(command[0], command)
        finally:
            os._exit(127)
    _, status = os.waitpid(child, 0)
    if not os.WIFSTOPPED(status):
        sys.exit("the memory of a run isn't told, since the system lets no process be traced")
    trace(SET_OPTIONS, child, None, STOP_AT_EXIT)
    trace(CONTINUE, child, None, None)
    os.waitpid(child, 0)
    told = pathlib.Path(f"/proc/{child}/status").read_text()
    trace(CONTINUE, child, None, None)
    _, status = os.waitpid(child, 0)
    if status:
        sys.exit(f"{' '.join(command)}: status {os.waitstatus_to_exitcode(status)}")
    return int(re.search(r"VmHWM:\s*(\d+) kB", told)[1]) * 1024
