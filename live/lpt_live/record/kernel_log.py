"""What livepatch wrote to the kernel's log: when a stuck transition began, and when the kernel sent its signals."""
import os
import time
from typing import Any, List

from .system import System

MOST = 500


def livepatch_messages(system: System) -> List[List[Any]]:
    """[seconds, text] of each message, by the time of day."""
    found: List[List[Any]] = []
    shift = time.time() - time.monotonic()          # the log counts from the start of the machine
    try:
        file = os.open(system.path('/dev/kmsg'), os.O_RDONLY | os.O_NONBLOCK)
    except OSError:
        return found
    try:
        while True:
            try:
                piece = os.read(file, 8192)
            except BlockingIOError:
                break
            except OSError:                         # overwritten meanwhile: the next read goes on after the gap
                continue
            if not piece:
                break
            head, _, text = piece.decode('utf-8', 'replace').partition(';')
            if 'livepatch: ' in text:
                found.append([round(int(head.split(',')[2]) / 1e6 + shift, 3), text.split('\n')[0]])
    finally:
        os.close(file)
    return found[-MOST:]
