"""Files that are whole or not there: written beside their places, and put there together at the end."""
import errno
import os
from typing import Dict, List, Tuple

from .errors import Refused


def read_text(path: str) -> str:
    """The text of a file, whatever its bytes; Refused where it can't be read."""
    try:
        with open(path, encoding='utf-8', errors='surrogateescape', newline='') as file:
            return file.read()
    except OSError as fault:
        raise Refused(f'{path}: {fault.strerror}') from None


def write_all(texts: Dict[str, str]) -> None:
    """Writes each text to its path.  If one can't be written, none is: what was there before stays."""
    beside: List[Tuple[str, str]] = []
    path = ''
    try:
        for path, text in texts.items():
            part = f'{path}.{os.getpid()}.part'
            beside.append((part, path))
            with open(part, 'w', encoding='utf-8', errors='surrogateescape', newline='') as file:
                file.write(text)
            if os.path.isdir(path):
                raise IsADirectoryError(errno.EISDIR, os.strerror(errno.EISDIR))
        for part, path in beside:
            os.replace(part, path)
    except OSError as fault:
        raise Refused(f'{path}: {fault.strerror}') from None
    finally:
        for part, _ in beside:
            if os.path.exists(part):
                os.unlink(part)
