"""A program as a process, with the streams and the limits that a row asks for."""

import contextlib
import dataclasses
import functools
import os
import resource
import signal
import socket
import stat
import subprocess
import threading
from typing import List, Optional, Tuple

from rows import Row

# A process that takes longer is ended. The largest row takes a few seconds on a slow machine.
MOST_SECONDS = 120

# How many bytes a read gets of an input that comes in pieces.
PIECE = 5

LIMITS = {"memory": resource.RLIMIT_AS, "threads": resource.RLIMIT_NPROC}

# Root is under no limit of threads, so a process with such a limit is this user's, whom every system has.
NOBODY = 65534


@dataclasses.dataclass
class Ended:
    """How a process ended, what it wrote, and how much it took of its input: None where that can't be seen."""

    status: int
    output: Optional[bytes]
    error: Optional[bytes]
    taken: Optional[int]


def file_of(text: bytes, size: Optional[int]) -> int:
    """A file of these bytes, and of bytes 0 after them up to a size, which take no room."""
    file = os.memfd_create("input")
    os.write(file, text)
    os.truncate(file, len(text) if size is None else size)
    os.lseek(file, 0, os.SEEK_SET)
    return file


def broken(text: bytes) -> int:
    """A stream of these bytes that fails after them: its other end is closed with bytes unread, which resets a connection."""
    source, other = socket.socketpair()
    source.send(b"unread")
    with other:
        other.setblocking(False)
        other.sendall(text)
    return source.detach()


def in_pieces(text: bytes) -> int:
    """A stream of these bytes that gives a few of them at each read."""
    source, other = socket.socketpair(socket.AF_UNIX, socket.SOCK_SEQPACKET)
    with other:
        other.setblocking(False)
        for place in range(0, len(text), PIECE):
            other.send(text[place : place + PIECE])
    return source.detach()


def source_of(row: Row) -> Optional[int]:
    """What the process reads; none where that is closed."""
    text = bytes(row.input)
    if row.input_way == "closed":
        return None
    if row.input_way == "folder":
        return os.open("/", os.O_RDONLY)
    if row.input_way == "broken":
        return broken(text)
    return in_pieces(text) if row.input_way == "pieces" else file_of(text, row.size)


def pipe_without_reader() -> int:
    reader, writer = os.pipe()
    os.close(reader)
    return writer


def sink_of(way: str) -> Optional[int]:
    """Where the process writes to; none where that is closed."""
    if way == "closed":
        return None
    if way == "full":
        return os.open("/dev/full", os.O_WRONLY)
    return pipe_without_reader() if way == "gone" else subprocess.PIPE


def output_of(row: Row) -> Optional[int]:
    """The same of standard output, whose reader may first take what the row wants, or which may hold no more than that."""
    if row.room is not None:
        return os.memfd_create("output")
    return subprocess.PIPE if row.output_way == "gone" and row.output else sink_of(row.output_way)


def prepare(row: Row) -> None:
    """What is done in the process before it becomes the program."""
    for number, way in enumerate((row.input_way, row.output_way, row.error_way)):
        if way == "closed":
            os.close(number)
    if row.room is not None:
        # Else the write that doesn't fit would end the process by a signal, and not fail.
        signal.signal(signal.SIGXFSZ, signal.SIG_IGN)
        resource.setrlimit(resource.RLIMIT_FSIZE, (row.room, row.room))
    if "threads" in row.limits and os.geteuid() == 0:
        os.setgid(NOBODY)
        os.setuid(NOBODY)
    for what, much in row.limits.items():
        resource.setrlimit(LIMITS[what], (much, resource.getrlimit(LIMITS[what])[1]))


def kept(files: contextlib.ExitStack, file: Optional[int]) -> Optional[int]:
    """The same file, which is closed with the others."""
    if file is not None and file != subprocess.PIPE:
        files.callback(os.close, file)
    return file


def taken_of(source: Optional[int]) -> Optional[int]:
    """How many bytes were taken of a file."""
    if source is None or not stat.S_ISREG(os.fstat(source).st_mode):
        return None
    return os.lseek(source, 0, os.SEEK_CUR)


def end_of(child: "subprocess.Popen[bytes]", row: Row) -> Tuple[Optional[bytes], Optional[bytes]]:
    """Waits for the end of a process, and gives what it wrote to pipes."""
    timer = threading.Timer(MOST_SECONDS, child.kill)
    timer.start()
    try:
        if row.output_way != "gone" or child.stdout is None:
            return child.communicate()
        front = child.stdout.read(len(row.output))
        child.stdout.close()
        return front, child.communicate()[1]
    finally:
        timer.cancel()


def play(program: str, words: List[bytes], row: Row) -> Ended:
    """Starts a program with these words, the first of which is its name, and waits for its end."""
    with contextlib.ExitStack() as files:
        source, sink, error_sink = kept(files, source_of(row)), kept(files, output_of(row)), kept(files, sink_of(row.error_way))
        before = functools.partial(prepare, row)
        child = subprocess.Popen(words, executable=program, stdin=source, stdout=sink, stderr=error_sink, preexec_fn=before)
        output, error = end_of(child, row)
        if row.room is not None and sink is not None:
            # One byte more than it may hold would be a difference.
            output = os.pread(sink, row.room + 1, 0)
        ended = Ended(child.wait(), output, error, taken_of(source))
    return ended
