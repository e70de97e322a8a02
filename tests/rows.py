"""The rows of a data file: a program's words, its input, and what it has to write and to end with.

The head of crates/lp_rows/data/models.rows says how rows are written, and README.md beside this file which further lines
those of tests/program have.
"""

import dataclasses
import pathlib
import re
from typing import Callable, Dict, List, Optional, Tuple

# What the streams and the limits of a process can be, in a row.
INPUTS = ("closed", "folder", "pieces")
OUTPUTS = ("closed", "full", "gone")
LIMITS = ("memory", "threads")

BYTE = re.compile(r"\\x([0-9a-f]{2})")


class NoRow(Exception):
    """A line that belongs to no row, and why."""


def line_of(text: str) -> bytes:
    """The bytes of a line, in which `\\x` and two digits are a byte."""
    parts = BYTE.split(text)
    return b"".join(bytes([int(part, 16)]) if place % 2 else part.encode() for place, part in enumerate(parts))


def lines_of(text: str) -> bytes:
    """Lines between which ` / ` stands, each with its end."""
    return b"".join(line_of(line) + b"\n" for line in text.split(" / "))


def repeated(text: str) -> Tuple[str, bytes]:
    """What a line `repeat` stands for: a word, and the lines after it, once for each number, which stands in place of `\\i`."""
    first, last, word, lines = text.split(" ", 3)
    parts = lines_of(lines).split(b"\\i")
    return word, b"".join((b"%d" % number).join(parts) for number in range(int(first), int(last) + 1))


def one_of(known: Tuple[str, ...], word: str) -> str:
    if word not in known:
        raise NoRow(f"{word} is none of {', '.join(known)}")
    return word


@dataclasses.dataclass
class Row:
    """A row. Of a stream that isn't the usual one the way is given; what is written to it isn't looked at."""

    file: str
    name: str
    input: bytearray
    commands: List[List[bytes]] = dataclasses.field(default_factory=list)
    output: bytearray = dataclasses.field(default_factory=bytearray)
    status: Optional[int] = None
    error: bytes = b""
    is_fault_alone: bool = False
    size: Optional[int] = None
    room: Optional[int] = None
    input_way: str = ""
    output_way: str = ""
    error_way: str = ""
    limits: Dict[str, int] = dataclasses.field(default_factory=dict)

    def wanted_status(self) -> int:
        """The status. A row of `words` gives none, and that of a certificate is told by the answer."""
        if self.status is not None:
            return self.status
        return 4 if self.commands[0][1:2] == [b"check"] and self.output.startswith(b"refused ") else 0

    def add(self, word: str, rest: str) -> None:
        """Takes in a line: its first word, and what stands after it."""
        if word not in LINES:
            raise NoRow(f"no line begins with {word}")
        LINES[word](self, rest)

    def add_words(self, rest: str) -> None:
        self.commands.append([b"lpt", *line_of(rest).split(b" ")])

    def add_program(self, rest: str) -> None:
        # A process always has a name, so that of an empty line is empty.
        self.commands += [line_of(line).split(b" ") for line in rest.split(" / ")]

    def mark_fault_alone(self, _rest: str) -> None:
        self.is_fault_alone = True

    def unend(self, _rest: str) -> None:
        del self.input[-1:]

    def add_fault(self, rest: str) -> None:
        line, cause = rest.split(" ")
        self.add_end(f"3 / lpt: line {line}: {cause}")

    def add_end(self, rest: str) -> None:
        status, _, error = rest.partition(" / ")
        self.status, self.error = int(status), lines_of(error) if error else b""

    def break_input(self, _rest: str) -> None:
        self.input_way = "broken"

    def bound_output(self, _rest: str) -> None:
        self.room = len(self.output)

    def set_input(self, rest: str) -> None:
        word, _, size = rest.partition(" ")
        if word == "size":
            self.size = int(size)
        else:
            self.input_way = one_of(INPUTS, rest)

    def set_output(self, rest: str) -> None:
        self.output_way = one_of(OUTPUTS, rest)

    def set_error(self, rest: str) -> None:
        self.error_way = one_of(OUTPUTS, rest)

    def set_limit(self, rest: str) -> None:
        what, _, much = rest.partition(" ")
        self.limits[one_of(LIMITS, what)] = int(much)


LINES: Dict[str, Callable[[Row, str], None]] = {
    "words": Row.add_words,
    "program": Row.add_program,
    "at": Row.mark_fault_alone,
    "unended": Row.unend,
    "fault": Row.add_fault,
    "ends": Row.add_end,
    "broken": Row.break_input,
    "full": Row.bound_output,
    "stdin": Row.set_input,
    "stdout": Row.set_output,
    "stderr": Row.set_error,
    "limit": Row.set_limit,
}


class Rows:
    """The head that rows have, and the rows so far."""

    def __init__(self, file: str) -> None:
        self.file = file
        self.rows: List[Row] = []
        self.head = bytearray()
        self.is_head = False

    def add(self, word: str, rest: str) -> None:
        """Takes in a line: its first word, and what stands after it."""
        if word == "repeat":
            self.add_text(*repeated(rest))
        elif word in ("head", "in", "out"):
            self.add_text(word, lines_of(rest))
        elif word == "row":
            self.rows.append(Row(self.file, rest, bytearray(self.head)))
        else:
            self.last().add(word, rest)
        self.is_head = word == "head" or self.is_head and word == "repeat"

    def add_text(self, word: str, text: bytes) -> None:
        if word == "head":
            # It is a new one, unless a line of this one stands before it.
            self.head = bytearray(self.head if self.is_head else b"") + text
        elif word == "in":
            self.last().input += text
        else:
            self.last().output += text

    def last(self) -> Row:
        if not self.rows:
            raise NoRow("no row has begun")
        return self.rows[-1]


def rows_of(path: pathlib.Path) -> List[Row]:
    """The rows of a file that have words. A row of a fault has none, as an input may not come to it."""
    found = Rows(path.name)
    for number, line in enumerate(path.read_text().splitlines(), 1):
        if not line or line.startswith("#"):
            continue
        word, _, rest = line.partition(" ")
        try:
            found.add(word, rest)
        except (NoRow, ValueError, KeyError) as error:
            raise NoRow(f"{path.name}, line {number}: {error}") from error
    without = [row.name for row in found.rows if not row.commands and not row.is_fault_alone]
    if without:
        raise NoRow(f"{path.name}: rows without words: {', '.join(without)}")
    return [row for row in found.rows if row.commands]
