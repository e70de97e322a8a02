"""Reads pages in Markdown: their sentences, and the entries of a page under its headings."""

import re
from typing import Iterator, List, NamedTuple

FENCE = re.compile(r"^\s*```")
COMMENT = re.compile(r"<!--.*?-->", re.S)
QUOTE = re.compile(r"^> ?")
ITEM = re.compile(r"^\s*(?:[-*]|\d+\.)\s+")
LINK = re.compile(r"!?\[([^\]]*)\]\([^)]*\)")
CODE = re.compile(r"`[^`]*`")
END = re.compile(r"(?<=[^.][.?!])[*_\"')]*\s+")


class Sentence(NamedTuple):
    """A sentence, and the line of its page on which its paragraph begins."""

    line: int
    text: str

    def words(self) -> int:
        """How many words it has; a span of code is one."""
        return sum(1 for word in self.text.split() if re.search(r"\w", word))


def blocks(page: str) -> Iterator[Sentence]:
    """The paragraphs, items and headings of a page, each in one line; tables and code are left out."""
    gathered: List[str] = []
    first, is_code = 1, False
    kept = COMMENT.sub(lambda comment: "\n" * comment.group().count("\n"), page)
    for number, quoted in enumerate([*kept.splitlines(), ""], start=1):
        line = QUOTE.sub("", quoted)
        is_fence = bool(FENCE.match(line))
        is_code ^= is_fence
        is_indented = line.startswith("    ") and not gathered
        is_left_out = is_fence or is_code or is_indented or line.startswith("|")
        begins = bool(ITEM.match(line)) or line.startswith("#")
        if gathered and (is_left_out or begins or not line.strip()):
            yield Sentence(first, " ".join(gathered))
            gathered = []
        if is_left_out or not line.strip():
            continue
        first = first if gathered else number
        gathered.append(ITEM.sub("", line).lstrip("# ").strip())
        if line.startswith("#"):
            yield Sentence(first, gathered.pop())


def sentences(page: str) -> Iterator[Sentence]:
    """The sentences of a page's prose."""
    for block in blocks(page):
        plain = CODE.sub("`code`", LINK.sub(r"\1", block.text))
        for text in END.split(plain):
            yield Sentence(block.line, text)


def entries(page: str, heading: str) -> Iterator[Sentence]:
    """What stands under each heading of a level, such as '### ', with its heading as the text's first line."""
    held: List[str] = []
    first = 1
    for number, line in enumerate([*page.splitlines(), "# "], start=1):
        if line.startswith("#"):
            if held and held[0].startswith(heading):
                yield Sentence(first, "\n".join(held).rstrip())
            held, first = [], number
        held.append(line)
