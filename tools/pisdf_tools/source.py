"""A file as it was read, with the lines and columns of its places."""
import os
import re
import stat
from bisect import bisect_right
from dataclasses import dataclass, field
from functools import cached_property

SNIPPET_WIDTH = 100
# Names of files that are open in one process alone.
ONE_READERS = ("/dev/stdin", "/dev/fd/", "/proc/self/fd/")


@dataclass
class Source:
    """The bytes of a file and their text. A byte that is no UTF-8 stands in the text as a code from U+DC80 on."""
    path: str
    data: bytes
    text: str = field(init=False, repr=False)

    def __post_init__(self):
        self.text = self.data.decode("utf-8", "surrogateescape")

    def position(self, offset):
        """The line and the column of a place, both counted from 1, columns in characters."""
        line = bisect_right(self.line_starts, offset)
        return line, offset - self.line_starts[line - 1] + 1

    @cached_property
    def line_starts(self):
        return [0] + [match.end() for match in re.finditer("\n", self.text)]

    def place(self, offset):
        """A place in words, as `g.json, line 3, column 5`."""
        line, column = self.position(offset)
        return f"{self.path}, line {line}, column {column}"

    def snippet(self, start, end):
        """The line around a place, cut where it is long, and below it marks under the place."""
        first = self.text.rfind("\n", 0, start) + 1
        last = self.text.find("\n", start)
        last = len(self.text) if last < 0 else last
        end = max(start + 1, min(end, last))
        left = first
        if last - first > SNIPPET_WIDTH:
            left = max(first, min(start - SNIPPET_WIDTH // 3, last - SNIPPET_WIDTH))
        right = min(last, left + SNIPPET_WIDTH)
        end = min(end, max(right, start + 1))
        before, after = (".." if left > first else ""), (".." if right < last else "")
        line = "".join(letter if letter.isprintable() else " " for letter in self.text[left:right])
        marks = " " * (len(before) + start - left) + "^" * (end - start)
        return f"    {before}{line.rstrip()}{after}\n    {marks}"


def once_words(path):
    """Why a name can't be given to a tool that reads the file again after the program, or an empty text."""
    try:
        mode = os.stat(path).st_mode
    except OSError:
        return ""
    if stat.S_ISFIFO(mode) or stat.S_ISSOCK(mode) or os.path.abspath(path).startswith(ONE_READERS):
        return "It can be read only once, and the tools read it again behind the program. Write it into a file first, and name that."
    return ""


def read_source(path):
    """The file of this name. An OSError goes to the caller."""
    with open(path, "rb") as file:
        return Source(path, file.read())
