"""The faults of a graph file: the line of each, where it stands, and what it means."""
from dataclasses import dataclass

from .graph_file import place_words
from .wording import nearest

# A file of very many unknown names is told of without a guess for each.
MOST_GUESSES = 100


@dataclass
class Fault:
    """A fault of a graph file. `number` and `detail` are those of the program's line."""
    number: int
    detail: str
    pointer: str
    start: int
    end: int
    text: str

    @property
    def line(self):
        return f"graph: {self.number} {self.detail}"


class Faults:
    """Gathers the faults of a file.

    While `hold` is set nothing is added. Faults of the number `pause` are left out.
    """

    def __init__(self, source, root):
        self.source, self.root, self.found, self.hold, self.pause, self.guesses = source, root, [], False, None, 0

    def add(self, number, detail, pointer, start, end, text):
        if not self.hold and number != self.pause:
            self.found.append(Fault(number, detail, pointer, start, end, text))

    def near(self, name, known):
        """The known name that a misspelt one most likely means, or None."""
        self.guesses += 1
        return nearest(name, known) if self.guesses <= MOST_GUESSES else None


def fault_head(source, root, fault):
    """Where a fault stands."""
    where = place_words(root, fault.pointer) if root else ""
    return source.place(fault.start) + (f", in {where}" if where else "") + ":"


def fault_text(source, root, fault):
    """A fault as a paragraph: its place, the line of the file, what is there and what is wanted."""
    return f"{fault_head(source, root, fault)}\n{source.snippet(fault.start, fault.end)}\n{fault.text}"
