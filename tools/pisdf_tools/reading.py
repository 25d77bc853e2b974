"""Reads a graph file whole: its graphs as far as they can be told, and all faults that can be seen, by number and walk."""
from dataclasses import dataclass

from . import name_faults, wiring_faults
from .faults import Fault, Faults, fault_head, fault_text
from .graph_file import GraphFile, place_words
from .graph_reading import read_graphs
from .json_file import read_json
from .limits import GRAPH_FILE_BYTES
from .source import Source
from .wording import grouped, quoted

# So many members that are repeated are told.
MOST_REPEATED = 8


@dataclass
class Reading:
    """What was read of a graph file. `file` is None where the text breaks off as JSON, or is no object."""
    source: Source
    root: object
    file: GraphFile | None
    faults: list

    def text_of(self, fault):
        return fault_text(self.source, self.root, fault)

    def line_of(self, fault):
        """A fault in one line, without the line of the file."""
        return f"{fault_head(self.source, self.root, fault)} {fault.text}"

    def repeated_words(self):
        """A sentence on each member that stands twice in one object, where the text is read whole."""
        found, values = [], [("", self.root)] if self.root else []
        while values:
            pointer, value = values.pop()
            if value.kind == "object":
                found += [(member.start, pointer, name) for name, member in value.value.items() if member.repeated]
                values += [(f"{pointer}/{name}", member.value) for name, member in value.value.items()]
            elif value.kind == "list":
                values += [(f"{pointer}/{place}", part) for place, part in enumerate(value.value)]
        return [self.repeated_member(*member) for member in sorted(found)[:MOST_REPEATED]]

    def repeated_member(self, start, pointer, name):
        where = place_words(self.root, pointer)
        return f"{self.source.place(start)}{', in ' * bool(where)}{where}: The member {quoted(name)} stands here a second time. Only the last one counts."

    def fault_of(self, line):
        """The fault with the program's line, or None."""
        return next((fault for fault in self.faults if fault.line == line), None)


def read(source):
    """All that can be told of a graph file."""
    if len(source.data) > GRAPH_FILE_BYTES:
        text = f"The file has {grouped(len(source.data))} bytes. A graph file may have {grouped(GRAPH_FILE_BYTES)}."
        return Reading(source, None, None, [Fault(0, "length", "", 0, 1, text)])
    root, faults_of_text = read_json(source)
    texts = [Fault(1, "json", "", fault.start, fault.end, f"The file is no JSON. {fault.text}") for fault in faults_of_text]
    if root is None:
        return Reading(source, None, None, texts)
    file, shapes = read_graphs(source, root)
    faults = Faults(source, root)
    if file:
        name_faults.find(file, faults)
        wiring_faults.find(file, faults)
    found = sorted(texts + shapes + faults.found, key=lambda fault: fault.number)
    return Reading(source, root, file, found)
