"""Reads graph files and what the program wrote. What can't be read is told in a line that names the place."""
import sys

from pisdf_tools import reading
from pisdf_tools.source import Source
from pisdf_tools.wording import shortened

# With a fault of a greater number all parts of a graph are known, and it can be drawn.
LAST_OF_NAMES = 6
LAST = 13


class Refused(Exception):
    """Why there is nothing to draw, in one line."""


def bytes_of(path):
    """The bytes of a file; `-` stands for the standard input."""
    try:
        if path == "-":
            return sys.stdin.buffer.read()
        with open(path, "rb") as file:
            return file.read()
    except OSError as error:
        raise Refused(f"{path} can't be read: {error.strerror}") from error


def text_of(path):
    try:
        return bytes_of(path).decode()
    except UnicodeDecodeError as error:
        raise Refused(f"{path} is no text in UTF-8: byte {error.start} begins no letter") from error


def read_graphs(path, last=LAST_OF_NAMES):
    """The graphs of a file that has no fault up to this number: where all that they name is there."""
    found = reading.read(Source(path, bytes_of(path)))
    fault = next((fault for fault in found.faults if fault.number <= last), None)
    if fault:
        raise Refused(found.line_of(fault))
    return found.file


def whole_graphs(path):
    """The graphs of a file without a fault."""
    return read_graphs(path, LAST)


# ---- rows

# What a row of each kind has after its first field: names, and numbers where a place has True. The last stands for all that follow.
FIELDS = {
    "repetition": [False, True],
    "order": [False, True],
    "node": [True, False, False, True, True],
    "edge": [True] * 5,
    "height": [True],
    "ordered": [True],
    "offset": [True, True],
    "critical": [True],
    "work": [True],
    "length": [True],
    "path": [True],
    "start": [True] * 4,
}


def rows_of(path):
    """The rows of a plan, a schedule or a memory by their first fields, each a list of its other fields."""
    rows = {}
    for number, line in enumerate(text_of(path).split("\n"), 1):
        kind, *fields = line.rstrip("\r").split(",")
        if not kind and not fields:
            continue
        wanted = FIELDS.get(kind)
        if wanted is None and kind.lstrip().startswith("{"):
            raise Refused(f"{path} is a graph file, which `draw graph` draws. The answer of plan, schedule or memory is wanted here")
        if wanted is None:
            raise Refused(f"{path}, line {number}: no row of a plan, a schedule or a memory begins with '{shortened(kind)}'")
        if kind not in ("path", "order") and len(fields) != len(wanted):
            raise Refused(f"{path}, line {number}: a row '{kind}' has {len(wanted)} fields after it, and this one has {len(fields)}")
        wanted = wanted + wanted[-1:] * (len(fields) - len(wanted))
        if kind != "order" and not all(field.isascii() and field.isdigit() for field, is_number in zip(fields, wanted) if is_number):
            raise Refused(f"{path}, line {number}: a field that has to be a number isn't one")
        rows.setdefault(kind, []).append(fields)
    return rows


def rows_with(path, kinds):
    """The same, where rows of these kinds must be there."""
    rows = rows_of(path)
    for kind in kinds:
        if kind not in rows:
            raise Refused(f"{path} has no row '{kind}'")
    nodes = {row[0] for row in rows.get("node", [])}
    for number, tail, head, _, _ in rows.get("edge", []):
        for end in (tail, head):
            if end not in nodes:
                raise Refused(f"{path}: edge {number} names node {end}, and no row has it")
    return rows
