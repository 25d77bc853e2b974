#!/usr/bin/env python3
"""Tells all of a graph file that can be told without tokens.

    check.py PROGRAM GRAPH

Of a file that the program refuses: its line, and each fault that can be seen, with its place and what to do. Of a file without a
fault: its graphs with their interfaces, parameters and repetition vectors. It ends with 0 where the file is read and a run may
be done, with 4 where every run would be refused, and else with the program's status.
"""
import os
import subprocess
import sys

sys.dont_write_bytecode = True

from pisdf_tools import reading
from pisdf_tools.exploring import Explorer
from pisdf_tools.output import WRITE_FAILED, status_of, written
from pisdf_tools.refusals import why_unread
from pisdf_tools.source import once_words, read_source
from pisdf_tools.summary import Summary, certain_refusals
from pisdf_tools.wording import counted, quoted

MOST_FAULTS = 20
RUN_REFUSED, UNREAD = 4, 5


def first_answer(program, path):
    """The program's status and its line on the file."""
    done = subprocess.run([program, "upgrade", path], stdout=subprocess.DEVNULL, stderr=subprocess.PIPE, stdin=subprocess.DEVNULL)
    status = status_of(done)
    return status, done.stderr.decode("utf-8", "replace").strip() or f"The program ended with {status} and without a line."


def refused_lines(found, line):
    """The program's fault with this line first, then the further ones."""
    first = found.fault_of(line)
    others = [fault for fault in found.faults if fault is not first]
    yield ""
    yield found.text_of(first) if first else "This tool finds no more about it. docs/FORMATS.md has the table of the faults."
    yield from (f"\n{words}" for words in found.repeated_words())
    if others:
        yield ""
        mended = " where that is mended" if others[0].number > 1 and first and first.number == 1 else ""
        yield f"{counted(len(others), 'more fault')} can be seen{mended}. One that follows from another goes with it."
    for fault in others[:MOST_FAULTS]:
        yield ""
        yield fault.line
        yield found.text_of(fault)
    if len(others) > MOST_FAULTS:
        yield f"\n{counted(len(others) - MOST_FAULTS, 'more isn', 'more aren')}'t shown."


def sound_lines(found, path, explorer, refusals):
    """What is known of a file without a fault."""
    if refusals:
        yield f"{path} can be read, but every run of it is refused, whatever its tokens are:"
        for refused, text in refusals[:MOST_FAULTS]:
            yield f"\n{refused.line}\n{text}"
        yield ""
    else:
        yield f"{path}: the file has no fault. It has version {found.file.version}."
    yield from found.repeated_words()
    yield from Summary(found, explorer).lines()


def check(program, path):
    """The status of the check. Its lines are written as they come."""
    once = once_words(path)
    if once:
        print(f"The graph file is {quoted(path)}. {once}")
        return UNREAD
    status, line = first_answer(program, path)
    if status not in (0, 2):
        print(line)
        if status == UNREAD:
            print(f"\nThe graph file is {quoted(path)}. {why_unread(path)}")
        return status
    if status == 2:
        # The program's line is written first, whatever becomes of the rest.
        print(line, flush=True)
    found = reading.read(read_source(path))
    if status == 2:
        print("\n".join(refused_lines(found, line)))
        return status
    explorer = Explorer(found.file)
    refusals = certain_refusals(found, explorer)
    print("\n".join(sound_lines(found, path, explorer, refusals)))
    return RUN_REFUSED if refusals else 0


def main(words):
    if len(words) != 2:
        print("usage: ./pisdf check GRAPH", file=sys.stderr)
        return 1
    try:
        return written("check", lambda: check(*words), WRITE_FAILED)
    except OSError as fault:
        print(f"check: {fault.filename}: {fault.strerror}.", file=sys.stderr)
        return UNREAD
    except Exception as fault:
        if os.environ.get("PISDF_TOOLS_TRACE"):
            raise
        print(f"More can't be told of this file ({type(fault).__name__}). docs/FORMATS.md has all faults.", file=sys.stderr)
        return 2


if __name__ == "__main__":
    try:
        sys.exit(main(sys.argv[1:]))
    except KeyboardInterrupt:
        sys.exit(130)
