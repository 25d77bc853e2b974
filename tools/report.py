#!/usr/bin/env python3
"""Makes a page about a graph and its run, which needs nothing from outside.

usage: report.py PROGRAM GRAPH TOKENS ITERATIONS WORKERS FILE.html [TIMES]

The page has the graph by hierarchy, the plan of its first iteration, the schedule beside its bounds, the map of cells, what each worker
did by a journal, the values of parameters over the iterations, the output tokens, and a table of sizes and counts. With TIMES the run is
one of `unfold`, and the plan is that of the first group of iterations that are fired as one.
"""
import os
import sys

sys.dont_write_bytecode = True
sys.path.insert(0, os.path.dirname(os.path.realpath(__file__)))

from drawing import page
from drawing.inputs import Refused
from drawing.run import Run
from pisdf_tools.source import once_words


def file_trouble(graph, tokens, target):
    """Why no page is made of these files: one is written over, or can't be read again. Else an empty text."""
    for path, what in ((graph, "graph file"), (tokens, "token file")):
        if os.path.exists(path) and os.path.exists(target) and os.path.samefile(path, target):
            return f"the page would be written over the {what} {path}. Give the page a name of its own"
        once = once_words(path)
        if once:
            return f"the {what} is {path}. {once}"
    return ""


def main(words):
    if len(words) not in (6, 7):
        print("report: give GRAPH TOKENS ITERATIONS WORKERS FILE.html, and TIMES where iterations are to be fired as one", file=sys.stderr)
        return 1
    program, graph, tokens, iterations, workers, target, *times = words
    trouble = file_trouble(graph, tokens, target)
    if trouble:
        print(f"report: {trouble}", file=sys.stderr)
        return 2
    try:
        # A name of a file may have bytes that are no UTF-8.
        text = page.page(Run(program, graph, tokens, iterations, workers, *times)).encode("utf-8", "backslashreplace")
    except Refused as refused:
        print(f"report: {refused}", file=sys.stderr)
        return 2
    except Exception as error:
        if os.environ.get("PISDF_TOOLS_TRACE"):
            raise
        print(f"report: no page can be made of this ({type(error).__name__}). ./pisdf explain tells what the program answers", file=sys.stderr)
        return 2
    try:
        with open(target, "wb") as file:
            file.write(text)
    except OSError as error:
        print(f"report: {target} can't be written: {error.strerror}", file=sys.stderr)
        return 2
    return 0


if __name__ == "__main__":
    try:
        sys.exit(main(sys.argv[1:]))
    except KeyboardInterrupt:
        sys.exit(130)
