#!/usr/bin/env python3
"""Makes a call of the program, and tells what its answer means.

    explain.py PROGRAM COMMAND WORDS..

The standard output and the status are those of the program. So is what it writes to the standard error, behind which stands a
paragraph: where the fault lies, what is there, what is wanted, and what to do. Of a call that is done it tells where tokens are
lost or read again at an interface.
"""
import os
import subprocess
import sys

sys.dont_write_bytecode = True

from pisdf_tools.output import WRITE_FAILED, status_of
from pisdf_tools.refusals import Explanation


def call(program, words):
    """The status of a call and what it wrote to the standard error. Its standard output is this one."""
    done = subprocess.run([program] + words, stderr=subprocess.PIPE, close_fds=False)
    return status_of(done), done.stderr


def explained(program, words, status, errors):
    """The explanation, or a line where none can be made."""
    try:
        return Explanation(program, words, status, errors).text()
    except OSError as fault:
        return f"More can't be told: {fault.strerror or fault}."
    except RecursionError:
        return "More can't be told: the file is nested too deep."
    except Exception as fault:
        if os.environ.get("PISDF_TOOLS_TRACE"):
            raise
        return f"More can't be told of this answer ({type(fault).__name__}). docs/FORMATS.md has all answers."


def main(words):
    if not words:
        print("usage: ./pisdf explain COMMAND WORDS..", file=sys.stderr)
        return 1
    program, words = words[0], words[1:]
    try:
        status, errors = call(program, words)
    except OSError as fault:
        print(f"explain: the program {program} can't be called: {fault.strerror}.", file=sys.stderr)
        return 127
    if sys.stderr is None:
        return WRITE_FAILED if errors else status
    try:
        sys.stderr.buffer.write(errors)
        sys.stderr.buffer.flush()
        text = explained(program, words, status, errors)
        if text:
            sys.stderr.buffer.write(b"\n" * bool(errors) + text.encode("utf-8", "backslashreplace") + b"\n")
            sys.stderr.buffer.flush()
    except OSError:
        return WRITE_FAILED
    return status


if __name__ == "__main__":
    try:
        sys.exit(main(sys.argv[1:]))
    except KeyboardInterrupt:
        sys.exit(130)
