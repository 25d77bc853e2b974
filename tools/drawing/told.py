"""What `explain` and `check` tell of a run."""
import os
import subprocess
import sys

import explain
from drawing.words import REFUSED_GRAPH

CHECK = os.path.join(os.path.dirname(os.path.realpath(__file__)), "..", "check.py")
SECONDS = 30


def told(run):
    """Of a refused graph file all that can be seen, else what explains the answer of the run. It is empty where there is nothing to tell."""
    answer = run.run
    if answer.status == REFUSED_GRAPH:
        return checked(run)
    return explain.explained(run.program, run.words, answer.status, answer.line.encode())


def checked(run):
    """What `check` writes of the graph file behind the program's line."""
    try:
        done = subprocess.run([sys.executable, "-B", CHECK, run.program, run.graph_file], capture_output=True, timeout=SECONDS)
    except (OSError, subprocess.TimeoutExpired):
        return ""
    return done.stdout.decode(errors="replace").strip().removeprefix(run.run.line).strip()
