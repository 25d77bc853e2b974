"""A file of journals: what is wrong with its first bad line, as far as the lines by themselves tell."""
import re

from .limits import JOURNAL_FILE_BYTES
from .wording import counted, grouped, joined, quoted

NUMBER = r"(?:0|[1-9][0-9]*)"
CLAIM = re.compile(rf"claim,({NUMBER}),({NUMBER}),([^,]+),(configure|compile|node),({NUMBER})")
FINISH = re.compile(rf"finish,({NUMBER}),({NUMBER})")
RULE = "Of the items that a worker could claim it is handed the first by the rules of docs/MEANING.md, under \"The board\"."


def length_words(path, data):
    return (f"{path} has {grouped(len(data))} bytes. A file of journals may have {grouped(JOURNAL_FILE_BYTES)}. "
            "The journals of fewer iterations are shorter.")


def line_words(path, data, number, iterations, workers):
    """A paragraph on the first bad line of a file, by the words of the call."""
    lines = data.decode("utf-8", "replace").split("\n")
    if number > len(lines) or (number == len(lines) and not lines[-1]):
        return joined([f"{path} ends after line {number - 1}, and the journals of this run go on.", asked_words(iterations, workers)])
    line = lines[number - 1]
    head = f"{path}, line {number}:\n    {line[:100]}\n    ^"
    return f"{head}\n{joined([why_bad(lines, number, iterations, workers), asked_words(iterations, workers)])}"


def asked_words(iterations, workers):
    return (f"The journals of {counted(iterations, 'iteration')} by {counted(workers, 'worker')} are asked for, of this graph and these tokens: "
            "the words have to be those of the `journal` that wrote the file.")


def why_bad(lines, number, iterations, workers):
    """What is wrong with a line that stands in a file, behind lines that are good."""
    line = lines[number - 1]
    found = CLAIM.fullmatch(line) or FINISH.fullmatch(line)
    if not found:
        return shape_words(line)
    if number == len(lines):
        return "The line has no line feed at its end."
    iteration, worker = int(found[1]), int(found[2])
    if iteration >= iterations:
        return f"It is of iteration {iteration}, counted from 0, and {counted(iterations, 'iteration is', 'iterations are')} asked for."
    if worker >= workers:
        return f"It is of worker {worker}, counted from 0, and {counted(workers, 'worker is', 'workers are')} asked for."
    running = runs_by(lines[:number - 1], iteration).get(worker)
    if line.startswith("finish"):
        return "The journals of the iterations before it have to end first." if running else f"Worker {worker} runs nothing there, so it finishes nothing."
    if running:
        return f"Worker {worker} still runs the item of line {running}. A worker claims only while it runs nothing."
    return f"By the lines before it worker {worker} isn't handed this item there. {RULE}"


def shape_words(line):
    if not line:
        return "An empty line stands there."
    if line.endswith("\r"):
        return "The line ends with a carriage return. Lines end with a line feed alone."
    return (f"{quoted(line)} is no line of a journal. A line is `claim,ITERATION,WORKER,PATH,KIND,NUMBER` or `finish,ITERATION,WORKER`, "
            "with numbers without leading zeros, and without blanks.")


def runs_by(lines, iteration):
    """The line of the claim of each worker that runs an item after these lines of an iteration's journal."""
    running = {}
    for number, line in enumerate(lines, 1):
        claim, finish = CLAIM.fullmatch(line), FINISH.fullmatch(line)
        if claim and int(claim[1]) == iteration:
            running[int(claim[2])] = number
        elif finish and int(finish[1]) == iteration:
            running.pop(int(finish[2]), None)
    return running
