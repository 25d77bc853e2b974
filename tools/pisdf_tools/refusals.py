"""From the status and the line of a call to its explanation."""
import os
import re
import stat
import subprocess

from . import firing, journal_file, loss, reading, token_file
from .exploring import Explorer
from .levels import Refused
from .run_refusals import RunRefusals
from .source import once_words, read_source
from .static_refusals import plain_words
from .token_file import TokenFaults
from .unfolding import group_words
from .wording import counted, joined, named, nearest, quoted
from .words import call_of, explain_usage

SECONDS = 4
# The files of the call by which it is told what the answers of a status mean.
READ_AGAIN = {0: ("GRAPH", "TOKENS"), 2: ("GRAPH",), 3: ("GRAPH", "TOKENS"), 4: ("GRAPH", "TOKENS"), 9: ("JOURNAL",)}
STARTS = {"plan": 1, "schedule": 1, "memory": 1}


class Explanation:
    """Explains one call of the program."""

    def __init__(self, program, words, status, errors):
        self.program, self.words, self.status = program, words, status
        self.lines = errors.decode("utf-8", "replace").splitlines()
        self.line = self.lines[0] if self.lines else ""
        self.call = call_of(words)

    def text(self):
        """A paragraph or several, or an empty text where there is nothing to tell."""
        once = self.read_once()
        if once:
            return once
        tell = {0: self.done, 1: lambda: explain_usage(self.words), 2: self.graph, 3: self.tokens, 4: self.run, 5: self.unread,
                6: self.unwritten, 7: self.memory, 9: self.journal}.get(self.status)
        return tell() if tell else ""

    def read_once(self):
        """That a file can't be read again, where that is so of a file of the call."""
        paths = [self.call.get(name) for name in READ_AGAIN.get(self.status, ())] if self.call else []
        found = [(path, once_words(path)) for path in paths if path]
        return next((f"More can't be told of this answer without {quoted(path)}. {words}" for path, words in found if words), "")

    def read_graph(self):
        return reading.read(read_source(self.call.get("GRAPH")))

    def read_tokens(self):
        with open(self.call.get("TOKENS"), "rb") as file:
            return file.read()

    # ---- files

    def graph(self):
        found = self.read_graph()
        fault = found.fault_of(self.line)
        if fault is None:
            return f"{self.call.get('GRAPH')} is refused, and this tool finds no more about it. docs/FORMATS.md has the table of the faults."
        others = len(found.faults) - 1
        more = (f"{counted(others, 'more fault')} can be seen in this file: `./pisdf check {self.call.get('GRAPH')}` lists "
                f"{'it' if others == 1 else 'them'}.") if others else ""
        return joined_paragraphs(found.text_of(fault), *found.repeated_words(), self.exchanged() if fault.number == 1 else "", more)

    def exchanged(self):
        """Whether the two files may stand in the wrong order: the token file begins as a graph file does."""
        path = self.call.get("TOKENS")
        if path is None or not os.path.isfile(path) or not os.access(path, os.R_OK):
            return ""
        with open(path, "rb") as file:
            begins = file.read(1000).lstrip()[:1]
        return f"The token file {quoted(path)} begins as a graph file does. GRAPH comes before TOKENS: the two words may be exchanged." if begins == b"{" else ""

    def tokens(self):
        words, path, data = self.line.split(" ")[1:], self.call.get("TOKENS"), self.read_tokens()
        if words[0] == "short":
            return self.short(words, path, data)
        found = self.read_graph().file
        names = [port.name.text for port in found.top_graph.inputs] if found and found.top_graph else []
        return TokenFaults(path, data, names).explain(words) or ""

    def short(self, words, path, data):
        name, has, needs = words[1], int(words[3]), int(words[5])
        runner = firing.Runner(self.read_graph().file, SECONDS)
        rates = [(other, rate) for other, rate in runner.top_early().inputs.items() if other != name]
        return token_file.short_words(path, data, name, has, needs, rates)

    def unread(self):
        which = {"graph": "GRAPH", "tokens": "TOKENS", "journal": "JOURNAL"}[self.line.split(" ")[1]]
        path = self.call.get(which)
        what = {"GRAPH": "graph file", "TOKENS": "token file", "JOURNAL": "file of journals"}[which]
        return f"The {what} is {quoted(path)} by the words of the call. {why_unread(path)}"

    def journal(self):
        words, path = self.line.split(" ")[1:], self.call.get("JOURNAL")
        with open(path, "rb") as file:
            data = file.read()
        if words == ["length"]:
            return journal_file.length_words(path, data)
        return journal_file.line_words(path, data, int(words[1]), self.iterations(), self.call.number("WORKERS", 1))

    def unwritten(self):
        return ("A write to the standard output or to the standard error failed: the disk may be full, or what reads the output has ended. "
                "What was written before stands. Nothing was written after it.")

    def memory(self):
        fewer = ", fire fewer iterations as one" if self.call and self.call.command == "unfold" else ""
        return ("The system gave no more memory. The texts of the iterations before stand. Call with fewer workers, since each holds a firing of its own"
                f"{fewer}, or let an iteration take fewer tokens. `ulimit -v` tells whether memory is limited here.")

    # ---- runs

    def runner(self, file, seconds=SECONDS):
        return firing.Runner(file, seconds)

    def stream(self, file):
        """Gives the tokens of an input from a place on, or None where there are too few."""
        return token_file.Streams(self.read_tokens(), {port.name.text for port in file.top_graph.inputs}).tokens

    def iterations(self):
        return STARTS.get(self.call.command) or self.call.number("ITERATIONS", 0)

    def run(self):
        found = self.read_graph()
        refused, iteration = self.refusal(found.file)
        text = RunRefusals(found, refused, iteration).text() if refused and refused.line == self.line else plain_words(found, self.line)
        return joined_paragraphs(text, self.further_refusals(found.file))

    def further_refusals(self, file):
        """How many more refusals `check` lists, which no tokens avoid."""
        more = len({refused.line for refused in Explorer(file).certain_refusals()} - {self.line})
        return (f"{counted(more, 'more refusal')} can be seen that no tokens avoid: `./pisdf check {self.call.get('GRAPH')}` lists "
                f"{'it' if more == 1 else 'them'}.") if more else ""

    def refusal(self, file):
        """The refusal as the firing rules find it, with its iteration. None where that takes too long."""
        stream = self.stream(file)
        runner = self.runner(file)
        try:
            runner.run(self.iterations(), stream)
        except Refused as refused:
            return refused, runner.iteration
        except firing.TooLong:
            if file.kept_by(file.top_graph) == 0:
                return self.late_refusal(file, stream)
        return None, 0

    def late_refusal(self, file, stream):
        """The refusal of an iteration that is found by how many the program makes before it. Nothing goes on from one to the next."""
        done = self.iterations_done()
        runner = self.runner(file)
        try:
            runner.run(self.iterations(), stream, done)
        except Refused as refused:
            return refused, runner.iteration
        except firing.TooLong:
            pass
        return None, 0

    def iterations_done(self):
        """How many iterations the program writes before it refuses one, by a second call of it."""
        last, pending = -1, b""
        with subprocess.Popen([self.program] + self.words, stdout=subprocess.PIPE, stderr=subprocess.DEVNULL, stdin=subprocess.DEVNULL) as process:
            for line in process.stdout:
                match = re.match(rb"(?:tokens|param),(\d+),", line)
                last = int(match[1]) if match else last
        return last + 1

    # ---- calls that were done

    def done(self):
        if not self.call or "GRAPH" not in self.call.words or self.call.command in ("upgrade", "audit"):
            return ""
        found = self.read_graph()
        runner = self.runner(found.file, SECONDS / 2)
        try:
            runner.run(self.iterations(), self.stream(found.file))
        except (Refused, firing.TooLong):
            pass
        text = joined_paragraphs(*loss.notes(runner, found.source), loss.delay_words(found.file, runner, self.iterations()), self.left(runner),
                                 self.groups(found.file))
        return text or ("The call is done. No interface lost tokens or gave them again." if runner.is_done else "The call is done.")

    def groups(self, file):
        """Which iterations `unfold` fires as one."""
        return group_words(file, self.call.number("TIMES", 1), self.iterations()) if self.call.command == "unfold" else ""

    def left(self, runner):
        """What is left of the inputs' tokens."""
        pairs = [line.split(" ")[1:] for line in self.lines if line.startswith("left: ")]
        if not pairs:
            return ""
        rates = runner.top_early().inputs
        each = "; ".join(f"{quoted(name)} has {counted(int(count), 'token')} left, and an iteration takes {rates[name]}" for name, count in pairs)
        return f"The token file holds more than {counted(self.iterations(), 'iteration')} took: {each}. The tokens that are left were not used."


def joined_paragraphs(*paragraphs):
    return "\n\n".join(paragraph for paragraph in paragraphs if paragraph)


def why_unread(path):
    """Why a file can't be read, as the system tells, and what may be meant."""
    try:
        mode = os.stat(path).st_mode
    except FileNotFoundError:
        folder = os.path.dirname(path) or "."
        if not os.path.isdir(folder):
            return f"There is no folder {quoted(folder)}. {from_where(path)}"
        if os.path.islink(path):
            return f"It is a link to {quoted(os.readlink(path))}, which isn't there. {from_where(path)}".rstrip()
        meant = nearest(os.path.basename(path), sorted(os.listdir(folder)))
        guess = f"Do you mean {quoted(os.path.join(os.path.dirname(path), meant))}?" if meant else ""
        return joined(["There is no such file.", guess, from_where(path)])
    except OSError as fault:
        return f"The system says: {fault.strerror}."
    if stat.S_ISDIR(mode):
        files = [name for name in sorted(os.listdir(path)) if name.endswith((".json", ".csv"))] if os.access(path, os.R_OK) else []
        return "This is a folder. Name a file" + (f" in it, as {named([os.path.join(path, name) for name in files], 4, 'or')}." if files else ".")
    if not os.access(path, os.R_OK):
        return "The file is there, and this user may not read it."
    return "The file is there, and reading it failed."


def from_where(path):
    return "" if os.path.isabs(path) else f"The name is looked up from {quoted(os.getcwd())}."
