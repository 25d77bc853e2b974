"""What the program says of a graph: the answers of its commands, read into lists."""
import concurrent.futures
import csv
import io
import os
import subprocess
import tempfile
from collections import defaultdict

from drawing import nodes
from drawing.inputs import Refused, read_graphs
from drawing.parts import Names
from drawing.told import told
from pisdf_tools import token_file
from pisdf_tools.firing import TooLong
from pisdf_tools.levels import Refused as RunRefused
from pisdf_tools.source import read_source
from pisdf_tools.unfolding import unfolded_text, unfolding_of
from pisdf_tools.words import explain_usage

SECONDS = 120
# The status of a call that took longer.
TOO_LONG = 124
# So long the first iteration is made again to know its levels.
LEVEL_SECONDS = 2


class Answer:
    """What a call of the program wrote, and how it ended."""

    def __init__(self, words, done):
        self.words, self.status, self.written = words, done.returncode, done.stdout
        self.rows = list(csv.reader(io.StringIO(done.stdout.decode(errors="replace"))))
        self.line = done.stderr.decode(errors="replace").strip()

    def of(self, kind):
        return [row[1:] for row in self.rows if row[0] == kind]

    def by_kind(self):
        """The rows by their first fields. A graph without actors and interfaces has none of many kinds."""
        kinds = defaultdict(list)
        for row in self.rows:
            kinds[row[0]].append(row[1:])
        return kinds


class Run:
    """A graph with its tokens, and what the commands say of it. Each command is called once.

    `words` are those of the run. `group` is how many iterations are planned as one, and `planned` the graphs in which they are one.
    """

    def __init__(self, program, graph, tokens, iterations, workers, times="1"):
        self.program, self.graph_file, self.token_file = program, graph, tokens
        self.iterations, self.workers, self.times = iterations, workers, times
        self.words = ["run", graph, tokens, iterations, workers] if times == "1" else ["unfold", times, graph, tokens, iterations, workers]
        self.run = self.call(*self.words)
        if self.run.status == 1:
            raise Refused(explain_usage(self.words))
        self.file = read_graphs(graph) if self.run.status not in (2, 5) else None
        self.top = self.file.top.text if self.file else None
        self.group = self.group_of()
        with tempfile.TemporaryDirectory() as room:
            planned = self.put_planned(room)
            self.planned = self.file if self.group == 1 else read_graphs(planned)
            self.call_all(planned)
            self.audit = self.judge(room)
        self.names = self.top_names() if not self.plan.status else None

    def group_of(self):
        """How many iterations are fired as one, where so many are asked for."""
        times = int(self.times)
        is_group = self.file and times <= int(self.iterations) and not unfolding_of(self.file).why_not(times)
        return times if is_group else 1

    def put_planned(self, room):
        """The name of a graph file whose iteration is a group."""
        if self.group == 1:
            return self.graph_file
        path = os.path.join(room, "g.json")
        with open(path, "w", encoding="utf-8") as file:
            file.write(unfolded_text(self.file, self.group))
        return path

    def call_all(self, graph):
        """Calls what tells of the first iteration or group. Meanwhile the run is explained, and the levels are worked out."""
        calls = [(command, graph, self.token_file, self.workers) for command in ("plan", "schedule", "memory")]
        calls.append(("journal", graph, self.token_file, str(min(1, int(self.iterations))), self.workers))
        with concurrent.futures.ThreadPoolExecutor() as pool:
            answers = pool.map(lambda words: self.call(*words), calls)
            told_run, levels = pool.submit(told, self), pool.submit(self.levels_of_first)
            self.plan, self.schedule, self.memory, self.journal = answers
            self.told, self.levels = told_run.result(), levels.result()

    def judge(self, room):
        """What `audit` says of the journal, with the same words."""
        path = os.path.join(room, "j.csv")
        with open(path, "wb") as file:
            file.write(self.journal.written)
        return self.call("audit", *self.journal.words[1:], path)

    def call(self, *words):
        try:
            done = subprocess.run([self.program, *words], capture_output=True, timeout=SECONDS)
        except OSError as error:
            raise Refused(f"the program {self.program} can't be called: {error.strerror}") from error
        except subprocess.TimeoutExpired:
            done = subprocess.CompletedProcess(words, TOO_LONG, b"", f"the call of '{words[0]}' took over {SECONDS} seconds".encode())
        return Answer(words, done)

    def levels_of_first(self):
        """The levels of the first iteration or group by the paths of their firings, as far as they are found soon."""
        if not self.file:
            return {}
        recorder = None
        try:
            streams = token_file.Streams(read_source(self.token_file).data, {port.name.text for port in self.planned.top_graph.inputs})
            recorder = nodes.Recorder(self.planned, LEVEL_SECONDS)
            recorder.run(1, streams.tokens)
        except (RunRefused, TooLong, OSError, RecursionError, ValueError):
            # A field that is no token is a ValueError. What is wrong is told by the program.
            pass
        return recorder.found if recorder else {}

    def top_names(self):
        """What the nodes of the plan are called."""
        found = self.levels.get(self.top)
        return Names(self.plan.by_kind(), nodes.ends_of(found[0]) if found else ())

    def names_by_path(self):
        """What the nodes of each firing of a graph are called, by its path."""
        found = {path: Names(nodes.rows_of(*level), nodes.ends_of(level[0])) for path, level in self.levels.items() if path != self.top}
        return {**found, self.top: self.names} if self.names else found

    def values_of_first(self):
        """The parameters of the top graph in the first iteration or group, each with its value."""
        found = self.levels.get(self.top)
        return dict(found[0].values) if found else {}

    def parameters(self):
        """The values of each chosen parameter, by the path of its firing and its name: the iteration and the value of each."""
        series = {}
        for iteration, path, name, value in self.run.of("param"):
            series.setdefault(f"{name} in {path}", []).append((int(iteration), int(value)))
        return series

    def outputs(self):
        """The tokens of each output, a list for each iteration."""
        series = {}
        for row in self.run.of("tokens"):
            series.setdefault(row[1], []).append([int(token) for token in row[2:]])
        return series

    def left(self):
        """How many tokens of each input were left."""
        lines = [line.split() for line in self.run.line.split("\n") if line.startswith("left: ")]
        return [(name, int(count)) for _, name, count in lines]

    def steps(self):
        """What each worker did in the first iteration or group: the worker, the places of the claim and of the finish in the journal, what it was,
        and the job that it was of."""
        names, running, found = self.names_by_path(), {}, []
        for place, row in enumerate(self.journal.rows):
            worker = int(row[2])
            if row[0] == "claim":
                running[worker] = (place, row[3], row[4], row[5])
            elif worker in running:
                start, path, kind, number = running.pop(worker)
                label = self.item(names, path, kind, number)
                found.append((worker, start, place, f"{path} {label}" if path != self.top else label, path))
        return found

    def item(self, names, path, kind, number):
        """What an item of a job is called: a node by its name, a configuration actor by its own."""
        if kind == "node":
            return names[path].of(number) if path in names and number in names[path].kinds else f"node {number}"
        if kind == "configure" and path in self.levels:
            return f"configure {self.levels[path][0].graph.actors[int(number)].name.text}"
        return kind if kind == "compile" else f"{kind} {number}"
