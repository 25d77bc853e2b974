"""Pictures of graph files, plans, schedules and cells."""
import json
import os
import re
import resource
import subprocess
import sys
import tempfile
import unittest
import xml.etree.ElementTree as xml

from support import WHOLE, chain, pixels

TOP = os.path.realpath(os.path.join(os.path.dirname(__file__), "..", ".."))
DRAW = os.path.join(TOP, "tools", "draw.py")
SVG = "{http://www.w3.org/2000/svg}"
PLAN, SCHEDULE, MEMORY = (os.path.join(TOP, "tests", "commands", name, "stdout") for name in ("plan", "schedule", "memory"))


def draw(*words, stdin=""):
    done = subprocess.run([sys.executable, "-B", DRAW, *words], input=stdin, capture_output=True, text=True, timeout=60)
    return done.returncode, done.stdout, done.stderr


def spent():
    """The processor time of the calls that have ended."""
    used = resource.getrusage(resource.RUSAGE_CHILDREN)
    return used.ru_utime + used.ru_stime


def example(name):
    return os.path.join(TOP, "examples", name, "g.json")


def spoiled(change):
    """A graph file of an example with a change."""
    with open(example("adaptive-mean"), encoding="utf-8") as file:
        graph = json.load(file)
    change(graph)
    return json.dumps(graph)


class Graphs(unittest.TestCase):
    def test_ports_rates_and_ranges(self):
        status, out, error = draw("graph", example("adaptive-mean"))
        self.assertEqual((status, error), (0, ""))
        self.assertIn('"g/x" -> "g/m" [taillabel="8", headlabel="i n"];', out)
        self.assertIn('"g/n" [label="n\\n1 to 8"', out)

    def test_who_sets_and_who_uses_a_parameter(self):
        out = draw("graph", example("adaptive-mean"))[1]
        self.assertIn('"g/c" -> "g/n" [style=dashed', out)
        self.assertIn('"g/n" -> "g/m" [style=dashed', out)
        self.assertEqual(out.count("style=dashed"), 2)
        whole = draw("graph", "-", stdin=WHOLE)[1]
        found = re.findall(r'"(\w+/\w+)" -> "(\w+/\w+)" \[style=dashed', whole)
        self.assertEqual(sorted(found), [("g/c", "g/n"), ("g/k", "g/b"), ("g/k", "g/y"), ("g/m", "g/a"), ("g/n", "g/m"), ("h/p", "h/e"), ("h/p", "h/u"), ("h/p", "h/v")])

    def test_a_delay_with_its_tokens_and_its_life(self):
        out = draw("graph", example("running-sum"))[1]
        self.assertIn('label=" delay 0, permanent "', out)
        self.assertIn('label=" delay 0 "', out)

    def test_a_long_delay_is_counted(self):
        for tokens, words in (([1, 2, 3, 4], '" delay 1, 2, 3, 4 "'), ([1, 2, 3, 4, 5, 6], '" delay 1, 2, 3, 4, .. (6 tokens) "')):
            def change(graph):
                graph["graphs"][0]["fifos"][0]["delay"] = tokens

            self.assertIn(words, draw("graph", "-", stdin=spoiled(change))[1])

    def test_a_delay_of_too_many_tokens(self):
        def change(graph):
            graph["graphs"][0]["fifos"][1]["delay"] = 10 ** 15

        self.assertIn("delay 0, 0, 0, 0, .. (1000000000000000 tokens)", draw("graph", "-", stdin=spoiled(change))[1])

    def test_a_long_graph_is_drawn_from_the_top_down(self):
        self.assertIn("rankdir=LR", draw("graph", example("first"))[1])
        self.assertIn("rankdir=TB", draw("graph", "-", stdin=chain(62))[1])

    def test_all_examples(self):
        for name in os.listdir(os.path.join(TOP, "examples")):
            if os.path.exists(example(name)):
                status, out, error = draw("graph", example(name))
                self.assertEqual((status, error), (0, ""))
                self.assertTrue(out.startswith("digraph {"))

    def refused(self, stdin, words):
        status, out, error = draw("graph", "-", stdin=stdin)
        self.assertEqual((status, out, error.count("\n")), (2, "", 1))
        self.assertTrue(error.startswith(f"draw: {words}"), error)

    def test_bad_graphs_are_answered_with_a_line(self):
        self.refused("{", "-, line 1, column 2: The file is no JSON.")
        self.refused("[" * 100000, "-, line 1, column 128: The file is no JSON.")
        self.refused("[]", "-, line 1, column 1: A graph file is one object with `pisdf`, `top` and `graphs`, and a list stands here.")
        self.refused("{}", "-, line 1, column 1: The file lacks `pisdf`, `top` and `graphs`.")
        self.refused(" " * 4194305, "-, line 1, column 1: The file has 4,194,305 bytes.")

    def test_a_graph_with_faults_of_wires_is_drawn(self):
        status, out, error = draw("graph", "-", stdin=spoiled(lambda graph: graph["graphs"][0]["fifos"].pop()))
        self.assertEqual((status, error), (0, ""))
        self.assertNotIn('"g/m" -> "g/y"', out)

    def test_delays_of_a_top_graph_of_version_1_are_permanent(self):
        with open(example("first"), encoding="utf-8") as file:
            graph = json.load(file)
        graph["graphs"][0]["fifos"][0]["delay"] = 1
        self.assertIn('label=" delay 0, permanent "', draw("graph", "-", stdin=json.dumps(graph))[1])

    def test_a_bad_graph_is_told_with_line_and_column(self):
        def first(graph, *steps):
            for step in steps:
                graph = graph[step]
            return graph

        cases = [
            (lambda graph: graph["graphs"][0].pop("fifos"), "{\"name\": \"g\"", "graph `g`: A graph of version 3 lacks `fifos`."),
            (lambda graph: first(graph, "graphs", 0, "inputs", 0).update(rate=1), "1}", "graph `g`, input `width`, member `rate`: An expression is a text"),
            (lambda graph: first(graph, "graphs", 0, "actors", 0).update(kind="actor"), '"kind": "actor"', "graph `g`, actor `c`: The text \"actor\" is no kind of actor."),
            (lambda graph: first(graph, "graphs", 0, "fifos", 0).update(to="m.k"), '"m.k"', "graph `g`, FIFO 0 (`width` to `m.k`), member `to`: The actor `m` has no port `k`."),
            (lambda graph: first(graph, "graphs", 0, "actors", 1).update(kernel="delay"), '"delay"', "graph `g`, actor `m`, member `kernel`: There is no kernel `delay`."),
            (lambda graph: graph.update(top="h"), '"h"', "member `top`: There is no graph `h`."),
        ]
        for change, at, words in cases:
            text = spoiled(change)
            with self.subTest(words):
                self.refused(text, f"-, line 1, column {text.index(at) + 1}, in {words}")

    def test_files_that_cant_be_read(self):
        self.assertEqual(draw("graph", "/nowhere/g.json")[::2], (2, "draw: /nowhere/g.json can't be read: No such file or directory\n"))
        with tempfile.NamedTemporaryFile() as file:
            file.write(b"\xff")
            file.flush()
            self.assertEqual(draw("graph", file.name)[2], f"draw: {file.name}, line 1, column 1: The file is no JSON. One JSON value was wanted here, and the byte 0xff stands here.\n")
            self.assertEqual(draw("plan", file.name)[2], f"draw: {file.name} is no text in UTF-8: byte 0 begins no letter\n")

    def test_words(self):
        self.assertEqual(draw()[0], 1)
        for words, told in ((("tree", "x"), "`tree` is none of `graph`, `plan`, `gantt`, `cells` and `unfolded`."), (("grahp", "x"), "Do you mean `graph`?"),
                            (("graph",), "`graph` takes 1 word more, and here are 0."), (("unfolded", "2"), "`unfolded` takes 2 words more, and here is 1."),
                            (("cells", "1", "2", "3"), "`cells` takes 1 or 2 words more, and here are 3.")):
            status, _, error = draw(*words)
            self.assertEqual(status, 1)
            self.assertTrue(error.startswith("draw: ") and told in error.split("\n")[0], error)


class Plans(unittest.TestCase):
    def test_a_box_for_each_node(self):
        status, out, error = draw("plan", PLAN, SCHEDULE)
        self.assertEqual((status, error), (0, ""))
        self.assertEqual(out.count("priority"), 6)
        self.assertEqual(out.count(" -> "), 6)
        self.assertIn("penwidth=3", out)
        self.assertIn('n0 -> n3 [label="4 at 0"', out)
        # Node 2 is at home on worker 1, and all others of these on worker 0.
        fills = dict(re.findall(r'n(\d) \[label="[^"]*", fillcolor="(#\w+)"', out))
        self.assertEqual([fills[number] == fills["0"] for number in "0124"], [True, True, False, True])

    def test_nodes_are_called_by_what_they_stand_beside(self):
        nodes = ["node,0,source,x,0,9", "node,1,init,0,0,8", "node,2,firing,a:0,0,7", "node,3,broadcast,1,0,6", "node,4,round,2,0,5", "node,5,end,0,0,4", "node,6,sink,y,0,3"]
        edges = ["edge,0,0,3,1,0", "edge,1,3,2,1,1", "edge,2,1,2,1,2", "edge,3,2,5,1,3", "edge,4,2,4,1,4", "edge,5,4,6,1,5"]
        out = draw("plan", "-", stdin="\n".join([*nodes, *edges, "height,6"]))[1]
        for name in ("broadcast of x", "round to y", "init to a:0", "end from a:0"):
            self.assertIn(f'label="{name}\\n', out)

    def test_one_of_a_thing_has_no_s(self):
        nodes = [f"node,{number},firing,a:{number},0,1" for number in range(200)] + ["node,200,firing,b:0,0,1"]
        out = draw("plan", "-", stdin="\n".join([*nodes, "edge,0,0,200,1,0", "height,1"]))[1]
        self.assertIn('label="b\\n1 node"', out)
        self.assertIn('label="1 edge, 1 token"', out)

    def test_a_large_plan_is_drawn_by_actors_in_a_second(self):
        nodes = [f"node,{number},firing,a:{number},0,1" for number in range(1000)] + [f"node,{number},firing,b:{number - 1000},0,1" for number in range(1000, 2000)]
        edges = [f"edge,{number},{number},{number + 1000},3,{3 * number}" for number in range(1000)]
        begun = spent()
        out = draw("plan", "-", stdin="\n".join([*nodes, *edges, "height,3000"]))[1]
        self.assertLess(spent() - begun, 5)
        self.assertEqual(out.count("1000 nodes"), 2)
        self.assertIn('g0 [label="a\\n1000 nodes"', out)
        self.assertIn('g0 -> g1 [label="1000 edges, 3000 tokens"', out)

    def test_texts_of_other_kinds(self):
        self.assertEqual(draw("plan", "-", stdin="a" * 200_000)[::2], (2, f"draw: -, line 1: no row of a plan, a schedule or a memory begins with '{'a' * 58}..'\n"))
        self.assertEqual(draw("plan", "-", stdin='"node\n')[::2], (2, "draw: -, line 1: no row of a plan, a schedule or a memory begins with '\"node'\n"))
        self.assertEqual(draw("plan", "-", stdin=" {" + "x" * 200_000)[2][:30], "draw: - is a graph file, which")
        self.assertEqual(draw("gantt", "-", stdin="critical,1\nwork,1\nlength,1\npath,0,x\n")[2], "draw: -, line 4: a field that has to be a number isn't one\n")
        with open(PLAN, encoding="utf-8") as file:
            text = file.read()
        self.assertEqual(draw("plan", "-", stdin=text.replace("\n", "\r\n\r\n")), draw("plan", PLAN))

    def test_what_is_no_plan(self):
        self.assertEqual(draw("plan", "-", stdin="tokens,0,y,5\n")[2], "draw: -, line 1: no row of a plan, a schedule or a memory begins with 'tokens'\n")
        self.assertEqual(draw("plan", example("first"))[::2], (2, f"draw: {example('first')} is a graph file, which `draw graph` draws. The answer of plan, schedule or memory is wanted here\n"))
        self.assertEqual(draw("plan", "-", stdin="height,5\n")[2], "draw: - has no row 'node'\n")
        self.assertEqual(draw("plan", "-", stdin="node,1,firing\n")[2], "draw: -, line 1: a row 'node' has 5 fields after it, and this one has 2\n")
        self.assertEqual(draw("plan", "-", stdin="node,0,firing,a:0,0,1\nedge,0,0,7,1,0\n")[2], "draw: -: edge 0 names node 7, and no row has it\n")
        self.assertEqual(draw("plan", "-", stdin="node,0,firing,a:0,0,1\nedge,0,7,0,1,0\n")[2], "draw: -: edge 0 names node 7, and no row has it\n")
        self.assertEqual(draw("plan", "-", stdin="height,many\n")[2], "draw: -, line 1: a field that has to be a number isn't one\n")


class Charts(unittest.TestCase):
    def shapes(self, *words):
        status, out, error = draw(*words)
        self.assertEqual((status, error), (0, ""))
        return xml.fromstring(out)

    def test_a_bar_for_each_node(self):
        drawn = self.shapes("gantt", SCHEDULE, PLAN)
        bars = [shape for shape in drawn.iter(f"{SVG}rect") if "box" in shape.get("class", "")]
        self.assertEqual(len(bars), 6)
        told = [shape.find(f"{SVG}title").text for shape in bars]
        self.assertTrue(any(words.startswith("a:0: from ") for words in told), told)
        fills = {}
        for shape in bars:
            fills.setdefault(re.search(r"worker (\d+)", shape.findtext(f"{SVG}title"))[1], set()).add(shape.get("fill"))
        self.assertEqual(fills, {"0": {"#a6cee3"}, "1": {"#b2df8a"}})
        # Node 2 runs on worker 1 from 14 to 18 of 26: the chart is 900 wide, and a row 32 high.
        box, = [shape for shape in bars if shape.findtext(f"{SVG}title").startswith("a:1: from 14 to 18, worker 1")]
        self.assertEqual([box.get(name) for name in ("x", "y", "width", "height")], [f"{70 + 14 * 900 / 26:.1f}", "106", f"{4 * 900 / 26:.1f}", "24"])

    def test_a_box_of_cells_for_each_buffer(self):
        drawn = self.shapes("cells", PLAN)
        told = [shape.find(f"{SVG}title").text for shape in drawn.iter(f"{SVG}rect") if shape.get("class") == "box"]
        self.assertIn("edge 0: cells 0 to 3, from x to fork of x", told)
        self.assertEqual(len(told), 6)

    def test_a_buffer_lives_from_its_writer_to_its_reader(self):
        # The order of one worker is 0, 3, 1, 2, 4, 5: the buffer from node 3 to node 2 lives in the steps 1 to 3 of 6.
        drawn = self.shapes("cells", PLAN)
        box, = [shape for shape in drawn.iter(f"{SVG}rect") if "from fork of x to a:1" in (shape.findtext(f"{SVG}title") or "")]
        self.assertEqual((box.get("x"), box.get("width")), ("220", "450"))
        # It lies in the cells 6 and 7 of 8, which are 420 high.
        self.assertEqual((box.get("y"), box.get("height")), (str(70 + 6 * 420 // 8), str(2 * 420 // 8)))

    def test_the_marks_of_a_scale(self):
        from drawing.svg import marks
        for length, count, wanted in ((0, 12, [0]), (10, 12, list(range(11))), (20, 12, list(range(0, 21, 2))), (26, 12, [0, 5, 10, 15, 20, 25]), (1000, 9, [0, 200, 400, 600, 800, 1000])):
            self.assertEqual(list(marks(length, count)), wanted)

    def test_the_cells_of_a_memory(self):
        offsets = "".join(f"offset,{number},{2 * number}\n" for number in range(6))
        with tempfile.NamedTemporaryFile("w") as memory:
            memory.write(f"height,8\nordered,20\n{offsets}order,0,0\n")
            memory.flush()
            told = [shape.find(f"{SVG}title").text for shape in self.shapes("cells", PLAN, memory.name).iter(f"{SVG}rect") if shape.get("class") == "box"]
        self.assertIn("edge 3: cells 6 to 6, from a:0 to join to y", told)

    def test_a_memory_of_another_graph(self):
        self.assertEqual(draw("cells", PLAN, MEMORY)[::2], (2, "draw: the memory has no offset for edge 4 of the plan: they are of two graphs\n"))

    def test_very_many_buffers_are_an_image(self):
        nodes = [f"node,{number},firing,a:{number},0,1" for number in range(5000)]
        edges = [f"edge,{number},{number},{number + 1},1,{number}" for number in range(4999)]
        status, out, error = draw("cells", "-", stdin="\n".join([*nodes, *edges, "height,4999"]))
        self.assertEqual((status, error), (0, ""))
        image, = xml.fromstring(out).iter(f"{SVG}image")
        rows = pixels(image.get("href"))
        self.assertEqual((len(rows), len(rows[0])), (420, 900))
        # A buffer of each step lies one cell lower: all are on the way from the corner above to the corner below.
        self.assertTrue(rows[0][0] < 0xf4 and rows[-1][-1] < 0xf4 and rows[210][450] < 0xf4)
        self.assertEqual((rows[0][-1], rows[-1][0]), (0xf4, 0xf4))


if __name__ == "__main__":
    unittest.main()
