"""The page of a report, over a program that answers from stored texts."""
import filecmp
import os
import re
import shutil
import subprocess
import sys
import tempfile
import unittest
from unittest import mock
import xml.etree.ElementTree as xml

from support import PROGRAM as BUILT, chain, needs_program, pixels, read_text

TOP = os.path.realpath(os.path.join(os.path.dirname(__file__), "..", ".."))
REPORT = os.path.join(TOP, "tools", "report.py")
XHTML = "{http://www.w3.org/2000/svg}"

GRAPH, TOKENS = (os.path.join(TOP, "examples", "adaptive-mean", name) for name in ("g.json", "t.csv"))
PLAN = "repetition,m,2\norder,m,0\norder,m,1\nnode,0,source,x,0,20\nnode,1,firing,m:0,0,6\nnode,2,firing,m:1,1,6\nnode,3,fork,0,0,16\nnode,4,join,1,0,4\nnode,5,sink,y,0,2\n"
PLAN += "edge,0,0,3,8,0\nedge,1,3,1,4,8\nedge,2,3,2,4,12\nedge,3,1,4,1,0\nedge,4,2,4,1,1\nedge,5,4,5,1,2\nheight,16\n"
SCHEDULE = "critical,20\nwork,24\nlength,20\npath,0,3,1,4,5\nstart,0,0,0,5\nstart,1,0,5,9\nstart,2,1,5,9\nstart,3,0,9,12\nstart,4,0,12,15\nstart,5,0,15,20\n"
MEMORY = "height,16\nordered,14\n" + "".join(f"offset,{number},{number}\n" for number in range(6)) + "order,0,0,3,1,4,5\norder,1,2\n"
JOURNAL = "claim,0,0,g,configure,0\nfinish,0,0\nclaim,0,1,g,compile,0\nfinish,0,1\nclaim,0,0,g,node,0\nclaim,0,1,g,node,2\nfinish,0,0\nfinish,0,1\n"
AUDIT = "audit,legal,1,8\n"
RUN = "param,0,g,n,4\ntokens,0,y,6\nparam,1,g,n,8\ntokens,1,y,4\n"

# Answers each command with the text that the file of its name holds, and with the status and the line that stand there.
PROGRAM = """#!{python} -IS
import os, sys, time
room = os.path.dirname(os.path.abspath(__file__))
def text(name):
    path = os.path.join(room, name)
    return open(path).read() if os.path.exists(path) else ""
word = sys.argv[1]
time.sleep(float(text(word + ".sleep") or 0))
sys.stdout.write(text(word))
sys.stderr.write(text(word + ".line"))
sys.exit(int(text(word + ".status") or 0))
"""


def frame_of(drawn):
    """Where the frame of a chart ends."""
    frame, = [shape for shape in drawn.iter(f"{XHTML}rect") if shape.get("class") == "frame"]
    return float(frame.get("y")) + float(frame.get("height"))


class Report(unittest.TestCase):
    def setUp(self):
        room = tempfile.TemporaryDirectory()
        self.addCleanup(room.cleanup)
        self.room = room.name
        self.put("program", PROGRAM.format(python=sys.executable))
        os.chmod(os.path.join(self.room, "program"), 0o755)
        for name, text in (("run", RUN), ("plan", PLAN), ("schedule", SCHEDULE), ("memory", MEMORY), ("journal", JOURNAL), ("audit", AUDIT)):
            self.put(name, text)

    def put(self, name, text):
        with open(os.path.join(self.room, name), "w", encoding="utf-8") as file:
            file.write(text)

    def call(self, graph=GRAPH, tokens=TOKENS, iterations="2", target=None):
        target = target or os.path.join(self.room, "page.html")
        words = [os.path.join(self.room, "program"), graph, tokens, iterations, "2", target]
        done = subprocess.run([sys.executable, "-B", REPORT, *words], capture_output=True, text=True, timeout=60)
        return done.returncode, done.stdout + done.stderr

    def page(self, **words):
        self.assertEqual(self.call(**words), (0, ""))
        with open(os.path.join(self.room, "page.html"), encoding="utf-8") as file:
            text = file.read()
        return text, xml.fromstring(text.split("\n", 1)[1])

    def labelled(self, page, label):
        return [part for part in page.iter("div") if part.get("aria-label") == label]

    def told(self, part):
        """The words that a part of a page tells of its shapes."""
        return [words.text for words in part.iter(f"{XHTML}title")]

    def test_nodes_are_named(self):
        _, page = self.page()
        plan, = self.labelled(page, "The plan")
        shown = {words.text for words in plan.iter(f"{XHTML}text")}
        self.assertTrue({"fork of x", "join to y", "m:0"} <= shown, shown)
        cells, = self.labelled(page, "The cells of the plan")
        self.assertIn("edge 1: cells 8 to 11, from fork of x to m:0", self.told(cells))
        workers, = self.labelled(page, "What the workers did")
        self.assertIn("configure c: from 0 to 1, worker 0", self.told(workers))
        self.assertIn("m:1: from 5 to 7, worker 1", self.told(workers))

    def test_cells_and_firings_have_no_colour_of_a_worker(self):
        _, page = self.page()
        fills = {}
        for label in ("The schedule", "The cells of the plan", "What the workers did"):
            part, = self.labelled(page, label)
            fills[label] = {box.get("fill") for box in part.iter(f"{XHTML}rect") if "box" in box.get("class", "")}
        self.assertEqual(len(fills["The schedule"]), 2)
        self.assertFalse(fills["The schedule"] & (fills["The cells of the plan"] | fills["What the workers did"]))

    def test_the_plan_says_with_which_parameters(self):
        text, _ = self.page()
        self.assertIn("This is the plan of iteration 0 of the top graph <code>g</code>, with n = 4.", text)

    def test_a_plan_of_many_nodes_is_told_as_such(self):
        nodes = [f"node,{number},firing,m:{number},0,1\n" for number in range(61)] + ["node,61,sink,y,0,1\n"]
        self.put("plan", "".join([*nodes, "edge,0,60,61,1,0\nheight,1\n"]))
        self.put("memory.status", "4")
        text, page = self.page()
        self.assertIn("The plan has 62 nodes. One box stands for the firings of an actor, one for what copies on a link. <code>./pisdf draw plan</code> draws each.", text)
        self.assertNotIn("A colour is a worker", text)
        plan, = self.labelled(page, "The plan")
        shown = {words.text for words in plan.iter(f"{XHTML}text")}
        self.assertTrue({"61 nodes", "1 node", "1 edge, 1 token"} <= shown, shown)

    def test_few_tokens_have_numbers_and_iterations_lines(self):
        self.put("run", "tokens,0,y,6,7\ntokens,1,y,4\n")
        _, page = self.page()
        drawn, = self.labelled(page, "Tokens of y")
        shown = [words.text for words in drawn.iter(f"{XHTML}text")]
        self.assertTrue({"6", "7", "4", "token", "iteration 0", "iteration 1"} <= set(shown), shown)
        self.assertEqual(self.below([words for words in drawn.iter(f"{XHTML}text") if words.text.startswith("iteration")], frame_of(drawn)), 2)
        turns = [line for line in drawn.iter(f"{XHTML}line") if line.get("class") == "turn"]
        dots = [dot.get("cx") for dot in drawn.iter(f"{XHTML}circle")]
        self.assertEqual(len(turns), 2)
        self.assertTrue(float(dots[1]) < float(turns[1].get("x1")) < float(dots[2]))

    def below(self, shapes, bottom):
        return sum(float(shape.get("y")) > bottom for shape in shapes)

    def test_labels_of_ports_and_delays_lie_apart(self):
        from drawing.layout import Arrow, Box, drawing
        boxes = [Box(name, [name], "#fff") for name in "st"]
        drawn = xml.fromstring(drawing(boxes, [Arrow("s", "t", ("o 1", "", "i 1")), Arrow("t", "s", ("p 1", "delay 0, permanent", "j 1"))], "a ring"))
        row = sorted((float(shape.get("x")), shape.text) for shape in drawn.iter(f"{XHTML}text") if shape.text in ("j 1", "delay 0, permanent", "p 1"))
        self.assertEqual([words for _, words in row], ["j 1", "delay 0, permanent", "p 1"])
        self.assertGreater(row[2][0] - row[0][0], 6 * len("j 1delay 0, permanentp 1"))

    def test_how_many_iterations_are_planned_as_one(self):
        from drawing import run
        graph, tokens = (os.path.join(TOP, "examples", "cascade", name) for name in ("g.json", "t.csv"))
        for iterations, times, group in (("4", "4", 4), ("3", "4", 1), ("8", "4", 4), ("8", "1", 1)):
            made = run.Run(os.path.join(self.room, "program"), graph, tokens, iterations, "2", times)
            self.assertEqual((made.group, made.planned.top_graph.inputs[0].rate.text), (group, str(group)))

    def test_shares_make_a_hundred(self):
        from drawing.page import shares
        self.assertEqual(shares([2, 1]), [67, 33])
        self.assertEqual(shares([1, 1, 1]), [34, 33, 33])
        self.assertEqual(shares([46, 18, 15, 21]), [46, 18, 15, 21])
        self.assertEqual(shares([0, 0]), [0, 0])

    def test_what_a_done_run_loses_is_told(self):
        _, page = self.page()
        told, = [part for part in page.iter("div") if part.get("class") == "told"]
        words = "".join(told.itertext())
        self.assertIn("y", words)
        self.assertIn("lost", words)

    def test_all_parts(self):
        text, page = self.page()
        self.assertEqual([part.get("id") for part in page.iter("section")], ["graph", "plan", "schedule", "cells", "workers", "parameters", "tokens", "counts"])
        links = {link.get("href") for link in page.iter("a")}
        self.assertTrue({f"#{part.get('id')}" for part in page.iter("section")} <= links)
        self.assertEqual(len(list(page.iter(f"{XHTML}svg"))), 8)

    def test_nothing_from_outside(self):
        text, page = self.page()
        for part in page.iter():
            for name in ("src", "href"):
                address = part.get(name, "#")
                self.assertTrue(address.startswith(("#", "data:")), address)
        self.assertNotIn("@import", text)
        self.assertNotIn("<script", text)

    def test_numbers_of_nodes_edges_and_bars(self):
        _, page = self.page()
        plan, = self.labelled(page, "The plan")
        self.assertEqual(len([part for part in plan.iter(f"{XHTML}rect")]), 6)
        self.assertEqual(len([part for part in plan.iter(f"{XHTML}path") if part.get("class") == "edge"]), 6)
        schedule, = self.labelled(page, "The schedule")
        self.assertEqual(len([part for part in schedule.iter(f"{XHTML}rect") if "box" in part.get("class")]), 6)
        workers, = self.labelled(page, "What the workers did")
        self.assertEqual(len([part for part in workers.iter(f"{XHTML}rect") if "box" in part.get("class")]), 4)

    def test_counts(self):
        text, page = self.page()
        rows = {row[0].text: row[1].text for row in page.iter("tr") if len(row) == 2}
        self.assertEqual((rows["Nodes"], rows["Edges"], rows["Cells of the plan"], rows["Cells under fixed orders"]), ("6", "6", "16", "14"))
        self.assertEqual((rows["Firings of m"], rows["Critical path"], rows["Tokens of y"]), ("2", "20", "2"))
        self.assertIn("nor than the work divided by the workers, 12.", text)
        self.put("run.line", "left: width 1\nleft: x 8\n")
        rows = {row[0].text: row[1].text for row in self.page()[1].iter("tr") if len(row) == 2}
        self.assertEqual((rows["Tokens left of width"], rows["Tokens left of x"]), ("1", "8"))
        self.put("schedule", SCHEDULE.replace("work,24", "work,25"))
        self.assertIn("nor than the work divided by the workers, 13.", self.page()[0])

    def test_a_picture_can_be_moved_by_the_keyboard(self):
        _, page = self.page()
        figures = [part for part in page.iter("div") if "figure" in part.get("class", "").split()]
        self.assertTrue(figures and all(part.get("tabindex") == "0" and part.get("role") == "region" and part.get("aria-label") for part in figures))
        self.assertTrue(all(picture.get("aria-label") for picture in page.iter(f"{XHTML}svg")))

    def test_what_the_mouse_is_told_stands_in_words_as_well(self):
        _, page = self.page()
        lists = {part.find("summary").text: [row.text for row in part.find("ul")] for part in page.iter("details") if part.find("ul") is not None}
        self.assertEqual(list(lists), ["The schedule in words: 6 nodes", "The cells of the plan in words: 6 buffers", "The cells under fixed orders in words: 6 buffers",
                                       "What the workers did in words: 4 items", "Values of n in g in words: 2 values", "Tokens of y in words: 2 tokens"])
        self.assertEqual(lists["The schedule in words: 6 nodes"], [
            "x: from 0 to 5, worker 0, on the critical path", "m:1: from 5 to 9, worker 1", "m:0: from 5 to 9, worker 0, on the critical path",
            "fork of x: from 9 to 12, worker 0, on the critical path", "join to y: from 12 to 15, worker 0, on the critical path",
            "y: from 15 to 20, worker 0, on the critical path"])
        self.assertEqual(lists["Tokens of y in words: 2 tokens"], ["token 0: 6", "token 1: 4"])
        for part in page.iter("div"):
            if "chart" in part.get("class", "").split():
                self.assertEqual(len(self.told(part)) - 1, next(len(words) for name, words in lists.items() if name.startswith(part.get("aria-label"))))

    def test_a_name_that_is_no_utf_8(self):
        graph = os.path.join(self.room, b"g\xff.json".decode(errors="surrogateescape"))
        shutil.copy(GRAPH, graph)
        text, _ = self.page(graph=graph)
        self.assertIn("g\\udcff.json", text)

    def test_narrow_bars_show_their_colour(self):
        lines = [f"{kind},0,{number % 2}{',g,node,' + str(number % 6) if kind == 'claim' else ''}" for number in range(400) for kind in ("claim", "finish")]
        self.put("journal", "\n".join(lines) + "\n")
        _, page = self.page()
        for label, looks in (("What the workers did", {"box thin"}), ("The schedule", {"box", "box critical"})):
            drawn, = self.labelled(page, label)
            self.assertEqual({part.get("class") for part in drawn.iter(f"{XHTML}rect")}, looks)
            self.assertIn(".thin{stroke:none}", next(drawn.iter(f"{XHTML}style")).text)

    def test_a_page_is_not_written_over_its_files(self):
        graph, tokens = (os.path.join(self.room, name) for name in ("g.json", "t.csv"))
        for path, source in ((graph, GRAPH), (tokens, TOKENS)):
            shutil.copy(source, path)
        for path, what in ((graph, "graph"), (tokens, "token")):
            status, told = self.call(graph=graph, tokens=tokens, target=path)
            self.assertEqual((status, told), (2, f"report: the page would be written over the {what} file {path}. Give the page a name of its own\n"))
        link = os.path.join(self.room, "page.html")
        os.symlink(graph, link)
        self.assertEqual(self.call(graph=graph, tokens=tokens, target=link)[0], 2)
        for path, source in ((graph, GRAPH), (tokens, TOKENS)):
            self.assertTrue(filecmp.cmp(path, source, shallow=False))

    def test_many_tokens_are_an_image(self):
        self.put("run", "".join(f"tokens,{number},y,{','.join(str(number * at % 256) for at in range(64))}\n" for number in range(64)))
        _, page = self.page(iterations="64")
        drawn, = self.labelled(page, "Tokens of y")
        image, = drawn.iter(f"{XHTML}image")
        rows = pixels(image.get("href"))
        self.assertEqual([list(row) for row in rows], [[number * at % 256 for at in range(64)] for number in range(64)])

    def test_the_lines_of_an_image(self):
        from drawing.page import lines_of
        self.assertEqual(lines_of([[1, 2, 3, 4, 5, 6, 7]]), [[1, 2], [3, 4], [5, 6], [7]])
        self.assertEqual(lines_of([[1, 2], [], [3]]), [[1, 2], [3]])

    def test_a_greater_value_stands_higher(self):
        self.put("run", "tokens,0,y,-5,0,9\n")
        _, page = self.page(iterations="1")
        drawn, = self.labelled(page, "Tokens of y")
        dots = {dot.findtext(f"{XHTML}title"): float(dot.get("cy")) for dot in drawn.iter(f"{XHTML}circle")}
        self.assertEqual(dots, {"token 0: -5": 220, "token 1: 0": 40 + round(9 * 180 / 14, 1), "token 2: 9": 40})

    def test_arrows_lead_from_who_sets_a_parameter_to_who_uses_it(self):
        _, page = self.page()
        drawn, = self.labelled(page, "The graph g")
        at = {words.text: float(words.get("x")) for words in drawn.iter(f"{XHTML}text") if words.text in "cnm"}
        self.assertTrue(at["c"] < at["n"] < at["m"], at)
        ends = [[float(part.get("d").split(" ")[place].split(",")[0].lstrip("M")) for place in (0, -1)] for part in drawn.iter(f"{XHTML}path") if part.get("class") == "use"]
        self.assertEqual(len(ends), 2)
        self.assertTrue(all(at[one] < start < end < at[other] for (start, end), (one, other) in zip(sorted(ends), ("cn", "nm"))), (ends, at))
        heads = [part.get("d").split(" ")[1] for part in drawn.iter(f"{XHTML}path") if part.get("class") == "head"]
        self.assertEqual(set(heads), {"l-7,-4"})

    def test_captions_stand_above_charts(self):
        text, page = self.page()
        main = list(page.iter("main"))[0]
        charts = [(above, part) for section in main.iter() for above, part in zip(section, list(section)[1:]) if part.get("class") == "figure chart"]
        self.assertEqual(len(charts), 6)
        for above, part in charts:
            self.assertEqual((above.get("class"), above.text), ("caption", part.find(f"{XHTML}svg").findtext(f"{XHTML}title")))
        self.assertIn(".chart .wide { display: none; }", text)

    def test_words_of_files_and_answers_are_no_html(self):
        graph = os.path.join(self.room, "g<b>&amp;.json")
        shutil.copy(GRAPH, graph)
        self.put("run.status", "4")
        self.put("run.line", "run: <i>&amp;\n")
        text, page = self.page(graph=graph)
        self.assertEqual((list(page.iter("b")), list(page.iter("i"))), ([], []))
        self.assertEqual(page.find("head").find("title").text, f"Report: {graph} with {TOKENS}")
        self.assertIn("run: <i>&amp;", "".join(page.itertext()))

    def test_a_token_file_that_is_refused(self):
        self.put("t.csv", "width,4\nx,1,one,3,4,5,6,7,8\n")
        for name in ("run", "plan", "schedule", "memory", "journal"):
            self.put(name, "")
            self.put(f"{name}.status", "3")
            self.put(f"{name}.line", "tokens: number 2 3\n")
        text, page = self.page(tokens=os.path.join(self.room, "t.csv"))
        self.assertIn("which is no token", text)
        self.assertEqual(len(self.labelled(page, "The graph g")), 1)

    def test_a_graph_without_parts(self):
        self.put("g.json", '{"pisdf":3,"top":"g","graphs":[{"name":"g","params":[],"inputs":[],"outputs":[],"actors":[],"fifos":[],"exports":[]}]}')
        for name, text in (("run", ""), ("plan", "height,0\n"), ("schedule", "critical,0\nwork,0\nlength,0\npath\n"), ("memory", "height,0\nordered,0\n"), ("journal", "claim,0,0,g,compile,0\nfinish,0,0\n")):
            self.put(name, text)
        _, page = self.page(graph=os.path.join(self.room, "g.json"))
        rows = {row[0].text: row[1].text for row in page.iter("tr") if len(row) == 2}
        self.assertEqual((rows["Nodes"], rows["Edges"], rows["Cells of the plan"]), ("0", "0", "0"))

    def test_what_isnt_drawn_is_told(self):
        from drawing import page, run
        self.put("run", "".join(f"param,{at},g,n,4\ntokens,{at},y,{','.join(['1'] * 500)}\n" for at in range(4)))
        with mock.patch.multiple(page, MOST_ITEMS=2, MOST_VALUES=3, MOST_ROWS=3):
            text = page.page(run.Run(os.path.join(self.room, "program"), GRAPH, TOKENS, "4", "2"))
        for words in ("2 of 4 items", "3 of 4 values", "3 of 4 lines of the image"):
            self.assertIn(f"Only the first {words} are drawn.", text)
        drawn = xml.fromstring(text.split("\n", 1)[1])
        workers, = self.labelled(drawn, "What the workers did")
        self.assertEqual(len([part for part in workers.iter(f"{XHTML}rect")]), 2)
        rows = {row[0].text: row[1].text for row in drawn.iter("tr") if len(row) == 3}
        self.assertEqual((rows["worker 0"], rows["worker 1"]), ("2", "2"))

    def test_a_long_graph_is_laid_out_in_bands(self):
        from drawing.graphs import graph_picture
        file = read_text(chain(62)).file
        drawn = xml.fromstring(graph_picture(file.top_graph, file))
        self.assertLess(float(drawn.get("width")), 1200)
        boxes = [[float(box.get(name)) for name in ("x", "y", "width", "height")] for box in drawn.iter(f"{XHTML}rect")]
        self.assertEqual(len(boxes), 64)
        for place, (x, y, wide, high) in enumerate(boxes):
            self.assertTrue(0 <= x and x + wide <= float(drawn.get("width")) and 0 <= y and y + high <= float(drawn.get("height")))
            self.assertTrue(all(x + wide < left or left + width < x or y + high < top or top + height < y for left, top, width, height in boxes[:place]))
        self.assertGreater(len({y for _, y, _, _ in boxes}), 5)
        links = [part.get("d") for part in drawn.iter(f"{XHTML}path") if part.get("class") == "edge"]
        self.assertEqual(len(links), 63)
        # A link to the next band goes over five parts: to the right, down, to the left, down, and to the right.
        self.assertEqual({link.count("C") for link in links}, {1, 5})

    def test_links_that_go_on_in_the_next_band_dont_cross(self):
        from drawing.bands import Bands
        rows = [["a", "b"], [("p", 1), ("q", 1)]] + [["c", "d"]]
        bands = Bands(rows, [700, 700, 700], [90, 90, 90], dict.fromkeys(["a", "b", ("p", 1), ("q", 1), "c", "d"], 20), {"a": 10, "b": 60, ("p", 1): 10, ("q", 1): 60, "c": 10, "d": 60},
                      [["a", ("p", 1), "c"], ["b", ("q", 1), "d"]])
        self.assertEqual(bands.bands, [0, 1, 2])
        self.assertFalse(any(self.crosses(*one, *other) for one in self.parts(bands.route(0)) for other in self.parts(bands.route(1))))

    def test_links_of_one_box_go_on_apart(self):
        from drawing.layout import Arrow, Box, drawing
        boxes = [Box(name, [name * 150], "#fff") for name in "abc"]
        drawn = xml.fromstring(drawing(boxes, [Arrow("a", "b"), Arrow("a", "c")], "two links"))
        links = [re.findall(r"(-?[\d.]+),(-?[\d.]+)(?= C|$)", part.get("d")) for part in drawn.iter(f"{XHTML}path") if part.get("class") == "edge"]
        self.assertEqual([len(points) for points in links], [6, 6])
        self.assertTrue(all(points[0][1] == points[1][1] and points[4][1] == points[5][1] for points in links), links)
        self.assertNotEqual(links[0][0][1], links[1][0][1])

    def parts(self, points):
        return list(zip(points, points[1:]))

    def crosses(self, one, other, start, end):
        """Whether a level part and an upright one cross."""
        if (one[0] == other[0]) == (start[0] == end[0]):
            return False
        (x, y), (to_x, to_y) = (one, other) if one[0] == other[0] else (start, end)
        (left, at), (right, _) = sorted((start, end) if one[0] == other[0] else (one, other))
        return left < x < right and min(y, to_y) < at < max(y, to_y)

    def test_a_refused_run(self):
        tokens = os.path.join(self.room, "t.csv")
        self.put("t.csv", "width,4,8,9\nx," + ",".join(["1"] * 24) + "\n")
        self.put("run", RUN.replace("tokens,1,y,4\n", "tokens,1,y,4\ntokens,1,z,4\n"))
        line = "run: g param n value 9 range 1 8"
        for name in ("run", "journal"):
            self.put(f"{name}.status", "4")
            self.put(f"{name}.line", f"{line}\n")
        text, page = self.page(tokens=tokens, iterations="3")
        self.assertIn("2 iterations were done before.", text)
        self.assertEqual(text.count(line), 1)
        told, = [part for part in page.iter("div") if part.get("class") == "told"]
        self.assertIn('"name":"n"', "".join("".join(lines.itertext()) for lines in told.iter("pre")))

    def test_the_journal_is_judged(self):
        text, _ = self.page()
        self.assertIn("judged this journal as legal: 1 board, 8 entries.", text)
        self.put("audit", "")
        self.put("audit.status", "9")
        self.put("audit.line", "journal: line 3\n")
        text, _ = self.page()
        self.assertIn("judge this journal as legal: journal: line 3.", text)

    def test_a_refused_plan(self):
        for name in ("run", "plan", "schedule", "memory", "journal"):
            self.put(name, "")
            self.put(f"{name}.status", "4")
            self.put(f"{name}.line", "run: g deadlock s 2\n")
        text, page = self.page()
        self.assertEqual(text.count("run: g deadlock s 2"), 1)
        self.assertIn("There is none, since the run is refused.", text)
        self.assertEqual(len(self.labelled(page, "The graph g")), 1)

    def test_one_call_that_ends_otherwise(self):
        for name in ("plan", "schedule", "memory", "journal"):
            with self.subTest(name):
                self.put(f"{name}.status", "137")
                whole = os.path.join(self.room, name)
                os.rename(whole, whole + ".whole")
                text, page = self.page()
                self.assertIn("the call was ended from outside", text)
                self.assertEqual(len(list(page.iter("section"))), 8)
                os.rename(whole + ".whole", whole)
                self.put(f"{name}.status", "0")

    def test_a_call_that_takes_too_long(self):
        from drawing import page, run
        self.put("memory.sleep", "60")
        with mock.patch.object(run, "SECONDS", 2):
            text = page.page(run.Run(os.path.join(self.room, "program"), GRAPH, TOKENS, "2", "2"))
        self.assertIn("the call of &#x27;memory&#x27; took over 2 seconds", text)
        self.assertIn("The cells of the plan", text)

    def test_labels_of_links_lie_apart(self):
        from drawing.layout import free_place
        taken = []
        places = [free_place("1 at 4", [(0, 0), (60, 0)], taken) for _ in range(4)]
        for number, (x, y) in enumerate(places):
            self.assertTrue(all(abs(y - at) > 12 or abs(x - other) > 6 * len("1 at 4") for other, at in places[:number]), places)

    def test_a_refused_graph_file(self):
        self.put("run", "")
        for name in ("run", "upgrade"):
            self.put(f"{name}.status", "2")
            self.put(f"{name}.line", "graph: 2 shape /graphs/0/inputs/0/rate\n")
        with open(GRAPH, encoding="utf-8") as file:
            self.put("g.json", file.read().replace('"rate":"1"', '"rate":1', 1).replace('"kernel":"mean"', '"kernel":"meam"'))
        text, page = self.page(graph=os.path.join(self.room, "g.json"))
        self.assertEqual(list(page.iter("section")), [])
        self.assertEqual(text.count("graph: 2 shape /graphs/0/inputs/0/rate"), 1)
        told, = [part for part in page.iter("div") if part.get("class") == "told"]
        words = "".join(told.itertext())
        self.assertIn("line 3, column 36", words)
        self.assertIn("meam", words)

    def test_words_and_files(self):
        self.assertEqual(self.call(target="/nowhere/page.html"), (2, "report: /nowhere/page.html can't be written: No such file or directory\n"))
        self.put("run.status", "1")
        self.assertEqual(self.call(iterations="x")[0], 2)
        done = subprocess.run([sys.executable, "-B", REPORT, "x"], capture_output=True, text=True, timeout=60)
        self.assertEqual((done.returncode, done.stderr), (1, "report: give GRAPH TOKENS ITERATIONS WORKERS FILE.html, and TIMES where iterations are to be fired as one\n"))
        words = ["/nowhere/program", GRAPH, "t.csv", "1", "1", "page.html"]
        done = subprocess.run([sys.executable, "-B", REPORT, *words], capture_output=True, text=True, timeout=60)
        self.assertEqual((done.returncode, done.stderr), (2, "report: the program /nowhere/program can't be called: No such file or directory\n"))


class Nodes(unittest.TestCase):
    @needs_program
    def test_nodes_of_a_level_are_those_of_its_plan(self):
        """What names the nodes of the graphs below is right of the top graph, whose plan the program writes."""
        from drawing import nodes, run
        compared = 0
        for name in sorted(os.listdir(os.path.join(TOP, "examples"))):
            graph, tokens = (os.path.join(TOP, "examples", name, file) for file in ("g.json", "t.csv"))
            drawn = run.Run(BUILT, graph, tokens, "1", "1") if os.path.exists(tokens) else None
            if drawn and not drawn.plan.status:
                found = nodes.rows_of(*drawn.levels[drawn.top])["node"]
                self.assertEqual(found, [row[:3] for row in drawn.plan.of("node")], name)
                compared += 1
        self.assertGreater(compared, 4)

    @needs_program
    def test_nodes_of_graphs_below_are_named(self):
        from drawing import run
        graph, tokens = (os.path.join(TOP, "examples", "running-sum", file) for file in ("g.json", "t.csv"))
        steps = run.Run(BUILT, graph, tokens, "1", "2").steps()
        below = {label for _, _, _, label, path in steps if path != "g"}
        self.assertFalse([label for label in below if "node" in label or label[-1] == " "], below)
        self.assertTrue({"g/a:0 s:0", "g/a:0 compile"} <= below, below)


if __name__ == "__main__":
    unittest.main()
