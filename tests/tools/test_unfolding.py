"""Iterations fired as one: whether they can be, the graph file in which they are, and what `explain`, `check`, `draw` and `report` tell."""
import json
import os
import subprocess
import sys
import tempfile
import unittest
from math import comb

from support import PROGRAM, TOOLS, TOP, call, changed, needs_program, read_text

EXAMPLES = os.path.join(TOP, "examples")
PASS = """{"pisdf":3,"top":"g","graphs":[{"name":"g","params":[],
 "inputs":[{"name":"x","rate":"2"}],"outputs":[{"name":"y","rate":"2"}],
 "actors":[
  {"name":"a","kind":"kernel","kernel":"pass","args":[],"ins":[{"name":"i","rate":"1"}],"outs":[{"name":"o","rate":"1"}]},
  {"name":"b","kind":"kernel","kernel":"pass","args":[],"ins":[{"name":"i","rate":"1"}],"outs":[{"name":"o","rate":"1"}]}],
 "fifos":[{"from":"x","to":"a.i"},{"from":"a.o","to":"b.i"},{"from":"b.o","to":"y"}],
 "exports":[]}]}
"""
RING = '{"name":"r","kind":"kernel","kernel":"pass","args":[],"ins":[{"name":"i","rate":"1"}],"outs":[{"name":"o","rate":"1"}]}'
INNER = '{"from":"a.o","to":"b.i"}'
# A change of the graph, how many iterations can be fired as one, and what is said.
CASES = [
    ([], 64, "The command takes at most 64."),
    ([(INNER, '{"from":"a.o","to":"b.i","delay":[1],"life":"permanent"}')], 64, "at most 64"),
    ([(INNER, '{"from":"a.o","to":"b.i","delay":[1]}')], 1, "The delay of FIFO 1 (`a.o` to `b.i`) of the top graph begins anew in each iteration. With `\"life\":\"permanent\"` it goes on."),
    ([(INNER, '{"from":"a.o","to":"b.i"},{"from":"r.o","to":"r.i","delay":1,"life":"permanent"}'), ('"actors":[', f'"actors":[{RING},')], 1,
     "The actor `r` is joined to no interface whose rate is over 0."),
    ([(INNER, '{"from":"a.o","to":"b.i"},{"from":"r.o","to":"r.i"}'), ('"actors":[', f'"actors":[{RING},')], 1, "The graph is refused as `deadlock r 1`."),
    ([('{"name":"x","rate":"2"}', '{"name":"x","rate":"1"}')], 1, "The input `x` has the rate 1, and `a` reads 2 x 1 = 2 in an iteration. With the rate 1 of `y`, or with the rate 2 of `x`, nothing is read again or lost."),
    ([('{"name":"y","rate":"2"}', '{"name":"y","rate":"1"}')], 1, "The output `y` has the rate 1, and `b` gives 2 x 1 = 2 in an iteration."),
    ([('"rate":"2"}],"outputs":[{"name":"y","rate":"2"', '"rate":"100"}],"outputs":[{"name":"y","rate":"100"')], 10,
     "11 iterations as one have 2,200 firings, and at most 2,048 are allowed (`limit firings`)."),
    ([(text, text.replace('"rate":"1"', '"rate":"10000"').replace('"rate":"2"', '"rate":"10000"')) for text in PASS.split("\n") if "rate" in text], 26,
     "The interface `x` would have the rate 270,000, and a rate is at most 262,144."),
]


def unfolding(text):
    from pisdf_tools.unfolding import unfolding_of
    found = read_text(text)
    assert not found.faults, found.faults
    return unfolding_of(found.file)


def path_of(example, name="g.json"):
    return os.path.join(EXAMPLES, example, name)


class Rules(unittest.TestCase):
    def test_how_many_can_be_fired_as_one(self):
        for pairs, most, words in CASES:
            with self.subTest(words):
                found = unfolding(changed(PASS, *pairs))
                self.assertEqual(found.most, most)
                self.assertIn(words, found.why)
                self.assertEqual(found.why_not(most), "")
                self.assertEqual(found.why_not(most + 1), found.why)

    def test_a_configuration_actor(self):
        with open(path_of("adaptive-mean"), encoding="utf-8") as file:
            found = unfolding(file.read())
        self.assertEqual((found.most, found.why), (1, "The configuration actor `c` of the top graph has to fire once in each iteration."))

    def test_limits_of_links_and_tokens(self):
        from pisdf_tools.unfolding import limit_trouble, first_level
        ends = [{"name": f"x{at}", "rate": "1"} for at in range(20)]
        fifos = [{"from": f"{one}{at}.o", "to": f"{other}{at}.i", "delay": 60000, "life": "permanent"} for at in range(20) for one, other in (("a", "b"),)]
        actors = [{"name": f"{name}{at}", "kind": "kernel", "kernel": "pass", "args": [], "ins": [{"name": "i", "rate": "1"}], "outs": [{"name": "o", "rate": "1"}]} for at in range(20) for name in "ab"]
        fifos += [{"from": f"x{at}", "to": f"a{at}.i"} for at in range(20)] + [{"from": f"b{at}.o", "to": f"y{at}"} for at in range(20)]
        graph = {"name": "g", "params": [], "inputs": ends, "outputs": [{"name": f"y{at}", "rate": "1"} for at in range(20)], "actors": actors, "fifos": fifos, "exports": []}
        self.assertIn("The graph is refused as `limit tokens 1200060`.", unfolding(json.dumps({"pisdf": 3, "top": "g", "graphs": [graph]})).why)
        for fifo in fifos:
            fifo.pop("delay", None), fifo.pop("life", None)
        text = json.dumps({"pisdf": 3, "top": "g", "graphs": [graph]})
        self.assertEqual(limit_trouble(*first_level(read_text(text).file), 52), "52 iterations as one have 2,080 firings, and at most 2,048 are allowed (`limit firings`).")

    def test_rates_are_multiplied_and_nothing_else(self):
        from pisdf_tools.unfolding import unfolded_text
        text = changed(PASS, ('{"name":"x","rate":"2"}', '{"rate":" n + 1","name":"x"}'), ('"params":[]', '"params":[{"name":"n","kind":"is","expr":"1"}]'))
        wanted = changed(text, ('"rate":" n + 1"', '"rate":"6"'), ('{"name":"y","rate":"2"}', '{"name":"y","rate":"6"}'))
        self.assertEqual(unfolded_text(read_text(text).file, 3), wanted)


    def test_the_groups_of_a_run(self):
        from pisdf_tools.unfolding import group_words
        file = read_text(PASS).file
        cases = [(4, 8, "2 groups of 4 iterations are fired as one."), (4, 6, "1 group of 4 iterations is fired as one, and 2 iterations behind it one by one."),
                 (4, 9, "2 groups of 4 iterations are fired as one, and 1 iteration behind them one by one."), (4, 4, "1 group of 4 iterations is fired as one."),
                 (5, 4, "A group has 5 iterations, and 4 were asked for. So they are made one by one."), (1, 8, "TIMES is 1, so the iterations are made one by one, as by `run`.")]
        for times, iterations, words in cases:
            self.assertEqual(group_words(file, times, iterations), words)


class Drawings(unittest.TestCase):
    def draw(self, *words):
        done = subprocess.run([sys.executable, "-B", os.path.join(TOOLS, "draw.py"), *words], capture_output=True, text=True, timeout=60)
        return done.returncode, done.stdout, done.stderr

    def test_the_file_of_a_group(self):
        status, out, error = self.draw("unfolded", "4", path_of("cascade"))
        self.assertEqual((status, error), (0, ""))
        top = json.loads(out)["graphs"][0]
        self.assertEqual([port["rate"] for port in top["inputs"] + top["outputs"]], ["4", "4"])

    def test_what_cant_be_unfolded(self):
        path = path_of("adaptive-mean")
        self.assertEqual(self.draw("unfolded", "2", path), (2, "", f"draw: 2 iterations of {path} can't be fired as one. The configuration actor `c` of the top graph has to fire once in each iteration.\n"))
        self.assertEqual(self.draw("unfolded", "65", path), (2, "", "draw: TIMES is a number from 1 to 64, and the word is `65`.\n"))
        self.assertEqual(self.draw("unfolded", path)[0], 1)


@needs_program
class Calls(unittest.TestCase):
    def explained(self, *words, files=()):
        done = call(words, files, "explain.py")
        return done.returncode, done.stdout.decode(), done.stderr.decode()

    def test_iterations_fired_as_one_give_what_they_give(self):
        for name, times in (("cascade", 4), ("delay-line", 2), ("rate-conversion", 2), ("running-sum", 2)):
            unfolded = Drawings().draw("unfolded", str(times), path_of(name))[1]
            with open(path_of(name, "t.csv"), encoding="utf-8") as file:
                tokens = file.read()
            one_by_one = call(["plain", path_of(name), path_of(name, "t.csv"), str(times)]).stdout.decode()
            as_one = call(["plain", "g.json", "t.csv", "1"], {"g.json": unfolded, "t.csv": tokens}).stdout.decode()
            self.assertEqual(self.streams(as_one), self.streams(one_by_one), name)

    def streams(self, out):
        found = {}
        for line in out.splitlines():
            _, _, name, *tokens = line.split(",")
            found.setdefault(name, []).extend(tokens)
        return found

    def test_the_groups_of_a_run(self):
        graph, tokens = path_of("cascade"), path_of("cascade", "t.csv")
        cases = [("4", "8", "2 groups of 4 iterations are fired as one."), ("4", "6", "1 group of 4 iterations is fired as one, and 2 iterations behind it one by one."),
                 ("5", "4", "A group has 5 iterations, and 4 were asked for. So they are made one by one."), ("1", "8", "TIMES is 1, so the iterations are made one by one, as by `run`.")]
        for times, iterations, words in cases:
            status, out, error = self.explained("unfold", times, graph, tokens, iterations, "2")
            self.assertEqual(status, 0)
            self.assertEqual(out.count("tokens,"), int(iterations))
            self.assertIn(words, error)
        error = self.explained("unfold", "2", path_of("adaptive-mean"), path_of("adaptive-mean", "t.csv"), "2", "2")[2]
        self.assertIn("The iterations are made one by one, since 2 of them can't be fired as one. The configuration actor `c`", error)

    def test_each_refusal(self):
        """What refuses `run` refuses `unfold` with the same line, and is explained alike."""
        graph, tokens = PASS, "x,1,2,3,4\n"
        gain = changed(PASS, ('"kernel":"pass","args":[]', '"kernel":"gain","args":["9223372036854775807"]'))
        cases = [
            ("graph: 8 wire y", 2, changed(PASS, (',{"from":"b.o","to":"y"}', "")), tokens, "2"),
            ("tokens: number 1 2", 3, graph, "x,one\n", "2"),
            ("tokens: short x has 0 needs 2", 3, graph, tokens, "3"),
            ("run: g kernel a:1 1", 4, gain, tokens, "2"),
            ("read: tokens", 5, graph, None, "2"),
        ]
        for line, status, text, csv, iterations in cases:
            files = {"g.json": text, **({"t.csv": csv} if csv else {})}
            found = self.explained("unfold", "2", "g.json", "t.csv", iterations, "2", files=files)
            like = self.explained("run", "g.json", "t.csv", iterations, "2", files=files)
            with self.subTest(line):
                self.assertEqual(found[2].split("\n")[0], line)
                self.assertEqual((found[0], found[1]), (status, like[1]))
                # The folders of the two calls differ.
                self.assertEqual(found[2].replace("unfold 2", "run").split("is looked up")[0], like[2].split("is looked up")[0])
                self.assertGreater(found[2].count("\n"), 1)

    def test_words_that_are_wrong(self):
        for words, wanted in ((["unfold", "0", "g", "t", "1", "1"], "TIMES is a number from 1 to 64"), (["unfold", "g", "t", "1", "1"], "takes 5 words more, and here are 4"),
                              (["unfold", "100", "g", "t", "1", "1"], "TIMES is a number from 1 to 64"), (["unfold", "2", "g", "t", "1", "17"], "WORKERS is a number from 1 to 16")):
            status, _, error = self.explained(*words)
            self.assertEqual(status, 1)
            self.assertIn(wanted, error)
            self.assertIn("`./pisdf unfold TIMES GRAPH TOKENS ITERATIONS WORKERS`", error)

    def test_check_says_how_many(self):
        lines = [call([path_of(name)], (), "check.py").stdout.decode() for name in ("cascade", "adaptive-mean")]
        self.assertIn("\n  unfold: up to 64 iterations can be fired as one\n", lines[0])
        self.assertIn("\n  unfold: no two iterations can be fired as one. The configuration actor `c`", lines[1])
        text = call(["g.json"], {"g.json": changed(PASS, *CASES[7][0])}, "check.py").stdout.decode()
        self.assertIn("  unfold: up to 10 iterations can be fired as one. 11 iterations as one have 2,200 firings", text)

    def test_a_report_of_a_group(self):
        with tempfile.TemporaryDirectory() as folder:
            page = os.path.join(folder, "page.html")
            words = [path_of("cascade"), path_of("cascade", "t.csv"), "8", "4", page, "4"]
            done = subprocess.run([sys.executable, "-B", os.path.join(TOOLS, "report.py"), PROGRAM, *words], capture_output=True, text=True, timeout=60)
            self.assertEqual((done.returncode, done.stderr), (0, ""))
            with open(page, encoding="utf-8") as file:
                text = file.read()
        self.assertIn("This is the plan of the iterations 0 to 3, fired as one, of the top graph <code>g</code>.", text)
        self.assertIn("This one has the length 63.", text)
        self.assertIn("2 groups of 4 iterations are fired as one.", text)
        self.assertIn("d:3", text)

    def test_the_outputs_of_the_example(self):
        """What examples/README.md says that the cascade writes: the fourth sums of ones, which are 1, 5, 15, 35 and so on."""
        wanted = "".join(f"tokens,{number},y,{comb(number + 4, 4)}\n" for number in range(8))
        with open(os.path.join(EXAMPLES, "README.md"), encoding="utf-8") as file:
            self.assertIn("".join(f"    {line}\n" for line in wanted.splitlines()), file.read())
        graph, tokens = path_of("cascade"), path_of("cascade", "t.csv")
        for words in (["plain", graph, tokens, "8"], ["run", graph, tokens, "8", "4"], ["unfold", "4", graph, tokens, "8", "4"], ["unfold", "3", graph, tokens, "8", "2"]):
            done = call(words)
            self.assertEqual((done.returncode, done.stdout.decode(), done.stderr), (0, wanted, b""))

    def test_the_numbers_of_the_example(self):
        """What examples/README.md says of the two pictures of the cascade."""
        tokens = path_of("cascade", "t.csv")
        unfolded = Drawings().draw("unfolded", "4", path_of("cascade"))[1]
        for text, length in ((None, "24"), (unfolded, "63")):
            path = path_of("cascade") if text is None else "g.json"
            rows = [line.split(",") for line in call(["schedule", path, tokens, "4"], {"g.json": text or ""}).stdout.decode().splitlines()]
            self.assertEqual(dict(row for row in rows if len(row) == 2)["length"], length)
        starts = [row for row in rows if row[0] == "start" and row[3:] == ["29", "34"]]
        self.assertEqual(len(starts), 4)


if __name__ == "__main__":
    unittest.main()
