"""docs/USING.md by itself: its graphs, its calls and what they write, and its mistakes with what is explained of them."""
import json
import os
import re
import shutil
import subprocess
import sys
import tempfile
import unittest

from support import PROGRAM, TOOLS, TOP, changed, needs_program

PLAN = "tests/commands/plan/files"


def page():
    with open(os.path.join(TOP, "docs", "USING.md"), encoding="utf-8") as file:
        return file.read()


def sections(text):
    """The text under each heading of the second level, by the heading."""
    parts = text.split("\n## ")[1:]
    return {part.split("\n", 1)[0]: part for part in parts}


def fenced(text):
    """What stands between the fences, each with its line feed at the end."""
    return re.findall(r"^```\n(.*?)^```$", text, re.M | re.S)


def calls(text):
    """The words of each call that has a line of its own, and the indented lines that stand behind it."""
    for found in re.finditer(r"^    \./pisdf (.*)\n\n((?:    (?!\./pisdf).*\n)*)", text, re.M):
        yield found.group(1).split(), re.sub(r"^    ", "", found.group(2), flags=re.M)


def mistakes(text):
    """Each change, as the part that is new and the part that it stands for, and what is told of it."""
    return re.findall(r"^\*\*`([^`]+)` in place of `([^`]+)`\*\*:[^\n]*\n\n```\n(.*?)^```$", text, re.M | re.S)


def example_of(words):
    """The example whose files a call names, or None."""
    found = [re.match(r"examples/([\w-]+)/g\.json$", word) for word in words]
    return next((match.group(1) for match in found if match), None)


def text_of(path):
    with open(os.path.join(TOP, path), encoding="utf-8") as file:
        return file.read()


def answer(words, graph=None, tokens=None, explained=False):
    """What a call writes, standard output first, in a folder where its example lies with this graph file and these tokens."""
    with tempfile.TemporaryDirectory() as room:
        folder = os.path.dirname(next(word for word in words if word.endswith("g.json")))
        shutil.copytree(os.path.join(TOP, folder), os.path.join(room, folder))
        for name, text in (("g.json", graph), ("t.csv", tokens)):
            if text is not None:
                with open(os.path.join(room, folder, name), "w", encoding="utf-8") as file:
                    file.write(text)
        command = [sys.executable, "-B", os.path.join(TOOLS, "explain.py"), PROGRAM] if explained else [PROGRAM]
        done = subprocess.run(command + words, cwd=room, stdin=subprocess.DEVNULL, capture_output=True, timeout=60)
        return done.stdout.decode() + done.stderr.decode()


class Graphs(unittest.TestCase):
    def test_each_graph_of_the_page_stands_in_the_file_that_is_called(self):
        seen = []
        for heading, text in sections(page()).items():
            files = {os.path.dirname(word) for words, _ in calls(text) for word in words if word.endswith("g.json")}
            for block in fenced(text):
                if re.match(r" ?\{", block) and '"name":"choose"' not in block:
                    with self.subTest(heading):
                        self.assertEqual(len(files), 1)
                        self.assertIn(block.rstrip("\n"), text_of(f"{min(files)}/g.json"))
                        seen += files
        self.assertEqual(seen, ["examples/image-rows", "examples/delay-line", "examples/adaptive-mean", "examples/running-sum", PLAN])

    def test_each_example_has_its_picture(self):
        for heading, text in sections(page()).items():
            for name in {example_of(words) for words, _ in calls(text)} - {None}:
                self.assertIn(f"](pictures/{name}.svg)", text, heading)

    def test_each_example_has_two_mistakes_or_three(self):
        for heading, text in sections(page()).items():
            if any(example_of(words) for words, _ in calls(text)):
                self.assertIn(len(mistakes(text)), (2, 3), heading)


@needs_program
class Calls(unittest.TestCase):
    def test_each_call_writes_what_stands_under_it(self):
        tried = 0
        for words, wanted in calls(page()):
            if wanted:
                with self.subTest(words):
                    self.assertTrue(answer(words).startswith(wanted), answer(words))
                    tried += 1
        self.assertEqual(tried, 4)

    def test_each_row_about_the_plan_and_the_schedule_is_a_line_of_it(self):
        text = sections(page())["What the compiler makes of a graph"]
        for part in text.split("\n### ")[1:3]:
            (words, _), = calls(part)
            lines = answer(words).splitlines()
            rows = [line for line in part.splitlines() if line.startswith("| `")]
            self.assertGreater(len(rows), 4)
            for row in rows:
                for line in re.findall(r"`([^`]+)`", row.split("|")[1]):
                    self.assertIn(line, lines)

    def test_each_row_about_the_journal_is_a_line_of_it_and_it_is_legal(self):
        part = sections(page())["What the compiler makes of a graph"].split("\n### ")[3]
        (words, _), = calls(part)
        journal = answer(words)
        for line in re.findall(r"^\| `([^`]+)`", part, re.M):
            self.assertIn(line, journal.splitlines())
        with tempfile.NamedTemporaryFile("w", suffix=".csv") as file:
            file.write(journal)
            file.flush()
            self.assertEqual(answer(["audit", *words[1:], file.name]), re.search(r"writes `(audit,\S+)`", part).group(1) + "\n")

    def test_the_outputs_that_are_worked_out_by_hand(self):
        text = sections(page())["A parameter that changes a rate"]
        words = "run examples/adaptive-mean/g.json examples/adaptive-mean/t.csv 1 2".split()
        first, second = re.search(r"are `(param,0,g,n,3)` and `(tokens,\S+)` \(worked", text).groups()
        self.assertEqual(answer(words, tokens="width,3\nx,1,2,3,4,5,6,7,8\n"), f"{first}\n{second}\n")
        child = next(block for block in fenced(text) if '"name":"choose"' in block)
        actor = re.search(r'`(\{"name":"c","kind":"setgraph".*?\})`', text).group(1)
        graph = json.loads(text_of("examples/adaptive-mean/g.json"))
        graph["graphs"].append(json.loads(child))
        graph["graphs"][0]["actors"][0] = json.loads(actor)
        graph["graphs"][0]["fifos"][0]["to"] = "c.mode"
        wanted = re.search(r"The rows are then \(worked out by hand\):\n\n((?:    .*\n)+)", text).group(1)
        found = answer(words, json.dumps(graph), "width,1\nx,1,2,3,4,5,6,7,8\n")
        self.assertEqual(found, re.sub(r"^    ", "", wanted, flags=re.M))

    def test_the_output_of_varying_length(self):
        text = sections(page())["A parameter that changes a rate"].split("**An output of varying length.**")[1]
        words = "run examples/adaptive-mean/g.json examples/adaptive-mean/t.csv 1 2".split()
        actors, fifos = fenced(text)[:2]
        graph = json.loads(text_of("examples/adaptive-mean/g.json"))
        top = graph["graphs"][0]
        top["params"].append(json.loads(re.search(r"`(\{\"name\":\"m\".*?\})`", text).group(1)))
        top["inputs"][1]["rate"], top["outputs"] = "12", [{"name": "y", "rate": "12"}, {"name": "count", "rate": "1"}]
        top["actors"][1:], top["fifos"][1:] = json.loads(f"[{actors}]"), json.loads(f"[{fifos}]")
        wanted = re.search(r"the rows are \(worked out by hand\):\n\n((?:    .*\n)+)", text).group(1)
        tokens = "width,5\nx,1,2,3,4,5,6,7,8,9,10,11,12\n"
        self.assertEqual(answer(words, json.dumps(graph), tokens), re.sub(r"^    ", "", wanted, flags=re.M))

    def test_the_rows_above(self):
        text = sections(page())["An image in slices"].split("**The rows above.**")[1]
        actors, fifos = fenced(text)[:2]
        graph = json.loads(text_of("examples/image-rows/g.json"))
        top = graph["graphs"][0]
        top["outputs"][0]["rate"], top["actors"], top["fifos"] = "24", json.loads(f"[{actors}]"), json.loads(f"[{fifos}]")
        wanted = re.search(r"The row is then \(worked out by hand\):\n\n((?:    .*\n)+)", text).group(1)
        found = answer("run examples/image-rows/g.json examples/image-rows/t.csv 1 4".split(), json.dumps(graph))
        self.assertEqual(found, re.sub(r"^    ", "", wanted, flags=re.M))

    def test_tokens_that_nobody_wants(self):
        graph = json.loads(text_of("examples/first/g.json"))
        top = graph["graphs"][0]
        top["inputs"][0]["rate"], top["outputs"] = "3", [{"name": "y", "rate": "3"}, {"name": "none", "rate": "1"}]
        top["actors"][0].update(kernel="dup", outs=[{"name": "o", "rate": "1"}, {"name": "p", "rate": "1"}])
        top["fifos"].append({"from": "a.p", "to": "none"})
        found = answer("run examples/first/g.json examples/first/t.csv 1 1".split(), json.dumps(graph), "x,5,6,7\n")
        self.assertEqual(found, "tokens,0,y,5,6,7\ntokens,0,none,7\n")

    def test_the_delay_line_with_greater_rates(self):
        words = "run examples/delay-line/g.json examples/delay-line/t.csv 2 1".split()
        graph = re.sub(r'"rate":"1"', '"rate":"4"', text_of("examples/delay-line/g.json"))
        self.assertEqual(answer(words, graph), answer(words))

    def test_what_is_explained_of_each_mistake(self):
        for heading, text in sections(page()).items():
            words = next((words for words, _ in calls(text) if example_of(words)), None)
            for new, old, told in mistakes(text):
                with self.subTest(heading, change=new):
                    file = text_of(f"examples/{example_of(words)}/g.json")
                    self.assertEqual(file.count(old), 1)
                    self.assertEqual(answer(words, changed(file, (old, new)), explained=True), told)


if __name__ == "__main__":
    unittest.main()
