"""The tables of the tools against the documents and the rows by which the program is tested."""
import json
import os
import re
import unittest

from support import TOP, read_text

DATA = os.path.join(TOP, "crates", "conformance", "data")
MOST = 60_000


def rows_of(name):
    with open(os.path.join(DATA, name), encoding="utf-8") as file:
        return [json.loads(line) for line in file]


def text_of(text):
    """A text of a row, where parts are repeated or numbered."""
    if isinstance(text, str):
        return text
    if isinstance(text, list):
        return "".join(text_of(part) for part in text)
    if "quoted" in text:
        return text_of(text["quoted"]).replace("'", '"')
    if "each" in text:
        places = range(text.get("from", 0), text.get("from", 0) + text["times"])
        return text.get("between", "").join(text["each"].replace("#", str(place)).replace("@", str(place + 1)) for place in places)
    return text.get("between", "").join([text_of(text["of"])] * text["times"])


def page(name):
    with open(os.path.join(TOP, "docs", name), encoding="utf-8") as file:
        return file.read()


class Limits(unittest.TestCase):
    def test_limits_are_those_of_the_page(self):
        from pisdf_tools import limits
        formats = page("FORMATS.md")
        for name, limit in {**limits.PARTS, "delay": limits.DELAY, "hold": limits.HOLD, "graphs": limits.GRAPHS}.items():
            self.assertRegex(formats, rf"\| `{name}` \| {limit:,} ")
        for words in (f"at most {limits.GRAPH_FILE_BYTES:,} bytes", f"at most {limits.TOKEN_FILE_BYTES:,} bytes", f"nest up to {limits.JSON_NESTING} deep",
                      f"It has 1 to {limits.NAME_BYTES} bytes", f"up to {limits.EXPRESSION_BYTES:,} bytes", f"At most {limits.OPEN_PARENTHESES} parentheses",
                      f"from 0 to {limits.PARAMETER_HIGH}", f"nested more than {limits.NESTED_GRAPHS} deep", f"| a rate | {limits.RATE:,} |",
                      f"1 to {limits.BASE_ENTRY:,} | `rates`", f"| {limits.FIRINGS:,} | `limit firings N`", f"| {limits.LINKS:,} | `limit links N`",
                      f"| {limits.TOKENS:,} | `limit tokens N`", f"ITERATIONS is 0 to {limits.ITERATIONS:,}", f"WORKERS is 1 to {limits.WORKERS},",
                      f"NUMBER is 0 to {limits.SOAK_NUMBER:,}", f"TIMES 1 to {limits.UNFOLD_TIMES}, of 1 or 2 digits"):
            self.assertIn(words, formats)


class Kernels(unittest.TestCase):
    def test_each_kernel_of_the_page_is_known(self):
        from pisdf_tools.kernel_work import FIRES
        from pisdf_tools.kernels import code_meaning, table
        self.assertEqual(set(table()), set(FIRES))
        self.assertEqual(len(table()), page("KERNELS.md").count("\n### "))
        of_configuration = page("KERNELS.md").partition("\n## Kernels of configuration actors\n")[2]
        self.assertEqual([name for name, row in table().items() if row.is_config], re.findall(r"^### (\w+)$", of_configuration, re.M))
        self.assertTrue(all(code_meaning(code) for code in (1, 2, 3, 4)))

    def test_kernels_give_what_the_rows_want(self):
        from pisdf_tools.kernel_work import KernelFault, fire
        codes, tried = {1: "overflow", 2: "division", 3: "shape", 4: "value"}, 0
        for row in rows_of("kernels.jsonl"):
            if any(isinstance(token, dict) for tokens in row.get("ins", []) for token in tokens) or "times" in json.dumps(row["want"]):
                continue
            try:
                found = [list(part) for part in fire(row["kernel"], row.get("args", []), row.get("ins", []), row.get("outs", []), row.get("sets", 0))]
            except KernelFault as fault:
                found = codes[fault.code]
            self.assertEqual(found, row["want"], row)
            tried += 1
        self.assertGreater(tried, 250)


class Readings(unittest.TestCase):
    def test_expressions_are_read_as_the_rows_want(self):
        from pisdf_tools.expressions import ExpressionFault, NoValue, evaluate, names, parse
        for row in rows_of("expressions.jsonl"):
            text, want = text_of(row["text"]), text_of(row["want"])
            known = [text_of(name) for name in row["names"]]
            try:
                unknown = [name.name for name in names(parse(text)) if name.name not in known]
                found = f"unknown {unknown[0]}" if unknown else "read"
            except ExpressionFault as fault:
                found = fault.kind if fault.kind in ("deep", "long") else f"{fault.kind} {fault.at}"
            is_fault = re.match(r"(syntax|large|unknown) \S+$|deep$|long$", want)
            if found == "deep":
                self.assertTrue(is_fault, text[:80])
            else:
                self.assertEqual(found, want if is_fault else "read", text[:80])
        for row in rows_of("values.jsonl"):
            try:
                found = evaluate(parse(text_of(row["text"])), dict(zip(row["names"], row["values"])))
            except NoValue as fault:
                found = fault.why
            self.assertEqual(found, row["want"], row)

    def test_the_first_fault_of_each_file_is_the_one_of_the_rows(self):
        bases, tried = {}, 0
        for name in ("faults.jsonl", "faults_of_versions.jsonl"):
            for row in rows_of(name):
                if "base" in row:
                    bases[row["base"]] = text_of(row["file"])
                text = self.file_of(row, bases)
                # The rows name a part of the table of kernels alone, in which these two are no kernels.
                if text is None or row["want"] in ("6 kernel max", "6 kernel sub"):
                    continue
                faults = read_text(text.replace("'", '"')).faults
                self.assertEqual(faults[0].line if faults else "ok", "ok" if row["want"] == "ok" else "graph: " + text_of(row["want"]))
                tried += 1
        self.assertGreater(tried, 450)

    def file_of(self, row, bases):
        """The file of a row, None where the row has none or a very long one."""
        if "want" not in row or ("of" in row and "changes" not in row) or not ("of" in row or "file" in row):
            return None
        text = bases[row["of"]] if "of" in row else text_of(row["file"])
        for old, new in row.get("changes", []) if "of" in row else []:
            text = text.replace(text_of(old), text_of(new), 1)
        return text if len(text) < MOST else None


class Runs(unittest.TestCase):
    """What the tools work out of a run by rules of their own, against what the program is wanted to write."""

    def calls(self, name, commands):
        """The words of the calls with these commands, their graphs, their tokens, and what is wanted. Very long files are left out."""
        for row in rows_of(name):
            words = row["words"].split(" ") if isinstance(row.get("words"), str) else [""]
            files = {file[0]: file[1] for file in row["files"]}
            if words[0] in commands and len(files) == 2 and len(json.dumps(row)) < MOST and row["want"][2] in (0, 4) and not any(key.startswith("failing") for key in row):
                yield words, read_text(text_of(files[words[1]])), text_of(files[words[2]]).encode(), [text_of(text) for text in row["want"][:2]]

    def test_runs_end_as_the_rows_want(self):
        from pisdf_tools import firing, token_file
        from pisdf_tools.levels import Refused

        class Told(firing.Runner):
            """Keeps the rows of the iterations that are done."""
            rows, done = (), ()

            def top_early(self):
                self.done, self.rows = [*self.done, *self.rows], []
                return super().top_early()

            def configure(self, graph, path, early, ins, state):
                chosen, outs = super().configure(graph, path, early, ins, state)
                self.rows += [f"param,{self.iteration},{path},{name},{value}" for name, value in chosen.items()]
                return chosen, outs

            def graph(self, graph, path, early, ins, state):
                found = super().graph(graph, path, early, ins, state)
                if "/" not in path:
                    self.rows += [",".join(["tokens", str(self.iteration), port.name.text, *map(str, found[0][port.name.text])]) for port in graph.outputs]
                return found

        tried = 0
        for words, found, data, (out, error) in self.calls("runs.jsonl", ("run", "plain")):
            runner, line = Told(found.file, 20), ""
            try:
                runner.run(int(words[3]), token_file.Streams(data, {port.name.text for port in found.file.top_graph.inputs}).tokens)
                runner.done = [*runner.done, *runner.rows]
            except Refused as refused:
                line = f"{refused.line}\n"
            self.assertEqual((sorted(runner.done), line), (sorted(out.splitlines()), error if error.startswith("run: ") else ""), (words, found.source.text))
            tried += 1
        self.assertGreater(tried, 100)

    def test_nodes_are_numbered_as_the_rows_want(self):
        from drawing import nodes
        from pisdf_tools import token_file
        from pisdf_tools.levels import Refused
        tried = 0
        for _, found, data, (out, _) in self.calls("jobs.jsonl", ("plan",)):
            wanted = [line.split(",")[1:4] for line in out.splitlines() if line.startswith("node,")]
            if wanted:
                recorder = nodes.Recorder(found.file, 20)
                try:
                    recorder.run(1, token_file.Streams(data, {port.name.text for port in found.file.top_graph.inputs}).tokens)
                except Refused:
                    # A kernel that faults refuses no plan, and the level was found before.
                    pass
                self.assertEqual(nodes.rows_of(*recorder.found[found.file.top.text])["node"], wanted, found.source.text)
                tried += 1
        self.assertGreater(tried, 10)


if __name__ == "__main__":
    unittest.main()
