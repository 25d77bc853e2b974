"""`check`: all faults of a file, and what is told of a file without one."""
import os
import subprocess
import sys
import tempfile
import time
import unittest

from support import TOOLS, TOP, WHOLE, call, call_over, changed, needs_program, read_text, stored_program

SPOILED = changed(WHOLE, ('"kernel":"gain"', '"kernel":"gian"'), ('"rate":"4"', '"rate":4'), ('"to":"a.i"', '"to":"a.k"'))


def example(name):
    with open(os.path.join(TOP, "examples", name, "g.json"), encoding="utf-8") as file:
        return file.read()


class Summaries(unittest.TestCase):
    def explorer(self, text):
        from pisdf_tools.exploring import Explorer
        return Explorer(read_text(text).file)

    def lines(self, text):
        from pisdf_tools.exploring import Explorer
        from pisdf_tools.summary import Summary
        found = read_text(text)
        return list(Summary(found, Explorer(found.file)).lines())

    def test_interfaces_parameters_and_hierarchy(self):
        lines = self.lines(WHOLE)
        for line in ("graph g: depth 0, the top graph, fired once in each iteration", "  input x: rate 4", "  output y: rate 2*k = 4",
                     "  parameter n: set by a configuration actor, 1 to 8", "  parameter m: = n+1, 2 to 9", "  parameter k: = 2, 2",
                     "  3 kernel actors, 1 configuration actor and 1 hierarchical actor, 7 FIFOs, keeps 1 token from firing to firing",
                     "  repetition: a 4, s 4, d 4, b 2", "graph h: depth 1, fired in `g` by its actor `b`", "  parameter p: from an argument, 2", "  input u: rate p = 2", "  repetition: e 1 where p = 2"):
            self.assertIn(line, lines)

    def test_each_value_of_a_parameter(self):
        lines = self.lines(example("adaptive-mean"))
        self.assertIn("  repetition: m 1 where n = 8", lines)
        self.assertTrue(any("x of rate 8 is read 3 x 3 = 9, from the front again" in line and line.endswith("where n = 3") for line in lines), lines)

    def test_values_that_are_picked(self):
        picked = changed(example("adaptive-mean"), ('"kernel":"read_param","args":[]', '"kernel":"pick","args":["8","2","2","9"]'))
        lines = [line for line in self.lines(picked) if line.startswith("  repetition")]
        self.assertEqual([line.rpartition(" where ")[2] for line in lines], ["n = 2", "n = 8"])
        none = changed(picked, ('["8","2","2","9"]', '["9"]'))
        self.assertEqual(len([line for line in self.lines(none) if line.startswith("  repetition")]), 8)

    def test_a_graph_of_configuration_actors_alone(self):
        text = ('{"pisdf":3,"top":"g","graphs":[{"name":"g","params":[{"name":"n","kind":"set"}],"inputs":[{"name":"x","rate":"1"}],"outputs":[],"actors":['
                '{"name":"c","kind":"config","kernel":"read_param","args":[],"ins":[{"name":"i"}],"outs":[],"sets":["n"]}],"fifos":[{"from":"x","to":"c.i"}],"exports":[]}]}')
        self.assertIn("  repetition: no actors but configuration actors", self.lines(text))

    def test_ranges_go_down_the_hierarchy(self):
        deeper = changed(WHOLE, ('{"name":"e","kind":"kernel","kernel":"pass","args":[],"ins":[{"name":"i","rate":"p"}],"outs":[{"name":"o","rate":"p"}]}',
                                 '{"name":"e","kind":"graph","graph":"l","args":["p+1"]}'),
                         ('"exports":[]}]}', '"exports":[]},\n {"name":"l","params":[{"name":"q","kind":"in"}],"inputs":[{"name":"i","rate":"q-1"}],"outputs":[{"name":"o","rate":"q-1"}],'
                          '"actors":[{"name":"f","kind":"kernel","kernel":"pass","args":[],"ins":[{"name":"i","rate":"1"}],"outs":[{"name":"o","rate":"1"}]}],'
                          '"fifos":[{"from":"i","to":"f.i"},{"from":"f.o","to":"o"}],"exports":[]}]}'))
        lines = self.lines(deeper)
        self.assertIn("  parameter q: from an argument, 3", lines)
        self.assertIn("  input i: rate q-1 = 2", lines)

    def test_parameters_that_no_rate_names(self):
        level = changed(WHOLE, ('"low":1,"high":8', '"low":0,"high":255'))
        self.assertIn("  repetition: a 4, s 4, d 4, b 2", self.lines(level))
        wrong = changed(level, ('{"name":"x","rate":"4"}', '{"name":"x","rate":"8"}'), ('"args":["m"],"ins":[{"name":"i","rate":"1"}]', '"args":["m"],"ins":[{"name":"i","rate":"2"}]'))
        self.assertEqual([refused.line for refused, _ in self.refusals(wrong)], ["run: g kernel a:0 3"])
        bounds = changed(level, ('"kernel":"gain","args":["m"]', '"kernel":"clamp","args":["m","100"]'))
        self.assertEqual(self.refusals(bounds), [])

    def test_what_interfaces_lose_or_give_again(self):
        lines = self.lines(example("adaptive-mean"))
        self.assertIn("  repetition: m 2 (x of rate 8 is read 2 x 5 = 10, from the front again; y of rate 1 gets 2 x 1 = 2 and keeps the last) where n = 5", lines)
        lines = self.lines(changed(WHOLE, ('"rate":"2*k"', '"rate":"5"')))
        self.assertIn("  repetition: a 6, s 6, d 6, b 3 (x of rate 4 is read 6 x 1 = 6, from the front again; y of rate 5 gets 3 x 2 = 6 and keeps the last)", lines)

    def test_parameters_with_too_many_values(self):
        wide = changed(example("adaptive-mean"), ('"high":8', '"high":600'))
        lines = self.lines(wide)
        self.assertIn("  of n (1 to 600) 64 values were tried; the others weren't", lines)
        self.assertTrue(any("cases aren't shown" in line for line in lines), lines)
        tried = [outcome.values["n"] for outcome in self.explorer(wide).outcomes["g"]]
        self.assertEqual((tried[0], tried[-1], len(set(tried))), (1, 600, 64))
        self.assertEqual(self.refusals(wide), [])
        fed = changed(wide, ('{"name":"width","rate":"1"}', '{"name":"width","rate":"2"}'))
        self.assertEqual([refused.line for refused, _ in self.refusals(fed)], ["run: g kernel c:0 3"])

    def test_a_long_file_is_read_soon(self):
        graphs = [changed(example("delay-line"), ('"name":"g"', f'"name":"g{number}"')).split('"graphs":[')[1].rsplit("]}", 1)[0] for number in range(600)]
        begun = time.process_time()
        found = read_text('{"pisdf":3,"top":"g0","graphs":[' + ",\n".join(graphs) + "]}\n")
        self.assertEqual([fault.line for fault in found.faults], ["graph: 13 count graphs"])
        self.assertLess(time.process_time() - begun, 20)

    def test_a_parameter_with_very_many_values(self):
        begun = time.process_time()
        lines = self.lines(changed(example("adaptive-mean"), ('"low":1,"high":8', '"low":0,"high":2147483647')))
        self.assertLess(time.process_time() - begun, 10)
        self.assertTrue(any("64 values were tried" in line for line in lines), lines)

    def test_a_parameter_without_a_value(self):
        text = changed(WHOLE, ('"expr":"n+1"', '"expr":"(0-7)/2"'))
        self.assertIn("  parameter m: = (0-7)/2, no value in its range", self.lines(text))

    def test_parameters_that_decide_nothing_arent_told(self):
        told = self.refusals(changed(WHOLE, ('{"name":"x","rate":"4"}', '{"name":"x","rate":"0"}')))[0][1]
        self.assertIn("The parameter is `k` = 2.", told)

    def test_ranges_are_those_of_the_values(self):
        ranged = changed(WHOLE, ('"expr":"n+1"', '"expr":"(12+n-1)/n"'))
        self.assertIn("  parameter m: = (12+n-1)/n, 2 to 12", self.lines(ranged))

    def test_a_graph_that_no_actor_names(self):
        text = changed(WHOLE, (' {"name":"h","params"', ' {"name":"z","params":[],"inputs":[],"outputs":[],"actors":[],"fifos":[],"exports":[]},\n {"name":"h","params"'))
        self.assertIn("No actor names the graph `z`, so it is never fired.", self.lines(text))

    def test_runs_that_are_refused_whatever_the_tokens(self):
        rows = [(example("ring-without-delay"), "run: g deadlock s 2 d 2", "A delay of 1 token on FIFO 3 is enough"),
                (changed(WHOLE, ('"kernel":"pass"', '"kernel":"sum"')), "run: g/b:0 kernel e:0 3", "the output's rate must be 1, and it is 2"),
                (changed(WHOLE, ('{"name":"w","rate":"1"}', '{"name":"w","rate":"2"}')), "run: g kernel c:0 3", "one token for each parameter that is set"),
                (changed(WHOLE, ('"rate":"4"', '"rate":"262145"')), "run: g rate x value 262145", "262,144 at most"),
                (changed(WHOLE, ('"kernel":"pass","args":[]', '"kernel":"clamp","args":["3","1"]')), "run: g/b:0 kernel e:0 4", "the lower bound 3")]
        for text, line, words in rows:
            refused, told = self.refusals(text)[0]
            self.assertEqual(refused.line, line)
            self.assertIn(words, told)
        for text in (example("running-sum"), WHOLE, changed(WHOLE, ('"kernel":"gain","args":["m"],"ins":[{"name":"i","rate":"1"}]', '"kernel":"gain","args":["m"],"ins":[{"name":"i","rate":"n"}]'))):
            self.assertEqual(self.refusals(text), [])

    def test_a_graph_that_some_values_refuse_may_be_run(self):
        text = changed(example("adaptive-mean"), ('"low":1', '"low":0'))
        self.assertEqual(self.refusals(text), [])
        self.assertIn("  each firing is refused: rates and kernel m:0 3 where n = 0", self.lines(text))

    def test_each_refusal_is_told(self):
        text = changed(WHOLE, ('"kernel":"pass"', '"kernel":"sum"'), ('"kernel":"gain","args":["m"]', '"kernel":"median","args":[]'), ('"outs":[{"name":"o","rate":"1"}]', '"outs":[{"name":"o","rate":"2"}]'))
        self.assertEqual([refused.line for refused, _ in self.refusals(text)], ["run: g kernel a:0 3", "run: g/b:0 kernel e:0 3"])

    def refusals(self, text):
        from pisdf_tools.exploring import Explorer
        from pisdf_tools.summary import certain_refusals
        found = read_text(text)
        return certain_refusals(found, Explorer(found.file))


class BrokenTexts(unittest.TestCase):
    """What is told behind a slip of the text, where it is plain what was meant."""

    def faults(self, *pairs):
        return [(fault.line, fault.start) for fault in read_text(changed(SPOILED, *pairs)).faults]

    def test_further_faults_have_their_places(self):
        for old, new, at in (('"graphs":[', 'graphs":[', "graphs"), ('"graphs":[', "'graphs':[", "'graphs'"), ('"name":"c",', "'name':'c',", "'name'"),
                             ('"graphs":[', '"graphs":[ // all\n # of them\n /* two\n lines */', "// all"), ('"graphs":[', "graphs:[", "graphs"), ('"top":"g",', '"top":g,', "g,"), ('"sets":["n"]},', '"sets":["n"]}', '{"name":"a","kind"'),
                             ('{"from":"b.v","to":"y"}],', '{"from":"b.v","to":"y"},],', ",],")):
            text = changed(SPOILED, (old, new))
            found = self.faults((old, new))
            with self.subTest(new):
                self.assertEqual([line for line, _ in found], ["graph: 1 json", "graph: 2 shape /graphs/0/inputs/1/rate", "graph: 5 unknown a.k", "graph: 6 kernel gian"])
                self.assertEqual(text[found[0][1]:].startswith(at), True)
                self.assertEqual([text[start:start + 4] for _, start in found[1:]], ["4}],", '"a.k', '"gia'])

    def test_two_slips(self):
        self.assertEqual([line for line, _ in self.faults(('"graphs":[', 'graphs":['), ('"sets":["n"]},', '"sets":["n"]}'))][:3],
                         ["graph: 1 json", "graph: 1 json", "graph: 2 shape /graphs/0/inputs/1/rate"])

    def test_a_text_that_breaks_off(self):
        self.assertEqual([line for line, _ in self.faults(('"sets":["n"]},', '"sets":["n"] @ one\n},'))], ["graph: 1 json"])
        self.assertEqual([line for line, _ in self.faults(('"top":"g",', '"top":None,'))], ["graph: 1 json"])


class Answers(unittest.TestCase):
    """What `check` makes of an answer, over a program that gives it."""

    def check(self, text, **answer):
        done = call_over(answer, ["g.json"], {"g.json": text}, "check.py")
        return done.returncode, done.stdout.decode(), done.stderr.decode()

    def test_status(self):
        status, out, error = self.check(WHOLE)
        self.assertEqual((status, out.split("\n")[0], error), (0, "g.json: the file has no fault. It has version 3.", ""))
        status, out, error = self.check(example("ring-without-delay"))
        self.assertEqual((status, error), (4, ""))
        self.assertTrue(out.startswith("g.json can be read, but every run of it is refused, whatever its tokens are:\n\nrun: g deadlock s 2 d 2\n"), out)
        self.assertEqual(self.check("{", errors="graph: 1 json\n", end="exit 2")[0], 2)
        self.assertEqual(self.check(WHOLE, errors="memory\n", end="exit 7"), (7, "memory\n", ""))
        self.assertEqual(self.check(WHOLE, end="kill -9 $$"), (137, "The program ended with 137 and without a line.\n", ""))

    def test_a_program_that_is_not_there(self):
        done = call(["g.json"], {"g.json": WHOLE}, "check.py", "/nowhere/pisdf")
        self.assertEqual((done.returncode, done.stderr), (5, b"check: /nowhere/pisdf: No such file or directory.\n"))

    def test_a_fault_of_the_tool_itself(self):
        broken = "import sys; sys.path.insert(0, sys.argv.pop(1)); import check, pisdf_tools.reading as reading; reading.read = lambda source: 1 // 0; sys.exit(check.main(sys.argv[1:]))"
        with tempfile.TemporaryDirectory() as room:
            program = stored_program(room, errors="graph: 1 json\n", end="exit 2")
            done = subprocess.run([sys.executable, "-c", broken, TOOLS, program, __file__], capture_output=True, text=True, timeout=60)
        self.assertEqual((done.returncode, done.stdout), (2, "graph: 1 json\n"))
        self.assertEqual(done.stderr, "More can't be told of this file (ZeroDivisionError). docs/FORMATS.md has all faults.\n")

    def test_very_many_faults(self):
        for count in (30, 22, 21):
            text = changed(WHOLE, ('"inputs":[', '"inputs":[' + "".join(f'{{"name":"x{place}","rate":1}},' for place in range(count))))
            status, out, _ = self.check(text, errors="graph: 2 shape /graphs/0/inputs/0/rate\n", end="exit 2")
            faults = len(read_text(text).faults)
            self.assertEqual(status, 2)
            self.assertIn(f"{faults - 1} more faults can be seen.", out)
            self.assertEqual(out.count("\ngraph: "), 20)
            left = faults - 21
            self.assertEqual("shown." in out, left > 0)
            self.assertTrue(out.endswith(f"\n\n{left} more {'isn' if left == 1 else 'aren'}'t shown.\n") or not left, out[-200:])


@needs_program
class Calls(unittest.TestCase):
    def test_all_faults_of_a_file(self):
        done = call(["g.json"], {"g.json": SPOILED}, "check.py")
        text = done.stdout.decode()
        self.assertEqual(done.returncode, 2)
        self.assertTrue(text.startswith("graph: 2 shape /graphs/0/inputs/1/rate\n"))
        self.assertIn("2 more faults can be seen", text)
        for line in ("\ngraph: 5 unknown a.k\n", "\ngraph: 6 kernel gian\n"):
            self.assertIn(line, text)

    def test_status(self):
        for text, status in ((WHOLE, 0), (example("ring-without-delay"), 4), ("{", 2)):
            self.assertEqual(call(["g.json"], {"g.json": text}, "check.py").returncode, status)
        done = call(["h.json"], {"g.json": WHOLE}, "check.py")
        self.assertEqual(done.returncode, 5)
        self.assertIn("Do you mean `g.json`?", done.stdout.decode())

    def test_each_example_is_told_of(self):
        for name in sorted(os.listdir(os.path.join(TOP, "examples"))):
            if os.path.isdir(os.path.join(TOP, "examples", name)):
                done = call(["g.json"], {"g.json": example(name)}, "check.py")
                self.assertIn("can be read, but every run" if name == "ring-without-delay" else "the file has no fault", done.stdout.decode())
                self.assertEqual(done.stderr, b"")


if __name__ == "__main__":
    unittest.main()
