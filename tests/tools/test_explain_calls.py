"""`explain` as it is called: output and status byte for byte, words that are none, files that can't be read, lost tokens."""
import os
import subprocess
import sys
import tempfile
import unittest
from unittest import mock

from support import PROGRAM, TOOLS, TOP, WHOLE, call, call_over, changed, needs_program, stored_program

PASS = ('{"pisdf":1,"top":"g","graphs":[{"name":"g","params":[],"inputs":[{"name":"x","rate":"8"}],"outputs":[{"name":"y","rate":"7"}],"actors":'
        '[{"name":"a","kind":"kernel","kernel":"pass","args":[],"ins":[{"name":"i","rate":"7"}],"outs":[{"name":"o","rate":"7"}]}],'
        '"fifos":[{"from":"x","to":"a.i"},{"from":"a.o","to":"y"}]}]}')


class Words(unittest.TestCase):
    def test_what_is_wrong_with_words(self):
        from pisdf_tools.words import explain_usage
        rows = [([], ["No command is named", "`run`", "`upgrade`"]), (["rnu", "g", "t"], ["`rnu` is no command", "`./pisdf run GRAPH TOKENS ITERATIONS WORKERS`"]),
                (["g.json", "t.csv"], ["The first word is the command"]), (["run", "g", "t", "1"], ["takes 4 words more, and here are 3", "WORKERS is missing"]), (["run", "g"], ["TOKENS, ITERATIONS and WORKERS are missing"]),
                (["check", "g.json"], ["`check` is a word of the launcher", "`./pisdf check GRAPH`"]), (["plain", "g", "t", "1", "1"], ["takes 3 words more, and here are 4"]), (["run", "g", "t", "65537", "1"], ["from 0 to 65536", "`65537`"]),
                (["run", "g", "t", "1", "17"], ["from 1 to 16", "`17`"]), (["run", "g", "t", "one", "1"], ["in decimal digits", "`one`"]),
                (["unfold", "65", "g", "t", "1", "1"], ["TIMES is a number from 1 to 64"]), (["soak", "65536", "1"], ["NUMBER is a number from 0 to 65535"]),
                (["audit", "g", "t", "1", "1"], ["takes 5 words more, and here are 4", "JOURNAL is missing"])]
        for words, wanted in rows:
            with self.subTest(words):
                for word in wanted:
                    self.assertIn(word, explain_usage(words))

    def test_numbers_at_their_bounds(self):
        from pisdf_tools.words import NUMBERS, number_trouble
        for name, (least, most, digits) in NUMBERS.items():
            for number, is_one in ((least - 1, False), (least, True), (most, True), (most + 1, False)):
                self.assertEqual(number_trouble(name, str(number)) == "", is_one, (name, number))
            self.assertEqual(number_trouble(name, str(most).zfill(digits)), "")
            self.assertNotEqual(number_trouble(name, str(most).zfill(digits + 1)), "")

    def test_the_commands_are_those_of_the_page(self):
        from pisdf_tools.words import COMMANDS
        with open(os.path.join(TOP, "docs", "FORMATS.md"), encoding="utf-8") as file:
            rows = [line.split("`")[1].split(" ") for line in file if line.startswith("| `") and line.split("`")[1].split(" ")[0] in COMMANDS]
        for command, *words in rows:
            self.assertEqual(COMMANDS[command], tuple(words))
        self.assertGreaterEqual(len(rows), 8)


class Unread(unittest.TestCase):
    def test_why_a_file_is_not_read(self):
        from pisdf_tools.refusals import why_unread
        self.assertIn("Do you mean", why_unread(os.path.join(TOP, "examples", "first", "g.jsn")))
        self.assertIn("This is a folder", why_unread(os.path.join(TOP, "examples", "first")))
        self.assertIn("There is no folder", why_unread("no-such-folder/g.json"))

    def test_a_file_that_this_user_may_not_read(self):
        from pisdf_tools.refusals import why_unread
        with mock.patch("os.access", return_value=False):
            self.assertEqual(why_unread(os.path.join(TOP, "examples", "first", "g.json")), "The file is there, and this user may not read it.")

    def test_a_link_that_leads_nowhere(self):
        from pisdf_tools.refusals import why_unread
        with tempfile.TemporaryDirectory() as room:
            path = os.path.join(room, "g.json")
            os.symlink("nowhere.json", path)
            self.assertEqual(why_unread(path), "It is a link to `nowhere.json`, which isn't there.")


class Told(unittest.TestCase):
    """What is told of an answer that is known. The program is replaced by one that gives this answer; where it is built, it has to give it."""

    def told(self, words, files, errors="", status=0):
        done = call_over({"errors": errors, "end": f"exit {status}"}, words, files, "explain.py")
        self.assertEqual(done.returncode, status)
        text = done.stderr.decode()
        self.assertTrue(text.startswith(errors), text)
        if PROGRAM:
            found = call(words, files)
            self.assertEqual((found.returncode, found.stderr.decode()), (status, errors))
        return text

    def test_tokens_that_an_interface_loses_or_repeats(self):
        text = self.told(["run", "g.json", "t.csv", "1", "1"], {"g.json": PASS, "t.csv": "x,1,2,3,4,5,6,7,8,9\n"}, "left: x 1\n")
        for word in ("The input `x` has 8 tokens", "fires twice and reads 7 each time, 14 in all, so 6 tokens are read again", "keeps the last 7 tokens",
                     "the first 7 are lost", "`x` has 1 token left, and an iteration takes 8"):
            self.assertIn(word, text)
        once = changed(PASS, ('"rate":"7"}],"actors"', '"rate":"5"}],"actors"'), ('"8"', '"7"'))
        text = self.told(["run", "g.json", "t.csv", "1", "1"], {"g.json": once, "t.csv": "x,1,2,3,4,5,6,7\n"})
        self.assertIn("The output `y` keeps the last 5 tokens. `a` fires once and gives 7 each time, 7 in all, so the first 2 are lost.", text)
        self.assertEqual(self.told(["run", "g.json", "t.csv", "1", "1"], {"g.json": changed(PASS, ('"8"', '"7"')), "t.csv": "x,1,2,3,4,5,6,7\n"}),
                         "The call is done. No interface lost tokens or gave them again.\n")

    def test_delays_whose_life_is_not_stated(self):
        graph = changed(WHOLE, ('"delay":[0],"life":"permanent"', '"delay":[0]'))
        text = self.told(["run", "g.json", "t.csv", "2", "1"], {"g.json": graph, "t.csv": "w,2,3\nx,1,2,3,4,5,6,7,8\n"})
        self.assertIn("The delay of FIFO 4 (`d.p` to `s.j`) begins anew in each iteration, since no `life` is stated.", text)
        text = self.told(["run", "g.json", "t.csv", "1", "1"], {"g.json": graph, "t.csv": "w,2\nx,1,2,3,4\n"})
        self.assertEqual(text, "The call is done. No interface lost tokens or gave them again.\n")

    def test_delays_of_a_child_whose_life_is_not_stated(self):
        with open(os.path.join(TOP, "examples", "running-sum", "g.json"), encoding="utf-8") as file:
            graph = changed(file.read(), (',"life":"permanent"', ""))
        text = self.told(["run", "g.json", "t.csv", "1", "1"], {"g.json": graph, "t.csv": "x,1,2,3,4\n"})
        self.assertEqual(text, "The delay of FIFO 3 (`d.p` to `s.j`) in the graph `kept` begins anew at each firing of this graph, since no `life` is stated. "
                               "With `\"life\":\"permanent\"` the tokens stay for the next firing.\n")

    def test_how_often_tokens_are_lost_or_read_again(self):
        with open(os.path.join(TOP, "examples", "adaptive-mean", "g.json"), encoding="utf-8") as file:
            graph = file.read()
        tokens = f"width,8,3,5\nx{',1' * 24}\n"
        text = self.told(["run", "g.json", "t.csv", "3", "1"], {"g.json": graph, "t.csv": tokens})
        self.assertIn("in the firing `g` of iteration 1: The input `x` has 8 tokens", text)
        self.assertIn("This is so in 2 of 3 iterations, with 1 to 2 tokens.", text)

    def test_the_rates_that_fit_are_told(self):
        graph = changed(PASS, ('"rate":"7"}],"actors"', '"rate":"14"}],"actors"'))
        text = self.told(["run", "g.json", "t.csv", "1", "1"], {"g.json": graph, "t.csv": "x,1,2,3,4,5,6,7,8\n"})
        self.assertIn("With the rate 14 of `x` nothing is read again or lost.", text)

    def test_further_refusals_are_counted(self):
        graph = changed(WHOLE, ('"kernel":"pass"', '"kernel":"sum"'), ('"kernel":"gain","args":["m"]', '"kernel":"median","args":[]'), ('"outs":[{"name":"o","rate":"1"}]', '"outs":[{"name":"o","rate":"2"}]'))
        text = self.told(["run", "g.json", "t.csv", "1", "1"], {"g.json": graph, "t.csv": "w,2\nx,1,2,3,4\n"}, "run: g kernel a:0 3\n", 4)
        self.assertIn("1 more refusal can be seen that no tokens avoid: `./pisdf check g.json` lists it.", text)

    def test_files_in_the_wrong_order(self):
        text = self.told(["run", "t.csv", "g.json", "1", "1"], {"g.json": WHOLE, "t.csv": "w,2\nx,1,2,3,4\n"}, "graph: 1 json\n", 2)
        self.assertIn("the two words may be exchanged", text)

    def test_too_few_tokens(self):
        text = self.told(["run", "g.json", "t.csv", "3", "1"], {"g.json": PASS, "t.csv": "x,1,2,3,4,5,6,7,8,9\n"}, "tokens: short x has 1 needs 8\n", 3)
        for word in ("The file has 9 tokens of `x`.", "Each iteration takes 8, so 1 iteration had enough.", "Iteration 1, counted from 0, begins with 1, and lacks 7 tokens.", "or call for 1 iteration."):
            self.assertIn(word, text)

    def test_a_journal_that_can_be_read_only_once(self):
        with tempfile.TemporaryDirectory() as room:
            pipe = os.path.join(room, "j.csv")
            os.mkfifo(pipe)
            text = call_over({"errors": "journal: line 2\n", "end": "exit 9"}, ["audit", "g.json", "t.csv", "1", "1", pipe], {"g.json": PASS}, "explain.py").stderr.decode()
        self.assertIn("It can be read only once, and the tools read it again", text)


class Ends(unittest.TestCase):
    """How a call ends is how `explain` ends."""

    def test_output_and_status_are_handed_on(self):
        for end, status in (("exit 0", 0), ("exit 5", 5), ("exit 42", 42), ("kill -9 $$", 137)):
            done = call_over({"output": "tokens,0,y,5\n", "errors": "a line\n", "end": end}, ["soak", "1", "1"], {}, "explain.py")
            self.assertEqual((done.returncode, done.stdout), (status, b"tokens,0,y,5\n"))
            self.assertTrue(done.stderr.startswith(b"a line\n"))
            self.assertNotIn(b"Traceback", done.stderr)

    def test_an_error_output_that_is_closed_or_full(self):
        with tempfile.TemporaryDirectory() as room:
            for errors, end, status in (("", "exit 0", 0), ("usage: run\n", "exit 1", 6)):
                command = [sys.executable, os.path.join(TOOLS, "explain.py"), stored_program(room, errors=errors, end=end), "nonsense"]
                self.assertEqual(subprocess.run(command, stdout=subprocess.DEVNULL, preexec_fn=lambda: os.close(2)).returncode, status)
            with open("/dev/full", "wb") as full:
                self.assertEqual(subprocess.run(command, stdout=subprocess.DEVNULL, stderr=full).returncode, 6)

    def test_a_program_that_is_not_there(self):
        done = subprocess.run([sys.executable, os.path.join(TOOLS, "explain.py"), "/nowhere/pisdf", "run"], capture_output=True)
        self.assertEqual((done.returncode, b"can't be called" in done.stderr), (127, True))


@needs_program
class Calls(unittest.TestCase):
    def test_output_and_status_are_those_of_the_program(self):
        for words, files in ((["run", "g.json", "t.csv", "2", "2"], {"g.json": WHOLE, "t.csv": "w,2,3\nx,1,2,3,4,5,6,7,8\n"}),
                             (["run", "g.json", "t.csv", "2", "2"], {"g.json": WHOLE, "t.csv": "w,2,9\nx,1,2,3,4,5,6,7,8\n"}),
                             (["plan", "g.json", "t.csv", "2"], {"g.json": WHOLE, "t.csv": "w,2\nx,1,2,3,4\n"}), (["nonsense"], {}), ([], {}),
                             (["upgrade", "g.json"], {"g.json": "{"}), (["run", "g.json", "t.csv", "1", "1"], {"g.json": WHOLE}),
                             (["audit", "g.json", "t.csv", "1", "1", "j.csv"], {"g.json": PASS, "t.csv": "x,1,2,3,4,5,6,7,8\n", "j.csv": "finish,0,0\n"})):
            with self.subTest(words):
                plain, told = call(words, files), call(words, files, "explain.py")
                self.assertEqual((told.returncode, told.stdout), (plain.returncode, plain.stdout))
                self.assertTrue(told.stderr.startswith(plain.stderr))
                self.assertNotIn(b"Traceback", told.stderr)
                if plain.returncode:
                    self.assertGreater(len(told.stderr), len(plain.stderr))


if __name__ == "__main__":
    unittest.main()
