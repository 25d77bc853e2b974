"""Where the tools can't write what they tell, or can't read a file again."""
import os
import subprocess
import sys
import tempfile
import unittest

from support import PROGRAM, TOOLS, TOP, needs_program

GRAPH, TOKENS = (os.path.join(TOP, "examples", "first", name) for name in ("g.json", "t.csv"))


def call(script, *words, **how):
    command = [sys.executable, "-B", os.path.join(TOOLS, script), *words]
    return subprocess.run(command, stderr=subprocess.PIPE, text=True, timeout=60, **how)


class Outputs(unittest.TestCase):
    CALLS = [("draw.py", "graph", GRAPH), ("kernels.py",)] + [("check.py", PROGRAM, GRAPH)] * bool(PROGRAM)

    def test_a_closed_output(self):
        for script, *words in self.CALLS:
            with self.subTest(script):
                done = call(script, *words, preexec_fn=lambda: os.close(1))
                self.assertEqual((done.returncode, done.stderr), (6, f"{script[:-3]}: the standard output can't be written: it is closed\n"))

    @unittest.skipUnless(os.path.exists("/dev/full"), "there is no /dev/full")
    def test_a_full_output(self):
        for script, *words in self.CALLS:
            with self.subTest(script), open("/dev/full", "w", encoding="utf-8") as full:
                done = call(script, *words, stdout=full)
                self.assertEqual((done.returncode, done.stderr), (6, f"{script[:-3]}: the standard output can't be written: No space left on device\n"))

    def test_an_output_that_nobody_reads(self):
        for script, *words in self.CALLS:
            with self.subTest(script):
                read, write = os.pipe()
                os.close(read)
                done = call(script, *words, stdout=write)
                os.close(write)
                self.assertEqual((done.returncode, done.stderr), (6 if script == "check.py" else 0, ""))


@needs_program
class ReadOnce(unittest.TestCase):
    """Files that can be read only once, as a pipe."""

    def test_check(self):
        with open(GRAPH, encoding="utf-8") as file:
            done = call("check.py", PROGRAM, "/dev/stdin", stdout=subprocess.PIPE, input=file.read())
        self.assertEqual((done.returncode, done.stderr), (5, ""))
        self.assertEqual(done.stdout, "The graph file is `/dev/stdin`. It can be read only once, and the tools read it again behind the program. Write it into a file first, and name that.\n")

    def test_explain(self):
        with open(GRAPH, encoding="utf-8") as file:
            done = call("explain.py", PROGRAM, "run", "/dev/stdin", TOKENS, "1", "1", stdout=subprocess.PIPE, input=file.read())
        self.assertEqual((done.returncode, done.stdout), (0, "tokens,0,y,5\n"))
        self.assertIn("More can't be told of this answer without `/dev/stdin`. It can be read only once", done.stderr)

    def test_explain_hands_open_files_on(self):
        read, write = os.pipe()
        os.write(write, b"x,7\n")
        os.close(write)
        done = call("explain.py", PROGRAM, "run", GRAPH, f"/dev/fd/{read}", "1", "1", stdout=subprocess.PIPE, pass_fds=[read])
        os.close(read)
        self.assertEqual((done.returncode, done.stdout), (0, "tokens,0,y,7\n"))

    def test_report(self):
        with tempfile.TemporaryDirectory() as room:
            pipe, page = os.path.join(room, "pipe"), os.path.join(room, "page.html")
            os.mkfifo(pipe)
            done = call("report.py", PROGRAM, GRAPH, pipe, "1", "1", page)
            self.assertEqual(done.returncode, 2)
            self.assertIn(f"report: the token file is {pipe}. It can be read only once", done.stderr)
            self.assertFalse(os.path.exists(page))


if __name__ == "__main__":
    unittest.main()
