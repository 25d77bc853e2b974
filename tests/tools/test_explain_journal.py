"""The first bad line of a file of journals: what the explanation has to say of it."""
import os
import tempfile
import unittest

import support  # puts the tools on the path

GOOD = "claim,0,0,g,compile,0\nfinish,0,0\nclaim,0,0,g,node,0\nfinish,0,0\n"

# The file, the line of the program, the iterations and workers of the call, and words of the explanation.
ROWS = [
    (GOOD, "line 5", ["j.csv ends after line 4", "the journals of this run go on"]),
    (GOOD[:-1], "line 4", ["j.csv, line 4:\n    finish,0,0\n    ^\n", "no line feed at its end"]),
    (GOOD + "finish,0,0\n", "line 5", ["Worker 0 runs nothing there, so it finishes nothing."]),
    ("claim,0,0,g,compile,0\nclaim,0,0,g,node,0\n", "line 2", ["Worker 0 still runs the item of line 1."]),
    ("claim,0,0,g,node,0\n", "line 1", ["worker 0 isn't handed this item there"]),
    ("claim,0,00,g,compile,0\n", "line 1", ["no line of a journal", "without leading zeros"]),
    ("claim,0,0,g,compile,0\r\n", "line 1", ["a carriage return"]),
    ("claim,0,0,g,compile,0\n\n", "line 2", ["An empty line"]),
    ("claim,1,0,g,compile,0\n", "line 1", ["It is of iteration 1, counted from 0, and 1 iteration is asked for."]),
    ("claim,0,2,g,compile,0\n", "line 1", ["It is of worker 2, counted from 0, and 2 workers are asked for."]),
    ("x" * 70_000_000, "length", ["70,000,000 bytes", "67,108,864"]),
]


class Journals(unittest.TestCase):
    def test_each_line(self):
        from pisdf_tools.refusals import Explanation
        for text, line, wanted in ROWS:
            with tempfile.TemporaryDirectory() as folder, self.subTest(line, text=text[:60]):
                path = os.path.join(folder, "j.csv")
                with open(path, "w", encoding="utf-8", newline="") as file:
                    file.write(text)
                told = Explanation("pisdf", ["audit", "g", "t", "1", "2", path], 9, f"journal: {line}\n".encode()).text().replace(path, "j.csv")
                for words in wanted:
                    self.assertIn(words, told)

    def test_a_file_that_is_not_there(self):
        from pisdf_tools.refusals import Explanation
        words = ["audit", "g", "t", "1", "2", "no-such-folder/j.csv"]
        told = Explanation("pisdf", words, 5, b"read: journal\n").text()
        self.assertIn("The file of journals is `no-such-folder/j.csv`", told)
        self.assertIn("There is no folder", told)


if __name__ == "__main__":
    unittest.main()
