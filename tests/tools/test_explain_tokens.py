"""Each refusal of a token file: the place, and what the explanation has to say."""
import time
import unittest

from support import call, needs_program

GRAPH = ('{"pisdf":3,"top":"g","graphs":[{"name":"g","params":[],"inputs":[{"name":"x","rate":"2"},{"name":"other","rate":"1"}],'
         '"outputs":[{"name":"y","rate":"2"},{"name":"z","rate":"1"}],"actors":['
         '{"name":"a","kind":"kernel","kernel":"pass","args":[],"ins":[{"name":"i","rate":"2"}],"outs":[{"name":"o","rate":"2"}]},'
         '{"name":"b","kind":"kernel","kernel":"pass","args":[],"ins":[{"name":"i","rate":"1"}],"outs":[{"name":"o","rate":"1"}]}],'
         '"fifos":[{"from":"x","to":"a.i"},{"from":"a.o","to":"y"},{"from":"other","to":"b.i"},{"from":"b.o","to":"z"}],"exports":[]}]}')

# The token file, the words of the program's line, and words of the explanation.
ROWS = [
    (b"x,1,2\nohter,3\n", "name 2", ["t.csv, line 2, column 1", "`ohter`", "inputs `x` and `other`", "Do you mean `other`?"]),
    (b"x ,1,2\n", "name 1", ["A blank belongs to the name"]),
    (b"1,2\n", "name 1", ["looks like a token", "Each row begins with the name"]),
    (b"x;1;2\n", "name 1", ["Fields are separated by commas"]),
    (b'{"pisdf":3}\n', "name 1", ["another kind of file"]),
    (b"# ones\nx,1,2\n", "name 1", ["A token file has no comments"]),
    (b"name,tokens\nx,1,2\n", "name 1", ["A token file has no header row"]),
    (b"x,1,2\n\n\nx,3\n", "repeated 2", ["line 4, column 1 (row 2, field 1)", "The first is row 1", "one row with all its tokens"]),
    (b"x,1,+2\n", "number 1 3", ["line 1, column 5", "Token 1 of the input `x`", "`+2`", "no `+`"]),
    (b"x,1, 2\n", "number 1 3", ["Blanks aren't taken away"]),
    (b"x,1,2,\n", "number 1 4", ["is empty", "A comma stands at the end"]),
    (b"x,1,,2\n", "number 1 3", ["Two commas stand in a row"]),
    (b"x,1.5\n", "number 1 2", ["whole numbers", "Scale the numbers"]),
    (b"x,9223372036854775808\n", "number 1 2", ["9223372036854775807"]),
    (b"x,one\n", "number 1 2", ["`one`", "decimal digits"]),
    (b'x,"1,2"\n', "number 1 2", ["`1,2`", "A comma within double quotes separates nothing"]),
    (b'x,1,"2\nother,1\n', "number 1 3", ["line 1, column 5", "which is no token. The double quote that begins this field isn't closed up to the file's end"]),
    (b'"x,1,2\nother,1\n', "name 1", ["line 1, column 1", "The double quote that begins this field isn't closed up to the file's end"]),
    ("x,1,2\n".encode("utf-16"), "name 1", ["line 1, column 1", "The file is UTF-16. Save it as UTF-8."]),
]


class TokenFaults(unittest.TestCase):
    def test_each_fault_of_a_row(self):
        from pisdf_tools.token_file import TokenFaults
        for data, words, wanted in ROWS:
            with self.subTest(words, data=data):
                text = TokenFaults("t.csv", data, ["x", "other"]).explain(words.split(" "))
                for word in wanted:
                    self.assertIn(word, text)

    def test_quotes_marks_and_line_ends(self):
        from pisdf_tools.token_file import records
        data = b'\xef\xbb\xbfx,"a""b",2\r\n\r"y\n",3\nz'
        self.assertEqual([record.part(0, 9) for record in records(data)], [[b"x", b'a"b', b"2"], [b"y\n", b"3"], [b"z"]])
        self.assertEqual([record.place(0) for record in records(data)], [3, 16, 23])

    def test_fields_of_a_long_record(self):
        from pisdf_tools.token_file import Streams, records
        data = b"x," + b",".join(b"%d" % number for number in range(100_000)) + b"\ny\n"
        record = next(records(data))
        self.assertEqual((record.field(0), record.field(70_001), record.field(100_000), record.field(100_001)), (b"x", b"70000", b"99999", None))
        streams = Streams(data, {"x", "y", "z"})
        self.assertEqual([streams.length(name) for name in "xyz"], [100_000, 0, 0])
        self.assertEqual(streams.tokens("x", 99_998, 2), [99_998, 99_999])
        self.assertEqual([streams.tokens("x", 99_999, 2), streams.tokens("y", 0, 0), streams.tokens("z", 0, 1)], [None, [], None])

    def test_a_long_file_in_quotes_is_read_soon(self):
        from pisdf_tools.token_file import records
        begun = time.process_time()
        record, = records(b'"x",' + b",".join(b'"%d"' % number for number in range(300_000)) + b"\n")
        self.assertEqual((record.count(), record.field(300_000)), (300_001, b"299999"))
        plain, = records(b'"x",' + b"7" * 20_000_000)
        self.assertEqual(len(plain.field(1)), 20_000_000)
        self.assertLess(time.process_time() - begun, 5)

    def test_further_faults_are_named(self):
        from pisdf_tools.token_file import TokenFaults
        text = TokenFaults("t.csv", b"x,1,a\nz,2\nx,3,b\n", ["x"]).explain(["number", "1", "3"])
        self.assertIn("Also refused: `z` in row 2, field 1, `x` in row 3, field 1, `b` in row 3, field 3.", text)

    def test_a_file_over_its_length(self):
        from pisdf_tools.token_file import TokenFaults
        self.assertIn("A token file may have 67,108,864", TokenFaults("t.csv", b"x" * 70_000_000, []).explain(["length"]))

    @needs_program
    def test_calls(self):
        for data, words, wanted in ROWS:
            with self.subTest(words, data=data):
                done = call(["run", "g.json", "t.csv", "1", "1"], {"g.json": GRAPH, "t.csv": data}, "explain.py")
                text = done.stderr.decode()
                self.assertTrue(text.startswith(f"tokens: {words}\n"), text)
                self.assertEqual((done.returncode, done.stdout), (3, b""))
                for word in wanted:
                    self.assertIn(word, text)

    @needs_program
    def test_too_few_tokens(self):
        done = call(["run", "g.json", "t.csv", "3", "1"], {"g.json": GRAPH, "t.csv": "x,1,2,3,4,5\nother,1,2,3\n"}, "explain.py")
        text = done.stderr.decode()
        self.assertEqual(done.returncode, 3)
        self.assertTrue(text.startswith("tokens: short x has 1 needs 2\n"))
        for word in ("has 5 tokens of `x`", "Each iteration takes 2", "2 iterations had enough", "Iteration 2", "lacks 1 token", "1 of `other`"):
            self.assertIn(word, text)
        done = call(["run", "g.json", "t.csv", "1", "1"], {"g.json": GRAPH, "t.csv": "x,1,2\n"}, "explain.py")
        self.assertIn("No row of t.csv names the input `other`", done.stderr.decode())


if __name__ == "__main__":
    unittest.main()
