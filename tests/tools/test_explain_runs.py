"""Each cause for which a run is refused: the line, the place, and what the explanation has to say."""
import unittest

from support import WHOLE, call, changed, needs_program, read_text

LOOP = '{"from":"d.p","to":"s.j","delay":[0],"life":"permanent"}'
ADD = '"kernel":"add","args":[],"ins":[{"name":"i","rate":"1"},{"name":"j","rate":"1"}]'
TWO = '{"pisdf":3,"top":"g","graphs":[{"name":"g","params":[],"inputs":[{"name":"x","rate":"%s"}],"outputs":[{"name":"y","rate":"1"}],"actors":[' \
      '{"name":"a","kind":"kernel","kernel":"%s","args":%s,"ins":[{"name":"i","rate":"%s"}],"outs":[{"name":"o","rate":"%s"}]}],' \
      '"fifos":[{"from":"x","to":"a.i"},{"from":"a.o","to":"y"}],"exports":[]}]}'
UPS = '{"pisdf":3,"top":"g","graphs":[{"name":"g","params":[],"inputs":[],"outputs":[{"name":"y","rate":"1"}],"actors":[' \
      '{"name":"a","kind":"kernel","kernel":"ramp","args":["0","1"],"ins":[],"outs":[{"name":"o","rate":"%d"}]},' \
      '{"name":"b","kind":"kernel","kernel":"up","args":[],"ins":[{"name":"i","rate":"1"}],"outs":[{"name":"o","rate":"%d"}]},' \
      '{"name":"c","kind":"kernel","kernel":"up","args":[],"ins":[{"name":"i","rate":"1"}],"outs":[{"name":"o","rate":"%d"}]},' \
      '{"name":"d","kind":"kernel","kernel":"pass","args":[],"ins":[{"name":"i","rate":"1"}],"outs":[{"name":"o","rate":"1"}]}],' \
      '"fifos":[{"from":"a.o","to":"b.i"},{"from":"b.o","to":"c.i"},{"from":"c.o","to":"d.i"},{"from":"d.o","to":"y"}],"exports":[]}]}'
CHAIN = ('{"pisdf":3,"top":"g","graphs":[{"name":"g","params":[],"inputs":[],"outputs":[{"name":"y","rate":"262144"}],"actors":['
         '{"name":"a","kind":"kernel","kernel":"ramp","args":["0","1"],"ins":[],"outs":[{"name":"o","rate":"262144"}]},' +
         ",".join('{"name":"%s","kind":"kernel","kernel":"pass","args":[],"ins":[{"name":"i","rate":"262144"}],"outs":[{"name":"o","rate":"262144"}]}' % name
                  for name in "bcde") +
         '],"fifos":[{"from":"a.o","to":"b.i"},{"from":"b.o","to":"c.i"},{"from":"c.o","to":"d.i"},{"from":"d.o","to":"e.i"},{"from":"e.o","to":"y"}],'
         '"exports":[]}]}')
# A hierarchical actor that fires 2,046 times, with three inputs and one output: each of four links counts 2,049.
LINKS = ('{"pisdf":3,"top":"g","graphs":[{"name":"g","params":[],"inputs":[{"name":"u","rate":"2046"},{"name":"v","rate":"2046"},{"name":"w","rate":"2046"}],'
         '"outputs":[{"name":"y","rate":"1"}],"actors":[{"name":"b","kind":"graph","graph":"h","args":[]}],'
         '"fifos":[{"from":"u","to":"b.i"},{"from":"v","to":"b.j"},{"from":"w","to":"b.k"},{"from":"b.o","to":"y"}],"exports":[]},'
         '{"name":"h","params":[],"inputs":[{"name":"i","rate":"1"},{"name":"j","rate":"1"},{"name":"k","rate":"1"}],"outputs":[{"name":"o","rate":"1"}],'
         '"actors":[{"name":"a",' + ADD + ',"kind":"kernel","outs":[{"name":"o","rate":"1"}]},{"name":"c",' + ADD + ',"kind":"kernel","outs":[{"name":"o","rate":"1"}]}],'
         '"fifos":[{"from":"i","to":"a.i"},{"from":"j","to":"a.j"},{"from":"a.o","to":"c.i"},{"from":"k","to":"c.j"},{"from":"c.o","to":"o"}],"exports":[]}]}')
# Two rings over the actor `back`. They share the FIFOs of `last`, and those that lead back in the file are others.
RINGS = ('{"pisdf":3,"top":"g","graphs":[{"name":"g","params":[],"inputs":[{"name":"x","rate":"1"}],"outputs":[{"name":"y","rate":"1"}],"actors":['
         '{"name":"less","kind":"kernel","kernel":"sub","args":[],"ins":[{"name":"i","rate":"1"},{"name":"j","rate":"1"}],"outs":[{"name":"o","rate":"1"}]},'
         '{"name":"more","kind":"kernel",' + ADD + ',"outs":[{"name":"o","rate":"1"}]},'
         '{"name":"last","kind":"kernel","kernel":"dup","args":[],"ins":[{"name":"i","rate":"1"}],"outs":[{"name":"o","rate":"1"},{"name":"p","rate":"1"}]},'
         '{"name":"back","kind":"kernel","kernel":"dup","args":[],"ins":[{"name":"i","rate":"1"}],"outs":[{"name":"o","rate":"1"},{"name":"p","rate":"1"}]}],'
         '"fifos":[{"from":"x","to":"less.i"},{"from":"back.o","to":"less.j"},{"from":"less.o","to":"more.i"},{"from":"back.p","to":"more.j"},'
         '{"from":"more.o","to":"last.i"},{"from":"last.o","to":"y"},{"from":"last.p","to":"back.i"}],"exports":[]}]}')
# Two rings that share no FIFO.
APART = changed(RINGS, ('{"from":"back.p","to":"more.j"},', '{"from":"back.p","to":"own.j"},{"from":"own.o","to":"twin.i"},{"from":"twin.o","to":"more.j"},{"from":"twin.p","to":"own.i"},'),
                ('"actors":[', '"actors":[{"name":"own","kind":"kernel",' + ADD + ',"outs":[{"name":"o","rate":"1"}]},'
                 '{"name":"twin","kind":"kernel","kernel":"dup","args":[],"ins":[{"name":"i","rate":"1"}],"outs":[{"name":"o","rate":"1"},{"name":"p","rate":"1"}]},'))
ONES = "".join(f"{name}{',1' * 2046}\n" for name in "uvw")
TOKENS = "w,3\nx,1,2,3,4\n"

# What it shows, the graph, the token file, the line, the text at the place, and words of the explanation.
ROWS = [
    ("a chosen parameter out of its range", WHOLE, "w,9\nx,1,2,3,4\n", "run: g param n value 9 range 1 8", '{"name":"n"',
     ["set to 9", "configuration actor `c` (read_param)", "the input `w`", "1 to 8"]),
    ("a derived one out of its range", changed(WHOLE, ('"expr":"n+1"', '"expr":"n+1","high":3')), TOKENS, "run: g param m value 4 range 0 3",
     '"n+1","high"', ['"n+1" with `n` = 3 is 4', "Its range is 0 to 3. Mend the expression, or widen the range"]),
    ("an inherited one out of its range", changed(WHOLE, ('"kind":"in"', '"kind":"in","high":1')), TOKENS, "run: g param b.p value 2 range 0 1",
     '"k"]}],', ["argument 0", "gives the parameter `p` of the graph `h` (line 20", "the value 2. Its range is 0 to 1"]),
    ("a negative parameter", changed(WHOLE, ('"expr":"n+1"', '"expr":"n-5"')), TOKENS, "run: g param m value -2 range 0 2147483647", '"n-5"',
     ["A parameter is never negative", "the value plus 2", "write `m-2`"]),
    ("a negative dividend", changed(WHOLE, ('"expr":"n+1"', '"expr":"(n-5)/2"')), TOKENS, "run: g param m division", '"(n-5)/2"',
     ["in -2 / 2 the dividend must be at least 0", "Form the sign behind the division"]),
    ("a division by a parameter", changed(WHOLE, ('"expr":"n+1"', '"expr":"9/(n-3)"')), TOKENS, "run: g param m division", '"9/(n-3)"',
     ["has no value with `n` = 3: in 9 / 0 the divisor must be at least 1", "`max(1,n)`"]),
    ("a parameter that overflows", changed(WHOLE, ('"expr":"2"', '"expr":"9223372036854775807+1"')), TOKENS, "run: g param k overflow",
     '"9223372036854775807+1"', ["lies outside 64 bits", "divide before you multiply"]),
    ("a rate over the limit", changed(WHOLE, ('"rate":"4"', '"rate":"262145"')), TOKENS, "run: g rate x value 262145", '"262145"',
     ["262,144 at most", "Let an iteration take and give fewer tokens, and make more iterations."]),
    ("a rate of a port over the limit", changed(WHOLE, ('"args":["m"],"ins":[{"name":"i","rate":"1"}]', '"args":["m"],"ins":[{"name":"i","rate":"262145"}]')), TOKENS,
     "run: g rate a.i value 262145", '"262145"', ["Let the actor fire more often on fewer tokens."]),
    ("a rate of a child over the limit", changed(WHOLE, ('{"name":"u","rate":"p"}', '{"name":"u","rate":"p+262144"}')), TOKENS, "run: g rate b.u value 262146", '"p+262144"',
     ["Let a firing of the graph take and give fewer tokens, and fire it more often."]),
    ("a rate below 0", changed(WHOLE, ('"args":["m"],"ins":[{"name":"i","rate":"1"}]', '"args":["m"],"ins":[{"name":"i","rate":"n-4"}]')), TOKENS,
     "run: g rate a.i value -1", '"n-4"', ['"n-4" with `n` = 3 is -1', "can't be below 0"]),
    ("an argument without a value", changed(WHOLE, ('"args":["m"]', '"args":["m%(n-3)"]')), TOKENS, "run: g rate a[0] division", '"m%(n-3)"',
     ["The argument", "in 4 % 0 the divisor must be at least 1"]),
    ("an equation that can't hold", changed(WHOLE, (ADD, ADD.replace('"j","rate":"1"', '"j","rate":"2"'))), TOKENS, "run: g rates", LOOP,
     ["FIFO 4 (line 16", "`d.p` gives 1 token a firing and `s.j` takes 2", "`s` has to fire once for 2 firings of `d`", "But by FIFO 3 (1 to 1)"]),
    ("a rate of 0 on one side", changed(WHOLE, (ADD, ADD.replace('"j","rate":"1"', '"j","rate":"n-3"'))), TOKENS, "run: g rates", '"n-3"',
     ["`s.j` has the rate 0 (line 8", 'as "n-3" with `n` = 3', "`d.p` gives 1 token a firing", "Most likely the 0 is wrong: 1 fits the other rates"]),
    ("an input of rate 0", changed(WHOLE, ('"rate":"4"', '"rate":"0"')), TOKENS, "run: g rates", '"0"}],',
     ["The input `x` has the rate 0", "`a.i` takes 1 token a firing", "4 fits the other rates, so that nothing is read again or lost"]),
    ("a base over its limit", UPS % (16, 16, 16), "", "run: g rates", '{"from":"a.o"', ["`d` fire 4,096 times for once of `a`", "1,024 firings", "from `a.o` to `b.i`, with 16 to 1, and on FIFO 1"]),
    ("a base over its limit by rates of which none divides the other", changed(UPS % (64, 32, 5), ('"name":"d","kind":"kernel","kernel":"pass","args":[],"ins":[{"name":"i","rate":"1"}]',
     '"name":"d","kind":"kernel","kernel":"pass","args":[],"ins":[{"name":"i","rate":"3"}]')), "", "run: g rates", '{"from":"c.o"',
     ["The rates differ most on FIFO 2", "from `c.o` to `d.i`, with 5 to 3, and on FIFO 0"]),
    ("too many firings", UPS % (1, 1024, 1), "", "run: g limit firings 2050", '"g","params"', ["2,050 firings, and 2,048 are allowed", "`c` 1,024 times"]),
    ("too many tokens", CHAIN, "", "run: g limit tokens 1310720", '"g","params"', ["1,310,720 tokens, and 1,048,576 are allowed", "with 262,144"]),
    ("too many links", LINKS, ONES, "run: g limit links 8196", '"g","params"', ["8,196 links, and 8,192 are allowed", "A link counts the firings at both of its ends, and 2"]),
    ("a ring without a delay", changed(WHOLE, (LOOP, '{"from":"d.p","to":"s.j"}')), TOKENS, "run: g deadlock s 4 d 4 b 2", '{"from":"d.p","to":"s.j"}',
     ["`s` waits for 1 token on FIFO 4", "in a ring", 'A delay of 1 token on FIFO 4 is enough: `"delay":1`']),
    ("two rings that share a FIFO", RINGS, "x,1", "run: g deadlock less 1 more 1 last 1 back 1", '{"from":"last.p","to":"back.i"}',
     ['A delay of 1 token on FIFO 6 is enough: `"delay":1`']),
    ("two rings that share none", APART, "x,1", "run: g deadlock own 1 twin 1 less 1 more 1 last 1 back 1", '{"from":"back.o","to":"less.j"}',
     ["Firings are left of `own` (1), `twin` (1), `less` (1)", "More than one FIFO needs a delay: begin with this one."]),
    ("an overflow", TWO % ("1", "gain", '["2"]', "1", "1"), "x,4611686018427387904", "run: g kernel a:0 1", '"gain"',
     ["4611686018427387904 * 2 is 9223372036854775808", "`i` read 1 token", "a number lies outside 64 bits", "Overflow of `gain`: a product lies outside 64 bits."]),
    ("a division by 0", changed(TWO % ("1", "div", "[]", "1", "1"), ('"ins":[{"name":"i","rate":"1"}]', '"ins":[{"name":"i","rate":"1"},{"name":"j","rate":"1"}]'), ('"inputs":[', '"inputs":[{"name":"z","rate":"1"},'),
     ('"fifos":[', '"fifos":[{"from":"z","to":"a.j"},')), "x,1\nz,0", "run: g kernel a:0 2", '"div"', ["1 is divided by 0", "Division of `div`: `z[n]` is 0."]),
    ("rates that don't fit the kernel", TWO % ("4", "sum", "[]", "4", "2"), "x,1,2,3,4", "run: g kernel a:0 3", '"sum"',
     ["the output's rate must be 1, and it is 2", "Rates of `sum`: `s = 1`"]),
    ("a value that the kernel doesn't take", TWO % ("1", "clamp", '["3","1"]', "1", "1"), "x,1", "run: g kernel a:0 4", '"clamp"',
     ["the lower bound 3 is greater than the upper bound 1", "Value of `clamp`: `low` is greater than `high`."]),
    ("a refusal in a child", changed(WHOLE, ('"kernel":"pass"', '"kernel":"sum"')), TOKENS, "run: g/b:0 kernel e:0 3", '"sum"',
     ["in graph `h`, actor `e`", "in the firing `g/b:0` of iteration 0"]),
]


def refusal_of(text, tokens, iterations=1):
    """The refusal as the tools find it, with the explanation."""
    from pisdf_tools import firing, token_file
    from pisdf_tools.levels import Refused
    from pisdf_tools.run_refusals import RunRefusals
    reading = read_text(text)
    streams = token_file.Streams(tokens.encode(), {port.name.text for port in reading.file.top_graph.inputs})
    runner = firing.Runner(reading.file, 20)
    try:
        runner.run(iterations, streams.tokens)
    except Refused as refused:
        return refused.line, RunRefusals(reading, refused, runner.iteration).text(), reading
    return None, "", reading


class RunRefusals(unittest.TestCase):
    def test_each_cause_is_found_at_its_place_and_explained(self):
        for name, graph, tokens, line, place, words in ROWS:
            with self.subTest(name):
                found, text, reading = refusal_of(graph, tokens)
                self.assertEqual(found, line)
                start = reading.source.text.index(place)
                self.assertTrue(text.startswith(reading.source.place(start)), text)
                for word in words:
                    self.assertIn(word, text)

    def test_the_iteration_is_told(self):
        line, text, _ = refusal_of(WHOLE, "w,1,2,9\nx,1,2,3,4,5,6,7,8,9,10,11,12\n", 3)
        self.assertEqual(line, "run: g param n value 9 range 1 8")
        self.assertIn("of iteration 2", text)

    def test_lines_alone_are_explained_too(self):
        from pisdf_tools.static_refusals import plain_words
        for name, graph, _, line, _, words in ROWS:
            with self.subTest(name):
                text = plain_words(read_text(graph), line)
                self.assertTrue(text.startswith("g.json, line "), text)
                self.assertGreater(len(text.splitlines()[-1]), 40)
                for word in words:
                    if " of `" in word and line.startswith("run: g kernel"):
                        self.assertIn(word, text)

    @needs_program
    def test_the_program_answers_the_same_lines(self):
        for name, graph, tokens, line, _, words in ROWS:
            with self.subTest(name):
                done = call(["plain", "g.json", "t.csv", "1"], {"g.json": graph, "t.csv": tokens}, "explain.py")
                text = done.stderr.decode()
                self.assertEqual(text.splitlines()[0], line)
                self.assertEqual(done.returncode, 4)
                for word in words:
                    self.assertIn(word, text)


if __name__ == "__main__":
    unittest.main()
