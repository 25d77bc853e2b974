"""Each fault of a graph file with each of its causes: the program's line, and what the explanation has to say."""
import unittest

from support import WHOLE, call, changed, needs_program, read_text

RING = ('{"name":"k","kind":"is","expr":"2"}', '{"name":"k","kind":"is","expr":"q"},{"name":"q","kind":"is","expr":"k"}')
NESTED = "".join('{"name":"t%d","params":[],"inputs":[],"outputs":[],"actors":[{"name":"a","kind":"graph","graph":"t%d","args":[]}],"fifos":[],"exports":[]},'
                 % (number, number + 1) for number in range(8))
LAST = '{"name":"t8","params":[],"inputs":[],"outputs":[],"actors":[],"fifos":[],"exports":[]}'
DEEP = '{"pisdf":3,"top":"t0","graphs":[' + NESTED + LAST + "]}"
# Each row: what it shows, the changes, the program's line, the line of the file with the text that the place begins with, and words
# that the explanation has.
ROWS = [
    ("a comma before a bracket", [('"exports":[]}]}', '"exports":[],}]}')], "graph: 1 json", (26, ',}]}'), ["A comma stands before `}`"]),
    ("no comma between members", [('"top":"g","graphs"', '"top":"g" "graphs"')], "graph: 1 json", (1, '"graphs":['), ["A `,` or `}` was wanted", "A comma may be missing"]),
    ("single quotes", [('"pisdf":3', "'pisdf':3")], "graph: 1 json", (1, '\'pisdf\':3,"top'), ["double quotes"]),
    ("a comment", [('"graphs":[', '"graphs":[ // all')], "graph: 1 json", (1, '// all'), ["JSON has no comments"]),
    ("XML", [('{"pisdf":3', '<graph>{"pisdf":3')], "graph: 1 json", (1, '<graph>{"pisdf'), ["XML", "PREESM"]),
    ("a bare word", [('"top":"g"', '"top":g')], "graph: 1 json", (1, 'g,"graphs":['), ['`"g"`']),
    ("a number with a leading zero", [('"low":1', '"low":01')], "graph: 1 json", (2, '01,"high":8},{'), ["leading zeros"]),
    ("a text without its end", [('"kernel":"gain"', '"kernel":"gain')], "graph: 1 json", (7, 'args":["m"],"i'), ["`args`"]),
    ("a root that is a list", [('{"pisdf":3', '[{"pisdf":3'), ('"exports":[]}]}\n', '"exports":[]}]}]')], "graph: 2 shape /", (1, '[{"pisdf":3,"t'), ["one object", "a list"]),
    ("a missing member", [('"name":"g","params":[', '"name":"g","parms":[')], "graph: 2 shape /graphs/0", (2, '"parms":[{"nam'), ["no member `parms`", "Do you mean `params`?"]),
    ("a graph without exports", [('{"from":"b.v","to":"y"}],\n  "exports":[]}', '{"from":"b.v","to":"y"}]}')], "graph: 2 shape /graphs/0", (2, '{"name":"g","p'), ["lacks `exports`", '`"exports":[]`']),
    ("a rate that is a number", [('"rate":"4"', '"rate":4')], "graph: 2 shape /graphs/0/inputs/1/rate", (3, '4}],'), ["text in double quotes", 'write `"4"`']),
    ("a sign before a number", [('"rate":"4"', '"rate":"-4"')], "graph: 2 shape /graphs/0/inputs/1/rate", (3, '-4"}],'), ["no sign before a number", "`0-1`"]),
    ("an open parenthesis", [('"rate":"2*k"', '"rate":"2*(k"')], "graph: 2 shape /graphs/0/outputs/0/rate", (4, '"}],'), ["A `)` for the `(`"]),
    ("a name with a sign", [('"name":"a",', '"name":"a-1",')], "graph: 2 shape /graphs/0/actors/1/name", (7, '"a-1","kind":"'), ["because of `-`", "letters, digits and `_`"]),
    ("a name that is a function", [('"name":"a",', '"name":"min",')], "graph: 2 shape /graphs/0/actors/1/name", (7, '"min","kind":"'), ["function of expressions"]),
    ("an end with two points", [('"to":"a.i"', '"to":"g.a.i"')], "graph: 2 shape /graphs/0/fifos/1/to", (13, '"g.a.i"},'), ["no end"]),
    ("an unknown kind of actor", [('"name":"a","kind":"kernel"', '"name":"a","kind":"actor"')], "graph: 2 shape /graphs/0/actors/1", (7, '"kind":"actor"'), ["no kind of actor", "`setgraph`"]),
    ("a factor without a sign", [('"rate":"2*k"', '"rate":"2k"')], "graph: 2 shape /graphs/0/outputs/0/rate", (4, 'k"}],'), ["write `2*n`"]),
    ("a power", [('"rate":"2*k"', '"rate":"k^2"')], "graph: 2 shape /graphs/0/outputs/0/rate", (4, '^2"}],'), ["There is no power", "`n*n`"]),
    ("a text for a list", [('"sets":["n"]', '"sets":"n"')], "graph: 2 shape /graphs/0/actors/0/sets", (6, '"n"},'), ['Write `["n"]`']),
    ("an everyday word for a kernel", [('"kernel":"gain"', '"kernel":"multiply"')], "graph: 6 kernel multiply", (7, '"multiply","args"'), ["The kernel `gain` multiplies tokens"]),
    ("a kernel actor of the kind config", [('{"name":"a","kind":"kernel"', '{"name":"a","kind":"config"')], "graph: 2 shape /graphs/0/actors/1", (7, '"kind":"config","kernel":"gain"'), ['`gain` is a kernel of such actors. Write `"kind":"kernel"`']),
    ("a configuration actor of the kind kernel", [('"kind":"config"', '"kind":"kernel"'), ('"ins":[{"name":"i"}]', '"ins":[{"name":"i"}]')], "graph: 2 shape /graphs/0/actors/0", (6, '"kind":"kernel","kernel":"read_param"'), ['Write `"kind":"config"`']),
    ("a hierarchical actor of the kind kernel", [('"kind":"graph"', '"kind":"kernel"')], "graph: 2 shape /graphs/0/actors/4", (10, '"kind":"kernel","graph":"h"'), ['Write `"kind":"graph"`']),
    ("an unknown kind of parameter", [('"kind":"set","low"', '"kind":"dyn","low"')], "graph: 2 shape /graphs/0/params/0/kind", (2, '"dyn","low":1,'), ["no kind of parameter"]),
    ("a chosen parameter with an expression", [('"kind":"set","low"', '"kind":"set","expr":"1","low"')], "graph: 2 shape /graphs/0/params/0", (2, '"expr":"1","lo'), ["Only a parameter of the kind `is`"]),
    ("a derived parameter without one", [('"kind":"is","expr":"2"', '"kind":"is"')], "graph: 2 shape /graphs/0/params/2", (2, '{"name":"k","k'), ["lacks `expr`"]),
    ("high below low", [('"low":1,"high":8', '"low":9,"high":8')], "graph: 2 shape /graphs/0/params/0/high", (2, '8},{"name":"m"'), ["from 9", "below `low`"]),
    ("a low with a point", [('"low":1', '"low":1.0')], "graph: 2 shape /graphs/0/params/0/low", (2, '1.0,"high":8},'), ["no whole number"]),
    ("a negative delay", [('"delay":[0]', '"delay":-1')], "graph: 2 shape /graphs/0/fifos/4/delay", (16, '-1,"life":"per'), ["from 0 on"]),
    ("a delay of texts", [('"delay":[0]', '"delay":["0"]')], "graph: 2 shape /graphs/0/fifos/4/delay/0", (16, '"0"],"life":"p'), ["whole number of 64 bits"]),
    ("an unknown life", [('"permanent"', '"forever"')], "graph: 2 shape /graphs/0/fifos/4/life", (16, '"forever"},'), ['"firing"', '"permanent"']),
    ("a life in version 1", [('"pisdf":3', '"pisdf":1'), ('],\n  "exports":[]}', ']}'), ('],\n  "exports":[]}', ']}')], "graph: 2 shape /graphs/0/fifos/4", (16, '"life":"perman'), ["Version 1 has no `life`"]),
    ("a member $schema", [('{"pisdf":3', '{"$schema":"s","pisdf":3')], "graph: 2 shape /", (1, '"$schema":"s",'), ["no member `$schema`"]),
    ("the input of a configuration actor with a rate", [('"ins":[{"name":"i"}]', '"ins":[{"name":"i","rate":"1"}]')], "graph: 2 shape /graphs/0/actors/0/ins/0", (6, '"rate":"1"}],"'), ["states no rate"]),
    ("version 4", [('"pisdf":3', '"pisdf":4')], "graph: 3 version 4", (1, '4,"top":"g","g'), ["versions 1, 2 and 3"]),
    ("an actor with the name of an input", [('"name":"a",', '"name":"x",')], "graph: 4 duplicate x", (7, '"x","kind":"ke'), ["name of this actor, and of the input"]),
    ("two ports of one name", [('{"name":"j","rate":"1"}', '{"name":"i","rate":"1"}')], "graph: 4 duplicate i", (8, '"i","rate":"1"'), ["All ports of an actor"]),
    ("two graphs of one name", [('{"name":"h","params"', '{"name":"g","params"')], "graph: 4 duplicate g", (20, '"g","params":['), ["Each graph of the file"]),
    ("an unknown top", [('"top":"g"', '"top":"G"')], "graph: 5 unknown G", (1, '"G","graphs":['), ["no graph `G`", "Do you mean `g`?"]),
    ("an unknown parameter", [('"rate":"2*k"', '"rate":"2*kk"')], "graph: 5 unknown kk", (4, 'kk"}],'), ["no parameter `kk`", "Do you mean `k`?"]),
    ("a parameter of another graph", [('"rate":"2*k"', '"rate":"2*p"')], "graph: 5 unknown p", (4, 'p"}],'), ["Graph `h` has one of that name"]),
    ("an unknown child", [('"graph":"h"', '"graph":"hh"')], "graph: 5 unknown hh", (10, '"hh","args":["'), ["no graph `hh`", "Do you mean `h`?"]),
    ("an unknown port", [('"to":"a.i"', '"to":"a.k"')], "graph: 5 unknown a.k", (13, '"a.k"},'), ["no port `k`", "the input `i`", "Do you mean `a.i`?"]),
    ("an unknown actor", [('"to":"a.i"', '"to":"A.i"')], "graph: 5 unknown A.i", (13, '"A.i"},'), ["no actor `A`", "Do you mean `a.i`?"]),
    ("a renamed actor", [('"name":"a",', '"name":"gained",')], "graph: 5 unknown a.i", (13, '"a.i"},'), ["`gained` has the ports `i` and `o`, and no FIFO", "Write `gained.i` here. Change FIFO 2 in the same way"]),
    ("a renamed output", [('"outputs":[{"name":"y"', '"outputs":[{"name":"out"')], "graph: 5 unknown y", (18, '"y"}],'), ["The output `out` has no FIFO: write `out` here, or call the output `y`"]),
    ("an actor renamed to what is no name", [('"name":"a",', '"name":"a-1",')], "graph: 2 shape /graphs/0/actors/1/name", (7, '"a-1","kind":"'), ["Write `a_1`"]),
    ("an input for a parameter", [('"rate":"2*k"', '"rate":"2*x"')], "graph: 5 unknown x", (4, 'x"}],'), ["`x` is an input of the graph, and no number"]),
    ("an actor for a parameter", [('"rate":"2*k"', '"rate":"2*b"')], "graph: 5 unknown b", (4, 'b"}],'), ["`b` is an actor of the graph, and no number"]),
    ("a function that isn't there", [('"rate":"2*k"', '"rate":"ceil(k/2)"')], "graph: 2 shape /graphs/0/outputs/0/rate", (4, '(k/2)'), ["`(A+B-1)/B` rounds up"]),
    ("a sign of another keyboard", [('"rate":"2*k"', '"rate":"2\u00d7k"')], "graph: 2 shape /graphs/0/outputs/0/rate", (4, '\u00d7k'), ["Write `*`."]),
    ("a FIFO too many", [('"to":"y"}', '"to":"y"},{"from":"b.w","to":"z"}')], "graph: 5 unknown b.w", (18, '"b.w","to":"z"'), ["may come from has its FIFO already"]),
    ("an actor without a port", [('"to":"a.i"', '"to":"a"')], "graph: 5 unknown a", (13, '"a"},'), ["is an actor", "one of its ports"]),
    ("an interface with a port", [('"from":"x"', '"from":"x.o"')], "graph: 5 unknown x.o", (13, '"x.o","to":"a.'), ["is an interface", "Do you mean `x`?"]),
    ("a parameter as an end", [('"from":"x"', '"from":"n"')], "graph: 5 unknown n", (13, '"n","to":"a.i"'), ["is a parameter"]),
    ("an unknown set", [('"sets":["n"]', '"sets":["nn"]')], "graph: 5 unknown nn", (6, '"nn"]},'), ["`sets` lists parameters", "Do you mean `n`?"]),
    ("an unknown export", [('"exports":[]}]}', '"exports":["q"]}]}')], "graph: 5 unknown q", (26, '"q"]}]}'), ["`exports` lists parameters", "the parameter `p`"]),
    ("a word of another tool", [('"kernel":"gain"', '"kernel":"broadcast"')], "graph: 6 kernel broadcast", (7, '"broadcast","a'), ["`dup` gives each token twice"]),
    ("a kernel that configures, with the ports of others", [('"kernel":"dup"', '"kernel":"spread"')], "graph: 6 kernel spread", (9, '"spread","args'), ["with 0 arguments, 1 input and 2 outputs: `dup`"]),
    ("an unknown kernel", [('"kernel":"gain"', '"kernel":"gian"')], "graph: 6 kernel gian", (7, '"gian","args":'), ["no kernel `gian`", "Do you mean `gain`"]),
    ("a kernel of the other kind", [('"kernel":"gain"', '"kernel":"pick"')], "graph: 6 kernel pick", (7, '"pick","args":'), ["kernel of configuration actors"]),
    ("a kernel actor's kernel that configures", [('"kernel":"read_param"', '"kernel":"sum"')], "graph: 6 kernel sum", (6, '"sum","args":['), ["kernel of kernel actors", "`spread`"]),
    ("too few arguments", [('"args":["m"]', '"args":[]')], "graph: 7 ports a", (7, '"a","kind":"ke'), ["takes 1 argument", "0 in `args`"]),
    ("an input that is left out", [(',{"name":"j","rate":"1"}', "")], "graph: 5 unknown s.j", (16, '"s.j","delay":'), ["no port `j`"]),
    ("too many outputs", [('"outs":[{"name":"o","rate":"1"}]},\n   {"name":"s"', '"outs":[{"name":"o","rate":"1"},{"name":"q","rate":"1"}]},\n   {"name":"s"')], "graph: 7 ports a", (7, '"a","kind":"ke'), ["takes 1 output", "are 2 in `outs`"]),
    ("no parameter set", [('"sets":["n"]', '"sets":[]')], "graph: 7 ports c", (6, '"c","kind":"co'), ["1 to 4 parameters that it sets", "are 0 in `sets`"]),
    ("a child without its argument", [('"args":["k"]', '"args":[]')], "graph: 7 ports b", (10, '"b","kind":"gr'), ["0 arguments", "`p`", "one argument for each"]),
    ("a child's exports and sets", [('"kind":"graph","graph":"h","args":["k"]', '"kind":"setgraph","graph":"h","args":["k"],"sets":["n"]')], "graph: 7 ports b", (10, '"b","kind":"se'), ["sets 1 parameter", "exports nothing"]),
    ("an inherited parameter of the top graph", [('"kind":"is","expr":"2"', '"kind":"in"')], "graph: 7 ports k", (2, '"k","kind":"in'), ["top graph, which no actor names"]),
    ("a parameter set by none", [('{"name":"m","kind":"is","expr":"n+1"}', '{"name":"m","kind":"set"}')], "graph: 7 ports m", (2, '"m","kind":"se'), ["no actor of graph `g` sets it"]),
    ("a parameter set twice", [('"sets":["n"]', '"sets":["n","n"]')], "graph: 7 ports n", (2, '"n","kind":"se'), ["stands 2 times"]),
    ("a derived parameter in sets", [('"sets":["n"]', '"sets":["n","k"]')], "graph: 7 ports k", (2, '"k","kind":"is'), ["is of the kind `is`", "`sets`"]),
    ("a FIFO from an output", [('{"from":"b.v","to":"y"}', '{"from":"y","to":"b.v"}')], "graph: 8 wire y", (18, '"y","to":"b.v"'), ["output interface", "Exchange `from` and `to`"]),
    ("a FIFO to an output port", [('"to":"a.i"', '"to":"a.o"')], "graph: 8 wire a.o", (13, '"a.o"},'), ["output of an actor"]),
    ("an end without a FIFO", [(',\n   {"from":"b.v","to":"y"}', "")], "graph: 8 wire y", (4, '"y","rate":"2*'), ["No FIFO stands at the output interface `y`", "`b.v`"]),
    ("an end with two", [('{"from":"x","to":"a.i"}', '{"from":"x","to":"a.i"},{"from":"x","to":"a.i"}')], "graph: 8 wire x", (3, '"x","rate":"4"'), ["FIFO 1 and FIFO 2", "`dup`"]),
    ("from interface to interface", [('{"from":"w","to":"c.i"}', '{"from":"w","to":"y"}'), ('{"from":"b.v","to":"y"}', '{"from":"b.v","to":"c.i"}')], "graph: 9 interface g 0", (12, '{"from":"w","t'), ["Put an actor with the kernel `pass` between"]),
    ("a delay at an interface", [('{"from":"x","to":"a.i"}', '{"from":"x","to":"a.i","delay":2}')], "graph: 9 interface g 1", (13, '{"from":"x","t'), ["delay of 2 tokens", "between two actors"]),
    ("a configuration actor that an actor feeds", [('{"from":"w","to":"c.i"}', '{"from":"w","to":"b.u"}'), ('{"from":"d.o","to":"b.u"}', '{"from":"d.o","to":"c.i"}')], "graph: 9 interface g 5", (17, '{"from":"d.o",'), ["feeds the configuration actor `c`", "input interfaces alone"]),
    ("a configuration output to an interface", [('"kernel":"read_param"', '"kernel":"spread"'), ('"ins":[{"name":"i"}],"outs":[]', '"ins":[{"name":"i"}],"outs":[{"name":"o","rate":"1"}]'), ('{"from":"b.v","to":"y"}', '{"from":"c.o","to":"y"}'), ('{"name":"b","kind":"graph","graph":"h","args":["k"]}', '{"name":"b","kind":"kernel","kernel":"pass","args":[],"ins":[{"name":"u","rate":"1"}],"outs":[{"name":"v","rate":"1"}]}'), ('{"from":"d.o","to":"b.u"}', '{"from":"d.o","to":"b.u"},{"from":"b.v","to":"y2"}'), ('{"name":"y","rate":"2*k"}', '{"name":"y","rate":"1"},{"name":"y2","rate":"4"}')], "graph: 9 interface g 7", (18, '{"from":"c.o",'), ["from the configuration actor `c` to the output interface"]),
    ("a configuration output with a delay", [('"kernel":"read_param"', '"kernel":"spread"'), ('"ins":[{"name":"i"}],"outs":[]', '"ins":[{"name":"i"}],"outs":[{"name":"o","rate":"1"}]'), ('{"from":"x","to":"a.i"}', '{"from":"c.o","to":"a.i","delay":1}'), ('{"name":"x","rate":"4"}', '{"name":"z","rate":"4"}'), ('{"name":"a","kind"', '{"name":"q","kind":"kernel","kernel":"sum","args":[],"ins":[{"name":"i","rate":"4"}],"outs":[{"name":"o","rate":"1"}]},{"name":"a","kind"'), ('{"from":"w","to":"c.i"}', '{"from":"w","to":"c.i"},{"from":"z","to":"q.i"},{"from":"q.o","to":"y2"}'), ('{"name":"y","rate":"2*k"}', '{"name":"y","rate":"2*k"},{"name":"y2","rate":"1"}')], "graph: 9 interface g 3", (13, '{"from":"c.o",'), ["leaves the configuration actor `c` with a delay"]),
    ("a parameter that names itself", [('"expr":"2"', '"expr":"k"')], "graph: 10 order k", (2, '"k"}],'), ["names `k` itself"]),
    ("a ring of parameters", [RING], "graph: 10 order k", (2, '"q"},{"name":"'), ["`k` names `q`", "`q` names `k`"]),
    ("a late rate of an interface", [('"rate":"2*k"', '"rate":"2*m"')], "graph: 10 order m", (4, 'm"}],'), ["`m` depends on `n`", "configuration actor `c` sets"]),
    ("a late argument of a configuration actor", [('"kernel":"read_param","args":[]', '"kernel":"pick","args":["n"]')], "graph: 10 order n", (6, 'n"],"ins":[{"n'), ["argument of a configuration actor"]),
    ("a late output rate of a configuration actor", [('"kernel":"read_param"', '"kernel":"spread"'), ('"ins":[{"name":"i"}],"outs":[]', '"ins":[{"name":"i"}],"outs":[{"name":"o","rate":"n"}]'), ('{"from":"x","to":"a.i"}', '{"from":"c.o","to":"a.i"}'), ('{"name":"x","rate":"4"}', '{"name":"z","rate":"4"}'), ('{"name":"a","kind"', '{"name":"q","kind":"kernel","kernel":"sum","args":[],"ins":[{"name":"i","rate":"4"}],"outs":[{"name":"o","rate":"1"}]},{"name":"a","kind"'), ('{"from":"w","to":"c.i"}', '{"from":"w","to":"c.i"},{"from":"z","to":"q.i"},{"from":"q.o","to":"y2"}'), ('{"name":"y","rate":"2*k"}', '{"name":"y","rate":"2*k"},{"name":"y2","rate":"1"}')], "graph: 10 order n", (6, 'n"}],"sets":["'), ["output rate of a configuration actor"]),
    ("a graph that holds itself", [('"kernel":"pass","args":[],"ins":[{"name":"i","rate":"p"}],"outs":[{"name":"o","rate":"p"}]', '"graph":"h","args":["p"]'), ('"name":"e","kind":"kernel"', '"name":"e","kind":"graph"'), ('"to":"e.i"', '"to":"e.u"'), ('"from":"e.o"', '"from":"e.v"')], "graph: 11 cycle h", (20, '"h","params":['), ["holds itself", "`h` by its actor `e`"]),
    ("a long delay", [('"delay":[0]', '"delay":65537')], "graph: 13 count delay", (16, '{"from":"d.p",'), ["65,537 tokens in this delay", "65,536"]),
]


class GraphFaults(unittest.TestCase):
    def test_the_place_of_a_fifo_over_several_lines_is_its_first_end(self):
        text = changed(WHOLE, ('{"from":"x","to":"a.i"}', '{\n"from":"x",\n"to":"a.i","delay":1}'))
        found = read_text(text)
        self.assertEqual(found.faults[0].line, "graph: 9 interface g 1")
        self.assertEqual(found.source.position(found.faults[0].start), (14, 8))

    def test_an_actor_renamed_to_what_is_no_name_gets_its_name_again(self):
        found = read_text(changed(WHOLE, ('"name":"a",', '"name":"a-1",')))
        fault, = [fault for fault in found.faults if fault.number == 5]
        self.assertTrue(fault.text.endswith("was `a` renamed? `a-1` is no name, so call the actor `a` again."), fault.text)

    def test_a_member_that_stands_twice(self):
        found = read_text(changed(WHOLE, ('"exports":[]},', '"exports":[],\n"fifos":[]},')))
        self.assertEqual(found.repeated_words(), ["g.json, line 20, column 1, in graph `g`: The member `fifos` stands here a second time. Only the last one counts."])
        self.assertEqual(found.faults[0].line, "graph: 8 wire w")
        self.assertEqual(read_text(WHOLE).repeated_words(), [])
        self.assertEqual(read_text("[").repeated_words(), [])

    def test_a_file_in_utf_16(self):
        for name in ("utf-16-le", "utf-16-be"):
            found = read_text(("\ufeff" + WHOLE).encode(name))
            self.assertEqual([(fault.line, fault.start) for fault in found.faults], [("graph: 1 json", 0)])
            self.assertIn("The file is UTF-16. Save it as UTF-8 without a byte order mark.", found.faults[0].text)

    def test_a_parameter_of_the_top_graph_that_an_actor_sets(self):
        fault = read_text(changed(WHOLE, ('"kind":"set","low":1,"high":8', '"kind":"in"'))).faults[0]
        self.assertEqual(fault.line, "graph: 7 ports n")
        self.assertIn('`c` sets it: write `"kind":"set"`.', fault.text)

    def test_no_fault_holds_by_a_guess_alone(self):
        for changes in ([('"name":"a",', '"name":"gained",')], [('"outputs":[{"name":"y"', '"outputs":[{"name":"out"')], [('"from":"a.o"', '"from":"d.q"')]):
            lines = [fault.line for fault in read_text(changed(WHOLE, *changes)).faults]
            self.assertEqual(len(lines), 1, lines)

    def test_each_fault_is_found_first_at_its_place_and_explained(self):
        for name, changes, line, place, words in ROWS:
            with self.subTest(name):
                found = read_text(changed(WHOLE, *changes))
                self.assertTrue(found.faults, "no fault is found")
                fault = found.faults[0]
                self.assertEqual(fault.line, line)
                line_number, column = found.source.position(fault.start)
                self.assertEqual(line_number, place[0])
                self.assertTrue(found.source.text.startswith(place[1], fault.start), found.source.text[fault.start:fault.start + 20])
                text = found.text_of(fault)
                self.assertTrue(text.startswith(f"g.json, line {line_number}, column {column}"), text)
                for word in words:
                    self.assertIn(word, text)

    def test_depth_and_counts_of_graphs(self):
        found = read_text(DEEP)
        self.assertEqual(found.faults[0].line, "graph: 12 depth t0")
        self.assertIn("9 graphs are nested", found.faults[0].text)
        graphs = ",".join('{"name":"q%d","params":[],"inputs":[],"outputs":[],"actors":[],"fifos":[],"exports":[]}' % number for number in range(33))
        found = read_text('{"pisdf":3,"top":"q0","graphs":[' + graphs + "]}")
        self.assertEqual(found.faults[0].line, "graph: 13 count graphs")
        self.assertIn("33 graphs, and at most 32", found.faults[0].text)

    def test_each_count_of_parts_is_held_against_its_limit(self):
        from pisdf_tools.limits import HOLD, PARTS
        param = '{"name":"n%d","kind":"is","expr":"1"}'
        parts = {"params": [param % number for number in range(65)], "exports": ['"k"'] * 65}
        for name, found in parts.items():
            text = changed(WHOLE, ('"params":[', '"params":[' + ",".join(parts["params"]) + ",")) if name == "params" else \
                changed(WHOLE, ('"exports":[]', '"exports":[' + ",".join(found) + "]"))
            fault = read_text(text).faults[0]
            self.assertEqual(fault.line, f"graph: 13 count {name}")
            self.assertIn(f"at most {PARTS[name]} may be", fault.text)
        empty = '{"name":"z","params":[],"inputs":[],"outputs":[],"actors":[],"fifos":[],"exports":[]},'
        actors = "".join('{"name":"r%d","kind":"graph","graph":"z","args":[]},' % number for number in range(64))
        text = changed(WHOLE, ('{"name":"h","params"', empty + '{"name":"h","params"'), ('{"name":"e","kind"', actors + '{"name":"e","kind"'))
        self.assertEqual(read_text(text).faults[0].line, "graph: 13 count actors")
        inputs = ",".join('{"name":"x%d","rate":"1"}' % number for number in range(33))
        outputs = ",".join('{"name":"y%d","rate":"1"}' % number for number in range(33))
        passing = ",".join('{"name":"a%d","kind":"kernel","kernel":"pass","args":[],"ins":[{"name":"i","rate":"1"}],"outs":[{"name":"o","rate":"1"}]}' % n for n in range(33))
        fifos = ",".join('{"from":"x%d","to":"a%d.i"},{"from":"a%d.o","to":"y%d"}' % (n, n, n, n) for n in range(33))
        text = ('{"pisdf":3,"top":"g","graphs":[{"name":"g","params":[],"inputs":[' + inputs + '],"outputs":[' + outputs + '],"actors":[' + passing +
                '],"fifos":[' + fifos + '],"exports":[]}]}')
        self.assertEqual([fault.line for fault in read_text(text).faults], ["graph: 13 count inputs", "graph: 13 count outputs"])
        rings = ",".join('{"name":"r%d","kind":"kernel","kernel":"pass","args":[],"ins":[{"name":"i","rate":"1"}],"outs":[{"name":"o","rate":"1"}]}' % n for n in range(5))
        fifos = ",".join('{"from":"r%d.o","to":"r%d.i","delay":65536,"life":"permanent"}' % (n, n) for n in range(5))
        text = changed(WHOLE, ('{"name":"e","kind"', rings + ',{"name":"e","kind"'), ('{"from":"u","to":"e.i"}', fifos + ',{"from":"u","to":"e.i"}'))
        fault = read_text(text).faults[0]
        self.assertEqual(fault.line, "graph: 13 count hold")
        self.assertIn(f"at most {HOLD:,} may be", fault.text)

    def test_a_file_over_its_length(self):
        found = read_text(WHOLE + " " * 4_194_304)
        self.assertEqual(found.faults[0].line, "graph: 0 length")
        self.assertIn("4,194,304", found.faults[0].text)

    def test_a_sound_file_has_no_fault(self):
        self.assertEqual(read_text(WHOLE).faults, [])

    def test_further_faults_are_seen_and_one_that_follows_isnt(self):
        found = read_text(changed(WHOLE, ('"kernel":"gain"', '"kernel":"gian"'), ('"rate":"4"', '"rate":4'), ('"to":"a.i"', '"to":"a.k"')))
        self.assertEqual([fault.line for fault in found.faults],
                         ["graph: 2 shape /graphs/0/inputs/1/rate", "graph: 5 unknown a.k", "graph: 6 kernel gian"])

    def test_marks_stand_below_what_they_mark(self):
        from pisdf_tools.source import Source
        long = "".join(f"{number:04}," for number in range(100))
        for text, start, end in (("ab\ncd ef\ngh", 6, 8), ("ab", 2, 3), ("a\tb", 2, 3), (long, 0, 4), (long, 250, 254), (long, 495, 499), (f"x\n{long}\ny", 252, 256)):
            line, marks = Source("g", text.encode()).snippet(start, end).split("\n")
            at = marks.index("^")
            self.assertEqual((marks.strip(), line[at:at + end - start]), ("^" * (end - start), text[start:end]), (text[:9], start))
            self.assertLessEqual(len(line), 4 + 100 + 4)

    @needs_program
    def test_the_program_answers_the_same_lines(self):
        for name, changes, line, _, words in ROWS:
            with self.subTest(name):
                done = call(["upgrade", "g.json"], {"g.json": changed(WHOLE, *changes)})
                self.assertEqual(done.stderr.decode().strip(), line)


if __name__ == "__main__":
    unittest.main()
