"""The schema of graph files, by a validator of the keywords that it uses."""
import glob
import json
import os
import re
import unittest

TOP = os.path.realpath(os.path.join(os.path.dirname(__file__), "..", ".."))

TYPES = {"object": dict, "array": list, "string": str}
TOLD = {"$schema", "title", "$comment", "description", "default", "enumDescriptions", "$defs"}


def is_of(value, kind):
    return isinstance(value, int) and not isinstance(value, bool) if kind == "integer" else isinstance(value, TYPES[kind])


def errors(schema, value, place=""):
    """Where the value breaks the schema: pairs of a place and the keyword that it breaks."""
    for keyword, wanted in schema.items():
        yield from CHECKS[keyword](schema, wanted, value, place) if keyword not in TOLD else ()


def holds(condition):
    """A keyword that a value meets or breaks as a whole."""
    def check(schema, wanted, value, place):
        keyword = next(name for name in CHECKS if CHECKS[name] is check)
        if not condition(wanted, value):
            yield place, keyword
    return check


def reference(schema, wanted, value, place):
    yield from errors(SCHEMA["$defs"][wanted.removeprefix("#/$defs/")], value, place)


def properties(schema, wanted, value, place):
    for name, part in wanted.items():
        if isinstance(value, dict) and name in value:
            yield from errors(part, value[name], f"{place}/{name}")


def no_others(schema, wanted, value, place):
    for name in value if isinstance(value, dict) else ():
        if name not in schema["properties"]:
            yield f"{place}/{name}", "additionalProperties"


def items(schema, wanted, value, place):
    for number, part in enumerate(value if isinstance(value, list) else ()):
        yield from errors(wanted, part, f"{place}/{number}")


def all_of(schema, wanted, value, place):
    for part in wanted:
        yield from errors(part, value, place)


def conditional(schema, wanted, value, place):
    if not list(errors(wanted, value, place)):
        yield from errors(schema["then"], value, place)


def measured(length, kind):
    return holds(lambda wanted, value: not isinstance(value, kind) or length(wanted, value))


CHECKS = {
    "$ref": reference,
    "properties": properties,
    "additionalProperties": no_others,
    "items": items,
    "allOf": all_of,
    "if": conditional,
    "then": lambda schema, wanted, value, place: (),
    "type": holds(lambda wanted, value: any(is_of(value, kind) for kind in (wanted if isinstance(wanted, list) else [wanted]))),
    "const": holds(lambda wanted, value: value == wanted and not isinstance(value, bool)),
    "enum": holds(lambda wanted, value: value in wanted and not isinstance(value, bool)),
    "required": holds(lambda wanted, value: not isinstance(value, dict) or all(name in value for name in wanted)),
    "pattern": measured(lambda wanted, value: re.search(wanted, value), str),
    "maxLength": measured(lambda wanted, value: len(value) <= wanted, str),
    "minimum": measured(lambda wanted, value: value >= wanted, int),
    "maximum": measured(lambda wanted, value: value <= wanted, int),
    "minItems": measured(lambda wanted, value: len(value) >= wanted, list),
    "maxItems": measured(lambda wanted, value: len(value) <= wanted, list),
}


def text_of(path):
    with open(path, encoding="utf-8") as file:
        return file.read()


SCHEMA = json.loads(text_of(os.path.join(TOP, "docs", "pisdf.schema.json")))


def kernel_graph(**changes):
    """A graph of version 3 whose actor has these changes."""
    actor = {"name": "a", "kind": "kernel", "kernel": "pass", "args": [], "ins": [{"name": "i", "rate": "1"}], "outs": [{"name": "o", "rate": "1"}]}
    graph = {"name": "g", "params": [], "inputs": [], "outputs": [], "actors": [{**actor, **changes}], "fifos": [], "exports": []}
    return {"pisdf": 3, "top": "g", "graphs": [graph]}


class Schema(unittest.TestCase):
    def told(self, value):
        return list(errors(SCHEMA, value))

    def test_graphs_that_are_run(self):
        files = glob.glob(os.path.join(TOP, "examples", "*", "g.json"))
        for folder in glob.glob(os.path.join(TOP, "tests", "commands", "*")):
            status = os.path.join(folder, "status")
            if os.path.exists(status) and text_of(status).strip() == "0":
                files += glob.glob(os.path.join(folder, "files", "g.json"))
        self.assertGreater(len(files), 12)
        for path in files:
            self.assertEqual(self.told(json.loads(text_of(path))), [], path)

    def test_another_version(self):
        self.assertEqual(self.told({"pisdf": 4, "top": "g", "graphs": []}), [("/pisdf", "enum")])
        self.assertEqual(self.told({"top": "g", "graphs": []}), [("", "required")])

    def test_a_member_of_a_later_version_is_named_alone(self):
        file = kernel_graph()
        file["pisdf"] = 2
        self.assertEqual(self.told(file), [("/graphs/0/exports", "additionalProperties")])
        del file["graphs"][0]["exports"]
        self.assertEqual(self.told(file), [])
        file["pisdf"] = 3
        self.assertEqual(self.told(file), [("/graphs/0", "required")])

    def test_a_life_in_version_1(self):
        file = kernel_graph()
        file["pisdf"] = 1
        del file["graphs"][0]["exports"]
        file["graphs"][0]["fifos"] = [{"from": "a.o", "to": "a.i", "delay": 1, "life": "firing"}]
        self.assertEqual(self.told(file), [("/graphs/0/fifos/0/life", "additionalProperties")])

    def test_a_fault_within_an_actor_is_told_at_its_place(self):
        self.assertEqual(self.told(kernel_graph(outs=[{"name": "o", "rate": 1}])), [("/graphs/0/actors/0/outs/0/rate", "type")])
        self.assertEqual(self.told(kernel_graph(kind="actor")), [("/graphs/0/actors/0/kind", "enum")])
        self.assertEqual(self.told(kernel_graph(kernel="copy")), [("/graphs/0/actors/0/kernel", "enum")])
        self.assertEqual(self.told(kernel_graph(kernel="read_param")), [("/graphs/0/actors/0/kernel", "enum")])

    def test_the_counts_of_a_kernel(self):
        self.assertEqual(self.told(kernel_graph(args=["1"])), [("/graphs/0/actors/0/args", "maxItems")])
        self.assertEqual(self.told(kernel_graph(kernel="gain")), [("/graphs/0/actors/0/args", "minItems")])
        self.assertEqual(self.told(kernel_graph(kernel="add")), [("/graphs/0/actors/0/ins", "minItems")])
        self.assertEqual(self.told(kernel_graph(kernel="fir", args=["1"] * 16)), [])
        self.assertEqual(self.told(kernel_graph(kernel="fir", args=["1"] * 17)), [("/graphs/0/actors/0/args", "maxItems")])

    def test_a_delay(self):
        for delay, told in ((3, []), ([1, -2], []), (-1, ["minimum"]), ("3", ["type"]), ([2**63], ["maximum"])):
            file = kernel_graph()
            file["graphs"][0]["fifos"] = [{"from": "a.o", "to": "a.i", "delay": delay}]
            self.assertEqual([keyword for _, keyword in self.told(file)], told)

    def test_a_parameter(self):
        for param, told in (({"name": "n", "kind": "is"}, ["required"]), ({"name": "n", "kind": "set", "expr": "1"}, ["additionalProperties"]), ({"name": "n", "kind": "to"}, ["enum"])):
            file = kernel_graph()
            file["graphs"][0]["params"] = [param]
            self.assertEqual([keyword for _, keyword in self.told(file)], told)


if __name__ == "__main__":
    unittest.main()
