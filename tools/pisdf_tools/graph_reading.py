"""Reads the JSON value of a graph file as graphs, and finds each value that has not its form (faults 2 and 3)."""
import re

from . import graph_file as parts
from .expressions import ExpressionFault, parse
from .faults import Faults
from .kernels import table
from .limits import NAME_BYTES, PARAMETER_HIGH, VERSIONS, is_whole
from .wording import joined, listed, named, nearest, quoted, sentence, shortened

NAME = re.compile(r"[A-Za-z_][A-Za-z0-9_]*")
RESERVED = ("min", "max")
ACTOR_MEMBERS = {
    "kernel": ("name", "kind", "kernel", "args", "ins", "outs"),
    "config": ("name", "kind", "kernel", "args", "ins", "outs", "sets"),
    "graph": ("name", "kind", "graph", "args"),
    "setgraph": ("name", "kind", "graph", "args", "sets"),
}
LISTS = ("params", "inputs", "outputs", "actors", "fifos", "graphs", "args", "ins", "outs", "sets", "exports")
KINDS_OF_VALUES = {"object": "an object", "list": "a list", "string": "a text", "integer": "a number", "float": "a number",
                   "true": "`true`", "false": "`false`", "null": "`null`"}


def name_trouble(text, may_be_reserved=False):
    """Why a text is no name, or an empty text."""
    if text in RESERVED and not may_be_reserved:
        return f"{quoted(text)} is a function of expressions, so no part may be called so."
    if not text:
        return "The name is empty."
    if len(text.encode("utf-8", "surrogatepass")) > NAME_BYTES:
        return f"The name has {len(text.encode('utf-8', 'surrogatepass'))} bytes. A name has at most {NAME_BYTES}."
    if not NAME.fullmatch(text):
        wrong = next((letter for letter in text if not NAME.fullmatch("a" + letter)), text[0])
        better = re.sub(r"[^A-Za-z0-9_]", "_", text)
        write = f" Write {quoted(better)}, here and where it is named." if NAME.fullmatch(better) else ""
        return f"{quoted(text)} is no name, because of {quoted(wrong)}. A name is a letter or `_`, then letters, digits and `_`.{write}"
    return ""


def shown(value):
    """A value in words, with its text where that is short."""
    if value.kind in ("integer", "float"):
        return f"the number {shortened(str(value.value))}"
    if value.kind == "string":
        return f"the text \"{shortened(value.value)}\""
    return KINDS_OF_VALUES[value.kind]


class GraphReading:
    """Reads one file. `faults` has what was found, in the order of the walk."""

    def __init__(self, source, root):
        self.source, self.root, self.version = source, root, 3
        self.faults = Faults(source, root)

    def shape(self, pointer, value, *sentences, start=None, end=None):
        """A value that has not its form."""
        self.faults.add(2, f"shape {pointer or '/'}", pointer, start if start is not None else value.start,
                        end or (value.start + 1 if value.kind in ("object", "list") else value.end), joined(sentences))

    # ---- objects

    def members(self, value, pointer, what, required, optional=()):
        """The values of an object's members by name, of those that are there. None where it is no object."""
        if value.kind != "object":
            self.shape(pointer, value, f"{sentence(what)} is an object, and {shown(value)} stands here.")
            return None
        found = {name: member.value for name, member in value.value.items()}
        missing = [name for name in required if name not in found]
        extra = [name for name in found if name not in required and name not in optional]
        if missing or extra:
            self.object_fault(value, pointer, what, missing, extra, required, optional, found)
        return found

    def object_fault(self, value, pointer, what, missing, extra, required, optional, found):
        """Tells of members that lack or are too many. A misspelt one is taken for the one that it means."""
        sentences, start, end = [], value.start, value.start + 1
        for name in extra:
            start, end = value.value[name].start, value.value[name].end
            meant = nearest(name, missing + [other for other in optional if other not in found])
            sentences.append(self.extra_words(what, name, meant))
            if meant:
                found[meant] = found[name]
                missing = [other for other in missing if other != meant]
        if missing:
            sentences += [f"{sentence(what)} lacks {named(missing)}.", self.lack_words(missing)]
        members = f"{sentence(what)} has {named(required)}"
        sentences.append(members + (f", and may have {named(optional)}." if optional else "."))
        self.shape(pointer, value, *sentences, start=start, end=end)

    def extra_words(self, what, name, meant):
        if name == "$schema":
            return "A graph file has no member `$schema`: an editor is told of the schema by a setting of its own."
        if name == "life" and self.version == 1:
            return "Version 1 has no `life`. Write `\"pisdf\":2` or `\"pisdf\":3` at the top of the file to state lives."
        if name == "exports" and self.version < 3:
            return f"Version {self.version} has no `exports`. Write `\"pisdf\":3` at the top of the file to export parameters."
        if name == "expr":
            return "Only a parameter of the kind `is` has a member `expr`. The others get their values from elsewhere."
        if name == "rate" and "configuration" in what:
            return "The input of a configuration actor states no rate: it takes what its interface gives."
        return f"{sentence(what)} has no member {quoted(name)}." + (f" Do you mean {quoted(meant)}?" if meant else "")

    def lack_words(self, missing):
        lists = [name for name in missing if name in LISTS]
        if lists and len(lists) == len(missing):
            return f"Where there are none, write {listed([f'`{chr(34)}{name}{chr(34)}:[]`' for name in lists])}."
        if "expr" in missing:
            return "A parameter of the kind `is` gets its value from its expression."
        return ""

    def list_of(self, found, name, pointer, read):
        """What `read` makes of each value of a list. None where the list isn't there."""
        value = found.get(name) if found else None
        if value is None:
            return None
        if value.kind != "list":
            write = f" Write `[\"{shortened(value.value)}\"]`." if value.kind == "string" else ""
            self.shape(f"{pointer}/{name}", value, f"A list was wanted, and {shown(value)} stands here. A list stands in `[` and `]`.{write}")
            return None
        read_parts = [read(part, f"{pointer}/{name}/{place}") for place, part in enumerate(value.value)]
        return [part for part in read_parts if part is not None]

    # ---- texts

    def text(self, value, pointer, what):
        if value.kind == "string":
            return value.value
        self.shape(pointer, value, f"{what} is a text in double quotes, and {shown(value)} stands here.")
        return str(value.value) if value.kind == "integer" else None

    def word(self, found, name, pointer, may_be_reserved=False):
        """The name that a member holds. None where there is none."""
        if not found or name not in found:
            return None
        return self.word_of(found[name], f"{pointer}/{name}", may_be_reserved)

    def word_of(self, value, pointer, may_be_reserved=False):
        text = self.text(value, pointer, "A name")
        if text is None:
            return None
        if value.kind == "string":
            trouble = name_trouble(text, may_be_reserved)
            if trouble:
                self.shape(pointer, value, trouble)
        return parts.Word(text, value, pointer)

    def end_of(self, found, name, pointer):
        """An end of a FIFO."""
        if not found or name not in found:
            return None
        value, pointer = found[name], f"{pointer}/{name}"
        text = self.text(value, pointer, "An end")
        if text is None:
            return None
        steps = text.split(".")
        trouble = joined(dict.fromkeys(name_trouble(step) for step in steps[:2]))
        if len(steps) > 2:
            trouble = f"{quoted(text)} is no end. An end names an interface, as `x`, or a port of an actor of this graph, as `a.i`."
        if trouble and value.kind == "string":
            self.shape(pointer, value, trouble, "An end is the name of an interface, or of an actor and its port with a point between.")
        return parts.Word(text, value, pointer)

    def expression(self, found, name, pointer):
        if not found or name not in found:
            return None
        return self.expression_of(found[name], f"{pointer}/{name}")

    def expression_of(self, value, pointer):
        if value.kind != "string":
            wanted = f": write `\"{value.value}\"`" if value.kind == "integer" and value.value >= 0 else ""
            self.shape(pointer, value, f"An expression is a text in double quotes, and {shown(value)} stands here{wanted}.")
            if value.kind != "integer":
                return None
        text = str(value.value)
        try:
            return parts.Expression(text, parse(text), value, pointer)
        except ExpressionFault as fault:
            if value.kind == "string":
                start = self.place_in(value, fault.at)
                self.shape(pointer, value, f"\"{shortened(text)}\" is no expression.", fault.text, start=start, end=start + 1)
            return parts.Expression(text, None, value, pointer)

    def place_in(self, value, at):
        """Where a character of a text stands in the file: exactly where the text has no escapes."""
        exact = value.end - value.start - 2 == len(value.value)
        return value.start + 1 + at if exact and at < len(value.value) else value.end - 1 if exact else value.start

    def whole(self, value, pointer, least, most, default, why=""):
        """A whole number within bounds."""
        if value is None:
            return default
        if value.kind == "integer" and least <= value.value <= most:
            return value.value
        sentences = [f"A whole number from {least} to {most} was wanted, and {shown(value)} stands here.", why]
        if value.kind == "integer" and least == 0 and value.value < 0 and most == PARAMETER_HIGH:
            sentences.append(f"A parameter is never negative. Let it hold the value plus {-value.value}, from 0 on, and take {-value.value} away where "
                             f"the negative one is wanted, as by `level-{-value.value}` in an argument.")
        if value.kind == "float":
            sentences.append("A number with a point or an exponent is no whole number here, and neither is `-0`.")
        if value.kind == "string":
            sentences.append("A number stands without quotes.")
        self.shape(pointer, value, *sentences)
        return default

    # ---- the parts of a file

    def file(self):
        """The graphs of the file, or None where the root is no object."""
        root = self.root
        if root.kind != "object":
            self.shape("", root, f"A graph file is one object with `pisdf`, `top` and `graphs`, and {shown(root)} stands here.")
            return None
        stated = root.value.get("pisdf")
        if stated and stated.value.kind == "integer" and is_whole(stated.value.value) and stated.value.value not in VERSIONS:
            self.version_fault(stated.value)
            self.faults.pause = 2
        elif stated and stated.value.kind == "integer" and is_whole(stated.value.value):
            self.version = stated.value.value
        found = self.members(root, "", "the file", ("pisdf", "top", "graphs"))
        if stated and not (stated.value.kind == "integer" and is_whole(stated.value.value)):
            self.shape("/pisdf", stated.value, f"The version is the number 1, 2 or 3, and {shown(stated.value)} stands here.")
        top = self.word(found, "top", "")
        graphs = self.list_of(found, "graphs", "", self.graph) or []
        return parts.GraphFile(self.source, root, self.version, top, graphs)

    def version_fault(self, value):
        self.faults.add(3, f"version {value.value}", "/pisdf", value.start, value.end,
                        f"The file says that it has version {value.value} of the format. There are the versions 1, 2 and 3. "
                        "For a new graph write `\"pisdf\":3`. What else is told of this file is found as in version 3. "
                        "Whether its parts have their form is looked at once it has a version that is there.")

    def graph(self, value, pointer):
        required = ("name", "params", "inputs", "outputs", "actors", "fifos") + (("exports",) if self.version == 3 else ())
        found = self.members(value, pointer, f"a graph of version {self.version}", required)
        if found is None:
            return None
        graph = parts.Graph(self.word(found, "name", pointer) or parts.Word("", value, pointer), value=value, pointer=pointer)
        graph.params = self.list_of(found, "params", pointer, self.param) or []
        graph.inputs = self.list_of(found, "inputs", pointer, self.interface) or []
        graph.outputs = self.list_of(found, "outputs", pointer, self.interface) or []
        graph.actors = self.list_of(found, "actors", pointer, self.actor) or []
        graph.fifos = self.list_of(found, "fifos", pointer, self.fifo) or []
        if self.version == 3:
            graph.exports = self.list_of(found, "exports", pointer, self.word_of) or []
        return graph

    def param(self, value, pointer):
        stated = value.value.get("kind") if value.kind == "object" else None
        kind = stated.value.value if stated and stated.value.kind == "string" else None
        has_expression = value.kind == "object" and "expr" in value.value
        is_derived = kind == "is" or (has_expression and kind not in ("in", "set"))
        required = ("name", "kind", "expr") if is_derived else ("name", "kind")
        found = self.members(value, pointer, "a parameter", required, ("low", "high"))
        if found is None:
            return None
        is_known = kind in ("in", "is", "set")
        if not is_known and "kind" in found and has_expression:
            self.param_kind_fault(found["kind"], value, pointer, has_expression)
        name = self.word(found, "name", pointer)
        if not is_known and "kind" in found and not has_expression:
            self.param_kind_fault(found["kind"], value, pointer, has_expression)
        expression = self.expression(found, "expr", pointer) if is_derived else None
        low = self.whole(found.get("low"), f"{pointer}/low", 0, PARAMETER_HIGH, 0)
        below = f"It is below `low`, which is {low}." if "high" in found and isinstance(found["high"].value, int) and found["high"].value < low else ""
        high = self.whole(found.get("high"), f"{pointer}/high", low, PARAMETER_HIGH, PARAMETER_HIGH, below)
        if name is None:
            return None
        return parts.Param(name, kind if is_known else "is" if has_expression else "", expression, low, high, value, pointer)

    def param_kind_fault(self, kind, value, pointer, has_expression):
        meaning = "The kinds are `\"is\"` (from an expression), `\"in\"` (from an argument of the actor) and `\"set\"` (from a configuration actor)."
        if has_expression:
            self.shape(pointer, value, f"The kind is {shown(kind)}, and the parameter has an `expr`.", meaning,
                       start=kind.start, end=kind.end)
        else:
            self.shape(f"{pointer}/kind", kind, f"{sentence(shown(kind))} is no kind of parameter.", meaning)

    def interface(self, value, pointer):
        return self.port_with(value, pointer, "an interface" if pointer.count("/") == 4 else "a port")

    def port_with(self, value, pointer, what):
        found = self.members(value, pointer, what, ("name", "rate"))
        name, rate = self.word(found, "name", pointer), self.expression(found, "rate", pointer)
        return parts.Port(name, rate, value, pointer) if name else None

    def bare_port(self, value, pointer):
        found = self.members(value, pointer, "the input of a configuration actor", ("name",))
        name = self.word(found, "name", pointer)
        return parts.Port(name, None, value, pointer) if name else None

    def actor(self, value, pointer):
        kind, sentences = self.actor_kind(value)
        if value.kind != "object" or kind is None:
            self.shape(pointer, value, *(sentences or [f"An actor is an object, and {shown(value)} stands here."]))
            return self.unknown_actor(value, pointer)
        if sentences:
            stated = value.value.get("kind")
            self.shape(pointer, value, *sentences, start=stated and stated.start, end=stated and stated.value.end)
            self.faults.hold = True
        what = {"kernel": "a kernel actor", "config": "a configuration actor", "graph": "a hierarchical actor",
                "setgraph": "a hierarchical configuration actor"}[kind]
        found = self.members(value, pointer, what, ACTOR_MEMBERS[kind])
        self.faults.hold = False
        return self.actor_of(kind, found, value, pointer)

    def actor_of(self, kind, found, value, pointer):
        name = self.word(found, "name", pointer)
        kernel = self.word(found, "kernel", pointer, True) if "kernel" in ACTOR_MEMBERS[kind] else None
        child = self.word(found, "graph", pointer) if "graph" in ACTOR_MEMBERS[kind] else None
        args = self.list_of(found, "args", pointer, self.expression_of)
        ins = outs = sets = None
        if kernel or kind in ("kernel", "config"):
            ins = self.list_of(found, "ins", pointer, self.bare_port if kind == "config" else self.interface)
            outs = self.list_of(found, "outs", pointer, self.interface)
        if "sets" in ACTOR_MEMBERS[kind]:
            sets = self.list_of(found, "sets", pointer, self.word_of)
        return parts.Actor(name, kind, kernel, child, args, ins, outs, sets, value, pointer) if name else None

    def unknown_actor(self, value, pointer):
        """An actor of no known kind, of which its name alone is kept."""
        name = parts.name_of(value) if value.kind == "object" else None
        if not name:
            return None
        word = parts.Word(name, value.value["name"].value, f"{pointer}/name")
        return parts.Actor(word, "", None, None, None, None, None, None, value, pointer)

    def actor_kind(self, value):
        """The kind of an actor, as it is stated or as its other members tell, and sentences where the stated one is none."""
        if value.kind != "object":
            return None, []
        known = [kind for kind in ACTOR_MEMBERS if kind != "setgraph" or self.version == 3]
        stated = value.value.get("kind")
        kind = stated.value.value if stated and stated.value.kind == "string" else None
        if kind in known:
            return self.fitting_kind(kind, value.value)
        all_kinds = f"The kinds of version {self.version} are {named(known)}."
        if kind == "setgraph":
            return "setgraph", ["The kind `setgraph` exists from version 3 on.", all_kinds]
        meant = nearest(kind, known) if kind else None
        if meant is None:
            meant = self.kind_by_members(value.value)
        sentences = [f"{sentence(shown(stated.value))} is no kind of actor." if stated else "The actor lacks the member `kind`.", all_kinds]
        return meant, sentences + [f"Do you mean {quoted(meant)}?" if meant else ""]

    def fitting_kind(self, kind, members):
        """The stated kind of an actor, or the one whose members it has where these aren't those of the stated one, and sentences on it."""
        meant = self.kind_by_members(members)
        if meant in (kind, None) or set(members) == set(ACTOR_MEMBERS[kind]) or set(members) != set(ACTOR_MEMBERS[meant]):
            return kind, []
        kernel = members["kernel"].value.value if "kernel" in members else None
        row = table().get(kernel) if isinstance(kernel, str) else None
        if row and row.actor_kind != meant:
            return kind, []
        what = f", and {quoted(kernel)} is a kernel of such actors" if row else ""
        return meant, [f"The kind is {quoted(kind)}, but the members are those of an actor of the kind {quoted(meant)}{what}. Write `\"kind\":\"{meant}\"`."]

    def kind_by_members(self, members):
        base = "graph" if "graph" in members else "kernel" if "kernel" in members else None
        if base and "sets" in members:
            return {"graph": "setgraph", "kernel": "config"}[base] if base == "kernel" or self.version == 3 else base
        return base

    def fifo(self, value, pointer):
        optional = ("delay",) + (("life",) if self.version > 1 else ())
        found = self.members(value, pointer, "a FIFO", ("from", "to"), optional)
        tail, head = self.end_of(found, "from", pointer), self.end_of(found, "to", pointer)
        delay = self.delay(found.get("delay") if found else None, f"{pointer}/delay")
        life = self.life(found.get("life") if found else None, pointer)
        return parts.Fifo(tail, head, delay, life, value, pointer)

    def delay(self, value, pointer):
        if value is None:
            return 0
        if value.kind == "list":
            return [self.delay_token(token, f"{pointer}/{place}") for place, token in enumerate(value.value)]
        if value.kind == "integer" and 0 <= value.value and is_whole(value.value):
            return value.value
        self.shape(pointer, value, f"A delay is a number of zeros from 0 on, as `2`, or a list of whole numbers, as `[5,-6]`. {sentence(shown(value))} stands here.")
        return 0

    def delay_token(self, value, pointer):
        if value.kind == "integer" and is_whole(value.value):
            return value.value
        self.shape(pointer, value, f"A token of a delay is a whole number of 64 bits, and {shown(value)} stands here.")
        return 0

    def life(self, value, pointer):
        """The life of a delay, as it is stated. A missing one is told of as None."""
        if value is None or self.version == 1:
            return None
        if value.kind == "string" and value.value in ("firing", "permanent"):
            return value.value
        self.shape(f"{pointer}/life", value, f"A life is `\"firing\"` or `\"permanent\"`, and {shown(value)} stands here.")
        return None


def read_graphs(source, root):
    """The graphs of a file, or None, and the faults 2 and 3 of it in the order of the walk."""
    reading = GraphReading(source, root)
    file = reading.file()
    if file:
        for graph in file.graphs:
            for fifo in graph.fifos:
                is_kept = fifo.life == "permanent" or (file.version == 1 and file.top and graph.name.text == file.top.text)
                fifo.life = "permanent" if is_kept and fifo.delay_length else "firing"
    return file, reading.faults.found
