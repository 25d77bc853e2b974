"""The table of kernels, as docs/KERNELS.md has it: counts, formulas, and what each rate and argument must be."""
import functools
import json
import os
import re
from dataclasses import dataclass

PAGE = os.path.join(os.path.dirname(__file__), "..", "..", "docs", "KERNELS.md")
HEADING = re.compile(r"^\| Kernel \|.*\|$", re.M)
ROW = re.compile(r"\| \[`(\w+)`\]\(#\w+\) \| ([^|]*) \| ([^|]*) \| ([^|]*) \| ([^|]*) \| ([^|]*) \|")
EXAMPLE = re.compile(r"^Example: `(\{.*?\})`", re.M)
CONSTANT = "The kernel `ramp` with the arguments N and 0 gives the number N again and again."
FILTER = "The kernel `fir` filters the tokens of one firing. Over an endless stream a filter is made of `dup`, `gain`, `add` and delays."
RUNNING = "The kernel `sum` adds the tokens of one firing. A running sum is a ring of `add` and `dup` with a delay."
UNWANTED = "Lead tokens that nobody wants to an output interface of the rate 1, which keeps the last of them."
# Words of other tools and everyday ones that one may look for among the kernels, with what stands for them here.
OTHER_WORDS = {
    "abs": "`max` of the tokens and of the same tokens by `gain` with the argument `0-1` gives what they are without their sign.",
    "accumulate": RUNNING,
    "average": "The kernel `mean` gives the mean of its input.",
    "broadcast": "The kernel `dup` gives each token twice, and a chain of them more often.",
    "constant": CONSTANT,
    "const": CONSTANT,
    "convolve": FILTER,
    "copy": "The kernel `pass` gives its input, and `dup` gives it twice.",
    "decimate": "The kernel `down` gives one token of each run of several.",
    "delay": "A delay is a member of a FIFO: `\"delay\":[0]` or `\"delay\":1`.",
    "discard": UNWANTED,
    "downsample": "The kernel `down` gives one token of each run of several.",
    "filter": FILTER,
    "fork": "The compiler adds forks by itself where a FIFO feeds several firings. The kernel `dup` gives each token twice.",
    "init": "The first tokens of a delay are a member of a FIFO, as `\"delay\":[5,-6]`.",
    "integrate": RUNNING,
    "join": "The compiler adds joins by itself where several firings feed a FIFO.",
    "multiply": "The kernel `gain` multiplies tokens by its argument, and `mul` by the tokens of a second input.",
    "negate": "The kernel `gain` with the argument `0-1` gives each token with the other sign.",
    "roundbuffer": "An output interface keeps its last tokens by itself.",
    "scale": "The kernel `gain` multiplies tokens by its argument, and `div` divides them by the tokens of a second input.",
    "sink": UNWANTED,
    "source": "Tokens come from an input interface. The kernel `ramp` makes numbers at equal steps, or one number again and again.",
    "square": "The kernel `dup` gives each token twice, and `mul` behind it multiplies the two.",
    "subtract": "The kernel `sub` gives differences, place by place.",
    "upsample": "The kernel `up` gives each token several times in a row.",
}
# Under which word a section tells of a code.
ABOUT = {1: "Overflow", 2: "Division", 3: "Rates", 4: "Value"}


@dataclass(frozen=True)
class Span:
    """How many of something a kernel takes."""
    least: int
    most: int

    def __contains__(self, count):
        return self.least <= count <= self.most

    def __str__(self):
        return str(self.least) if self.least == self.most else f"{self.least} to {self.most}"


@dataclass(frozen=True)
class Kernel:
    """A row of the table with its section. `counts` are those of `args`, `ins`, `outs` and `sets`."""
    name: str
    counts: dict
    short: str
    section: str

    @property
    def is_config(self):
        return self.counts["sets"].most > 0

    @property
    def actor_kind(self):
        return "config" if self.is_config else "kernel"

    def sentence(self, about):
        """What the page says of `Rates`, `Arguments`, `Value` and so on, or an empty text."""
        return dict(re.findall(r"^- (\w+): (.*)$", self.section, re.M)).get(about, "")

    def rule(self, code):
        """What the page says of the faults with this code, as `Rates of `sum`: ..`, or an empty text."""
        rule = self.sentence(ABOUT[code])
        return f"{ABOUT[code]} of `{self.name}`: {rule}" if rule else ""

    def example(self):
        """The first example of the section: a row of the table of kernels, with numbers for arguments and rates."""
        return json.loads(EXAMPLE.search(self.section).group(1))


@functools.cache
def page():
    with open(PAGE, encoding="utf-8") as file:
        return file.read()


def span(text):
    numbers = [int(number) for number in re.findall(r"\d+", text)]
    return Span(numbers[0], numbers[-1])


def sections():
    """The text of each section with the name of a kernel, up to the next heading."""
    return dict(re.findall(r"^### (\w+)\n(.*?)(?=^##|\Z)", page(), re.M | re.S))


@functools.cache
def table():
    """All kernels by name, in the order of the page."""
    found, kernels = sections(), {}
    for name, *counts, short in ROW.findall(page()):
        spans = dict(zip(("args", "ins", "outs", "sets"), map(span, counts)))
        kernels[name] = Kernel(name, spans, short, found.get(name, ""))
    return kernels


def heading():
    """The words over the columns of the table."""
    return [word.strip() for word in HEADING.search(page()).group().strip("|").split("|")]


def code_meaning(code):
    """What the page says of a code of a kernel's fault."""
    rows = dict(re.findall(r"^\| (\d) \| \w+ \| (.*) \|$", page(), re.M))
    return rows.get(str(code), "")
