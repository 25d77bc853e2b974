#!/usr/bin/env python3
"""Tells of the kernels, as docs/KERNELS.md has them.

usage: kernels.py           a line for each kernel: its name, its numbers of arguments, inputs, outputs and parameters set, and what it gives
       kernels.py NAME      what one kernel takes, gives and refuses
"""
import json
import re
import sys

sys.dont_write_bytecode = True

from pisdf_tools.kernels import OTHER_WORDS, heading, table
from pisdf_tools.output import written
from pisdf_tools.wording import nearest

LETTERS = ("x is the first input, z the second, out the output, all counted from 0. r is the rate of x, s that of the output. "
           "Overflow, Division, Shape and Value are the codes 1, 2, 3 and 4 of a refusal.")


def plain(text):
    """A text of the page without the marks of links, code and weight."""
    text = re.sub(r"\[([^\]]*)\]\([^)]*\)", r"\1", text)
    return re.sub(r"\\([*_])", r"\1", text.replace("`", "").replace("**", ""))


def section(kernel):
    """What the page has under the heading of a kernel, with the actor that it belongs into."""
    parts = [kernel.name, kind_words(kernel), plain(kernel.section).strip(), actor_words(kernel), LETTERS]
    return "\n\n".join(parts)


def kind_words(kernel):
    """What kind of actor a kernel is for, and with what counts."""
    counts = ", ".join(f"{what}: {kernel.counts[part]}" for part, what in (("args", "arguments"), ("ins", "inputs"), ("outs", "outputs"), ("sets", "parameters set")))
    return f'For an actor of the kind "{kernel.actor_kind}"; {counts}.'


def expression(number):
    return str(number) if number >= 0 else f"0-{-number}"


def actor_words(kernel):
    """The page's example of a kernel as an actor of a graph file."""
    example = kernel.example()
    rates = [len(tokens) for tokens in example.get("ins", [])]
    actor = {"name": "a", "kind": kernel.actor_kind, "kernel": kernel.name, "args": [expression(number) for number in example.get("args", [])],
             "ins": [{"name": port} if kernel.is_config else {"name": port, "rate": str(rate)} for port, rate in zip("ij", rates)],
             "outs": [{"name": port, "rate": str(rate)} for port, rate in zip("op", example.get("outs", []))]}
    if kernel.is_config:
        actor["sets"] = list("nmkl"[:example.get("sets", 0)])
    return f"As an actor of a graph file: {json.dumps(actor, separators=(',', ':'))}"


def columns():
    """The table with its fields below each other."""
    rows = [heading()] + [[kernel.name, *map(str, kernel.counts.values()), plain(kernel.short)] for kernel in table().values()]
    widths = [max(len(row[place]) for row in rows) for place in range(len(rows[0]))]
    return "\n".join("  ".join(field.ljust(width) for field, width in zip(row, widths)).rstrip() for row in rows)


def answer(words):
    """The text that is written, or None and what is wrong."""
    if not words:
        return columns() + "\n\n./pisdf kernels NAME tells what a kernel takes, gives and refuses.", None
    if len(words) > 1:
        return None, "give one name, or none"
    name = words[0]
    if name in table():
        return section(table()[name]), None
    if name.lower() in OTHER_WORDS:
        return None, f"no kernel has the name '{name}'. {plain(OTHER_WORDS[name.lower()])}"
    near = nearest(name, table())
    hint = f"the nearest name is '{near}'" if near else "./pisdf kernels lists them"
    return None, f"no kernel has the name '{name}': {hint}"


def main(words):
    text, wrong = answer(words)
    if wrong:
        print(f"kernels: {wrong}", file=sys.stderr)
        return 1
    return written("kernels", lambda: print(text) or 0)


if __name__ == "__main__":
    sys.exit(main(sys.argv[1:]))
