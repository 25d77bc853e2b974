"""What the tests of the tools share: the places of the repository, the program where it is built, and a graph to spoil."""
import base64
import json
import os
import shlex
import struct
import subprocess
import sys
import tempfile
import unittest
import zlib

sys.dont_write_bytecode = True
TOP = os.path.realpath(os.path.join(os.path.dirname(__file__), "..", ".."))
TOOLS = os.path.join(TOP, "tools")
sys.path.insert(0, TOOLS)

BUILT = os.environ.get("PISDF_PROGRAM") or os.path.join(TOP, "crates", "pisdf", "out", "pisdf")
PROGRAM = BUILT if os.access(BUILT, os.X_OK) and os.path.isfile(BUILT) else None
needs_program = unittest.skipUnless(PROGRAM, "the program isn't built: crates/pisdf/out/pisdf or PISDF_PROGRAM")

# A graph with a parameter of each kind, an actor of each kind and a delay.
WHOLE = """{"pisdf":3,"top":"g","graphs":[
 {"name":"g","params":[{"name":"n","kind":"set","low":1,"high":8},{"name":"m","kind":"is","expr":"n+1"},{"name":"k","kind":"is","expr":"2"}],
  "inputs":[{"name":"w","rate":"1"},{"name":"x","rate":"4"}],
  "outputs":[{"name":"y","rate":"2*k"}],
  "actors":[
   {"name":"c","kind":"config","kernel":"read_param","args":[],"ins":[{"name":"i"}],"outs":[],"sets":["n"]},
   {"name":"a","kind":"kernel","kernel":"gain","args":["m"],"ins":[{"name":"i","rate":"1"}],"outs":[{"name":"o","rate":"1"}]},
   {"name":"s","kind":"kernel","kernel":"add","args":[],"ins":[{"name":"i","rate":"1"},{"name":"j","rate":"1"}],"outs":[{"name":"o","rate":"1"}]},
   {"name":"d","kind":"kernel","kernel":"dup","args":[],"ins":[{"name":"i","rate":"1"}],"outs":[{"name":"o","rate":"1"},{"name":"p","rate":"1"}]},
   {"name":"b","kind":"graph","graph":"h","args":["k"]}],
  "fifos":[
   {"from":"w","to":"c.i"},
   {"from":"x","to":"a.i"},
   {"from":"a.o","to":"s.i"},
   {"from":"s.o","to":"d.i"},
   {"from":"d.p","to":"s.j","delay":[0],"life":"permanent"},
   {"from":"d.o","to":"b.u"},
   {"from":"b.v","to":"y"}],
  "exports":[]},
 {"name":"h","params":[{"name":"p","kind":"in"}],
  "inputs":[{"name":"u","rate":"p"}],
  "outputs":[{"name":"v","rate":"p"}],
  "actors":[
   {"name":"e","kind":"kernel","kernel":"pass","args":[],"ins":[{"name":"i","rate":"p"}],"outs":[{"name":"o","rate":"p"}]}],
  "fifos":[{"from":"u","to":"e.i"},{"from":"e.o","to":"v"}],
  "exports":[]}]}
"""


def changed(text, *pairs):
    """The text with each first part of a pair replaced by the second, once. A part that isn't there is a fault of the test."""
    for old, new in pairs:
        if old not in text:
            raise AssertionError(f"the text to change isn't there: {old}")
        text = text.replace(old, new, 1)
    return text


def chain(count):
    """A graph file with so many actors one behind the other."""
    actors = [{"name": f"a{at}", "kind": "kernel", "kernel": "pass", "args": [], "ins": [{"name": "i", "rate": "1"}], "outs": [{"name": "o", "rate": "1"}]} for at in range(count)]
    ends = ["x", *(f"a{at}.{port}" for at in range(count) for port in "io"), "y"]
    fifos = [{"from": one, "to": other} for one, other in zip(ends[::2], ends[1::2])]
    graph = {"name": "g", "params": [], "inputs": [{"name": "x", "rate": "1"}], "outputs": [{"name": "y", "rate": "1"}], "actors": actors, "fifos": fifos, "exports": []}
    return json.dumps({"pisdf": 3, "top": "g", "graphs": [graph]})


def pixels(address):
    """The rows of grey values of an image that stands in a page."""
    data, found, at = base64.b64decode(address.removeprefix("data:image/png;base64,")), {}, 8
    while at < len(data):
        size, name = struct.unpack(">I4s", data[at:at + 8])
        body, check = data[at + 8:at + 8 + size], struct.unpack(">I", data[at + 8 + size:at + 12 + size])[0]
        if check != zlib.crc32(name + body):
            raise AssertionError(f"the part {name} of the image is spoiled")
        found[name], at = body, at + 12 + size
    wide, high = struct.unpack(">II", found[b"IHDR"][:8])
    raw = zlib.decompress(found[b"IDAT"])
    return [raw[row * (wide + 1) + 1:(row + 1) * (wide + 1)] for row in range(high)]


def read_text(text, path="g.json"):
    """What the tools read of a graph file with this text."""
    from pisdf_tools import reading
    from pisdf_tools.source import Source
    return reading.read(Source(path, text if isinstance(text, bytes) else text.encode()))


def stored_program(folder, end="exit 0", errors="", output=""):
    """A program that answers each call alike, for what can be tried without the built one. `end` is the line of shell by which it ends."""
    path = os.path.join(folder, "stored")
    with open(path, "w", encoding="utf-8") as file:
        file.write(f"#!/bin/sh\nprintf %s {shlex.quote(output)}\nprintf %s {shlex.quote(errors)} >&2\n{end}\n")
    os.chmod(path, 0o755)
    return path


def call_over(answer, words, files, tool):
    """A call of a tool over a program that answers so, in a folder with these files."""
    with tempfile.TemporaryDirectory() as room:
        return call(words, files, tool, stored_program(room, **answer))


def call(words, files=(), tool=None, program=PROGRAM):
    """A call of the program, or of a tool with the program before its words, in a folder with these files."""
    with tempfile.TemporaryDirectory() as folder:
        for name, text in dict(files).items():
            with open(os.path.join(folder, name), "wb") as file:
                file.write(text if isinstance(text, bytes) else text.encode())
        command = [sys.executable, os.path.join(TOOLS, tool), program] if tool else [program]
        return subprocess.run(command + list(words), cwd=folder, stdin=subprocess.DEVNULL, capture_output=True, timeout=60)
