"""Pictures as SVG: elements, colours, and images of many points."""
import base64
import itertools
import re
import struct
import zlib
from xml.sax.saxutils import escape, quoteattr

# The colours of workers, those of firings of graphs, and that of what belongs to neither.
COLOURS = ["#a6cee3", "#b2df8a", "#fdbf6f", "#cab2d6", "#fb9a99", "#ffff99", "#d9d9d9", "#80cdc1"]
FIRING_COLOURS = ["#e3cda4", "#a9c3a5", "#d6a79c", "#b5b3cf", "#c9cf8f", "#9fc4c4", "#d0aecb", "#c2bab0"]
GREY = "#d5dae0"
STYLE = (
    "text{font:12px Helvetica,Arial,sans-serif;fill:var(--ink,#1a222b)} .small{font-size:11px} .middle{text-anchor:middle} .end{text-anchor:end}"
    " .frame{fill:none;stroke:var(--line,#8094a8)} .grid{stroke:var(--grid,#d5dbe1)} .edge{fill:none;stroke:var(--ink,#445566)}"
    " .head{fill:var(--ink,#445566)} .on{fill:#1a222b} .box{stroke:#445566} .thin{stroke:none} .critical{stroke:#c00000;stroke-width:2.5}"
    " .over{paint-order:stroke;stroke:var(--panel,#ffffff);stroke-width:8px;stroke-linejoin:round}"
    " .turn{stroke:var(--line,#8094a8);stroke-dasharray:2 3} .use{fill:none;stroke:var(--use,#5577bb);stroke-dasharray:4 3} .value{fill:none;stroke:var(--value,#1f6fb2);stroke-width:1.5}"
    " .dot{fill:var(--value,#1f6fb2)}"
)


def colour(worker):
    return COLOURS[worker % len(COLOURS)]


def firing_colour(number):
    return FIRING_COLOURS[number % len(FIRING_COLOURS)]


def element(name, text=None, **attributes):
    """An element; attributes are written with - where a name of Python's has _, and without the _ at its end."""
    words = "".join(f" {key.rstrip('_').replace('_', '-')}={quoteattr(number(value))}" for key, value in attributes.items())
    return f"<{name}{words}/>" if text is None else f"<{name}{words}>{text}</{name}>"


def number(value):
    return f"{value:.1f}".removesuffix(".0") if isinstance(value, float) else str(value)


def text(x, y, words, class_="small"):
    return element("text", escape(words), x=x, y=y, class_=class_)


def title(words):
    return element("title", escape(words))


def picture(width, height, label, parts):
    """A whole picture. The label tells what it shows to whoever doesn't see it."""
    head = element("title", escape(label)) + element("style", STYLE)
    size = {"width": number(width), "height": number(height), "viewBox": f"0 0 {number(width)} {number(height)}"}
    return element("svg", head + "".join(parts), xmlns="http://www.w3.org/2000/svg", role="img", aria_label=label, **size)


def alone(drawn):
    """A picture for a file of its own: on white, and with colours that stand in it, since not every reader of SVG knows variables."""
    style = re.sub(r"var\(--\w+,(#\w+)\)", r"\1", STYLE)
    return drawn.replace(element("style", STYLE), element("style", style) + '<rect width="100%" height="100%" fill="#ffffff"/>', 1)


def marks(length, count):
    """Round numbers from 0 to a length, at most so many of them."""
    steps = (digit * 10**power for power in itertools.count() for digit in (1, 2, 5))
    return range(0, length + 1, next(step for step in steps if length // step < count))


def image(rows):
    """Rows of grey values from 0 to 255 as an address of a PNG image that stands in the page itself."""
    def chunk(name, data):
        return struct.pack(">I", len(data)) + name + data + struct.pack(">I", zlib.crc32(name + data))

    header = struct.pack(">IIBBBBB", len(rows[0]), len(rows), 8, 0, 0, 0, 0)
    data = zlib.compress(b"".join(b"\0" + bytes(row) for row in rows), 6)
    png = b"\x89PNG\r\n\x1a\n" + chunk(b"IHDR", header) + chunk(b"IDAT", data) + chunk(b"IEND", b"")
    return "data:image/png;base64," + base64.b64encode(png).decode()
