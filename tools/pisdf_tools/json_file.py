"""A reader of JSON that keeps where each value and each member stands.

It takes and refuses what the program takes and refuses: UTF-8 without a byte order mark, numbers without leading zeros, values
that nest up to 127 deep, and of duplicate members the last.
"""
import re
from dataclasses import dataclass

from .limits import JSON_NESTING
from .wording import quoted, shortened

BLANKS = re.compile(r"[ \t\n\r]*")
NUMBER = re.compile(r"-?(?:0|[1-9][0-9]*)(\.[0-9]+)?([eE][+-]?[0-9]+)?")
PLAIN = re.compile(r'[^"\\\x00-\x1f\udc80-\udcff]*')
HEX = re.compile(r"[0-9a-fA-F]{4}")
WORD = re.compile(r"[A-Za-z_][A-Za-z_0-9.]*")
ESCAPES = {'"': '"', "\\": "\\", "/": "/", "b": "\b", "f": "\f", "n": "\n", "r": "\r", "t": "\t"}
LITERALS = {"true": True, "false": False, "null": None}
BARE_NAME = re.compile(r'([A-Za-z_][A-Za-z_0-9]*)"?[ \t]*:')
BARE_TEXT = re.compile(r'([A-Za-z_][A-Za-z_0-9.]*)"?[ \t]*(?=[],}\n])')
SINGLE = re.compile(r"'([^'\"\\\n]*)'")
COMMENT = re.compile(r"//[^\n]*|#[^\n]*|/\*.*?\*/", re.S)
OTHER_LITERALS = ("True", "False", "None", "NaN", "Infinity")
MOST_MENDED = 10


@dataclass(slots=True)
class Value:
    """A value of the file. Of an object `value` has a Member by name, of a list the values, of a float its text."""
    kind: str
    value: object
    start: int
    end: int


@dataclass(slots=True)
class Member:
    """A member of an object: where its name stands, its value, and whether an earlier member had its name."""
    start: int
    end: int
    value: Value
    repeated: bool


class JsonFault(Exception):
    """Where a text is no JSON, and what was wanted there."""

    def __init__(self, start, text, end=None):
        super().__init__(text)
        self.start, self.end, self.text = start, end or start + 1, text


class Reader:
    """Reads one text from the front. `at` is the place of the next character.

    Where it is plain what was meant, the reader goes on as if it stood there, and keeps the fault in `mended`.
    """

    def __init__(self, source):
        self.source, self.text, self.at, self.depth, self.mended, self.told = source, source.text, 0, 0, [], set()

    def mend(self, fault, kind=None):
        """Keeps a fault that what follows doesn't depend on. Of the faults of a kind only the first is kept."""
        if kind in self.told:
            return
        self.told.update([kind] if kind else [])
        self.mended.append(fault)
        if len(self.mended) == MOST_MENDED:
            raise self.mended.pop()

    def skip(self):
        self.at = BLANKS.match(self.text, self.at).end()
        while comment := COMMENT.match(self.text, self.at):
            self.mend(JsonFault(self.at, "JSON has no comments. Take this one out, and all others."), "comment")
            self.at = BLANKS.match(self.text, comment.end()).end()

    def peek(self):
        return self.text[self.at:self.at + 1]

    def opened(self, start):
        line, column = self.source.position(start)
        return f"line {line}, column {column}"

    def read_file(self):
        if self.text.startswith("\ufeff"):
            raise JsonFault(0, "The file begins with a byte order mark. Save it as UTF-8 without one.")
        if self.source.data.startswith((b"\xff\xfe", b"\xfe\xff")):
            raise JsonFault(0, "The file is UTF-16. Save it as UTF-8 without a byte order mark.")
        self.skip()
        if not self.peek():
            raise JsonFault(self.at, "The file is empty. A graph file is one JSON object.")
        value = self.read_value("one JSON value")
        self.skip()
        if self.peek():
            raise JsonFault(self.at, f"The value that the file holds has ended, and {self.found()} stands after it. "
                                     "A bracket may be closed too early or once too often.")
        return value

    def read_value(self, wanted):
        letter = self.peek()
        if letter == "{":
            return self.read_object()
        if letter == "[":
            return self.read_list()
        if letter == '"':
            return self.read_string()
        if letter == "-" or "0" <= letter <= "9":
            return self.read_number()
        word = WORD.match(self.text, self.at)
        if word and word[0] in LITERALS:
            self.at = word.end()
            return Value(word[0], LITERALS[word[0]], word.start(), self.at)
        fault = JsonFault(self.at, self.unfit(wanted), word and word.end())
        if self.depth and SINGLE.match(self.text, self.at):
            return self.read_single(fault)
        bare = BARE_TEXT.match(self.text, self.at)
        if self.depth == 0 or not bare or bare[1] in OTHER_LITERALS:
            raise fault
        self.mend(fault)
        self.at = bare.end()
        return Value("string", bare[1], bare.start(1), bare.end(1))

    def deeper(self):
        self.depth += 1
        if self.depth > JSON_NESTING:
            raise JsonFault(self.at, f"Brackets nest more than {JSON_NESTING} deep here.")

    def read_object(self):
        start, members = self.at, {}
        self.deeper()
        self.at += 1
        self.skip()
        while self.peek() != "}":
            self.read_member(start, members)
            self.next_or_end("}", start, "object")
        self.at += 1
        self.depth -= 1
        return Value("object", members, start, self.at)

    def read_member(self, opened, members):
        name = self.read_string() if self.peek() == '"' else self.read_bare_name(opened)
        self.skip()
        if self.peek() != ":":
            raise JsonFault(self.at, f"A `:` was wanted after the member name {quoted(name.value)}, and {self.found()} stands here.")
        self.at += 1
        self.skip()
        value = self.read_value(f"the value of the member {quoted(name.value)}")
        members[name.value] = Member(name.start, name.end, value, name.value in members)

    def read_bare_name(self, opened):
        """The name of a member that lacks its quotes, or the first of them."""
        fault = JsonFault(self.at, self.unfit(f"the name of a member in double quotes, or `}}` for the object from {self.opened(opened)},"))
        if SINGLE.match(self.text, self.at):
            return self.read_single(fault)
        bare = BARE_NAME.match(self.text, self.at)
        if not bare:
            raise fault
        self.mend(fault)
        self.at = bare.end() - 1
        return Value("string", bare[1], bare.start(1), bare.end(1))

    def read_single(self, fault):
        """A text in single quotes."""
        self.mend(fault, "single quotes")
        text = SINGLE.match(self.text, self.at)
        self.at = text.end()
        return Value("string", text[1], text.start(), text.end())

    def read_list(self):
        start, values = self.at, []
        self.deeper()
        self.at += 1
        self.skip()
        while self.peek() != "]":
            values.append(self.read_value(f"a value, or `]` for the list from {self.opened(start)},"))
            self.next_or_end("]", start, "list")
        self.at += 1
        self.depth -= 1
        return Value("list", values, start, self.at)

    def next_or_end(self, closing, start, what):
        """Goes over a comma to the next part, or stands at the closing bracket."""
        self.skip()
        letter = self.peek()
        if letter == closing:
            return
        if letter == ",":
            comma = self.at
            self.at += 1
            self.skip()
            if self.peek() == closing:
                self.mend(JsonFault(comma, f"A comma stands before `{closing}`. The last part of {what_is(what)} has no comma after it."))
            return
        if not letter:
            raise JsonFault(self.at, f"The file ends here, and the {what} from {self.opened(start)} isn't closed. A `{closing}` is missing.")
        fault = JsonFault(self.at, f"A `,` or `{closing}` was wanted here, and {self.found()} stands here. "
                                   f"The {what} begins at {self.opened(start)}.{self.hint()}")
        if letter not in '{["':
            raise fault
        self.mend(fault)

    def read_number(self):
        match = NUMBER.match(self.text, self.at)
        start = self.at
        if not match:
            raise JsonFault(start, "A digit is missing after `-`.")
        end = match.end()
        after = self.text[end:end + 1]
        if "0" <= after <= "9":
            raise JsonFault(start, "A number has no leading zeros.", end + 1)
        if after in (".", "e", "E") and after:
            raise JsonFault(start, f"Digits are missing after `{after}`. A whole number has no point and no exponent.", end + 1)
        self.at = end
        if match[1] or match[2] or match[0] == "-0":
            return self.float_value(match[0], start)
        number = int(match[0]) if end - start < 400 else None
        if number is not None and -(1 << 63) <= number < 1 << 64:
            return Value("integer", number, start, end)
        return self.float_value(match[0], start)

    def float_value(self, text, start):
        if float(text) in (float("inf"), float("-inf")):
            raise JsonFault(start, "The number is too large.", self.at)
        return Value("float", text, start, self.at)

    def read_string(self):
        start, parts = self.at, []
        self.at += 1
        while True:
            plain = PLAIN.match(self.text, self.at)
            parts.append(plain[0])
            self.at = plain.end()
            letter = self.peek()
            if letter == '"':
                self.at += 1
                return Value("string", "".join(parts), start, self.at)
            if letter != "\\":
                raise self.string_fault(start, letter)
            parts.append(self.read_escape())

    def string_fault(self, start, letter):
        if not letter:
            return JsonFault(start, "The text that begins here has no closing quote up to the file's end.")
        if letter == "\n" or letter == "\r":
            return JsonFault(start, "The text that begins here has no closing quote on its line.", self.at)
        if letter >= "\udc80":
            return JsonFault(self.at, f"The byte {ord(letter) - 0xdc00:#04x} is no UTF-8. Save the file as UTF-8.")
        return JsonFault(self.at, f"The character {shortened(letter)} may not stand in a text. Write it as \\u{ord(letter):04x}.")

    def read_escape(self):
        start, letter = self.at, self.text[self.at + 1:self.at + 2]
        self.at += 2
        if letter in ESCAPES and letter:
            return ESCAPES[letter]
        if letter != "u":
            raise JsonFault(start, f"The sequence `\\{shortened(letter)}` is none that JSON has.", self.at)
        code = self.read_code(start)
        if 0xdc00 <= code < 0xe000:
            raise JsonFault(start, "The second half of a character stands here without its first half.", self.at)
        if 0xd800 <= code < 0xdc00:
            if not self.text.startswith("\\u", self.at):
                raise JsonFault(start, "The first half of a character stands here without its second half.", self.at)
            self.at += 2
            low = self.read_code(start)
            if not 0xdc00 <= low < 0xe000:
                raise JsonFault(start, "The first half of a character stands here without its second half.", self.at)
            code = 0x10000 + ((code - 0xd800) << 10) + (low - 0xdc00)
        return chr(code)

    def read_code(self, start):
        digits = HEX.match(self.text, self.at)
        if not digits:
            raise JsonFault(start, "Four hexadecimal digits were wanted after `\\u`.", self.at)
        self.at = digits.end()
        return int(digits[0], 16)

    def found(self):
        """What stands at this place, in words."""
        letter = self.peek()
        if not letter:
            return "the file's end"
        if "\udc80" <= letter <= "\udcff":
            return f"the byte {ord(letter) - 0xdc00:#04x}"
        word = WORD.match(self.text, self.at)
        return quoted(word[0] if word else letter)

    def hint(self):
        """What is often meant by a character that JSON doesn't have there."""
        letter, word = self.peek(), WORD.match(self.text, self.at)
        if letter in ("/", "#") and letter:
            return " JSON has no comments."
        if letter in ("'", "\u201c", "\u201d", "\u2018", "\u2019") and letter:
            return ' Texts stand in double quotes: `"a"`.'
        if letter == "<":
            return " This looks like XML. Files of PREESM aren't read: write the graph as JSON."
        if letter == "{" or letter == "[" or letter == '"':
            return " A comma may be missing before it."
        if word:
            return f' A text stands in double quotes: `"{shortened(word[0])}"`.'
        return ""

    def unfit(self, wanted):
        return f"{wanted[:1].upper()}{wanted[1:]} was wanted here, and {self.found()} stands here.{self.hint()}"


def what_is(what):
    return "an object" if what == "object" else "a list"


def read_json(source):
    """The value of a file with all places, None where it can't be read, and the faults of the text."""
    reader = Reader(source)
    try:
        return reader.read_file(), reader.mended
    except JsonFault as fault:
        return None, reader.mended + [fault]
