"""The token file: its records and fields with their places, read as the program reads them, and its faults."""
import re

from .limits import GREATEST_WHOLE, LEAST_WHOLE, TOKEN_FILE_BYTES, is_whole
from .wording import counted, grouped, joined, nearest, quoted, shortened, with_names

MARK = b"\xef\xbb\xbf"
MARKS_OF_UTF_16 = (b"\xff\xfe", b"\xfe\xff")
CLOSED = re.compile(rb'"(?:[^"]|"")*"')
LINE_END = re.compile(rb"[\r\n]")
FIELD_END = re.compile(rb"[,\r\n]")
TOKEN = re.compile(rb"-?[0-9]+")


CHUNK = 1 << 16
LONG_FILE = 4_000_000
MOST_OTHERS = 5


class Record:
    """A record without quotes: a part of the file's bytes. Its fields are looked up as they are needed."""

    def __init__(self, data, start, stop):
        self.data, self.start, self.stop = data, start, stop

    def place(self, number, at=None, before=0):
        """Where a field begins, in bytes, or None. `at` may be the place of an earlier field, which has the number `before`."""
        at, count = self.start if at is None else at, number - before
        while count:
            found = self.data.count(b",", at, min(at + CHUNK, self.stop))
            if found < count:
                count, at = count - found, at + CHUNK
                if at >= self.stop:
                    return None
            else:
                for _ in range(count):
                    at = self.data.index(b",", at, self.stop) + 1
                count = 0
        return at

    def field(self, number):
        """A field, from 0, or None."""
        at = self.place(number)
        if at is None:
            return None
        end = self.data.find(b",", at, self.stop)
        return self.data[at:self.stop if end < 0 else end]

    def count(self):
        return self.data.count(b",", self.start, self.stop) + 1

    def part(self, first, count):
        """So many fields from one on, fewer at the end."""
        at = self.place(first)
        if at is None or count <= 0:
            return []
        end = self.place(first + count, at, first)
        return self.data[at:self.stop if end is None else end - 1].split(b",")


class QuotedRecord:
    """A record with quotes in it: its fields, and for each where it begins, in bytes."""

    def __init__(self, fields, starts):
        self.fields, self.starts = fields, starts

    def place(self, number):
        return self.starts[number] if number < len(self.starts) else None

    def field(self, number):
        return self.fields[number] if number < len(self.fields) else None

    def count(self):
        return len(self.fields)

    def part(self, first, count):
        return self.fields[first:first + max(0, count)]


def quoted_record(data, start):
    """A record with quotes in it, and where the next one begins."""
    fields, starts, at = [], [], start
    while True:
        starts.append(at)
        field = bytearray()
        if data[at:at + 1] == b'"':
            at = quoted_part(data, at + 1, field)
        match = FIELD_END.search(data, at)
        stop = match.start() if match else len(data)
        fields.append(bytes(field + data[at:stop]))
        at = stop
        if data[at:at + 1] != b",":
            return QuotedRecord(fields, starts), at + 1
        at += 1


def quoted_part(data, at, field):
    """Takes what stands in quotes into the field. Two quotes in a row stand for one. Gives the place after it."""
    while at < len(data):
        stop = data.find(b'"', at)
        stop = len(data) if stop < 0 else stop
        field += data[at:stop]
        at = stop + 1
        if data[at:at + 1] != b'"':
            return at
        field += b'"'
        at += 1
    return len(data)


def records(data):
    """The records of a file from the front. Empty lines are none."""
    at = len(MARK) if data.startswith(MARK) else 0
    while at < len(data):
        match = LINE_END.search(data, at)
        stop = match.start() if match else len(data)
        if stop == at:
            at = stop + 1
        elif data.find(b'"', at, stop) < 0:
            yield Record(data, at, stop)
            at = stop + 1
        else:
            record, at = quoted_record(data, at)
            yield record


def record_number(data, row):
    """The record of this number, from 1, or None."""
    for number, record in enumerate(records(data), 1):
        if number == row:
            return record
    return None


def place_of(path, data, offset, row, field):
    """Where a field stands: as line and column, counted from 1, columns in bytes, and as row and field."""
    line = data.count(b"\n", 0, offset) + 1
    column = offset - (data.rfind(b"\n", 0, offset) + 1) + 1
    return f"{path}, line {line}, column {column} (row {row}, field {field}):"


def field_text(field):
    return shortened(field.decode("utf-8", "replace"))


def snippet(record, number):
    """The fields around one, with marks below it."""
    shown = [field_text(field) for field in record.part(max(0, number - 4), number + 4 - max(0, number - 4))]
    before = min(number, 4)
    left = ("..," if number > 4 else "") + "".join(field + "," for field in shown[:before])
    tail = "".join("," + field for field in shown[before + 1:]) + (",.." if record.count() > number + 4 else "")
    return f"    {left}{shown[before]}{tail}\n    {' ' * len(left)}{'^' * max(1, len(shown[before]))}"


def name_of(record):
    return record.field(0).decode("utf-8", "replace")


class Streams:
    """The tokens of the inputs, each taken from the front on."""

    def __init__(self, data, names):
        self.found = {}
        for record in records(data):
            if name_of(record) in names:
                self.found.setdefault(name_of(record), record)

    def length(self, name):
        return self.found[name].count() - 1 if name in self.found else 0

    def tokens(self, name, start, count):
        """So many tokens from a place on, or None where there are too few."""
        part = self.found[name].part(1 + start, count) if name in self.found else []
        return [int(token) for token in part] if len(part) == count else None


def is_token(field):
    """Whether a field is a token: a whole number of 64 bits without a sign `+`."""
    return bool(TOKEN.fullmatch(field)) and is_whole(int(field[:4000]))


def is_heading(record):
    """Whether a record looks like the names of columns: words alone, and at least two."""
    fields = record.part(0, record.count())
    return len(fields) > 1 and all(re.fullmatch(rb" *[A-Za-z_].*", field) for field in fields)


class TokenFaults:
    """Tells of the faults of a token file. `inputs` has the names of the top graph's inputs."""

    def __init__(self, path, data, inputs):
        self.path, self.data, self.inputs = path, data, inputs

    def explain(self, words):
        """A paragraph on the fault that the program's line tells of, by its words after `tokens:`, or None."""
        if words == ["length"]:
            return (f"{self.path} has {grouped(len(self.data))} bytes. A token file may have {grouped(TOKEN_FILE_BYTES)}. "
                    "Split the run: each part takes a token file of its own.")
        row, field = int(words[1]), int(words[2]) if len(words) > 2 else 1
        record = record_number(self.data, row)
        if record is None or record.place(field - 1) is None:
            return None
        text = {"name": self.name, "repeated": self.repeated, "number": self.number}[words[0]](record, row, field)
        if self.data.startswith(MARKS_OF_UTF_16):
            text = "The file is UTF-16. Save it as UTF-8."
        elif self.is_open(record.place(field - 1)):
            text = joined([text, "The double quote that begins this field isn't closed up to the file's end, so all behind it is this one field."])
        else:
            text = joined([text, self.others(row, field)])
        return f"{place_of(self.path, self.data, record.place(field - 1), row, field)}\n{snippet(record, field - 1)}\n{text}"

    def is_open(self, start):
        """Whether a field begins with a quote that is never closed."""
        return self.data[start:start + 1] == b'"' and not CLOSED.match(self.data, start)

    def others(self, row, field):
        """Further faults of a file that isn't very long, each in a few words."""
        if len(self.data) > LONG_FILE:
            return ""
        found, seen = [], set()
        for number, record in enumerate(records(self.data), 1):
            name = name_of(record)
            if name not in self.inputs or name in seen:
                found.append((number, 1, quoted(name) if name else "an empty field"))
            seen.add(name)
            found += [(number, place, quoted(token.decode("utf-8", "replace")) if token else "an empty field")
                      for place, token in enumerate(record.part(1, record.count()), 2) if not is_token(token)]
        found = [f"{shown} in row {number}, field {place}" for number, place, shown in found if (number, place) != (row, field)]
        more = f" and {len(found) - MOST_OTHERS} more" if len(found) > MOST_OTHERS else ""
        return f"Also refused: {', '.join(found[:MOST_OTHERS])}{more}." if found else ""

    def name(self, record, row, _):
        name = name_of(record)
        known = f"The top graph has {with_names('input', self.inputs)}." if self.inputs else "The top graph has no inputs, so its token file is empty."
        meant, stripped = nearest(name, self.inputs), name.strip()
        hints = []
        if stripped != name and stripped in self.inputs:
            hints.append("A blank belongs to the name: take it away.")
        elif meant:
            hints.append(f"Do you mean {quoted(meant)}?")
        if TOKEN.fullmatch(record.field(0).strip()):
            hints.append("This looks like a token. Each row begins with the name of an input, and has all tokens of it.")
        if ";" in name or "\t" in name:
            hints.append("Fields are separated by commas.")
        if name[:1] in ("#", "/"):
            hints.append("A token file has no comments.")
        elif row == 1 and not meant and is_heading(record):
            hints.append("A token file has no header row: take it away.")
        if name[:1] in "{[<" and name:
            hints.append("This looks like another kind of file. The words of the call may be in the wrong order: the graph file comes first.")
        return joined([f"Row {row} begins with {quoted(name)}, which is no input of the top graph.", known, *hints])

    def repeated(self, record, row, _):
        name = name_of(record)
        first = next((number for number, other in enumerate(records(self.data), 1) if other.field(0) == record.field(0)), 1)
        return (f"Row {row} is a second row for the input {quoted(name)}. The first is row {first}. "
                "An input has one row with all its tokens: put them into one line.")

    def number(self, record, row, field):
        value = record.field(field - 1)
        text = value.decode("utf-8", "replace")
        name = name_of(record)
        why = "" if self.is_open(record.place(field - 1)) else self.why_no_token(value, text, field == record.count())
        return joined([f"Token {field - 2} of the input {quoted(name)}, counted from 0, is {quoted(text) if text else 'empty'}, which is no token.", why])

    def why_no_token(self, value, text, is_last):
        if not value:
            return "A comma stands at the end of the row: take it away." if is_last else "Two commas stand in a row: write a token between them, or take one away."
        if TOKEN.fullmatch(value):
            return f"A token lies from {LEAST_WHOLE} to {GREATEST_WHOLE}."
        if TOKEN.fullmatch(value.strip()):
            return "Blanks aren't taken away: write the number without them."
        if b"," in value:
            return "A comma within double quotes separates nothing: take the quotes away."
        if value.startswith(b"+"):
            return "A token has no `+` before it."
        if re.fullmatch(r"-?\d*[.]\d*([eE][+-]?\d+)?|-?\d+[eE][+-]?\d+", text):
            return "Tokens are whole numbers. Scale the numbers, as by 1000, and round them."
        if ";" in text or "\t" in text or " " in text.strip():
            return "Fields are separated by commas."
        return f"A token is an optional `-` and decimal digits, from {LEAST_WHOLE} to {GREATEST_WHOLE}."


def short_words(path, data, name, has, needs, iteration_rates):
    """A paragraph on an iteration that begins with too few tokens of an input."""
    rate = needs
    total = Streams(data, [name]).length(name)
    done = (total - has) // rate if rate else 0
    place = ""
    for row, record in enumerate(records(data), 1):
        if name_of(record) == name:
            place = f"{place_of(path, data, record.place(0), row, 1)}\n{snippet(record, 0)}\n"
            break
    given = f"The file has {counted(total, 'token')} of {quoted(name)}" if place else f"No row of {path} names the input {quoted(name)}, so it has no tokens"
    lacks = counted(rate - has, "token")
    others = ""
    if iteration_rates:
        others = " Each iteration takes " + ", ".join(f"{rate} of {quoted(other)}" for other, rate in iteration_rates) + "."
    return (f"{place}{given}. Each iteration takes {rate}, so {counted(done, 'iteration')} had enough. Iteration {done}, counted from 0, "
            f"begins with {has}, and lacks {lacks}.{others} {'Add' if place else 'Add a row with'} tokens {'to the row ' if place else ''}of {quoted(name)}"
            + (f", or call for {counted(done, 'iteration')}." if done else f", or give {quoted(name)} the rate {has}." if has else "."))
