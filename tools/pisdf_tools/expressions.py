"""Expressions of rates, arguments and parameters: reading with places, values, and bounds of values."""
import re
from dataclasses import dataclass

from .limits import EXPRESSION_BYTES, GREATEST_WHOLE, NAME_BYTES, OPEN_PARENTHESES, is_whole
from .wording import grouped, quoted

TOKEN = re.compile(r" *([0-9]+|[A-Za-z_][A-Za-z0-9_]*|[-+*/%(),]|$)")
CALLS = ("min", "max")
# Signs of other keyboards, with what stands for them here.
OTHER_SIGNS = {"\u00d7": "*", "\u22c5": "*", "\u00b7": "*", "\u00f7": "/", "\u2212": "-", "\u2013": "-"}


@dataclass(slots=True)
class Number:
    value: int
    at: int


@dataclass(slots=True)
class Name:
    name: str
    at: int


@dataclass(slots=True)
class Binary:
    """Two operands with an operator or, for `min` and `max`, with the function's name."""
    operator: str
    left: object
    right: object
    at: int


class ExpressionFault(Exception):
    """Where a text is no expression, and what was wanted there."""

    def __init__(self, at, text, kind="syntax"):
        super().__init__(text)
        self.at, self.text, self.kind = at, text, kind


class NoValue(Exception):
    """An expression has no value: `why` is `overflow` or `division`, `text` tells the operation, `advice` what to write."""

    def __init__(self, why, text, advice):
        super().__init__(text)
        self.why, self.text, self.advice = why, text, advice


class Parser:
    """Reads an expression from the front. `token` is the next part of it, which begins at `at`."""

    def __init__(self, text):
        self.text, self.next_at, self.open = text, 0, []
        self.advance()

    def advance(self):
        match = TOKEN.match(self.text, self.next_at)
        if not match:
            self.at = self.next_at + len(self.text[self.next_at:]) - len(self.text[self.next_at:].lstrip(" "))
            self.token = self.text[self.at]
            self.is_known = False
            return
        self.token, self.at, self.next_at, self.is_known = match[1], match.start(1), match.end(), True

    def fault(self, wanted):
        """The fault of a part that doesn't fit here."""
        found = quoted(self.token) if self.token else "the end of the expression"
        return ExpressionFault(self.at, f"{wanted} was wanted, and {found} stands there.{self.hint()}")

    def hint(self):
        if self.token == "-":
            return " There is no sign before a number: write `0-1` for -1."
        if self.token in (".", "&", "|", "<", ">", "=", "!", "?", ":") and self.token:
            return " The operators are `+`, `-`, `*`, `/` and `%`, on whole numbers."
        if self.token == "^":
            return " There is no power: write `n*n` for the square of `n`."
        if self.token == "(" and re.search(r"\b(ceil|round|floor|div)\s*$", self.text[:self.at]):
            return " The only functions are `min` and `max`. `A/B` rounds down, and `(A+B-1)/B` rounds up."
        if self.token == "(" and not self.open:
            return " A `*` may be missing before it. The only functions are `min` and `max`."
        if self.token in OTHER_SIGNS:
            return f" Write `{OTHER_SIGNS[self.token]}`."
        if self.token and (self.token[0].isalpha() or self.token[0] == "_") and self.text[self.at - 1:self.at].isdigit():
            return " A `*` is missing before it: write `2*n` for twice `n`."
        return ""

    def whole(self):
        if not self.text.strip(" "):
            raise ExpressionFault(len(self.text), "The expression is empty. Write a number or a parameter's name.")
        tree = self.sum()
        if self.token:
            raise self.fault("An operator or the end")
        return tree

    def sum(self):
        return self.row(self.term, "+-")

    def term(self):
        return self.row(self.factor, "*/%")

    def row(self, part, operators):
        tree = part()
        while self.token and self.token in operators:
            operator, at = self.token, self.at
            self.advance()
            tree = Binary(operator, tree, part(), at)
        return tree

    def factor(self):
        token, at = self.token, self.at
        if token.isdigit() and token.isascii() and self.is_known:
            self.advance()
            return Number(int(token), at)
        if token in CALLS:
            return self.call(token, at)
        if token == "(":
            self.enter()
            tree = self.sum()
            self.leave()
            return tree
        if self.is_known and token and (token[0].isalpha() or token[0] == "_"):
            if len(token) > NAME_BYTES:
                raise ExpressionFault(at, f"The name has {len(token)} bytes. A name has at most {NAME_BYTES}.")
            self.advance()
            return Name(token, at)
        raise self.fault("A number, a parameter's name or `(`")

    def call(self, name, at):
        self.advance()
        if self.token != "(":
            raise self.fault(f"A `(` after `{name}`")
        self.enter()
        left = self.sum()
        if self.token != ",":
            raise self.fault(f"A `,` between the two parts of `{name}`")
        self.advance()
        right = self.sum()
        self.leave()
        return Binary(name, left, right, at)

    def enter(self):
        self.open.append(self.at)
        if len(self.open) > OPEN_PARENTHESES:
            raise ExpressionFault(self.at, f"More than {OPEN_PARENTHESES} parentheses are open here.", "deep")
        self.advance()

    def leave(self):
        if self.token != ")":
            raise self.fault(f"A `)` for the `(` at character {self.open[-1] + 1}")
        self.open.pop()
        self.advance()


def parse(text):
    """The tree of an expression, or an ExpressionFault."""
    if len(text.encode("utf-8", "surrogatepass")) > EXPRESSION_BYTES:
        size = len(text.encode("utf-8", "surrogatepass"))
        raise ExpressionFault(0, f"The expression has {grouped(size)} bytes. It may have {grouped(EXPRESSION_BYTES)}.", "long")
    tree = Parser(text).whole()
    large = [node for node in nodes(tree) if isinstance(node, Number) and node.value > GREATEST_WHOLE]
    if large:
        at = min(node.at for node in large)
        raise ExpressionFault(at, f"The number is over {GREATEST_WHOLE}, the greatest one.", "large")
    return tree


def nodes(tree):
    """All parts of an expression, from the left."""
    pending = [tree]
    while pending:
        node = pending.pop()
        if isinstance(node, Binary):
            pending += [node.right, node.left]
        else:
            yield node


def names(tree):
    """The names in an expression, from the left, each as often as it stands there."""
    return [node for node in nodes(tree) if isinstance(node, Name)]


def operation(operator, left, right):
    """The value of one operation on whole numbers, or NoValue."""
    shown = f"{operator}({left},{right})" if operator in CALLS else f"{left} {operator} {right}"
    if operator in "/%":
        if left < 0:
            raise NoValue("division", f"in {shown} the dividend must be at least 0",
                          "Form the sign behind the division, as `0-7/2` in place of `(0-7)/2`, or bound the dividend as by `max(0,n)`.")
        if right < 1:
            raise NoValue("division", f"in {shown} the divisor must be at least 1",
                          "Keep the divisor at 1 or more, as by `max(1,n)` or by `low`.")
        return left // right if operator == "/" else left % right
    value = {"+": lambda: left + right, "-": lambda: left - right, "*": lambda: left * right,
             "min": lambda: min(left, right), "max": lambda: max(left, right)}[operator]()
    if not is_whole(value):
        raise NoValue("overflow", f"{shown} is {value}, which lies outside 64 bits",
                      "Each value on the way must lie within 64 bits: bound the parameters by `low` and `high`, or divide before you multiply.")
    return value


def evaluate(tree, values):
    """The value of an expression where `values` has those of the names, or NoValue."""
    done = []
    pending = [(tree, False)]
    while pending:
        node, is_ready = pending.pop()
        if isinstance(node, Number):
            done.append(node.value)
        elif isinstance(node, Name):
            done.append(values[node.name])
        elif is_ready:
            right, left = done.pop(), done.pop()
            done.append(operation(node.operator, left, right))
        else:
            pending += [(node, True), (node.right, False), (node.left, False)]
    return done[0]


def bounds(tree, ranges):
    """The least and the greatest value that the expression may have, by interval arithmetic, or None where it may have none.

    `ranges` has the bounds of the names. The bounds may be wider than the values, since a name may stand there twice.
    """
    if isinstance(tree, Number):
        return tree.value, tree.value
    if isinstance(tree, Name):
        return ranges.get(tree.name)
    try:
        left, right = bounds(tree.left, ranges), bounds(tree.right, ranges)
        if left is None or right is None:
            return None
        if tree.operator == "%":
            return (0, min(left[1], right[1] - 1)) if left[0] >= 0 and right[0] >= 1 else None
        corners = [operation(tree.operator, low, high) for low in left for high in right]
    except (NoValue, RecursionError):
        return None
    return min(corners), max(corners)
