"""What each kernel makes of its tokens, and why it faults, by the formulas of docs/KERNELS.md.

It serves explanations alone. A test compares it with the rows by which the program's kernels are tested.
"""
from .limits import is_whole
from .wording import counted

OVERFLOW, DIVISION, SHAPE, VALUE = 1, 2, 3, 4


class KernelFault(Exception):
    """A kernel's fault: its code, and what is wrong in words."""

    def __init__(self, code, text):
        super().__init__(text)
        self.code, self.text = code, text


def whole(number, text):
    """The number, or an overflow that tells how it was formed."""
    if not is_whole(number):
        raise KernelFault(OVERFLOW, f"{text} is {number}, which lies outside 64 bits")
    return number


def towards_zero(left, right):
    quotient = abs(left) // abs(right)
    return quotient if (left < 0) == (right < 0) else -quotient


def shape(fits, text):
    if not fits:
        raise KernelFault(SHAPE, text)


def value(fits, text):
    if not fits:
        raise KernelFault(VALUE, text)


def same(ins, outs):
    lengths = [len(tokens) for tokens in ins] + outs
    shape(len(set(lengths)) == 1, "all rates of this kernel must be equal, and they are "
          f"{', '.join(map(str, [len(t) for t in ins]))} at the input{'s' if len(ins) > 1 else ''} and {', '.join(map(str, outs))} at the output{'s' if len(outs) > 1 else ''}")


def one_out(outs):
    shape(outs[0] == 1, f"the output's rate must be 1, and it is {outs[0]}")


def total(tokens, what="the sum of the tokens"):
    found = 0
    for place, token in enumerate(tokens):
        found = whole(found + token, f"{what} up to token {place}, {found} + {token},")
    return found


def product(left, right):
    return whole(left * right, f"{left} * {right}")


def weighted(pairs):
    found = 0
    for left, right in pairs:
        term = product(left, right)
        found = whole(found + term, f"the sum {found} + {term}")
    return found


def placewise(work):
    def fire(args, ins, outs, sets):
        same(ins, outs)
        return [[work(*pair) for pair in zip(*ins)]], []
    return fire


def divided(left, right):
    if right == 0:
        raise KernelFault(DIVISION, f"{left} is divided by 0")
    return whole(towards_zero(left, right), f"{left} / {right}")


def fire_pass(args, ins, outs, sets):
    same(ins, outs)
    return [list(ins[0]) for _ in outs], []


def fire_gain(args, ins, outs, sets):
    same(ins, outs)
    return [[product(token, args[0]) for token in ins[0]]], []


def fire_clamp(args, ins, outs, sets):
    same(ins, outs)
    value(args[0] <= args[1], f"the lower bound {args[0]} is greater than the upper bound {args[1]}")
    return [[min(max(token, args[0]), args[1]) for token in ins[0]]], []


def fire_threshold(args, ins, outs, sets):
    same(ins, outs)
    return [[int(token >= args[0]) for token in ins[0]]], []


def fire_sum(args, ins, outs, sets):
    one_out(outs)
    return [[total(ins[0])]], []


def fire_mean(args, ins, outs, sets):
    one_out(outs)
    shape(len(ins[0]) >= 1, "the input's rate must be at least 1, and it is 0")
    return [[towards_zero(total(ins[0]), len(ins[0]))]], []


def fire_dot(args, ins, outs, sets):
    shape(len(ins[0]) == len(ins[1]), f"both inputs must have one rate, and they have {len(ins[0])} and {len(ins[1])}")
    one_out(outs)
    return [[weighted(zip(*ins))]], []


def fire_fir(args, ins, outs, sets):
    taps, rate = len(args), len(ins[0])
    shape(rate >= taps, f"with {taps} taps the input's rate must be at least {taps}, and it is {rate}")
    shape(outs[0] == rate - taps + 1, f"with {taps} taps and {rate} tokens the output's rate must be {rate - taps + 1}, and it is {outs[0]}. "
          f"That would be right with the input's rate {outs[0] + taps - 1}")
    return [[weighted((args[tap], ins[0][place + taps - 1 - tap]) for tap in range(taps)) for place in range(outs[0])]], []


def fire_moving(args, ins, outs, sets):
    same(ins, outs)
    value(1 <= args[0] <= 64, f"the window must be 1 to 64 wide, and it is {args[0]}")
    windows = (ins[0][max(0, place + 1 - args[0]):place + 1] for place in range(outs[0]))
    return [[towards_zero(total(window, "the sum of a window"), len(window)) for window in windows]], []


def fire_up(args, ins, outs, sets):
    rate = len(ins[0])
    shape(rate >= 1 and outs[0] >= rate and outs[0] % rate == 0, f"the output's rate must be a multiple of the input's, which is at least 1, and they are {outs[0]} and {rate}")
    return [[token for token in ins[0] for _ in range(outs[0] // rate)]], []


def fire_down(args, ins, outs, sets):
    rate = len(ins[0])
    shape(outs[0] >= 1 and rate >= outs[0] and rate % outs[0] == 0, f"the input's rate must be a multiple of the output's, which is at least 1, and they are {rate} and {outs[0]}")
    return [ins[0][::rate // outs[0]]], []


def fire_ramp(args, ins, outs, sets):
    return [[whole(args[0] + place * args[1], f"{args[0]} + {place} * {args[1]}") for place in range(outs[0])]], []


def fire_transpose(args, ins, outs, sets):
    same(ins, outs)
    rows, columns = args
    value(rows >= 1 and columns >= 1 and rows * columns == outs[0], f"{rows} rows of {columns} must make {outs[0]} tokens, and make {rows * columns}")
    return [[ins[0][row * columns + column] for column in range(columns) for row in range(rows)]], []


def fire_median(args, ins, outs, sets):
    one_out(outs)
    rate = len(ins[0])
    shape(rate % 2 == 1 and rate <= 255, f"the input's rate must be odd and at most 255, and it is {rate}")
    return [[sorted(ins[0])[rate // 2]]], []


def fire_histogram(args, ins, outs, sets):
    shape(outs[0] >= 1, "the output's rate, the number of bins, must be at least 1, and it is 0")
    value(args[1] >= 1, f"the width of a bin must be at least 1, and it is {args[1]}")
    counts = [0] * outs[0]
    for token in ins[0]:
        place = (token - args[0]) // args[1]
        if 0 <= place < outs[0]:
            counts[place] += 1
    return [counts], []


def fire_count_above(args, ins, outs, sets):
    one_out(outs)
    return [[sum(token > args[0] for token in ins[0])]], []


def fire_read_param(args, ins, outs, sets):
    shape(len(ins[0]) == sets, f"the interface must have one token for each parameter that is set. It has {len(ins[0])}, and {counted(sets, 'parameter is', 'parameters are')} set")
    return [], list(ins[0])


def fire_pick(args, ins, outs, sets):
    shape(len(ins[0]) == 1, f"the interface that feeds it must have the rate 1, and it has {len(ins[0])}")
    value(0 <= ins[0][0] < len(args), f"the token that picks an argument must be 0 to {len(args) - 1}, and it is {ins[0][0]}")
    return [], [args[ins[0][0]]]


def fire_spread(args, ins, outs, sets):
    rate = len(ins[0])
    shape(rate >= 1 and outs[0] == rate, f"the rates must be equal and at least 1, and they are {rate} and {outs[0]}")
    least, greatest = min(ins[0]), max(ins[0])
    return [list(ins[0])], [whole(greatest - least, f"{greatest} - {least}")]


FIRES = {
    "pass": fire_pass, "dup": fire_pass, "gain": fire_gain, "clamp": fire_clamp, "threshold": fire_threshold,
    "add": placewise(lambda left, right: whole(left + right, f"{left} + {right}")),
    "sub": placewise(lambda left, right: whole(left - right, f"{left} - {right}")),
    "mul": placewise(product), "div": placewise(divided), "min": placewise(min), "max": placewise(max),
    "sum": fire_sum, "mean": fire_mean, "dot": fire_dot, "fir": fire_fir, "moving": fire_moving, "up": fire_up, "down": fire_down,
    "ramp": fire_ramp, "transpose": fire_transpose, "median": fire_median, "histogram": fire_histogram,
    "count_above": fire_count_above, "read_param": fire_read_param, "pick": fire_pick, "spread": fire_spread,
}


def fire(kernel, args, ins, outs, sets):
    """The tokens of each output and the values set, or a KernelFault. `outs` has the rates of the outputs, `sets` is a count."""
    return FIRES[kernel](args, ins, outs, sets)
