"""Small helpers for plain messages: counts, lists of names, and the nearest known name."""
import difflib


def counted(count, thing, things=None):
    """A count with its word, as `1 token` or `3 tokens`."""
    return f"{count} {thing if count == 1 else things or thing + 's'}"


def grouped(number):
    """A number with its thousands apart, as in the documents."""
    return f"{number:,}"


def listed(words, last="and"):
    """Words in a row, as `a, b and c`."""
    words = list(words)
    if len(words) < 2:
        return "".join(words)
    return f"{', '.join(words[:-1])} {last} {words[-1]}"


def quoted(name):
    """A name as the messages show it. A long one is cut."""
    return f"`{shortened(str(name))}`"


def shortened(text, most=60):
    """A text on one line, cut where it is long. What can't be printed is shown by its number."""
    shown = "".join(letter if letter.isprintable() else f"\\x{ord(letter):02x}" for letter in text)
    return shown if len(shown) <= most else shown[:most - 2] + ".."


def named(names, most=12, last="and"):
    """Names in a row, each in quotes. Of many only the first are told."""
    names = list(names)
    if len(names) > most:
        return f"{', '.join(quoted(name) for name in names[:most])} and {len(names) - most} more"
    return listed([quoted(name) for name in names], last)


def nearest(name, known):
    """The known name that a misspelt one most likely means, or None."""
    known = list(dict.fromkeys(known))
    by_lower = {word.lower(): word for word in reversed(known)}
    if name.lower() in by_lower:
        return by_lower[name.lower()]
    cut = 0.5 if len(name) < 4 else 0.6
    found = difflib.get_close_matches(name.lower(), by_lower, n=1, cutoff=cut)
    return by_lower[found[0]] if found else None


def with_names(thing, names):
    """Things with their names, as `the inputs `x` and `y``."""
    names = list(names)
    return f"the {thing if len(names) == 1 else thing + 's'} {named(names)}"


def times(count):
    """How often, as `once` or `3 times`."""
    return {1: "once", 2: "twice"}.get(count, f"{grouped(count)} times")


def sentence(text):
    """A text with a great first letter."""
    return text[:1].upper() + text[1:]


def joined(sentences):
    """Sentences in one paragraph, without the empty ones."""
    return " ".join(sentence for sentence in sentences if sentence)
