"""The commands with their words, and what is wrong with words that are no command's."""
import re
from dataclasses import dataclass

from .limits import ITERATIONS, SOAK_NUMBER, UNFOLD_TIMES, WORKERS
from .wording import counted, joined, listed, named, nearest, quoted

COMMANDS = {
    "run": ("GRAPH", "TOKENS", "ITERATIONS", "WORKERS"),
    "plain": ("GRAPH", "TOKENS", "ITERATIONS"),
    "plan": ("GRAPH", "TOKENS", "WORKERS"),
    "schedule": ("GRAPH", "TOKENS", "WORKERS"),
    "memory": ("GRAPH", "TOKENS", "WORKERS"),
    "journal": ("GRAPH", "TOKENS", "ITERATIONS", "WORKERS"),
    "audit": ("GRAPH", "TOKENS", "ITERATIONS", "WORKERS", "JOURNAL"),
    "unfold": ("TIMES", "GRAPH", "TOKENS", "ITERATIONS", "WORKERS"),
    "soak": ("NUMBER", "WORKERS"),
    "upgrade": ("GRAPH",),
}
# Words of the launcher, each with those behind it.
LAUNCHER = {"explain": "COMMAND WORDS..", "check": "GRAPH", "report": "GRAPH TOKENS ITERATIONS WORKERS FILE.html [TIMES]", "draw": "WORDS..", "kernels": "[NAME]"}
# The bounds of each number, and how many digits it may have.
NUMBERS = {"ITERATIONS": (0, ITERATIONS, 5), "WORKERS": (1, WORKERS, 2), "NUMBER": (0, SOAK_NUMBER, 5), "TIMES": (1, UNFOLD_TIMES, 2)}


@dataclass
class Call:
    """The words of a call by what they stand for. A word that is missing is None."""
    command: str
    words: dict

    def get(self, name):
        return self.words.get(name)

    def number(self, name, default):
        text = self.words.get(name)
        return int(text) if text and re.fullmatch(r"[0-9]+", text) else default


def call_of(words):
    """The call that words make, or None where the first is no command."""
    if not words or words[0] not in COMMANDS:
        return None
    return Call(words[0], dict(zip(COMMANDS[words[0]], words[1:])))


def usage(command):
    return f"`./pisdf {' '.join((command,) + COMMANDS[command])}`"


def number_trouble(name, word):
    """Why a word isn't the number that is wanted, or an empty text."""
    least, most, digits = NUMBERS[name]
    if re.fullmatch(r"[0-9]{1,%d}" % digits, word) and least <= int(word) <= most:
        return ""
    shape = "" if re.fullmatch(r"[0-9]+", word) else " in decimal digits"
    return f"{name} is a number from {least} to {most}{shape}, and the word is {quoted(word)}."


def explain_usage(words):
    """A paragraph on words that are no command's."""
    if not words:
        return f"No command is named. The commands are {named(COMMANDS)}. `./pisdf --help` tells of each."
    command = words[0]
    if command in LAUNCHER:
        return f"{quoted(command)} is a word of the launcher, which tells in sentences by itself: `./pisdf {command} {LAUNCHER[command]}`."
    if command not in COMMANDS:
        meant = nearest(command, COMMANDS)
        looks = "The first word is the command, before the files." if "." in command or "/" in command else ""
        return joined([f"{quoted(command)} is no command.", looks, f"Do you mean {usage(meant)}?" if meant else f"The commands are {named(COMMANDS)}."])
    wanted, given = COMMANDS[command], words[1:]
    sentences = []
    if len(given) != len(wanted):
        sentences.append(f"{quoted(command)} takes {counted(len(wanted), 'word')} more, and here {'is' if len(given) == 1 else 'are'} {len(given)}.")
    if len(given) < len(wanted):
        sentences.append(f"{listed(wanted[len(given):])} {'is' if len(wanted) == len(given) + 1 else 'are'} missing at the end, or a word before.")
    sentences += [number_trouble(name, word) for name, word in zip(wanted, given) if name in NUMBERS]
    if not any(sentences):
        sentences = ["The words have the form that is wanted, so the program that was called is older than this command."]
    return joined(sentences + [f"The call is {usage(command)}."])
