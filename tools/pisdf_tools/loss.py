"""Where a run that is done loses tokens at an interface, or reads them again."""
from .fitting import fitting_words
from .summary import range_words
from .wording import counted, joined, listed, quoted, times


def note_text(note, runner, source):
    """A paragraph on one interface of a level whose counts don't fit its rate."""
    level, link = note.level, note.link
    where = source.place(level.graph.fifos[link.fifo].value.start)
    head = f"{where}, in the firing {quoted(note.path)} of iteration {note.iteration}:"
    return joined([head, again_words(link, note.count) if link.source is not None else lost_words(link, note.count),
                   often_words(note, runner), fitting_words(level, link.head or link.tail)])


def again_words(link, count):
    """That an interface gives tokens again from the front."""
    moved = count * link.consumption
    more = counted(moved - link.production, "token")
    end = f"The input {quoted(link.source)}" if "." not in link.source else f"The output {quoted(link.source)} of a configuration actor"
    return (f"{end} has {counted(link.production, 'token')}. {quoted(link.head)} fires {times(count)} and reads {link.consumption} each time, "
            f"{moved} in all, so {more} {'is' if moved - link.production == 1 else 'are'} read again from the front.")


def lost_words(link, count):
    """That an output keeps its last tokens."""
    moved = count * link.production
    kept = counted(link.consumption, "token") if link.consumption != 1 else "token"
    lost = f"the first {moved - link.consumption} are lost" if moved - link.consumption != 1 else "the first is lost"
    return (f"The output {quoted(link.sink)} keeps the last {kept}. {quoted(link.tail)} fires {times(count)} and "
            f"gives {link.production} each time, {moved} in all, so {lost}.")


def often_words(note, runner):
    """In how many iterations or firings this is so, and with how many tokens."""
    name = note.level.graph.name.text
    every = runner.levels_done[name]
    if every == 1:
        return ""
    what = "iterations" if "/" not in note.path else f"firings of the graph {quoted(name)}"
    of = f"{every} {what}" if runner.is_done else f"the first {every} {what}"
    amounts = f", with {range_words(min(note.amounts), max(note.amounts))} tokens" if len(note.amounts) > 1 else ""
    return f"This is so in all of {of}{amounts}." if note.times == every else f"This is so in {note.times} of {of}{amounts}."


def notes(runner, source, most=4):
    """Paragraphs on the interfaces of a run, each told once."""
    found = [note_text(note, runner, source) for note in runner.notes.values()]
    if len(found) > most:
        found = found[:most] + [f"At {counted(len(found) - most, 'more interface')} of other graphs tokens are lost or read again as well."]
    return found


def delay_words(file, runner, iterations):
    """Which delays begin anew because nothing is stated of their life, in graphs that are fired more than once: a paragraph on each graph."""
    if file.version == 1:
        return ""
    often = {name: count for name, count in runner.levels_done.items() if name != file.top.text}
    often[file.top.text] = iterations
    found = [(graph, unstated_delays(graph)) for graph, _ in file.hierarchy() if often.get(graph.name.text, 0) > 1]
    return "\n\n".join(anew_words(file, graph, fifos) for graph, fifos in found if fifos)


def unstated_delays(graph):
    """The FIFOs with a delay of which no life is stated."""
    return [f"FIFO {number} ({quoted(fifo.tail.text)} to {quoted(fifo.head.text)})" for number, fifo in enumerate(graph.fifos)
            if fifo.delay_length and "life" not in fifo.value.value]


def anew_words(file, graph, fifos):
    """That delays of a graph begin anew."""
    is_one, name = len(fifos) == 1, quoted(graph.name.text)
    if graph is file.top_graph:
        inside, when, next_one = "", "in each iteration", "iteration"
    else:
        inside, when, next_one = f" in the graph {name}", "at each firing of this graph", "firing"
    return (f"The {'delay' if is_one else 'delays'} of {listed(fifos[:8])}{inside} {'begins' if is_one else 'begin'} anew {when}, since no `life` is stated. "
            f"With `\"life\":\"permanent\"` the tokens stay for the next {next_one}.")
