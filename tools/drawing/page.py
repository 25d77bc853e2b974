"""The page of a report."""
import re
from html import escape
from itertools import accumulate, groupby

from drawing import charts
from drawing.dot import MOST_NODES as WHOLE_PLAN
from drawing.graphs import graph_picture, is_grouped, part_words, plan_picture
from drawing.words import KINDS_OF_ANSWERS
from pisdf_tools.wording import counted

# What a picture and its parts are called, and the words of a bar.
TOLD, BAR = re.compile("<title>([^<]*)</title>"), re.compile(r": from (\d+) to \d+, worker \d+")
# So many pictures of one kind stand on a page; the rest is counted.
MOST_SERIES = 12
# More tokens of an output are drawn as an image.
MOST_POINTS = 1500
# So many values of a parameter, so many lines of an image and so many items of workers are drawn.
MOST_VALUES, MOST_ROWS, MOST_ITEMS = 20000, 2000, 10000

STYLE = """
:root { color-scheme: light dark; --paper: #ffffff; --ink: #1a222b; --soft: #55626f; --line: #8094a8; --grid: #dfe4e9; --use: #4667ad; --value: #1f6fb2; --panel: #f4f6f8; --bad: #a40000; }
@media (prefers-color-scheme: dark) { :root { --paper: #14191f; --ink: #e6ebf0; --soft: #a7b3bf; --line: #6d7f91; --grid: #2b343d; --use: #8fb0f0; --value: #6bb3ee; --panel: #1c232b; --bad: #ff8f87; } }
body { margin: 0 auto; padding: 1rem; max-width: 76rem; background: var(--paper); color: var(--ink); font: 16px/1.5 Helvetica, Arial, sans-serif; }
h1 { font-size: 1.6rem; margin: 0.5rem 0; } h2 { font-size: 1.25rem; margin: 2rem 0 0.5rem; } h3 { font-size: 1rem; margin: 1rem 0 0.3rem; }
a { color: var(--value); } nav ul { display: flex; flex-wrap: wrap; gap: 0.3rem 1rem; padding: 0; list-style: none; }
.skip { position: absolute; left: -99rem; } .skip:focus { position: static; }
.figure { overflow-x: auto; background: var(--panel); border: 1px solid var(--grid); border-radius: 4px; padding: 0.5rem; }
.figure:focus-visible, pre:focus-visible, a:focus-visible, summary:focus-visible { outline: 3px solid var(--value); outline-offset: 2px; }
.caption { margin: 0.5rem 0 0.2rem; } .chart .wide { display: none; } .figure svg { display: block; } .figure + .figure { margin-top: 0.5rem; } .chart svg { width: 100%; max-width: 65rem; min-width: 52rem; height: auto; margin-top: -1.2rem; }
details { margin: 0.3rem 0; } .words { columns: 20rem; font-size: 0.9em; } .note { color: var(--soft); } .bad { color: var(--bad); font-weight: bold; }
.table { overflow-x: auto; } table { border-collapse: collapse; } caption { text-align: left; color: var(--soft); }
th, td { padding: 0.25rem 0.8rem 0.25rem 0; text-align: left; border-bottom: 1px solid var(--grid); vertical-align: top; } td.number { text-align: right; font-variant-numeric: tabular-nums; }
.told pre { overflow-x: auto; background: var(--panel); border: 1px solid var(--grid); padding: 0.5rem; } pre { font: 0.9em/1.3 ui-monospace, Consolas, monospace; }
code { font: 0.9em ui-monospace, Consolas, monospace; overflow-wrap: anywhere; }
"""


def figure(picture, label):
    """A picture that can be moved to and fro by the keyboard where it is wider than the page."""
    return f'<div class="figure" role="region" tabindex="0" aria-label="{escape(label)}">{picture}</div>'


def chart(picture, label, things):
    """A chart, which becomes narrower with the page. Its caption stands above it, since a narrow page would cut it. What the mouse is told
    over its boxes or dots stands behind it in words as well."""
    caption, *told = TOLD.findall(picture)
    words = sorted(told, key=started)
    listed = "".join(f"<li>{word}</li>" for word in words)
    in_words = f"<details><summary>{escape(label)} in words: {counted(len(words), *things)}</summary><ul class=\"words\">{listed}</ul></details>" if words else ""
    return f'<p class="caption">{caption}</p>' + figure(picture, label).replace('class="figure"', 'class="figure chart"', 1) + in_words


def started(words):
    """When a bar begins. Other words keep their order."""
    match = BAR.search(words)
    return int(match[1]) if match else 0


def marked(words):
    """Words in which what stands between backticks is code."""
    return re.sub("`([^`]*)`", r"<code>\1</code>", escape(words))


def note(words):
    return f'<p class="note">{marked(words)}</p>'


def table(caption, heads, rows):
    head = "".join(f'<th scope="col">{escape(word)}</th>' for word in heads)
    body = "".join(f'<tr><th scope="row">{escape(str(row[0]))}</th>' + "".join(field(value) for value in row[1:]) + "</tr>" for row in rows)
    return f'<div class="table"><table><caption>{escape(caption)}</caption><thead><tr>{head}</tr></thead><tbody>{body}</tbody></table></div>'


def field(value):
    return f'<td class="number">{value:,}</td>' if isinstance(value, int) else f"<td>{escape(str(value))}</td>"


def refusal(answer, run):
    """What a refused call wrote. What the run was refused with as well isn't said again."""
    if answer is not run.run and (answer.status, answer.line) == (run.run.status, run.run.line):
        return note("There is none, since the run is refused. What is wrong stands above.")
    line = f'<p class="bad">{escape(answer.line or "It was refused without a line.")}</p>'
    return line + note(f"Exit code {answer.status}: {KINDS_OF_ANSWERS.get(answer.status, 'the call was ended from outside')}.")


def told(words):
    """Paragraphs of an explanation, in which lines of files stand apart."""
    for is_quoted, lines in groupby(words.split("\n"), lambda line: line.startswith("    ")):
        block = [line[4:] if is_quoted else line for line in lines]
        if is_quoted:
            yield f'<pre tabindex="0">{escape(chr(10).join(block))}</pre>'
        else:
            yield from (f"<p>{marked(line)}</p>" for line in block if line)


# ---- the parts of the page


def summary(run):
    made = len({row[0] for row in run.run.of("tokens")}) if run.file and run.file.top_graph.outputs else None
    asked = int(run.iterations)
    words = f"{counted(asked, 'iteration')} {'was' if asked == 1 else 'were'} asked for, by {counted(int(run.workers), 'worker')}"
    words += f" and with {int(run.times)} fired as one where that can be." if run.words[0] == "unfold" else "."
    done = "<p>The run is done.</p>" if run.run.status == 0 else refusal(run.run, run)
    before = "" if made is None or run.run.status == 0 else note(f"{counted(made, 'iteration')} {'was' if made == 1 else 'were'} done before.")
    more = "".join(told(run.told.removeprefix("The call is done.").strip()))
    return f"<p>{escape(words)}</p>{done}{before}" + (f'<div class="told">{more}</div>' if more else "")


def graph_part(run):
    for graph in ordered(run.file):
        name = graph.name.text
        yield f"<h3>{'The top graph ' if name == run.top else 'The graph '}<code>{escape(name)}</code></h3>"
        yield figure(graph_picture(graph, run.file), f"The graph {name}")


def ordered(file):
    """The graphs from the top downwards, each after one that it stands in, and then those that are never fired."""
    return [graph for graph, _ in file.hierarchy()] + file.unused()


def plan_part(run):
    if run.plan.status:
        return refusal(run.plan, run)
    rows = run.plan.by_kind()
    words = "A colour is a worker of the list schedule. An edge has its size in tokens, and where its buffer begins."
    if is_grouped(rows):
        words = f"The plan has {counted(len(rows['node']), 'node')}. One box stands for the firings of an actor, one for what copies on a link." + " `./pisdf draw plan` draws each." * (len(rows["node"]) <= WHOLE_PLAN)
    return note(parameter_words(run)) + figure(plan_picture(rows, run.names), "The plan") + note(words)


def first_of(run):
    """What is planned at once."""
    return "iteration" if run.group == 1 else "group"


def parameter_words(run):
    """Of which iterations the plan is, and with which parameters it is made."""
    values = list(run.values_of_first().items())
    more = f" and {len(values) - MOST_SERIES} more" if len(values) > MOST_SERIES else ""
    listed = ", ".join(f"{name} = {value}" for name, value in values[:MOST_SERIES])
    which = "iteration 0" if run.group == 1 else f"the iterations 0 to {run.group - 1}, fired as one,"
    return f"This is the plan of {which} of the top graph `{run.top}`" + (f", with {listed}{more}." if values else ".")


def schedule_part(run):
    if run.schedule.status:
        return refusal(run.schedule, run)
    rows = run.schedule.by_kind()
    critical, work, length = (int(rows[name][0][0]) for name in ("critical", "work", "length"))
    share = -(-work // int(run.workers))
    words = f"No schedule is shorter than the critical path, {critical}, nor than the work divided by the workers, {share}. This one has the length {length}. A node costs 1 and the tokens at its edges."
    return chart(charts.gantt(rows, run.names), "The schedule", ["node"]) + note(words)


def cells_part(run):
    if run.plan.status:
        return refusal(run.plan, run)
    plan, memory = run.plan.by_kind(), run.memory.by_kind()
    parts = [chart(charts.cells(plan, None, run.names), "The cells of the plan", ["buffer"])]
    if run.memory.status:
        parts.append(refusal(run.memory, run))
    else:
        parts.append("<details><summary>The cells as they would be if each worker kept a fixed order</summary>" + chart(charts.cells(plan, memory, run.names), "The cells under fixed orders", ["buffer"]) + "</details>")
    return "".join(parts)


def workers_part(run):
    if run.journal.status and not run.journal.rows and run.journal.status != run.run.status:
        return refusal(run.journal, run)
    if not run.journal.rows:
        return note("There is no board: no iteration began.")
    steps = run.steps()
    label = f"The journal of the first {first_of(run)}: {counted(len(run.journal.rows), 'line')}, {counted(int(run.workers), 'worker')}"
    items = [sum(1 for step in steps if step[0] == worker) for worker in range(int(run.workers))]
    rows = [(f"worker {worker}", count, f"{share} %") for worker, (count, share) in enumerate(zip(items, shares(items)))]
    words = (
        "The journal is of a call of its own, and not of the one that gave the tokens. More than one worker may share the work otherwise in each call. "
        "A bar goes from a claim to its finish. A colour is a firing of a graph. The places are those of lines in the journal; they say nothing of time."
    )
    drawn = chart(charts.work(steps[:MOST_ITEMS], int(run.workers), label), "What the workers did", ["item"]) + only_first(steps, MOST_ITEMS, "items")
    return drawn + note(words) + note(judged_words(run.audit)) + table("What each worker was handed", ["Worker", "Items", "Share of the items"], rows)


def only_first(things, most, what):
    """A note where not all things are drawn."""
    return note(f"Only the first {most:,} of {len(things):,} {what} are drawn.") if len(things) > most else ""


def judged_words(audit):
    """What `audit` says of the journal that is drawn."""
    for boards, entries in (row[1:] for row in audit.of("audit")):
        return f"`audit` judged this journal as legal: {counted(int(boards), 'board')}, {counted(int(entries), 'entry', 'entries')}."
    return f"`audit` didn't judge this journal as legal: {audit.line or f'it ended with {audit.status}'}."


def shares(items):
    """How many of a hundred each count is, so that all make a hundred: those that lose most by cutting get one more."""
    whole = sum(items)
    if not whole:
        return items
    cut = [100 * count // whole for count in items]
    for place in sorted(range(len(items)), key=lambda at: -(100 * items[at] % whole))[:100 - sum(cut)]:
        cut[place] += 1
    return cut


def parameter_part(run):
    series = run.parameters()
    if not series:
        yield note("No parameter was chosen in this run.")
    for name, values in list(series.items())[:MOST_SERIES]:
        numbers = [value for _, value in values]
        label = f"{name}: {counted(len(values), 'value')}, from {min(numbers)} to {max(numbers)}"
        yield chart(charts.line(values[:MOST_VALUES], label, "iteration", (), 100), f"Values of {name}", ["value"]) + only_first(values, MOST_VALUES, "values")
    if len(series) > MOST_SERIES:
        yield note(f"{counted(len(series) - MOST_SERIES, 'more parameter')} of other firings {'is' if len(series) == MOST_SERIES + 1 else 'are'}n't drawn.")


def token_part(run):
    outputs = run.outputs()
    if not outputs:
        yield note("No tokens came out.")
    for name, rows in outputs.items():
        values = [token for row in rows for token in row]
        if not values:
            yield note(f"{name} gave no tokens.")
        elif len(values) <= MOST_POINTS:
            label = f"{name}: {counted(len(values), 'token')} of {counted(len(rows), 'iteration')}, from {min(values)} to {max(values)}"
            turns = [0, *accumulate(len(row) for row in rows[:-1])]
            yield chart(charts.line(list(enumerate(values)), label, "token", turns), f"Tokens of {name}", ["token"])
        else:
            yield chart(charts.grey_image(lines_of(rows)[:MOST_ROWS], name), f"Tokens of {name}", ["token"]) + only_first(lines_of(rows), MOST_ROWS, "lines of the image")


def lines_of(rows):
    """The tokens of iterations as the lines of an image: a line each, or the lines of a square where there is one iteration."""
    if len(rows) > 1:
        return [row for row in rows if row]
    side = max(1, int(len(rows[0]) ** 0.5))
    return [rows[0][at:at + side] for at in range(0, len(rows[0]), side)]


def counts(run):
    rows = [("Graphs in the file", len(run.file.graphs))]
    rows += [(f"Graph {graph.name.text}", part_words(graph)) for graph in ordered(run.file)]
    if not run.plan.status:
        rows += [(f"Firings of {name}", int(count)) for name, count in run.plan.of("repetition")]
        rows += [("Nodes", len(run.plan.of("node"))), ("Edges", len(run.plan.of("edge"))), ("Cells of the plan", int(run.plan.of("height")[0][0]))]
    if not run.memory.status:
        rows.append(("Cells under fixed orders", int(run.memory.of("ordered")[0][0])))
    if not run.schedule.status:
        rows += [(words, int(run.schedule.of(kind)[0][0])) for kind, words in (("critical", "Critical path"), ("work", "Work"), ("length", "Length of the schedule"))]
    rows += [(f"Tokens of {name}", sum(len(row) for row in lists)) for name, lists in run.outputs().items()]
    rows += [(f"Tokens left of {name}", count) for name, count in run.left()]
    return table(f"Of the file, of the plan of the first {first_of(run)}, and of the run", ["What", "How many"], rows)


PARTS = [
    ("graph", "The graph", lambda run: "".join(graph_part(run))),
    ("plan", "The plan of the first {}", plan_part),
    ("schedule", "The list schedule", schedule_part),
    ("cells", "The map of cells", cells_part),
    ("workers", "What each worker did", workers_part),
    ("parameters", "Values of parameters", lambda run: "".join(parameter_part(run))),
    ("tokens", "Output tokens", lambda run: "".join(token_part(run))),
    ("counts", "Sizes and counts", counts),
]


def page(run):
    """The whole page. Where the graph file is refused there is nothing but that."""
    name = f"{run.graph_file} with {run.token_file}"
    parts = [(key, title.format(first_of(run)), make) for key, title, make in PARTS] if run.file else []
    links = "".join(f'<li><a href="#{key}">{escape(title)}</a></li>' for key, title, _ in parts)
    parts_list = f'<nav aria-label="Parts of the report"><ul>{links}</ul></nav>' if parts else ""
    sections = "".join(f'<section id="{key}"><h2>{escape(title)}</h2>{make(run)}</section>' for key, title, make in parts)
    return (
        f'<!DOCTYPE html>\n<html lang="en"><head><meta charset="utf-8"/><meta name="viewport" content="width=device-width, initial-scale=1"/>'
        f"<title>Report: {escape(name)}</title><style>{STYLE}</style></head><body>"
        f'<a class="skip" href="#main">To the report</a><header><h1>Report</h1><p><code>{escape(name)}</code></p></header>'
        f'{parts_list}<main id="main">{summary(run)}{sections}</main></body></html>\n'
    )
