"""Charts of schedules, of cells, of what workers did, and of values."""
import heapq

from drawing.inputs import Refused
from drawing.parts import Names
from drawing.svg import GREY, colour, element, firing_colour, image, marks, picture, text, title
from pisdf_tools.wording import counted

WIDTH, MARGIN, ROW = 900, 70, 32
# A bar has a border from this width on.
BORDERED = 3
# Of more buffers a map of cells is an image, since a browser is slow with so many rectangles.
MOST_BUFFERS = 3000
# So many values of a line have their numbers beside them, so many have a dot, and so many iterations are told apart.
MOST_NUMBERS, MOST_DOTS, MOST_TURNS = 24, 200, 60


def grid(length, scale, top, bottom):
    for mark in marks(length, 12):
        x = MARGIN + mark * scale
        yield element("line", x1=x, y1=top - 6, x2=x, y2=bottom, class_="grid")
        yield text(x, top - 12, str(mark), "small middle")


def bar(start, end, worker, label, scale, critical=False, fill=None):
    x, width, y = MARGIN + start * scale, max(1.0, (end - start) * scale), MARGIN + worker * ROW
    # The border of a narrow bar would hide its colour.
    look = "box critical" if critical else "box" if width >= BORDERED else "box thin"
    on_path = ", on the critical path" if critical else ""
    box = element("rect", title(f"{label}: from {start} to {end}, worker {worker}{on_path}"), x=x, y=y + 4, width=width, height=ROW - 8, fill=fill or colour(worker), class_=look)
    return box + (text(x + width / 2, y + ROW / 2 + 4, label, "small middle on") if width > 7 * len(label) else "")


def lanes(workers):
    return [text(8, MARGIN + worker * ROW + ROW / 2 + 4, f"worker {worker}") for worker in range(workers)]


def gantt(schedule, names=None):
    """The list schedule: a row for each worker, a bar for each node. The critical path is red."""
    bars = [[int(field) for field in row] for row in schedule.get("start", [])]
    length, critical = int(schedule["length"][0][0]), set(schedule["path"][0])
    workers = 1 + max((worker for _, worker, _, _ in bars), default=0)
    scale, bottom = WIDTH / max(1, length), MARGIN + workers * ROW
    summary = f"length {length}, critical path {schedule['critical'][0][0]}, work {schedule['work'][0][0]}; the critical path is red"
    # The bars of the critical path are drawn last, over the borders of the others.
    drawn = sorted(bars, key=lambda row: str(row[0]) in critical)
    bars_drawn = [bar(start, end, worker, names.of(str(node)) if names else str(node), scale, str(node) in critical) for node, worker, start, end in drawn]
    parts = [text(MARGIN, 24, summary, "wide"), *grid(length, scale, MARGIN, bottom), *lanes(workers), *bars_drawn]
    return picture(WIDTH + 2 * MARGIN, bottom + 20, f"List schedule of {counted(len(bars), 'node')} on {counted(workers, 'worker')}: {summary}", parts)


# ---- cells


def order_of(plan):
    """For each node its place in an order in which one worker could run them: always the one of the least number that waits for nothing."""
    waiting, behind = {int(row[0]): 0 for row in plan["node"]}, {}
    for _, tail, head, _, _ in plan.get("edge", []):
        waiting[int(head)] += 1
        behind.setdefault(int(tail), []).append(int(head))
    ready = [node for node, count in waiting.items() if not count]
    heapq.heapify(ready)
    place = {}
    while ready:
        node = heapq.heappop(ready)
        place[node] = len(place)
        for head in behind.get(node, []):
            waiting[head] -= 1
            if not waiting[head]:
                heapq.heappush(ready, head)
    return place


def buffers_of(plan, offsets=None):
    """Each buffer: its number, the node that writes it and the node that reads it, and its cells. One without cells is left out."""
    found = []
    for number, tail, head, size, offset in plan.get("edge", []):
        if offsets is not None and number not in offsets:
            raise Refused(f"the memory has no offset for edge {number} of the plan: they are of two graphs")
        at = int(offset if offsets is None else offsets[number])
        if int(size):
            found.append((int(number), int(tail), int(head), at, int(size)))
    return found


def cells(plan, memory=None, names=None):
    """Which buffer lies in which cells, and for how long, where one worker runs the nodes."""
    names = names or Names(plan)
    offsets = {row[0]: row[1] for row in memory["offset"]} if memory else None
    height = int((memory["ordered"] if memory else plan["height"])[0][0])
    buffers, nodes, place = buffers_of(plan, offsets), len(plan["node"]), order_of(plan)
    across, up = WIDTH / max(1, nodes), 420 / max(1, height)
    label = f"{counted(len(buffers), 'buffer')} in {counted(height, 'cell')} over {counted(nodes, 'step')} of one worker; a buffer lives from the node that writes it to the node that reads it"
    if len(buffers) > MOST_BUFFERS:
        drawn = [cells_image(buffers, place, height)]
    else:
        drawn = [cell(buffer, place, across, up, names) for buffer in buffers]
    scale = [part for mark in marks(height, 9) for part in (text(MARGIN - 8, MARGIN + mark * up + 4, str(mark), "small end"),)]
    heads = [text(MARGIN, 24, label, "wide"), text(8, 50, "cell / step")]
    frame = element("rect", x=MARGIN, y=MARGIN, width=WIDTH, height=420, class_="frame")
    return picture(WIDTH + 2 * MARGIN, MARGIN + 440, label, [*heads, *grid(nodes, across, MARGIN, MARGIN + 420), *scale, *drawn, frame])


def cell(buffer, place, across, up, names):
    """The box of a buffer, with the names of its ends as far as they have room."""
    number, tail, head, offset, size = buffer
    first, last = place[tail], place[head]
    ends = names.of(str(tail)), names.of(str(head))
    words = f"edge {number}: cells {offset} to {offset + size - 1}, from {ends[0]} to {ends[1]}"
    left, top, wide, high = MARGIN + first * across, MARGIN + offset * up, max(1.0, (last - first + 1) * across), max(1.0, size * up)
    box = element("rect", title(words), x=left, y=top, width=wide, height=high, fill=GREY, fill_opacity="0.75", class_="box")
    shown = next((label for label in (f"{ends[0]} to {ends[1]}", ends[0]) if 6 * len(label) < wide and high >= 12), "")
    return box + (text(left + wide / 2, top + high / 2 + 4, shown, "small middle on") if shown else "")


def cells_image(buffers, place, height):
    """The same as an image, in three greys."""
    nodes = len(place)
    wide, high = min(WIDTH, nodes), min(420, height)
    rows = [bytearray(b"\xf4" * wide) for _ in range(high)]
    for number, tail, head, offset, size in buffers:
        left = place[tail] * wide // nodes
        right = max(left + 1, (place[head] + 1) * wide // nodes)
        top, bottom = offset * high // height, max(offset * high // height + 1, (offset + size) * high // height)
        shade = bytes([120 + 40 * (number % 3)]) * (right - left)
        for y in range(top, min(bottom, high)):
            rows[y][left:right] = shade
    return element("image", x=MARGIN, y=MARGIN, width=WIDTH, height=420, preserveAspectRatio="none", href=image(rows))


# ---- what workers did


def work(entries, workers, label):
    """A row for each worker, a bar from the claim of an item to its finish; times are the places of the lines in the journal. A colour is
    a firing of a graph."""
    scale, bottom = WIDTH / max(1, entries[-1][2] if entries else 1), MARGIN + workers * ROW
    colours = {}
    bars = []
    for worker, start, end, name, group in entries:
        fill = firing_colour(colours.setdefault(group, len(colours)))
        bars.append(bar(start, end, worker, name, scale, False, fill))
    length = max((end for _, _, end, _, _ in entries), default=0)
    scale_parts = grid(length, scale, MARGIN, bottom)
    return picture(WIDTH + 2 * MARGIN, bottom + 20, label, [text(MARGIN, 24, label, "wide"), *scale_parts, *lanes(workers), *bars])


# ---- values


def short(value):
    """A number in few letters."""
    return str(value) if len(str(value)) <= 8 else f"{value:.3g}"


def line(points, label, axis, turns=(), height=180):
    """Values as a line over the axis that the word names; each point is a place on it and a value. `turns` are the places where an
    iteration begins."""
    values = [value for _, value in points]
    low, high, length = min(values + [0]), max(values + [0]), max(place for place, _ in points)
    across, up = WIDTH / max(1, length), height / max(1, high - low)
    at = [(MARGIN + place * across, 40 + (high - value) * up) for place, value in points]
    drawn = element("polyline", points=" ".join(f"{x:.1f},{y:.1f}" for x, y in at), class_="value")
    ends = [text(MARGIN - 8, 44, short(high), "small end"), text(MARGIN - 8, 44 + height, short(low), "small end")]
    steps = [text(MARGIN + mark * across, 58 + height, str(mark), "small middle") for mark in marks(length, 12)]
    names = [text(MARGIN, 24, label, "wide"), text(MARGIN + WIDTH / 2, 92 + height, axis, "small middle")]
    frame = element("rect", x=MARGIN, y=40, width=WIDTH, height=height, class_="frame")
    return picture(WIDTH + 2 * MARGIN, height + 102, label, [*names, frame, *ends, *steps, *turn_parts(turns, across, height), drawn, *dots(points, at, axis)])


def dots(points, at, axis):
    """A dot for each value where they aren't many, and its number where they are few."""
    for (place, value), (x, y) in zip(points, at) if len(points) <= MOST_DOTS else ():
        yield element("circle", title(f"{axis} {place}: {value}"), cx=x, cy=y, r=2.5, class_="dot")
        if len(points) <= MOST_NUMBERS:
            yield text(x + 4, y - 5 if y > 54 else y + 13, short(value), "small over")


def turn_parts(turns, across, height):
    """A line between iterations, and below the axis the number of each where there is room."""
    if not 1 < len(turns) <= MOST_TURNS:
        return
    for number, place in enumerate(turns):
        x = MARGIN + max(0, place - 0.5) * across
        yield element("line", x1=x, y1=40, x2=x, y2=40 + height, class_="turn")
        if WIDTH / len(turns) > 70:
            yield text(x + 3, 74 + height, f"iteration {number}")


def grey_image(rows, label):
    """Rows of values as an image, the least black and the greatest white."""
    values = [value for row in rows for value in row]
    low, spread = min(values), max(1, max(values) - min(values))
    width = max(len(row) for row in rows)
    grey = [[(value - low) * 255 // spread for value in row] + [0] * (width - len(row)) for row in rows]
    scale = max(1, min(WIDTH // width, 16))
    high = min(600, len(rows) * scale)
    drawn = element("image", x=MARGIN, y=40, width=min(WIDTH, width * scale), height=high, preserveAspectRatio="none", style="image-rendering:pixelated", href=image(grey))
    words = f"{label}: {len(rows)} rows of {width} tokens, from {low} (black) to {max(values)} (white)"
    return picture(WIDTH + 2 * MARGIN, high + 60, words, [text(MARGIN, 24, words, "wide"), drawn])
