"""A layered drawing of a directed graph, after Sugiyama, Tagawa and Toda (1981): layers by longest paths, an order in each layer by means
of neighbours, and links that run over places of their own in the layers between. Many layers are laid out in bands below each other."""
from drawing.bands import Bands
from drawing.svg import element, picture, text

GAP_X, GAP_Y, LINE, PAD, CHARACTER = 70, 26, 15, 9, 6.6
BENT, END_GAP = 14, 28
# The height of a link beside others: two of them may be nearer to each other than GAP_Y.
LINK = -10


class Box:
    """A node of a drawing: its lines of words, its look, and its place in the picture."""

    def __init__(self, name, lines, fill, shape="box", words=""):
        self.name, self.lines, self.fill, self.shape, self.words = name, lines, fill, shape, words
        self.width = max(len(line) for line in lines) * CHARACTER + 2 * PAD
        self.height = len(lines) * LINE + PAD
        self.layer = self.x = self.y = 0


class Arrow:
    """A link of a drawing, with what stands at its tail, at its middle and at its head."""

    def __init__(self, tail, head, labels=("", "", ""), look="edge"):
        self.tail, self.head, self.labels, self.look = tail, head, labels, look


def forward(names, arrows):
    """The arrows without loops, each of a cycle's turned round where that breaks the cycle, as pairs of names."""
    behind = {name: [] for name in names}
    for arrow in arrows:
        if arrow.tail != arrow.head:
            behind[arrow.tail].append(arrow.head)
    state, turned = {}, set()
    for root in names:
        stack = [(root, iter(behind[root]))] if root not in state else []
        state.setdefault(root, "open")
        while stack:
            name, rest = stack[-1]
            child = next(rest, None)
            if child is None:
                state[name] = "done"
                stack.pop()
            elif state.get(child) == "open":
                turned.add((name, child))
            elif child not in state:
                state[child] = "open"
                stack.append((child, iter(behind[child])))
    pairs = [(arrow.tail, arrow.head) for arrow in arrows if arrow.tail != arrow.head]
    return [(head, tail) if (tail, head) in turned else (tail, head) for tail, head in pairs]


def layers_of(names, pairs):
    """For each name the length of the longest path to it."""
    waiting = {name: 0 for name in names}
    behind = {name: [] for name in names}
    for tail, head in pairs:
        waiting[head] += 1
        behind[tail].append(head)
    layer = {name: 0 for name in names}
    ready = [name for name in names if not waiting[name]]
    for name in ready:
        for head in behind[name]:
            layer[head] = max(layer[head], layer[name] + 1)
            waiting[head] -= 1
            if not waiting[head]:
                ready.append(head)
    return layer


def chains(pairs, layer):
    """For each pair the places that its link goes over: both ends, and one in each layer between."""
    return [[tail, *((number, at) for at in range(layer[tail] + 1, layer[head])), head] for number, (tail, head) in enumerate(pairs)]


def ordered(rows, neighbours, rounds=6):
    """The rows with each place moved to the mean of its neighbours' places, by turns from the front and from the back."""
    for turn in range(rounds):
        places = {name: at for row in rows for at, name in enumerate(row)}
        for row in rows if turn % 2 == 0 else rows[::-1]:
            mean = {name: sum(places[one] for one in neighbours[name]) / len(neighbours[name]) if neighbours[name] else places[name] for name in row}
            row.sort(key=lambda name: mean[name])
            places.update({name: at for at, name in enumerate(row)})
    return rows


def spread(rows, neighbours, heights):
    """Where each place of a row stands: near the mean of its neighbours, and below the one before it."""
    y = {}
    for row in rows:
        at = 0.0
        for name in row:
            y[name] = at + heights[name] / 2
            at += heights[name] + GAP_Y
    for turn in range(8):
        for row in rows if turn % 2 == 0 else rows[::-1]:
            wanted = [sum(y[one] for one in neighbours[name]) / len(neighbours[name]) if neighbours[name] else y[name] for name in row]
            settle(row, wanted, y, heights)
    least = min((y[name] - heights[name] / 2 for name in y), default=0)
    return {name: at - least for name, at in y.items()}


def settle(row, wanted, y, heights):
    """Puts the places of a row as near to what is wanted as their order and their heights allow, from both sides."""
    low, high, floor = [], [0.0] * len(row), None
    for name, want in zip(row, wanted):
        at = want if floor is None else max(want, floor + heights[name] / 2)
        low.append(at)
        floor = at + heights[name] / 2 + GAP_Y
    ceiling = None
    for number in range(len(row) - 1, -1, -1):
        name = row[number]
        high[number] = wanted[number] if ceiling is None else min(wanted[number], ceiling - heights[name] / 2)
        ceiling = high[number] - heights[name] / 2 - GAP_Y
    floor = None
    for name, one, other in zip(row, low, high):
        y[name] = (one + other) / 2 if floor is None else max((one + other) / 2, floor + heights[name] / 2)
        floor = y[name] + heights[name] / 2 + GAP_Y


def gaps_of(arrows, links, layer):
    """How far each layer is from the next, so that what stands at links has room."""
    gaps = {}
    for arrow, link in zip(arrows, links):
        first, middle, last = (len(label) * CHARACTER for label in arrow.labels)
        across = len(link) - 1
        beside = middle + 12 if middle and first + last else 0
        need = max(first + last + beside + 36 if across == 1 else max(first, last) + 36, middle / across + 24)
        for at in range(layer[link[0]], layer[link[-1]]):
            gaps[at] = max(gaps.get(at, GAP_X), need)
    return gaps


def place(boxes, arrows):
    """Gives each box its place, and each arrow the points that it goes over."""
    names = [box.name for box in boxes]
    by_name = {box.name: box for box in boxes}
    pairs = forward(names, arrows)
    layer = layers_of(names, pairs)
    links = chains(pairs, layer)
    rows = [[] for _ in range(max(layer.values(), default=0) + 1)]
    for name in names:
        rows[layer[name]].append(name)
    neighbours = {name: [] for name in names}
    for link in links:
        for name in link[1:-1]:
            rows[name[1]].append(name)
        for one, other in zip(link, link[1:]):
            neighbours.setdefault(one, []).append(other)
            neighbours.setdefault(other, []).append(one)
    heights = {name: by_name[name].height if name in by_name else LINK for row in rows for name in row}
    y = spread(ordered(rows, neighbours), neighbours, heights)
    found = gaps_of([arrow for arrow in arrows if arrow.tail != arrow.head], links, layer)
    gaps = [found.get(number, GAP_X) for number in range(len(rows))]
    widths = [max((by_name[name].width for name in row if name in by_name), default=0) for row in rows]
    bands = Bands(rows, widths, gaps, heights, y, links)
    for box in boxes:
        (box.x, box.y), box.layer = bands.place(box.name), layer[box.name]
    return bands.size(), [bands.route(number) for number in range(len(links))]


def box_parts(box, left, top):
    x, y = box.x - box.width / 2 + left, box.y - box.height / 2 + top
    round_ = {"box": 2, "config": 9, "param": 14, "interface": 14}[box.shape]
    yield element("rect", element("title", box.words) if box.words else None, x=x, y=y, width=box.width, height=box.height, rx=round_, fill=box.fill, class_="box")
    first = box.y + top - len(box.lines) * LINE / 2 + 11
    for number, words in enumerate(box.lines):
        yield text(box.x + left, first + LINE * number, words, "middle on")


def curve(points):
    """A path through the points, level at each of them."""
    words = f"M{points[0][0]:.1f},{points[0][1]:.1f}"
    for (x, y), (to_x, to_y) in zip(points, points[1:]):
        middle = (x + to_x) / 2
        words += f" C{middle:.1f},{y:.1f} {middle:.1f},{to_y:.1f} {to_x:.1f},{to_y:.1f}"
    return words


def arrow_head(x, y, leftwards):
    reach = 7 if leftwards else -7
    return element("path", d=f"M{x:.1f},{y:.1f} l{reach},-4 l0,8 z", class_="head")


def heighten(boxes, arrows):
    """Gives each box room for the links on either side of it."""
    count = {}
    for arrow in arrows:
        if arrow.tail != arrow.head:
            for end in ((arrow.tail, "tail"), (arrow.head, "head")):
                count[end] = count.get(end, 0) + 1
    for box in boxes:
        box.height = max(box.height, END_GAP * max(count.get((box.name, "tail"), 0), count.get((box.name, "head"), 0)))


def attach(routes, by_name):
    """Moves the ends of links at one side of a box apart, in the order of where they lead, and to that side."""
    sides = {}
    for arrow, points, is_turned in routes:
        for name, at, step, is_right in ((arrow.tail, 0, 1, not is_turned), (arrow.head, -1, -1, is_turned)):
            beside = points[at + step]
            sides.setdefault((name, is_right), []).append((beside[1], -beside[0], points, at, step))
    for (name, is_right), ends in sides.items():
        box = by_name[name]
        ends.sort(key=lambda end: end[:2])
        for number, (_, _, points, at, step) in enumerate(ends):
            reach = box.width / 2 if is_right else -box.width / 2
            end = box.x + reach, box.y - box.height / 2 + box.height * (number + 1) / (len(ends) + 1)
            if is_corner(points, at, step):
                points[at + step] = points[at + step][0], end[1]
            points[at] = end


def is_corner(points, at, step):
    """Whether a link turns to another band beside this end."""
    return len(points) > 2 and points[at + step][0] == points[at + 2 * step][0]


def arrow_parts(arrow, points, is_turned, left, top, taken, labels):
    """A link from the side of its tail to the side of its head. Its labels are added to `labels`; `taken` are the places where something
    stands: the middle of each and half its width and height."""
    side = -1 if is_turned else 1
    ends = [(x + left, y + top) for x, y in points]
    yield element("path", d=curve(ends), class_=arrow.look)
    yield arrow_head(*ends[-1], is_turned)
    labels.extend(label_parts(arrow.labels, ends, side, taken))


def on_curve(start, end, share):
    """The point of a curve from one point to the next after a share of its way."""
    (x, y), (to_x, to_y), rest = start, end, 1 - share
    middle = 3 * share * rest * (x + to_x) / 2
    return x * rest**3 + middle + to_x * share**3, y + (to_y - y) * share * share * (3 - 2 * share)


def free_place(words, ends, taken):
    """The place for a label at a link where it lies over nothing: in the middle, or else beside it, on another part, above or below."""
    wide, number = 3.2 * len(words), (len(ends) - 1) // 2
    parts = sorted(range(len(ends) - 1), key=lambda part: abs(part - number))[:4]
    on_link = [on_curve(ends[part], ends[part + 1], share) for part in parts for share in (0.5, 0.35, 0.65, 0.2, 0.8)]
    places = [(x, y + move) for move in (0, 13, -13, 26, -26, 39) for x, y in on_link]
    x, y = next((place for place in places if is_free(*place, wide, taken)), places[0])
    taken.append((x, y, wide, 6.5))
    return x, y + 4


def is_free(x, y, wide, taken):
    """Whether a label of this half width lies over nothing there."""
    return all(abs(x - other) > wide + reach or abs(y - at) > 6 + high for other, at, reach, high in taken)


def beside(end, move, words):
    """Where a label stands that begins or ends so far from an end of a link."""
    half = 3.2 * len(words)
    return end[0] + move + (half if move > 0 else -half), end[1] - 8, half, 6.5


def label_parts(labels, ends, side, taken):
    first, middle, last = labels
    near, far = ("small", "small end") if side > 0 else ("small end", "small")
    if first:
        taken.append(beside(ends[0], side * 3, first))
        yield text(ends[0][0] + side * 3, ends[0][1] - 4, first, near)
    if last:
        taken.append(beside(ends[-1], side * -9, last))
        yield text(ends[-1][0] - side * 9, ends[-1][1] - 4, last, far)
    if middle:
        yield text(*free_place(middle, ends, taken), middle, "small middle over")


def loop_parts(arrow, box, left, top):
    """A link from a box to itself, below it."""
    x, y = box.x + left, box.y + box.height / 2 + top
    reach = box.width / 2
    yield element("path", d=f"M{x + reach:.1f},{y - 8:.1f} c{BENT},{BENT * 2} {-2 * reach - BENT:.1f},{BENT * 2} {-2 * reach:.1f},0", class_=arrow.look)
    yield arrow_head(x - reach, y - 8, False)
    words = ", ".join(label for label in arrow.labels if label)
    yield text(x, y + BENT + 8, words, "small middle")


def drawing(boxes, arrows, label):
    """The picture of boxes and arrows."""
    heighten(boxes, arrows)
    (width, height), points = place(boxes, arrows)
    by_name = {box.name: box for box in boxes}
    left, top = 16, 24
    parts, routes, labels = [], [], []
    taken = [(box.x + left, box.y + top, box.width / 2, box.height / 2) for box in boxes]
    apart = [arrow for arrow in arrows if arrow.tail != arrow.head]
    for arrow, over in zip(apart, points):
        is_turned = by_name[arrow.tail].layer > by_name[arrow.head].layer
        routes.append((arrow, over[::-1] if is_turned else over, is_turned))
    attach(routes, by_name)
    for arrow, over, is_turned in routes:
        parts += arrow_parts(arrow, over, is_turned, left, top, taken, labels)
    for arrow in arrows:
        if arrow.tail == arrow.head:
            parts += loop_parts(arrow, by_name[arrow.tail], left, top)
    for box in boxes:
        parts += box_parts(box, left, top)
    # The labels are drawn last, over all links.
    parts += labels
    return picture(width + 2 * left, height + top + 36, label, parts)
