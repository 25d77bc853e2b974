"""A wide drawing as bands below each other: which layers stand side by side, and how links go on from one band to the next."""
from functools import cached_property

# A drawing that would be wider than WIDEST is laid out in bands, in each of which the layers have a width of BAND at most. Between two
# bands there is room for loops and, LANE from each other, for the links that go on.
WIDEST, BAND, LANE, BETWEEN = 1600, 840, 8, 72


def bands_of(widths, gaps):
    """The band of each layer. `gaps` has how far each layer is from the next."""
    if sum(widths) + sum(gaps[:-1]) <= WIDEST:
        return [0] * len(widths)
    found, wide = [0], widths[0]
    for gap, width in zip(gaps, widths[1:]):
        wide += gap + width
        found.append(found[-1] + (wide > BAND))
        wide = width if wide > BAND else wide
    return found


class Bands:
    """The places of a drawing whose layers lie in bands. `rows` has the places of each layer, `y` and `heights` are those of each place,
    `links` are the places that each link goes over."""

    def __init__(self, rows, widths, gaps, heights, y, links):
        self.rows, self.widths, self.gaps, self.heights, self.y, self.links = rows, widths, gaps, heights, y, links
        self.bands = bands_of(widths, gaps)
        self.layer = {name: number for number, row in enumerate(rows) for name in row}

    @cached_property
    def going_on(self):
        """For the last layer of each band but the last the places from which links go on in the next band, from above."""
        found = {number: [] for number, (one, other) in enumerate(zip(self.bands, self.bands[1:])) if one != other}
        for link_number, link in enumerate(self.links):
            for name in link[:-1]:
                if self.layer[name] in found:
                    found[self.layer[name]].append((self.y[name], link_number))
        return {number: [link_number for _, link_number in sorted(ends)] for number, ends in found.items()}

    @cached_property
    def x(self):
        """The middle of each layer. Before a band there is room for the links that come from the one above."""
        self.left = max((self.room(number) + LANE * len(links) for number, links in self.going_on.items()), default=0)
        found, at = [], self.left
        for number, (width, gap) in enumerate(zip(self.widths, self.gaps)):
            found.append(at + width / 2)
            at = self.left if number in self.going_on else at + width + gap
        return found

    def room(self, number):
        """How far links that go on run straight behind a layer, and before the next one, so that what stands at their ends has room."""
        return self.gaps[number] * 2 / 3

    @cached_property
    def edges(self):
        """Where each band begins and ends: its own top, and the top and the bottom that it has below the bands before it."""
        found, at = [], 0.0
        for band in range(self.bands[-1] + 1):
            layers = [number for number, of in enumerate(self.bands) if of == band]
            names = [name for number in layers for name in self.rows[number]]
            top = min((self.y[name] - self.heights[name] / 2 for name in names), default=0.0)
            bottom = max((self.y[name] + self.heights[name] / 2 for name in names), default=0.0)
            found.append((top, at, at + bottom - top))
            at += bottom - top + BETWEEN + LANE * len(self.going_on.get(layers[-1], ()))
        return found

    def place(self, name):
        number = self.layer[name]
        top, at, _ = self.edges[self.bands[number]]
        return self.x[number], self.y[name] - top + at

    def route(self, link_number):
        """The points that a link goes over."""
        points = []
        for name, other in zip(self.links[link_number], self.links[link_number][1:]):
            points.append(self.place(name))
            if self.layer[name] in self.going_on:
                points += self.way_on(link_number, self.layer[name], points[-1][1], self.place(other)[1])
        return points + [self.place(self.links[link_number][-1])]

    def way_on(self, link_number, number, y, to_y):
        """The points of a link from the last layer of a band to the next band: to the right, down, to the left, and down. The one that comes
        from above all others runs around them."""
        others = self.going_on[number]
        above = others.index(link_number)
        outer = LANE * (len(others) - 1 - above)
        right = self.x[number] + self.widths[number] / 2 + self.room(number) + outer
        left = self.left - self.room(number) - LANE * above
        between = self.edges[self.bands[number]][2] + BETWEEN / 2 + outer
        return [(right, y), (right, between), (left, between), (left, to_y)]

    def size(self):
        ends = [x + width / 2 for x, width in zip(self.x, self.widths)]
        ends += [x for number in range(len(self.links)) for x, _ in self.route(number)] if self.going_on else []
        return max(ends, default=0.0), max((bottom for _, _, bottom in self.edges), default=0.0)
