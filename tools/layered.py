"""Places the nodes of a graph without circles in layers, so that its lines all go down, cross seldom and are nearly straight.

A line that passes layers has a bend in each, for which room is kept as for a node. The same graph is always placed alike.
"""
import itertools
import random

ROUNDS = 60  # orders to begin with; the one with the fewest crossings is taken


def reaches(uses, name):
    """All on which this one stands, over however many others."""
    return set(uses[name]).union(*(reaches(uses, below) for below in uses[name]))


def reduced(uses):
    """The lines without which nothing would be said: those that no longer way says, too."""
    return {name: [it for it in below if not any(it in reaches(uses, other) for other in below if other != it)] for name, below in uses.items()}


def layers_of(uses, tops):
    """For each node its layer, from 0 at the bottom: above all that it uses, the tops highest, and lines short."""
    users = {name: [it for it in uses if name in uses[it]] for name in uses}
    layer = {}
    while len(layer) < len(uses):
        ready = [name for name in uses if name not in layer and all(it in layer for it in uses[name])]
        layer.update({name: max([layer[it] + 1 for it in uses[name]], default=0) for name in ready})
    layer.update({name: max(layer.values()) for name in tops})
    moved = True
    while moved:
        moved = False
        for name in uses:
            highest = min((layer[it] for it in users[name]), default=layer[name] + 1) - 1
            if len(users[name]) >= max(len(uses[name]), 1) and highest > layer[name]:
                layer[name], moved = highest, True
    return layer


class Rows:
    """The nodes and bends of each layer, from the lowest, and between which of them lines go."""

    def __init__(self, uses, layer):
        self.rows = [[name for name in uses if layer[name] == at] for at in range(max(layer.values()) + 1)]
        self.below, self.above, self.chains = {}, {}, []
        for name, below in uses.items():
            for used in below:
                chain = [name, *((name, used, at) for at in range(layer[name] - 1, layer[used], -1)), used]
                for at, bend in zip(range(layer[name] - 1, layer[used], -1), chain[1:-1]):
                    self.rows[at].append(bend)
                for upper, lower in zip(chain, chain[1:]):
                    self.below.setdefault(upper, []).append(lower)
                    self.above.setdefault(lower, []).append(upper)
                self.chains.append(chain)

    def crossings(self, at):
        """How many lines cross between this layer and the one below."""
        place = {it: number for number, it in enumerate(self.rows[at - 1])}
        ends = [sorted(place[low] for low in self.below.get(it, [])) for it in self.rows[at]]
        return sum(a > b for left, right in itertools.combinations(ends, 2) for a in left for b in right)

    def all_crossings(self):
        return sum(self.crossings(at) for at in range(1, len(self.rows)))

    def sort(self, at, others, near):
        """Puts each of a layer near those of the next one with which it has lines."""
        place = {it: number for number, it in enumerate(self.rows[at + others])}
        own = {it: number for number, it in enumerate(self.rows[at])}
        middle = {it: sum(place[n] for n in near[it]) / len(near[it]) if near.get(it) else own[it] for it in own}
        self.rows[at].sort(key=lambda it: (middle[it], own[it]))

    def swap(self):
        """Changes neighbours where that takes crossings away, until it does no more."""
        better = True
        while better:
            better = False
            for at, row in enumerate(self.rows):
                near = [it for it in (at, at + 1) if 0 < it < len(self.rows)]
                for left in range(len(row) - 1):
                    before = sum(map(self.crossings, near))
                    row[left], row[left + 1] = row[left + 1], row[left]
                    if sum(map(self.crossings, near)) < before:
                        better = True
                    else:
                        row[left], row[left + 1] = row[left + 1], row[left]

    def order(self):
        """Finds an order of each layer with few crossings."""
        chance, best = random.Random(1), None
        for _ in range(ROUNDS):
            for row in self.rows:
                keys = {it: chance.random() for it in row}
                row.sort(key=keys.get)
            for _ in range(6):
                for at in range(1, len(self.rows)):
                    self.sort(at, -1, self.below)
                for at in range(len(self.rows) - 2, -1, -1):
                    self.sort(at, 1, self.above)
            self.swap()
            found = self.all_crossings()
            if best is None or found < best[0]:
                best = found, [list(row) for row in self.rows]
        self.rows = best[1]

    def places(self, width, gap):
        """How far to the right the middle of each is. `width` says how broad one is; between neighbours the gap is kept at least."""
        right = {}
        for row in self.rows:
            edge = 0
            for it in row:
                right[it] = edge + width(it) / 2
                edge += width(it) + gap
        columns = self.columns()
        column = {it: number for number, its in enumerate(columns) for it in its}
        for _ in range(400):
            for row in [*self.rows, *reversed(self.rows)]:
                wanted = []
                for it in row:
                    near = [(right[n], 8 if column[n] == column[it] else 1) for n in [*self.below.get(it, []), *self.above.get(it, [])]]
                    weight = sum(its for _, its in near)
                    wanted.append((sum(x * its for x, its in near) / weight, weight))
                right.update(zip(row, apart(wanted, [(width(a) + width(b)) / 2 + gap for a, b in zip(row, row[1:])])))
        self.straighten(right, columns, width, gap)
        least = min(right[it] - width(it) / 2 for it in right)
        return {it: round(x - least) for it, x in right.items()}

    def columns(self):
        """What is to stand upright: the bends of a line, and nodes of which each is used by the one above alone."""
        found, taken = [chain[1:-1] for chain in self.chains if len(chain) > 2], set()
        for it in [it for row in reversed(self.rows) for it in row if not self.is_bend(it)]:
            if it not in taken:
                found.append(self.alone_below(it))
                taken.update(found[-1])
        return found

    def alone_below(self, it):
        """A node, and those below of which each is used by the one above alone."""
        lows = [low for low in self.below.get(it, []) if self.above[low] == [it] and not self.is_bend(low)]
        return [it, *max(map(self.alone_below, lows), key=len, default=[])]

    def straighten(self, right, columns, width, gap):
        """Puts what is to stand upright at one place each, as near to what it has lines with as there is room, the longest last. Where there is none it
        stays where it is, and what stands in the way of that is pushed aside."""
        row_of = {it: row for row in self.rows for it in row}

        def apart_from(row, here, there):
            return (width(row[here]) + width(row[there])) / 2 + gap

        for _ in range(30):
            for column in sorted(columns, key=len):
                near = [right[n] for it in column for n in [*self.below.get(it, []), *self.above.get(it, [])] if n not in column]
                spots = [(row_of[it], row_of[it].index(it)) for it in column]
                least = max([right[row[at - 1]] + apart_from(row, at, at - 1) for row, at in spots if at], default=-1e9)
                most = min([right[row[at + 1]] - apart_from(row, at, at + 1) for row, at in spots if at + 1 < len(row)], default=1e9)
                place = min(max(sum(near) / len(near), least), most) if least <= most else sum(right[it] for it in column) / len(column)
                for row, at in spots:
                    right[row[at]] = place
                    for step, here in [(1, at), (-1, at)]:
                        while 0 <= here + step < len(row):
                            distance = apart_from(row, here, here + step)
                            if (right[row[here + step]] - right[row[here]]) * step < distance:
                                right[row[here + step]] = right[row[here]] + step * distance
                            here += step

    @staticmethod
    def is_bend(it):
        return isinstance(it, tuple)


def apart(wanted, distances):
    """The places nearest to the wanted ones, each with its weight, that keep these distances from one to the next."""
    offsets = list(itertools.accumulate(distances, initial=0))
    blocks = []
    for (place, weight), offset in zip(wanted, offsets):
        blocks.append([place - offset, weight, 1])
        while len(blocks) > 1 and blocks[-2][0] > blocks[-1][0]:
            place, weight, size = blocks.pop()
            last = blocks[-1]
            last[0] = (last[0] * last[1] + place * weight) / (last[1] + weight)
            last[1:] = last[1] + weight, last[2] + size
    moved = [block[0] for block in blocks for _ in range(block[2])]
    return [place + offset for place, offset in zip(moved, offsets)]
