"""An evaluator over cells, as a plan describes them: it keeps no row.

A cell belongs to a part, a stream and values of its dims, and has what the plan keeps of the rows
that the part admits with these values. The answers to a row are all combinations of one cell of
each other stream that meet the links of the part. If the query is shared, parts with the same box of
a stream have its cells together, and a row changes them once.

Cells have numbers: box follows box, by part and then by FROM, and within a box the last dim runs
fastest. A checkpoint names them so.
"""
from bisect import bisect
from collections import Counter, defaultdict
from itertools import product

import analysis

COUNT, PRESENT, LEAST, GREATEST = "count", "present", "least", "greatest"
MOST_TIMES = 2**127


def joined(word, one, other):
    """What is kept of two lists of rows, by what is kept of each, or by one where the other is None."""
    if one is None or other is None:
        return other if one is None else one
    return {COUNT: one + other, PRESENT: 1, LEAST: min(one, other), GREATEST: max(one, other)}[word]


class Synopsis:
    """The cells of an accepted query that is no filter, and what it has printed."""

    def __init__(self, query, parts, shared=False):
        self.query, self.parts, self.printed = query, parts, set()
        self.pairs = analysis.pairs_of(query)
        # the box of each part and place, and by it the contents by values of the dims
        self.boxes = {(number, place): analysis.box_of(query, part, place) if shared else (number, place)
                      for number, part in enumerate(parts) for place in range(query.places)}
        self.cells = defaultdict(dict)
        self.number_boxes()

    def number_boxes(self):
        """Finds by each box the number of its first cell, and its first part and place."""
        self.first, self.origin, self.size = {}, {}, 0
        for (number, place), box in self.boxes.items():
            if box not in self.first and self.query.places > 1:
                self.first[box], self.origin[box] = self.size, (number, place)
                self.size += analysis.size_of(self.parts[number].facts, self.parts[number].dims[place])
        self.order, self.firsts = list(self.first), list(self.first.values())

    # rows

    def admits(self, part, place, of):
        """Whether a row meets the local conditions, or the signs within its stream and each range."""
        if not isinstance(part.facts, analysis.Facts):
            return part.facts.admits(place, of)
        for (left, right), sign in zip(self.pairs, part.signs):
            if not analysis.is_local((left, right), place):
                continue
            x, y = of[left], of.get(right, right)
            if sign != ("<" if x < y else "=" if x == y else ">"):
                return False
        ranges = [(of[it], *part.facts.range(it)) for it in part.dims[place]]
        return all(low <= value <= high for value, low, high in ranges)

    def kind(self, part, place):
        if not self.query.distinct:
            return COUNT, None
        return part.extremes[place] or (PRESENT, None)

    def keep(self, number, part, place, of, times=1):
        """Changes the one cell of a part that the row belongs to."""
        cells = self.kept(number, place)
        values = tuple(of[it] for it in part.dims[place])
        word, column = self.kind(part, place)
        content = {COUNT: times, PRESENT: 1}.get(word, of.get(column))
        cells[values] = joined(word, cells.get(values), content)

    def cells_of(self, number, part, place):
        """The cells that are not empty, each as values of attributes and a count."""
        word, column = self.kind(part, place)
        for values, content in self.kept(number, place).items():
            of = dict(zip(part.dims[place], values))
            if column is not None:
                of[column] = content
            yield of, content if word == COUNT else 1

    def kept(self, number, place):
        """What is kept of a stream for a part: contents by values of the dims."""
        return self.cells[self.boxes[number, place]]

    def in_use(self):
        """How many cells are not empty."""
        return sum(map(len, self.cells.values()))

    def take(self, place, of, times=1):
        """Keeps a row, which is given so many times: each box that admits it changes once."""
        changed = set()
        for number, part in enumerate(self.parts):
            box = self.boxes[number, place]
            if self.query.places > 1 and box not in changed and self.admits(part, place, of):
                changed.add(box)
                self.keep(number, part, place, of, times)

    def answers(self, place, row):
        """The new answers that a row gives, ascending; `row` has the value of each column."""
        of = {(place, column): value for column, value in enumerate(row)}
        found = Counter()
        for number, part in enumerate(self.parts):
            if not self.admits(part, place, of):
                continue
            others = [it for it in range(self.query.places) if it != place]
            cells = [list(self.cells_of(number, part, it)) for it in others]
            for chosen in product(*cells):
                self.combine(part, of, chosen, found)
        self.take(place, of)
        if not self.query.distinct:
            return sorted(Counter({it: min(times, MOST_TIMES) for it, times in found.items()}).elements())
        new = sorted(set(found) - self.printed)
        self.printed.update(new)
        return new

    def combine(self, part, of, chosen, found):
        """Counts the tuple of a combination of the row and cells where it meets the links."""
        values, count = dict(of), 1
        for more, times in chosen:
            values.update(more)
            count *= times
        facts = part.facts

        def value(x):
            # a cell has the value of each of its classes under the name of the class
            return values[x] if x in values else values[facts.class_of(x)]

        if facts.are_linked(value):
            found[tuple(value(it) for it in self.query.select)] += count

    # cells by their numbers

    def box_at(self, index):
        """The box of a cell by the cell's number, its part and place, and the values of its dims."""
        box = self.order[bisect(self.firsts, index) - 1]
        number, place = self.origin[box]
        part, rest, values = self.parts[number], index - self.first[box], []
        for column in reversed(part.dims[place]):
            low, high = part.facts.range(column)
            rest, step = divmod(rest, high - low + 1)
            values.append(low + step)
        return box, part, place, tuple(reversed(values))

    def numbered(self):
        """The cells that are not empty, each its number and its content, ascending."""
        found = []
        for box, first in self.first.items():
            number, place = self.origin[box]
            part = self.parts[number]
            for values, content in self.cells[box].items():
                index = 0
                for column, value in zip(part.dims[place], values):
                    low, high = part.facts.range(column)
                    index = index * (high - low + 1) + value - low
                found.append((first + index, content))
        return sorted(found)

    def load(self, index, content, given):
        """Sets the content of a cell, and says whether it was empty and the content fits."""
        if not 0 <= index < self.size:
            return False
        box, part, place, values = self.box_at(index)
        word, _ = self.kind(part, place)
        most = {COUNT: given, PRESENT: 1}.get(word)
        if values in self.cells[box] or (most is not None and not 1 <= content <= most):
            return False
        self.cells[box][values] = content
        return True

    def load_tuple(self, values):
        """Notes a tuple as printed, and says whether it was not and is one of some part."""
        of = dict(zip(self.query.select, values))
        ranges = [[part.facts.range(it) for it in self.query.select] for part in self.parts]
        if (not self.query.distinct or values in self.printed
                or tuple(of[it] for it in self.query.select) != values
                or not any(all(low <= it <= high for it, (low, high) in zip(values, part)) for part in ranges)):
            return False
        self.printed.add(values)
        return True

    def merged(self, other):
        """The cells of both, place by place, with what the first has printed."""
        both = Synopsis.__new__(Synopsis)
        both.__dict__.update(self.__dict__)
        both.printed, both.cells = set(self.printed), defaultdict(dict)
        for box, (number, place) in self.origin.items():
            word, _ = self.kind(self.parts[number], place)
            one, two = self.cells[box], other.cells[box]
            both.cells[box] = {it: joined(word, one.get(it), two.get(it)) for it in {**one, **two}}
        return both
