"""The whole form of a compact query, from the definitions: one part, read off the comparisons and domains themselves.

The comparisons but `<>`, and the domains, bound differences of columns; their closed table says what follows. A stream's local conditions
are all that follows for its own columns, and its own comparisons `<>`. The comparisons of columns of two streams are links, but those that
the others say already. Of each class of columns that is selected or linked a cell has a value, but of the extreme of its stream.
"""
import operator

import analysis
from analysis import SOFT, TURNED, Bounds, is_constant

# by how many parts at most rows may be cheaper than as one
MOST_CHEAP_PARTS = 16
MEANING = {"<": operator.lt, "=": operator.eq, ">": operator.gt, "<=": operator.le, ">=": operator.ge, "<>": operator.ne}
ALL = None, None


def differences(left, sign, right):
    """What a comparison bounds: triples (x, y, bound) with x - y at most the bound; `<>` bounds nothing."""
    return {"<": [(left, right, -1)], "<=": [(left, right, 0)], "=": [(left, right, 0), (right, left, 0)],
            ">": [(right, left, -1)], ">=": [(right, left, 0)], "<>": []}[sign]


def nodes_of(query):
    """The columns that are compared or selected, each with its node."""
    return {it: node for node, it in enumerate(sorted({*analysis.attributes_of(query), *query.select}), 1)}


def closed(query, nodes):
    """The closed table of all that comparisons and domains bound."""
    bounds = Bounds(len(nodes) + 1)

    def at(element):
        return (0, element) if is_constant(element) else (nodes[element], 0)

    for atom in query.atoms:
        for x, y, bound in differences(*atom):
            (i, k), (j, m) = at(x), at(y)
            bounds.add((i, j, bound - k + m))
    for column, low, high in query.domains:
        bounds.add((0, nodes[column], -low))
        bounds.add((nodes[column], 0, high))
    return bounds


def across(query):
    """The comparisons of columns of two streams, each once: turned to `<` or `<=`, of `=` and `<>` the earlier column first."""
    found = []
    for left, sign, right in query.atoms:
        if is_constant(left) or is_constant(right) or left[0] == right[0]:
            continue
        if sign in (">", ">=") or (sign in ("=", "<>") and right < left):
            left, sign, right = right, TURNED[sign], left
        found.append((left, sign, right))
    return list(dict.fromkeys(found))


def widest(windows):
    """The least range that holds all of some; an end that is not there is None."""
    lows, highs = zip(*windows)
    return None if None in lows else min(lows), None if None in highs else max(highs)


def window(sign, ends):
    """The values of the left side that a link tells apart, where the right side has this range."""
    low, high = ends
    below, above = None if low is None else low - 1, None if high is None else high + 1
    return {"<": (below, high), "<=": (low, above), ">": (low, above), ">=": (below, high), "<>": (below, above), "=": ALL}[sign]


def cut(own, to):
    """A range cut to another."""
    lows, highs = ([it for it in ends if it is not None] for ends in zip(own, to))
    return max(lows, default=None), min(highs, default=None)


def room(ends):
    """How many values a range has."""
    return float("inf") if None in ends else ends[1] - ends[0] + 1


class Whole:
    """What holds of the rows and combinations that a query takes, and what is kept of them."""

    def __init__(self, query, nodes, at):
        self.query, self.nodes, self.at, self.attributes = query, nodes, at, sorted(nodes)
        self.links = self.thinned(across(query))
        self.inequalities = [(x, y) for x, sign, y in self.links if sign == "<"]
        self.soft = [it for it in self.links if it[1] in SOFT]
        self.read = set(query.select) | {it for x, _, y in self.links for it in (x, y)}
        self.kept_whole = set(query.select) | {it for x, sign, y in self.links if sign == "=" for it in (x, y)}
        self.extremes = [self.extreme(it) for it in range(query.places)]
        self.dims = [[it for it in self.classes(place) if extreme is None or it != extreme[1]]
                     for place, extreme in enumerate(self.extremes)]
        dims = [it for columns in self.dims for it in columns]
        self.equalities = [(x, y) for x in dims for y in dims if x[0] < y[0] and self.equal(x, y)]

    def upper(self, x, y):
        """The least bound of the difference of two columns, or None."""
        return self.at[self.nodes[x]][self.nodes[y]]

    @staticmethod
    def is_alone(_):
        """No column is apart from what is known of others."""
        return False

    def equal(self, x, y):
        one, other = self.upper(x, y), self.upper(y, x)
        return one is not None and other is not None and one <= 0 and other <= 0

    def ends(self, x):
        """The least and the greatest value of a column, None where there is none."""
        low, high = self.at[0][self.nodes[x]], self.at[self.nodes[x]][0]
        return None if low is None else -low, high

    def range(self, x):
        """The range of a column that has both ends, else None."""
        return None if None in self.ends(x) else self.ends(x)

    def class_of(self, x):
        """The first column of the stream that equals x."""
        return self.members(x)[0]

    # links

    def follows(self, x, y, bound, others):
        """Whether the ranges, or one of the other comparisons between the same streams, say that x - y is at most the bound."""
        high, low = self.ends(x)[1], self.ends(y)[0]
        if high is not None and low is not None and high - low <= bound:
            return True
        for other in others:
            for a, b, by in differences(*other):
                if a[0] == x[0] and b[0] == y[0] and None not in (self.upper(x, a), self.upper(b, y)):
                    if self.upper(x, a) + by + self.upper(b, y) <= bound:
                        return True
        return False

    def goes(self, link, others):
        """Whether a comparison says nothing beside others and the local conditions."""
        x, sign, y = link
        if sign == "<>":
            return self.follows(x, y, -1, others) or self.follows(y, x, -1, others)
        return all(self.follows(*it, others) for it in differences(*link))

    def thinned(self, links):
        """The links that stay: one after another is tried beside those that stayed and those that come."""
        stayed = []
        for number, link in enumerate(links):
            if not self.goes(link, stayed + links[number + 1:]):
                stayed.append(link)
        return stayed

    # what is kept

    def members(self, x):
        """The columns of the class of x, in order."""
        return [it for it in self.attributes if it[0] == x[0] and self.equal(it, x)]

    def is_kept_whole(self, x):
        """Whether a class is selected, in a link `=`, or equal to a column of another stream."""
        others = [it for it in analysis.attributes_of(self.query) if it[0] != x[0]]
        return bool(self.kept_whole & set(self.members(x))) or any(self.equal(it, x) for it in others)

    def sides(self, x):
        """The links of a class, each as it reads from the class on: its sign and the other side."""
        members = self.members(x)
        return ([(sign, right) for left, sign, right in self.links if left in members]
                + [(TURNED[sign], left) for left, sign, right in self.links if right in members])

    def told_apart(self, x):
        """The values of a class that links tell apart."""
        if self.is_kept_whole(x):
            return self.ends(x)
        return cut(self.ends(x), widest([window(sign, self.ends(other)) for sign, other in self.sides(x)]))

    def way(self, x):
        """Which extreme of a class decides all its links: `least`, `greatest`, or None."""
        signs = {sign for sign, _ in self.sides(x)}
        if self.is_kept_whole(x):
            return None
        return "least" if signs <= {"<", "<="} else "greatest" if signs <= {">", ">="} else None

    def classes(self, place):
        """The classes of a stream that are selected or linked."""
        return sorted({self.class_of(it) for it in self.read if it[0] == place})

    def extreme(self, place):
        """The extreme of a stream, its word and class, or None: of the classes whose links go one way the one with most values told apart."""
        best, most = None, 1
        for it in self.classes(place) if self.query.distinct else []:
            values = self.way(it) and room(self.told_apart(it))
            if values and values > most:
                best, most = (self.way(it), it), values
        return best

    # rows and combinations

    def is_given(self, x, others):
        """Whether a dim equals one of these columns, as far as they are dims."""
        return any((a == x and b in others) or (b == x and a in others) for a, b in self.equalities)

    def admits(self, place, of):
        """Whether a row meets the local conditions of its stream."""
        own = [it for it in self.attributes if it[0] == place]
        at = [(0, 0)] + [(self.nodes[it], of[it]) for it in own]
        if any(self.at[i][j] is not None and x - y > self.at[i][j] for i, x in at for j, y in at):
            return False
        unequal = [it for it in self.query.atoms if it[1] == "<>" and all(is_constant(e) or e[0] == place for e in (it[0], it[2]))]
        return all(of.get(x, x) != of.get(y, y) for x, _, y in unequal)

    def are_linked(self, value):
        """Whether values meet the links."""
        return all(MEANING[sign](value(x), value(y)) for x, sign, y in self.links)

    def between(self, x, y):
        """The condition that x is at most so much above y, or none where their ranges say so; both are the first columns of classes."""
        bound, high, low = self.upper(x, y), self.ends(x)[1], self.ends(y)[0]
        is_said = bound is None or (high is not None and low is not None and high - low <= bound)
        return [] if is_said else [(x, "<=", y, bound)]

    def conditions(self, place):
        """What is asked of the rows of a stream, as a set that says it in one way: a comparison with a number on top of its right side."""
        own = [it for it in self.attributes if it[0] == place]
        names = sorted({self.class_of(it) for it in own})
        asked = [(it, "=", self.class_of(it), 0) for it in own if it not in names]
        for it in names:
            low, high = self.ends(it)
            asked += [(it, sign, end, 0) for sign, end in ((">=", low), ("<=", high)) if end is not None]
        asked += [condition for x in names for y in names if x != y for condition in self.between(x, y)]
        for left, sign, right in self.query.atoms:
            if sign == "<>" and all(is_constant(it) or it[0] == place for it in (left, right)):
                asked.append((right, sign, left, 0) if is_constant(left) else (left, sign, right, 0))
        return frozenset(asked)


def as_one(query):
    """The one part of the whole form, or None where a column that is kept has no end or a number is above its limit."""
    nodes = nodes_of(query)
    bounds = closed(query, nodes)
    if not bounds.possible:
        return None
    whole = Whole(query, nodes, bounds.at)
    if not all(whole.range(it) for columns in whole.dims for it in columns):
        return None
    part = analysis.Part("", whole, whole.dims, whole.extremes)
    return part if analysis.of_parts(query, [part], False).verdict[0] == "ok" else None


def has_cheaper_parts(query, part):
    """Whether streams are linked by `<>` in the whole form, and the parts of the split form, within all limits too, are few and take less work."""
    # read here, since the split form reads whole forms
    import splitform
    if not any(sign == "<>" for _, sign, _ in part.facts.links):
        return False
    verdict = splitform.analyse(query).verdict
    return verdict[0] == "ok" and verdict[1] <= MOST_CHEAP_PARTS and verdict[4] < analysis.work_of(query, part.facts, part.dims)


def fitting(query):
    """The one part of the whole form, or None where it does not fit: it is not within the limits, or rows are cheaper by the parts of the split form."""
    part = as_one(query)
    return part if part and not has_cheaper_parts(query, part) else None
