"""What the tree of a certificate branches on, and what breaks a condition at its leaves, by the form that it shows.

A query that is not compact, and a compact filter, has the tree of its ordered parts. A compact query that is no filter has two trees: that of its
whole form gives no signs and has one leaf, that of its split form gives signs to its pairs. The first node of a certificate tells which: a split,
or a comparison that closes the tree, shows the split form. In both the constraints are those of all comparisons but `<>`, each as it is written,
and of the domains.
"""
import analysis
import splitform
import whole

PLAIN, WHOLE, SPLIT = "plain", "whole", "split"
MOST_NODES = 262_144


def goes_by_form(query):
    """Whether a query is compact and no filter."""
    return query.compact and (query.places > 1 or query.distinct)


def shown_by(query, nodes):
    """The form that the nodes of a certificate show."""
    if not goes_by_form(query):
        return PLAIN
    return SPLIT if nodes and nodes[0][0] in ("split", "against") else WHOLE


def judged(query):
    """The form by which a query is judged, so that `certify` writes it."""
    if not goes_by_form(query):
        return PLAIN
    return WHOLE if whole.fitting(query) else SPLIT


def as_written(query, nodes):
    """The constraints of all comparisons but `<>`, as they are written, and then of the domain of each attribute that has one."""
    constraints = []
    for left, sign, right in query.atoms:
        for x, y, bound in whole.differences(left, sign, right):
            (i, k), (j, m) = ((0, it) if analysis.is_constant(it) else (nodes[it], 0) for it in (x, y))
            constraints.append((i, j, bound - k + m))
    for column, low, high in query.domains:
        if column in nodes:
            constraints += [(0, nodes[column], -low), (nodes[column], 0, high)]
    return constraints


def pairs_of(query, shown):
    """The pairs that get signs."""
    if shown == WHOLE:
        return []
    return analysis.pairs_of(query) if shown == PLAIN else splitform.split_pairs(query)


class Branching:
    """What a tree over a query branches on: pairs that get signs, comparisons that may close a branch, nodes, and constraints at the root."""

    def __init__(self, query, shown):
        self.query, self.shown = query, shown
        self.numbers = {it: i for i, it in enumerate(analysis.attributes_of(query), 1)}
        self.size = len(self.numbers) + 1
        self.pairs, self.atoms = pairs_of(query, shown), () if shown == WHOLE else query.atoms
        constraints = analysis.first_constraints if shown == PLAIN else as_written
        self.base = constraints(query, self.numbers)

    def has_room(self):
        """Whether there is room for the signs of all pairs."""
        return len(self.pairs) <= splitform.MOST_PAIRS

    def is_false(self, atom, signs):
        """Whether a comparison is soft and false where the first pairs have these signs."""
        left, operator, right = analysis.turned(atom)
        if operator not in analysis.SOFT:
            return False
        if left == right:
            return operator == "<>"
        place = self.pairs.index((left, right)) if (left, right) in self.pairs else len(signs)
        return place < len(signs) and signs[place] not in operator

    def form(self, signs, at):
        """The whole form of the query with these signs, off the bounds of a leaf; a column that is only selected has its domain."""
        nodes, bounds = whole.nodes_of(self.query), analysis.Bounds(len(whole.nodes_of(self.query)) + 1)
        stands = [0, *(nodes[it] for it in self.numbers)]
        for i, row in zip(stands, at):
            for j, bound in zip(stands, row):
                bounds.at[i][j] = bound
        for column, low, high in self.query.domains:
            if column not in self.numbers:
                bounds.add((0, nodes[column], -low))
                bounds.add((nodes[column], 0, high))
        said = tuple((left, sign, right) for (left, right), sign in zip(self.pairs, signs))
        return whole.Whole(self.query._replace(atoms=said + self.query.atoms), nodes, bounds.at)

    def violation(self, signs, at):
        """The first condition that a leaf with these bounds breaks and the first column that shows it, or None."""
        if self.shown != PLAIN:
            return splitform.broken(self.form(signs, at))
        if self.query.places == 1 and not self.query.distinct:
            return None
        facts = analysis.Facts(self.query, self.numbers, analysis.constants_of(self.query), at)
        return analysis.violation_of(self.query, facts)


def forms_of(query, shown):
    """The parts of a form by the analysis, each with what holds in it; TooManyParts where there are too many."""
    if shown == SPLIT:
        return list(splitform.parts_of(query))
    nodes = whole.nodes_of(query)
    bounds = whole.closed(query, nodes)
    return [whole.Whole(query, nodes, bounds.at)] if bounds.possible else []


def decision(query, shown):
    """What a good certificate that shows this form decides, by the analysis: how many parts there are, and the first failure or None."""
    if shown == PLAIN:
        found = analysis.by_parts(query).verdict if query.places > 1 or query.distinct else ("filter",)
        return len(analysis.walk_parts(query, analysis.MOST_PARTS)), found[1:] if found[0] == "violation" else None
    broken = [splitform.broken(it) for it in forms_of(query, shown)]
    failures = [(number, *it) for number, it in enumerate(broken, 1) if it]
    return len(broken), failures[0] if failures else None


def nodes_of(query, shown):
    """How many nodes the tree of a form has where no branch goes on that can end; TooManyParts where pairs or parts are too many."""
    if shown == WHOLE:
        return 1
    return analysis.nodes_of(query, analysis.MOST_PARTS) if shown == PLAIN else splitform.nodes_of(query)


def is_too_large(query):
    """Whether no certificate is written of a query: that of the form by which it is judged has too many pairs, parts or nodes."""
    try:
        return nodes_of(query, judged(query)) > MOST_NODES
    except analysis.TooManyParts:
        return True
