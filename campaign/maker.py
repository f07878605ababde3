"""An own maker of certificates, with which the own checker is tried.

A chain of constraints follows them from left to right: the first one's right side is the left
side of the next.
"""
import analysis
from branching import PLAIN, Branching


def chains_to(target, constraints, size):
    """The least bounds of node - target with the first constraint of a chain that gives each.

    Without a target they are at most 0 for every node. The last is a node whose bound sinks
    without end, or None.
    """
    bounds = [0 if target in (None, node) else None for node in range(size)]
    first, sinking = [None] * size, None
    for _ in range(size + 1):
        sinking = None
        for number, (left, right, bound) in enumerate(constraints, 1):
            if bounds[right] is not None and (bounds[left] is None
                                              or bound + bounds[right] < bounds[left]):
                bounds[left] = bound + bounds[right]
                first[left], sinking = number, left
    return bounds, first, sinking


def cycle(constraints, size):
    """The numbers of constraints that close a chain with a negative sum, or None."""
    _, first, node = chains_to(None, constraints, size)
    if node is None:
        return None
    for _ in range(size):
        node = constraints[first[node] - 1][1]
    numbers, start = [], node
    while not numbers or node != start:
        numbers.append(first[node])
        node = constraints[first[node] - 1][1]
    return numbers


def paths(constraints, size):
    """All paths between different nodes: both nodes, then the numbers of a chain."""
    found = []
    for target in range(size):
        bounds, first, _ = chains_to(target, constraints, size)
        for node in range(size):
            if node != target and bounds[node] is not None:
                numbers, here = [], node
                while here != target:
                    numbers.append(first[here])
                    here = constraints[first[here] - 1][1]
                found.append([node, target, *numbers])
    return sorted(found, key=lambda it: it[:2])


def false_atom(over, signs):
    """The number of a soft comparison that is false under the signs so far, or None."""
    return next((number for number, atom in enumerate(over.atoms, 1) if over.is_false(atom, signs)), None)


class Tree:
    """Makes the lines of a certificate.

    With a share of strays some nodes are split further than needed, which is no fault, and some
    end otherwise than they should.
    """

    def __init__(self, over, random=None, strays=0):
        self.over, self.random, self.strays = over, random, strays
        self.pairs, self.size = over.pairs, over.size
        self.soft = [i for i, it in enumerate(over.atoms, 1) if it[1] in analysis.SOFT]
        self.lines = []

    def stray(self):
        return self.strays > 0 and self.random.random() < self.strays

    def add(self, word, numbers=()):
        self.lines.append(b" ".join([word, *(b"%d" % it for it in numbers)]))

    def grow(self, signs, constraints):
        """The node under these signs and all below it."""
        whole = len(signs) == len(self.pairs)
        false = false_atom(self.over, signs)
        if self.soft and self.stray() and self.stray():
            false = self.random.choice(self.soft)
        if false is not None and not self.stray():
            self.add(b"against", [false])
            return
        negative = cycle(constraints, self.size)
        if negative is not None and (whole or not self.stray()):
            self.add(b"infeasible", negative)
        elif whole:
            self.add(b"leaf")
            for path in paths(constraints, self.size):
                self.add(b"path", path)
        else:
            self.split(signs, constraints)

    def split(self, signs, constraints):
        left, right = self.pairs[len(signs)]
        self.add(b"split", [len(signs) + 1])
        for sign in analysis.SIGNS:
            more = analysis.constraints_of(left, sign, right, self.over.numbers)
            self.grow(signs + sign, constraints + more)


def certificate(query, random=None, strays=0, shown=PLAIN):
    """The lines of a certificate of a query that shows this form."""
    tree = Tree(Branching(query, shown), random, strays)
    tree.grow("", tree.over.base)
    return tree.lines
