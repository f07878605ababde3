"""Whether values of a query move on without end so that its answers must tell how far: read off the whole query, without parts.

The comparisons but `<>`, and the domains, bound differences of columns. A column has a greatest value where they put it under an integer.
Values move where a selected column lacks an end; or without DISTINCT where both sides of a comparison between streams, also of a `<>`, lack the
same end; or where two differences between streams move apart. Where none do few states are enough.
"""
from itertools import product

import whole
from analysis import is_constant


class System:
    """What the comparisons and domains of a query say of its columns."""

    def __init__(self, query):
        self.nodes = whole.nodes_of(query)
        self.at = whole.closed(query, self.nodes).at

    def bounds(self, x, y):
        """Whether some integer bounds how far x is above y."""
        return self.at[self.nodes[x]][self.nodes[y]] is not None

    def has_top(self, x):
        return self.at[self.nodes[x]][0] is not None

    def has_bottom(self, x):
        return self.at[0][self.nodes[x]] is not None

    def lacks_end(self, *columns):
        """Whether all columns lack a greatest value, or all a least."""
        return not any(map(self.has_top, columns)) or not any(map(self.has_bottom, columns))


def links_of(query):
    """The comparisons of columns of two streams."""
    return [it for it in query.atoms if not is_constant(it[0]) and not is_constant(it[2]) and it[0][0] != it[2][0]]


def differences_of(query):
    """The pairs of columns of two streams of which a comparison says that the first is at most the second."""
    return [(x, y) for link in links_of(query) for x, y, _ in whole.differences(*link)]


def move_apart(system, first, second):
    """Whether the rows of a stream can be kept apart by two differences."""
    (x1, y1), (x2, y2) = first, second
    alike = not (system.has_top(x1) or system.has_top(x2)) or not (system.has_bottom(y1) or system.has_bottom(y2))
    beside = x1[0] == x2[0] or y1[0] == y2[0]
    crossed = x1[0] == y2[0] or y1[0] == x2[0]
    opposed = not system.has_top(x1) and not system.has_bottom(y2) and not system.bounds(x1, y2)
    return (x1[0] == y2[0] and alike) or (beside and alike and not system.bounds(x2, y1)) or ((beside or crossed) and opposed)


def ways(query):
    """How values move: `selected`, `apart` by two differences, and without DISTINCT `counted` by one, or `unequal` by a `<>`."""
    system, differences = System(query), differences_of(query)
    found = {
        "selected": any(map(system.lacks_end, query.select)),
        "apart": any(move_apart(system, *it) for it in product(differences, repeat=2)),
        "counted": not query.distinct and any(system.lacks_end(*it) for it in differences),
        "unequal": not query.distinct and any(system.lacks_end(left, right) for left, sign, right in links_of(query) if sign == "<>"),
    }
    return {name for name, holds in found.items() if holds}


def has_rows(query, condition):
    """Whether rows that move show that a condition is broken."""
    return bool(ways(query) & ({"selected"} if condition == "C1" else {"apart", "counted", "unequal"}))
