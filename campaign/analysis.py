"""The analysis of a query, from the definitions: parts, links, decision, numbers, plan.

A query is given with its columns numbered: an attribute is a pair (place in FROM, column), a
constant an integer. Node 0 stands for the number 0, node i for the i-th attribute from 1.
`Bounds.at[i][j]` is the least bound of i - j, or None where there is none.

The comparisons `<=`, `>=` and `<>` are soft: what they compare is a pair of its own, and a part
is one sign of it. Each sign of which an operator is written is one that meets it.

A query has the domains of its columns, each the column with its least and its greatest value. The
ends of a domain are no constants: they bound a column, and no pair has them.

A query that is shared keeps the cells of a stream once where several parts would keep equal ones;
all else of the analysis is the same.

A query that is compact has its whole form where that fits (`whole.py`), and else its split form
(`splitform.py`).
"""
from collections import namedtuple
from functools import lru_cache

MOST_PARTS = 4096
MOST_CELLS = 262_144
MOST_ANSWERS = 65_536
MOST_WORK = 4_194_304
CELLS_OF_PAGE = 64
SIGNS = "<=>"
SOFT = ("<=", ">=", "<>")
TURNED = {"<": ">", "=": "=", ">": "<", "<=": ">=", ">=": "<=", "<>": "<>"}

# atoms are triples (left, operator, right) of attributes and integers; domains are triples
# (column, least, greatest) of the attributes and selected columns that have one, in order
Query = namedtuple("Query", "distinct places select atoms domains compact", defaults=[(), False])
Analysis = namedtuple("Analysis", "verdict parts")
Part = namedtuple("Part", "signs facts dims extremes")
TooManyParts = type("TooManyParts", (Exception,), {})


def is_constant(element):
    return isinstance(element, int)


def attributes_of(query):
    """The columns that the atoms name, in FROM order and then column order."""
    return sorted({it for left, _, right in query.atoms for it in (left, right)
                   if not is_constant(it)})


def constants_of(query):
    """The integers that the atoms name, ascending."""
    return sorted({it for left, _, right in query.atoms for it in (left, right)
                   if is_constant(it)})


def turned(atom):
    """The comparison with its attribute before its constant, or the earlier attribute first."""
    left, operator, right = atom
    if is_constant(left) or (not is_constant(right) and right < left):
        return right, TURNED[operator], left
    return atom


def hard_atoms(query):
    return [it for it in query.atoms if it[1] not in SOFT]


def soft_atoms(query):
    """The soft comparisons of different elements, each turned as its pair stands."""
    return [turned(it) for it in query.atoms if it[1] in SOFT and it[0] != it[2]]


def is_void(query):
    """Whether a soft comparison of an element with itself is false."""
    return any(left == right and operator == "<>" for left, operator, right in query.atoms)


def soft_pairs(query):
    """What the soft comparisons compare, in their order, each pair once."""
    return list(dict.fromkeys((left, right) for left, _, right in soft_atoms(query)))


@lru_cache(maxsize=1024)
def groups_of(query):
    """By each attribute those that comparisons of two columns join with it, itself too, in order."""
    members = {it: {it} for it in attributes_of(query)}
    for left, _, right in query.atoms:
        if not (is_constant(left) or is_constant(right)):
            joined = members[left] | members[right]
            members.update(dict.fromkeys(joined, joined))
    return {it: sorted(group) for it, group in members.items()}


def pairs_of(query):
    """The soft pairs; then each attribute with each constant, and with each later attribute of its
    stream.
    """
    pairs, attributes, constants = soft_pairs(query), attributes_of(query), constants_of(query)
    soft = set(pairs)
    for attribute in attributes:
        others = constants + [it for it in attributes if it[0] == attribute[0] and it > attribute]
        pairs += [(attribute, it) for it in others if (attribute, it) not in soft]
    return pairs


def is_local(pair, place):
    """Whether the attributes of a pair are all of this stream."""
    return all(is_constant(it) or it[0] == place for it in pair)


def signs_of_pairs(query, pairs):
    """For each pair the signs that meet all soft comparisons of it."""
    signs = dict.fromkeys(pairs, SIGNS)
    for left, operator, right in soft_atoms(query):
        signs[left, right] = "".join(it for it in signs[left, right] if it in operator)
    return [signs[it] for it in pairs]


def constraints_of(left, operator, right, nodes):
    """The constraints of a sign or of a comparison that is not soft.

    A triple (i, j, bound) says that i - j <= bound.
    """
    if is_constant(left):
        left, operator, right = right, TURNED[operator], left
    i = nodes[left]
    j, shift = (0, right) if is_constant(right) else (nodes[right], 0)
    if operator == "<":
        return [(i, j, shift - 1)]
    if operator == ">":
        return [(j, i, -shift - 1)]
    return [(i, j, shift), (j, i, -shift)]


def first_constraints(query, nodes):
    """The constraints before those of signs: of the comparisons that are not soft, in order, and
    then of the domain of each attribute that has one.
    """
    constraints = []
    for left, operator, right in hard_atoms(query):
        constraints += constraints_of(left, operator, right, nodes)
    for column, low, high in query.domains:
        if column in nodes:
            constraints += [(0, nodes[column], -low), (nodes[column], 0, high)]
    return constraints


class Bounds:
    """What difference constraints imply, as a closed table; `possible` says whether any do."""

    def __init__(self, size):
        self.size = size
        self.possible = True
        self.at = [[0 if i == j else None for j in range(size)] for i in range(size)]

    def copy(self):
        other = Bounds.__new__(Bounds)
        other.size, other.possible = self.size, self.possible
        other.at = [row[:] for row in self.at]
        return other

    def add(self, constraint):
        """Takes one more constraint and closes the table again."""
        a, b, bound = constraint
        if not self.possible:
            return
        back = self.at[b][a]
        if back is not None and back + bound < 0:
            self.possible = False
            return
        here = self.at[a][b]
        if here is not None and here <= bound:
            return
        behind = self.at[b]
        for row in self.at:
            if row[a] is None:
                continue
            first = row[a] + bound
            for j, last in enumerate(behind):
                if last is not None and (row[j] is None or first + last < row[j]):
                    row[j] = first + last


class Facts:
    """What holds in every assignment of a part, read off a closed table of bounds."""

    def __init__(self, query, nodes, constants, at):
        self.query, self.nodes, self.constants, self.at = query, nodes, constants, at
        self.attributes = sorted(nodes)
        self.domains = {column: ends for column, *ends in query.domains}
        # each element stands at a node, a constant at node 0 with its value on top
        self.stands = {it: (node, 0) for it, node in nodes.items()}
        self.stands.update((it, (0, it)) for it in constants)
        self.links()
        self.references()
        # comparisons that are no sign, which ordered parts have none of
        self.soft = []

    def upper(self, x, y):
        """The least bound of x - y, or None."""
        i, k = self.stands[x]
        j, m = self.stands[y]
        bound = self.at[i][j]
        return None if bound is None else bound + k - m

    def is_alone(self, x):
        """Whether a column is no attribute, so that it is a class of its own."""
        return x not in self.nodes

    def less(self, x, y):
        bound = self.upper(x, y)
        return bound is not None and bound <= -1

    def equal(self, x, y):
        one, other = self.upper(x, y), self.upper(y, x)
        return one is not None and other is not None and one <= 0 and other <= 0

    def range(self, x):
        """The least and the greatest value of a bounded column, else None.

        A column that is no attribute has all values of its domain, and is unbounded without one.
        """
        if self.is_alone(x):
            return tuple(self.domains[x]) if x in self.domains else None
        low, high = self.at[0][self.nodes[x]], self.at[self.nodes[x]][0]
        return None if low is None or high is None else (-low, high)

    def redundant(self, x, y):
        """Whether something stands between, or a constant at one side."""
        return (any(self.less(x, it) and self.less(it, y) for it in self.attributes + self.constants)
                or any(self.equal(x, it) and self.less(it, y) for it in self.constants)
                or any(self.less(x, it) and self.equal(it, y) for it in self.constants))

    def links(self):
        """Equalities and inequalities between streams, the redundant ones left out."""
        between = [(x, y) for x in self.attributes for y in self.attributes if x[0] != y[0]]
        self.equalities = [(x, y) for x, y in between if x < y and self.equal(x, y)]
        self.inequalities = [(x, y) for x, y in between
                             if self.less(x, y) and not self.redundant(x, y)]

    def references(self):
        """The unbounded attributes that stand on the left, and on the right."""
        self.least = {x for x, _ in self.inequalities if not self.range(x)}
        self.greatest = {y for _, y in self.inequalities if not self.range(y)}

    def class_of(self, x):
        """The first attribute of the stream that equals x; a column that is none is by itself."""
        if self.is_alone(x):
            return x
        return next(it for it in self.attributes if it[0] == x[0] and self.equal(it, x))

    def is_given(self, x, others):
        """Whether one of these attributes equals x."""
        return not self.is_alone(x) and any(self.equal(x, it) for it in others)

    def are_linked(self, value):
        """Whether values meet the links."""
        return (all(value(x) == value(y) for x, y in self.equalities)
                and all(value(x) < value(y) for x, y in self.inequalities))


def violation_of(query, facts):
    """The first condition that a part fails with the attribute at fault, or None."""
    for column in sorted(set(query.select)):
        if not facts.range(column):
            return "C1", column
    sides = sorted({it for pair in facts.equalities for it in pair})
    for side in sides:
        if not facts.range(side):
            return "C2", side
    for place in range(query.places):
        least = {it for it in facts.least if it[0] == place}
        greatest = {it for it in facts.greatest if it[0] == place}
        classes = len({facts.class_of(it) for it in least})
        classes += len({facts.class_of(it) for it in greatest})
        if classes > (1 if query.distinct else 0):
            return "C3", min(least | greatest)
    return None


def dims_of(query, facts, place):
    """The classes of bounded columns by which the rows of a stream are told apart."""
    used = set(query.select)
    used |= {it for pair in facts.equalities + facts.inequalities for it in pair}
    members = [it for it in used if it[0] == place and facts.range(it)]
    return sorted({facts.class_of(it) for it in members})


def size_of(facts, columns):
    """The product of the sizes of the ranges of these columns."""
    size = 1
    for column in columns:
        low, high = facts.range(column)
        size *= high - low + 1
    return size


def work_of(query, facts, dims):
    """The most combinations that a row of any stream can meet in a part."""
    most = 0
    for arriving in range(query.places):
        own = [it for it in facts.attributes if it[0] == arriving]
        free, earlier = [], []
        for place in range(query.places):
            if place == arriving:
                continue
            free += [it for it in dims[place] if not facts.is_given(it, own + earlier)]
            earlier = earlier + [it for it in dims[place] if not facts.is_alone(it)]
        most = max(most, size_of(facts, free))
    return most


def walk(query, most):
    """The open fronts of sign vectors, ascending, each with its closed table.

    A front is open where some assignment within the domains has these signs and meets the
    comparisons that are not soft, and no soft comparison is false under its sign.
    """
    nodes = {it: i for i, it in enumerate(attributes_of(query), 1)}
    pairs = pairs_of(query)
    signs_of = signs_of_pairs(query, pairs)
    root = Bounds(len(nodes) + 1)
    for constraint in first_constraints(query, nodes):
        root.add(constraint)
    whole, waiting = 0, [("", root)] if root.possible and not is_void(query) else []
    while waiting:
        signs, bounds = waiting.pop()
        yield signs, bounds.at
        if len(signs) == len(pairs):
            whole += 1
            if whole > most:
                raise TooManyParts
            continue
        left, right = pairs[len(signs)]
        for sign in reversed(signs_of[len(signs)]):
            child = bounds.copy()
            for constraint in constraints_of(left, sign, right, nodes):
                child.add(constraint)
            if child.possible:
                waiting.append((signs + sign, child))


def walk_parts(query, most):
    """All sign vectors that some assignment of the query has, each with its closed table."""
    length = len(pairs_of(query))
    return [it for it in walk(query, most) if len(it[0]) == length]


def nodes_of(query, most):
    """How many nodes the tree of a certificate has."""
    length = len(pairs_of(query))
    return 1 + 3 * sum(len(signs) < length for signs, _ in walk(query, most))


def part_of(query, signs, at):
    nodes = {it: i for i, it in enumerate(attributes_of(query), 1)}
    facts = Facts(query, nodes, constants_of(query), at)
    dims = [dims_of(query, facts, place) for place in range(query.places)]
    return Part(signs, facts, dims, [extreme_of(facts, it) for it in range(query.places)])


def extreme_of(facts, place):
    """Which extreme the cells of a stream keep with DISTINCT: its word and column, or None."""
    for word, members in (("least", facts.least), ("greatest", facts.greatest)):
        columns = sorted(facts.class_of(it) for it in members if it[0] == place)
        if columns:
            return word, columns[0]
    return None


def box_of(query, part, place):
    """What tells a box of a part from others: its stream, the signs within it or what else it is asked, the dims with their ranges, and
    what a cell keeps.
    """
    asked = tuple(sign for pair, sign in zip(pairs_of(query), part.signs) if is_local(pair, place))
    if not isinstance(part.facts, Facts):
        asked = part.facts.conditions(place)
    dims = tuple((it, part.facts.range(it)) for it in part.dims[place])
    kept = part.extremes[place] or "present" if query.distinct else "count"
    return place, asked, dims, kept


def boxes_of(query, parts):
    """The different boxes with their sizes, in the order of their first part, then of FROM."""
    return {box_of(query, part, place): size_of(part.facts, dims)
            for part in parts for place, dims in enumerate(part.dims)}


def cells_of(query, parts, shared):
    """How many cells are kept: those of each part, or if shared those of the different boxes."""
    if query.places == 1:
        return 0
    if shared:
        return sum(boxes_of(query, parts).values())
    return sum(size_of(part.facts, dims) for part in parts for dims in part.dims)


def hull_of(parts, column):
    """The least range that holds those of a column in all parts."""
    lows, highs = zip(*(part.facts.range(column) for part in parts))
    return min(lows), max(highs)


def tuples_of(query, parts):
    """How many tuples lie in the least ranges that hold those of the selected columns in all parts; without a part there is none."""
    size = 1 if parts else 0
    for column in set(query.select) if parts else ():
        low, high = hull_of(parts, column)
        size *= high - low + 1
    return size


def answers_of(query, parts):
    """How many answers are announced: the sum over the parts, of a compact query not more than there are tuples in all ranges together."""
    answers = sum(size_of(part.facts, sorted(set(query.select))) for part in parts)
    return min(answers, tuples_of(query, parts)) if query.compact else answers


def numbers_of(query, parts, shared):
    """Cells, answers and work of a query that meets all conditions."""
    answers = answers_of(query, parts)
    work = sum(work_of(query, part.facts, part.dims) for part in parts)
    return cells_of(query, parts, shared), answers, work


def analyse(query, shared=False):
    """The verdict on a query, the pool aside, and its parts: of a compact one its whole form where that fits, else its split form.

    A verdict is ("filter",), ("limit", word), ("violation", part, condition, attribute) or
    ("ok", parts, cells, answers, work).
    """
    import splitform
    import whole
    if query.places == 1 and not query.distinct:
        return Analysis(("filter",), [])
    if not query.compact:
        return by_parts(query, shared)
    form = whole.fitting(query)
    return of_parts(query, [form], shared) if form else splitform.analyse(query, shared)


def by_parts(query, shared=False):
    """The same of a query that is no filter by its ordered parts, of which certificates and families speak."""
    try:
        vectors = walk_parts(query, MOST_PARTS)
    except TooManyParts:
        return Analysis(("limit", "parts"), [])
    parts = []
    for number, (signs, at) in enumerate(vectors, 1):
        part = part_of(query, signs, at)
        violation = violation_of(query, part.facts)
        if violation:
            return Analysis(("violation", number, *violation), [])
        parts.append(part)
    return of_parts(query, parts, shared)


def of_parts(query, parts, shared):
    """The verdict on a query that meets all conditions, by its parts."""
    cells, answers, work = numbers_of(query, parts, shared)
    for word, value, most in (("cells", cells, MOST_CELLS), ("answers", answers, MOST_ANSWERS),
                              ("work", work, MOST_WORK)):
        if value > most:
            return Analysis(("limit", word), parts)
    return Analysis(("ok", len(parts), cells, answers, work), parts)


def pages_of(cells):
    return -(-cells // CELLS_OF_PAGE)
