"""The split form of a compact query, from the definitions: the parts of one whose whole form does not fit.

The query is cut by the order of some pairs. First come the sides of each `<>`; then each compared column that lacks an end, as the query is
written, with the outer integers of its group, ascending, and with the later columns of its stream and group. A group is the columns that
comparisons of two columns join. Its outer integers are those beyond which a comparison or a domain of one of its columns says the same of all
values. A part is one sign for each pair that some assignment within the domains has which meets the comparisons; its plan is that of the whole
form of the query with these signs as further comparisons.
"""
import analysis
import whole
from analysis import MOST_PARTS, SIGNS, TURNED, Analysis, TooManyParts, is_constant
from language import LARGEST_INTEGER

MOST_PAIRS = 114
# how far from its integer a comparison of a column, on the left, says the same of all values
BEYOND = {"<=": 1, ">=": -1}


def pair_of(left, right):
    """Two elements as a pair: a column before an integer, and the earlier column first."""
    left, _, right = analysis.turned((left, "=", right))
    return left, right


def unlike_pairs(query):
    """The sides of each `<>`; of an element with itself there is no pair."""
    return [pair_of(left, right) for left, sign, right in query.atoms if sign == "<>" and left != right]


def outer_of(left, sign, right):
    """The column of a comparison with an integer, and its outer integer; None where it has none."""
    if is_constant(left):
        left, sign, right = right, TURNED[sign], left
    if is_constant(left) or not is_constant(right):
        return None
    return left, right + BEYOND.get(sign, 0)


def outer_integers(query, group):
    """The outer integers of a group of columns, ascending; in place of one of more than 15 digits stands the nearest that may be written."""
    found = [it for it in (outer_of(*atom) for atom in query.atoms) if it]
    found += [(column, end) for column, low, high in query.domains for end in (low - 1, high + 1)]
    return sorted({max(-LARGEST_INTEGER, min(LARGEST_INTEGER, number)) for column, number in found if column in group})


def ends_of(left, sign, right):
    """The column of a comparison with an integer, and which of its ends it gives: `l`, `h`, both or none."""
    if is_constant(left):
        left, sign, right = right, TURNED[sign], left
    if is_constant(left) or not is_constant(right):
        return left, ""
    return left, {"<": "h", "<=": "h", "=": "lh", ">": "l", ">=": "l", "<>": ""}[sign]


def lacking_end(query):
    """The compared columns that lack an end as the query is written: no domain and no comparison with an integer gives it."""
    found = {it: set() for it in analysis.attributes_of(query)}
    ends = [ends_of(*atom) for atom in query.atoms] + [(column, "lh") for column, *_ in query.domains]
    for column, given in ends:
        found.get(column, set()).update(given)
    return [it for it, given in found.items() if len(given) < 2]


def own_pairs(query):
    """Each compared column that lacks an end with the outer integers of its group, and with the later columns of its stream and group."""
    groups, pairs = analysis.groups_of(query), []
    for column in lacking_end(query):
        group = groups[column]
        pairs += [(column, it) for it in outer_integers(query, group)]
        pairs += [(column, it) for it in group if it[0] == column[0] and it > column]
    return pairs


def split_pairs(query):
    """The pairs by whose order the query is cut, each once."""
    return list(dict.fromkeys(unlike_pairs(query) + own_pairs(query)))


def fronts(query, pairs, nodes):
    """The signs that assignments of the query give to the first pairs, ascending, each with the closed table of the query and these signs."""
    unlike = set(unlike_pairs(query))
    root = whole.closed(query, nodes)
    waiting = [("", root)] if root.possible and not analysis.is_void(query) else []
    while waiting:
        signs, bounds = waiting.pop()
        yield signs, bounds.at
        if len(signs) == len(pairs):
            continue
        left, right = pairs[len(signs)]
        for sign in reversed("<>" if (left, right) in unlike else SIGNS):
            child = bounds.copy()
            for constraint in analysis.constraints_of(left, sign, right, nodes):
                child.add(constraint)
            if child.possible:
                waiting.append((signs + sign, child))


def walk(query, pairs, nodes):
    """The sign vectors of the parts, ascending, each with its closed table."""
    return (it for it in fronts(query, pairs, nodes) if len(it[0]) == len(pairs))


def few(vectors):
    """The same vectors, at most so many; TooManyParts where there are more."""
    for number, it in enumerate(vectors):
        if number == MOST_PARTS:
            raise TooManyParts
        yield it


def few_pairs(query):
    """The split pairs; TooManyParts where there is no room for their signs."""
    pairs = split_pairs(query)
    if len(pairs) > MOST_PAIRS:
        raise TooManyParts
    return pairs


def nodes_of(query):
    """How many nodes the tree of a certificate has; TooManyParts where pairs or parts are too many."""
    pairs, opened, parts = few_pairs(query), 0, 0
    for signs, _ in fronts(query, pairs, whole.nodes_of(query)):
        opened += len(signs) < len(pairs)
        parts += len(signs) == len(pairs)
        if parts > MOST_PARTS:
            raise TooManyParts
    return 1 + 3 * opened


def parts_of(query):
    """The parts, each with what holds in it: the whole form of the query with its signs; TooManyParts where pairs or parts are too many."""
    pairs, nodes = few_pairs(query), whole.nodes_of(query)
    for signs, at in list(few(walk(query, pairs, nodes))):
        said = tuple((left, sign, right) for (left, right), sign in zip(pairs, signs))
        yield whole.Whole(query._replace(atoms=said + query.atoms), nodes, at)


def open_sides(form):
    """The columns in links of which kept values are without end, ascending."""
    sides = sorted({it for x, _, y in form.links for it in (x, y)})
    return [it for it in sides if None in form.told_apart(it)]


def is_unlike(form, x):
    """Whether a column of the class stands in a link `<>`."""
    return any(sign == "<>" for sign, _ in form.sides(x))


def shows_c3(form, x, sides):
    """Whether an open side of no other condition breaks C3: it is not the first open class of its stream that an extreme may decide."""
    if not (form.query.distinct and form.way(x)):
        return True
    return any(it[0] == x[0] and it < x and form.way(it) and form.class_of(it) != form.class_of(x) for it in sides)


def broken(form):
    """The first condition that the form breaks and the first column that shows it, or None."""
    selected = [it for it in sorted(set(form.query.select)) if not form.range(it)]
    if selected:
        return "C1", selected[0]
    sides = open_sides(form)
    exact = [it for it in sides if form.is_kept_whole(it) or is_unlike(form, it)]
    if exact:
        return "C2", exact[0]
    others = [it for it in sides if shows_c3(form, it, sides)]
    return ("C3", others[0]) if others else None


def open_dim(form):
    """The first dim whose own range lacks an end, by stream and name; C3 is said of it. None where there is none."""
    found = [it for columns in form.dims for it in columns if not form.range(it)]
    return ("C3", found[0]) if found else None


def violation(form):
    """The first condition that a part breaks and the first column that shows it, or None."""
    return broken(form) or open_dim(form)


def analyse(query, shared=False):
    """The verdict on a compact query that is no filter by its split form, and its parts."""
    parts = []
    try:
        for number, form in enumerate(parts_of(query), 1):
            found = violation(form)
            if found:
                return Analysis(("violation", number, *found), [])
            parts.append(analysis.Part("", form, form.dims, form.extremes))
    except TooManyParts:
        return Analysis(("limit", "parts"), [])
    return analysis.of_parts(query, parts, shared)
