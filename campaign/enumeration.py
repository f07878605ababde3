"""Tries the campaign's own analysis on small queries by going through all assignments.

At most three attributes, and constants and ends of domains from 0 to 3: what holds for all integers
shows in a box that reaches five beyond them.
"""
import math
from itertools import product

import analysis
import language
import splitform
import whole

BOX = range(-5, 9)
COLUMNS = [(0, 0), (0, 1), (1, 0), (1, 1)]


def random_operator(random):
    """An operator; with the share that the environment sets it is a soft one."""
    soft = language.SOFT_SHARE and random.random() < language.SOFT_SHARE
    return random.choice(language.SOFT_OPERATORS if soft else "<=>")


def random_query(random):
    """A query over two streams with at most three attributes and two constants.

    With the share that the environment sets a column has a domain.
    """
    columns = random.sample(COLUMNS, random.randint(1, 3))
    constants = random.sample(range(4), 2)
    atoms = []
    for _ in range(random.randint(1, 4)):
        left = random.choice(columns)
        right = random.choice(columns + constants)
        pair = (left, right) if random.random() < 0.7 else (right, left)
        atoms.append((pair[0], random_operator(random), pair[1]))
    query = analysis.Query(random.random() < 0.5, 2, tuple(columns[:1]), tuple(atoms))
    query = query._replace(compact=bool(language.COMPACT_SHARE) and random.random() < 0.5)
    return with_domains(random, query) if language.DOMAIN_SHARE else query


def with_domains(random, query):
    """The query with one more selected column now and then, and with domains.

    In half of the queries all selected columns have one, so that other conditions may fail.
    """
    select = query.select
    if random.random() < 0.5:
        select += (random.choice(COLUMNS),)
    named = sorted({*analysis.attributes_of(query), *select})
    bounded = select if random.random() < 0.5 else ()
    having = [it for it in named if it in bounded or random.random() < language.DOMAIN_SHARE]
    domains = [(it, *sorted(random.choices(range(4), k=2))) for it in having]
    return query._replace(select=select, domains=tuple(domains))


def sign(x, y):
    return "<" if x < y else "=" if x == y else ">"


def boxes_of(query, columns):
    """The values to go through for each of these columns: a domain, or the whole box."""
    of = {it: range(low, high + 1) for it, low, high in query.domains}
    return [of.get(it, BOX) for it in columns]


def holds(of, atoms):
    """Whether an assignment meets the comparisons: an operator is the signs that meet it."""
    return all(sign(of.get(x, x), of.get(y, y)) in operator for x, operator, y in atoms)


def pairs_by_place(query):
    """All pairs: first what a soft comparison names, by the first one that names it."""
    attributes, constants = analysis.attributes_of(query), analysis.constants_of(query)
    named = [{x, y} for x, operator, y in query.atoms if len(operator) > 1]
    pairs = [(x, y) for x in attributes
             for y in constants + [it for it in attributes if it > x]
             if {x, y} in named or isinstance(y, int) or y[0] == x[0]]
    return sorted(pairs, key=lambda it: named.index(set(it)) if set(it) in named else len(named))


def parts_by_enumeration(query, pairs):
    """The assignments of each part, by its sign vector.

    Then the assignments of which no soft comparison is asked, by theirs.
    """
    attributes = analysis.attributes_of(query)
    hard = [it for it in query.atoms if len(it[1]) == 1]
    found, loose = {}, {}
    for values in product(*boxes_of(query, attributes)):
        of = dict(zip(attributes, values))
        if holds(of, hard):
            signs = "".join(sign(of.get(x, x), of.get(y, y)) for x, y in pairs)
            loose.setdefault(signs, []).append(of)
            if holds(of, query.atoms):
                found.setdefault(signs, []).append(of)
    return found, loose


def ends_of(query, values):
    """The least and the greatest value of a column, each None where no constant and no end of a domain is beyond it."""
    ends = analysis.constants_of(query) + [it for _, *both in query.domains for it in both]
    low, high = min(values), max(values)
    return low if ends and low >= min(ends) else None, high if ends and high <= max(ends) else None


def fault_of_whole(query):
    """What the whole form and the enumeration say differently of a query, or None: its ranges, and what rows and links together say."""
    attributes, nodes = analysis.attributes_of(query), whole.nodes_of(query)
    bounds = whole.closed(query, nodes)
    every = [dict(zip(attributes, it)) for it in product(*boxes_of(query, attributes))]
    kept = [it for it in every if holds(it, [atom for atom in query.atoms if atom[1] != "<>"])]
    if bounds.possible != bool(kept):
        return "a contradiction"
    if not kept:
        return None
    form = whole.Whole(query, nodes, bounds.at)
    for x in attributes:
        if form.ends(x) != ends_of(query, [it[x] for it in kept]):
            return f"another range of {x} in the whole form"
    chosen = [it for it in query.select if it not in attributes]
    for of in every:
        of.update((it, form.ends(it)[0] or 0) for it in chosen)
        taken = all(form.admits(place, of) for place in range(query.places)) and form.are_linked(of.get)
        if taken != holds(of, query.atoms):
            return f"the whole form and the query differ at {of}"
    return None


def differs_from(form, members, every, query):
    """What a part of the split form says otherwise than its assignments do, or None: ranges, and what rows and links together say.

    The signs of the part stand among its comparisons, so that their integers bound too.
    """
    for x in analysis.attributes_of(query):
        if form.ends(x) != ends_of(form.query, [it[x] for it in members]):
            return f"another range of {x}"
    for of in every:
        taken = all(form.admits(place, of) for place in range(query.places)) and form.are_linked(of.get)
        if taken != (of in members):
            return f"it differs at {of}"
    return None


def fault_of_split(query):
    """What the split form and the enumeration say differently of a compact query, or None: its parts, and each of them."""
    attributes, pairs = analysis.attributes_of(query), splitform.split_pairs(query)
    every = [dict(zip(attributes, it)) for it in product(*boxes_of(query, attributes))]
    chosen = [(it, low) for it, low, _ in query.domains if it not in attributes]
    found = {}
    for of in every:
        of.update(chosen)
        of.update((it, 0) for it in query.select if it not in of)
        if holds(of, query.atoms):
            found.setdefault("".join(sign(of.get(x, x), of.get(y, y)) for x, y in pairs), []).append(of)
    forms = list(splitform.parts_of(query))
    if sorted(found) != [signs for signs, _ in splitform.walk(query, pairs, whole.nodes_of(query))]:
        return "other parts of the split form"
    for number, (signs, form) in enumerate(zip(sorted(found), forms), 1):
        fault = differs_from(form, found[signs], every, query)
        if fault:
            return f"{fault} in part {number} of the split form"
    return fault_of_answers(query, found, forms)


def fault_of_answers(query, found, forms):
    """Whether more different answers were found than the split form announces, where it bounds all that is selected."""
    if not all(form.range(it) for form in forms for it in query.select):
        return None
    answers = {tuple(of[it] for it in query.select) for members in found.values() for of in members}
    parts = [analysis.Part("", form, form.dims, form.extremes) for form in forms]
    return "more answers than are announced" if len(answers) > analysis.answers_of(query, parts) else None


def range_of(query, values):
    """The range of a bounded column, else None.

    Bounded means enclosed by constants and by ends of domains.
    """
    ends = analysis.constants_of(query) + [it for _, *both in query.domains for it in both]
    if ends and min(values) >= min(ends) and max(values) <= max(ends):
        return min(values), max(values)
    return None


def nodes_by_enumeration(query, pairs, loose):
    """How many nodes a certificate has: each open front of sign vectors has three children."""
    if any(x == y and operator == "<>" for x, operator, y in query.atoms):
        return 1
    soft = [({x, y}, x, operator, y) for x, operator, y in query.atoms
            if len(operator) > 1 and x != y]
    fronts = set()
    for signs, members in loose.items():
        of = members[0]
        for length, pair in enumerate(pairs):
            fronts.add(signs[:length])
            if any(set(pair) == both and not holds(of, [it]) for both, *it in soft):
                break
    return 1 + 3 * len(fronts)


def fault_of(query):
    """What the analysis and the enumeration say differently of a query, or None."""
    pairs = pairs_by_place(query)
    if pairs != analysis.pairs_of(query):
        return "other pairs"
    by_box, loose = parts_by_enumeration(query, pairs)
    vectors = analysis.walk_parts(query, analysis.MOST_PARTS)
    if sorted(by_box) != [signs for signs, _ in vectors]:
        return "other parts"
    if analysis.nodes_of(query, analysis.MOST_PARTS) != nodes_by_enumeration(query, pairs, loose):
        return "another number of nodes"
    for signs, at in vectors:
        facts = analysis.part_of(query, signs, at).facts
        members = by_box[signs]
        fault = fault_of_facts(facts, members) or fault_of_links(pairs, signs, facts, members)
        if fault:
            return f"{fault} in {signs}"
    return fault_of_numbers(query, pairs, by_box) or fault_of_whole(query) or (fault_of_split(query) if query.compact else None)


def fault_of_facts(facts, members):
    """What is wrong with the ranges and the order in a part, or None."""
    for x in facts.attributes:
        if facts.range(x) != range_of(facts.query, [it[x] for it in members]):
            return f"another range of {x}"
        for y in facts.attributes + facts.constants:
            signs_seen = {sign(it[x], it.get(y, y)) for it in members}
            if facts.less(x, y) != (signs_seen == {"<"}):
                return f"another order of {x} and {y}"
            if facts.equal(x, y) != (signs_seen == {"="}):
                return f"another equality of {x} and {y}"
    return None


def fault_of_links(pairs, signs, facts, members):
    """What is wrong with the links of a part, or None.

    With the signs within the streams they must be all that the part says. Without domains each
    inequality must have both sides bounded or both unbounded.
    """
    local = [(x, it, y) for (x, y), it in zip(pairs, signs) if isinstance(y, int) or x[0] == y[0]]
    links = [(x, "=", y) for x, y in facts.equalities]
    links += [(x, "<", y) for x, y in facts.inequalities]
    boxes = product(*boxes_of(facts.query, facts.attributes))
    boxes = (dict(zip(facts.attributes, it)) for it in boxes)
    if [it for it in boxes if holds(it, local + links)] != members:
        return "signs and links that say something else"
    if not facts.query.domains and any((facts.range(x) is None) != (facts.range(y) is None)
                                       for x, y in facts.inequalities):
        return "an inequality that is bounded on one side"
    return None


class Seen:
    """What a part says of its columns, by its assignments alone."""

    def __init__(self, query, members):
        self.query = query
        self.attributes = analysis.attributes_of(query)
        self.alone = [it for it in set(query.select) if it not in self.attributes]
        self.members = members
        self.ranges = {it: range_of(query, [of[it] for of in members]) for it in self.attributes}
        of_alone = {it: (low, high) for it, low, high in query.domains if it in self.alone}
        self.ranges.update((it, of_alone.get(it)) for it in self.alone)
        self.elements = self.attributes + analysis.constants_of(query)

    def always(self, x, y):
        """The one sign that two elements have in all assignments, or None."""
        signs = {sign(it.get(x, x), it.get(y, y)) for it in self.members}
        return signs.pop() if len(signs) == 1 else None

    def named(self, x):
        """The name of the class of a column."""
        if x in self.alone:
            return x
        return min(it for it in self.attributes if it[0] == x[0] and self.always(x, it) == "=")

    def is_direct(self, x, y):
        """Whether nothing stands between two attributes of which one is less."""
        signs = {it: (self.always(x, it), self.always(it, y)) for it in self.elements}
        of_constants = {signs[it] for it in self.elements if isinstance(it, int)}
        return ("<", "<") not in signs.values() and not {("=", "<"), ("<", "=")} & of_constants

    def links(self):
        """Equalities and inequalities between streams."""
        pairs = [(x, y) for x in self.attributes for y in self.attributes if x[0] != y[0]]
        return ([it for it in pairs if it[0] < it[1] and self.always(*it) == "="],
                [it for it in pairs if self.always(*it) == "<" and self.is_direct(*it)])

    def violation(self):
        """The condition that fails first with the column at fault, or None."""
        equal = self.links()[0]
        free = sorted(it for it, ends in self.ranges.items() if ends is None)
        sides = {it for pair in equal for it in pair}
        found = [("C1", it) for it in free if it in self.query.select]
        found += [("C2", it) for it in free if it in sides]
        for place in range(self.query.places):
            least, greatest = self.references(place)
            classes = [len({self.named(it) for it in side}) for side in (least, greatest)]
            if sum(classes) > self.query.distinct:
                found.append(("C3", min(least | greatest)))
        return found[0] if found else None

    def references(self, place):
        """The unbounded attributes of a stream that are less, and greater, than others."""
        less = self.links()[1]
        return ({x for x, _ in less if x[0] == place and self.ranges[x] is None},
                {y for _, y in less if y[0] == place and self.ranges[y] is None})

    def box(self, pairs, signs, place, dims):
        """What the cells of a stream are told by: equal boxes are kept once where they are shared."""
        within = [it for (x, y), it in zip(pairs, signs)
                  if x[0] == place and (isinstance(y, int) or y[0] == place)]
        kept = [sorted(map(self.named, side)) for side in self.references(place)]
        return place, str(within), str([(it, self.ranges[it]) for it in dims]), str(kept)

    def dims(self):
        """Per stream the names of the classes of bounded columns that are wanted."""
        wanted = set(self.query.select) | {it for pairs in self.links() for it in sum(pairs, ())}
        names = sorted({self.named(it) for it in wanted if self.ranges[it]})
        return [[it for it in names if it[0] == place] for place in range(self.query.places)]

    def size(self, columns):
        return math.prod(self.ranges[it][1] - self.ranges[it][0] + 1 for it in columns)

    def work(self, dims):
        """The most combinations that a row can meet; there are two streams."""
        return max(self.size([it for it in dims[1 - place] if it in self.alone
                              or not any(other[0] == place and self.always(it, other) == "="
                                         for other in self.attributes)]) for place in (0, 1))


def once(query, ranges):
    """How many tuples lie between the least and the greatest values of the selected columns over all parts, given their ranges."""
    ends = [[of[it] for of in ranges] for it in set(query.select)]
    return math.prod(max(map(max, it)) - min(map(min, it)) + 1 for it in ends) if ranges else 0


def fault_of_numbers(query, pairs, by_box):
    """What is wrong with the verdict, or None; by the assignments of each part.

    The cells are counted twice: in each part, and each box that is there once.
    """
    cells = answers = work = 0
    shared, ranges, wanted = {}, [], None
    for number, signs in enumerate(sorted(by_box), 1):
        seen = Seen(query, by_box[signs])
        violation = seen.violation()
        if violation:
            wanted = "violation", number, *violation
            break
        dims = seen.dims()
        cells += sum(map(seen.size, dims))
        shared.update((seen.box(pairs, signs, place, it), seen.size(it)) for place, it in enumerate(dims))
        answers += seen.size(set(query.select))
        ranges.append(seen.ranges)
        work += seen.work(dims)
    if query.compact and not wanted:
        answers = min(answers, once(query, ranges))
    for is_shared, kept in ((False, cells), (True, sum(shared.values()))):
        numbers = wanted or ("ok", len(by_box), kept, answers, work)
        got = analysis.by_parts(query, is_shared).verdict
        if got != numbers:
            return f"verdict {got}, wanted {numbers}"
    return None
