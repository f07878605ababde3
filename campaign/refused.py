"""Refused queries: for each, rows that no evaluator with few states can tell apart.

A refused query is given n rows of one stream and, for each of them, a row of each other stream,
so that after any two different sets of the n rows one of these continuations is answered
differently. So there is a state for each of the 2^n sets. The construction is that of
docs/WHY-IT-WORKS.md, for each condition; the answers are those of the evaluator. Soft comparisons
between streams are tried where an unbounded selected column is at fault; for the other conditions
nothing of the kind is claimed with them.

With domains C3 asks for more than is needed, since their ends are no constants. So each domain is
written out as two comparisons. Where the query is then refused, the rows are those of that refusal,
and they lie in the domains; where it is accepted, nothing is claimed. An accepted query must stay
accepted when its domains are written out, and one that C1 or C2 refuses must stay refused.
"""
from collections import Counter, namedtuple
from copy import copy

import analysis
import language
from analysis import Query, is_constant
from common import Part, compare, scaled
from evaluator import COMPARE, LiveQuery, session_text
from language import DOMAIN_SHARE, SOFT_OPERATORS, SOFT_SHARE, CreateStream, print_statement

QUERIES = 3000
OF_SCRIPT = 60
COLUMNS = 4
MOST_PARTS = 400
SIZES = [2, 2, 3, 3, 3, 4, 4, 4, 5, 5, 6]
NAMES = [b"S", b"T", b"U", b"V"]
COUNTED = [f"by {it} {word}" for it in ("C1", "C2", "C3") for word in ("without", "with DISTINCT")]

# the query has its domains written out; it was asked with them
Refusal = namedtuple("Refusal", "asked query number condition column facts signs")
Family = namedtuple("Family", "place kind assignments")
Statement = namedtuple("Statement", "streams")
Link = namedtuple("Link", "side left right")


# queries

def random_operator(random, operators):
    """One of the operators, or with the share that the environment sets a soft one."""
    soft = SOFT_SHARE and random.random() < SOFT_SHARE
    return random.choice(SOFT_OPERATORS if soft else operators)


def random_comparison(random, columns, constants):
    """A comparison of two columns, or of a column and a constant."""
    left = random.choice(columns)
    right = random.choice(constants if random.random() < 0.3 else columns)
    return left, random_operator(random, "<<=>>"), right


def random_query(random):
    """A query over one to four streams; most selected columns are bounded."""
    places = random.choice([1, 2, 2, 2, 2, 2, 3, 3, 4])
    columns = [(place, column) for place in range(places) for column in range(COLUMNS)]
    used = random.sample(columns, min(len(columns), random.randint(2, 6)))
    constants = random.sample(range(-2, 9), random.choice([1, 1, 1, 2, 2, 3]))
    atoms = [random_comparison(random, used, constants) for _ in range(random.randint(1, 6))]
    select = random.sample(columns, random.choice([1, 1, 1, 2]))
    for column in select:
        if random.random() < 0.9:
            atoms.append((column, "=", random.choice(constants)))
    return Query(random.random() < 0.65, places, tuple(select), tuple(atoms))


def query_of_two_links(random):
    """A query with DISTINCT in which two columns of one stream are compared with other streams."""
    places = random.choice([2, 2, 3])
    constants = random.sample(range(-2, 9), random.choice([1, 1, 2]))
    own = random.choice([[(0, 0), (0, 1)], [(1, 0), (1, 1)], [(0, 0), (0, 0)]])
    others = [place for place in range(places) if place != own[0][0]]
    atoms = [((0, 3), "=", random.choice(constants))]
    for column, number in zip(own, (1, 2)):
        other = (random.choice(others), number)
        atoms.append((column, random.choice("<>"), other))
        end = random.choice([(min(constants), "<"), (max(constants), ">"), None])
        if end:
            atoms += [(it, end[1], end[0]) for it in (column, other)]
    if random.random() < 0.4:
        atoms.append((own[0], random_operator(random, "<=>"), own[1]))
    return Query(True, places, ((0, 3),), tuple(atoms))


def with_few_parts(random, query):
    """The comparisons with all columns of the stream bounded below, so that there are few parts."""
    lower = analysis.constants_of(query)
    if not lower or random.random() < 0.4:
        return query
    named = [it for it in analysis.attributes_of(query) if it not in query.select]
    ends = [(it, random.choice("<>>"), lower[-1]) for it in named]
    return query._replace(atoms=query.atoms + tuple(ends))


def random_domains(random):
    """Domains for the columns of a script, by place and column; half of the scripts have none.

    They have fewer than elsewhere, as a query with many domains is seldom refused.
    """
    if not DOMAIN_SHARE or random.random() < 0.5:
        return {}
    columns = [(place, column) for place in range(len(NAMES)) for column in range(COLUMNS)]
    lows = {it: random.randint(-3, 9) for it in columns if random.random() < DOMAIN_SHARE / 2}
    return {it: (low, low + random.choice([0, 1, 2, 4, 9])) for it, low in lows.items()}


def with_domains(query, domains):
    """The query over streams whose columns have these domains."""
    named = sorted({*analysis.attributes_of(query), *query.select} & set(domains))
    return query._replace(domains=tuple((it, *domains[it]) for it in named))


def written_out(query):
    """The query with each domain as two comparisons, so that its ends stand among the constants."""
    atoms = [((it, ">", low - 1), (it, "<", high + 1)) for it, low, high in query.domains]
    return query._replace(atoms=query.atoms + tuple(sum(atoms, ())), domains=())


def failure_of(asked, query):
    """The first failure of a query with its part, or None where it is not refused by a condition."""
    if query.places == 1 and not query.distinct:
        return None
    for number, (signs, at) in enumerate(analysis.walk_parts(query, MOST_PARTS), 1):
        facts = analysis.part_of(query, signs, at).facts
        violation = analysis.violation_of(query, facts)
        if violation:
            return Refusal(asked, query, number, *violation, facts, signs)
    return None


def refusal_of(part, query):
    """The first failure of a query of which something is claimed, or None; domains written out."""
    attributes, constants = analysis.attributes_of(query), analysis.constants_of(query)
    if len(query.atoms) > 16 or len(attributes) > 12 or len(constants) > 6:
        return None
    try:
        refusal = failure_of(query, query)
        if query.domains:
            # most of them are accepted, and some of these are enough
            if refusal is None and part.random.random() < 0.8:
                return None
            with_them, refusal = refusal, failure_of(query, written_out(query))
            compare_with_domains(part, query, with_them, refusal)
    except analysis.TooManyParts:
        return None
    return refusal if refusal and is_telling(refusal) else None


def is_telling(refusal):
    """Whether it is claimed that few states do not serve a query that is refused so."""
    return refusal.condition == "C1" or softly_within_streams(refusal.query)


def compare_with_domains(part, query, with_them, refusal):
    """Notes where a query and the same with its domains written out are judged as cannot be."""
    part.count("queries with domains")
    if with_them is None:
        part.count("accepted with domains")
        if refusal and is_telling(refusal):
            part.differs(f"accepted, and refused with its domains written out: {query_text(query)}")
    elif refusal is None:
        part.count("refused with domains, and nothing claimed")
        if with_them.condition != "C3":
            part.differs(f"accepted with its domains written out: {query_text(query)}")


def softly_within_streams(query):
    """Whether all soft comparisons are of columns of one stream, or of a column and a constant."""
    return all(analysis.is_local(it, it[0][0]) for it in analysis.soft_pairs(query))


# assignments of a part

def solution(facts, more=()):
    """An assignment that meets the bounds of a part and further ones, or None."""
    bounds = analysis.Bounds(len(facts.at))
    bounds.at = [row[:] for row in facts.at]
    for constraint in more:
        bounds.add(constraint)
    values = {}
    for attribute, node in facts.nodes.items():
        if not bounds.possible:
            return None
        high, low = bounds.at[node][0], bounds.at[0][node]
        values[attribute] = -low if low is not None else high if high is not None else 0
        bounds.add((node, 0, values[attribute]))
        bounds.add((0, node, -values[attribute]))
    return values if bounds.possible else None


def is_of_part(refusal, values):
    """Whether the assignment meets the comparisons and has the signs of the part."""
    query = refusal.query

    def signed(x, sign, y):
        return COMPARE[sign](values.get(x, x), values.get(y, y))

    pairs = zip(analysis.pairs_of(query), refusal.signs)
    return (all(signed(*it) for it in query.atoms)
            and all(signed(left, sign, right) for (left, right), sign in pairs))


def is_up(facts, values, attribute):
    """Whether an unbounded attribute stands above all constants; else it is below all."""
    return all(values[attribute] > it for it in facts.constants)


def moved(values, move):
    return {attribute: move(value) for attribute, value in values.items()}


def ends_moved(facts, values, up, down):
    """What stands above all constants moved by one number, what is below all by another."""
    return {it: value + (up if is_up(facts, values, it)
                         else down if all(value < k for k in facts.constants) else 0)
            for it, value in values.items()}


# families, by condition

def spread_family(refusal, size):
    """An unbounded column with a different value in each assignment."""
    facts, column = refusal.facts, refusal.column
    values = solution(facts)
    if column not in values:
        return Family(column[0], "free column", [{**values, column: i} for i in range(size)])
    kind = "up" if is_up(facts, values, column) else "down"
    return Family(column[0], kind, [ends_moved(facts, values, i, -i) for i in range(size)])


def single_link_family(refusal, size):
    """Both sides of an inequality moved by multiples of their distance."""
    facts, column = refusal.facts, refusal.column
    left, right = next(it for it in facts.inequalities if column in it)
    values = solution(facts)
    step = values[right] - values[left]
    if is_up(facts, values, left):
        return Family(column[0], "up", [
            moved(values, lambda z: z + (i * step if z >= values[left] else 0))
            for i in range(size)])
    return Family(column[0], "down", [
        moved(values, lambda z: z - (i * step if z <= values[right] else 0)) for i in range(size)])


def references(refusal):
    """A link for each two references of the stream that are not of one class on one side."""
    facts, place = refusal.facts, refusal.column[0]
    found = {}
    for left, right in facts.inequalities:
        for side, attribute in (("min", left), ("max", right)):
            if attribute[0] == place and not facts.range(attribute):
                found.setdefault((side, facts.class_of(attribute)), Link(side, left, right))
    return list(found.values())


def chained_family(refusal, first, second, size):
    """Two links on one side and at one end: the first below the second, which moves ever less."""
    facts, place = refusal.facts, refusal.column[0]
    of = (lambda it: it.left) if first.side == "min" else (lambda it: it.right)
    if facts.less(of(second), of(first)):
        first, second = second, first
    # some assignment of the part has the first link below the second
    values = solution(facts, [(facts.nodes[first.right], facts.nodes[second.left], -1)])
    if values is None:
        return None
    low, middle, high = values[first.left], values[first.right], values[second.right]
    step = max(middle - low, high - values[second.left])
    if is_up(facts, values, first.left):
        def move(z, i):
            return z if z < low else z + i * step if z <= middle else z + (2 * size - i) * step
        kind = f"two {first.side} up"
    else:
        def move(z, i):
            return z - (2 * size - i) * step if z <= middle else z - i * step if z <= high else z
        kind = f"two {first.side} down"
    return Family(place, kind, [moved(values, lambda z: move(z, i)) for i in range(1, size + 1)])


def two_links_family(refusal, first, second, size):
    """Two references of one stream: links on two sides, or at two ends."""
    facts, place = refusal.facts, refusal.column[0]
    values = solution(facts)
    ups = [is_up(facts, values, it.left) for it in (first, second)]
    if first.side == second.side and ups[0] == ups[1]:
        return chained_family(refusal, first, second, size)
    four = [values[it] for link in (first, second) for it in (link.left, link.right)]
    step = max(values[it.right] - values[it.left] for it in (first, second))
    turns = range(1, size + 1)
    if ups[0] != ups[1]:
        same = first.side == second.side
        return Family(place, f"two {first.side} up and down" if same else "min and max up and down", [
            ends_moved(facts, values, i * step, -(i if same else size + 1 - i) * step)
            for i in turns])
    if ups[0]:
        return Family(place, "min and max up", [
            moved(values, lambda z: z + (i * step if z >= min(four) else 0)) for i in turns])
    return Family(place, "min and max down", [
        moved(values, lambda z: z - (i * step if z <= max(four) else 0)) for i in turns])


def family_of(random, refusal, size):
    """The family of a refusal, or None where its assignments cannot be had."""
    if refusal.condition != "C3":
        return spread_family(refusal, size)
    if not refusal.query.distinct:
        return single_link_family(refusal, size)
    return two_links_family(refusal, *random.sample(references(refusal), 2), size)


# histories

def row_of(values, place):
    return [values.get((place, column), 0) for column in range(COLUMNS)]


def told(live, rows):
    """What a query answers to further rows; it is left as it was."""
    other = copy(live)
    other.rows, other.printed = [Counter(it) for it in live.rows], set(live.printed)
    return [other.answers(NAMES[place], row) for place, row in rows]


def alike(refusal, family):
    """Two sets of rows after which all continuations are answered alike, or None."""
    query, place = refusal.asked, family.place
    others = [it for it in range(query.places) if it != place]
    rows = [row_of(it, place) for it in family.assignments]
    later = [[(it, row_of(values, it)) for it in others or [place]]
             for values in family.assignments]
    seen = {}
    for bits in range(2 ** len(rows)):
        live = LiveQuery(Statement(NAMES[:query.places]), query,
                         analysis.Analysis(("ok", 0, 0, 0, 0), []))
        for i, row in enumerate(rows):
            if bits >> i & 1:
                live.answers(NAMES[place], row)
        answers = repr([told(live, it) for it in later])
        if answers in seen:
            return seen[answers], bits
        seen[answers] = bits
    return None


def element_text(element):
    return b"%d" % element if is_constant(element) else NAMES[element[0]] + b".c%d" % element[1]


def query_text(query):
    """The statement, without its name."""
    text = b"SELECT " + (b"DISTINCT " if query.distinct else b"")
    text += b", ".join(map(element_text, query.select))
    text += b" FROM " + b", ".join(NAMES[:query.places]) + b" WHERE "
    return text + b" AND ".join(b"%s %s %s" % (element_text(x), op.encode(), element_text(y))
                                for x, op, y in query.atoms)


def streams_with(domains):
    """The statements that create the streams, with these domains."""
    columns = [b"c%d" % it for it in range(COLUMNS)]
    return [print_statement(CreateStream(name, columns, [domains.get((place, it))
                                                         for it in range(COLUMNS)]))
            for place, name in enumerate(NAMES)]


def try_one(part, refusal):
    """Makes the family of a refusal, and compares the answers after all pairs of sets."""
    size = part.random.choice(SIZES)
    family = family_of(part.random, refusal, size)
    text = query_text(refusal.asked)
    if family is None or not all(is_of_part(refusal, it) for it in family.assignments):
        part.differs(f"no family in part {refusal.number} of {text}")
        return
    pair = alike(refusal, family)
    if pair:
        part.differs(f"{family.kind}, sets {pair[0]:b} and {pair[1]:b} of {size} rows alike: {text}")
    part.count("pairs of sets", 2 ** size * (2 ** size - 1) // 2)
    word = "with DISTINCT" if refusal.query.distinct else "without"
    part.count(f"by {refusal.condition} {word}")
    if refusal.condition == "C3" and refusal.query.distinct:
        part.count(f"with links {family.kind}")


def run(program, seed, scale):
    part = Part("refused", seed)
    for word in ("refused queries", "pairs of sets", *COUNTED):
        part.count(word, 0)
    wanted, texts = scaled(QUERIES, scale), []
    domains = random_domains(part.random)
    while part.counts.get("refused queries", 0) < wanted:
        make = part.random.choice([random_query] * 9 + [query_of_two_links])
        query = with_domains(with_few_parts(part.random, make(part.random)), domains)
        refusal = refusal_of(part, query)
        # most of the refusals are by the first two conditions, or without DISTINCT or domains
        rare = refusal and (refusal.condition == "C3" and refusal.query.distinct or query.domains)
        if refusal is None or (not rare and part.random.random() < 0.6):
            continue
        part.count("refused queries")
        try_one(part, refusal)
        part.count("of them with domains", int(bool(query.domains)))
        texts.append(b"CREATE QUERY q AS " + query_text(query))
        if len(texts) == OF_SCRIPT or part.counts["refused queries"] == wanted:
            script = b"\n".join(streams_with(domains) + texts) + b"\n"
            compare(part, program, script, session_text(script))
            texts, domains = [], random_domains(part.random)
    return part
