"""Families: what `lower N` and `lower --c3 N` write of refused queries is judged by the evaluator.

The first line must name the first failure by the analysis, the rows must be rows of their streams
in 64 bits and in the domains of their columns, a column that the query does not name must have the
lower end of its domain or 0, and the family must tell its sets: whatever set of its rows came
before, the rows that ask for a row show whether it is in the set, or without DISTINCT, for an inequality
and where nothing moves apart, the numbers of answers differ between any two sets. All sets are tried up to 2^6, 64 random
ones above, and some families of 1,000 rows are tried at random places. Queries that have no family,
and scripts that are refused, are tried too. `lower N` makes no family for a refusal by C3. A compact
query is refused where its whole form does not fit and a part of its split form breaks a condition. A
refused query must have a family where its values move (`moving`); its rows may be of another stream than
the column at fault. Where none move, with DISTINCT the one line says that few states are enough. Of a
query without COMPACT that no part shows by itself both are asked for by `--c3` alone.
"""
import re
from collections import Counter, namedtuple
from copy import copy

import analysis
import checker
import moving
import refused
import splitform
import whole
from branching import goes_by_form
from common import Part, compare, run as run_program, scaled
from evaluator import LiveQuery
from language import COMPACT_SHARE, GREATEST_VALUE, LEAST_VALUE, Refused, lies_in

FAMILIES = 1000
INEQUALITIES = 500
SIZES = range(1, 13)
LARGE_SIZE, LARGE_SHARE, LARGE_PLACES = 1000, 0.02, 8
PLAIN_SHARE = 0.2
TWO_LINKS_SHARE = 0.15
MOST_SETS = 64
EVERY = "--c3"
WRONG_NUMBERS = ["0", "1001", "01", "+5", "-1", "", "x", "99999999999999999999"]
WRONG_FORMS = [(), (EVERY,), (EVERY, EVERY, "3"), ("3", EVERY), ("--c2", "3"), ("--C3", "3"), ("3", "4"), (EVERY, "3", "4")]
WRONG_WORDS = b"bq: these words are no form of the command; nothing was read\n"
HEAD = re.compile(rb"family (\w+) part (\d+) (C[123]) (\w+)\.(\w+) size (\d+)\Z")

Family = namedtuple("Family", "rows asking")


class Fault(Exception):
    """What is wrong with a family."""


# what must be written

def failure_by_form(query):
    """What the split form of a compact query breaks first, or None, also where its whole form fits; TooManyParts above a limit."""
    if whole.fitting(query):
        return None
    found = enumerate(map(splitform.violation, splitform.parts_of(query)), 1)
    return next(((number, *it) for number, it in found if it), None)


def first_failure(query):
    """The first failure of a query, by its split form or by its ordered parts, or None; TooManyParts above the limit, also for a filter."""
    if goes_by_form(query):
        return failure_by_form(query)
    vectors = analysis.walk_parts(query, analysis.MOST_PARTS)
    if query.places == 1 and not query.distinct:
        return None
    for number, (signs, at) in enumerate(vectors, 1):
        violation = analysis.violation_of(query, analysis.part_of(query, signs, at).facts)
        if violation:
            return number, *violation
    return None


def query_of(text):
    """The query of a script with its line and what refuses the script, each where there is one."""
    try:
        script = checker.read_script(text, False)
        return script.query, script.query_line, None
    except Refused as refusal:
        return *checker.query_before(text, refusal.line), refusal


def has_plain_family(query, condition):
    """Whether a part of a query that breaks a condition has a family by itself: no pair lies between streams, for C3 no column has a domain."""
    across = any(not analysis.is_local(it, it[0][0]) for it in analysis.pairs_of(query))
    return condition == "C1" or not (across or (condition == "C3" and query.domains))


def without_family(text, every):
    """What `lower` must write where there is no family, and its status; else None.

    With `every` families are made for refusals by C3, too.
    """
    query, line, refusal = query_of(text)
    try:
        failure = None if query is None else first_failure(query)
    except analysis.TooManyParts:
        return b"error %d Limit\n" % line, 1
    if refusal:
        return checker.refusal_line(refusal), 1
    if failure is None:
        return b"no family bounded\n", 0
    if failure[1] == "C3" and not every:
        return b"no family C3\n", 0
    if not goes_by_form(query) and has_plain_family(query, failure[1]):
        return None
    if every or goes_by_form(query):
        if moving.has_rows(query, failure[1]):
            return None
        if query.distinct and not moving.ways(query):
            return b"no family few\n", 0
    return b"no family %s\n" % (b"form" if goes_by_form(query) else failure[1].encode()), 0


# what is written

def row_of(line, word, number, session, free):
    """The stream and the values of a row of the text; `free` has what no query asks of columns."""
    front = b"%s %d " % (word, number)
    name, *fields = line[len(front):].split(b",")
    if not line.startswith(front) or len(fields) != len(session.streams.get(name, ())):
        raise Fault(f"no row {front!r}: {line!r}")
    values = [int(it) for it in fields]
    if not all(LEAST_VALUE <= it <= GREATEST_VALUE for it in values):
        raise Fault(f"not in 64 bits: {line!r}")
    if b",".join([name, *(b"%d" % it for it in values)]) != line[len(front):]:
        raise Fault(f"not as rows are printed: {line!r}")
    if not all(map(lies_in, values, session.domains[name])):
        raise Fault(f"outside a domain: {line!r}")
    if any(values[it] != value for it, value in free[name]):
        raise Fault(f"a column that the query does not name: {line!r}")
    return name, values


def free_columns(script):
    """By stream of the query the columns that it does not name, each with the value it must have."""
    query, streams, session = script.query, script.statement.streams, script.session
    named = {*analysis.attributes_of(query), *query.select}
    return {name: [(it, domain[0] if domain else 0)
                   for it, domain in enumerate(session.domains[name]) if (place, it) not in named]
            for place, name in enumerate(streams)}


def read_family(lines, size, own, script):
    """The rows of a text, and the rows that ask for each of them."""
    rows, asking, at = [], [], iter(lines)
    streams, free = script.statement.streams, free_columns(script)
    for number in range(1, size + 1):
        name, row = row_of(next(at, b""), b"m", number, script.session, free)
        if name != own:
            raise Fault(f"m {number} is a row of {name!r}")
        rows.append(row)
        asked = []
        for wanted in [own] if len(streams) == 1 else [it for it in streams if it != own]:
            name, row = row_of(next(at, b""), b"g", number, script.session, free)
            if name != wanted:
                raise Fault(f"g {number} has a row of {name!r} in the place of one of {wanted!r}")
            asked.append((name, row))
        asking.append(asked)
    if list(at) != [b"end q"]:
        raise Fault("the text does not end where it must")
    return Family(rows, asking)


def told(live, asked):
    """What a query answers to further rows; it is left as it was."""
    other = copy(live)
    other.rows, other.printed = [Counter(it) for it in live.rows], set(live.printed)
    return [it for name, row in asked for it in other.answers(name, row)]


def shows(query, streams, condition, column, family, number, answers):
    """Whether the answers to the rows that ask for a number say that it is in the set."""
    if len(streams) == 1:
        return not answers
    if condition != "C1":
        return bool(answers)
    place = query.select.index(column)
    return any(it[place] == family.rows[number][column[1]] for it in answers)


def sets_of(random, size):
    """All sets of so many numbers, or 64 random ones where there are more."""
    if 2 ** size <= MOST_SETS:
        return range(2 ** size)
    return [0, 2 ** size - 1, *(random.randrange(2 ** size) for _ in range(MOST_SETS - 2))]


def after_set(script, own, family, bits):
    """The query after the rows of a set."""
    live = LiveQuery(script.statement, script.query, analysis.Analysis(("ok", 0, 0, 0, 0), []))
    for i, row in enumerate(family.rows):
        if bits >> i & 1:
            live.answers(own, row)
    return live


def tell(part, script, failure, family, places):
    """Tries the sets of a family by the definition, each at these numbers."""
    query, streams = script.query, script.statement.streams
    _, condition, column = failure
    for bits in sets_of(part.random, len(family.rows)):
        part.count("sets")
        live = after_set(script, streams[column[0]], family, bits)
        for i in places:
            answers = told(live, family.asking[i])
            if shows(query, streams, condition, column, family, i, answers) != bool(bits >> i & 1):
                raise Fault(f"the set {bits:b} is not told at number {i + 1}")


def count_apart(part, script, own, family):
    """Tries the sets of a family by the numbers of answers: no two sets have the same numbers."""
    found = {}
    for bits in {*sets_of(part.random, len(family.rows))}:
        part.count("sets")
        live = after_set(script, own, family, bits)
        numbers = tuple(len(told(live, asked)) for asked in family.asking)
        other = found.setdefault(numbers, bits)
        if other != bits:
            raise Fault(f"the sets {bits:b} and {other:b} are not told apart")


def count_apart_at(part, script, own, family, place):
    """Tries two sets of a large family that agree below a number, and two that agree above it, at the number, the one before and the last."""
    size, low = len(family.rows), (1 << place) - 1
    numbers = sorted({max(place - 1, 0), place, size - 1})
    for kept in (low, ~low << 1):
        part.count("pairs of large sets")
        one, two = (part.random.randrange(1 << size) for _ in range(2))
        two = one & kept | two & ~kept
        lives = [after_set(script, own, family, it & ~(1 << place) | bit << place)
                 for it, bit in ((one, 0), (two & (1 << size) - 1, 1))]
        if len({tuple(len(told(it, family.asking[number])) for number in numbers) for it in lives}) == 2:
            return
    raise Fault(f"sets that differ at number {place + 1} are not told apart")


def try_family(part, script, failure, family):
    """Tries a family by the definition that its condition has."""
    size, own = len(family.rows), script.statement.streams[failure[2][0]]
    places = range(size) if size < LARGE_SIZE else part.random.sample(range(size), LARGE_PLACES)
    if not goes_by_counts(script.query, failure):
        if size < LARGE_SIZE:
            tell(part, script, failure, family, places)
        else:
            bits = part.random.randrange(1 << size)
            live = after_set(script, own, family, bits)
            for i in places:
                if shows(script.query, script.statement.streams, failure[1], failure[2], family, i,
                         told(live, family.asking[i])) != bool(bits >> i & 1):
                    raise Fault(f"a large set is not told at number {i + 1}")
    elif size < LARGE_SIZE:
        count_apart(part, script, own, family)
    else:
        for place in places:
            count_apart_at(part, script, own, family, place)


def may_move(query, failure):
    """Whether the rows may be those of the whole query, that move in equal steps, of any stream."""
    return failure[1] != "C1" and (goes_by_form(query) or not has_plain_family(query, failure[1]))


def goes_by_counts(query, failure):
    """Whether the numbers of answers tell any two sets apart, and not what asks for a number whether it is in the set."""
    return not query.distinct and (failure[1] == "C3" or may_move(query, failure) and "apart" not in moving.ways(query))


def shown_failure(script, failure, head, size):
    """The failure with the column that the first line of a family names; it names another stream's where rows move, and never for C1."""
    query, streams, found = script.query, script.statement.streams, HEAD.match(head)
    name = script.session.column_name
    wanted = b"family q part %d %s %s size %d" % (failure[0], failure[1].encode(), name(streams, failure[2]), size)
    others = analysis.attributes_of(query) if may_move(query, failure) else []
    column = next((it for it in others if found and it[0] != failure[2][0] and found[4] + b"." + found[5] == name(streams, it)), failure[2])
    if head.replace(name(streams, column), name(streams, failure[2])) != wanted:
        raise Fault(f"got {head!r}, wanted {wanted!r}")
    return *failure[:2], column


def judge(part, program, text, size, every):
    """Compares what is written of a script with what must be, or judges the family."""
    words = ("lower", *([EVERY] if every else []), str(size))
    wanted = without_family(text, every)
    if wanted:
        # most random queries are bounded: one of ten is enough
        if wanted[0] != b"no family bounded\n" or part.random.random() < 0.1:
            part.count("no family " + wanted[0].split()[-1].decode())
            compare(part, program, text, *wanted, words)
        return
    script = checker.read_script(text, False)
    failure = first_failure(script.query)
    part.count("runs")
    output, status, noise = run_program(program, list(words), text)
    part.count(f"families by {failure[1]}")
    part.count("families by C3 with DISTINCT", int(failure[1] == "C3" and script.query.distinct))
    part.count("with a domain", int(bool(script.query.domains)))
    part.count("compact", int(script.query.compact))
    part.count("compact by " + failure[1], int(goes_by_form(script.query)))
    head, *lines = output.split(b"\n")
    try:
        if status or noise or not output.endswith(b"\n"):
            raise Fault(f"status {status}, {len(noise)} bytes of noise")
        shown = shown_failure(script, failure, head, size)
        part.count("of another stream", int(shown[2][0] != failure[2][0]))
        own = script.statement.streams[shown[2][0]]
        family = read_family(lines[:-1], size, own, script)
        column = shown[2][1]
        if (shown[1] == "C1" or not may_move(script.query, failure)) and len({it[column] for it in family.rows}) < size:
            raise Fault("two rows have the same value in the named column")
        try_family(part, script, shown, family)
    except (Fault, ValueError) as fault:
        part.differs(f"{' '.join(words)}: {fault}", text)


def judge_words(part, program, words):
    """Words that are no form of the command: nothing is read, and two lines say so."""
    part.count("runs")
    output, status, noise = run_program(program, list(words), b"")
    if (output, status) != (b"", 2) or not noise.startswith(WRONG_WORDS):
        part.differs(f"{' '.join(words)}: status {status}, {output!r}, {noise!r}", b"")


# scripts

def script_of(query, domains):
    words = b"CREATE COMPACT QUERY q AS " if query.compact else b"CREATE QUERY q AS "
    query_line = words + refused.query_text(query)
    return b"\n".join([*refused.streams_with(domains), query_line]) + b"\n"


def random_query(part):
    """A random query with at least one comparison, of one stream more often than elsewhere, or one with two links of a stream."""
    if part.random.random() < TWO_LINKS_SHARE:
        return refused.query_of_two_links(part.random)
    query = refused.with_few_parts(part.random, refused.random_query(part.random))
    if part.random.random() < 0.3:
        def first(element):
            return element if analysis.is_constant(element) else (0, element[1])

        atoms = tuple((first(left), op, first(right)) for left, op, right in query.atoms)
        query = query._replace(places=1, select=tuple(map(first, query.select)), atoms=atoms)
    return query._replace(compact=bool(COMPACT_SHARE) and part.random.random() < COMPACT_SHARE)


def is_taken(query):
    return (len(query.atoms) <= 16 and len(analysis.attributes_of(query)) <= 12
            and len(analysis.constants_of(query)) <= 6 and len(analysis.soft_atoms(query)) <= 8)


def run(program, seed, scale):
    part = Part("lower", seed)
    families = scaled(FAMILIES, scale)
    inequalities = scaled(INEQUALITIES, scale)
    while (sum(part.counts.get(f"families by {it}", 0) for it in ("C1", "C2")) < families
           or part.counts.get("families by C3", 0) < inequalities):
        query = random_query(part)
        if is_taken(query):
            text = script_of(query, refused.random_domains(part.random))
            large = part.random.random() < LARGE_SHARE
            size = LARGE_SIZE if large else part.random.choice(SIZES)
            judge(part, program, text, size, True)
            if part.random.random() < PLAIN_SHARE:
                judge(part, program, text, size, False)
    for words in [*WRONG_FORMS, *((it,) for it in WRONG_NUMBERS), *((EVERY, it) for it in WRONG_NUMBERS)]:
        judge_words(part, program, ("lower", *words))
    for words in [("5",), (EVERY, "5")]:
        compare(part, program, b"x\n", b"error 1 Syntax\n", 1, ("lower", *words))
    return part
