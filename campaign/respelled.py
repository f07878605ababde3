"""Compact queries that are written otherwise are decided alike.

Each random query is written again in ways that change no answer: by other operators and integers, turned, in another order, with comparisons
said twice or more weakly besides, with bounds as comparisons in place of a domain and the reverse, and with one of two equal columns of a stream
in place of the other. So `<` between streams is written as `<=` and `<>`, which must be accepted alike. Where else the whole form of one is within the limits, that of all must be, and where it is taken, with the same numbers. Where it is
not, the split form of all is accepted or refused alike. Which parts there are the spelling decides, as it has other integers or another order of comparisons: so numbers, and the
condition that is told, are compared too, and counted by what was changed; so is what passes a limit in one spelling alone.
"""
import re
from collections import namedtuple

import analysis
import crossed
import language
import linked
import whole
from common import Part, run as run_program, scaled
from evaluator import Session
from generator import Writer
from language import COMPACT_SHARE, Atom, CreateStream, Refused

QUERIES = 4000
CROSSED_SHARE = 0.5
NAMES = [b"S", b"T", b"U", b"W"]
STRICTER = {"<": ("<=", -1), ">": (">=", 1)}
SOFTER = {"<=": ("<", 1), ">=": (">", -1)}
WEAKER = {"<": "<=", ">": ">="}
REPLY = re.compile(rb"(?:ok query|refused) \w+ ?(.*)\Z")

# a query with the streams that it reads, by name
Spelled = namedtuple("Spelled", "streams query")


def turned(atom):
    return Atom(atom.right, analysis.TURNED[atom.operator], atom.left)


def with_column_first(atom):
    return turned(atom) if isinstance(atom.left, int) else atom


def is_bound(atom):
    return isinstance(atom.left, int) or isinstance(atom.right, int)


def changed_atoms(spelled, change):
    """A query with each comparison, or some, replaced by others."""
    atoms = [new for it in spelled.query.atoms for new in change(it)]
    return spelled._replace(query=spelled.query._replace(atoms=atoms))


def by_other_integers(spelled, random):
    """`>= 1` for `> 0`, and the reverse; `= 3` as two comparisons."""
    def change(atom):
        atom = with_column_first(atom)
        if not is_bound(atom) or random.random() < 0.3:
            return [atom]
        if atom.operator == "=":
            return [Atom(atom.left, ">=", atom.right), Atom(atom.left, "<=", atom.right)]
        operator, by = {**STRICTER, **SOFTER}.get(atom.operator, (atom.operator, 0))
        return [Atom(atom.left, operator, atom.right + by)]
    return changed_atoms(spelled, change)


def by_turning(spelled, random):
    """Comparisons turned, in another order."""
    other = changed_atoms(spelled, lambda it: [turned(it) if random.random() < 0.6 else it])
    random.shuffle(other.query.atoms)
    return other


def by_saying_more(spelled, random):
    """Comparisons said twice, or more weakly besides."""
    def change(atom):
        atom = with_column_first(atom)
        kind = random.random()
        if kind < 0.2:
            return [atom, turned(atom)]
        if kind < 0.4 and atom.operator in WEAKER:
            return [atom, Atom(atom.left, WEAKER[atom.operator], atom.right)]
        if kind < 0.4 and is_bound(atom) and atom.operator in ("<=", ">="):
            return [Atom(atom.left, atom.operator, atom.right + (2 if atom.operator == "<=" else -2)), atom]
        return [atom]
    return changed_atoms(spelled, change)


def by_comparisons(spelled, random):
    """Each domain of a column that the query names as comparisons."""
    named = set(spelled.query.select) | {it for atom in spelled.query.atoms for it in (atom.left, atom.right) if isinstance(it, tuple)}
    atoms, streams = list(spelled.query.atoms), {}
    for name, stream in spelled.streams.items():
        domains = list(stream.domains)
        for place, (column, domain) in enumerate(zip(stream.columns, stream.domains)):
            if domain and (name, column) in named:
                low, high = domain
                atoms += random.choice([
                    [Atom((name, column), ">=", low), Atom((name, column), "<=", high)],
                    [Atom((name, column), ">", low - 1), Atom((name, column), "<", high + 1)]])
                domains[place] = None
        streams[name] = stream._replace(domains=domains)
    return Spelled(streams, spelled.query._replace(atoms=atoms))


def bounds_in(spelled, column):
    """What the comparisons of a column with integers, but `<>`, leave of its domain: its ends, None where there is none, and the rest."""
    stream = spelled.streams[column[0]]
    domain = stream.domains[stream.columns.index(column[1])]
    low, high = domain or (None, None)
    rest = []
    for atom in map(with_column_first, spelled.query.atoms):
        if atom.left != column or not is_bound(atom) or atom.operator == "<>":
            rest.append(atom)
            continue
        operator, by = STRICTER.get(atom.operator, (atom.operator, 0))
        end = atom.right + by
        if operator in (">=", "="):
            low = end if low is None else max(low, end)
        if operator in ("<=", "="):
            high = end if high is None else min(high, end)
    return low, high, rest


def by_domains(spelled, random):
    """Bounds on both sides at the stream. What else reads the stream is another script's."""
    streams = {name: it._replace(domains=list(it.domains)) for name, it in spelled.streams.items()}
    other = Spelled(streams, spelled.query)
    for column in {it.left for it in map(with_column_first, spelled.query.atoms) if is_bound(it)}:
        low, high, rest = bounds_in(other, column)
        if low is not None and high is not None and low <= high:
            stream = streams[column[0]]
            stream.domains[stream.columns.index(column[1])] = low, high
            other = other._replace(query=other.query._replace(atoms=rest))
    return other


def by_equal_columns(spelled, random):
    """One of two columns of a stream that a comparison says are equal, in place of the other."""
    ties = [it for it in spelled.query.atoms if it.operator == "=" and not is_bound(it) and it.left[0] == it.right[0] and it.left != it.right]
    if not ties:
        return spelled
    tie = random.choice(ties)

    def other(side):
        return {tie.left: tie.right, tie.right: tie.left}.get(side, side) if random.random() < 0.7 else side

    select = [other(it) for it in spelled.query.select]
    if len(set(select)) != len(set(spelled.query.select)):
        select = spelled.query.select
    spelled = spelled._replace(query=spelled.query._replace(select=select))
    return changed_atoms(spelled, lambda it: [it if it in ties else Atom(other(it.left), it.operator, other(it.right))])


def by_unequal_sides(spelled, random):
    """`<=` and `<>` for `<` between streams. The whole form has other links then, and may not fit; the parts have the sign of `<`."""
    def change(atom):
        if is_bound(atom) or atom.operator not in WEAKER or atom.left[0] == atom.right[0] or random.random() < 0.3:
            return [atom]
        return random.sample([Atom(atom.left, WEAKER[atom.operator], atom.right), Atom(atom.left, "<>", atom.right)], 2)
    return changed_atoms(spelled, change)


UNEQUAL = "by unequal sides"
WAYS = {"by other integers": by_other_integers, "by turning": by_turning, "by saying more": by_saying_more, "by comparisons": by_comparisons,
        "by domains": by_domains, "by equal columns": by_equal_columns}


def base_query(writer):
    """Streams and a query over them that is no filter, or None."""
    for name in NAMES[:writer.random.choice([1, 2, 2, 3, 3, 4])]:
        writer.session.reply(linked.stream_text(writer, name))
    text = (crossed.query_text(writer) if writer.chance(CROSSED_SHARE) else None) or linked.query_text(writer)
    try:
        query = language.parse(b"CREATE COMPACT QUERY q AS " + text)
    except Refused:
        return None
    if len(query.streams) == 1 and not query.distinct:
        return None
    streams = {it: CreateStream(it, writer.session.streams[it], writer.session.domains[it]) for it in query.streams}
    return Spelled(streams, query)


def spellings(part, base):
    """The query, and each other way of writing it that keeps to the limits of the language; by the name of the way."""
    found = {"": base}
    for way, change in {**WAYS, UNEQUAL: by_unequal_sides}.items():
        other = change(base, part.random)
        if other != base:
            found[way] = other
    mixed = base
    for change in part.random.sample(list(WAYS.values()), 3):
        mixed = change(mixed, part.random)
    found["mixed"] = mixed
    return {way: it for way, it in found.items() if not language.query_passes_limit(it.query)}


def renamed(spelled, number):
    """The query under names of its own, so that a session may hold it beside others."""
    def of(column):
        return column if isinstance(column, int) else (column[0] + b"%d" % number, column[1])

    streams = [it._replace(name=it.name + b"%d" % number) for it in spelled.streams.values()]
    query = spelled.query._replace(select=[of(it) for it in spelled.query.select], streams=[it + b"%d" % number for it in spelled.query.streams],
                                   atoms=[Atom(of(it.left), it.operator, of(it.right)) for it in spelled.query.atoms])
    return [language.print_statement(it) for it in [*streams, query]]


def forms_of(spelled):
    """Whether the whole form of a query is within the limits, and whether it is taken."""
    session = Session()
    for stream in spelled.streams.values():
        session.create_stream(stream)
    query = session.resolve(spelled.query)
    return whole.as_one(query) is not None, whole.fitting(query) is not None


def replies(program, ways):
    """What the program says of each spelling, each over streams of its own, of which a session has at most 16."""
    found, waiting = {}, list(ways.items())
    while waiting:
        lines, names = [], []
        many = 16 // len(waiting[0][1].streams)
        for number, (way, spelled) in enumerate(waiting[:many]):
            lines += renamed(spelled, number) + [b"DROP QUERY q"]
            names.append(way)
        waiting = waiting[many:]
        said = run_program(program, ["run"], b"\n".join(lines) + b"\n")[0].split(b"\n")
        told = [REPLY.match(it).group(1) for it in said if REPLY.match(it)]
        found.update(zip(names, (re.sub(rb"\b([STUW])\d\.", rb"\1.", it) for it in told)))
        if len(told) != len(names):
            found["short"] = b"\n".join(lines)
    return found


def outline(reply):
    """A reply without what names columns: the word, and of an accepted query the numbers."""
    return reply if b"parts" in reply or b"filter" in reply else b"refused " + reply.split(b" ")[-1 if b"limit" in reply else -2]


def is_limit(reply):
    return reply.startswith(b"limit ")


def compare(part, base, way, spelled, first, other):
    """Compares the replies to a query without a whole form, and to another spelling of it."""
    if is_limit(first) != is_limit(other):
        part.count(f"beyond a limit in one spelling: {way}")
    elif first.startswith(b"parts") != other.startswith(b"parts"):
        part.differs(f"{way}: {first} and {other}", b"\n".join(renamed(base, 0) + renamed(spelled, 1)))
    elif outline(first) != outline(other):
        part.count(f"with other {'numbers' if first.startswith(b'parts') else 'words'}: {way}")


def judge(part, program, base):
    ways = spellings(part, base)
    part.count("queries")
    part.count("spellings", len(ways) - 1)
    said = replies(program, ways)
    if "short" in said:
        part.differs("a query is missing", said["short"])
        return
    forms = {way: forms_of(it) for way, it in ways.items()}
    part.count("with a whole form", int(forms[""][1]))
    part.count("whose parts take less work", int(forms[""] == (True, False)))
    part.count("accepted by the split form", int(said[""].startswith(b"parts") and not forms[""][1]))
    for way, spelled in ways.items():
        if forms[way][0] != forms[""][0] and way != UNEQUAL:
            part.differs(f"{way}: the whole form of one alone fits", b"\n".join(renamed(base, 0) + renamed(spelled, 1)))
        if way == UNEQUAL or not (forms[way][1] and forms[""][1]):
            compare(part, base, way, spelled, said[""], said[way])
        elif outline(said[""]) != outline(said[way]):
            part.differs(f"{way}: {said['']} and {said[way]}", b"\n".join(renamed(base, 0) + renamed(spelled, 1)))


def run(program, seed, scale):
    part = Part("respelled", seed)
    for _ in range(scaled(QUERIES, scale) if COMPACT_SHARE else 0):
        base = None
        while base is None:
            base = base_query(Writer(part.random))
        judge(part, program, base)
    return part
