"""Advice: what `advise` writes of random scripts, most of whose queries are refused, is tried by `run`.

The heads of its texts, its last line and its status must be those that follow from the replies of `run`
to the same lines. Each change that it tells is written out and given to `run`: what mends a query leaves
it with a part and breaking no condition, and the numbers of a change are those that `run` announces. What
bounds columns is written out with three pairs of integers: the widest, and two close together, below and
above all integers of the query. Changes that keep every answer stand under one heading before those that
leave rows out, which are told of refused queries alone. That no change is left out is judged too: the sets of columns by the analysis, the comparisons by `run`.
Of a compact query no comparison is tried, and no chain is told. The chains of the part that breaks a condition, the parts that keep the most cells, and
whether a filter ever answers are those of the analysis.
"""
import re
from collections import namedtuple
from itertools import combinations

import analysis
import evaluator
import language
import splitform
from analysis import MOST_ANSWERS, MOST_CELLS, MOST_PARTS, MOST_WORK
from common import Part, fault_of, run as run_program, scaled
from evaluator import POOL_PAGES
from generator import QUERY_NAMES, Writer
from language import RESUMES, CreateStream, Refused

QUERIES = 1000
MOST_SETS = 93
MOST_TOLD = 5
# how many parts are told, and how often a range is halved
MOST_DEAR, MOST_HALVINGS = 3, 20
# the largest number of cells that is told
MOST_COUNTED = 2**64 - 1
# of how many wrong rows it is told what is wrong
MOST_ROWS = 20
# how many parts the analysis goes through for one set, and of how many columns; beyond that `run` is asked
FEW_PARTS, FEW_COLUMNS = 60, 6
# how often a query of more parts is taken all the same, and one that is not refused
MANY_SHARE, TAKEN_SHARE = 0.3, 0.08
FAR_WIDTHS = [300, 700, 5000, 66000, 10**6, 10**12]
# the shares of bounds that are left out, and of those that are far, of the queries of one script
LOOSE = [(0.5, 0.1), (0.3, 0.2), (0.15, 0.4), (0.05, 0.6), (0.02, 0.85), (0.02, 0.02)]
FILLERS = [b"fill%d" % it for it in range(9)]
LO, HI = -language.LARGEST_INTEGER, language.LARGEST_INTEGER
# how far the ends that are close together lie from each other, and from the integers of a query
APART = 13
# what of a line of a checkpoint is not looked at: what it goes on from
UNTOLD = {b"Late", b"Value", b"RowLimit", b"Arity"}

HEAD = re.compile(rb"line \d+: ")
NUMBERS = re.compile(rb"ok query \w+ parts (\d+) cells (\d+) answers (\d+) work (\d+)\Z")
DEAR = re.compile(rb"refused \w+ limit (cells|answers|work)\Z")
MARK = re.compile(rb"  [ \t]*\^\Z")
CHANGE = re.compile(rb"    with (COMPACT|SHARED|AND (?:.+)): parts (\d+) cells (\d+) answers (\d+) work (\d+)\Z")
BOUNDS = re.compile(rb"    mended by((?: AND \w+\.\w+ > LO AND \w+\.\w+ < HI)+)\Z")
DOMAINS = re.compile(rb"    mended at CREATE STREAM by((?: \w+\.\w+ IN LO\.\.HI)+)\Z")
ITEM = re.compile(rb" (\w+)\.(\w+) IN LO\.\.HI")
COLUMN = re.compile(rb"\w+\.\w+")
MORE_SIGNS, MORE_INTEGERS = [b"<", b">", b"<", b">", b"="], [-7, 9, 40, 500]
DISTINCT = b"    mended by DISTINCT, with which each answer comes once"
ENDS = (b"    LO and HI are two integers of your own for all columns: -999999999999999 and 999999999999999"
        b" were tried, and two close together, below and above all integers of the query; the numbers may still"
        b" pass a limit, so write yours and then ask again for the numbers")
SAME_ANSWERS = b"  the same answers:"
LEAVES_OUT = b"  leaves rows out, so take one that every row that counts meets:"
NOTHING = b"  nothing that was tried mends it"
NOTHING_LIFTS = b"  nothing that was tried lifts it"
NOT_LIFTED = NOTHING_LIFTS + b": add COMPACT, if it is not there, and ask again what it lacks then"
NARROW = NOTHING_LIFTS + b": narrow the ranges named above, or ask for parts of them in several queries"
NO_ROW = b" never answers: no row meets its comparisons"
CUT = b"  not all was tried"
CHAIN, KEPT = re.compile(rb"  part \d+ has "), re.compile(rb"  part \d+ keeps ")
COUNTED = b": 20 wrong rows are told above; this one is wrong too, and from here on such rows are counted alone"
LIMITS = {"cells": MOST_CELLS, "answers": MOST_ANSWERS, "work": MOST_WORK}
REASONS = {"C1": b" is selected and nothing bounds it",
           "C2": b" equals a column of another stream and nothing bounds it",
           "C3": b" is compared with a column of another stream and nothing bounds it"}
ONE_TOO_MANY = (b" is one unbounded column too many: of each stream one may be compared with other streams,"
                b" and on one side")
MANY_PARTS = (b" is refused: it has more than 4096 parts, each an order of its columns and integers:"
              b" use fewer of them")

# a text that is due: its head, and the query that it is about or the line that is at fault
Due = namedtuple("Due", "head asked line")
Asked = namedtuple("Asked", "statement query verdict")


class Wrong(Exception):
    """What is wrong with an output."""


# scripts

class AdviceWriter(Writer):
    """Writes scripts most of whose queries are refused: bounds are left out, or far."""

    loose = far = 0

    def bound(self, column, base, width):
        kind = self.random.random()
        if kind < self.loose:
            return []
        if kind < self.loose + self.far:
            width = self.random.choice(FAR_WIDTHS)
        return super().bound(column, base, width)

    def query_of(self, text):
        """The query of a text, or None where it is refused before it is analysed."""
        try:
            return self.session.resolve(language.parse(b"CREATE QUERY q AS " + text))
        except Refused:
            return None

    def asked_text(self):
        """The text of a query; most of those that are not refused, or have many parts, are passed over."""
        while True:
            kind = self.random.random()
            if b"V" in self.session.streams and kind < 0.6:
                text = self.wide_query()
            elif b"X" in self.session.streams and kind < 0.5:
                text = self.extreme_query()
            else:
                text = (self.keyed_query() if kind < 0.7 else None) or self.query_text()
            text = self.grown(text) if self.chance(0.15) else text
            query = self.query_of(text)
            if query is None or (has_more_parts(query, 4 * FEW_PARTS) and not self.chance(MANY_SHARE)):
                continue
            verdict = evaluator.verdict_on(query).verdict
            if self.chance(share_taken(verdict)) or (FILLERS[0] in self.session.queries and verdict[0] == "ok"):
                return text

    def grown(self, text):
        """The query with more comparisons of its columns with integers, by which it has more parts."""
        columns = COLUMN.findall(text)
        more = [b"%s %s %d" % tuple(map(self.random.choice, (columns, MORE_SIGNS, MORE_INTEGERS)))
                for _ in range(self.random.randint(1, 4))]
        return text + (b" AND " if b" WHERE " in text else b" WHERE ") + b" AND ".join(more)

    def wide_query(self):
        """A query that names many columns, most of them with one value, so that it has few parts."""
        columns = self.columns_of(b"V") + self.columns_of(b"K")
        named = self.random.sample(columns, self.random.randint(7, len(columns)))
        free = named[:self.random.choice([1, 1, 2, 3, 5])]
        atoms = [it + b" = %d" % self.random.choice([0, 0, 1]) for it in named[len(free):]]
        if self.chance(0.5):
            atoms.append(free[-1] + self.random.choice([b" < ", b" > ", b" = "]) + self.random.choice(named))
        distinct = b"DISTINCT " if self.chance(0.7) else b""
        return b"SELECT " + distinct + b", ".join(free) + b" FROM V, K WHERE " + b" AND ".join(atoms)

    def wide_streams(self):
        for name, columns in ((b"V", b"abcdefgh"), (b"K", b"abcd")):
            self.write(b"CREATE STREAM %s (%s)" % (name, b", ".join(b"%c" % it for it in columns)))

    def fill_pool(self):
        """Queries that take nearly all pages, so that a further one may find too few."""
        for name in (b"P", b"R"):
            self.write(b"CREATE STREAM %s (k, v)" % name)
        # seven take 2048 pages each, and one leaves some of the last 2048, or none is left for it
        sizes = [65536] * 7 + [32 * (2048 - self.random.choice([0, 0, 1, 2, 5])) + 1]
        for name, size in zip(FILLERS, sizes + [2] * self.random.choice([0, 0, 1])):
            self.write(b"CREATE QUERY %s AS SELECT P.k FROM P, R WHERE P.k = R.k AND P.k > 0 AND P.k < %d"
                       % (name, size))


def share_taken(verdict):
    """How often a query with this verdict is taken."""
    if verdict[0] == "violation":
        return 0.4 if verdict[2] == "C1" else 1
    return 1 if verdict[0] == "limit" else TAKEN_SHARE


def has_more_parts(query, most):
    try:
        analysis.walk_parts(query, most)
    except analysis.TooManyParts:
        return True
    return False


def write(writer):
    """Streams, one or two queries, and lines of all kinds around them."""
    random = writer.random
    writer.loose, writer.far = random.choice(LOOSE)
    if writer.chance(0.03):
        writer.fill_pool()
    if writer.chance(0.25):
        writer.extremes(3)
    if writer.chance(0.04):
        writer.wide_streams()
    many = random.choice([1, 2, 2, 3])
    while len(writer.session.streams) < many:
        writer.stream(random.choice([1, 2, 2, 3, 4]))
    if writer.chance(0.02):
        for number in range(17):
            writer.write(b"CREATE STREAM more%d (a)" % number)
    if writer.chance(0.3):
        writer.statement(writer.created(b"w", writer.spoiled(writer.query_text())))
    for name in random.sample(QUERY_NAMES[:8], random.choice([1, 1, 2])):
        for _ in range(random.choice([0, 0, 0, 1, 2])):
            writer.hostile() if writer.chance(0.6) else writer.row()
        writer.query(name, writer.asked_text())
    for _ in range(random.choice([0, 0, 1, 3, 6])):
        writer.row() if writer.chance(0.5) else writer.step()


# what is due

def is_told(line, word):
    """Whether `advise` tells an error: of what a line of a checkpoint goes on from it tells none."""
    if word not in UNTOLD:
        return True
    try:
        stripped = language.strip_line(line)
        return bool(language.row_name(stripped)) or not isinstance(language.parse(stripped), RESUMES)
    except Refused:
        return True


def told(number):
    """A number, of which those from the greatest of 64 bits on are told alike."""
    return (b"at least " if number == MOST_COUNTED else b"") + b"%d" % number


def head_of(number, asked, reply, free):
    """The head of the text on a query by the reply of `run`, or None where nothing is said of it."""
    statement, query, verdict = asked
    front = b"line %d: query %s" % (number, statement.name)
    if reply.endswith(b" limit pool"):
        pages = analysis.pages_of(verdict.verdict[2])
        return front + b" is refused: pages %d of %d that are free" % (pages, free)
    if reply.endswith(b" limit parts"):
        return front + MANY_PARTS
    if reply.startswith(b"refused") and b" limit " in reply:
        word = reply.split()[-1].decode()
        numbers = analysis.numbers_of(query, verdict.parts, statement.shared)
        value = min(dict(zip(LIMITS, numbers))[word], MOST_COUNTED)
        return front + b" is refused: %s %s of %d" % (word.encode(), told(value), LIMITS[word])
    if reply.startswith(b"refused"):
        _, _, _, part, condition, column = reply.split()
        reason = REASONS[condition.decode()]
        if condition == b"C3" and statement.distinct:
            reason = ONE_TOO_MANY
        return front + b" is refused: %s in part %s, %s" % (condition, part, column) + reason
    numbers = NUMBERS.match(reply)
    if numbers is None:
        return None if part_at(query, 1) else front + NO_ROW
    if numbers.group(1) == b"1":
        return None
    if numbers.group(1) == b"0":
        return front + b" never answers: its comparisons contradict each other"
    return front + b": parts %s cells %s answers %s work %s" % numbers.groups()


def part_at(query, number):
    """The part of a number from 1, or None where there are fewer."""
    length = len(analysis.pairs_of(query))
    for signs, at in analysis.walk(query, number + 1):
        if len(signs) == length:
            number -= 1
            if number == 0:
                return analysis.part_of(query, signs, at)
    return None


def chains_of(query, part):
    """What a part orders with its columns: for each place of FROM the columns of the stream and the constants, ascending,
    each with whether it equals the one before it.
    """
    chains, attributes = [], analysis.attributes_of(query)
    for here in sorted({place for place, _ in attributes}):
        chain = []
        for element in [it for it in attributes if it[0] == here] + analysis.constants_of(query):
            place = sum(not part.facts.less(element, it) for it in chain)
            chain.insert(place, element)
        chains.append([(it, i > 0 and part.facts.equal(chain[i - 1], it)) for i, it in enumerate(chain)])
    return chains


def dearest_of(parts):
    """The parts that keep the most cells: the number, the cells, and the place that keeps the most of them. Above 2^64 - 1 all are as many."""
    sizes = [[min(analysis.size_of(part.facts, dims), MOST_COUNTED) for dims in part.dims] for part in parts]
    sums = [min(sum(it), MOST_COUNTED) for it in sizes]
    order = sorted(range(len(parts)), key=lambda it: -sums[it])[:MOST_DEAR]
    return [(it, sums[it], sizes[it].index(max(sizes[it])), max(sizes[it])) for it in order]


def counted(number, one, more):
    return b"%d %s" % (number, one if number == 1 else more)


class Reckoning:
    """What `advise` must say of a script, by the replies of `run` to its lines."""

    def __init__(self, part, writer):
        self.part, self.session = part, writer.session
        self.due, self.pages = [], {}
        self.accepted = self.refused = self.at_fault = self.rows = 0
        for number, (line, reply) in enumerate(zip(writer.lines, writer.replies), 1):
            self.take(number, line, reply.rstrip(b"\n"))
        lines = counted(len(writer.lines), b"line read", b"lines read")
        queries = counted(self.accepted, b"query accepted", b"queries accepted")
        faults = counted(self.at_fault, b"line at fault", b"lines at fault")
        self.sums = b"%s, %s (%d of %d pages), %d refused, %s" % (
            lines, queries, sum(self.pages.values()), POOL_PAGES, self.refused, faults)
        self.status = 1 if self.refused or self.at_fault else 0

    def take(self, number, line, reply):
        if reply.startswith(b"error "):
            word = reply.split()[-1]
            if is_told(line, word):
                self.at_fault += 1
                self.take_fault(number, line, word)
        elif reply.startswith(b"ok drop "):
            del self.pages[reply.split()[-1]]
        elif reply.startswith((b"ok query ", b"refused ")):
            self.take_query(number, line, reply)

    def take_fault(self, number, line, word):
        """A line at fault: of wrong rows the first are told, and of the next it is told that it is counted alone."""
        is_row = word != b"LineTooLong" and bool(language.row_name(language.strip_line(line)))
        self.rows += is_row
        if not is_row or self.rows <= MOST_ROWS:
            self.due.append(Due(b"line %d: %s" % (number, word), None, line))
        elif self.rows == MOST_ROWS + 1:
            self.due.append(Due(b"line %d" % number + COUNTED, None, None))

    def take_query(self, number, line, reply):
        statement = language.parse(language.strip_line(line))
        query = self.session.resolve(statement)
        asked = Asked(statement, query, evaluator.verdict_on(query, statement.shared))
        head = head_of(number, asked, reply, POOL_PAGES - sum(self.pages.values()))
        if head:
            self.due.append(Due(head, asked, line))
        self.part.count("queries", int(statement.name not in FILLERS))
        if reply.startswith(b"refused"):
            self.refused += 1
            words = reply.split()
            self.part.count("refused by " + words[3 if words[2] == b"limit" else 4].decode(),
                            int(statement.name not in FILLERS))
        else:
            self.accepted += 1
            numbers = NUMBERS.match(reply)
            self.pages[statement.name] = analysis.pages_of(int(numbers.group(2))) if numbers else 0
            self.part.count("accepted", int(statement.name not in FILLERS))


# what is written

def texts_of(output):
    """The texts of an output, each a list of its lines, and the last line."""
    if not output.endswith(b"\n"):
        raise Wrong("the output does not end with a line")
    *lines, sums = output.split(b"\n")[:-1]
    texts = []
    for line in lines:
        if HEAD.match(line):
            texts.append([line])
        elif texts and line.startswith(b"  "):
            texts[-1].append(line)
        else:
            raise Wrong(f"no line of a text: {line[:120]!r}")
    return texts, sums


def judge_fault(due, rest):
    """Looks at the text on a line that is at fault: the line, perhaps a mark, and a sentence; nothing where it is counted alone."""
    if due.head.endswith(COUNTED):
        if rest:
            raise Wrong(f"{due.head!r}: more is said: {rest!r}")
        return
    if not due.head.endswith(b" LineTooLong"):
        stripped = language.strip_line(due.line)
        shown = b"  " + stripped[:200] + (b".." if len(stripped) > 200 else b"")
        if not rest or rest[0] != shown:
            raise Wrong(f"{due.head!r}: the line is not shown as it is")
        rest = rest[2:] if len(rest) > 2 and MARK.match(rest[1]) else rest[1:]
    if len(rest) != 1 or len(rest[0]) < 10:
        raise Wrong(f"{due.head!r}: no sentence: {rest!r}")


class Trial:
    """The changes of one query, written out and given to `run`."""

    def __init__(self, part, program, session, due):
        self.part, self.program, self.session = part, program, session
        self.head = due.head.split(b": ")[0].decode()
        self.is_refused = b" is refused: " in due.head
        self.statement, self.query, self.verdict = due.asked
        self.plain = self.statement._replace(name=b"m")

    def fail(self, what):
        raise Wrong(f"{self.head}: {what}")

    # giving changes to `run`

    def streams(self, domains=(), pair=(LO, HI)):
        """The lines that create the streams of the query, with some more domains between two ends."""
        lines = []
        for name in self.statement.streams:
            columns, ends = self.session.streams[name], list(self.session.domains[name])
            for stream, column in domains:
                if stream == name:
                    place = columns.index(column)
                    if ends[place]:
                        self.fail(f"{column!r} has a domain already")
                    ends[place] = pair
            lines.append(language.print_statement(CreateStream(name, columns, ends)))
        return lines

    def replies(self, creates, domains=(), pair=(LO, HI)):
        """The replies of `run` to queries, each created in the place of the one before."""
        streams = self.streams(domains, pair)
        lines = streams + [it for create in creates for it in (create, b"DROP QUERY m")]
        output, status, noise = run_program(self.program, ["run"], b"\n".join(lines) + b"\n")
        self.part.count("runs")
        replies = output.split(b"\n")[len(streams):-1]
        if status or noise or len(replies) != 2 * len(creates):
            self.fail(f"run: status {status}, {len(replies)} replies to {len(creates)} changed queries")
        return replies[::2]

    def with_text(self, text):
        """The query with comparisons behind its own, as ` AND S.a < 3`."""
        if not self.statement.atoms:
            text = text.replace(b" AND ", b" WHERE ", 1)
        line = language.print_statement(self.plain) + text
        if len(line) <= language.LONGEST_LINE:
            return line
        try:
            return language.print_short(language.parse(line))
        except Refused:
            return line

    def with_words(self, **words):
        return language.print_line(self.plain._replace(**words))

    def with_bounds(self, text, pair=(LO, HI)):
        return self.with_text(text.replace(b"LO", b"%d" % pair[0]).replace(b"HI", b"%d" % pair[1]))

    # numbers

    def is_better(self, numbers):
        """Whether numbers are of a part at least, and of fewer cells than the query has."""
        own = self.verdict.verdict
        return numbers[0] > 0 and (own[0] != "ok" or numbers[1] < own[2])

    def try_changes(self, changes):
        """The changes with a name or a comparison: each has the numbers that `run` announces, and
        none is left out.
        """
        wanted = []
        if not self.statement.compact:
            found = self.numbered([b"COMPACT"], [self.with_words(compact=True)])
            wanted += [it for it in found if self.is_better(it[1])]
        if self.verdict.verdict[0] != "violation" and not self.statement.shared:
            found = self.numbered([b"SHARED"], [self.with_words(shared=True)])
            wanted += [it for it in found if self.is_better(it[1])]
        wanted += self.best_comparisons() if self.is_refused and not self.query.compact else []
        if self.verdict.verdict[0] == "limit" and not wanted:
            wanted += self.best_halvings()
            self.part.count("queries with halved ranges", int(bool(wanted)))
        for (one, numbers), (other, announced) in zip(changes, wanted):
            if one != other:
                self.fail(f"with {one!r} is told where with {other!r} is due")
            if numbers != announced:
                self.fail(f"with {one!r}: {numbers}, and run announces {announced}")
            self.part.count("with a comparison" if one.startswith(b"AND") else f"with {one.decode()}")
            self.part.count("of them with the numbers of the query",
                            int(self.verdict.verdict == ("ok", *numbers)))
        if len(changes) != len(wanted):
            self.fail(f"{len(changes)} changes with numbers, wanted {wanted}")

    def numbered(self, names, creates):
        """The changes that are accepted, each with its numbers."""
        found = [NUMBERS.match(it) for it in self.replies(creates)]
        return [(name, tuple(map(int, it.groups()))) for name, it in zip(names, found) if it]

    def best_comparisons(self):
        """The best of all attributes less and greater than each constant."""
        names, constants = [], analysis.constants_of(self.query)
        for attribute in analysis.attributes_of(self.query):
            named = self.session.column_name(self.statement.streams, attribute)
            names += [b"AND %s %s %d" % (named, sign, value) for value in constants for sign in (b"<", b">")]
        if not names:
            return []
        found = self.numbered(names, [self.with_text(b" " + it) for it in names])
        return sorted((it for it in found if self.is_better(it[1])), key=lambda it: it[1][1])[:MOST_TOLD]

    def range_of(self, column):
        """The least and the greatest value of a column by comparisons with integers and its domain, where there are
        two at least and neither is that of all integers; else None.
        """
        lows, highs = [LO], [HI]
        for left, sign, right in map(analysis.turned, self.query.atoms):
            if left == column and analysis.is_constant(right):
                lows += [right + 1] * (sign == ">") + [right] * (sign in ("=", ">="))
                highs += [right - 1] * (sign == "<") + [right] * (sign in ("=", "<="))
        for it, low, high in self.query.domains:
            if it == column:
                lows, highs = lows + [low], highs + [high]
        return (max(lows), min(highs)) if LO < max(lows) < min(highs) < HI else None

    def best_halvings(self):
        """Of each column with a range the first halving with which the query is accepted, the best of these."""
        found = []
        for column in analysis.attributes_of(self.query):
            ends = self.range_of(column)
            if not ends:
                continue
            named = self.session.column_name(self.statement.streams, column)
            values = [ends[0] + ((ends[1] - ends[0]) >> it) + 1 for it in range(1, MOST_HALVINGS + 1)]
            names = [b"AND %s < %d" % (named, it) for it in dict.fromkeys(values)]
            accepted = self.numbered_each(names, [self.with_text(b" " + it) for it in names])
            found += [it for it in accepted if it[1][0] > 0][:1]
        return sorted(found, key=lambda it: it[1][1])[:MOST_TOLD]

    def numbered_each(self, names, creates):
        """As `numbered`; a line that is too long to be read is no change."""
        return self.numbered(names, creates) if names else []

    # chains and parts

    def name(self, element):
        return b"%d" % element if analysis.is_constant(element) else self.session.column_name(self.statement.streams, element)

    def try_chains(self, lines):
        """The chains of the part that breaks a condition; of a compact query none is told."""
        number = self.verdict.verdict[1]
        wanted = []
        for chain in [] if self.query.compact else chains_of(self.query, part_at(self.query, number)):
            text = b"".join((b" = " if equal else b" < ") + self.name(it) for it, equal in chain)
            if len(chain) > 1:
                wanted.append(b"  part %d has " % number + text[3:])
        if lines != wanted:
            self.fail(f"chains {lines!r}, wanted {wanted!r}")
        self.part.count("chains", len(lines))

    def try_dearest(self, lines):
        verdict, wanted = self.verdict.verdict, []
        if self.query.places > 1 and (verdict[0] == "limit" or verdict[1] > 1):
            for it, cells, place, kept in dearest_of(self.verdict.parts):
                cells, kept = min(cells, MOST_COUNTED), min(kept, MOST_COUNTED)
                part = self.verdict.parts[it]
                ranges = [b"%s %d..%d" % (self.name(column), *part.facts.range(column)) for column in part.dims[place]]
                count = b"%d cell%s:" % (cells, b"" if cells == 1 else b"s")
                if cells != kept or cells == MOST_COUNTED:
                    count = b"%s cells, %s of them of" % (told(cells), told(kept))
                text = b"  part %d keeps %s %s" % (it + 1, count, self.statement.streams[place])
                wanted.append(text + (b" by " + b", ".join(ranges) if ranges else b""))
        if lines != wanted:
            self.fail(f"parts {lines!r}, wanted {wanted!r}")
        self.part.count("parts told", len(lines))

    # sets

    def columns(self):
        """The columns that may be bounded: those that have no domain."""
        domains = {it for it, _, _ in self.query.domains}
        compared = analysis.attributes_of(self.query)
        selected = [it for it in dict.fromkeys(self.query.select) if it not in compared]
        return [it for it in compared + selected if it not in domains]

    def bounds_text(self, columns):
        named = [self.session.column_name(self.statement.streams, it) for it in columns]
        return b"".join(b" AND %s > LO AND %s < HI" % (it, it) for it in named)

    def domains_text(self, columns):
        named = [self.session.column_name(self.statement.streams, it) for it in columns]
        return b"".join(b" %s IN LO..HI" % it for it in named)

    def close_pairs(self):
        """Two integers below all integers that the query names, and two above them."""
        named = [0, *analysis.constants_of(self.query), *(end for it in self.query.domains for end in it[1:])]
        least, most = min(named), max(named)
        return [(max(LO, least - 2 * APART), max(LO, least - APART)), (min(HI, most + APART), min(HI, most + 2 * APART))]

    def each_pair(self, stand):
        """Whether the widest ends leave a query that stands, and the others one that breaks no condition."""
        return stand((LO, HI), stands_by_reply, stands_by_analysis) and all(
            stand(it, meets_by_reply, meets_by_analysis) for it in self.close_pairs())

    def bounds_stand(self, columns):
        return self.each_pair(lambda pair, *tests: self.bounds_stand_with(columns, pair, *tests))

    def bounds_stand_with(self, columns, pair, by_reply, by_analysis):
        atoms = tuple(it for column in columns for it in ((column, ">", pair[0]), (column, "<", pair[1])))
        query = self.query._replace(atoms=self.query.atoms + atoms)
        if (len(query.atoms) > language.MOST_ATOMS or len(analysis.constants_of(query)) > language.MOST_CONSTANTS
                or len(analysis.attributes_of(query)) > language.MOST_ATTRIBUTES):
            return False
        text = self.bounds_text(columns)
        return self.decided(by_analysis(query) if self.has_few_columns() else None,
                            lambda: by_reply(self.replies([self.with_bounds(text, pair)])[0]))

    def domains_stand(self, columns):
        return self.each_pair(lambda pair, *tests: self.domains_stand_with(columns, pair, *tests))

    def domains_stand_with(self, columns, pair, by_reply, by_analysis):
        more = tuple((it, *pair) for it in columns)
        query = self.query._replace(domains=tuple(sorted(self.query.domains + more)))
        names = ITEM.findall(self.domains_text(columns))
        return self.decided(by_analysis(query) if self.has_few_columns() else None,
                            lambda: by_reply(self.replies([language.print_line(self.plain)], names, pair)[0]))

    def has_few_columns(self):
        return len(self.columns()) <= FEW_COLUMNS

    def decided(self, by_analysis, by_run):
        """What the analysis answers of a query of few parts, and else what `run` does."""
        self.part.count("sets by run" if by_analysis is None else "sets by the analysis")
        return by_run() if by_analysis is None else by_analysis

    def least_sets(self, stand):
        """The least sets of at most three columns that mend the query, the smaller ones first; of many
        columns those among the first sets.
        """
        found, looked, columns = [], 0, self.columns()
        for size in range(4):
            for it in combinations(columns, size):
                looked += 1
                if looked <= MOST_SETS and not any(set(one) <= set(it) for one in found) and stand(it):
                    found.append(it)
        return found

    def try_mends(self, rest):
        """What mends a query that a condition refuses: each line is tried, and none is left out."""
        chains = [it for it in rest if CHAIN.match(it)]
        distinct = [it for it in rest if it == DISTINCT]
        changes = [it for it in rest if CHANGE.match(it)]
        words, comparisons = of_words(changes), of_comparisons(changes)
        bounds = [it for it in rest if BOUNDS.match(it)]
        domains = [it for it in rest if DOMAINS.match(it)]
        cut = [it for it in rest if it == CUT]
        ends = [ENDS] * bool(bounds or domains)
        same = [SAME_ANSWERS] * bool(words or distinct)
        leaves = [LEAVES_OUT] * bool(bounds or domains or comparisons)
        nothing = [NOTHING] * (not (same or leaves))
        if rest != chains + same + words + distinct + leaves + bounds + domains + ends + comparisons + nothing + cut:
            self.fail(f"its lines are not those of mends in their order: {rest!r}")
        self.try_chains(chains)
        creates = [self.with_words(distinct=True)] * len(distinct)
        creates += [self.with_bounds(BOUNDS.match(it).group(1)) for it in bounds]
        for line, reply in zip(distinct + bounds, self.replies(creates) if creates else []):
            self.mend(line, reply)
        for line in domains:
            self.mend(line, *self.replies([language.print_line(self.plain)], ITEM.findall(line)))
        self.try_changes([read_change(it) for it in changes])
        self.try_distinct(distinct)
        self.try_sets(bounds, domains, cut)

    def mend(self, line, reply):
        if not stands_by_reply(reply):
            self.fail(f"{line!r}, and run says {reply!r}")
        kind = "DISTINCT" if line == DISTINCT else "comparisons" if BOUNDS.match(line) else "domains"
        self.part.count("mended by " + kind)

    def try_distinct(self, distinct):
        query = self.query._replace(distinct=True)
        wanted = not self.statement.distinct and self.decided(
            stands_by_analysis(query) if self.has_few_columns() else None,
            lambda: stands_by_reply(self.replies([self.with_words(distinct=True)])[0]))
        if bool(distinct) != wanted:
            self.fail(f"DISTINCT {'mends' if wanted else 'does not mend'} it")

    def try_sets(self, bounds, domains, cut):
        many = len(self.columns())
        is_cut = 1 + many + many * (many - 1) // 2 + many * (many - 1) * (many - 2) // 6 > MOST_SETS
        if bool(cut) != is_cut:
            self.fail(f"that the search was cut short, with {many} columns: {bool(cut)}")
        self.part.count("queries whose sets were sought")
        self.part.count("searches cut short", int(is_cut))
        for found, head, text, stand in ((bounds, b"    mended by", self.bounds_text, self.bounds_stand),
                                         (domains, b"    mended at CREATE STREAM by", self.domains_text, self.domains_stand)):
            wanted = [head + text(it) for it in self.least_sets(stand)]
            if found != wanted:
                self.fail(f"sets {found!r}, wanted {wanted!r}")

    def try_cost(self, rest):
        """What a query costs, where a limit refuses it or it has several parts: each line is tried. Of an accepted one
        the changes that keep every answer are told alone.
        """
        dear = [it for it in rest if KEPT.match(it)]
        changes = [it for it in rest if CHANGE.match(it)]
        words, comparisons = of_words(changes), of_comparisons(changes)
        same, leaves = [SAME_ANSWERS] * bool(words), [LEAVES_OUT] * bool(comparisons)
        is_limit = self.verdict.verdict[0] == "limit"
        nothing = [NARROW if dear else NOT_LIFTED] * (is_limit and not changes)
        cut = [it for it in rest if it == CUT] if is_limit and not self.query.compact else []
        if rest != dear + same + words + leaves + comparisons + nothing + cut:
            self.fail(f"its lines are not those of costs in their order: {rest!r}")
        self.part.count("queries that nothing lifts", len(nothing))
        self.try_dearest(dear)
        self.try_changes([read_change(it) for it in changes])

    def judge(self, rest):
        verdict = self.verdict.verdict
        if verdict[0] == "violation":
            self.try_mends(rest)
        elif verdict[0] == "filter" or (verdict[0] == "ok" and verdict[1] == 0):
            if rest:
                self.fail(f"more lines of a query that never answers: {rest!r}")
            self.part.count("queries that never answer")
        else:
            self.try_cost(rest)


def of_comparisons(changes):
    return [it for it in changes if it.startswith(b"    with AND ")]


def of_words(changes):
    return [it for it in changes if not it.startswith(b"    with AND ")]


def read_change(line):
    """The change of a line with its numbers."""
    name, *numbers = CHANGE.match(line).groups()
    return name, tuple(map(int, numbers))


def stands_by_reply(reply):
    """Whether a created query breaks no condition and has a part."""
    numbers = NUMBERS.match(reply)
    return int(numbers.group(1)) > 0 if numbers else bool(DEAR.match(reply))


def meets_by_reply(reply):
    """Whether a created query breaks no condition, with a part or without one."""
    return bool(NUMBERS.match(reply) or DEAR.match(reply))


def stands_by_analysis(query):
    """Whether a query breaks no condition and has a part; None where it has more parts than are tried."""
    parts = parts_by_analysis(query)
    return None if parts is None else parts > 0


def meets_by_analysis(query):
    """Whether a query breaks no condition; None where it has more parts than are tried."""
    parts = parts_by_analysis(query)
    return None if parts is None else parts >= 0


def parts_by_analysis(query):
    """How many parts a query has, or -1 where one breaks a condition; None where it has more than are tried."""
    if query.compact and (query.places > 1 or query.distinct):
        return forms_by_analysis(query)
    parts, length = 0, len(analysis.pairs_of(query))
    for signs, at in analysis.walk(query, MOST_PARTS):
        if len(signs) < length:
            continue
        parts += 1
        if analysis.violation_of(query, analysis.part_of(query, signs, at).facts):
            return -1
        if parts > FEW_PARTS:
            return None
    return parts


def forms_by_analysis(query):
    """The same of a compact query by its split form, so that a part is one that some assignment is in; -1 too where it has too many."""
    parts = 0
    try:
        for form in splitform.parts_of(query):
            parts += 1
            if splitform.violation(form):
                return -1
            if parts > FEW_PARTS:
                return None
    except analysis.TooManyParts:
        return -1
    return parts


def judge(part, program, writer, text):
    """Compares what is said of a script with what is due."""
    fault = fault_of(run_program(program, ["run"], text), writer.wanted())
    if fault:
        raise Wrong(f"run: {fault}")
    due = Reckoning(part, writer)
    output, status, noise = run_program(program, ["advise"], text)
    part.count("wrong lines", due.at_fault)
    if noise:
        raise Wrong(f"wrote to standard error: {noise[:120]!r}")
    texts, sums = texts_of(output)
    if sums != due.sums:
        raise Wrong(f"last line {sums!r}, wanted {due.sums!r}")
    if status != due.status:
        raise Wrong(f"status {status}, wanted {due.status}")
    for got, wanted in zip(texts, due.due):
        if got[0] != wanted.head:
            raise Wrong(f"got {got[0]!r}, wanted {wanted.head!r}")
        if wanted.asked:
            Trial(part, program, writer.session, wanted).judge(got[1:])
        else:
            judge_fault(wanted, got[1:])
    if len(texts) != len(due.due):
        raise Wrong(f"{len(texts)} texts, wanted {len(due.due)}")


def run(program, seed, scale):
    part = Part("advise", seed)
    while part.counts.get("queries", 0) < scaled(QUERIES, scale):
        # the verdicts of one script are of no use to another
        evaluator.VERDICTS.clear()
        writer = AdviceWriter(part.random)
        write(writer)
        text = writer.text()
        if writer.lines[-1] and writer.chance(0.1):
            text = text[:-1]
        part.count("scripts")
        try:
            judge(part, program, writer, text)
        except Wrong as wrong:
            part.differs(f"advise: {wrong}", text)
    return part
