"""A plain evaluator of a session: it keeps the rows of each query and answers each line.

The answers to a row are the nested product over the rows kept, filtered and projected. Equal
rows are kept once with a count. The only thing left out is want of memory.

A query that goes on from a checkpoint has no rows from before it. Its answers are those of cells: those
that the checkpoint names, merged with those of the rows since.
"""
import operator
from collections import Counter

import analysis
import language
import lock
from language import (RESUMES, Checkpoint, CreateQuery, CreateStream, Explain, Lock, Refused, ResumeCell,
                      ResumeGiven, ResumeRows, Unlock)
from synopsis import Synopsis

MOST_STREAMS = 16
MOST_QUERIES = 64
POOL_PAGES = 16_384
MOST_ROWS = 2**40

COMPARE = {"<": operator.lt, "=": operator.eq, ">": operator.gt,
           "<=": operator.le, ">=": operator.ge, "<>": operator.ne}
# the words of links that are neither `=` nor `<`
SOFT_LINKS = {"<=": b"most", "<>": b"unlike"}
VERDICTS = {}


def resolve(statement, streams, domains):
    """The query that a statement's names stand for over these streams, with columns numbered.

    Columns and domains of each stream stand by its name.
    """
    operands = [it for atom in statement.atoms for it in (atom.left, atom.right)]
    columns = statement.select + [it for it in operands if not isinstance(it, int)]
    if any(it not in streams for it in statement.streams):
        raise Refused("UnknownStream")
    if any(stream not in statement.streams for stream, _ in columns):
        raise Refused("UnknownStream")
    if any(column not in streams[stream] for stream, column in columns):
        raise Refused("UnknownColumn")
    if len(set(statement.streams)) < len(statement.streams):
        raise Refused("SelfJoin")

    def numbered(operand):
        if isinstance(operand, int):
            return operand
        return statement.streams.index(operand[0]), streams[operand[0]].index(operand[1])

    atoms = tuple((numbered(it.left), it.operator, numbered(it.right)) for it in statement.atoms)
    select = tuple(numbered(it) for it in statement.select)
    query = analysis.Query(statement.distinct, len(statement.streams), select, atoms)
    named = sorted(set(select).union(analysis.attributes_of(query)))
    ends = [(it, domains[statement.streams[it[0]]][it[1]]) for it in named]
    return query._replace(domains=tuple((it, *domain) for it, domain in ends if domain),
                          compact=statement.compact)


def verdict_on(query, shared=False):
    """The analysis of a query, kept since scripts repeat queries."""
    if (query, shared) not in VERDICTS:
        other = VERDICTS.get((query, not shared))
        if other and other.parts:
            VERDICTS[query, shared] = analysis.of_parts(query, other.parts, shared)
        else:
            VERDICTS[query, shared] = other or analysis.analyse(query, shared)
    return VERDICTS[query, shared]


class LiveQuery:
    """An accepted query with its rows, and what it goes on from where lines of a checkpoint said so."""

    def __init__(self, statement, query, found):
        self.statement, self.query, self.found = statement, query, found
        verdict = found.verdict
        self.pages = 0 if self.is_filter() else analysis.pages_of(verdict[2])
        named = set(query.select) | set(analysis.attributes_of(query))
        # per place of FROM the columns that the query names, and the rows by these with counts
        self.columns = [sorted(c for p, c in named if p == place) for place in range(query.places)]
        self.rows = [Counter() for _ in range(query.places)]
        self.printed = set()
        # the cells before all rows, those of now, and how many rows were given before and since
        self.base = self.running = None
        self.given_before = self.given_since = 0

    def is_filter(self):
        return self.found.verdict[0] == "filter"

    def new_synopsis(self):
        return Synopsis(self.query, self.found.parts, self.statement.shared)

    def resume(self, line, rows_taken):
        """Takes a line of a checkpoint about this query; Refused where it cannot be."""
        if self.base is None and not self.is_filter():
            self.base = self.new_synopsis()
            self.base.printed = self.printed
        if isinstance(line, ResumeGiven):
            taken = 0 <= line.rows <= rows_taken and not self.given_before
            self.given_before = line.rows if taken else self.given_before
        elif isinstance(line, ResumeCell):
            taken = self.base is not None and self.base.load(line.index, line.content, self.given_before)
        else:
            if len(line.values) != len(self.query.select):
                raise Refused("Arity")
            taken = self.base is not None and self.base.load_tuple(line.values)
        if not taken:
            raise Refused("Value")

    def cells_now(self):
        """The cells of the base merged with those of the rows since."""
        since = self.new_synopsis()
        for place, rows in enumerate(self.rows):
            for row, times in rows.items():
                since.take(place, {(place, c): v for c, v in zip(self.columns[place], row)}, times)
        return since if self.base is None else self.base.merged(since)

    def checkpoint(self):
        """The lines of a checkpoint that say what this query goes on from."""
        name = self.statement.name
        lines = [b"RESUME %s AS %d" % (name, self.given_before + self.given_since)]
        if not self.is_filter():
            lines += [b"RESUME %s FROM %d %d" % (name, *it) for it in self.cells_now().numbered()]
        lines += [b"RESUME %s SELECT %s" % (name, b" ".join(b"%d" % value for value in it))
                  for it in sorted(self.printed)]
        return lines

    def from_cells(self, place, row):
        """The new answers to a row by the cells of now, which begin as those of the base."""
        if self.running is None:
            self.running = self.base.merged(self.new_synopsis())
            self.running.printed = self.printed
        return self.running.answers(place, row)

    def atoms_by_step(self, order):
        """For each step of a product in this order, the atoms that can be tried from then on."""
        steps = [[] for _ in order]
        for left, op, right in self.query.atoms:
            last = max(order.index(it[0]) for it in (left, right) if not isinstance(it, int))
            steps[last].append((left, COMPARE[op], right))
        return steps

    def combine(self, order, chosen):
        """All choices of one kept row for each place of the order that meet the atoms."""
        results = [({}, 1)]
        for place, atoms in zip(order, self.atoms_by_step(order)):
            longer = []
            for values, count in results:
                for row, times in chosen[place].items():
                    more = dict(values)
                    more.update(((place, c), v) for c, v in zip(self.columns[place], row))
                    if all(op(more.get(x, x), more.get(y, y)) for x, op, y in atoms):
                        longer.append((more, count * times))
            results = longer
        return results

    def answers(self, stream, row):
        """The new answers that a row gives, ascending; the row is kept."""
        self.given_since += 1
        if stream not in self.statement.streams:
            return []
        place = self.statement.streams.index(stream)
        kept = tuple(row[c] for c in self.columns[place])
        if self.base is not None:
            self.rows[place][kept] += 1
            return self.from_cells(place, row)
        chosen = list(self.rows)
        chosen[place] = Counter([kept])
        order = [place] + [it for it in range(self.query.places) if it != place]
        found = Counter()
        for values, count in self.combine(order, chosen):
            found[tuple(values[it] for it in self.query.select)] += count
        if not self.is_filter():
            self.rows[place][kept] += 1
        if not self.query.distinct:
            return sorted(found.elements())
        new = sorted(set(found) - self.printed)
        self.printed.update(new)
        return new


class Session:
    """A session: `reply(line)` gives the text that answers the next line."""

    def __init__(self, most_rows=MOST_ROWS):
        self.most_rows = most_rows
        # by the name of a stream its columns, and beside them their domains
        self.streams, self.domains = {}, {}
        self.queries = {}
        self.rows_taken = self.line_number = 0
        # whether a row line was taken: from then on no line of a checkpoint is
        self.began = False
        # which lines are let, or None where all are
        self.lock = None

    def reply(self, line):
        self.line_number += 1
        try:
            return self.settle(line)
        except Refused as refusal:
            return b"error %d %s\n" % (self.line_number, refusal.word.encode())

    def settle(self, line):
        if len(line) > language.LONGEST_LINE:
            raise Refused("LineTooLong")
        stripped = language.strip_line(line)
        if self.lock and not lock.lets(self.lock, stripped):
            raise Refused("Locked")
        if language.says_nothing(stripped):
            return b""
        if language.row_name(stripped):
            return self.take_row(*language.read_row(stripped, self.domains))
        statement = language.parse(stripped)
        if isinstance(statement, CreateStream):
            return self.create_stream(statement)
        if isinstance(statement, CreateQuery):
            return self.create_query(statement)
        if isinstance(statement, Checkpoint):
            return b"".join(it + b"\n" for it in self.checkpoint())
        if isinstance(statement, ResumeRows):
            return self.resume_rows(statement.rows)
        if isinstance(statement, (Lock, Unlock)):
            return self.turn_key(statement)
        if statement.name not in self.queries:
            raise Refused("UnknownQuery")
        if isinstance(statement, RESUMES):
            return self.resume(statement)
        if isinstance(statement, Explain):
            return self.explain(statement.name)
        del self.queries[statement.name]
        return b"ok drop " + statement.name + b"\n"

    def turn_key(self, statement):
        """Locks the session, or unlocks it; under a lock no other line than its own UNLOCK comes here."""
        if isinstance(statement, Lock):
            self.lock = lock.locked_by(statement, self.streams)
            return b"ok lock\n"
        if self.lock is None:
            raise Refused("Value")
        self.lock = None
        return b"ok unlock\n"

    def take_row(self, stream, row):
        if self.rows_taken >= self.most_rows:
            raise Refused("RowLimit")
        self.began = True
        self.rows_taken += 1
        lines = []
        for name, live in self.queries.items():
            lines += [b",".join((name, *(b"%d" % it for it in values))) + b"\n"
                      for values in live.answers(stream, row)]
        return b"".join(lines)

    def resume_rows(self, rows):
        """Takes over how many rows were taken before."""
        if self.began or self.rows_taken:
            raise Refused("Late")
        if rows < 0:
            raise Refused("Value")
        if rows > self.most_rows:
            raise Refused("RowLimit")
        self.rows_taken = rows
        return b""

    def resume(self, line):
        """Takes over what a query knew before."""
        if self.began:
            raise Refused("Late")
        self.queries[line.name].resume(line, self.rows_taken)
        return b""

    def checkpoint(self):
        """The lines from which a fresh session goes on."""
        streams = [language.print_statement(CreateStream(name, columns, self.domains[name]))
                   for name, columns in self.streams.items()]
        lives = self.queries.values()
        return [*streams, *(language.print_line(it.statement) for it in lives),
                b"RESUME %d" % self.rows_taken, *(line for it in lives for line in it.checkpoint())]

    def create_stream(self, statement):
        columns = statement.columns
        if statement.name in self.streams or len(set(columns)) < len(columns):
            raise Refused("Duplicate")
        if len(self.streams) >= MOST_STREAMS:
            raise Refused("TooMany")
        self.streams[statement.name], self.domains[statement.name] = columns, statement.domains
        return b"ok stream " + statement.name + b"\n"

    def resolve(self, statement):
        """The query that a statement's names stand for here."""
        return resolve(statement, self.streams, self.domains)

    def create_query(self, statement):
        if statement.name in self.queries:
            raise Refused("Duplicate")
        if len(self.queries) >= MOST_QUERIES:
            raise Refused("TooMany")
        query = self.resolve(statement)
        found = verdict_on(query, statement.shared)
        verdict = found.verdict
        name = statement.name
        if verdict[0] == "violation":
            _, part, condition, column = verdict
            named = self.column_name(statement.streams, column)
            return b"refused %s part %d %s %s\n" % (name, part, condition.encode(), named)
        if verdict[0] == "limit":
            return b"refused %s limit %s\n" % (name, verdict[1].encode())
        live = LiveQuery(statement, query, found)
        if live.pages > POOL_PAGES - sum(it.pages for it in self.queries.values()):
            return b"refused %s limit pool\n" % name
        self.queries[name] = live
        if verdict[0] == "filter":
            return b"ok query %s filter\n" % name
        return b"ok query %s parts %d cells %d answers %d work %d\n" % (name, *verdict[1:])

    def column_name(self, places, element):
        """An attribute or constant as it is printed."""
        if isinstance(element, int):
            return b"%d" % element
        stream = places[element[0]]
        return stream + b"." + self.streams[stream][element[1]]

    def explain(self, name):
        live = self.queries[name]
        lines = [b"explain " + name, language.print_select(live.statement)]
        if live.found.verdict[0] == "filter":
            lines.append(b"filter")
        for number, part in enumerate(live.found.parts, 1):
            lines.append(b"part %d" % number)
            lines += self.part_lines(live, part)
        lines.append(b"end " + name)
        return b"\n".join(lines) + b"\n"

    def part_lines(self, live, part):
        """The text of one part: signs, links, and per stream its dims and its extreme."""
        facts = part.facts

        def text(word, left, sign, right):
            names = (self.column_name(live.statement.streams, it) for it in (left, right))
            return b"%s %s %s %s" % (word, next(names), sign, next(names))

        lines = [text(b"sign", left, sign.encode(), right)
                 for (left, right), sign in zip(analysis.pairs_of(live.query), part.signs)]
        lines += [text(b"equal", x, b"=", y) for x, y in facts.equalities]
        lines += [text(b"less", x, b"<", y) for x, y in facts.inequalities]
        lines += [text(SOFT_LINKS[sign], x, sign.encode(), y) for x, sign, y in facts.soft]
        for dims, extreme in zip(part.dims, part.extremes):
            for column in dims:
                named = self.column_name(live.statement.streams, column)
                lines.append(b"dim %s %d %d" % (named, *facts.range(column)))
            if extreme and live.query.distinct:
                named = self.column_name(live.statement.streams, extreme[1])
                lines.append(extreme[0].encode() + b" " + named)
        return lines


def session_text(text, most_rows=MOST_ROWS):
    """The replies to all lines of a text."""
    session = Session(most_rows)
    return b"".join(session.reply(it) for it in language.lines_of(text))


def main():
    import sys
    session = Session()
    for line in language.lines_of(sys.stdin.buffer.read()):
        sys.stdout.buffer.write(session.reply(line))


if __name__ == "__main__":
    main()
