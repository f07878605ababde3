"""Soft comparisons against the same queries without them.

A query with soft comparisons is split into one query for each choice of signs of what it compares
softly. The parts of these, one after the other, are its parts; its numbers are their sums, and its
answers are all of theirs. No query is compact: the whole form of one has no parts by signs. So the evaluator's reply to it, its plan and its answers can be told from
what the program says of queries without soft comparisons. Where random queries have no soft
comparisons there is nothing to try.
"""
from collections import Counter
from itertools import product

import analysis
import language
from common import Part, run as run_program, scaled
from generator import Writer

SCRIPTS = 700
ROWS = 40
MOST_CHOICES = 40
# a line that is refused, so that its reply shows where the replies before it end
ENDS = b"DROP QUERY none"


def choices_of(query):
    """All choices of signs of the soft pairs, ascending, that meet the soft comparisons."""
    if analysis.is_void(query):
        return []
    pairs = analysis.soft_pairs(query)
    return [dict(zip(pairs, it)) for it in product(*analysis.signs_of_pairs(query, pairs))]


def under_signs(statement, query, signs, name):
    """The statement with each soft comparison replaced by the sign of its pair."""
    atoms = []
    for atom, numbered in zip(statement.atoms, query.atoms):
        operator = atom.operator
        if operator in analysis.SOFT:
            left, _, right = analysis.turned(numbered)
            sign = "=" if left == right else signs[left, right]
            operator = sign if left == numbered[0] else analysis.TURNED[sign]
        atoms.append(atom._replace(operator=operator))
    return statement._replace(name=name, atoms=atoms)


def verdict_from(replies):
    """The end of the reply to the whole query, from the replies to those it is split into.

    It is None where one of these passes a limit.
    """
    sums = Counter(parts=0, cells=0, answers=0, work=0)
    for words in map(bytes.split, replies):
        if words[-1] == b"filter":
            return b"filter"
        if b"limit" in words:
            return None
        if words[0] == b"refused":
            number = sums["parts"] + int(words[3])
            return b"part %d %s" % (number, b" ".join(words[4:]))
        for word, number in zip(words[3::2], words[4::2]):
            sums[word.decode()] += int(number)
    return b" ".join(b"%s %d" % (it.encode(), sums[it]) for it in sums)


class Split:
    """A query with soft comparisons, the queries it is split into, and rows for them."""

    def __init__(self, writer, statement, query):
        self.writer, self.statement, self.query = writer, statement, query
        self.session = writer.session
        self.choices = choices_of(query)
        self.streams = [language.CreateStream(name, columns, self.session.domains[name])
                        for name, columns in self.session.streams.items()]
        self.rows = [writer.random.choice(self.streams) for _ in range(ROWS)]
        self.rows = [(it.name, [writer.number_in(domain, -2, 7) for domain in it.domains])
                     for it in self.rows]

    def text(self):
        lines = [language.print_statement(it) for it in self.streams]
        names = [b"n%d" % it for it in range(len(self.choices))]
        for name, signs in zip(names, self.choices):
            split = under_signs(self.statement, self.query, signs, name)
            lines.append(language.print_statement(split))
        for name in names:
            lines += [b"EXPLAIN " + name, ENDS]
        for name, values in self.rows:
            lines += [b",".join([name, *(b"%d" % it for it in values)]), ENDS]
        return b"\n".join(lines) + b"\n"

    def sign_lines(self, signs):
        """The lines of EXPLAIN for these signs of pairs."""
        named = [[self.session.column_name(self.statement.streams, it) for it in pair]
                 for pair in signs]
        return [b"sign %s %s %s" % (left, sign.encode(), right)
                for (left, right), sign in zip(named, signs.values())]

    def plan_from(self, blocks):
        """The text of EXPLAIN for the whole query, from those of the queries it is split into."""
        name = self.statement.name
        lines, number = [b"explain " + name, language.print_select(self.statement)], 0
        for signs, block in zip(self.choices, blocks):
            soft = self.sign_lines(signs)
            for line in block[2:-1]:
                if line.startswith(b"part "):
                    number += 1
                    lines += [b"part %d" % number, *soft]
                elif line not in soft:
                    lines.append(line)
        return b"\n".join([*lines, b"end " + name]) + b"\n"

    def answers_from(self, blocks):
        """Per row the new answers of the whole query, from those of the split ones."""
        printed, rows = set(), []
        for block in blocks:
            found = [tuple(int(it) for it in line.split(b",")[1:]) for line in block]
            if self.query.distinct:
                found = set(found) - printed
                printed |= found
            rows.append(sorted(found))
        return rows

    def fault(self, output):
        """What the evaluator says otherwise of the whole query, or None; whether it was told."""
        lines = output.split(b"\n")[:-1]
        first, many = len(self.streams), len(self.choices)
        told = verdict_from(lines[first:first + many])
        if self.query.places == 1 and not self.query.distinct:
            told = b"filter"
        reply = self.session.create_query(self.statement)
        if told is None or b" limit " in reply:
            return None, False
        if not reply.endswith(b" " + told + b"\n"):
            return f"reply {reply!r}, wanted {told!r}", True
        name = self.statement.name
        if name not in self.session.queries:
            return None, True
        blocks = blocks_of(lines[first + many:])
        if told != b"filter" and self.session.explain(name) != self.plan_from(blocks[:many]):
            return f"plan {self.session.explain(name)!r}, wanted {self.plan_from(blocks)!r}", True
        return self.fault_of_rows(self.answers_from(blocks[many:])), True

    def fault_of_rows(self, wanted):
        for (stream, row), answers in zip(self.rows, wanted):
            got = self.session.queries[self.statement.name].answers(stream, row)
            if got != answers:
                return f"row {stream},{row}: {got}, wanted {answers}"
        return None


def blocks_of(lines):
    """The replies up to each line that marks an end."""
    blocks, block = [], []
    for line in lines:
        if line.startswith(b"error"):
            blocks.append(block)
            block = []
        else:
            block.append(line)
    return blocks


def one_query(part):
    """A random query with soft comparisons, split; or None where there is none, or many signs."""
    writer = Writer(part.random)
    extreme = writer.chance(0.3)
    if extreme:
        writer.extremes(3)
    while len(writer.session.streams) < 3:
        writer.stream(3)
    text = writer.extreme_query() if extreme else writer.query_text()
    try:
        statement = language.parse(b"CREATE QUERY whole AS " + text)
        query = writer.session.resolve(statement)
    except language.Refused:
        return None
    split = Split(writer, statement, query)
    soft = any(it.operator in analysis.SOFT for it in statement.atoms)
    return split if soft and len(split.choices) <= MOST_CHOICES else None


def run(program, seed, scale):
    part = Part("signs", seed)
    part.count("queries", 0)
    for _ in range(scaled(SCRIPTS, scale) if language.SOFT_SHARE else 0):
        split = one_query(part)
        if split is None:
            continue
        output, status, noise = run_program(program, ["run"], split.text())
        if status or noise:
            part.differs(f"status {status}", split.text())
            continue
        fault, told = split.fault(output)
        part.count("queries" if told else "queries that pass a limit")
        part.count("queries without soft comparisons", len(split.choices))
        part.count("accepted", int(b"whole" in split.session.queries))
        if fault:
            printed = language.print_statement(split.statement)
            part.differs(f"{fault}: {printed!r}", split.text())
    return part
