"""Random scripts. The writer asks the evaluator for the reply to each line that it writes.

So it knows which queries live, and drops those whose answers become too many. What share of the
inequalities is soft, what share of the columns has a domain, what share of the queries is shared or
compact, and what share of the scripts has lines about checkpoints, the environment sets; with a share of
0 none is or has, and scripts are made without a thought of them.
"""
import re

import crossed
from evaluator import Session
from language import (CHECKPOINT_SHARE, COMPACT_SHARE, DOMAIN_SHARE, GREATEST_VALUE, LARGEST_INTEGER,
                      LEAST_VALUE, MOST_SOFT, SHARED_SHARE, SOFT_SHARE)

MOST_ANSWER_BYTES = 4000
STREAM_NAMES = [b"S", b"T", b"U", b"W", b"R", b"L", b"s", b"_x", b"temp_1", b"reading", b"Q1", b"Zz",
                b"A" * 24, b"in_", b"selects", b"m0", b"m1", b"m2"]
COLUMN_NAMES = [b"a", b"b", b"c", b"d", b"e", b"f", b"g", b"h", b"A", b"_", b"col9", b"c" * 24]
QUERY_NAMES = [b"q", b"p", b"Q", b"hot", b"_", b"q2", b"S", b"z" * 24] + [b"n%d" % i for i in range(70)]
FIELDS = [b"", b"x", b"1.5", b"--1", b"+", b"-", b"9223372036854775808", b"-9223372036854775809",
          b"1 2", b"0x1", b"1;", b"\xff", b"\x00", b"1\r", b"1e3", b"9" * 40]
GOOD_FIELDS = [b"9223372036854775807", b"-9223372036854775808", b"+5", b"005", b"-0", b" 3", b"2\t",
               b"0" * 30 + b"4", b"1000000", b"-1000000"]
LINES = [b"", b"   ", b"\t", b"-- nothing", b"  -- S,1", b"--", b"-", b"- -", b";", b",", b",1", b"1,2",
         b"CREATE", b"CREATE STREAM", b"CREATE STREAM S", b"CREATE STREAM S ()", b"CREATE STREAM S (a,)",
         b"CREATE QUERY q AS SELECT", b"DROP q", b"DROP QUERY", b"EXPLAIN", b"SELECT,1", b"resume,1",
         b"x" * 1024, b"x" * 1025, b"-- " + b"y" * 1021, b"-- " + b"y" * 1022, b"S," + b"1" * 1022,
         b"S," + b"0" * 1023, b" " * 1024, b" " * 1025, b"create stream K (a);;", b"\r", b" \r", b"\r\r",
         b"CHECKPOINT q", b"RESUME x", b"CREATE STREAM i (a IN 1 TO 5)", b"drop query nobody", b"nobody,1",
         b"n" * 25 + b",1", b"CREATE STREAM " + b"n" * 25 + b" (a)", b"\xef\xbb\xbfS,1", b"S\x00,1"]
COMPARISON = re.compile(rb" ([<=>]) ")
SOFTER = {b"<": [b"<=", b"<=", b"<>"], b">": [b">=", b">=", b"<>"], b"=": [b"<=", b">=", b"<>"]}
SPOILED = [(b"FROM ", b"FROM nobody, "), (b"SELECT ", b"SELECT nobody.a, "), (b".a", b".zz"),
           (b"WHERE", b"WHERE 1 < 2 AND"), (b" AND ", b" OR "), (b"SELECT ", b"SELECT * "),
           (b"WHERE", b"WHERE S.a <= 2 AND"), (b"FROM ", b"FROM S, S, "), (b"AND", b"AND AND"),
           (b"WHERE ", b"WHERE " + b"S.a = S.a AND " * 16), (b"> ", b"> 1000000000000000"),
           (b"SELECT ", b"SELECT " + b"S.a, " * 8), (b"FROM ", b"FROM S, T, U, W, R, ")]
SPOILED_SOFT = [(b"<=", b"< ="), (b"<=", b"=<"), (b">=", b"> ="), (b">=", b"=>"), (b"<>", b"!="),
                (b"<>", b"< >"), (b"<>", b"><"), (b"<", b"<<"), (b"=", b"=="), (b"<=", b"<=>"),
                (b"<=", b"<=+"), (b">= ", b">=-"), (b"<> ", b"<>"), (b"<> ", b"<> 1000000000000000"),
                (b"WHERE", b"WHERE 1 <> 2 AND")]
DOMAIN_LINES = [b"CREATE STREAM K (a IN 0...9)", b"CREATE STREAM K (a IN 0.9)",
                b"CREATE STREAM K (a IN 0 9)", b"CREATE STREAM K (a IN .9)",
                b"CREATE STREAM K (a IN ..9)", b"CREATE STREAM K (a IN 0..)", b"CREATE STREAM K (a IN)",
                b"CREATE STREAM K (IN 0..9)", b"CREATE STREAM K (a IN 0..9 IN 0..9)", b"in,1",
                b"CREATE STREAM K (a, IN 0..9)", b"CREATE STREAM K (a IN 0..b)",
                b"CREATE STREAM K (a IN (0..9))", b"CREATE STREAM K (a IN 0,9)",
                b"CREATE STREAM K (a IN 9..0) x", b"CREATE STREAM K (a IN - 1..2)",
                b"CREATE STREAM K IN 0..9 (a)", b"CREATE STREAM K (a IN 9..0, a)",
                b"CREATE STREAM K (a IN 0..9, a)", b"CREATE STREAM K (a IN 0..9;)",
                b"CREATE QUERY q AS SELECT S.a IN 0..9 FROM S", b"CREATE STREAM K (a IN 0<9)",
                b"CREATE STREAM K (" + b"n" * 25 + b" IN 0..1)", b"CREATE STREAM K (a IN 0..1.)"]
SHARED_LINES = [b"CREATE SHARED", b"CREATE SHARED QUERY", b"CREATE SHARED QUERY q", b"shared,1",
                b"CREATE SHARED STREAM K (a)", b"CREATE STREAM SHARED (a)", b"CREATE STREAM K (shared)",
                b"CREATE SHARED SHARED QUERY q AS SELECT S.a FROM S", b"DROP SHARED QUERY q",
                b"CREATE QUERY SHARED q AS SELECT S.a FROM S", b"EXPLAIN SHARED q", b"SHARED",
                b"CREATE QUERY SHARED AS SELECT S.a FROM S", b"SHARED QUERY q AS SELECT S.a FROM S",
                b"CREATE SHARED QUERY AS SELECT S.a FROM S", b"CREATE SHAREDQUERY q AS SELECT S.a FROM S",
                b"CREATE SHARED QUERY q AS SELECT SHARED.a FROM SHARED", b"CREATE SHARED AS QUERY",
                b"CREATE QUERY q SHARED AS SELECT S.a FROM S", b"CREATE SHARED, QUERY q AS SELECT S.a FROM S",
                b"CREATE QUERY q AS SHARED SELECT S.a FROM S", b"CREATE SHARED q AS SELECT S.a FROM S"]
COMPACT_LINES = [b"CREATE COMPACT", b"CREATE COMPACT QUERY", b"CREATE COMPACT QUERY q", b"compact,1",
                 b"CREATE COMPACT STREAM K (a)", b"CREATE STREAM COMPACT (a)", b"CREATE STREAM K (compact)",
                 b"CREATE COMPACT COMPACT QUERY q AS SELECT S.a FROM S", b"DROP COMPACT QUERY q",
                 b"CREATE COMPACT SHARED QUERY q AS SELECT S.a FROM S", b"EXPLAIN COMPACT q", b"COMPACT",
                 b"CREATE QUERY COMPACT q AS SELECT S.a FROM S", b"EXPLAIN compact", b"DROP QUERY compact",
                 b"CREATE QUERY compact AS SELECT S.a FROM S", b"COMPACT QUERY q AS SELECT S.a FROM S",
                 b"CREATE COMPACT QUERY compact AS SELECT S.a FROM S", b"CREATE COMPACTQUERY q AS SELECT S.a FROM S",
                 b"CREATE COMPACT QUERY c AS SELECT Compact.a FROM Compact", b"CREATE COMPACT AS QUERY",
                 b"CREATE QUERY q COMPACT AS SELECT S.a FROM S", b"CREATE STREAM compact (compact, a)",
                 b"CREATE COMPACT, QUERY q AS SELECT S.a FROM S", b"CREATE COMPACT q AS SELECT S.a FROM S",
                 b"CREATE COMPACT QUERY c AS SELECT compact.compact FROM compact WHERE compact.compact > 1",
                 b"CREATE COMPACTED QUERY q AS SELECT S.a FROM S", b"CREATE SHARED COMPACT STREAM K (a)"]
COMPACT_FORMS = [b"COMPACT"] * 6 + [b"compact", b"Compact", b"cOMPACT"]
CHECKPOINT_LINES = [b"CHECKPOINT", b"checkpoint;", b"CHECKPOINT q", b"CHECKPOINT;;", b"checkpoint,1", b"RESUME",
                    b"RESUME 0", b"RESUME 3", b"RESUME -1", b"RESUME 1 2", b"RESUME q", b"RESUME q AS", b"RESUME q 1",
                    b"RESUME q AS 0", b"RESUME q AS 1;", b"resume q as -1", b"RESUME q FROM 0 1",
                    b"RESUME q FROM 0", b"RESUME q FROM 0 1 2", b"RESUME q FROM -1 1", b"RESUME q SELECT",
                    b"RESUME q SELECT 1", b"RESUME q SELECT 1 2", b"RESUME q SELECT 1, 2", b"RESUME q SELECT a",
                    b"RESUME q SELECT 1 2 3 4 5 6 7 8", b"RESUME q SELECT 1 2 3 4 5 6 7 8 9",
                    b"RESUME q SELECT 9223372036854775808", b"RESUME q FROM 0 -9223372036854775809",
                    b"RESUME 9223372036854775807", b"RESUME 9223372036854775808", b"RESUME 2000000000000",
                    b"RESUME nobody AS 1", b"RESUME nobody FROM 0 1", b"RESUME nobody SELECT 1 2 3",
                    b"RESUME " + b"n" * 25 + b" AS 1", b"RESUME select AS 1", b"RESUME q AS SELECT 1"]
SHARED_FORMS = [b"SHARED"] * 6 + [b"shared", b"Shared", b"sHARed"]
# a domain as it is printed, and as it may be written besides
DOMAIN_FORMS = [b" IN %d..%d"] * 6 + [b" IN %d .. %d", b" in %d. .%d", b" In\t%d . . %d",
                                      b" IN %+d..%+d", b" iN %04d..%05d", b" IN %d.. %d"]
FAR = LARGEST_INTEGER
FAR_DOMAINS = [(-FAR, FAR), (-FAR, FAR), (-FAR, -FAR), (FAR, FAR), (-FAR, 3), (0, FAR), (0, FAR),
               (-FAR - 1, FAR), (-FAR, FAR + 1), (0, 10**30), (FAR - 1, FAR)]


class Writer:
    """Writes one script line by line, with the wanted reply to each line."""

    def __init__(self, random, most_rows=None):
        self.random = random
        self.session = Session(most_rows) if most_rows else Session()
        self.lines, self.replies = [], []
        # whether this script has lines about checkpoints
        self.about_checkpoints = bool(CHECKPOINT_SHARE) and self.chance(CHECKPOINT_SHARE)

    def write(self, line):
        reply = self.session.reply(line)
        self.lines.append(line)
        self.replies.append(reply)
        return reply

    def text(self):
        return b"\n".join(self.lines) + b"\n"

    def wanted(self):
        return b"".join(self.replies)

    def chance(self, share):
        return self.random.random() < share

    # statements

    def spaced(self, line):
        """The line with odd blanks, a semicolon or a CR now and then."""
        if self.chance(0.05):
            line = line.replace(b" ", b"  ", 1).replace(b",", b" ,\t")
        if self.chance(0.05):
            line = self.random.choice([b" ", b"\t", b" \t "]) + line
        if self.chance(0.05):
            line += self.random.choice([b" ", b"\t", b"\r", b" \r", b"\r ", b"\r\r"])
        return line

    def statement(self, line):
        if self.chance(0.1):
            line = line.replace(b"SELECT", b"select").replace(b" AND ", b" and ")
        if self.chance(0.1):
            line += self.random.choice([b";", b" ;"])
        return self.write(self.spaced(line))

    def stream(self, most_columns=8):
        name = self.random.choice(STREAM_NAMES)
        columns = self.random.sample(COLUMN_NAMES, self.random.randint(1, most_columns))
        if self.chance(0.03):
            columns[0] = columns[-1]
        if DOMAIN_SHARE:
            # in some streams each column has a domain
            share = 1 if self.chance(DOMAIN_SHARE / 6) else DOMAIN_SHARE
            columns = [it + self.domain_text() if self.chance(share) else it for it in columns]
        return self.statement(b"CREATE STREAM " + name + b" (" + b", ".join(columns) + b")")

    def domain_text(self):
        """A domain: small as a rule, now and then of one value, reversed or with far ends."""
        kind = self.random.random()
        low = self.random.randint(-1, 2)
        ends = low, low + self.random.choice([1, 1, 2, 2, 3, 5])
        if kind < 0.12:
            ends = low, low
        elif kind < 0.14:
            ends = low, low - self.random.choice([1, 1, 2, FAR])
        elif kind < 0.22:
            ends = self.random.choice(FAR_DOMAINS)
        return self.random.choice(DOMAIN_FORMS) % ends

    def has_domain(self, column):
        """Whether a column, with the name of its stream, has a domain with few values."""
        stream, name = column.split(b".")
        ends = self.session.domains[stream][self.session.streams[stream].index(name)]
        return bool(ends) and ends[1] - ends[0] < 10

    def columns_of(self, stream):
        return [stream + b"." + it for it in self.session.streams[stream]]

    # comparisons

    def softened(self, atoms):
        """The comparisons, some of them made soft, and now and then more of them."""
        if not SOFT_SHARE:
            return atoms
        kept = []
        for atom in atoms:
            operator = COMPARISON.search(atom).group(1)
            if operator != b"=" and self.chance(SOFT_SHARE):
                softer = b" %s " % self.random.choice(SOFTER[operator])
                kept.append(COMPARISON.sub(softer, atom))
                if self.chance(0.3):
                    kept.append(COMPARISON.sub(b" <> ", atom))
            elif self.chance(SOFT_SHARE / 8):
                kept.append(COMPARISON.sub(b" %s " % self.random.choice(SOFTER[operator]), atom))
            else:
                kept.append(atom)
        if kept and self.chance(0.04):
            kept += self.many_soft(kept)
        return kept

    def many_soft(self, atoms):
        """Further soft comparisons, with which there are about as many as there may be."""
        soft = sum(not COMPARISON.search(it) for it in atoms)
        column = next(it for it in atoms[0].split() if b"." in it)
        operators = [b" <= ", b" >= ", b" <= ", b" >= ", b" <= ", b" >= ", b" <> "]
        sides = [column, column, column, b"0", b"2"]
        return [column + self.random.choice(operators) + self.random.choice(sides)
                for _ in range(soft, MOST_SOFT + self.random.choice([0, 0, 1]))]

    def bound(self, column, base, width):
        """Comparisons that bound a column, or one that does so on one side, or a single value."""
        low, high = base, base + width + 1
        kind = self.random.random()
        if kind < 0.2:
            return [column + b" = %d" % (base + 1)]
        if kind < 0.3:
            return [self.random.choice([column + b" > %d" % low, b"%d > " % high + column])]
        return [self.random.choice([column + b" > %d" % low, b"%d < " % low + column]),
                self.random.choice([column + b" < %d" % high, b"%d > " % high + column])]

    def query_text(self):
        """A query over the streams that are there; most of them can be accepted."""
        streams = list(self.session.streams)
        many = min(len(streams), self.random.choice([1, 1, 2, 2, 2, 2, 3, 3, 4]))
        chosen = self.random.sample(streams, many)
        base, width = self.random.randint(-1, 3), self.random.choice([1, 1, 2, 2, 3])
        used = {it: self.random.choice(self.columns_of(it)) for it in chosen}
        atoms = self.joins(chosen, used, base, width)
        first = self.random.choice(chosen)
        select = [used[first]]
        for _ in range(self.random.choice([0, 0, 0, 1, 2])):
            select.append(self.random.choice(self.columns_of(self.random.choice(chosen))))
        for column in dict.fromkeys(select):
            if self.chance(0.3 if self.has_domain(column) else 0.93):
                atoms += self.bound(column, base, width)
        if self.chance(0.25):
            atoms.append(self.any_atom(chosen))
        if self.chance(0.15):
            atoms.append(self.any_atom([first]))
        atoms = self.softened(atoms)
        self.random.shuffle(atoms)
        text = b"SELECT " + (b"DISTINCT " if self.chance(0.5) else b"") + b", ".join(select)
        text += b" FROM " + b", ".join(chosen)
        return text + (b" WHERE " + b" AND ".join(atoms) if atoms else b"")

    def joins(self, chosen, used, base, width):
        """Comparisons that tie the streams together; equalities are bounded more often."""
        atoms = []
        for one, other in zip(chosen, chosen[1:]):
            kind = self.random.random()
            if kind < 0.15:
                continue
            operator = b"=" if kind < 0.45 else self.random.choice([b"<", b">"])
            pair = [self.joined(it, used[it], operator) for it in (one, other)]
            atoms.append((b" " + operator + b" ").join(pair))
            for column in pair:
                if self.chance(0.6 if operator == b"=" else 0.15):
                    atoms += self.bound(column, base, width)
        return atoms

    def joined(self, stream, used, operator):
        """A column for a join: for an inequality mostly one that is not selected."""
        others = [it for it in self.columns_of(stream) if it != used]
        if not others or self.chance(0.5 if operator == b"=" else 0.15):
            return used
        return self.random.choice(others)

    def any_atom(self, chosen):
        """A comparison of any two columns, or of a column and some number."""
        left = self.random.choice(self.columns_of(self.random.choice(chosen)))
        right = self.random.choice(self.columns_of(self.random.choice(chosen)))
        if self.chance(0.3):
            right = b"%d" % self.random.choice([-5, 0, 1, 4, 999999999999999])
        return left + b" " + self.random.choice([b"<", b"=", b">"]) + b" " + right

    def keyed_query(self):
        """A join by a key, with columns compared that have nothing to do with it; its columns are of
        several groups. None where the streams have too few columns.
        """
        streams = [it for it, columns in self.session.streams.items() if len(columns) > 1]
        if len(streams) < 2:
            return None
        chosen = self.random.sample(streams, min(len(streams), self.random.choice([2, 2, 2, 3])))
        named = {it: self.random.sample(self.columns_of(it), 2) for it in chosen}
        low = self.random.randint(-1, 2)
        select, atoms = [named[chosen[0]][0]], self.bound(named[chosen[0]][0], low, self.random.choice([2, 3, 5]))
        for one, other in zip(chosen, chosen[1:]):
            atoms.append(named[one][0] + b" = " + named[other][0])
            if self.chance(0.8):
                operator = self.random.choice([b" < ", b" < ", b" > ", b" > ", b" = "])
                atoms.append(named[one][1] + operator + named[other][1])
        for stream in chosen:
            if self.chance(0.35):
                atoms += self.bound(named[stream][1], self.random.randint(0, 9), self.random.choice([1, 4]))
            if self.chance(0.2):
                select.append(self.random.choice(named[stream]))
        if self.chance(0.2):
            atoms.append(self.any_atom(chosen))
        atoms = self.softened(atoms)
        self.random.shuffle(atoms)
        distinct = b"DISTINCT " if self.chance(0.6) else b""
        text = b"SELECT " + distinct + b", ".join(select) + b" FROM " + b", ".join(chosen)
        return text + b" WHERE " + b" AND ".join(atoms)

    def query(self, name=None, text=None):
        name = name or self.random.choice(QUERY_NAMES[:8])
        if not text and COMPACT_SHARE and self.chance(COMPACT_SHARE / 2):
            text = (crossed.query_text(self) if self.chance(0.4) else None) or self.keyed_query()
        text = text or self.query_text()
        if self.chance(0.03):
            text = self.spoiled(text)
        return self.statement(self.created(name, text))

    def created(self, name, text):
        """The statement that creates a query, shared or not, compact or not."""
        words = b""
        if SHARED_SHARE and self.chance(SHARED_SHARE):
            words = self.random.choice(SHARED_FORMS) + b" "
        if COMPACT_SHARE and self.chance(COMPACT_SHARE):
            words += self.random.choice(COMPACT_FORMS) + b" "
        return b"CREATE " + words + b"QUERY " + name + b" AS " + text

    def spoiled(self, text):
        """A query with a fault of its own kind."""
        fitting = [it for it in SPOILED_SOFT if it[0] in text] if SOFT_SHARE else []
        old, new = self.random.choice(SPOILED + fitting)
        return text.replace(old, new, 1)

    # rows

    def value(self):
        if self.chance(0.03):
            return self.random.choice(GOOD_FIELDS)
        return b"%d" % self.random.randint(-2, 7)

    def number_in(self, domain, low, high):
        """A number from one to another that lies in a domain; an end of it where none does."""
        if domain is None:
            return self.random.randint(low, high)
        first, last = max(low, domain[0]), min(high, domain[1])
        return self.random.randint(first, last) if first <= last else self.random.choice(domain)

    def value_near(self, domain):
        """A value in a domain as a rule, at its ends now and then, and less often outside of it."""
        if domain is None:
            return self.value()
        kind = self.random.random()
        if kind < 0.2:
            return b"%d" % self.random.choice(domain)
        if kind < 0.24:
            return b"%d" % self.random.choice([domain[0] - 1, domain[1] + 1])
        if kind < 0.25:
            return b"%d" % self.random.choice([LEAST_VALUE, GREATEST_VALUE])
        return b"%d" % self.number_in(domain, -2, 7) if kind < 0.97 else self.value()

    def row(self):
        """A row of a stream that is there, its answers kept few by dropping what has too many."""
        stream = self.random.choice(list(self.session.streams))
        fields = [self.value_near(it) for it in self.session.domains[stream]]
        if self.chance(0.02):
            fields[self.random.randrange(len(fields))] = self.random.choice(FIELDS)
        if self.chance(0.02):
            fields = fields[1:] or fields * 2
        reply = self.write(self.spaced(stream + b"," + b",".join(fields)))
        if len(reply) > MOST_ANSWER_BYTES:
            names = [it.split(b",")[0] for it in reply.split(b"\n")[:-1]]
            self.statement(b"DROP QUERY " + max(set(names), key=names.count))

    def hostile(self):
        lines = LINES + (DOMAIN_LINES if DOMAIN_SHARE else []) + (SHARED_LINES if SHARED_SHARE else [])
        lines = lines + (COMPACT_LINES if COMPACT_SHARE else [])
        if CHECKPOINT_SHARE and self.about_checkpoints:
            lines = lines + CHECKPOINT_LINES
        self.write(self.spaced(self.random.choice(lines)))

    # whole scripts

    def step(self):
        """One more line of a mixed script."""
        kind = self.random.random()
        live = list(self.session.queries)
        if kind < 0.86:
            self.row()
        elif kind < 0.91:
            self.query()
        elif kind < 0.93 and live:
            self.statement(b"DROP QUERY " + self.random.choice(live))
        elif kind < 0.94:
            self.statement(b"EXPLAIN " + self.random.choice(live + [b"q"]))
        elif kind < 0.95:
            self.stream()
        else:
            self.hostile()

    def mixed(self, length):
        """Streams, then queries, then rows with all else between them."""
        while not self.session.streams:
            self.stream(self.random.choice([2, 3, 8]))
        for _ in range(self.random.randint(0, 4)):
            self.stream(self.random.choice([2, 3, 8]))
        for _ in range(self.random.randint(1, 5)):
            self.query()
        while len(self.lines) < length:
            self.step()

    def crowded(self, length):
        """Up to 64 live queries and 16 streams at once, and one more of each tried."""
        for _ in range(26):
            self.stream(3)
        for name in QUERY_NAMES:
            self.query(name)
        while len(self.session.queries) < 64:
            self.query(self.random.choice(QUERY_NAMES))
        self.query(b"one_more")
        while len(self.lines) < length:
            self.step()

    def extreme_query(self):
        """A query with DISTINCT whose cells keep extremes, or one that is near to it."""
        chosen = self.random.sample([b"X", b"Y", b"Z"], self.random.choice([2, 2, 3]))
        atoms, select = [], []
        for one, other in zip(chosen, chosen[1:]):
            pair = [one + b".v", other + b".v"]
            atoms.append(self.random.choice([b" < ", b" > "]).join(pair))
            if self.chance(0.4):
                atoms.append(one + b".k = " + other + b".k")
        low = self.random.randint(-1, 2)
        for stream in chosen:
            if self.chance(0.6) or not select:
                select.append(stream + b".k")
                high = low + self.random.randint(2, 7)
                if self.has_domain(stream + b".k") and self.chance(0.7):
                    continue
                atoms += [stream + b".k > %d" % low, stream + b".k < %d" % high]
        if self.chance(0.3):
            atoms.append(chosen[0] + b".w " + self.random.choice([b"<", b"=", b">"]) + b" %d" % low)
        if self.chance(0.2):
            atoms.append(chosen[-1] + b".w = " + chosen[-1] + b".v")
        atoms = self.softened(atoms)
        text = b"SELECT DISTINCT " + b", ".join(select) + b" FROM " + b", ".join(chosen)
        return text + b" WHERE " + b" AND ".join(atoms)

    def extremes(self, length):
        """Queries that keep extremes, over rows whose values drift up and down."""
        for name in (b"X", b"Y", b"Z"):
            columns = [b"k", b"v", b"w"]
            if DOMAIN_SHARE:
                # rows whose v or w drifts out of a domain are refused
                domains = [b" IN -1..5", b" IN -30..30", b" IN -%d..%d" % (FAR, FAR)]
                columns = [it + domain if self.chance(DOMAIN_SHARE) else it
                           for it, domain in zip(columns, domains)]
            self.write(b"CREATE STREAM " + name + b" (" + b", ".join(columns) + b")")
        drift = 0
        while len(self.lines) < length:
            kind = self.random.random()
            live = list(self.session.queries)
            if kind < 0.06 or not live:
                self.query(text=self.extreme_query())
            elif kind < 0.09:
                self.statement(b"DROP QUERY " + self.random.choice(live))
            else:
                drift += self.random.randint(-4, 4)
                name = self.random.choice([b"X", b"Y", b"Z"])
                value = drift + self.random.randint(-15, 15)
                if self.chance(0.01):
                    value = self.random.choice([2**63 - 1, -(2**63)])
                w = self.random.choice([value, self.random.randint(-2, 3)])
                self.write(b"%s,%d,%d,%d" % (name, self.random.randint(-1, 7), value, w))
