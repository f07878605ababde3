"""The workloads of the benchmark: each is the head of a script, its rows one after another, and what a user would write instead."""
import random


def chosen(seed, count, one):
    """So many rows, each made by `one` from a generator that begins at a seed."""
    source = random.Random(seed)
    for _ in range(count):
        yield one(source)


class Workload:
    """A head of CREATE lines and a generator of rows; `mawk`, `python` and `sqlite` are peers for the very queries, or None. Of a
    workload whose rows are dear, one row in `share` is run where times and memory are measured."""

    def __init__(self, name, head, one, mawk=None, python=None, sqlite=None, share=1):
        self.name = name
        self.head = head
        self.one = one
        self.mawk = mawk
        self.python = python
        self.sqlite = sqlite
        self.share = share

    def write(self, path, rows, head=True):
        with open(path, "w", encoding="ascii") as file:
            if head:
                file.write("".join(f"{line}\n" for line in self.head))
            for row in chosen(7, rows, self.one):
                file.write(row + "\n")


def no_query():
    head = ["CREATE STREAM S (a, b)", "CREATE STREAM T (a, b)"]
    return Workload("rows on no query, two streams", head, lambda r: f"{r.choice('ST')},{r.randrange(1000)},{r.randrange(1000)}")


def filters():
    """64 filters of three conditions each; a row answers 0.3 of them."""
    head = ["CREATE STREAM S (a, b, c, d)"]
    head += [f"CREATE QUERY q{i} AS SELECT S.a, S.b FROM S WHERE S.a > {400 + i} AND S.b < {600 - i} AND S.c = {i % 64}" for i in range(64)]

    def one(r):
        return f"S,{r.randrange(1000)},{r.randrange(1000)},{r.randrange(70)},{r.randrange(1000)}"

    mawk = "BEGIN { FS = \",\" }\n" + "".join(
        f'$2 > {400 + i} && $3 < {600 - i} && $4 == {i % 64} {{ print "q{i}," $2 "," $3 }}\n' for i in range(64)
    )
    python = [
        "import sys",
        "out = sys.stdout.write",
        "for line in sys.stdin:",
        "    _, a, b, c, d = line.split(',')",
        "    a, b, c = int(a), int(b), int(c)",
    ]
    python += [f"    if a > {400 + i} and b < {600 - i} and c == {i % 64}: out('q{i},%d,%d\\n' % (a, b))" for i in range(64)]
    sqlite = ["CREATE TABLE S (a INTEGER, b INTEGER, c INTEGER, d INTEGER);", "CREATE TABLE answers (line TEXT);"]
    sqlite += [
        f"CREATE TRIGGER t{i:02} AFTER INSERT ON S WHEN NEW.a > {400 + i} AND NEW.b < {600 - i} AND NEW.c = {i % 64} "
        f"BEGIN INSERT INTO answers VALUES ('q{i},' || NEW.a || ',' || NEW.b); END;"
        for i in range(64)
    ]
    return Workload("64 filters of three conditions, one stream of four columns", head, one, mawk, "\n".join(python), sqlite)


def four_conditions(soft):
    """64 filters of four conditions each, two of them between columns; a row answers 0.2 of them. Values of b are odd and the others
    even, so that the soft conditions hold of the same rows as the strict ones."""
    head = ["CREATE STREAM S (a, b, c)"]
    for i in range(64):
        low, high = 600 + 2 * i, 1400 - 2 * i
        strict = f"S.a > S.b AND S.b > S.c AND S.c > {low - 1} AND S.a < {high + 1}"
        softer = f"S.a >= S.b AND S.b >= S.c AND S.c >= {low} AND S.a <= {high}"
        head.append(f"CREATE QUERY q{i} AS SELECT S.a FROM S WHERE {softer if soft else strict}")

    def one(r):
        return f"S,{2 * r.randrange(1000)},{2 * r.randrange(1000) + 1},{2 * r.randrange(1000)}"

    return Workload("the same with four soft conditions" if soft else "64 filters of four conditions", head, one)


def joins():
    """16 equi-joins over windows of 4,096 values each, so 8,192 cells each; a row is in one window."""
    head = ["CREATE STREAM S (a, b)", "CREATE STREAM T (a, b)"]
    head += [
        f"CREATE QUERY j{i} AS SELECT S.a FROM S, T WHERE S.a = T.a AND S.a > {4096 * i} AND S.a < {4096 * (i + 1) + 1}" for i in range(16)
    ]

    def one(r):
        return f"{r.choice('ST')},{1 + r.randrange(65536)},{r.randrange(1000)}"

    mawk = """BEGIN { FS = "," }
{ i = int(($2 - 1) / 4096); if ($1 == "S") { n = t[$2]; s[$2]++ } else { n = s[$2]; t[$2]++ }
  for (k = 0; k < n; k++) print "j" i "," $2 }
"""
    python = """import sys
out = sys.stdout.write
s, t = [0] * 65537, [0] * 65537
for line in sys.stdin:
    name, a, _ = line.split(',')
    a = int(a)
    own, other = (s, t) if name == 'S' else (t, s)
    own[a] += 1
    for _ in range(other[a]):
        out('j%d,%d\\n' % ((a - 1) // 4096, a))
"""
    sqlite = [
        "CREATE TABLE S (a INTEGER, b INTEGER);", "CREATE TABLE T (a INTEGER, b INTEGER);",
        "CREATE INDEX s_a ON S (a);", "CREATE INDEX t_a ON T (a);", "CREATE TABLE answers (line TEXT);",
    ]
    for i in range(16):
        for own, other in (("S", "T"), ("T", "S")):
            sqlite.append(
                f"CREATE TRIGGER j{i:02}{own} AFTER INSERT ON {own} WHEN NEW.a > {4096 * i} AND NEW.a < {4096 * (i + 1) + 1} "
                f"BEGIN INSERT INTO answers SELECT 'j{i},' || NEW.a FROM {other} WHERE {other}.a = NEW.a; END;"
            )
    return Workload("16 equi-joins with counts, 8,192 cells each", head, one, mawk, python, sqlite)


def distinct():
    """Four DISTINCT joins of the hot-rooms form with 64,920 cells each, and one inequality with 748."""
    head = ["CREATE STREAM S (a, b)", "CREATE STREAM T (a, c)"]
    head += [
        f"CREATE QUERY d{i} AS SELECT DISTINCT S.a FROM S, T WHERE S.a = T.a AND S.a > 0 AND S.a < 65 AND S.b > T.c" for i in range(4)
    ]
    head += ["CREATE QUERY e AS SELECT DISTINCT S.a FROM S, T WHERE S.b < T.c AND S.a > 0 AND S.a < 17"]

    def one(r):
        if r.randrange(2):
            return f"S,{r.randrange(70)},{r.randrange(100)}"
        return f"T,{r.randrange(70)},{r.randrange(100)}"

    return Workload("4 DISTINCT joins of the hot-rooms form, 64,920 cells each, and an inequality with 748", head, one)


def worst():
    """A query of work 1.9 million over four streams, of which one has a row for each value and the next has none: nothing is found."""
    head = [f"CREATE STREAM {name} (a)" for name in "STUV"]
    within = " AND ".join(f"{name}.a > 0 AND {name}.a < 125" for name in "STUV")
    head += [f"CREATE QUERY w AS SELECT S.a FROM S, T, U, V WHERE {within} AND T.a < U.a AND U.a < V.a"]
    head += [f"T,{value}" for value in range(1, 125)]
    return Workload("a row that finds nothing, in a query of work 1.9 million", head, lambda r: f"S,{1 + r.randrange(124)}", share=100)


# a peer for DISTINCT joins by a room: the greatest value of one stream and the least of the other
EXTREMES = """import sys
out = sys.stdout.write
most, least, told = {{}}, {{}}, set()
for line in sys.stdin:
    name, room, value = line.split(',')
    room, value = int(room), int(value)
    if name == '{stream}':
        most[room] = max(value, most.get(room, value))
    else:
        least[room] = min(value, least.get(room, value))
    if {told} and room not in told and room in most and room in least and most[room] > least[room]:
        told.add(room)
        out({line})
"""


def rooms(shared):
    """The hot rooms with rooms 1 to 39 and no bound of the values: 25 parts. Values lie among the rooms, as 0 to 60 degrees do."""
    word = "SHARED " if shared else ""
    head = ["CREATE STREAM Reading (room, celsius)", "CREATE STREAM Cap (room, celsius)"]
    head += [
        f"CREATE {word}QUERY hot AS SELECT DISTINCT Reading.room FROM Reading, Cap WHERE Reading.room = Cap.room "
        "AND Reading.room > 0 AND Reading.room < 40 AND Reading.celsius > Cap.celsius"
    ]

    def one(r):
        return f"{r.choice(('Reading', 'Cap'))},{r.randrange(45)},{r.randrange(61)}"

    python = EXTREMES.format(stream="Reading", told="0 < room < 40", line="'hot,%d\\n' % room")
    name = "hot rooms of 25 parts with SHARED, 14,838 cells" if shared else "hot rooms of 25 parts, 23,970 cells"
    return Workload(name, head, one, python=python)


def rooms_that_count(shared):
    """16 joins that count, each of two parts by a column of one stream alone: with SHARED the other stream has half of the cells."""
    word = "SHARED " if shared else ""
    head = ["CREATE STREAM S (a, b)", "CREATE STREAM T (a, b)"]
    head += [
        f"CREATE {word}QUERY j{i} AS SELECT S.a FROM S, T WHERE S.a = T.a AND S.a > {1024 * i} AND S.a < {1024 * (i + 1) + 1} AND S.b <> -5 AND S.b < 0"
        for i in range(16)
    ]

    def one(r):
        return f"{r.choice('ST')},{1 + r.randrange(16384)},{-r.randrange(1000)}"

    python = """import sys
out = sys.stdout.write
s, t = [0] * 16385, [0] * 16385
for line in sys.stdin:
    name, a, b = line.split(',')
    a, b = int(a), int(b)
    if name == 'T':
        t[a] += 1
        out('j%d,%d\\n' % ((a - 1) // 1024, a) * s[a])
    elif b < 0 and b != -5:
        s[a] += 1
        out('j%d,%d\\n' % ((a - 1) // 1024, a) * t[a])
"""
    name = "16 joins of two parts with SHARED, 3,072 cells each" if shared else "16 joins of two parts, 4,096 cells each"
    return Workload(name, head, one, python=python)


def filters_apart():
    """64 filters of which a row concerns one, by the range of a column; half of the rows answer it."""
    head = ["CREATE STREAM S (a, b, c)"]
    head += [f"CREATE QUERY q{i} AS SELECT S.a FROM S WHERE S.b > {1000 * i - 1} AND S.b < {1000 * (i + 1)} AND S.c < 500" for i in range(64)]
    python = """import sys
out = sys.stdout.write
for line in sys.stdin:
    _, a, b, c = line.split(',')
    if int(c) < 500:
        out('q%d,%d\\n' % (int(b) // 1000, int(a)))
"""
    name = "64 filters of which a row concerns one"
    return Workload(name, head, lambda r: f"S,{r.randrange(1000)},{r.randrange(64000)},{r.randrange(1000)}", python=python)


def joins_apart():
    """64 DISTINCT joins of which a row concerns one, by its room."""
    head = ["CREATE STREAM S (a, b)", "CREATE STREAM T (a, c)"]
    head += [
        f"CREATE QUERY d{i} AS SELECT DISTINCT S.a FROM S, T WHERE S.a = T.a AND S.a > {100 * i + 9999} AND S.a < {100 * (i + 1) + 10000} "
        "AND S.b > T.c AND S.b < 1000"
        for i in range(64)
    ]

    def one(r):
        return f"{r.choice('ST')},{10000 + r.randrange(6400)},{r.randrange(1000)}"

    python = EXTREMES.format(stream="S", told="True", line="'d%d,%d\\n' % ((room - 10000) // 100, room)")
    return Workload("64 DISTINCT joins of which a row concerns one", head, one, python=python)


def with_cr(workload):
    """The same rows, each with CR before its LF."""
    return Workload(f"{workload.name}, with CR LF", workload.head, lambda r: workload.one(r) + "\r")


def many_answers(different):
    """A row that has 100 answers: as many equal lines, or as many different ones, of which the first column is the row's."""
    head = ["CREATE STREAM S (a)", "CREATE STREAM T (c)"]
    if different:
        head += ["CREATE QUERY q AS SELECT S.a, T.c FROM S, T WHERE S.a > 0 AND S.a < 101 AND T.c > 1000 AND T.c < 1101"]
        head += [f"T,{1001 + value}" for value in range(100)]
    else:
        head += ["CREATE QUERY q AS SELECT S.a FROM S, T WHERE S.a = T.c AND S.a > 0 AND S.a < 101"]
        head += [f"T,{1 + value % 100}" for value in range(10000)]
    lines = "''.join('q,%d,%d\\n' % (a, 1001 + c) for c in range(100))" if different else "'q,%d\\n' % a * 100"
    python = f"import sys\nfor line in sys.stdin:\n    a = int(line.split(',')[1])\n    sys.stdout.write({lines})\n"
    name = "a row with 100 different answers" if different else "a row with 100 equal answers"
    return Workload(name, head, lambda r: f"S,{1 + r.randrange(100)}", python=python, share=20)


def untouched(live):
    """So many live filters, none of which a row concerns: what each of them costs is the difference of two of these."""
    head = ["CREATE STREAM S (a, b)"]
    head += [f"CREATE QUERY q{i} AS SELECT S.a FROM S WHERE S.b > {1000 + 10 * i} AND S.b < {1010 + 10 * i}" for i in range(live)]
    return Workload(f"{live} live filters that no row concerns", head, lambda r: f"S,{r.randrange(1000)},{r.randrange(1000)}")


def resumed():
    """The hot rooms with rooms 1 to 64 in a session that goes on from a checkpoint: each room was hot once, and has its greatest reading and its least cap."""
    head = ["CREATE STREAM Reading (room, celsius)", "CREATE STREAM Cap (room, celsius)"]
    head += [
        "CREATE QUERY hot AS SELECT DISTINCT Reading.room FROM Reading, Cap WHERE Reading.room = Cap.room "
        "AND Reading.room > 0 AND Reading.room < 65 AND Reading.celsius > 1000 AND Cap.celsius > 1000 AND Reading.celsius > Cap.celsius"
    ]
    head += ["RESUME 128", "RESUME hot AS 128"]
    head += [f"RESUME hot FROM {room} 1500" for room in range(64)]
    head += [f"RESUME hot FROM {64 + room} 1400" for room in range(64)]
    head += [f"RESUME hot SELECT {1 + room}" for room in range(64)]
    return Workload("hot rooms gone on with from a checkpoint", head, lambda r: f"{r.choice(('Reading', 'Cap'))},{1 + r.randrange(64)},{1001 + r.randrange(1000)}")


def payments(name, columns, keys, more=()):
    """Orders that are paid: a join by the number of the order, with the columns of a payment in this order. One row in eight is a payment. Of a
    careless order the cells that answer a row stand apart; what is answered is the same. `more` are streams that every order has one row of."""
    domains = {"status": " IN 1..3", "region": " IN 1..4", "id": ""}
    selected = [column for column in ("region", "status") if column in columns]
    head = ["CREATE STREAM Orders (id)", f"CREATE STREAM Paid ({', '.join(column + domains[column] for column in columns)})"]
    head += [f"CREATE STREAM {stream} (id IN 1..{keys})" for stream in more]
    links = "".join(f" AND Orders.id = {stream}.id" for stream in more)
    head += [
        f"CREATE QUERY q AS SELECT {', '.join('Paid.' + column for column in selected)} FROM {', '.join(('Orders', 'Paid') + tuple(more))} "
        f"WHERE Orders.id = Paid.id{links} AND Orders.id > 0 AND Orders.id < {keys + 1}"
    ]

    def one(r):
        values = {"status": 1 + r.randrange(3), "region": 1 + r.randrange(4), "id": 1 + r.randrange(keys)}
        if r.randrange(8):
            return f"{r.choice(('Orders',) + tuple(more))},{values['id']}"
        return "Paid," + ",".join(str(values[column]) for column in columns)

    python = [
        "import sys, collections, itertools",
        f"streams, columns, selected = {('Orders',) + tuple(more)!r}, {tuple(columns)!r}, {tuple(selected)!r}",
        "came = {stream: collections.Counter() for stream in streams}",
        "paid = collections.defaultdict(collections.Counter)",
        "for line in sys.stdin:",
        "    name, *fields = line.rstrip('\\n').split(',')",
        "    row = dict(zip(columns, map(int, fields))) if name == 'Paid' else {'id': int(fields[0])}",
        "    times = 1",
        "    for stream in streams:",
        "        times *= 1 if stream == name else came[stream][row['id']]",
        "    if name == 'Paid':",
        "        new = tuple(row[column] for column in selected)",
        "        found = {new: times}",
        "        paid[row['id']][new] += 1",
        "    else:",
        "        found = {answer: times * count for answer, count in paid[row['id']].items()}",
        "        came[name][row['id']] += 1",
        "    for answer in sorted(found):",
        "        sys.stdout.write(('q,' + ','.join(map(str, answer)) + '\\n') * found[answer])",
    ]
    return Workload(name, head, one, python="\n".join(python))


# a peer for a compact query: what a row adds to what is known of its stream and key, and for which keys an answer is found
FOUND = """import sys
out = sys.stdout.write
{known}told = set()
for line in sys.stdin:
    name, *fields = line.split(',')
    row = list(map(int, fields))
    if name == 'S':
{one}
    else:
{other}
    for key in {keys}:
        if key not in told and {holds}:
            told.add(key)
            out('q,%d\\n' % key)
"""


def unlike():
    """A compact query of 256 parts, by the sides of eight `<>`, of which a row of S is in four."""
    others = "cdefgh"
    head = [f"CREATE STREAM S (a IN 1..39, v, {', '.join(others)})", "CREATE STREAM T (v, c)"]
    head += [f"CREATE COMPACT QUERY q AS SELECT DISTINCT S.a FROM S, T WHERE S.v <> T.v AND {' AND '.join(f'S.{it} <> 0' for it in others)} AND T.c <> 0"]

    def one(r):
        if r.randrange(2):
            return f"S,{1 + r.randrange(39)},{r.randrange(1000)},{','.join(str(r.choice((-1, 1, 1, 2, 0))) for _ in others)}"
        return f"T,{r.randrange(1000)},{r.randrange(-2, 3)}"

    python = FOUND.format(
        known="values, others = [set() for _ in range(40)], set()\n",
        one="        if 0 not in row[2:]: values[row[0]].add(row[1])",
        other="        if row[1]: others.add(row[0])",
        keys="range(1, 40)", holds="values[key] and others and (len(values[key]) > 1 or len(others) > 1 or values[key] != others)")
    return Workload("COMPACT, 256 parts by eight <>", head, one, python=python)


def between():
    """A compact query of 20 parts: what lies between two marks, and that something else does."""
    head = ["CREATE STREAM S (x)", "CREATE STREAM T (z, y)", "CREATE STREAM U (e)"]
    head += ["CREATE COMPACT QUERY q AS SELECT DISTINCT U.e FROM S, T, U WHERE T.z < U.e AND U.e < T.y AND T.z < S.x AND S.x < T.y AND U.e > 0 AND U.e < 3"]

    def one(r):
        return r.choice((f"S,{r.randrange(-5, 8)}", f"T,{r.randrange(-5, 8)},{r.randrange(-5, 8)}", f"U,{r.randrange(5)}"))

    return Workload("COMPACT, 20 parts between two marks", head, one)


def below_one():
    """A compact query of 856 parts: three columns of a stream below one of another, and three integers that one of them is not."""
    head = ["CREATE STREAM S (k IN 1..9, a, b, d)", "CREATE STREAM T (k, c)"]
    head += [
        "CREATE COMPACT QUERY q AS SELECT DISTINCT S.k FROM S, T WHERE S.k = T.k AND S.a < T.c AND S.b < T.c AND S.d < T.c "
        "AND S.a <> 10 AND S.a <> 20 AND S.a <> 30"
    ]

    def one(r):
        if r.randrange(2):
            return f"S,{1 + r.randrange(9)},{r.randrange(41)},{r.randrange(41)},{r.randrange(41)}"
        return f"T,{1 + r.randrange(9)},{r.randrange(41)}"

    python = FOUND.format(
        known="least, most = {}, {}\n",
        one="        if row[1] not in (10, 20, 30): least[row[0]] = min(max(row[1:]), least.get(row[0], 99))",
        other="        most[row[0]] = max(row[1], most.get(row[0], 0))",
        keys="row[:1]", holds="key in least and key in most and least[key] < most[key]")
    return Workload("COMPACT, 856 parts by three columns below one", head, one, python=python)


WORKLOADS = [
    no_query(), with_cr(no_query()), filters(), filters_apart(), four_conditions(False), four_conditions(True), with_cr(filters()),
    joins(), joins_apart(), distinct(), rooms(False), rooms(True), rooms_that_count(False), rooms_that_count(True),
    many_answers(False), many_answers(True), worst(), untouched(1), untouched(8), untouched(64), resumed(),
    payments("payments by key and status", ("id", "status"), 60000),
    payments("payments by status and key", ("status", "id"), 60000),
    payments("payments by region, status and key", ("region", "status", "id"), 10000),
    payments("payments by region, key and status", ("region", "id", "status"), 10000),
    payments("payments by status and key, of orders that are sent", ("status", "id"), 20000, ("Sent",)),
    unlike(), between(), below_one(),
]
