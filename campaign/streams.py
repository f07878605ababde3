"""Rows of some streams while queries on few of them come and go: the whole output of each script is compared with the evaluator's.

Most rows are of a stream that no live query names, in runs of one stream or in turn with rows of others. Between rows queries are created
and dropped, checkpoints are written and gone on with, locks are set and taken away, and the row limit is met. Rows are written with CR LF, with
blanks, with plus signs and zeros, out of their domains and with too few values, now and then.
"""
import evaluator
from common import Part, compare, scaled

SCRIPTS = 2_000
STEPS = 60
STREAMS = [b"S (a, b)", b"T (c)", b"U (d IN 0..9, e)", b"Long_name_of_a_stream (f, g, h)"]
QUERIES = [
    b"SELECT T.c FROM T WHERE T.c > 2 AND T.c < 7",
    b"SELECT S.b FROM S WHERE S.a = 3",
    b"SELECT S.a, S.b FROM S WHERE S.a < S.b",
    b"SELECT DISTINCT T.c FROM T WHERE T.c > 0 AND T.c < 9",
    b"SELECT S.a FROM S, T WHERE S.a = T.c AND T.c > 0 AND T.c < 9",
    b"SELECT DISTINCT U.d FROM U, T WHERE U.d < T.c AND T.c < 9 AND T.c > 0",
    b"SELECT U.e FROM U WHERE U.d > 4",
]


class Script:
    """A script that grows line by line, with what is wanted of each line."""

    def __init__(self, random, limit):
        self.random, self.session = random, evaluator.Session(limit)
        self.text, self.wanted = [], []
        self.end = b"\r\n" if self.chance(0.2) else b"\n"

    def chance(self, share):
        return self.random.random() < share

    def write(self, line):
        """One line more, and what answers it."""
        carries = self.end == b"\r\n" or self.chance(0.02)
        self.text.append(line + (b"\r\n" if carries else b"\n"))
        self.wanted.append(self.session.reply(line))

    def row(self, stream):
        """A row of a stream, now and then written oddly or wrong."""
        name, columns = stream.split(b" ", 1)
        values = [b"%d" % self.random.randrange(-1 if self.chance(0.1) else 0, 10) for _ in columns.split(b",")]
        if self.chance(0.05):
            place = self.random.randrange(len(values))
            values[place] = self.random.choice([b"+" + values[place].lstrip(b"-"), b" " + values[place], b"007", b"-0", b"123456789012345678",
                                                b"1234567890123456789", b"9223372036854775808", b"x", b""])
        if self.chance(0.01):
            values.append(b"1")
        self.write(b",".join([name, *values]))

    def rows(self):
        """A run of rows of one stream, or rows of two in turn."""
        streams = self.random.choices(STREAMS, k=self.random.choice([1, 1, 2]))
        for _ in range(self.random.choice([1, 2, 3, 8, 30])):
            for stream in streams:
                self.row(stream)

    def statement(self):
        """A statement between rows."""
        live, kind = list(self.session.queries), self.random.random()
        if kind < 0.4:
            name = b"q%d" % self.random.randrange(4)
            self.write(b"CREATE QUERY %s AS %s" % (name, self.random.choice(QUERIES)))
        elif kind < 0.7 and live:
            self.write(b"DROP QUERY " + self.random.choice(live))
        elif kind < 0.8:
            self.write(b"CHECKPOINT")
        elif kind < 0.87:
            self.write(self.random.choice([b"LOCK 7", b"LOCK 7 TO S", b"LOCK 7 TO T, U"]))
        elif kind < 0.95:
            self.write(b"UNLOCK 7")
        else:
            self.write(self.random.choice([b"", b"-- nothing", b"EXPLAIN q0", b"CREATE STREAM S (a)", b"V,1", b"nonsense"]))


def begin(script, random):
    """The streams; or a checkpoint, with which another session went on after some rows."""
    if not script.chance(0.25):
        for stream in STREAMS:
            script.write(b"CREATE STREAM " + stream)
        return
    before = Script(random, evaluator.MOST_ROWS)
    begin_afresh(before)
    for line in before.session.checkpoint():
        script.write(line)


def begin_afresh(script):
    """Streams, a few queries and rows."""
    for stream in STREAMS:
        script.write(b"CREATE STREAM " + stream)
    for _ in range(6):
        script.statement() if script.chance(0.6) else script.rows()
    script.session.lock = None


def run(program, seed, scale):
    part = Part("streams", seed)
    for _ in range(scaled(SCRIPTS, scale)):
        limit = part.random.choice([None, None, 40, 150])
        script = Script(part.random, limit or evaluator.MOST_ROWS)
        begin(script, part.random)
        for _ in range(part.random.randrange(STEPS)):
            script.statement() if script.chance(0.4) else script.rows()
        given = b"".join(script.text)
        part.count("lines", len(script.text))
        part.count("answers", sum(it.count(b"\n") for it in script.wanted if not it.startswith((b"ok", b"error", b"refused"))))
        words = ("run", "--rows", str(limit)) if limit else ("run",)
        compare(part, program, given[:-1] if part.random.random() < 0.2 else given, b"".join(script.wanted), words=words)
    return part
