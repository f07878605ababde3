"""Random bytes between good lines: the whole output is compared with the evaluator's.

Each reply line must also have one of the forms that replies have.
"""
import re

from common import Part, compare, scaled
from evaluator import session_text
from language import CHECKPOINT_SHARE, COMPACT_SHARE, DOMAIN_SHARE

TEXTS = 500
WORDS = rb"LineTooLong|Syntax|Limit|Duplicate|TooMany|UnknownStream|UnknownColumn|SelfJoin|UnknownQuery"
FORM = re.compile(
    rb"ok stream \w+|ok query \w+ filter|ok drop \w+"
    rb"|ok query \w+ parts \d+ cells \d+ answers \d+ work \d+"
    rb"|refused \w+ part \d+ C[123] \w+\.\w+|refused \w+ limit (parts|cells|answers|work|pool)"
    rb"|error [1-9]\d* (" + WORDS + rb"|Late|Arity|Value|Domain|RowLimit)|\w+(,-?\d+)+"
    rb"|CREATE STREAM \w+ \(.+\)|CREATE (SHARED )?(COMPACT )?QUERY \w+ AS SELECT .+"
    rb"|RESUME (\d+|\w+ AS \d+|\w+ FROM \d+ -?\d+|\w+ SELECT -?\d+( -?\d+)*)")
HEAD = b"CREATE STREAM S (a, b)\nCREATE STREAM T (c)\n" \
       b"CREATE QUERY f AS SELECT S.b, S.a FROM S WHERE S.a > 0\n" \
       b"CREATE QUERY j AS SELECT S.a FROM S, T WHERE S.a = T.c AND S.a > 0 AND S.a < 4\n" \
       b"CREATE QUERY d AS SELECT DISTINCT S.a FROM S, T WHERE S.b < T.c AND S.a > 0 AND S.a < 4\n" \
       b"CREATE QUERY n AS SELECT DISTINCT S.a FROM S, T WHERE S.b <> T.c AND S.a >= 1 AND S.a <= 3\n" \
       b"CREATE QUERY m AS SELECT S.a FROM S, T WHERE S.a <= T.c AND S.a > 0 AND T.c < 4\n"
if DOMAIN_SHARE:
    HEAD += b"CREATE STREAM D (a IN -1..4, b IN -999999999999999..999999999999999)\n" \
            b"CREATE QUERY e AS SELECT D.a FROM D, T WHERE D.a = T.c\n" \
            b"CREATE QUERY g AS SELECT DISTINCT D.a, S.a FROM D, S" \
            b" WHERE S.b >= D.b AND S.a > 0 AND S.a < 4\n"
if COMPACT_SHARE:
    HEAD += b"CREATE STREAM K (a, b)\n" \
            b"CREATE COMPACT QUERY k AS SELECT DISTINCT S.a FROM S, K" \
            b" WHERE S.a = K.a AND S.b > K.b AND S.a > 0 AND S.a < 4\n"
EDGES = [b"S,1,%s", b"-- %s", b"%s", b"S,%s", b"CREATE STREAM X (%s)", b" %s"]
ENDS = [b"\n", b"\n", b"\n", b"\r\n", b"\r", b"\r\r\n", b"\n\n", b" \r\n", b"\r \n", b"\x00\n"]
UTF8 = ["é", "日本", "\u00a0", "\u2028", "\ufeff", "😀", "Ａ", "١"]


def any_bytes(random):
    """Bytes of all values, LF among them."""
    return random.randbytes(random.choice([1, 3, 20, 200, 900]))


def exact_line(random):
    """A line of about 1,024 bytes: at the limit, one above, one below, with and without CR."""
    shape = random.choice(EDGES)
    length = random.choice([1023, 1024, 1025, 1026]) - (len(shape) - 2)
    fill = random.choice([b"0", b"x", b" ", b"1", b"\xff", b"\t", b"+"])
    line = shape.replace(b"%s", fill * length)
    return line[:-1] + b"\r" if random.random() < 0.3 else line


def long_run(random):
    """A long run without LF, of many buffers or about one."""
    length = random.choice([2000, 4095, 4096, 4097, 5120, 8192, 70_000])
    return random.choice([b"x", b"\x00", b"\r", b"S,1,", b"\xe2\x82\xac", b" "]) * length


def good_row(random):
    if DOMAIN_SHARE and random.random() < 0.3:
        return b"D,%d,%d" % (random.randint(-2, 5), random.randint(-9, 9))
    return random.choice([b"S,%d,%d" % (random.randint(-1, 5), random.randint(-9, 9)),
                          b"T,%d" % random.randint(-1, 9)])


def utf8(random):
    word = random.choice(UTF8).encode()
    return random.choice([b"S,1,%s", b"%s,1", b"DROP QUERY %s", b"-- %s", b"CREATE STREAM %s (a)",
                          b"%s"]).replace(b"%s", word)


KINDS = {"good rows": good_row, "pieces of any bytes": any_bytes, "lines near 1,024 bytes": exact_line,
         "UTF-8 lines": utf8, "long runs": long_run}
SHARES = [60, 20, 10, 8, 2]


def one_text(part):
    random = part.random
    pieces = [HEAD]
    for _ in range(random.randint(20, 120)):
        what = random.choices(list(KINDS), SHARES)[0]
        pieces.append(KINDS[what](random) + random.choice(ENDS))
        part.count(what)
    if CHECKPOINT_SHARE and random.random() < CHECKPOINT_SHARE:
        pieces.append(b"CHECKPOINT" + random.choice(ENDS))
    text = b"".join(pieces)
    # a third of the texts end without LF
    return text if random.random() < 0.67 else text[:-1]


def run(program, seed, scale):
    part = Part("bytes", seed)
    for _ in range(scaled(TEXTS, scale)):
        text = one_text(part)
        wanted = session_text(text)
        part.count("bytes", len(text))
        for line in wanted.split(b"\n")[:-1]:
            if not FORM.fullmatch(line):
                part.differs(f"a wanted reply has no known form: {line[:80]!r}", text)
        # where the output is the one wanted, its lines have these forms too
        compare(part, program, text, wanted)
    return part
