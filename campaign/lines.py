"""Random and mutated lines among good ones, compared with the evaluator line by line.

In each script some lines of a good one are changed by one character; others are made of words
and marks at random. At the end known rows must still be answered rightly.
"""
from common import Part, compare, scaled
from evaluator import Session
from generator import (CHECKPOINT_LINES, COMPACT_LINES, DOMAIN_LINES, QUERY_NAMES, SHARED_LINES,
                       Writer)
from language import CHECKPOINT_SHARE, COMPACT_SHARE, DOMAIN_SHARE, SHARED_SHARE

SCRIPTS = 600
LENGTH = 120
TELLING = b"\t \r,;.()<=>+-0159azAZ_\"'*/\\\x00\x0b\x0c\x1b\x7f\x80\xa0\xff"
WORDS = [b"CREATE", b"STREAM", b"QUERY", b"AS", b"SELECT", b"DISTINCT", b"FROM", b"WHERE", b"AND",
         b"EXPLAIN", b"DROP", b"in", b"shared", b"S", b"T", b"a", b"b", b"q",
         b"p", b"Create", b"seLECT", b"n" * 24, b"n" * 25, b"0", b"-1", b"+7", b"999999999999999",
         b"1000000000000000", b"-999999999999999", b",", b".", b"(", b")", b"<", b"=", b">", b";",
         b"S.a", b"T.b", b"--", b"-", b"+", b" ", b"\t", b"\r", b"x", b"'", b"\xc3\xa9", b"1a", b"a1", b"<=", b">=", b"<>"]
SHAPES = [b"CREATE STREAM # ( # , # ) #", b"CREATE QUERY # AS SELECT # . # FROM # WHERE # # #",
          b"CREATE QUERY # AS SELECT DISTINCT S.a FROM S # WHERE S.a # # AND S.a < 3 #",
          b"EXPLAIN # #", b"DROP QUERY # #", b"S , # , #", b"# , 1 , #", b"# # # # #", b"CREATE # #"]
DOMAIN_SHAPES = [b"CREATE STREAM # ( # IN # . . # , # ) #", b"CREATE STREAM # ( a IN 0 . . # ) #",
                 b"CREATE STREAM # ( a # 0..# , b IN # # # 3 )",
                 b"CREATE STREAM K ( a in -1..# # b # 1 # # 2 )"]
KNOWN = [b"CREATE STREAM known (a, b)",
         b"CREATE QUERY k1 AS SELECT known.a FROM known WHERE known.b > 3",
         b"CREATE QUERY k2 AS SELECT DISTINCT known.a FROM known WHERE known.a > 0 AND known.a < 4"]
TAIL = [b"known,1,4", b"known,1,2", b"known,3,9", b"known,4,4", b"EXPLAIN k2"]


# with domains a known stream and query more: two rows that are refused, and must give no answer
# with those after them, and rows at both ends
DOMAIN_HEAD = [b"CREATE STREAM narrow (a IN 3..8, b)",
               b"CREATE QUERY k3 AS SELECT narrow.a FROM narrow, known WHERE narrow.a = known.b",
               b"narrow,9,0", b"narrow,2,0"]
DOMAIN_TAIL = [b"narrow,4,0", b"narrow,3,0", b"narrow,8,0", b"known,1,8", b"known,1,3", b"EXPLAIN k3"]
if DOMAIN_SHARE:
    WORDS += [b"IN", b"In", b"..", b"0..9", b"-1..-1", b"IN 0..9", b"in 3..2", b"..."]
    SHAPES += DOMAIN_SHAPES + DOMAIN_LINES
    KNOWN += DOMAIN_HEAD
    TAIL += DOMAIN_TAIL
# with shared cells a known stream and a query more, of which some boxes are shared
SHARED_HEAD = [b"CREATE STREAM beyond (c)",
               b"CREATE SHARED QUERY k5 AS SELECT DISTINCT known.a FROM known, beyond WHERE "
               b"known.b < beyond.c AND known.a > 0 AND known.a < 4"]
SHARED_TAIL = [b"beyond,5", b"beyond,20", b"known,2,7", b"known,2,0", b"EXPLAIN k5"]
if SHARED_SHARE:
    WORDS += [b"SHARED", b"Shared", b"SHARED QUERY"]
    SHAPES += [b"CREATE SHARED QUERY # AS SELECT DISTINCT S.a FROM S # WHERE S.a # # AND S.a < 3 #",
               b"CREATE # QUERY q AS SELECT S.a FROM S", *SHARED_LINES]
    KNOWN += SHARED_HEAD
    TAIL += SHARED_TAIL
# with compact queries a known one more, whose streams are compared by two groups of columns
COMPACT_HEAD = [b"CREATE STREAM limit (a, most)",
                b"CREATE COMPACT QUERY k6 AS SELECT DISTINCT known.a FROM known, limit WHERE known.a = limit.a "
                b"AND known.b > limit.most AND known.a > 0 AND known.a < 9"]
COMPACT_TAIL = [b"limit,5,70", b"known,5,70", b"known,5,71", b"known,5,99", b"EXPLAIN k6"]
if COMPACT_SHARE:
    WORDS += [b"COMPACT", b"Compact", b"COMPACT QUERY", b"SHARED COMPACT"]
    SHAPES += [b"CREATE COMPACT QUERY # AS SELECT DISTINCT S.a FROM S # WHERE S.a # # AND S.a < 3 #", *COMPACT_LINES]
    KNOWN += COMPACT_HEAD
    TAIL += COMPACT_TAIL
if CHECKPOINT_SHARE:
    WORDS += [b"CHECKPOINT", b"checkpoint", b"RESUME", b"resume", b"RESUME q"]
    SHAPES += [b"RESUME # #", b"RESUME # AS #", b"RESUME # FROM # #", b"RESUME # SELECT # #", *CHECKPOINT_LINES]


def changed(random, line):
    """The line with one character changed, dropped, doubled or inserted."""
    place = random.randrange(len(line) + 1)
    kind = random.choice(["change", "drop", "double", "insert"])
    more = bytes([random.choice(TELLING)])
    if kind == "insert" or place == len(line):
        return line[:place] + more + line[place:]
    if kind == "change":
        return line[:place] + more + line[place + 1:]
    return line[:place] + (line[place:place + 1] * 2 if kind == "double" else b"") + line[place + 1:]


def made(random):
    """A line of words and marks: in the shape of a statement, or in none."""
    if random.random() < 0.3:
        return random.choice([b"", b" "]).join(random.choices(WORDS, k=random.randint(1, 12)))
    shape = random.choice(SHAPES)
    while b"#" in shape:
        shape = shape.replace(b"#", random.choice(WORDS), 1)
    return shape if random.random() < 0.5 else shape.replace(b" ", b"", random.randint(1, 3))


def spoil(part, good):
    """The lines of a good script, some changed and some made up."""
    random, lines = part.random, []
    for line in good:
        kind = random.random()
        if kind < 0.45:
            for _ in range(random.choice([1, 1, 1, 2])):
                line = changed(random, line)
            part.count("changed lines")
        elif kind < 0.6:
            line = made(random)
            part.count("made lines")
        lines.append(line.replace(b"\n", b""))
    return lines + spoil_statements(part, good)


def spoil_statements(part, good):
    """Each statement of a good script thrice, changed, its query under another name."""
    lines = []
    for line in good:
        words = line.split()
        if len(words) < 3 or b"," in words[0]:
            continue
        for _ in range(3):
            name = part.random.choice(QUERY_NAMES)
            again = line.replace(b" " + words[2] + b" ", b" " + name + b" ", 1)
            lines.append(changed(part.random, again).replace(b"\n", b""))
            part.count("changed statements")
    return lines


def one_script(part, program):
    writer = Writer(part.random)
    writer.mixed(LENGTH)
    # a stream's own line stays good, so that what follows is more than unknown names
    head = [it for it in writer.lines if it.strip().lower().startswith(b"create stream")][:2]
    lines = head + spoil(part, writer.lines)
    lines += KNOWN + TAIL
    session = Session()
    wanted = b"".join(session.reply(it) for it in lines)
    if wanted.endswith(tail_reply()):
        part.count("known tails answered")
    compare(part, program, b"\n".join(lines) + b"\n", wanted)


def tail_reply():
    """The last replies of the known rows, the same in every script."""
    session = Session()
    return b"".join([session.reply(it) for it in KNOWN + TAIL][len(KNOWN):])


def run(program, seed, scale):
    part = Part("lines", seed)
    for _ in range(scaled(SCRIPTS, scale)):
        one_script(part, program)
    return part
