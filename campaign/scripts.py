"""Random scripts: the whole output of each is compared with the evaluator's."""
import analysis
import evaluator
from common import Part, compare, scaled
from generator import Writer
from language import DOMAIN_SHARE, SHARED_SHARE

LINES = 102_000
LENGTH = 300
LARGE = [
    (b"SELECT S.a FROM S, T WHERE S.a = T.c AND S.a > 0 AND S.a < %d",
     (3, 65537, 65538, 131073, 131074, 200001)),
    (b"SELECT S.a FROM S, T, U WHERE S.a = 0 AND T.c < U.d AND T.c > 0 AND T.c < %d"
     b" AND U.d > 0 AND U.d < %d", (50, 2049, 2050, 2051, 3000)),
    (b"SELECT S.a, S.b FROM S, T WHERE S.a > 0 AND S.a < %d AND S.b > 0 AND S.b < %d",
     (200, 257, 258, 513)),
    (b"SELECT DISTINCT S.a FROM S WHERE S.a > 0 AND S.a < %d", (65537, 65538, 999999999999999)),
    (b"SELECT DISTINCT V.a FROM V WHERE V.a < 1 AND V.b < 2 AND V.c < 3 AND V.d < %d", (4, 5)),
]
# the same limits by domains: W has eight columns with far ends, and N has columns with many values
DOMAIN_STREAMS = [
    b"CREATE STREAM N (a IN 1..65536, b IN 0..255, c IN 0..256, d IN 7..7)",
    b"CREATE STREAM W (" + b", ".join(b"%c IN -999999999999999..999999999999999" % it
                                      for it in b"abcdefgh") + b")",
]
DOMAIN_LARGE = [
    (b"SELECT N.a FROM N, T WHERE N.a = T.c AND T.c < %d", (3, 65536, 65537, 65538)),
    (b"SELECT DISTINCT N.a, N.d FROM N WHERE N.d < %d", (7, 8)),
    (b"SELECT DISTINCT N.b, N.b, N.c FROM N WHERE N.c < %d", (255, 256, 257)),
    (b"SELECT N.b FROM N, T WHERE N.b < T.c AND N.b > %d", (3, 255)),
    (b"SELECT DISTINCT N.b FROM N, T WHERE N.b < T.c AND N.c >= %d", (255, 256, 257)),
    (b"SELECT N.d FROM N, T WHERE N.a < T.c AND T.c < %d AND T.c > 0", (3, 100)),
    (b"SELECT DISTINCT W.a FROM W, N WHERE W.h < %d AND W.b = N.d", (0, 999999999999999)),
    (b"SELECT DISTINCT N.d FROM W, N WHERE W.h <= %d AND W.b = N.d", (0, -999999999999999)),
    (b"SELECT W.a, W.b FROM W WHERE W.h <> %d", (999999999999999, 0)),
]
if DOMAIN_SHARE:
    LARGE += DOMAIN_LARGE
# cells at the limit: some pass it only where they are not shared, and some even where they are
SHARED_LARGE = [
    (b"SELECT V.b FROM V, T WHERE V.a = T.c AND V.a > 10 AND V.a < %d AND V.b = 0 AND V.d < 2",
     (43701, 43702, 65547, 65548)),
    (b"SELECT V.b FROM V, T, U WHERE V.a = T.c AND V.a > 10 AND V.a < %d AND V.b = 0 AND V.d < 2",
     (43701, 65546, 65547)),
    (b"SELECT DISTINCT S.a FROM S, T WHERE S.b < T.c AND S.a > 0 AND S.a < %d", (359, 360, 361, 362)),
    (b"SELECT DISTINCT S.a FROM S, T WHERE S.b < T.c AND S.b < 3 AND S.a > 10 AND S.a < %d",
     (100, 9373, 9374)),
]
if SHARED_SHARE:
    LARGE += SHARED_LARGE


def count_replies(part, writer):
    """Counts what the replies say, so that a reader sees how much was reached."""
    for reply in writer.replies:
        if reply.startswith(b"ok query"):
            part.count("filters" if reply.endswith(b"filter\n") else "accepted queries")
        elif reply.startswith(b"refused"):
            part.count("limits" if b" limit " in reply else "refused queries")
        elif reply.startswith(b"error"):
            part.count("refused lines")
            part.count("rows outside a domain", int(reply.endswith(b" Domain\n")))
        elif not reply.startswith((b"ok", b"explain")):
            part.count("answers", reply.count(b"\n"))


def count_queries(part):
    """Counts the different accepted queries by what they are."""
    for (query, shared), found in evaluator.VERDICTS.items():
        if found.verdict[0] != "ok":
            continue
        part.count("different accepted queries")
        part.count("shared", int(shared))
        part.count("with fewer cells", int(shared and has_equal_boxes(query, found)))
        part.count("with a domain", int(bool(query.domains)))
        part.count("compact", int(query.compact))
        soft = bool(analysis.soft_atoms(query))
        part.count("with a soft comparison", int(soft))
        part.count("with both", int(soft and bool(query.domains)))
        part.count("of them joins", int(query.places > 1))
        part.count("with DISTINCT", int(query.distinct))
        extremes = query.distinct and any(any(it.extremes) for it in found.parts)
        part.count("with an extreme", int(extremes))


def has_equal_boxes(query, found):
    """Whether some cells of an accepted query are kept once for several parts."""
    return analysis.cells_of(query, found.parts, False) > found.verdict[2]


def large(part):
    """Queries at and above the limits on size; some fill the pool, and one is dropped."""
    writer = Writer(part.random)
    for line in (b"CREATE STREAM S (a, b)", b"CREATE STREAM T (c)", b"CREATE STREAM U (d)",
                 b"CREATE STREAM V (a, b, c, d)", *(DOMAIN_STREAMS if DOMAIN_SHARE else [])):
        writer.write(line)
    for number in range(40):
        text, sizes = part.random.choice(LARGE)
        size = part.random.choice(sizes)
        writer.write(writer.created(b"n%d" % number, text.replace(b"%d", b"%d" % size)))
        if writer.chance(0.3) and writer.session.queries:
            writer.write(b"DROP QUERY " + part.random.choice(list(writer.session.queries)))
    for _ in range(30):
        writer.row()
    return writer


def run(program, seed, scale):
    part = Part("scripts", seed)
    evaluator.VERDICTS.clear()
    while part.counts.get("lines", 0) < scaled(LINES, scale):
        kind = part.random.choice(["mixed"] * 9 + ["extremes"] * 3 + ["crowded", "large"])
        limit = part.random.choice([None, None, None, 100])
        if kind == "large":
            writer = large(part)
        else:
            writer = Writer(part.random, limit)
            getattr(writer, kind)(LENGTH)
        words = ("run", "--rows", str(limit)) if kind != "large" and limit else ("run",)
        part.count("lines", len(writer.lines))
        count_replies(part, writer)
        compare(part, program, writer.text(), writer.wanted(), words=words)
    count_queries(part)
    return part
