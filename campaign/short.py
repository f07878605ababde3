"""Many short random scripts: the whole output of each is compared with the evaluator's.

Each has a few streams, one to three queries and some rows, and little else.
"""
import analysis
import evaluator
from common import Part, compare, scaled
from generator import QUERY_NAMES, Writer
from scripts import count_replies

SCRIPTS = 10_000
ROWS = [6, 10, 15, 25]


def write(writer):
    """Streams, queries and rows, now and then with EXPLAIN, a drop or a line of another kind."""
    random = writer.random
    if writer.chance(0.25):
        writer.extremes(3)
    many = random.choice([1, 2, 2, 3])
    while len(writer.session.streams) < many:
        writer.stream(random.choice([2, 2, 3, 4]))
    for name in random.sample(QUERY_NAMES[:8], random.choice([1, 2, 3])):
        writer.query(name, writer.extreme_query() if b"X" in writer.session.streams else None)
    for _ in range(random.choice(ROWS)):
        writer.row() if writer.chance(0.97) else writer.step()
    for name in list(writer.session.queries):
        writer.statement(b"EXPLAIN " + name)


def count_queries(part, session):
    """Counts the live queries of a script by what they have."""
    for live in session.queries.values():
        domains, soft = bool(live.query.domains), bool(analysis.soft_atoms(live.query))
        part.count("live queries")
        part.count("with a domain", int(domains))
        part.count("compact", int(live.query.compact))
        part.count("with a soft comparison", int(soft))
        part.count("with both", int(domains and soft))


def run(program, seed, scale):
    part = Part("short", seed)
    for _ in range(scaled(SCRIPTS, scale)):
        # the verdicts of one script are of no use to another
        evaluator.VERDICTS.clear()
        writer = Writer(part.random)
        write(writer)
        part.count("lines", len(writer.lines))
        count_replies(part, writer)
        count_queries(part, writer.session)
        compare(part, program, writer.text(), writer.wanted())
    return part
