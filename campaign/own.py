"""The campaign's own files tried on each other; no program is run.

The checker must take certificates of the campaign's own making, and say nothing wrong of changed
ones. An evaluator over cells must answer each row as the evaluator over rows does, and so must one
over shared cells; at the end the cells of each part and stream must be those of their box. The cells of
the rows up to a place, merged with those of the rows from there on, must be those of all rows.
"""
import operator

import analysis
import branching
import checker
import crossed
import language
import maker
from certificates import MOST_OWN_PARTS, changes, decision_shown, small_query
from common import Part, scaled
from generator import Writer
from synopsis import Synopsis

CERTIFIED = 300
CHANGED_OF_EACH = 40
STRAYS = [0.05, 0.1, 0.2, 0.3]
OVER_CELLS = 150
ROWS_OVER_CELLS = 60


def judge_own(part, head, lines):
    """What the checker says of a script with a certificate, where it takes it at all.

    A yes must carry the right decision and the right number of parts.
    """
    text = head + b"\n".join(lines) + b"\n"
    reply, status = checker.certificate_reply(text)
    if status == 0 and reply != decision_shown(text):
        part.differs(f"the checker says {reply!r} and should not", text)
    return reply, status


def try_certificates(part, scale):
    """Own certificates must be taken, and no yes to a changed one may be wrong."""
    for _ in range(scaled(CERTIFIED, scale)):
        found = small_query(part)
        if not found:
            continue
        head, script, shown = found
        statement, lines = script.statement, maker.certificate(script.query, shown=shown)
        if language.parse(language.print_statement(statement)) != statement:
            part.differs("the printed form of a query reads otherwise", head)
        part.count("own certificates")
        part.count(f"of them {shown}")
        part.count("with against", int(any(it.startswith(b"against") for it in lines)))
        reply, status = judge_own(part, head, lines)
        if status != 0:
            part.differs(f"the checker refuses a certificate: {reply!r}", head)
        nodes = sum(not it.startswith(b"path") for it in lines)
        if nodes != branching.nodes_of(script.query, shown):
            part.differs("a certificate of another number of nodes", head)
        others = list(changes(lines))
        others = part.random.sample(others, min(len(others), CHANGED_OF_EACH))
        others += [maker.certificate(script.query, part.random, it, shown) for it in STRAYS]
        for other in others:
            _, status = judge_own(part, head, other)
            part.count("changed, refused" if status else "changed, still yes")


def try_cells(part, scale):
    """The evaluator over cells must answer each row as the one over rows."""
    for number in range(scaled(OVER_CELLS, scale)):
        writer = Writer(part.random)
        if number % 2:
            writer.extremes(3)
        while len(writer.session.streams) < 3:
            writer.stream(3)
        for _ in range(6):
            text = writer.extreme_query() if number % 2 else writer.query_text()
            # every other time one that has a split form rather than a whole one, if it is compact
            crossed_text = crossed.query_text(writer) if number % 4 > 1 else None
            writer.query(text=crossed_text or text)
        for live in list(writer.session.queries.values()):
            if live.found.verdict[0] == "ok" and len(live.found.parts) <= MOST_OWN_PARTS:
                compare_over_cells(part, writer, live)


def compare_over_cells(part, writer, live):
    """Gives some rows to one query over its rows, over its cells, and over cells that are shared."""
    query, parts = live.query, live.found.parts
    apart, shared = (Synopsis(query, parts, it) for it in (False, True))
    most = [analysis.cells_of(query, parts, it) for it in (False, True)]
    count_over_cells(part, live, most)
    streams = live.statement.streams
    halves = [[Synopsis(query, parts, it) for _ in range(2)] for it in (False, True)]
    for number in range(ROWS_OVER_CELLS):
        stream = writer.random.choice(streams)
        row = [writer.number_in(it, -3, 9) for it in writer.session.domains[stream]]
        place, wanted = streams.index(stream), live.answers(stream, row)
        for first, second in halves:
            (first if number < ROWS_OVER_CELLS / 3 else second).take(
                place, {(place, column): value for column, value in enumerate(row)})
        part.count("answers over cells", len(wanted))
        if any(it.answers(place, row) != wanted for it in (apart, shared)):
            part.differs(f"cells answer {stream},{row} otherwise: "
                         f"{language.print_statement(live.statement)}")
            return
    if any(apart.kept(*it) != shared.kept(*it) for it in apart.boxes):
        part.differs(f"shared cells keep something else: {language.print_statement(live.statement)}")
    if any(one.merged(other).numbered() != whole.numbered()
           for (one, other), whole in zip(halves, (apart, shared))):
        part.differs(f"cells merge to something else: {language.print_statement(live.statement)}")
    used = [it.in_use() for it in (apart, shared)]
    if any(map(operator.gt, used, most)) or len(apart.printed) > live.found.verdict[3]:
        part.differs(f"too many cells or answers: {language.print_statement(live.statement)}")


def count_over_cells(part, live, most):
    """Counts a query by what it has."""
    part.count("queries over cells")
    part.count("of them with fewer cells where they are shared", int(most[1] < most[0]))
    part.count("with an extreme", int(any(any(it.extremes) for it in live.found.parts)))
    part.count("with a domain", int(bool(live.query.domains)))
    part.count("compact", int(live.query.compact))
    part.count("with a soft comparison between streams", int(any(
        not analysis.is_local(it, it[0][0]) for it in analysis.soft_pairs(live.query))))


def run(program, seed, scale):
    part = Part("own", seed)
    try_certificates(part, scale)
    try_cells(part, scale)
    return part
