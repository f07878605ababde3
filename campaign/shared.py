"""Shared queries: a script answers the same whether its queries are shared or not.

Each random script is run as it is, with no query shared, and with each of them shared. Each output is
compared with the evaluator's. Then the three outputs are compared with each other, the numbers of
cells left out, where the limits on cells and on the pool refuse none of the queries.
"""
import re

import analysis
import evaluator
import language
from common import Part, fault_of, first_other_line, run as run_program, scaled
from evaluator import session_text
from generator import QUERY_NAMES, Writer
from language import SHARED_SHARE, CreateQuery, Refused

SCRIPTS = 1000
ROWS = [10, 15, 25, 40]
CREATE = re.compile(rb"create[ \t]+", re.IGNORECASE)
SHARED = re.compile(rb"shared[ \t]+", re.IGNORECASE)
CELLS = re.compile(rb" cells [0-9]+ ")
SIZE = re.compile(rb"^refused [^ ]+ limit (cells|pool)$", re.MULTILINE)


def turned(line, shared):
    """The line with its query shared or not; a line that creates no query is as it was."""
    try:
        stripped = language.strip_line(line)
        if language.row_name(stripped):
            return line
        statement = language.parse(stripped)
    except Refused:
        return line
    if not isinstance(statement, CreateQuery) or statement.shared == shared:
        return line
    place = CREATE.search(line).end()
    if shared:
        return line[:place] + b"SHARED " + line[place:]
    return line[:place] + SHARED.sub(b"", line[place:], count=1)


def write(writer):
    """Streams, queries and rows, with queries dropped and made again under their names."""
    random = writer.random
    if writer.chance(0.4):
        writer.extremes(3)
    while len(writer.session.streams) < random.choice([2, 3]):
        writer.stream(random.choice([2, 3, 4]))
    for name in random.sample(QUERY_NAMES[:8], random.choice([1, 2, 3])):
        writer.query(name, writer.extreme_query() if b"X" in writer.session.streams else None)
    for _ in range(random.choice(ROWS)):
        writer.row() if writer.chance(0.93) else writer.step()


def count_queries(part, session):
    """Counts the live queries of a script by what they have."""
    for live in session.queries.values():
        if live.found.verdict[0] == "ok":
            kept = [analysis.cells_of(live.query, live.found.parts, it) for it in (False, True)]
            part.count("live queries that are shared" if live.statement.shared else "live queries")
            part.count("with fewer cells where they are shared", int(kept[1] < kept[0]))


def one_script(part, program):
    writer = Writer(part.random)
    write(writer)
    count_queries(part, writer.session)
    scripts = [writer.lines, *([turned(it, shared) for it in writer.lines] for shared in (False, True))]
    answered = []
    for lines in scripts:
        text = b"\n".join(lines) + b"\n"
        ran = run_program(program, ["run"], text)
        part.count("runs")
        fault = fault_of(ran, session_text(text))
        if fault:
            part.differs(fault, text)
            return
        answered.append(ran[0])
    if any(map(SIZE.search, answered)):
        part.count("scripts with a limit on cells")
        return
    part.count("scripts that answer the same")
    first, *others = (CELLS.sub(b" cells ", it) for it in answered)
    for other in others:
        if other != first:
            part.differs(f"not the same answers: {first_other_line(other, first)}", writer.text())


def run(program, seed, scale):
    part = Part("shared", seed)
    part.count("runs", 0)
    for _ in range(scaled(SCRIPTS, scale) if SHARED_SHARE else 0):
        # the verdicts of one script are of no use to another
        evaluator.VERDICTS.clear()
        one_script(part, program)
    return part
