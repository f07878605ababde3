"""The worked cases of the repository, and of further folders, as scripts for the other parts.

As a part it tries the campaign's own files: the replies of the evaluator and of the checker must
be those that stand beside the cases, and the analysis must agree with the enumeration of
assignments.
"""
import os

import checker
import enumeration
import language
from common import Part, scaled
from evaluator import MOST_ROWS, Session, session_text
from language import CreateQuery, CreateStream, Refused

HERE = os.path.dirname(os.path.abspath(__file__))
TOP = os.path.dirname(HERE)
ENUMERATED = 500


def folders():
    """The folders of cases: those of the repository, and those that CAMPAIGN_CASES names."""
    conformance = os.path.join(TOP, "conformance")
    found = sorted(it.path for it in os.scandir(conformance) if it.is_dir())
    found.append(os.path.join(TOP, "examples"))
    return found + [it for it in os.environ.get("CAMPAIGN_CASES", "").split(":") if it]


def read(path, default=None):
    if default is not None and not os.path.exists(path):
        return default
    with open(path, "rb") as file:
        return file.read()


def cases():
    """Each case: its path, its words, its input and its wanted output."""
    for folder in folders():
        for name in sorted(os.listdir(folder)):
            path = os.path.join(folder, name)
            stem, end = os.path.splitext(path)
            if end in (".in", ".bq"):
                words = read(stem + ".args", b"run\n").decode().split("\n")[:-1]
                yield path, words, read(path), read(stem + ".out")
            elif not end and os.path.exists(path + ".stdout"):
                words = read(path + ".args").decode().split("\n")[:-1]
                yield path, words, read(path), read(path + ".stdout")


def queries():
    """The different queries of all cases, each as the text of a one-query script."""
    found = {}
    for _, _, given, _ in cases():
        session, streams = Session(), {}
        for line in language.lines_of(given):
            gather(session, streams, line, found)
    return list(found)


def gather(session, streams, line, found):
    """Takes a CREATE line of a case; a query that has a meaning is kept as a script."""
    try:
        statement = language.parse(language.strip_line(line))
        if isinstance(statement, CreateStream):
            session.create_stream(statement)
            streams[statement.name] = statement
        if isinstance(statement, CreateQuery):
            session.resolve(statement)
            used = [streams[it] for it in statement.streams]
            found[b"".join(language.print_statement(it) + b"\n" for it in [*used, statement])] = None
    except Refused:
        pass


def most_rows(words):
    """The row limit that the words of a case set, or None where they are not of a session."""
    if words == ["run"]:
        return MOST_ROWS
    if len(words) == 3 and words[:2] == ["run", "--rows"] and words[2].isdigit():
        return int(words[2])
    return None


def try_cases(part):
    """The evaluator and the checker must say of each case what stands beside it."""
    for path, words, given, wanted in cases():
        rows = most_rows(words)
        if words == ["check"]:
            part.count("checked certificates")
            if checker.certificate_reply(given)[0] != wanted:
                part.differs(f"the checker differs from {path}")
        if not rows or not 1 <= rows <= MOST_ROWS or words[-1].startswith("0"):
            continue
        part.count("sessions")
        part.count("lines", len(language.lines_of(given)))
        if session_text(given, rows) != wanted:
            part.differs(f"the evaluator differs from {path}")


def try_enumeration(part, scale):
    for _ in range(scaled(ENUMERATED, scale)):
        query = enumeration.random_query(part.random)
        part.count("queries by enumeration")
        part.count("with a domain", int(bool(query.domains)))
        part.count("compact", int(query.compact))
        fault = enumeration.fault_of(query)
        if fault:
            part.differs(f"the analysis differs from enumeration: {fault} of {query}")


def run(program, seed, scale):
    part = Part("worked", seed)
    try_cases(part)
    try_enumeration(part, scale)
    return part
