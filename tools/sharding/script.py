"""The statements of a script: streams with their columns, and queries with what a split has to know of them."""
import re
import subprocess
from dataclasses import dataclass

from sharding import Refused

STREAM = re.compile(r"(?is)\s*CREATE\s+STREAM\s+(\w+)\s*\((.*)\)\s*;?\s*$")
QUERY = re.compile(r"(?is)\s*CREATE\s+(?:SHARED\s+)?(?:COMPACT\s+)?QUERY\s+(\w+)\s+AS\s+SELECT\s+(DISTINCT\s+)?(.*?)\s+FROM\s+(.*?)(?:\s+WHERE\s+(.*?))?\s*;?\s*$")
COLUMN = re.compile(r"(?is)\s*(\w+)(?:\s+IN\s+([+-]?\d+)\s*\.\s*\.\s*([+-]?\d+))?\s*$")
EQUALITY = re.compile(r"\s*(\w+)\s*\.\s*(\w+)\s*=\s*(\w+)\s*\.\s*(\w+)\s*$")


@dataclass
class Stream:
    """A stream: its columns in order, each with its domain (two integers) or None."""
    name: str
    columns: dict
    line: str


@dataclass
class Query:
    """A query: the selected columns, the streams of FROM, and the pairs of columns that its condition says are equal."""
    name: str
    is_distinct: bool
    select: list
    streams: list
    equal: list
    line: str


def column_named(text):
    """`S.a` as a pair, blanks around the point left out."""
    stream, _, column = text.partition(".")
    return stream.strip(), column.strip()


def read_stream(line):
    """The stream that a line creates, or None."""
    found = STREAM.match(line)
    if not found:
        return None
    columns = {}
    for text in found[2].split(","):
        column = COLUMN.match(text)
        if not column:
            return None
        columns[column[1]] = (int(column[2]), int(column[3])) if column[2] else None
    return Stream(found[1], columns, line)


def read_query(line):
    """The query that a line creates, or None."""
    found = QUERY.match(line)
    if not found:
        return None
    atoms = re.split(r"(?i)\s+AND\s+", found[5]) if found[5] else []
    pairs = [EQUALITY.match(atom) for atom in atoms]
    equal = [((it[1], it[2]), (it[3], it[4])) for it in pairs if it]
    return Query(found[1], bool(found[2]), [column_named(it) for it in found[3].split(",")], [it.strip() for it in found[4].split(",")], equal, line)


class Script:
    """The streams and queries of a script, by name, in the order of their lines; and its other lines."""

    def __init__(self, lines):
        self.streams, self.queries, self.others = {}, {}, []
        for line in lines:
            stream, query = read_stream(line), read_query(line)
            if stream:
                self.streams[stream.name] = stream
            elif query:
                self.queries[query.name] = query
            elif line.strip() and not line.strip().startswith("--"):
                self.others.append(line)

    def check_taken(self, program):
        """Refuses the script where bq refuses a line of it, or where it has lines that create nothing."""
        if self.others:
            raise Refused(f"a script that is split creates streams and queries alone, and this one says: {self.others[0].strip()}")
        for line, reply in zip(self.lines(), asked(program, self.lines())):
            if not reply.startswith("ok "):
                raise Refused(f"bq answers `{reply}` to: {line.strip()}")

    def lines(self):
        """Its CREATE lines, streams first."""
        return [it.line for it in self.streams.values()] + [it.line for it in self.queries.values()]


def asked(program, lines):
    """The lines that bq answers to lines."""
    text = "".join(f"{line.rstrip()}\n" for line in lines)
    return subprocess.run([program, "run"], input=text.encode(), stdout=subprocess.PIPE, check=True).stdout.decode().splitlines()


def read_lines(path):
    """The lines of a file."""
    with open(path, encoding="utf-8", errors="surrogateescape") as file:
        return file.read().splitlines()
