"""The least number of ranges that `bq advise --split` tells, each narrowed script asked of the program itself.

Random scripts have domains so wide that limits refuse queries. Of each query under each choice that is told, the script of each shard is written as
`tools/shard scripts` writes it, for one range after another, and run alone. The least number of ranges with which all of them are accepted has to be
the one that is told, and a line has to stand where a limit refuses the query and the keys that it reads have a domain, and nowhere else.
"""
import os
import re
import subprocess
import sys

sys.path.insert(0, os.path.join(os.path.dirname(os.path.dirname(os.path.abspath(__file__))), "tools"))
from sharding.keys import Keys  # noqa: E402
from sharding.placing import Placing  # noqa: E402
from sharding.script import Script  # noqa: E402
from sharding.words import narrowed  # noqa: E402

MOST_RANGES = 64
SAID = re.compile(r"    refused limit (\w+); ranges of (-?\d+)\.\.(-?\d+) with which it is accepted in each: (none up to )?(\d+)")
NARROW, WIDE = (1, 2, 5, 60, 300), (70_000, 140_000, 300_000, 900_000, 3_000_000)
OPERATORS = ("=", "=", "=", "<", ">")


def write_domain(random, column):
    """The domain of a column as text: of the first column mostly a wide one, of the second mostly none."""
    if random.random() < (0.15 if column == "a" else 0.6):
        return ""
    low = random.choice((0, 1, -5, 7))
    return f" IN {low}..{low + random.choice(WIDE if column == 'a' else NARROW) - 1}"


def query_line(random, number, words, sources, columns, atoms):
    """The line that creates a query of these sources and comparisons: it selects one or two of the columns, and begins with one of the words."""
    word = random.choice(words)
    select = ", ".join(random.sample(columns, random.randint(1, min(2, len(columns)))))
    where = f" WHERE {' AND '.join(atoms)}" if atoms else ""
    return f"CREATE {word}QUERY q{number} AS SELECT {random.choice(('', 'DISTINCT '))}{select} FROM {', '.join(sources)}{where}"


def write_query(random, number, streams):
    """A line that creates a query over some of the streams, mostly joined by their first columns."""
    sources = random.sample(list(streams), random.randint(min(2, len(streams)), min(3, len(streams))))
    columns = [f"{stream}.{column}" for stream in sources for column in streams[stream]]
    atoms = [f"{left}.a = {right}.a" for left, right in zip(sources, sources[1:]) if random.random() < 0.9]
    for _ in range(random.choice((0, 0, 1, 2))):
        left, right = random.choice(columns), random.choice(columns)
        if random.random() < 0.4:
            atoms.append(f"{left} {random.choice(OPERATORS)} {random.randint(0, 9)}")
        elif left != right:
            atoms.append(f"{left} {random.choice(OPERATORS)} {right}")
    return query_line(random, number, ("", "COMPACT ", "COMPACT ", "SHARED "), sources, columns, atoms)


def write_script(random):
    """The lines of a script: a few streams with wide domains, and one or two queries."""
    streams = {name: "ab"[:random.randint(1, 2)] for name in "STU"[:random.choice((1, 2, 2, 3))]}
    lines = [f"CREATE STREAM {name} ({', '.join(column + write_domain(random, column) for column in columns)})" for name, columns in streams.items()]
    return lines + [write_query(random, number, streams) for number in range(random.randint(1, 2))]


class Program:
    """The program, asked for what it answers to the last line of a script; each script is asked once."""

    def __init__(self, path):
        self.path, self.known = path, {}

    def last_reply(self, lines):
        """The reply to the last of the lines."""
        given = "".join(f"{line}\n" for line in lines)
        if given not in self.known:
            ran = subprocess.run([self.path, "run"], input=given.encode(), stdout=subprocess.PIPE, check=True)
            self.known[given] = ran.stdout.decode().splitlines()[-1]
        return self.known[given]


def reads(query, column):
    """Whether a query compares or selects a column."""
    return re.search(rf"\b{column[0]}\s*\.\s*{column[1]}\b", query.line) is not None


def common_range(script, columns):
    """The least and the greatest value that the domains of the columns have in common, or None."""
    domains = [domain for stream, column in columns if (domain := script.streams[stream].columns[column])]
    low, high = max((it[0] for it in domains), default=1), min((it[1] for it in domains), default=0)
    return (low, high) if low <= high else None


def are_all_accepted(program, script, keys, ends, count):
    """Whether the scripts of all shards are accepted, with so many ranges."""
    placing = Placing(count, ends)
    for shard in range(count):
        if not program.last_reply(narrowed(script, keys, placing, shard)).startswith("ok query"):
            return False
    return True


def wanted_line(program, script, query, chosen):
    """The line of ranges that has to stand below a query under a choice, or None."""
    lines = [script.streams[name].line for name in query.streams] + [query.line]
    refused = re.fullmatch(rf"refused {query.name} limit (\w+)", program.last_reply(lines))
    read = [(name, chosen[name]) for name in query.streams if chosen[name] and reads(query, (name, chosen[name]))]
    ends = common_range(script, read)
    if not refused or not ends:
        return None
    own = Script(lines)
    keys = Keys(own, read, [name for name in query.streams if (name, chosen[name]) not in read])
    most = min(MOST_RANGES, ends[1] - ends[0] + 1)
    counts = (count for count in range(1, most + 1) if are_all_accepted(program, own, keys, ends, count))
    least = next(counts, None)
    told = f"none up to {most}" if least is None else str(least)
    return f"    refused limit {refused[1]}; ranges of {ends[0]}..{ends[1]} with which it is accepted in each: {told}"


def told_lines(text):
    """Of each choice that is told its keys, and by the name of each query the line of ranges below it, or None."""
    choices = []
    for line in text.splitlines():
        if line.startswith("deal "):
            choices.append(({name: key or None for name, key in re.findall(r"(?:deal |, )(\w+)(?: by (\w+)| to all)", line)}, {}))
        elif line.startswith("    "):
            choices[-1][1][list(choices[-1][1])[-1]] = line
        elif line.startswith("  "):
            choices[-1][1][line.strip().partition(":")[0]] = None
    return choices


def try_script(part, path):
    """One random script: each line of ranges is the one that the narrowed scripts come to."""
    lines = write_script(part.random)
    given = "".join(f"{line}\n" for line in lines).encode()
    ran = subprocess.run([path, "advise", "--split"], input=given, capture_output=True)
    if ran.returncode or ran.stderr:
        part.differs(f"status {ran.returncode}, {ran.stderr[:120]!r}", given)
        return
    script, program = Script(lines), Program(path)
    pairs = [(query, chosen, told) for chosen, told in told_lines(ran.stdout.decode()) for query in script.queries.values()]
    for query, chosen, told in pairs:
        wanted = wanted_line(program, script, query, chosen)
        found = SAID.fullmatch(wanted or "")
        part.count("queries without ranges" if not found else "queries that no number of ranges mends" if found[4] else "least numbers of ranges")
        if told[query.name] != wanted:
            part.differs(f"{query.name} under {chosen}: told {told[query.name]}, wanted {wanted}", given)
    part.count("scripts asked", len(program.known))
