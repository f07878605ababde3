"""Choices of keys that `bq advise --split` tells, judged by histories.

Each random script has a few streams and queries, accepted or not. Of each choice that is told the rows of random histories are dealt by a random
placing of keys to a few shards, and each row's answers are compared with those of one process, as what is said of the query wants. That no choice is
missed is judged by `tools/sharding`, which knows the rules on the text of a query: each choice that is right by them has one that is told and at most it.
Numbers of ranges are judged by `ranges.py`.
"""
import itertools
import os
import re
import sys
from types import SimpleNamespace

import evaluator
import language
import ranges
from common import Part, run as run_program, scaled

sys.path.insert(0, os.path.join(os.path.dirname(os.path.dirname(os.path.abspath(__file__))), "tools"))
from sharding import Refused  # noqa: E402
from sharding.keys import Keys, judged  # noqa: E402
from sharding.script import Script  # noqa: E402

SCRIPTS = 2_000
RANGES = 500
HISTORIES = 2
ROWS = 14
SAID = {
    "the answers of the shards together are the answers": "apart",
    "shards may answer a tuple each, of equal tuples the first counts": "dedupe",
    "create it in one shard alone, else each shard answers it": "home",
}
STREAM = re.compile(r"(?:deal |, )(\w+)(?: by (\w+)| to all)")
RANKS = {"apart": 0, "dedupe": 1, "home": 2}
# a query is kept by the evaluator whatever the decision on it
KEPT = SimpleNamespace(verdict=("kept", 0, 0), parts=[])


def write_query(random, number, streams):
    """A line that creates a query over some of the streams."""
    sources = random.sample(list(streams), random.randint(1, min(3, len(streams))))
    columns = [f"{stream}.{column}" for stream in sources for column in streams[stream]]
    atoms = []
    for _ in range(random.randint(0, 4)):
        left, right = random.choice(columns), random.choice(columns)
        if random.random() < 0.35:
            atoms.append(f"{left} {random.choice(language.OPERATORS)} {random.randint(0, 3)}")
        elif left != right:
            atoms.append(f"{left} {random.choice('===<>')} {right}")
    return ranges.query_line(random, number, ("", "", "COMPACT ", "SHARED "), sources, columns, atoms)


def write_script(random):
    """The lines of a script: a few streams of a few columns, and a few queries."""
    streams = {name: "abc"[:random.randint(1, 3)] for name in "STUV"[:random.randint(1, 4)]}
    lines = []
    for name, columns in streams.items():
        texts = (f"{column} IN {random.randint(0, 1)}..{random.randint(1, 3)}" if random.random() < 0.6 else column for column in columns)
        lines.append(f"CREATE STREAM {name} ({', '.join(texts)})")
    return lines + [write_query(random, number, streams) for number in range(random.randint(1, 3))]


class Choice:
    """A choice: the key column of each stream, None where it goes to all, and what is said of each query."""

    def __init__(self, keys, said):
        self.keys, self.said = keys, said

    def is_at_most(self, other):
        """Whether it leaves no query worse, and sends no stream to all that the other one does not."""
        return (all(RANKS[self.said[name]] <= RANKS[other.said[name]] for name in self.said)
                and all(key is not None or other.keys[name] is None for name, key in self.keys.items()))


def told(text):
    """The choices that the program tells, and how many more it says there are."""
    choices, more = [], 0
    for line in text.splitlines():
        if line.startswith("deal "):
            choices.append(Choice({name: key or None for name, key in STREAM.findall(line)}, {}))
        elif line.startswith("    "):
            continue
        elif line.startswith("  "):
            name, _, what = line.strip().partition(": ")
            choices[-1].said[name] = SAID[what]
        else:
            more = int(line.removesuffix(" choices more"))
    return choices, more


def by_text(script):
    """The choices that are right by the text of the queries."""
    names = list(script.streams)
    for picked in itertools.product(*[[*script.streams[name].columns, None] for name in names]):
        keys = dict(zip(names, picked))
        try:
            chosen = Keys(script, [it for it in keys.items() if it[1]], [name for name in names if not keys[name]])
            said = {name: judged(query, chosen) for name, query in script.queries.items()}
        except Refused:
            said = {name: "home" for name in script.queries}
        if "wrong" not in said.values():
            yield Choice(keys, said)


class Session:
    """The streams of a script, and each query over them as one process or one shard has it."""

    def __init__(self, lines):
        statements = [language.parse(line.encode()) for line in lines]
        creating = [it for it in statements if isinstance(it, language.CreateStream)]
        self.streams = {it.name: it.columns for it in creating}
        self.domains = {it.name: it.domains for it in creating}
        self.queries = [it for it in statements if isinstance(it, language.CreateQuery)]

    def live(self, statement):
        """A query that has seen no row."""
        return evaluator.LiveQuery(statement, evaluator.resolve(statement, self.streams, self.domains), KEPT)

    def row(self, random):
        """A row of one of the streams that keeps to its domains."""
        name = random.choice(list(self.streams))
        return name, [random.randint(*(domain or (0, 3))) for domain in self.domains[name]]


def shares(session, choice, row, places):
    """The shards that a row goes to, by the place of its key; all where its stream goes to all."""
    name, values = row
    key = choice.keys[name.decode()]
    if key is None:
        return range(1 + max(places.values()))
    return [places[values[session.streams[name].index(key.encode())]]]


def fits(how, whole, parts, printed):
    """Whether the answers of the shards to a row are as what is said of the query wants."""
    if how == "home":
        return all(it == whole for it in parts)
    if how == "apart":
        return sorted(itertools.chain(*parts)) == whole
    return sorted(set(itertools.chain(*parts)) - printed) == whole


def judge(part, session, choice, statement, lines):
    """Deals a random history, and compares the answers to each row."""
    random = part.random
    count = random.randint(2, 3)
    places = {value: random.randrange(count) for value in range(-1, 5)}
    places[-1] = count - 1
    whole, shards, printed = session.live(statement), [session.live(statement) for _ in range(count)], set()
    how = choice.said[statement.name.decode()]
    for _ in range(ROWS):
        row = session.row(random)
        wanted = whole.answers(*row)
        parts = [shards[it].answers(*row) for it in shares(session, choice, row, places)]
        if not fits(how, wanted, parts, printed):
            part.differs(f"{statement.name.decode()} is {how} under {choice.keys}, and a row is answered {parts}, wanted {wanted}", "\n".join(lines).encode())
            return
        printed.update(wanted)
        part.count("rows")


def is_least(choices):
    """Whether none of the choices is at most another."""
    return not any(one.is_at_most(other) for one, other in itertools.permutations(choices, 2))


def try_script(part, program):
    """One random script: what is told is least, misses no choice that is right by the text, and is right for some histories."""
    lines = write_script(part.random)
    given = "".join(f"{line}\n" for line in lines).encode()
    output, status, noise = run_program(program, ["advise", "--split"], given)
    if status or noise:
        part.differs(f"status {status}, {noise[:120]!r}, {output[:120]!r}", given)
        return
    choices, more = told(output.decode())
    part.count("choices", len(choices))
    if not is_least(choices):
        part.differs("a choice is at most another", given)
    if not more:
        for right in by_text(Script(lines)):
            part.count("choices by text")
            if not any(it.is_at_most(right) for it in choices):
                part.differs(f"{right.keys} is right by the text, and no choice is at most it", given)
    session = Session(lines)
    for choice, statement, _ in itertools.product(choices, session.queries, range(HISTORIES)):
        part.count(choice.said[statement.name.decode()])
        judge(part, session, choice, statement, lines)


def run(program, seed, scale):
    part = Part("split", seed)
    for _ in range(scaled(SCRIPTS, scale)):
        part.count("scripts")
        try_script(part, program)
    for _ in range(scaled(RANGES, scale)):
        part.count("wide scripts")
        ranges.try_script(part, program)
    return part
