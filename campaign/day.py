"""A day's worth of rows in one run: replies as computed, and no more memory than at the start.

Most rows are in no answer; the few that tell are counted here one by one.
"""
import hashlib
import subprocess
import threading
from collections import Counter

from common import Part, scaled
from evaluator import session_text
from language import COMPACT_SHARE

ROWS = 10_000_000
BLOCK = 20_000
BLOCKS = 40
SETTLED = 100_000
HEAD = b"CREATE STREAM S (a, b)\nCREATE STREAM T (c)\n" \
       b"CREATE QUERY f AS SELECT S.b, S.a FROM S WHERE S.b > 989999\n" \
       b"CREATE QUERY j AS SELECT S.a FROM S, T WHERE S.a = T.c AND S.a > 10 AND S.a < 13\n" \
       b"CREATE QUERY d AS SELECT DISTINCT S.a FROM S, T WHERE S.b < T.c AND S.a > 10 AND S.a < 13\n"
HEAD_REPLIES = 5
# a compact query beside the one with DISTINCT, which answers the same
if COMPACT_SHARE:
    HEAD += b"CREATE COMPACT QUERY e AS SELECT DISTINCT S.a FROM S, T WHERE S.b < T.c AND S.a > 10 AND S.a < 13\n"
    HEAD_REPLIES += 1
DISTINCT_NAMES = [b"d", b"e"] if COMPACT_SHARE else [b"d"]


def one_row(random):
    """A row, and whether it can be in an answer."""
    kind = random.random()
    if kind < 0.0005:
        return ("S", random.choice([11, 12]), random.randint(5, 900_000)), True
    if kind < 0.00055:
        return ("T", random.choice([10, 11, 12, 13])), True
    if kind < 0.03:
        return ("S", random.randint(100, 999), random.randint(990_000, 999_999)), True
    if kind < 0.6:
        return ("S", random.randint(13, 999), random.randint(0, 989_999)), False
    return ("T", -random.randint(1, 10_000)), False


def one_block(random):
    """Some rows as text, and those of them that tell."""
    rows = [one_row(random) for _ in range(BLOCK)]
    text = "".join(",".join(map(str, row)) + "\n" for row, _ in rows).encode()
    return text, [row for row, tells in rows if tells]


class Answers:
    """The answers to the rows that tell: kept rows, counted and compared one by one."""

    def __init__(self):
        self.seen = {"S": Counter(), "T": Counter()}
        self.below, self.printed = {11: set(), 12: set()}, set()

    def of(self, row):
        if row[0] == "S":
            return self.of_stream_s(*row[1:])
        value = row[1]
        self.seen["T"][value] += 1
        text = b"j,%d\n" % value * self.seen["S"][value] if value in (11, 12) else b""
        for a in (11, 12):
            if a not in self.printed and any(b < value for b in self.below[a]):
                self.printed.add(a)
                text += b"".join(b"%s,%d\n" % (name, a) for name in DISTINCT_NAMES)
        return text

    def of_stream_s(self, a, b):
        text = b"f,%d,%d\n" % (b, a) if b > 989_999 else b""
        if a not in (11, 12):
            return text
        self.seen["S"][a] += 1
        self.below[a].add(b)
        text += b"j,%d\n" % a * self.seen["T"][a]
        if a not in self.printed and any(b < c for c in self.seen["T"]):
            self.printed.add(a)
            text += b"".join(b"%s,%d\n" % (name, a) for name in DISTINCT_NAMES)
        return text


class Reading(threading.Thread):
    """Reads all replies: their sum and the number of their lines."""

    def __init__(self, pipe):
        super().__init__(daemon=True)
        self.pipe, self.sum, self.lines = pipe, hashlib.sha256(), 0

    def run(self):
        while piece := self.pipe.read1(1 << 16):
            self.sum.update(piece)
            self.lines += piece.count(b"\n")


class Memory(threading.Thread):
    """Samples the resident memory of a process, with the number of rows that were given to it."""

    def __init__(self, process):
        super().__init__(daemon=True)
        self.process, self.rows, self.samples, self.ended = process, 0, [], threading.Event()

    def sample(self):
        with open(f"/proc/{self.process}/status", encoding="ascii") as file:
            size = next((it.split()[1] for it in file if it.startswith("VmRSS:")), None)
        if size:
            self.samples.append((self.rows, int(size)))

    def run(self):
        while not self.ended.wait(0.05):
            self.sample()


def feed(process, memory, blocks, random, rows):
    """Gives the rows block by block; the sum and the number of lines of the wanted replies."""
    answers, wanted, lines = Answers(), hashlib.sha256(), HEAD_REPLIES
    process.stdin.write(HEAD)
    wanted.update(session_text(HEAD))
    for number in range(rows // BLOCK):
        if number == SETTLED // BLOCK + 1:
            memory.sample()
        text, telling = random.choice(blocks)
        replies = b"".join(answers.of(it) for it in telling)
        wanted.update(replies)
        lines += replies.count(b"\n")
        process.stdin.write(text)
        process.stdin.flush()
        memory.rows += BLOCK
    memory.sample()
    process.stdin.close()
    return wanted.hexdigest(), lines


def judge(part, memory, reading, wanted, lines):
    if (reading.sum.hexdigest(), reading.lines) != (wanted, lines):
        part.differs(f"{reading.lines} reply lines, wanted {lines}, or another text")
    first = max((size for rows, size in memory.samples if rows <= SETTLED + BLOCK), default=0)
    later = max((size for rows, size in memory.samples if rows > SETTLED + BLOCK), default=0)
    part.count("memory samples", len(memory.samples))
    part.count("kB at first", first)
    part.count("kB at most later", later)
    if later > first:
        part.differs(f"resident memory grew from {first} to {later} kB")


def run(program, seed, scale):
    part = Part("day", seed)
    rows = scaled(ROWS, scale, 2 * SETTLED) // BLOCK * BLOCK
    blocks = [one_block(part.random) for _ in range(BLOCKS)]
    with subprocess.Popen([program, "run"], stdin=subprocess.PIPE, stdout=subprocess.PIPE) as process:
        reading, memory = Reading(process.stdout), Memory(process.pid)
        reading.start()
        memory.start()
        wanted, lines = feed(process, memory, blocks, part.random, rows)
        memory.ended.set()
        reading.join()
        status = process.wait()
    part.count("rows", rows)
    part.count("reply lines", lines)
    if status != 0:
        part.differs(f"status {status}, wanted 0")
    judge(part, memory, reading, wanted, lines)
    return part
