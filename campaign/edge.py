"""Locks, files, one line for one line, and feeds behind a script: random ones, each compared byte by byte and by status with the
judge, and words that are no form of a command. And that garbage under a lock changes its own replies alone.

The judge itself is tried on the worked cases that have files.
"""
import os

import language
import lock
from common import Part, first_other_line, scaled
from edge_cases import Room, cases, result_of
from edge_judge import judge
from edge_scripts import GARBAGE, EdgeWriter, feed_word, text_of
from worked import folders

SCRIPTS = 2000
MOST_BYTES = 200_000
WORDS = ["run", "feeds", "--rows", "--each", "--script", "--c3", "1", "2", "7", "0", "01", "1099511627776", "1099511627777", "f", "f", "g", "s", "S@f", "S,T@g", "@f", "S@",
         "s,@f", "S.a@f", "./S@f", "-", "--", "", "-x", "./-x", "--help2", "certify", "RUN", "--EACH", "n" * 25 + "@f", "in@f"]


def worked(part):
    """The judge must say of each worked case with files what stands beside it."""
    for folder in folders():
        for case in cases(folder):
            with Room(case.path + ".files") as room:
                found = judge(case.words, room, case.given)
            if found is None:
                continue
            part.count("worked cases")
            # what wrong usage says on standard error stands beside few cases
            if found.status == 2 and not case.wanted.errors:
                found = found._replace(errors=b"")
            if found != case.wanted:
                part.differs(f"the judge differs from {case.path}")


def fault_of(found, wanted):
    """What is wrong with a result, or None."""
    if found.status != wanted.status:
        return f"status {found.status}, wanted {wanted.status}"
    if found.errors != wanted.errors:
        return f"standard error {found.errors[:120]!r}, wanted {wanted.errors[:120]!r}"
    return None if found.output == wanted.output else first_other_line(found.output, wanted.output)


def try_one(part, program, words, files, given, kind):
    """One run over files and an input; None where the judge does not know it or its text is very long."""
    with Room(files) as room:
        wanted = judge(words, room, given)
        if wanted is None or len(wanted.output) > MOST_BYTES:
            return None
        found = result_of(program, words, room, given)
    part.count(kind)
    part.count("lines under a lock", wanted.output.count(b" Locked"))
    fault = fault_of(found, wanted)
    if fault:
        shown = b"\n".join([b"words: " + " ".join(words).encode(), *(b"file %s:\n%s" % (name.encode(), text or b"(a folder)") for name, text in files.items()), b"input:", given])
        part.differs(f"{kind}: {' '.join(words)[:120]}: {fault}", shown)
    return wanted


def row_words(random):
    return ["--rows", str(random.choice([1, 3, 10, 30, 1000]))] if random.random() < 0.2 else []


def shuffled(random, *options):
    """Options in any order."""
    options = list(options)
    random.shuffle(options)
    return [word for option in options for word in option]


def try_run(part, program):
    """A script with locks, in the input, in a file, or cut in two; one line for one line or not."""
    random = part.random
    writer = EdgeWriter(random)
    writer.whole(random.choice([15, 40, 70]))
    lines = writer.lines
    kind = random.choice(["input", "file", "file and input", "file and input"])
    each = ["--each"] if random.random() < 0.4 else []
    words, files = ["run", *shuffled(random, each, row_words(random))], {}
    if kind == "input":
        given = text_of(random, lines)
    else:
        cut = len(lines) if kind == "file" else random.randint(0, len(lines))
        name = random.choice(["f", "run", "rooms.bq", "d/f", "./f", "S@f", "ü"])
        files = {name: text_of(random, lines[:cut])}
        if random.random() < 0.03:
            files = random.choice([{}, {name: None}])
        words.append(name)
        given = text_of(random, lines[cut:])
    try_one(part, program, words, files, given, "scripts with --each" if each else f"scripts in {kind}")


def try_feeds(part, program):
    """Feeds behind a script, or without one."""
    random = part.random
    writer = EdgeWriter(random)
    writer.start(random.randint(1, 3))
    script = list(writer.lines)
    lines = [writer.producer_line() for _ in range(random.choice([6, 20, 40]))]
    streams = [it.decode() for it in writer.session.streams]
    count = random.randint(2, 8) if random.random() < 0.3 else 2
    scripted = random.random() < 0.85
    dealt = [[] for _ in range(count)]
    for line in lines if scripted else script + lines:
        random.choice(dealt).append(line)
    files, names = {}, []
    for number, feed in enumerate(dealt):
        word, name = feed_word(random, streams, f"f{number}") if scripted else (f"f{number}", f"f{number}")
        names.append(word)
        if random.random() < 0.97:
            files[name] = text_of(random, feed) if random.random() < 0.98 else None
    options = [row_words(random)]
    if scripted:
        options.append(["--script", "s.bq"])
        if random.random() < 0.98:
            files["s.bq"] = text_of(random, script)
    try_one(part, program, ["feeds", *shuffled(random, *options), *names], files, b"S,1\n", "feeds behind a script" if scripted else "feeds without one")


def try_words(part, program):
    """Random words: most are no form of the command."""
    random = part.random
    words = [random.choice(["run", "run", "feeds", "feeds", "feeds", "certify", "check", "lower", "load"])]
    words += [random.choice(WORDS) for _ in range(random.randint(0, 6))]
    files = {"f": b"CREATE STREAM S (a)\nLOCK\n", "g": b"S,1\nS,x", "s": b"CREATE STREAM S (a)\nCREATE STREAM T (a)\n", "S@f": b"T,1\n", "-x": b"S,2\n", "S,T@g": b"", "1": b"S,1\n"}
    try_one(part, program, words, files, b"EXPLAIN q\n", "words")


def may_act(line, locked):
    """Whether a line may be a row that is taken, or unlock: any other says nothing or is refused."""
    stripped = language.strip_line(line)
    return len(line) <= language.LONGEST_LINE and not language.says_nothing(stripped) and lock.lets(locked, stripped)


def exchanged(random, line, locked):
    """Another line in place of one that may not act, which may not act either; or the line itself."""
    other = random.choice([*GARBAGE, b"", b"-- z", b"nobody,1", b"S", b"CREATE STREAM Y (a)"])
    return line if may_act(line, locked) or may_act(other, locked) or random.random() < 0.3 else other


def try_exchange(part, program):
    """Lines under a lock that are no rows taken are exchanged for garbage: all other replies stay byte for byte."""
    random = part.random
    writer = EdgeWriter(random)
    writer.start(random.randint(1, 3))
    script = list(writer.lines)
    if not writer.session.lock:
        writer.write(b"LOCK")
        script.append(b"LOCK")
    lines = [writer.producer_line() for _ in range(40)]
    others = [exchanged(random, it, writer.session.lock) for it in lines]
    with Room({"s": text_of(random, script)}) as room:
        one, other = (result_of(program, ["run", "--each", "s"], room, b"\n".join(it) + b"\n") for it in (lines, others))
    part.count("texts exchanged")
    part.count("lines exchanged", sum(a != b for a, b in zip(lines, others)))
    replies = [it.output.split(b"\n")[len(script):] for it in (one, other)]
    for number, (a, b, line, changed) in enumerate(zip(*replies, lines, others), 1):
        if line == changed and a != b:
            part.differs(f"exchange: line {number}, {line[:60]!r}: {a[:80]!r} and {b[:80]!r}", b"\n".join(script + [b"--"] + lines + [b"--"] + others))
            return
    if [len(it) for it in replies] != [len(lines) + 1] * 2 or one.status or other.status:
        part.differs(f"exchange: {[len(it) for it in replies]} lines for {len(lines)}, status {one.status} and {other.status}", b"\n".join(script))


KINDS = [try_run] * 10 + [try_feeds] * 7 + [try_words] * 2 + [try_exchange]


def run(program, seed, scale):
    part = Part("edge", seed)
    program = os.path.abspath(program)
    worked(part)
    for _ in range(scaled(SCRIPTS, scale)):
        part.random.choice(KINDS)(part, program)
    return part
