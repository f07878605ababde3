"""Checkpoints: a session that goes on from one answers as the one that was not cut.

Each random script is cut at a random line. The uncut session is asked for a checkpoint there; its reply
must be the text that the evaluator works out from cells of its own. A fresh session reads the lines of
the reply and then the rest of the script: all it says must be what the uncut one said, the line numbers of
errors aside, and a checkpoint at the end of either is the same text. Then the checkpoint is changed in a
line or two, which may leave it one of no session at all, and the program must refuse what the evaluator
refuses, by the same word, and answer the rest of the script as it does.
"""
import re
from collections import Counter

import evaluator
import language
from common import Part, compare, scaled
from evaluator import MOST_ROWS, Session
from generator import QUERY_NAMES, Writer
from language import CHECKPOINT_SHARE, LONGEST_LINE

SESSIONS = 2000
CHANGED_OF_EACH = 3
ROWS = [6, 15, 25, 40, 60]
ASK = b"CHECKPOINT"
ERROR = re.compile(rb"\Aerror \d+ (\w+)\n\Z")
RESUME = re.compile(rb"RESUME (\w+) (AS|FROM|SELECT) (.*)\Z")
INTEGER = re.compile(rb"[+-]?\d+\Z")
FAR = [2**63 - 1, -(2**63), 2**63, -(2**63) - 1, 2**40, 2**40 + 1]
# a row that is answered with more is not followed further
MOST_REPLY_BYTES = 40_000


def write(writer):
    """Streams, queries and rows, with queries dropped and made again between them."""
    random = writer.random
    writer.about_checkpoints = False
    if writer.chance(0.3):
        writer.extremes(3)
    many = random.choice([1, 2, 2, 3])
    while len(writer.session.streams) < many:
        writer.stream(random.choice([2, 2, 3, 4]))
    for name in random.sample(QUERY_NAMES[:8], random.choice([1, 2, 3])):
        kind = random.random()
        for _ in range(3):
            if b"X" in writer.session.streams and kind < 0.7:
                writer.query(name, writer.extreme_query())
            elif kind < 0.06:
                long_query(writer, name)
            else:
                writer.query(name)
            # most queries are to be accepted
            if name in writer.session.queries or writer.chance(0.2):
                break
    for _ in range(random.choice(ROWS)):
        writer.row() if writer.chance(0.93) else writer.step()


def long_query(writer, name):
    """Creates a query in its short form; its printed form is longer than a line mostly."""
    random, stream = writer.random, b"L" * 24
    columns = [it * 24 for it in (b"a", b"b", b"c")]
    if stream not in writer.session.streams:
        writer.write(b"CREATE STREAM " + stream + b" (" + b", ".join(columns) + b")")
    named = [stream + b"." + it for it in writer.session.streams[stream]]
    atoms = [random.choice(named) + random.choice([b" < ", b" > ", b" < "]) + random.choice([b"9", b"-4", b"5"])
             for _ in range(random.choice([14, 16, 16]))]
    text = random.choice([b"", b"DISTINCT "]) + random.choice(named) + b" FROM " + stream
    text = writer.created(name, b"SELECT " + text + b" WHERE " + b" AND ".join(atoms))
    writer.write(language.print_short(language.parse(text)))


def renumbered(reply, by):
    """A reply with its line number moved, where it is an error."""
    found = ERROR.match(reply)
    return reply if not found else b"error %d %s\n" % (int(reply.split()[1]) + by, found.group(1))


def words_for(limit):
    return ("run", "--rows", str(limit)) if limit else ("run",)


# changed checkpoints

def changed_integer(random, text):
    """Another integer: near, far, or odd in its spelling."""
    number = int(text)
    kind = random.random()
    if kind < 0.6:
        return b"%d" % (number + random.choice([-1, -1, 1, 1, 2, 7]))
    if kind < 0.75:
        return b"%d" % random.choice(FAR)
    return random.choice([b"%+d" % number, b"0%d" % abs(number), b"-%d" % abs(number), b"0", b"1"])


def changed_line(random, line, names):
    """A line of a checkpoint with one word changed, dropped or doubled."""
    words = line.split(b" ")
    places = [place for place, word in enumerate(words) if INTEGER.match(word)]
    if not line.startswith(b"RESUME") or not places:
        return random.choice([line.lower(), line + b" ;", line.replace(b"QUERY ", b"QUERY x", 1), b"-- " + line])
    place, kind = random.choice(places), random.random()
    if kind < 0.6:
        words[place] = changed_integer(random, words[place])
    elif kind < 0.7:
        words.insert(place, random.choice([words[place], b"0"]))
    elif kind < 0.78:
        del words[place]
    elif len(words) > 2 and names:
        words[1] = random.choice(names + [b"nobody"])
    return b" ".join(words)


def changed(random, lines):
    """The lines of a checkpoint with one thing changed in it."""
    lines = lines or [b"RESUME 0"]
    lines, place = list(lines), random.randrange(len(lines))
    names = [line.split(b" AS ")[0].split(b" ")[-1] for line in lines if b" QUERY " in line]
    resumes = [it for it, line in enumerate(lines) if line.startswith(b"RESUME")]
    kind = random.random()
    if kind < 0.5 and resumes:
        place = random.choice(resumes)
        lines[place] = changed_line(random, lines[place], names)
    elif kind < 0.55:
        lines[place] = changed_line(random, lines[place], names)
    elif kind < 0.65:
        del lines[place]
    elif kind < 0.75:
        lines.insert(random.randrange(place, len(lines)) + 1, lines[place])
    elif kind < 0.9:
        line = lines.pop(place)
        lines.insert(random.randrange(len(lines) + 1), line)
    else:
        name = random.choice(names or [b"q"])
        values = b" ".join(b"%d" % random.randint(-1, 6) for _ in range(random.choice([1, 1, 2, 3, 9])))
        more = [b"RESUME %s FROM %d %d" % (name, random.randint(0, 40), random.choice([1, 1, 2, 5, -3])),
                b"RESUME %s SELECT %s" % (name, values), b"RESUME %s AS 1" % name, b"RESUME 1", ASK,
                b"DROP QUERY " + name, b"EXPLAIN " + name]
        lines.insert(random.randrange(len(lines)) + 1, random.choice(more))
    return lines


def count_lines(part, lines):
    """Counts what a checkpoint says."""
    part.count("lines of checkpoints", len(lines))
    kinds = Counter(found.group(2) for found in map(RESUME.match, lines) if found)
    part.count("cells", kinds[b"FROM"])
    part.count("printed tuples", kinds[b"SELECT"])
    for word in (b" SHARED ", b" COMPACT "):
        found = sum(word in it for it in lines if it.startswith(b"CREATE"))
        part.count("queries with" + word.decode().rstrip(), found)
    part.count("in the short form", sum(b"AND" in it and b" AND " not in it for it in lines))


def try_changed(part, program, lines, rest, limit):
    """The program must take a changed checkpoint as the evaluator does, and go on as it does."""
    for _ in range(part.random.choice([1, 1, 1, 2])):
        lines = changed(part.random, lines)
    if lines and part.random.random() < 0.3:
        # a line of the checkpoint among the rest, where it may be too late
        rest = list(rest)
        rest.insert(part.random.randrange(len(rest) + 1), part.random.choice(lines))
    session, given, wanted = Session(limit or MOST_ROWS), [], []
    for line in [*lines, ASK, *rest, ASK]:
        given.append(line)
        wanted.append(session.reply(line))
        if len(wanted[-1]) > MOST_REPLY_BYTES:
            break
    part.count("changed checkpoints")
    refused = [ERROR.match(it) for it in wanted]
    for line, found in zip(given, refused):
        if found and line.startswith(b"RESUME"):
            part.count(f"refused by {found.group(1).decode()}")
    part.count("changed checkpoints that are taken", int(not any(refused[:len(lines)])))
    compare(part, program, b"\n".join(given) + b"\n", b"".join(wanted), words=words_for(limit))


def try_cut(part, program, writer, place, limit):
    """Cuts a script at a place, compares the three sessions, and gives the lines of the checkpoint."""
    rest, wanted = writer.lines[place:], writer.replies[place:]
    asked = Session(limit or MOST_ROWS)
    replies = [asked.reply(it) for it in [*writer.lines[:place], ASK]]
    lines = replies[-1].split(b"\n")[:-1]
    part.count("sessions")
    if any(len(it) > LONGEST_LINE for it in lines):
        part.differs("a line of the checkpoint is too long", writer.text())
    uncut = [*replies, *(renumbered(it, 1) for it in wanted)]
    fresh = Session(limit or MOST_ROWS)
    head = [fresh.reply(it) for it in lines]
    if fresh.reply(ASK) != replies[-1] or any(map(ERROR.match, head)):
        part.differs("the evaluator keeps something else of its own checkpoint", writer.text())
    by = len(lines) + 1 - place
    resumed = [*head, replies[-1], *(renumbered(it, by) for it in wanted)]
    if [fresh.reply(it) for it in rest] != resumed[len(lines) + 1:]:
        part.differs("the evaluator goes on otherwise", b"\n".join([*lines, ASK, *rest, b""]))
    for line in rest:
        asked.reply(line)
    end = asked.reply(ASK)
    if fresh.reply(ASK) != end:
        part.differs("the evaluator ends otherwise", b"\n".join([*lines, ASK, *rest, ASK, b""]))
    for text, said in (([*writer.lines[:place], ASK, *rest, ASK], uncut), ([*lines, ASK, *rest, ASK], resumed)):
        compare(part, program, b"\n".join(text) + b"\n", b"".join([*said, end]), words=words_for(limit))
    return lines


def one_session(part, program):
    limit = part.random.choice([None, None, None, 12, 30])
    writer = Writer(part.random, limit)
    write(writer)
    place = part.random.randint(0, len(writer.lines))
    lines = try_cut(part, program, writer, place, limit)
    count_lines(part, lines)
    for _ in range(CHANGED_OF_EACH):
        try_changed(part, program, lines, writer.lines[place:], limit)


def run(program, seed, scale):
    part = Part("checkpoint", seed)
    part.count("sessions", 0)
    for _ in range(scaled(SESSIONS, scale) if CHECKPOINT_SHARE else 0):
        # the verdicts of one script are of no use to another
        evaluator.VERDICTS.clear()
        one_session(part, program)
    return part
