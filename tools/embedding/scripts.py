"""Random scripts for sessions that are fed, and where they are cut.

A script is a worked case or an example with some lines left out, doubled, exchanged, put in or changed in a digit. What it is answered is asked
of `bq run`, so no evaluator is needed and thousands are tried in a minute.
"""
import glob
import os
import re

TOP = os.path.join(os.path.dirname(os.path.abspath(__file__)), "..", "..")
MOST_BYTES = 20_000
ODD_LINES = [b"", b"  ", b"-- nothing", b"CHECKPOINT", b"EXPLAIN q", b"EXPLAIN hot", b"DROP QUERY q", b"DROP QUERY hot", b"nonsense", b"S,", b",1", b"S,1",
             b"S,1,2", b"T,1", b"T,1,2", b"R,1,2", b"x" * 1024, b"x" * 1025, b"S," + b"1" * 1023, b"y" * 5000, b"S,1\r", b"\r", b"S\x00,1", b"\xff",
             b"LOCK 7 TO S", b"UNLOCK 7", b"UNLOCK", b"RESUME 3", b"RESUME q AS 1", b"CREATE STREAM S (a, b)",
             b"CREATE QUERY q AS SELECT DISTINCT S.a FROM S WHERE S.a > 0 AND S.a < 9"]


def worked_texts():
    """Gives the lines of the worked cases and examples, each with its LF."""
    texts = []
    for path in sorted(glob.glob(f"{TOP}/conformance/*/*.in") + glob.glob(f"{TOP}/examples/*.bq")):
        if os.path.getsize(path) <= MOST_BYTES:
            with open(path, "rb") as file:
                texts.append([line + b"\n" for line in file.read().rstrip(b"\n").split(b"\n")])
    return texts


def change(random, lines):
    """Changes one line, or the order of two."""
    place = random.randrange(len(lines))
    what = random.choice(["leave out", "double", "exchange", "put in", "put in", "change"])
    if what == "leave out" and len(lines) > 1:
        del lines[place]
    elif what == "double":
        lines.insert(random.randrange(len(lines) + 1), lines[place])
    elif what == "exchange":
        other = random.randrange(len(lines))
        lines[place], lines[other] = lines[other], lines[place]
    elif what == "put in":
        lines.insert(place, random.choice(ODD_LINES) + b"\n")
    else:
        lines[place] = re.sub(rb"\d", lambda _: b"%d" % random.randrange(10), lines[place], count=1)


def script(random, worked):
    """Gives the lines of a random script."""
    lines = list(random.choice(worked))
    for _ in range(random.choice([0, 1, 3, 10])):
        change(random, lines)
    return lines


def cut(random, lines):
    """Cuts a text of these lines behind some of them."""
    share = random.choice([0.02, 0.2, 1.0])
    pieces = [b""]
    for line in lines:
        if random.random() < share:
            pieces.append(b"")
        pieces[-1] += line
    return [it for it in pieces if it]
