"""Replies under slow and odd readers and writers: the output is the same as in one go.

Also: each line is answered before the next is sent; and what happens where the input or the
output fails.
"""
import fcntl
import os
import select
import subprocess
import threading
import time

from common import Part, first_other_line, scaled
from evaluator import session_text
from generator import Writer

SCRIPTS = 12
TALKS = 12
SMALL_PIPE = 4096
SET_PIPE_SIZE = 1031
PATIENCE = 120
WIDE = b"CREATE STREAM S (a)\nCREATE STREAM T (b)\nCREATE QUERY q AS SELECT S.a, T.b FROM S, T " \
       b"WHERE S.a > 0 AND S.a < 4 AND T.b > 0 AND T.b < 4\n"


def start(program):
    return subprocess.Popen([program, "run"], stdin=subprocess.PIPE, stdout=subprocess.PIPE,
                            bufsize=0)


def feed_oddly(process, text, random, pause):
    """Writes a text in pieces of a few bytes, with pauses; then closes."""
    place = 0
    while place < len(text):
        length = random.choice([1, 1, 2, 3, 5, 7, 64, 1000])
        process.stdin.write(text[place:place + length])
        place += length
        if random.random() < 0.05:
            time.sleep(pause)
    process.stdin.close()


def read_slowly(process, random, pause):
    """Reads all output a few bytes at a time, with pauses."""
    pieces = []
    while piece := os.read(process.stdout.fileno(), random.choice([1, 2, 3, 10, 100])):
        pieces.append(piece)
        if random.random() < 0.03:
            time.sleep(pause)
    return b"".join(pieces)


def many_answers(random):
    """A script with far more output than input, so that the program must wait for its reader."""
    lines = [random.choice([b"S,%d", b"T,%d"]) % random.randint(1, 3) for _ in range(180)]
    return WIDE + b"\n".join(lines) + b"\n"


def slow_script(part, program, number):
    random = part.random
    if number % 2:
        text = many_answers(random)
    else:
        writer = Writer(random)
        writer.mixed(150)
        text = writer.text()
    wanted = session_text(text)
    with start(program) as process:
        fcntl.fcntl(process.stdout, SET_PIPE_SIZE, SMALL_PIPE)
        feeding = threading.Thread(target=feed_oddly, args=(process, text, random, 0.002))
        feeding.start()
        output = read_slowly(process, random, 0.001)
        feeding.join()
        status = process.wait()
    part.count("scripts read slowly")
    part.count("bytes read slowly", len(output))
    if status != 0 or output != wanted:
        part.differs(f"slow: status {status}, {first_other_line(output, wanted)}", text)


def reply_to(process, length):
    """The next bytes of the output, at least so many where they come in time."""
    pieces, until = b"", time.monotonic() + PATIENCE
    while len(pieces) < length and time.monotonic() < until:
        ready, _, _ = select.select([process.stdout], [], [], 1)
        if ready:
            piece = os.read(process.stdout.fileno(), 65536)
            if not piece:
                break
            pieces += piece
    return pieces


def talk(part, program):
    """Each line is sent only when the one before was answered."""
    writer = Writer(part.random)
    writer.mixed(100)
    with start(program) as process:
        for line, wanted in zip(writer.lines, writer.replies):
            process.stdin.write(line + b"\n")
            got = reply_to(process, len(wanted))
            part.count("lines answered at once")
            if got != wanted:
                part.differs(f"talk: {line[:80]!r} got {got[:80]!r}, wanted {wanted[:80]!r}",
                             writer.text())
                break
        process.stdin.close()
        if process.stdout.read() or process.wait() != 0:
            part.differs("talk: more output at the end, or another status", writer.text())


def reader_gone(part, program):
    """A reader that goes away after some bytes: status 5, and what was read is a front."""
    text = many_answers(part.random)
    with start(program) as process:
        feeding = threading.Thread(target=feed_quietly, args=(process, text * 3))
        feeding.start()
        front = reply_to(process, 1000)
        process.stdout.close()
        feeding.join()
        status = process.wait()
    part.count("readers gone")
    if status != 5:
        part.differs(f"reader gone: status {status}, wanted 5", text)
    if not session_text(text * 3).startswith(front):
        part.differs("reader gone: what was read is no front of the replies", text)


def feed_quietly(process, text):
    """Writes a text and closes, and does not mind where nobody reads on."""
    try:
        process.stdin.write(text)
        process.stdin.close()
    except BrokenPipeError:
        pass


def faults(part, program):
    """An input that can't be read ends with 4, an output that takes nothing with 5."""
    with open("/dev/full", "wb") as full:
        ran = subprocess.run([program, "run"], input=WIDE, stdout=full, timeout=PATIENCE)
    part.count("outputs that take nothing")
    if ran.returncode != 5:
        part.differs(f"full output: status {ran.returncode}, wanted 5", WIDE)
    folder = os.open("/", os.O_RDONLY)
    ran = subprocess.run([program, "run"], stdin=folder, stdout=subprocess.PIPE, timeout=PATIENCE)
    os.close(folder)
    part.count("inputs that fail")
    if ran.returncode != 4 or ran.stdout:
        part.differs(f"failing input: status {ran.returncode}, wanted 4")


def run(program, seed, scale):
    part = Part("slow", seed)
    for number in range(scaled(SCRIPTS, scale)):
        slow_script(part, program, number)
    for _ in range(scaled(TALKS, scale)):
        talk(part, program)
    for _ in range(scaled(4, scale)):
        reader_gone(part, program)
    faults(part, program)
    return part
