"""Feeds that take turns: the output is that of their lines in turn, whatever pipes do.

Also: what happens where a feed is a folder, is not there or may not be read, and where the
writer of a pipe is killed in the middle of a line, which ends its feed as any other end does.
"""
import os
import shutil
import signal
import subprocess
import tempfile
import threading
import time

from common import Part, first_other_line, scaled
from evaluator import session_text
from generator import Writer

SESSIONS = 20
PATIENCE = 120


def dealt(random, lines, count):
    """Deals lines to feeds at random, so that some have more than others."""
    feeds = [[] for _ in range(count)]
    for line in lines:
        random.choice(feeds).append(line)
    return feeds


def turns(feeds):
    """The lines of the feeds in turn, a line of each in a round."""
    return [feed[place] for place in range(max(map(len, feeds), default=0)) for feed in feeds
            if place < len(feed)]


def text_of(lines):
    return b"".join(line + b"\n" for line in lines)


def write_slowly(path, text, random):
    """Writes a text into a named pipe in pieces, with pauses; then closes."""
    with open(path, "wb", buffering=0) as pipe:
        place = 0
        while place < len(text):
            length = random.choice([1, 5, 64, 1000])
            pipe.write(text[place:place + length])
            place += length
            if random.random() < 0.02:
                time.sleep(0.002)


def session(part, program, kind):
    """One session over files or pipes, where one feed fails at once or none does."""
    random = part.random
    writer = Writer(random)
    writer.mixed(120)
    count = random.randint(2, 8)
    feeds = dealt(random, writer.lines, count)
    faulty = random.randrange(count) if kind in ("folders", "names that are not there") else None
    if faulty is not None:
        feeds[faulty] = []
    first = [feed[0] for number, feed in enumerate(feeds) if feed and number < (faulty or 0)]
    wanted = session_text(text_of(turns(feeds)))
    if faulty is not None:
        front = session_text(text_of(first))
        wanted = front + b"feed %d fault\n" % (faulty + 1) + wanted[len(front):]
    with tempfile.TemporaryDirectory() as folder:
        names, threads = [], []
        for number, feed in enumerate(feeds):
            path = os.path.join(folder, f"feed{number}")
            names.append(path)
            if number == faulty:
                if kind == "folders":
                    os.mkdir(path)
            elif kind == "pipes":
                os.mkfifo(path)
                threads.append(threading.Thread(target=write_slowly, args=(path, text_of(feed), random)))
            else:
                with open(path, "wb") as file:
                    file.write(text_of(feed))
        for thread in threads:
            thread.start()
        ran = subprocess.run([program, "feeds", *names], stdin=subprocess.DEVNULL,
                             capture_output=True, timeout=PATIENCE)
        for thread in threads:
            thread.join()
    part.count(kind)
    status = 0 if faulty is None else 4
    if ran.returncode != status:
        part.differs(f"{kind}: status {ran.returncode}, wanted {status}", text_of(turns(feeds)))
    if ran.stdout != wanted:
        part.differs(f"{kind}: {first_other_line(ran.stdout, wanted)}", text_of(turns(feeds)))


def no_rights(part, program):
    """A file that may not be read is a fault. Root may read every file, and so runs a copy of the program as nobody."""
    nobody = {"user": 65534, "group": 65534, "extra_groups": []} if os.geteuid() == 0 else {}
    with tempfile.TemporaryDirectory() as folder:
        os.chmod(folder, 0o711)
        mine = shutil.copy(program, os.path.join(folder, "bq"))
        names = [os.path.join(folder, name) for name in ("one", "two")]
        for name in names:
            with open(name, "wb") as file:
                file.write(b"CREATE STREAM S (a)\n")
            os.chmod(name, 0o644)
        os.chmod(names[1], 0)
        ran = subprocess.run([mine, "feeds", *names], capture_output=True, timeout=PATIENCE, **nobody)
    part.count("files that may not be read")
    if (ran.returncode, ran.stdout) != (4, b"ok stream S\nfeed 2 fault\n"):
        part.differs(f"no rights: status {ran.returncode}, output {ran.stdout[:80]!r}")


def killed_writer(part, program):
    """A writer that is killed behind half a line looks like one that has finished: its feed ends, and no fault is told."""
    first, half = b"CREATE STREAM S (a)\nCREATE QUERY q AS SELECT S.a FROM S\n", b"\n\nS,12"
    with tempfile.TemporaryDirectory() as folder:
        names = [os.path.join(folder, name) for name in ("one", "two")]
        os.mkfifo(names[0])
        os.mkfifo(names[1])
        writers = [subprocess.Popen(["sh", "-c", 'cat > "$0"; kill -9 $$', name], stdin=subprocess.PIPE) for name in names]
        for writer, text in zip(writers, (first, half)):
            writer.stdin.write(text)
            writer.stdin.close()
        ran = subprocess.run([program, "feeds", *names], stdin=subprocess.DEVNULL, capture_output=True, timeout=PATIENCE)
        ends = {writer.wait() for writer in writers}
    part.count("writers that were killed", len(writers))
    wanted = session_text(text_of(turns([first.splitlines(), half.split(b"\n")])))
    if (ran.returncode, ran.stdout, ends) != (0, wanted, {-signal.SIGKILL}):
        part.differs(f"killed writers: status {ran.returncode}, output {ran.stdout[:80]!r}, writers {ends}")


def run(program, seed, scale):
    part = Part("feeds", seed)
    for _ in range(scaled(SESSIONS, scale)):
        for kind in ("files", "pipes", "folders", "names that are not there"):
            session(part, program, kind)
    no_rights(part, program)
    killed_writer(part, program)
    return part
