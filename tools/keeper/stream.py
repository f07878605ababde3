"""Lines that come from a handle, bytes that go to one, and the way between: nobody waits for one handle alone."""
import fcntl
import os
import re
import select
import sys
import termios
from collections import Counter
from contextlib import suppress
from time import monotonic

from keeper import Fault, log, require
from keeper.checkpoint import locked, sum_at

# how many bytes are read at once; and where fewer came last, as room for few is had sooner
PIECE, FEW = 1 << 14, 448
LONGEST, BLANK = 1024, ord(" ")
# how many bytes go on as they came before they are counted; and how many a file or a pipe of its own is given at once
MANY, AT_ONCE = 1 << 10, 1 << 20
ERROR, ANSWER = re.compile(rb"^error (\d+) (\w+)$", re.MULTILINE), re.compile(rb"^(\w+),", re.MULTILINE)
# how often what comes next is asked for before the run sleeps, seconds that this takes, and when to give way
LOOKS, SHORT, VAIN = 120 if len(os.sched_getaffinity(0)) > 1 else 0, 5e-5, 6


class Lines:
    """What is read from a handle, as whole lines."""

    def __init__(self, fd, came=0):
        # how many bytes came, how many of them are of a line that has not ended, and its front
        self.fd, self.came, self.behind, self.rest = fd, came, 0, b""

    def cut(self, piece):
        """Whole lines of what came. As bq refuses a line that is too long, no more is kept of it than shows that."""
        self.came, text = self.came + len(piece), self.rest + piece
        end = text.rfind(b"\n") + 1
        self.behind = len(text) - end if end else self.behind + len(piece)
        self.rest = text[end:][:LONGEST + 1]
        return text[:end]

    def waiting(self):
        """How many bytes wait in a pipe; none where it is closed, or is no pipe."""
        with suppress(OSError):
            return int.from_bytes(fcntl.ioctl(self.fd, termios.FIONREAD, bytes(4)), sys.byteorder)
        return 0


class Outlet:
    """Bytes on their way to a file or into a pipe, which is left as it was, as others may share it."""

    def __init__(self, fd, name, most=select.PIPE_BUF):
        # of what takes some without waiting so many bytes are written at once: a pipe that has room takes PIPE_BUF
        self.fd, self.name, self.most, self.pending, self.written, self.room = fd, name, most, b"", 0, 0

    def put(self, text=b""):
        """Takes bytes, and writes what is taken without waiting."""
        if text:
            self.pending = memoryview(bytes(self.pending) + text)
        try:
            while self.pending:
                if len(self.pending) > self.room:
                    self.room = self.most if select.select([], [self.fd], [], 0)[1] else 0
                if not self.room:
                    return
                self.took(self.pending, os.write(self.fd, self.pending[:self.room]))
        except BlockingIOError:
            # it has less room, or others who share it took some
            self.room = 0
        except OSError as fault:
            self.fail(fault)

    def took(self, text, count):
        """So many bytes of a text were written, the rest waits."""
        self.pending, self.written, self.room = text[count:], self.written + count, self.room - count

    def fail(self, fault):
        raise OSError(fault.errno, fault.strerror, self.name) from None


class Sink(Outlet):
    """Where replies go, those of earlier runs too: what a reader may have seen is never cut or written again."""

    def __init__(self, path):
        require(not path or os.path.isfile(path) or not os.path.exists(path), f"{path} is no file: use standard output")
        self.path, fd = path, locked(path, os.O_RDWR | os.O_CREAT | os.O_APPEND) if path else 1
        super().__init__(fd, path or "standard output", AT_ONCE if path else select.PIPE_BUF)
        # so many bytes are out, and of them so many are to come again
        self.written, self.behind = os.fstat(fd).st_size if path else 0, 0
        # of lines that no reader can have seen whole before errors by word and answers by query, but for the last few
        self.errors, self.answers, self.uncounted = Counter(), Counter(), bytearray()

    @property
    def total(self):
        """Behind how many bytes the next reply stands."""
        return self.written + len(self.pending) - self.behind

    def begin(self, kept, acked):
        """A run goes on from a checkpoint. Of a pipe what was acknowledged is out, or else what came before it."""
        before = kept.place.output
        if not self.path:
            self.written = before if acked is None else acked
        elif self.written < before or kept.output_sum not in (b"", sum_at(self.fd, before)):
            raise Fault(f"{self.path} is not the output of the checkpoint, or is shorter than its {before} bytes")

    def take(self, text):
        """Takes replies, but for those that a reader may have seen."""
        text = self.pass_by(text) if self.behind else text
        self.put(text)
        self.count(text)

    def pass_by(self, text):
        """Leaves out what stands there. A file with other bytes, as behind a torn disk, is cut there."""
        place, front = self.total, text[:self.behind]
        there = os.pread(self.fd, len(front), place) if self.path else front
        self.behind -= len(front)
        if there != front:
            front = os.path.commonprefix([there, front])
            self.written, self.behind = place + len(front), 0
            log.error("%s holds other bytes than the replies behind byte %d, and is cut there", self.path, self.written)
            os.ftruncate(self.fd, self.written)
        # a line of which it saw the front alone counts
        self.uncounted += front[front.rfind(b"\n") + 1:]
        return text[len(front):]

    def count(self, text=b""):
        """Counts what was taken: many lines at once, and all where no more is given."""
        self.uncounted += text
        if not text or len(self.uncounted) > MANY:
            if b"error " in self.uncounted:
                self.errors.update(word for _, word in ERROR.findall(self.uncounted))
            self.answers.update(ANSWER.findall(self.uncounted))
            self.uncounted.clear()


class Way:
    """From lines to an outlet; `change` takes what does not go on as it came, and `count` what did, as most does."""

    def __init__(self, lines, outlet, change, count, is_reply):
        self.lines, self.outlet, self.change, self.count, self.is_reply = lines, outlet, change, count, is_reply
        # how many bytes are read; and how many waits in a row were short, and how often asking was in vain, up to VAIN
        self.length, self.short, self.vain = PIECE, 1, 0

    def begin(self, is_plain):
        """Begins to pass on, whole lines as they come where that is plain."""
        self.fd, self.to, self.room = self.lines.fd, self.outlet.fd, self.outlet.room
        self.is_plain, self.passed, self.taken = is_plain and not self.lines.rest, [], 0
        return self

    def end(self):
        """Counts what went on; of the last piece some may wait."""
        if text := b"".join(self.passed):
            self.outlet.took(text, self.taken)
            self.count(self.lines.cut(text))


def pass_on(ways, look, pause, until):
    """Passes on what comes, by handle, up to a piece that has to be changed: the way of that piece, and the piece."""
    ready, now, read, write = look(pause), 0, os.read, os.write
    while ready and now <= until and (way := ways.get(ready[0][0])):
        piece = read(way.fd, way.length)
        way.length = FEW if len(piece) < FEW else PIECE
        if not way.is_plain or piece[-1:] != b"\n" or way.taken + len(piece) > way.room or (
                way.is_reply and BLANK in piece):
            return way, piece
        # what fails is tried once more, where that is minded
        try:
            taken = write(way.to, piece)
        except OSError:
            taken = 0
        way.passed.append(piece)
        way.taken += taken
        if taken < len(piece) or way.taken > MANY:
            break
        # to be woken takes long, so what follows is asked for first, where the last waits were short
        looks = asked = LOOKS if way.short >> way.vain else 0
        while not (ready := look(0)) and looks:
            looks -= 1
        if looks:
            way.vain = 0
        if not ready:
            began = monotonic()
            ready, now = look(pause), monotonic()
            way.short = way.short + 1 if not asked and now - began < SHORT else 0
            way.vain = min(way.vain + (asked > 0), VAIN)
    return None, b""
