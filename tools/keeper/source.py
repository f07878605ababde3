"""The input as whole lines: from a pipe, from a file to its end, or from one that grows, over each renaming."""
import glob
import os
import re
from contextlib import suppress

from keeper import Fault, log, require
from keeper.checkpoint import Mark, sum_at
from keeper.stream import PIECE, Lines

# how many bytes of the input are kept for a bq that has to be begun again
KEPT = 64 << 20
AT, TOKEN = ord("@"), re.compile(rb"^--@ ([^\r\n]{1,200})\r?\n", re.MULTILINE)
RENAMED = re.compile(r"(?:\.(\d{1,4})|[-.]\d[-.\d_:T]*)?\Z")


class Source(Lines):
    """The input: its lines are counted, and the newest mark of the producer is known."""

    mark, is_followed = None, False

    def __init__(self, fd, place):
        super().__init__(fd, place.bytes)
        self.lines, self.token, self.is_ended, self.is_at_rest = place.lines, place.token, False, False
        # what was sent behind the newest checkpoint, for a bq that is begun again; and how many bytes with those before
        self.sent, self.total = bytearray(), 0

    @property
    def bytes(self):
        return self.came - self.behind

    def count(self, text):
        """Counts lines that were cut and, as that comes first, sent on."""
        self.sent += text
        self.total += len(text)
        self.lines += text.count(b"\n")
        if AT in text:
            self.token = (TOKEN.findall(text) or [self.token])[-1]
        if len(self.sent) > KEPT:
            self.sent.clear()

    def forget(self, count):
        """Lets go of the first bytes that were sent, so many of all."""
        del self.sent[:max(0, count - self.total + len(self.sent))]

    def at_end(self):
        """What makes a last line without its end a line, where no more comes; it is no byte of the input."""
        self.is_ended = not self.is_followed
        self.came -= bool(self.rest)
        return b"\n" if self.rest else b""


def identity(file):
    status = os.stat(file)
    return status.st_dev, status.st_ino


def left(file):
    """How many bytes of a file were not read; fewer than none where it was cut."""
    return os.fstat(file.fileno()).st_size - file.tell()


def source_for(options, place):
    """The source that the words name."""
    path = options.follow or options.input
    if path and (os.path.isfile(path) or not os.path.exists(path)):
        return File(path, bool(options.follow), place, options.input_anew)
    # a named pipe that is followed is held open
    return Source(os.open(path, os.O_NONBLOCK | (os.O_RDWR if options.follow else os.O_RDONLY)) if path else 0, place)


class File(Source):
    """A source, as a pipe is one; where it is followed it never ends. A file that nothing here names is closed."""

    def __init__(self, path, is_followed, place, begins_anew=False):
        self.path, self.is_followed, mark = path, is_followed, None if begins_anew else place.mark
        # the file, the one that was read before, and the identities of those up to the one that is read
        self.file, self.old, self.passed = self.known(mark) if mark else open(path, "rb", buffering=0), None, set()
        super().__init__(self.file.fileno(), place)
        # the oldest form of a checkpoint has bytes alone
        self.file.seek(0 if begins_anew else mark.offset if mark else place.bytes)
        self.look_at_lengths()
        self.later()

    def family(self):
        """The file and those it was renamed to, opened, the oldest first: f.2, f.1, f; or f-2026, f."""
        before, now = None, {}
        # until nothing was renamed meanwhile
        while before != sorted(now):
            before, now = sorted(now), {}
            for name in glob.glob(glob.escape(self.path) + "*") if self.is_followed else [self.path]:
                # of numbers the greater is the older, of dates the lesser
                with suppress(FileNotFoundError):
                    if (renamed := RENAMED.match(name[len(self.path):])) and os.path.isfile(name):
                        file = open(name, "rb", buffering=0)
                        order = name == self.path, renamed[1] is not None, -int(renamed[1] or 0)
                        now[(*order, name, identity(file.fileno()))] = file
        return [now[it] for it in before]

    def known(self, mark):
        """Opens the file that was read, whatever its name is now; a copy, as on another machine, by what is in it."""
        alike = {identity(it.fileno()): it for it in self.family()
                 if left(it) >= mark.offset and sum_at(it.fileno(), mark.offset) == mark.sum}
        is_copy = len(alike) == 1 and (mark.offset or not self.is_followed)
        require(mark[:2] in alike or is_copy, f"{self.path} is not the file that was read (inode {mark.inode},"
                f" {mark.offset} bytes), or is shorter, nor is a renamed one: rows may be lost. See --input-anew")
        return alike[mark[:2]] if mark[:2] in alike else alike.popitem()[1]

    def at_end(self):
        """What is left of a renamed file when there is another behind it; a last line without its end is a line."""
        if not self.is_followed:
            return super().at_end()
        self.look_at_lengths()
        behind = self.successor()
        # what was written before the renaming comes first
        if behind and (piece := os.read(self.fd, PIECE)):
            return piece
        self.is_at_rest = behind is None
        if self.is_at_rest:
            return b""
        self.old, self.file, self.fd = self.file, behind, behind.fileno()
        self.later()
        log.info("%s was renamed: read to its end, and the new one begun", self.path)
        return super().at_end()

    def later(self):
        """The files behind this one, the oldest first."""
        files, this = self.family(), identity(self.fd)
        known = [identity(it.fileno()) for it in files]
        if this in known:
            self.passed = set(known[:known.index(this) + 1])
            return files[known.index(this) + 1:]
        # it was removed; the last name is the newest, and no number that was used before tells otherwise
        return [it for it in files[:-1] if identity(it.fileno()) not in self.passed] + files[-1:]

    def successor(self):
        """The next file with a byte in it, where there is one: what is written to this one was written before."""
        # a file that is not there, or is another one, is being renamed
        with suppress(FileNotFoundError):
            if identity(self.path) != identity(self.fd):
                return next(filter(left, self.later()), None)
        return None

    def look_at_lengths(self):
        """Refuses a file that was cut, and tells where a producer still writes to the one before."""
        require(left(self.file) >= 0, f"{self.path} is shorter than what was read of it: see --input-anew")
        if self.old and (more := left(self.old)) > 0:
            log.error("%d bytes came into a renamed file when the one behind it had begun, and are not read", more)
            self.old = None

    @property
    def mark(self):
        offset = self.file.tell() - self.behind
        return Mark(*identity(self.fd), offset, sum_at(self.fd, offset))

    def waiting(self):
        """How many bytes wait, in this file and those behind it; none while it is being renamed."""
        with suppress(OSError):
            return sum(map(left, [self.file, *self.later()]))
        return 0
