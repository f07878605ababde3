"""What is heard while a session runs: how much the consumer has made durable, and what the operator changes."""
import fcntl
import itertools
import os
import re
import select
from contextlib import suppress
from pathlib import Path

from keeper import Fault, log, require
from keeper.checkpoint import save
from keeper.stream import PIECE, Lines

STATEMENT = re.compile(rb"(?:CREATE|DROP)[ \t][^\n]{1,1000}\Z", re.IGNORECASE)
LINE = re.compile(rb"^(\d+|=|!) ([^\n]*)\n", re.MULTILINE)
REPLY = re.compile(rb"^[=!] ([^\n]*)\n", re.MULTILINE)
# after so many looks for a reply it is told that there is none yet
LOOKS = 250


class Fifo(Lines):
    """A named pipe that is held open."""

    def __init__(self, path):
        super().__init__(os.open(path, os.O_RDWR | os.O_NONBLOCK))

    def heard(self):
        """The lines that have come whole since they were asked for."""
        with suppress(BlockingIOError):
            return [it.lstrip() for it in self.cut(os.read(self.fd, PIECE)).split(b"\n") if it.strip()]
        return []


class Acks:
    """How many bytes the consumer has made durable, None where it does not say: the last line of a file, or pipe."""

    def __init__(self, path):
        self.path, self.pipe = path, Fifo(path) if path and Path(path).is_fifo() else None
        self.number = None if self.pipe or not path else 0
        self.read()
        # over a named pipe the first one is waited for
        while self.pipe and self.number is None:
            select.select([self.pipe.fd], [], [])
            self.read()

    def read(self):
        """Takes what was said meanwhile."""
        lines = self.pipe.heard() if self.pipe else []
        if self.path and not self.pipe:
            # of a file to which a line is added each time its end is enough
            with suppress(FileNotFoundError), open(self.path, "rb") as file:
                file.seek(max(0, os.fstat(file.fileno()).st_size - PIECE))
                lines = file.read().split(b"\n")[:-1]
        if lines and lines[-1].strip().isdigit():
            self.number = int(lines[-1])


class Changes:
    """The named pipe of the operator, and the list in which each statement stands before bq has it, and then its reply.

    With the number of lines before it a run that goes on from an older checkpoint says it again in the same place.
    """

    def __init__(self, folder, handle, pipe, is_anew):
        pipe = pipe or os.path.join(folder, "control")
        with suppress(FileExistsError):
            os.mkfifo(pipe, 0o600)
        require(Path(pipe).is_fifo(), f"{pipe} is no named pipe")
        self.pipe, self.path, self.handle = Fifo(pipe), Path(folder, "changes"), handle
        self.path.touch()
        there = self.path.read_bytes()
        # a session that begins anew has none, and a last line that is torn was not sent
        self.text = b"" if is_anew else there[:there.rfind(b"\n") + 1]
        require(not LINE.sub(b"", self.text), f"{self.path} has a line that no keeper wrote")
        if self.text != there:
            save(self.path, self.text, handle)
        # statements, each with the number of lines before it; and how many of them have a reply
        lines = LINE.findall(self.text)
        self.known = [(int(kind), said) for kind, said in lines if kind.isdigit()]
        self.replied = sum(kind == b"=" for kind, _ in lines)

    def append(self, line):
        """Brings a line to the disk, whole or not at all; whether it stands there."""
        try:
            save(self.path, self.text + line, self.handle)
        except OSError as fault:
            log.error("%s is not written, as %s", line.decode(errors="replace").rstrip(), fault)
            return False
        self.text += line
        return True

    def hear(self, lines):
        """Takes statements, and what they ask for holds behind so many lines; who sent another line is told."""
        for statement in self.pipe.heard():
            if not STATEMENT.match(statement):
                self.append(b"! CREATE and DROP lines alone\n")
            elif self.append(b"%d %s\n" % (lines, statement)):
                self.known.append((lines, statement))


def send(folder, path):
    """Sends the statements of a file to the run that has the folder, and prints the replies; whether all were taken."""
    lines, is_taken = [it.strip() for it in Path(path).read_bytes().split(b"\n")], True
    try:
        pipe = os.open(os.path.join(folder, "control"), os.O_WRONLY | os.O_NONBLOCK)
    except OSError:
        raise Fault(f"no run has {folder}: start one, then change it") from None
    # replies come in the order of the statements, so one operator waits for the other
    fcntl.flock(pipe, fcntl.LOCK_EX)
    end = select.poll()
    end.register(pipe, 0)
    changes = Path(folder, "changes")
    for line in (it for it in lines if it and not it.startswith(b"--")):
        before = changes.stat().st_size
        os.write(pipe, line + b"\n")
        for looks in itertools.count():
            is_last = end.poll(20)
            if reply := REPLY.search(changes.read_bytes(), before):
                print(reply[1].decode(), flush=True)
                is_taken = is_taken and reply[1].startswith(b"ok ")
                break
            require(not is_last, f"the run that has {folder} ended before it replied; {changes} has what it took")
            if looks == LOOKS:
                log.warning("no reply yet: the run says whether its disk is full, or rows are to come again first")
    return is_taken
