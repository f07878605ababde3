"""One bq behind two pipes, for neither of which is waited: what is sent to it, and what its replies belong to.

It is locked by a random number, so producers can only say rows. The keeper's own statements stand between UNLOCK and
LOCK; only these are answered `ok unlock` and `ok lock`, so what stands between is the reply.
"""
import fcntl
import os
import re
import subprocess
from collections import deque
from contextlib import suppress

from keeper import Fault
from keeper.stream import AT_ONCE, ERROR, Lines, Outlet

# F_SETPIPE_SZ of Linux, and the most that is allowed without more rights
SET_SIZE, PIPE_SIZE = 1031, 1 << 20
# no other line of a reply ends so
LOCKED, UNLOCKED = b"ok lock\n", b"ok unlock\n"
REFUSED = re.compile(rb"^(?!ok (?:stream|query|drop) ).+", re.MULTILINE)


class Session(Outlet):
    """bq, with the lines that were sent to it: first those that begin the session; `give` takes the replies to rows."""

    def __init__(self, options, text, lines_before, give):
        words = [options.program, "run", *(["--rows", options.rows] if options.rows else [])]
        self.process = subprocess.Popen(words, stdin=subprocess.PIPE, stdout=subprocess.PIPE, bufsize=0)
        super().__init__(self.process.stdin.fileno(), "bq", AT_ONCE)
        # this end of the pipe is the keeper's alone
        os.set_blocking(self.fd, False)
        self.replies, self.give = Lines(self.process.stdout.fileno()), give
        self.streams = b" TO " + options.to.encode() if options.to else b""
        with suppress(OSError):
            for fd in (self.fd, self.replies.fd):
                fcntl.fcntl(fd, SET_SIZE, PIPE_SIZE)
        # of each group of the keeper's own lines that is not answered how many lines it has, and who takes the replies;
        # what has come of the first of them, or None outside; and what makes the number of a line one of the input
        self.groups, self.own, self.shift, self.key = deque(), [], lines_before, None
        self.is_begun = self.is_closed = self.is_gone = False
        self.ask(text, lambda _: None)

    def ask(self, text, then, *words):
        """Sends lines of the keeper's own, and has `then` take the replies when all came; a new number locks behind."""
        unlock = b"" if self.key is None else b"UNLOCK %d\n" % self.key
        self.key = int.from_bytes(os.urandom(8), "big") >> 2
        text = b"%s%sLOCK %d%s\n" % (unlock, text, self.key, self.streams)
        self.groups.append((text.count(b"\n"), then, words))
        self.put(text)

    def close(self):
        """Tells bq that no more comes, when all is sent."""
        self.is_closed = True
        if not self.pending:
            self.process.stdin.close()

    def fail(self, fault):
        """Of a bq that has ended the replies tell; it takes nothing."""
        self.is_gone, self.pending = True, b""

    def take(self, text):
        """Gives replies to the input to `give`, and others to whom they belong."""
        while text:
            before, mark, text = text.partition(UNLOCKED if self.own is None else LOCKED)
            if self.own is None:
                # the input counts its lines without the keeper's own
                self.give(ERROR.sub(lambda it: b"error %d %s" % (int(it[1]) + self.shift, it[2]), before))
                self.own = [] if mark else None
                continue
            self.own.append(before)
            # the lock too may be refused, and then its reply never comes
            if not self.is_begun and (found := REFUSED.search(before)):
                raise Fault(f"bq does not take what begins the session: {found[0].decode()}")
            if mark:
                (count, then, words), said, self.own = self.groups.popleft(), b"".join(self.own), None
                self.shift, self.is_begun = self.shift - count, True
                then(*words, said)

    def end(self):
        """The status of a bq that gives no more replies."""
        with self.process as process:
            if not self.is_closed:
                process.kill()
        return process.returncode
