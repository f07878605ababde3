"""A partition at work: its bq, and where it stands."""
import re
import secrets
import time

from sharding import Refused
from sharding.child import Child, Ended
from sharding.engine import Kept, Lost

ERROR = re.compile(rb"error (\d+) (.*)\n")


class Partition:
    """One partition: rows in, the answers to them published under their numbers, and now and then its state saved.

    bq is deterministic and the order of a partition's rows is fixed, so the n-th answer of a partition is the same in every run. What is worked
    through again after a crash is published again under the numbers that it had. The session is locked behind its script, by a number that is drawn
    anew each time: so no line that comes as a row changes it, whatever it says.
    """

    def __init__(self, engine, number, script, words):
        kept = engine.kept(number)
        self.engine, self.number, self.words = engine, number, words
        self.rows, self.answers = (kept.rows, kept.answers) if kept else (0, 0)
        self.saved, self.saved_at = self.rows, time.monotonic()
        self.child, self.key = Child(words.program), secrets.randbits(63)
        lines = [*(kept.text.splitlines() if kept else script), b"LOCK %d" % self.key]
        for line, reply in zip(lines, self.child.ask(lines)):
            if not reply.startswith(b"ok "):
                raise Refused(f"bq answers `{reply.decode().strip()}` to a line of the {'state' if kept else 'script'} of partition {number}: {line.decode()}")

    def step(self, rows):
        """Answers rows, given with their numbers, and returns the refused ones as pairs of a number and a word."""
        # who was silent for long may find rows gone that the state of another covers
        if [number for number, _ in rows] != list(range(self.rows + 1, self.rows + 1 + len(rows))):
            raise Lost(f"partition {self.number} has row {rows[0][0]} where row {self.rows + 1} is next")
        begin = self.child.lines
        # a line end within a row would make two lines of it, and errors are told by the numbers of lines
        replies = self.child.ask([b"" if b"\n" in row else row for _, row in rows])
        answers = [it[:-1] for it in replies if not it.startswith(b"error ")]
        if answers:
            self.engine.publish(self.number, self.answers + 1, answers)
        self.answers += len(answers)
        self.rows += len(rows)
        errors = [ERROR.fullmatch(it) for it in replies if it.startswith(b"error ")]
        words = {int(it[1]) - begin - 1: it[2].decode() for it in errors}
        words.update({place: "LineEnd" for place, (_, row) in enumerate(rows) if b"\n" in row})
        return [(rows[place][0], word) for place, word in sorted(words.items())]

    def is_due(self):
        """Whether the state is to be saved."""
        fresh = self.rows - self.saved
        waited = time.monotonic() - self.saved_at >= self.words.seconds
        return fresh >= self.words.every or fresh and (waited or self.engine.is_full(self.number))

    def save(self):
        """Saves checkpoint and numbers of rows and answers, in one call, where rows came since the last time."""
        if self.rows > self.saved:
            unlocked, *text, locked = self.child.ask([b"UNLOCK %d" % self.key, b"CHECKPOINT", b"LOCK %d" % self.key])
            if (unlocked, locked) != (b"ok unlock\n", b"ok lock\n"):
                raise Ended(f"bq answers `{unlocked.decode().strip()}`, `{locked.decode().strip()}` around the checkpoint of partition {self.number}")
            self.engine.save(self.number, Kept(self.rows, self.answers, b"".join(text)))
            self.saved = self.rows
        self.saved_at = time.monotonic()

    def end(self):
        """Ends its bq."""
        self.child.end()
