"""What is counted: answers by query and errors by word, in all and in each of the last seconds."""
import re
from collections import deque

SECONDS = 20
ANSWER = re.compile(rb"([A-Za-z_]\w*),(-?\d+(?:,-?\d+)*)$")
ERROR = re.compile(rb"error \d+ (\w+)$")


class Series:
    """A number that grows: its whole, and how much it grew in each of the last seconds."""

    def __init__(self, total=0):
        self.total, self.seen, self.last = total, total, ""
        self.grown = deque([0] * SECONDS, SECONDS)

    def tick(self):
        """Ends a second."""
        self.grown.append(self.total - self.seen)
        self.seen = self.total


class Replies:
    """Counts the lines of a session; a line that is no answer and no error is a reply to a statement and counts as such."""

    def __init__(self):
        self.series = {}

    def take(self, line):
        """Counts a line, or the replies of a line of --each, joined by `;`."""
        for reply in line.rstrip(b"\n").split(b";"):
            answer, error = ANSWER.match(reply), ERROR.match(reply)
            if answer:
                self.count(answer[1].decode(), answer[2].decode())
            elif error:
                self.count(f"error {error[1].decode()}", reply.decode())
            elif reply:
                self.count("replies to statements", reply.decode(errors="replace"))

    def count(self, name, said):
        series = self.series.setdefault(name, Series())
        series.total += 1
        series.last = said

    def tick(self):
        for series in self.series.values():
            series.tick()


class Numbers:
    """The numbers of a file in the text of Prometheus: those that only grow with their growth, the others as they are."""

    def __init__(self):
        self.series = {}

    def take(self, text):
        """Reads the file anew; what it cannot read it passes by."""
        for line in text.splitlines():
            name, _, value = line.rpartition(" ")
            try:
                number = float(value)
            except ValueError:
                continue
            if name and not line.startswith("#"):
                said = name.removeprefix("keep_").replace("_", " ")
                series = self.series.setdefault(said, Series(number))
                series.total = number
                series.last = "" if "_total" in name else "as it is"

    def tick(self):
        for series in self.series.values():
            series.tick()
