"""From lines that are typed to the lines that a session is asked."""
import re

STARTS = ("CREATE", "EXPLAIN", "DROP", "CHECKPOINT", "RESUME", "LOCK", "UNLOCK")
WORD = re.compile(r"\s*([A-Za-z_]\w*)")
ROW = re.compile(r"\s*[A-Za-z_]\w*\s*,(\s*[+-]?\d+\s*(,|$))+\s*$")


def kind_of(line):
    """What a line is: `empty`, `comment`, `own` (a word of the shell), `row`, `start` of a statement, or `other` text."""
    text = line.strip()
    if not text:
        return "empty"
    if text.startswith("--"):
        return "comment"
    if text.startswith(".") or text.lower() in ("help", "quit", "exit"):
        return "own"
    if ROW.match(text):
        return "row"
    found = WORD.match(text)
    if found and found[1].upper() in STARTS and not text[found.end():].lstrip().startswith(","):
        return "start"
    return "other"


class Statements:
    """Gathers typed lines, and gives each request as soon as it is whole.

    A request is a pair: `own` with a word of the shell, or `line` with one line for the session.
    """

    def __init__(self):
        self.pending = []

    @property
    def is_waiting(self):
        """Whether a statement has begun and has not ended."""
        return bool(self.pending)

    def end(self):
        """The request that was waiting, where there is one."""
        text, self.pending = " ".join(self.pending), []
        return [("line", text)] if text else []

    def add(self, line):
        """The requests that are whole once this line is there."""
        kind, text = kind_of(line), line.strip()
        if kind == "empty":
            return self.end()
        if kind == "comment" and self.pending:
            return []
        if kind in ("own", "comment", "row"):
            return self.end() + [("own" if kind == "own" else "line", text)]
        whole = self.end() if kind == "start" else []
        if kind == "other" and not self.pending:
            return whole + [("line", text)]
        self.pending.append(text)
        return whole + (self.end() if text.endswith(";") else [])
