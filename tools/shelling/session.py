"""A session of `bq run`, asked line by line, and what `bq advise` says of a line."""
import re
import subprocess
import threading

# Up to so many lines advice is asked with empty lines where rows stood, so that the numbers of lines in it are the session's.
MOST_PADDED = 20_000
CREATED = re.compile(r"ok (?:stream|query) (\w+)")
DROPPED = re.compile(r"ok drop (\w+)")
NAME = re.compile(r"(?i)\s*CREATE\s+(?:SHARED\s+)?(?:COMPACT\s+)?(STREAM|QUERY)\s+(\w+)\s*(?:\(([^)]*)\))?")


class Ended(Exception):
    """bq ended, or its text ended in the middle of a reply."""


class Session:
    """One `bq run --each`: for each line that is sent one line comes back, with the lines of the reply joined by semicolons.

    It keeps the statements that were taken, so that advice and completion know the streams and the live queries.
    """

    def __init__(self, program):
        self.program = program
        self.process = subprocess.Popen([program, "run", "--each"], stdin=subprocess.PIPE, stdout=subprocess.PIPE)
        # Of each statement that was taken its name, its text and its line; the streams with their columns; the live queries; the lines so far.
        self.taken, self.streams, self.queries, self.lines = [], {}, [], 0

    def ask(self, line):
        """The lines of the reply to one line.

        The line is written by a thread of its own, since bq may answer more than a pipe holds before it has read all of it.
        """
        self.lines += 1
        writer = threading.Thread(target=self._write, args=(line,))
        writer.start()
        reply = self.process.stdout.readline()
        writer.join()
        if not reply.endswith(b"\n"):
            raise Ended(f"bq ended with status {self.process.wait()}")
        lines = [piece for piece in reply[:-1].decode("utf-8", "replace").split(";") if piece]
        self._learn(line, lines)
        return lines

    def _write(self, line):
        try:
            self.process.stdin.write(line.encode("utf-8", "surrogateescape") + b"\n")
            self.process.stdin.flush()
        except BrokenPipeError:
            pass  # the reader sees that bq ended

    def _learn(self, line, lines):
        first = lines[0] if lines else ""
        made, gone = CREATED.match(first), DROPPED.match(first)
        named = NAME.match(line)
        if made and named:
            self.taken.append((named[2], line, self.lines))
            if named[1].upper() == "STREAM":
                self.streams[named[2]] = [it.split()[0] for it in (named[3] or "").split(",") if it.split()]
            else:
                self.queries.append(named[2])
        elif first == "ok lock":
            self.taken.append((None, line, self.lines))
        elif first == "ok unlock":
            self.taken = [it for it in self.taken if it[0] is not None]
        elif gone and gone[1] in self.queries:
            self.queries.remove(gone[1])
            # A stream and a query may have one name: the newest statement of a query is the one that goes.
            for at in reversed(range(len(self.taken))):
                name, statement, _ = self.taken[at]
                if name == gone[1] and NAME.match(statement)[1].upper() == "QUERY":
                    del self.taken[at]
                    break

    def advice(self, line):
        """What `bq advise` says of the line that was asked last, behind the statements that were taken."""
        script = [statement for _, statement, _ in self.taken]
        if self.lines <= MOST_PADDED:
            script = [""] * (self.lines - 1)
            for _, statement, number in self.taken:
                script[number - 1] = statement
        text = "".join(f"{it}\n" for it in [*script, line])
        ran = subprocess.run([self.program, "advise"], input=text.encode("utf-8", "surrogateescape"), stdout=subprocess.PIPE, check=False)
        return advice_on(ran.stdout.decode("utf-8", "replace").split("\n"), len(script) + 1)

    def close(self):
        """Ends the session."""
        self.process.stdin.close()
        self.process.wait()


def advice_on(lines, number):
    """The part of a text of `bq advise` that belongs to the line of this number, without the number."""
    found, inside = [], False
    for line in lines:
        head = re.match(r"line (\d+): ?", line)
        if head:
            inside = int(head[1]) == number
            line = line[head.end():]
        elif not line.startswith(" "):
            inside = False
        if inside:
            found.append(line)
    return found
