"""The prompt: typed lines in, replies and advice out."""
import os
import sys
import time

from shelling.drawing import drawn
from shelling.reading import Statements
from shelling.session import Ended, Session

HELP = """\
CREATE STREAM Reading (room, celsius);       a stream and its columns
CREATE QUERY hot AS SELECT .. FROM .. WHERE ..;
Reading,1,22                                 a row: its new answers follow at once
EXPLAIN hot;  DROP QUERY hot;  CHECKPOINT;   a statement ends with ; or an empty line
.streams  .queries                           what is there
.explain NAME                                how a query is kept, drawn
.load FILE                                   the lines of a file, as if they were typed
.time                                        how long each line takes, on or off
help  .quit                                  this text; the end (also Ctrl-D)"""
WORDS = ("CREATE", "STREAM", "QUERY", "COMPACT", "SHARED", "AS", "SELECT", "DISTINCT", "FROM", "WHERE", "AND", "EXPLAIN", "DROP", "CHECKPOINT",
         "LOCK", "UNLOCK", "TO", ".streams", ".queries", ".explain", ".load", ".time", ".quit", "help")


class Shell:
    """A session, the lines that wait for their end, and where text goes."""

    def __init__(self, program, out, is_coloured):
        self.session, self.statements = Session(program), Statements()
        self.out, self.is_coloured, self.is_timed = out, is_coloured, False

    def say(self, text, colour=None):
        """Writes a line, coloured at a terminal alone."""
        self.out.write(f"\x1b[{colour}m{text}\x1b[0m\n" if colour and self.is_coloured else f"{text}\n")

    def take(self, line):
        """Does what a typed line asks for; false where it asks for the end."""
        return all([self.do(kind, text) for kind, text in self.statements.add(line)])

    def finish(self):
        """Does what still waits for its end."""
        return all([self.do(kind, text) for kind, text in self.statements.end()])

    def do(self, kind, text):
        """Does one request; false where it asks for the end."""
        if kind == "own":
            return self.own(text)
        began = time.perf_counter()
        lines = self.session.ask(text)
        took = time.perf_counter() - began
        for line in lines:
            self.say(line, "31" if line.startswith(("error ", "refused ")) else None)
        if lines and lines[-1].startswith(("error ", "refused ")):
            for line in self.session.advice(text):
                self.say(f"  {line}", "33")
        if self.is_timed:
            self.say(f"  {took * 1000:.3f} ms", "2")
        return True

    def own(self, text):
        """Does what a word of the shell asks for; false where it asks for the end."""
        word, _, rest = text.rstrip(";").strip().partition(" ")
        rest = rest.strip()
        if word.lower() in (".quit", ".exit", "quit", "exit"):
            return False
        if word.lower() in ("help", ".help"):
            self.say(HELP)
        elif word == ".streams":
            for name, columns in self.session.streams.items():
                self.say(f"{name} ({', '.join(columns)})")
        elif word == ".queries":
            for name in self.session.queries:
                self.say(name)
        elif word == ".explain":
            self.explain(rest)
        elif word == ".load":
            return self.load(rest)
        elif word == ".time":
            self.is_timed = not self.is_timed
            self.say("times are shown" if self.is_timed else "times are not shown")
        else:
            self.say(f"there is no {word}; help lists the words", "33")
        return True

    def explain(self, name):
        """Draws how a live query is kept."""
        if name not in self.session.queries:
            live = ", ".join(self.session.queries) or "none"
            self.say(f".explain wants the name of a live query; there are: {live}", "33")
            return
        for line in drawn(self.session.ask(f"EXPLAIN {name}"), name):
            self.say(line)

    def load(self, path):
        """Takes the lines of a file; false where one of them asks for the end."""
        try:
            with open(path, encoding="utf-8", errors="surrogateescape") as file:
                for line in file:
                    if not self.take(line.rstrip("\n")):
                        return False
            return self.finish()
        except OSError as error:
            self.say(f"{path or '.load'}: {error.strerror}", "33")
            return True


def complete_with(shell):
    """A function for readline that completes words, streams, columns and queries."""
    def complete(begun, state):
        names = [*shell.session.streams, *shell.session.queries]
        names += [f"{stream}.{column}" for stream, columns in shell.session.streams.items() for column in columns]
        fitting = [word for word in (*WORDS, *names) if word.lower().startswith(begun.lower())]
        return fitting[state] if state < len(fitting) else None
    return complete


def set_up_readline(shell):
    """History and completion, where Python has readline."""
    try:
        import readline
    except ImportError:
        return
    path = os.path.join(os.environ.get("XDG_STATE_HOME") or os.path.expanduser("~/.local/state"), "bq", "history")
    os.makedirs(os.path.dirname(path), exist_ok=True)
    try:
        readline.read_history_file(path)
    except OSError:
        pass  # there is none yet
    import atexit
    atexit.register(lambda: readline.write_history_file(path))
    readline.set_history_length(1000)
    readline.set_completer_delims(" \t\n(),;<>=")
    readline.set_completer(complete_with(shell))
    readline.parse_and_bind("tab: complete")


def typed(shell):
    """Takes lines that a person types until the end."""
    set_up_readline(shell)
    shell.say("help lists what may be typed; Ctrl-D ends", "2")
    while True:
        try:
            line = input("..> " if shell.statements.is_waiting else "bq> ")
        except EOFError:
            shell.say("")
            return shell.finish()
        except KeyboardInterrupt:
            shell.statements.pending.clear()
            shell.say("")
            continue
        if not shell.take(line):
            return True


def piped(shell):
    """Takes the lines of standard input until its end."""
    for line in sys.stdin:
        if not shell.take(line.rstrip("\n")):
            return True
    return shell.finish()


def program_named(words):
    """The program and the files that the words name; None where they are wrong."""
    here = os.path.dirname(os.path.dirname(os.path.dirname(os.path.realpath(__file__))))
    built = os.path.join(here, "crates", "bq", "out", "bq")
    program = built if os.access(built, os.X_OK) else "bq"
    if words[:1] == ["--program"]:
        if len(words) < 2:
            return None
        program, words = words[1], words[2:]
    return None if any(word.startswith("-") for word in words) else (program, words)


def main(words):
    """Runs the shell, and gives its status."""
    named = program_named(words)
    if named is None:
        print("usage: tools/shell [--program BQ] [FILE ..]", file=sys.stderr)
        return 2
    program, files = named
    for path in files:
        if not os.access(path, os.R_OK):
            print(f"shell: {path}: cannot be read", file=sys.stderr)
            return 4
    is_typed = sys.stdin.isatty()
    shell = Shell(program, sys.stdout, sys.stdout.isatty() and "NO_COLOR" not in os.environ)
    try:
        if all([shell.load(path) for path in files]):
            (typed if is_typed else piped)(shell)
    except Ended as error:
        print(f"shell: {error}", file=sys.stderr)
        return 1
    shell.session.close()
    return 0
