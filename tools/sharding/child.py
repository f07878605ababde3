"""A bq process that is asked for the replies to whole batches of lines."""
import subprocess
import threading

END_OF_BATCH = b";\n"


class Ended(Exception):
    """The bq process ended by itself."""


class Child:
    """One `bq run`."""

    def __init__(self, program):
        self.process = subprocess.Popen([program, "run"], stdin=subprocess.PIPE, stdout=subprocess.PIPE)
        self.lines = 0

    def ask(self, lines):
        """The replies to lines, each with its LF. The line `;` is sent behind them: it is no statement, so it is answered by an error with its own
        number, `Syntax` or, where the session is locked, `Locked`. No other reply names that number, so it ends the replies."""
        text = b"".join(line + b"\n" for line in lines) + END_OF_BATCH
        self.lines += len(lines) + 1
        # bq writes while it is written to, so neither side may wait for the other
        writer = threading.Thread(target=self.write, args=(text,), daemon=True)
        writer.start()
        last, replies = b"error %d " % self.lines, []
        for reply in iter(self.process.stdout.readline, b""):
            if reply.startswith(last):
                writer.join()
                return replies
            replies.append(reply)
        raise Ended(f"bq ended with status {self.process.wait()}")

    def write(self, text):
        """Writes to bq; where it has ended, its replies show that."""
        try:
            self.process.stdin.write(text)
            self.process.stdin.flush()
        except (BrokenPipeError, ValueError):
            pass

    def end(self):
        """Ends the process; what it has not answered is dropped."""
        self.process.kill()
        self.process.wait()
        for pipe in (self.process.stdin, self.process.stdout):
            try:
                pipe.close()
            except BrokenPipeError:
                pass
