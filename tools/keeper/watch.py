"""What there is to look at: lines for a log, numbers for Prometheus, a page for people, and words for systemd."""
import logging
import os
import re
import socket
import time
from collections import Counter
from contextlib import suppress

from keeper import Busy, log
from keeper.checkpoint import locked, numbers_in, path_of, save

CELLS, CELLS_A_PAGE = re.compile(rb"reply ok query \w+ parts \d+ cells (\d+) "), 64


class Watch:
    """Counts what a run does, and shows it once a second."""

    def __init__(self, run, options):
        self.run, self.restarts, self.failures = run, 0, 0
        # where numbers stand, and where they could not be written
        self.paths, self.untold = {os.path.join(options.folder, "metrics"), options.metrics} - {None}, set()
        # of the newest checkpoint of this run its size, how long the disk took for it, and when it stood
        self.stored = 0, 0, time.monotonic()
        self.next_look, self.rate, self.good_lines = 0, 0, run.source.lines
        # systemd names a socket for words to it
        self.address = re.sub("^@", "\0", os.environ.pop("NOTIFY_SOCKET", ""))
        self.socket = socket.socket(socket.AF_UNIX, socket.SOCK_DGRAM)

    def numbers(self):
        """What each number says, and the number; those that end in `total` only grow."""
        run, kept, session, (size, seconds, stored_at) = self.run, self.run.kept, self.run.session, self.stored
        run.sink.count()
        unwritten = len(run.sink.pending) + (session.replies.waiting() if session else 0)
        pages = sum(-(-int(found[1]) // CELLS_A_PAGE) for found in map(CELLS.match, kept.plan or ()) if found)
        return {
            "up": ("1 where the session takes lines", int(bool(kept.number and session and session.is_begun))),
            "rows_total": ("rows taken by the newest checkpoint, those of earlier runs too", kept.place.rows),
            "rows_per_second": ("lines taken in the last second, without those in error", self.rate),
            "lines_total": ("lines of the input", run.source.lines),
            "output_bytes_total": ("bytes of replies", run.sink.total),
            "lag_bytes": ("bytes of the input that wait", run.source.waiting()),
            "unwritten_bytes": ("bytes of replies that wait for who reads them", unwritten),
            "checkpoint_age_seconds": ("since the newest checkpoint of this run", time.monotonic() - stored_at),
            "checkpoint_bytes": ("its size", size),
            "checkpoint_seconds": ("how long the disk took for it", seconds),
            "checkpoint_failures_total": ("checkpoints that could not be written", self.failures),
            "pages_used": ("pages of the pool that live queries take, of 16384", pages),
            "restarts_total": ("how often bq was begun again in this run", self.restarts),
            "errors_total": ("lines of the input in error, by word", run.sink.errors),
            "answers_total": ("answers, by query", run.sink.answers)}

    def line(self):
        """A line that says how the run is."""
        return (f"{self.run.kept.place.rows} rows, {self.rate:.0f} a second, {self.run.source.waiting()} bytes wait,"
                f" checkpoint {time.monotonic() - self.stored[2]:.0f} s ago")

    def show(self, now):
        """Writes the numbers, and tells systemd how it is."""
        numbers, before, seconds = self.numbers(), self.good_lines, max(1, now - self.next_look + 1)
        self.good_lines = self.run.source.lines - sum(self.run.sink.errors.values())
        self.rate, self.next_look = max(0, self.good_lines - before) / seconds, now + 1
        for path in self.paths:
            try:
                save(path, "".join(lines_of(numbers)).encode())
                self.untold.discard(path)
            except OSError as fault:
                if path not in self.untold:
                    log.warning("no numbers in %s: %s", path, fault)
                self.untold.add(path)
        if self.address:
            words = f"WATCHDOG=1\nSTATUS={self.line()}" + ("\nREADY=1" if numbers["up"][1] else "")
            with suppress(OSError):
                self.socket.sendto(words.encode(), socket.MSG_DONTWAIT, self.address)


def lines_of(numbers):
    """What Prometheus reads."""
    for name, (says, value) in numbers.items():
        yield f"# HELP keep_{name} {says}\n# TYPE keep_{name} {'counter' if name.endswith('total') else 'gauge'}\n"
        if isinstance(value, Counter):
            yield from (f'keep_{name}{{{says.split()[-1]}="{it.decode()}"}} {value[it]}\n' for it in sorted(value))
        else:
            yield f"keep_{name} {value:.10g}\n"


def begin_log(path):
    """Has what is logged be said on standard error, and stand with time and level at the end of a file."""
    logging.raiseExceptions = False  # that nothing can be said ends no session
    logging.basicConfig(level=logging.INFO, format="keep: %(message)s")
    logging.Formatter.converter = time.gmtime
    if path:
        log.addHandler(handler := logging.FileHandler(path))
        handler.setFormatter(logging.Formatter("%(asctime)s.%(msecs)03dZ %(levelname)s %(message)s", "%FT%T"))


def page(folder):
    """Lines that say how a folder is, for people."""
    try:
        os.close(locked(folder))
        yield f"{folder}: no run has it"
    except Busy:
        yield f"{folder}: a run has it"
    for number in numbers_in(folder):
        status = os.stat(path_of(folder, number))
        yield f"  checkpoint {number}: {status.st_size} bytes, written {time.ctime(status.st_mtime)}"
    with suppress(FileNotFoundError), open(os.path.join(folder, "metrics"), encoding="utf-8") as file:
        yield f"  as of {time.ctime(os.fstat(file.fileno()).st_mtime)}:"
        for name, value in (line.rstrip("\n").rsplit(" ", 1) for line in file if not line.startswith("#")):
            yield f"    {name[5:].replace('_', ' '):<36}{value:>16}"
