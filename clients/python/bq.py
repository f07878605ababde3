"""bq inside Python: a session of bq, rows in and answers out. One file, which wants Python 3.9 and nothing else.

    import bq

    with bq.Session("CREATE STREAM Reading (room IN 1..39, celsius)\n"
                    "CREATE QUERY hot AS SELECT DISTINCT Reading.room FROM Reading WHERE Reading.celsius > 30\n") as session:
        for query, row in session.feed("Reading", [(1, 22), (2, 31)]):
            print(query, row)

A session lives in the library libbq.so, where that is found, or else in a process of the program bq; both answer alike. The library is the
file that BQ_LIBRARY names, or one beside this file, or the one that the system finds; the program is the one that BQ_PROGRAM names, or the
`bq` on the PATH. A session is used by one thread at a time, and says so by an exception. Other threads run while it works.
"""
from __future__ import annotations

import ctypes
import ctypes.util
import itertools
import os
import shutil
import subprocess
import threading
from typing import Any, Iterable, Iterator, List, Optional, Sequence, Tuple, Union

__all__ = ["Session", "Refused", "Stopped", "Answer", "MOST_ROWS", "MOST_PAGES", "advise"]

MOST_ROWS = 1 << 40
# The most pages of a session, and those of the program.
MOST_PAGES = 16384
# How many rows are fed at once where they come from an iterable.
BATCH = 1000
# How many bytes of replies the library holds before it asks to take them.
MOST_REPLIES = 1 << 20
ABI = 2

Answer = Tuple[str, Tuple[int, ...]]


class Refused(ValueError):
    """A line was refused: `line` is its number in the session, from 1, and `word` says why, as `UnknownColumn`."""

    def __init__(self, line: int, word: str):
        super().__init__(f"line {line}: {word}")
        self.line, self.word = line, word


class Stopped(MemoryError):
    """A reply broke off for want of memory, or the program ended; `replies` has the bytes that there are. The session takes no more."""

    def __init__(self, why: str, replies: bytes = b""):
        super().__init__(why)
        self.replies = replies


class Session:
    """A session: its streams, its queries, and what these keep of the rows so far.

    script   statements, each on a line, that are answered first; `Refused` is raised where one of them is
    rows     how many rows may be taken, 1 to 2^40
    pages    how many pages of 64 cells its queries have at most together, 1 to 16,384; only the library takes fewer
    library  a file in place of the library that is found, or False for a process of the program
    program  a file in place of the program that is found
    """

    def __init__(self, script: str = "", rows: int = MOST_ROWS, pages: int = MOST_PAGES, *, library: Union[str, bool, None] = None,
                 program: Optional[str] = None):
        if not 1 <= rows <= MOST_ROWS:
            raise ValueError(f"rows: 1 to 2^40, not {rows}")
        if not 1 <= pages <= MOST_PAGES:
            raise ValueError(f"pages: 1 to {MOST_PAGES}, not {pages}")
        self._lock, self._part = threading.Lock(), b""
        found = None if library is False else _library(library if isinstance(library, str) else None)
        if not found and pages != MOST_PAGES:
            raise ValueError(f"pages: a session in a process has {MOST_PAGES}, and only the library opens one of {pages}")
        self._inside: Union[_Library, _Process, None] = _Library(found, rows, pages) if found else _Process(_program(program), rows)
        try:
            self.execute(script)
        except BaseException:
            self.close()
            raise

    @classmethod
    def resume(cls, checkpoint: Union[bytes, str], rows: int = MOST_ROWS, **how: Any) -> "Session":
        """Opens a session that goes on from a checkpoint. Raises ValueError where the session has too few pages for one of its queries."""
        text = checkpoint.decode("ascii") if isinstance(checkpoint, bytes) else checkpoint
        session = cls("", rows, **how)
        try:
            lines = session._reply_lines(text)
            lacking = [line for line in lines if line.startswith("refused ")]
            if lacking:
                raise ValueError(f"a query of the checkpoint is refused: {lacking[0]}")
            _raise_refused(lines)
        except BaseException:
            session.close()
            raise
        return session

    def __enter__(self) -> "Session":
        return self

    def __exit__(self, *_: object) -> None:
        self.close()

    def __del__(self) -> None:
        if getattr(self, "_inside", None):
            self.close()

    def close(self) -> None:
        """Closes the session. Closing it again does nothing."""
        with _Alone(self._lock):
            inside, self._inside = self._inside, None
            if inside:
                inside.close()

    def feed_bytes(self, text: bytes) -> bytes:
        """Answers lines, and returns the bytes that `bq run` writes for them. A last line without LF is kept until the rest of it comes."""
        with _Alone(self._lock):
            whole, feed, part = (self._part + text).rpartition(b"\n")
            replies = self._answer(whole + feed)
            self._part = part
            return replies

    def end(self) -> bytes:
        """Answers a last line that has no LF, where one is kept, and returns its reply."""
        with _Alone(self._lock):
            last, self._part = self._part, b""
            return self._answer(last + b"\n") if last else b""

    def execute(self, script: str) -> List[str]:
        """Answers the lines of a script, a last one without LF too. Returns the lines of the replies; raises the first `Refused` among them,
        behind which all lines were answered too."""
        lines = self._reply_lines(script)
        _raise_refused(lines)
        return lines

    def feed(self, stream: str, rows: Any) -> Iterator[Answer]:
        """Feeds rows of a stream as one goes through what it returns: each answer as the name of its query and its values.

        `rows` is any iterable of sequences of integers, also one without an end, or a data frame or table that has `itertuples` (pandas),
        `iter_rows` (polars) or `to_pydict` (Arrow), whose columns are those of the stream in order. A thousand rows are fed at a time, and
        fewer only at the end: rows that come slowly are better fed one by one, by `feed_one`. Where rows are refused, the answers to all rows
        that were fed with them come first, and then the first `Refused` is raised.
        """
        iterator = iter(_rows_of(rows))
        while True:
            batch = list(itertools.islice(iterator, BATCH))
            if not batch:
                return
            answers, refused = self._feed_batch(stream, batch)
            yield from answers
            if refused:
                raise refused

    def feed_all(self, stream: str, rows: Any) -> List[Answer]:
        """Feeds rows of a stream at once, and returns all answers."""
        return list(self.feed(stream, rows))

    def feed_one(self, stream: str, *values: int) -> List[Answer]:
        """Feeds one row, and returns its answers."""
        return self.feed_all(stream, [values])

    def checkpoint(self) -> bytes:
        """Returns the lines from which another session goes on: see `resume`."""
        return "".join(f"{line}\n" for line in self.execute("CHECKPOINT")).encode("ascii")

    def announced(self) -> Tuple[int, int]:
        """Returns the sums of the cells and of the answers that the live queries announce. Only the library tells them."""
        with _Alone(self._lock):
            return self._open().announced()

    def _reply_lines(self, script: str) -> List[str]:
        """Answers the lines of a script, a last one without LF too, and returns the lines of the replies."""
        with _Alone(self._lock):
            if self._part:
                raise ValueError("a part of a line is kept: feed the rest of it, or call end")
            return _text_lines(self._answer((script if script.endswith("\n") or not script else script + "\n").encode()))

    def _open(self) -> "Union[_Library, _Process]":
        if self._inside is None:
            raise ValueError("the session is closed")
        return self._inside

    def _answer(self, text: bytes) -> bytes:
        inside = self._open()
        return inside.answer(text) if text else b""

    def _feed_batch(self, stream: str, batch: Sequence[Sequence[int]]) -> Tuple[List[Answer], Optional[Refused]]:
        text = "".join([f"{stream},{','.join([str(int(value)) for value in row])}\n" for row in batch])
        with _Alone(self._lock):
            if self._part:
                raise ValueError("a part of a line is kept: feed the rest of it, or call end")
            lines = _text_lines(self._answer(text.encode()))
        answers, first = [], None
        for line in lines:
            refused = _refused(line)
            if refused:
                first = first or refused
            else:
                query, *values = line.split(",")
                answers.append((query, tuple(map(int, values))))
        return answers, first


def advise(script: str, *, program: Optional[str] = None) -> Tuple[bool, str]:
    """Asks the program what is wrong with a script and what would better it. Returns whether nothing is refused, and the text."""
    ran = subprocess.run([_program(program), "advise"], input=script.encode(), capture_output=True, check=False)
    if ran.returncode not in (0, 1):
        raise OSError(f"bq advise ended with {ran.returncode}")
    return ran.returncode == 0, ran.stdout.decode("utf-8", "backslashreplace")


class _Library:
    """A session in the library."""

    def __init__(self, library: ctypes.CDLL, rows: int, pages: int):
        self._library, self._at = library, ctypes.c_void_p()
        self._taken, self._waiting = ctypes.c_size_t(), ctypes.c_size_t()
        self._room = ctypes.create_string_buffer(1 << 16)
        if library.bq_open(self._at, rows, pages, MOST_REPLIES):
            raise MemoryError("no memory for a session")

    def answer(self, text: bytes) -> bytes:
        """Answers whole lines."""
        replies = []
        while True:
            status = self._library.bq_feed(self._at, text, len(text), self._taken, self._waiting)
            waiting, taken = self._waiting.value, self._taken.value
            if waiting:
                replies.append(self._take(waiting))
            # Full, or no memory for replies, of which some were taken now: the rest may be fed.
            if status == 8 or (status == 9 and (waiting or taken)):
                text = text[taken:]
                continue
            if status in (5, 7):
                raise Stopped("no memory for a reply: the session takes no more lines", b"".join(replies))
            if status:
                raise MemoryError("no memory was found")
            return b"".join(replies)

    def _take(self, waiting: int) -> bytes:
        if waiting > len(self._room):
            self._room = ctypes.create_string_buffer(2 * waiting)
        self._library.bq_replies(self._at, self._room, len(self._room), self._waiting)
        replies = ctypes.string_at(self._room, waiting)
        self._library.bq_clear(self._at)
        return replies

    def announced(self) -> Tuple[int, int]:
        cells, answers = ctypes.c_uint64(), ctypes.c_uint64()
        self._library.bq_announced(self._at, cells, answers)
        return cells.value, answers.value

    def close(self) -> None:
        self._library.bq_close(self._at)


class _Process:
    """A session in a process of the program, by `bq run --each`: each line is answered by one line, so it is known when a reply is whole."""

    def __init__(self, program: str, rows: int):
        words = [program, "run", "--each", "--rows", str(rows)]
        self._process = subprocess.Popen(words, stdin=subprocess.PIPE, stdout=subprocess.PIPE)

    def answer(self, text: bytes) -> bytes:
        """Answers whole lines. A thread writes while this one reads, so that neither end waits for the other."""
        writer = threading.Thread(target=self._write, args=(text,), daemon=True)
        writer.start()
        replies = []
        for _ in range(text.count(b"\n")):
            line = self._process.stdout.readline()
            if not line.endswith(b"\n"):
                raise Stopped(f"the program ended with {self._process.wait()}", b"".join(replies))
            # Of the reply's own lines a semicolon parts each from the next.
            replies.append(b"" if line == b"\n" else line[:-1].replace(b";", b"\n") + b"\n")
        writer.join()
        return b"".join(replies)

    def _write(self, text: bytes) -> None:
        try:
            self._process.stdin.write(text)
            self._process.stdin.flush()
        except OSError:
            pass  # the program ended, which the reading thread tells

    def announced(self) -> Tuple[int, int]:
        raise NotImplementedError("only the library tells what the queries announce")

    def close(self) -> None:
        try:
            self._process.stdin.close()
        except OSError:
            pass
        self._process.stdout.close()
        self._process.wait()


class _Alone:
    """Holds a lock, or says that another thread has it."""

    def __init__(self, lock: threading.Lock):
        self._lock = lock

    def __enter__(self) -> None:
        if not self._lock.acquire(blocking=False):
            raise RuntimeError("the session is used by another thread: one thread at a time may use it")

    def __exit__(self, *_: object) -> None:
        self._lock.release()


def _library(file: Optional[str]) -> Optional[ctypes.CDLL]:
    """Gives the library, or none where there is none. A file that is named must be there."""
    named = file or os.environ.get("BQ_LIBRARY")
    beside = os.path.join(os.path.dirname(os.path.abspath(__file__)), "libbq.so")
    place = named or (beside if os.path.exists(beside) else ctypes.util.find_library("bq"))
    if not place:
        return None
    library = ctypes.CDLL(place)
    size, handle = ctypes.POINTER(ctypes.c_size_t), ctypes.POINTER(ctypes.c_void_p)
    number = ctypes.POINTER(ctypes.c_uint64)
    for name, result, arguments in (
        ("bq_abi", ctypes.c_uint32, []),
        ("bq_open", ctypes.c_uint32, [handle, ctypes.c_uint64, ctypes.c_uint32, ctypes.c_size_t]),
        ("bq_feed", ctypes.c_uint32, [handle, ctypes.c_char_p, ctypes.c_size_t, size, size]),
        ("bq_replies", ctypes.c_uint32, [handle, ctypes.c_char_p, ctypes.c_size_t, size]),
        ("bq_clear", ctypes.c_uint32, [handle]),
        ("bq_announced", ctypes.c_uint32, [handle, number, number]),
        ("bq_close", None, [handle]),
    ):
        function = getattr(library, name)
        function.restype, function.argtypes = result, arguments
    if library.bq_abi() != ABI:
        raise OSError(f"{place}: its functions have the number {library.bq_abi()}, and {ABI} is wanted")
    return library


def _program(file: Optional[str]) -> str:
    """Gives the program."""
    found = file or os.environ.get("BQ_PROGRAM") or shutil.which("bq")
    if not found:
        raise FileNotFoundError("neither libbq.so nor the program bq was found: BQ_LIBRARY or BQ_PROGRAM may name one")
    return found


def _rows_of(rows: Any) -> Iterable[Sequence[int]]:
    """Gives the rows of what may be a data frame or a table."""
    if hasattr(rows, "itertuples"):
        return rows.itertuples(index=False, name=None)
    if hasattr(rows, "iter_rows"):
        return rows.iter_rows()
    if hasattr(rows, "to_pydict"):
        return zip(*rows.to_pydict().values())
    return rows


def _text_lines(replies: bytes) -> List[str]:
    lines = replies.decode("ascii", "backslashreplace").split("\n")
    return lines[:-1]


def _raise_refused(lines: Iterable[str]) -> None:
    """Raises the first `Refused` among the lines of replies."""
    for line in lines:
        refused = _refused(line)
        if refused:
            raise refused


def _refused(line: str) -> Optional[Refused]:
    if not line.startswith("error "):
        return None
    _, number, word = line.split(" ", 2)
    return Refused(int(number), word)
