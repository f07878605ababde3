"""What the program says over words, files and standard input: a judge of `run` with a FILE and `--each`, of `feeds` with a
script, and of words that are no form of a command.

It is written from the description alone. Files are read in a folder; one that cannot be read is told by None. Other commands are
judged where their whole text is known here: else the judge says nothing.
"""
import os
import re
from collections import namedtuple

import checker
import language
import lock
import lower
from evaluator import MOST_ROWS, Session
from language import RESERVED

Result = namedtuple("Result", "output status errors")
RunForm = namedtuple("RunForm", "rows each file")
FeedsForm = namedtuple("FeedsForm", "rows script names")

USAGE = Result(b"", 2, b"bq: these words are no form of the command; nothing was read\n"
                       b"usage: bq run [--rows N] [--each] [FILE], or bq --help for all forms\n")
LEAST_FEEDS, MOST_FEEDS = 2, 8
WORD_BYTES = b"ABCDEFGHIJKLMNOPQRSTUVWXYZabcdefghijklmnopqrstuvwxyz0123456789_"


class WrongWords(Exception):
    """The words are no form of the command."""


# words

def row_limit(word):
    """The number of rows that a word says, in its shortest form."""
    if not word.isascii() or not word.isdigit() or str(int(word)) != word or not 1 <= int(word) <= MOST_ROWS:
        raise WrongWords
    return int(word)


def file_name(word):
    """A word that may name a file or a script."""
    if not word or word.startswith("-"):
        raise WrongWords
    return word


def options(words, readers):
    """The options at the front, each at most once in any order, by name; and the words behind them.

    `readers` has for each option what reads its word, or None for one without a word.
    """
    found = {}
    while words and words[0] in readers and words[0] not in found:
        name, reader = words[0], readers[words[0]]
        if reader is None:
            found[name], words = True, words[1:]
            continue
        if len(words) < 2:
            raise WrongWords
        found[name], words = reader(words[1]), words[2:]
    return found, words


def run_form(words):
    found, rest = options(words, {"--rows": row_limit, "--each": None})
    if len(rest) > 1:
        raise WrongWords
    return RunForm(found.get("--rows", MOST_ROWS), "--each" in found, file_name(rest[0]) if rest else None)


def is_name(text):
    """Whether a text is a name of the language."""
    return (0 < len(text) <= language.LONGEST_NAME and text[:1] not in b"0123456789" and all(it in WORD_BYTES for it in text)
            and text.upper() not in RESERVED)


def gated(word):
    """The streams, or None for all, and the file of a word that names a feed behind a script."""
    front, at, rest = word.partition("@")
    if not at or "/" in front:
        return None, word
    names = front.encode().split(b",")
    if not rest or not all(map(is_name, names)):
        raise WrongWords
    return names, rest


def feeds_form(words):
    found, rest = options(words, {"--rows": row_limit, "--script": file_name})
    if not LEAST_FEEDS <= len(rest) <= MOST_FEEDS:
        raise WrongWords
    script = found.get("--script")
    names = [(None, it) for it in rest] if script is None else [gated(it) for it in rest]
    return FeedsForm(found.get("--rows", MOST_ROWS), script, names)


# texts

def read(folder, name):
    """The bytes of a file in a folder, or None where it cannot be read."""
    try:
        with open(os.path.join(folder, name) if name else "", "rb") as file:
            return file.read()
    except OSError:
        return None


def cannot_be_read(name):
    return Result(b"", 4, b"bq: %s: cannot be read\n" % name.encode())


def joined(reply):
    """A reply as one line: each LF but the last is a semicolon, and no reply is an empty line."""
    return reply[:-1].replace(b"\n", b";") + b"\n"


def run_result(form, folder, given):
    script = b"" if form.file is None else read(folder, form.file)
    if script is None:
        return cannot_be_read(form.file)
    session = Session(form.rows)
    replies = [session.reply(it) for it in language.lines_of(script) + language.lines_of(given)]
    return Result(b"".join(map(joined, replies) if form.each else replies), 0, b"")


def turns(session, feeds, gates):
    """What is written while feeds take turns; a feed is None where it fails at once."""
    written, longest = [], max(1 if it is None else len(it) for it in feeds)
    for place in range(longest):
        for number, (feed, gate) in enumerate(zip(feeds, gates), 1):
            if feed is None:
                written.append(b"feed %d fault\n" % number if place == 0 else b"")
            elif place < len(feed):
                session.lock = gate or session.lock
                written.append(session.reply(feed[place]))
    return b"".join(written)


def feeds_result(form, folder):
    session, written, gates = Session(form.rows), b"", [None] * len(form.names)
    if form.script is not None:
        script = read(folder, form.script)
        if script is None:
            return cannot_be_read(form.script)
        written = b"".join(map(session.reply, language.lines_of(script)))
        wanted = [None if it is None else set(it) & set(session.streams) for it, _ in form.names]
        gates = [lock.meet(session.lock, it) for it in wanted]
    texts = [read(folder, name) for _, name in form.names]
    feeds = [None if it is None else language.lines_of(it) for it in texts]
    return Result(written + turns(session, feeds, gates), 4 if None in feeds else 0, b"")


def certify_result(given):
    refusal = checker.certify_refusal(given)
    return None if refusal is None else Result(refusal, 1, b"")


def lower_result(words, given):
    every = words[:1] == [lower.EVERY]
    number = words[1:] if every else words
    if len(number) != 1 or not re.fullmatch("[1-9][0-9]{0,2}|1000", number[0]):
        raise WrongWords
    known = lower.without_family(given, every)
    return None if known is None else Result(*known, b"")


def judge(words, folder, given):
    """The wanted output, status and standard error, or None where this judge does not know them."""
    try:
        if words[:1] == ["run"]:
            return run_result(run_form(words[1:]), folder, given)
        if words[:1] == ["feeds"]:
            return feeds_result(feeds_form(words[1:]), folder)
        if words == ["certify"]:
            return certify_result(given)
        if words == ["check"]:
            output, status = checker.certificate_reply(given)
            return Result(output, status, b"")
        if words[:1] == ["lower"]:
            return lower_result(words[1:], given)
        if words[:1] == ["load"] and len(words) == 2 and words[1].isdigit() and 1 <= int(words[1]) <= 100_000:
            return None
        if words in (["advise"], ["--help"], ["-h"], ["--version"], ["-V"]):
            return None
        raise WrongWords
    except WrongWords:
        return USAGE
