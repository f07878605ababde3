"""The lock of a session: which lines it lets, and what LOCK and UNLOCK lead to.

A locked session has a key, the number that unlocks it, or None; and the names of the open streams, or None where
all are open. Everything here is written from the description of the language, and works on bytes.
"""
from collections import namedtuple

import language
from language import Refused, Unlock

Locked = namedtuple("Locked", "key opened")


def unlocks(locked, stripped):
    """Whether a stripped statement is the UNLOCK of the key."""
    if locked.key is None:
        return False
    try:
        statement = language.parse(stripped)
    except Refused:
        return False
    return isinstance(statement, Unlock) and statement.key == locked.key


def lets(locked, stripped):
    """Whether a stripped line of at most 1,024 bytes is let: it says nothing, is a row of an open stream, or unlocks."""
    if language.says_nothing(stripped):
        return True
    name = language.row_name(stripped)
    if name is not None:
        return locked.opened is None or name in locked.opened
    return unlocks(locked, stripped)


def locked_by(statement, streams):
    """What a LOCK statement leads to over the streams that are there."""
    if len(set(statement.streams)) < len(statement.streams):
        raise Refused("Duplicate")
    if any(it not in streams for it in statement.streams):
        raise Refused("UnknownStream")
    return Locked(statement.key, frozenset(statement.streams) if statement.streams else None)


def meet(locked, wanted):
    """The lock of a feed that gives rows of the wanted streams, or of all where None, in a session with this lock or with none: no
    key opens it.
    """
    opened = locked.opened if locked else None
    if wanted is None:
        return Locked(None, opened)
    return Locked(None, frozenset(wanted) if opened is None else opened & frozenset(wanted))
