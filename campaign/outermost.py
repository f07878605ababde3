"""Scripts with integers at the ends of what may be written: those of another script, all moved by one number.

The integers of statements stay within 15 digits: what would have more becomes the nearest that has not. So a query and its neighbours are
tried, one of which has an outer integer that may not be written.
"""
import re

from language import LARGEST_INTEGER

NEAR = [0, 0, 1, 1, 2, 3, 4]
SMALL = 1_000_000
INTEGER = re.compile(rb"(?<![\w.])[+-]?\d+(?![\w.])")
DOMAIN = re.compile(rb" IN (-?\d+)\.\.(-?\d+)")


def within(number):
    return max(-LARGEST_INTEGER, min(LARGEST_INTEGER, number))


def moved_domain(found, by):
    low, high = (within(int(it) + by) for it in found.groups())
    return b" IN %d..%d" % (low, high)


def moved_statement(line, by):
    """A CREATE line with the domains, or the integers behind WHERE, moved."""
    if line.startswith(b"CREATE STREAM "):
        return DOMAIN.sub(lambda it: moved_domain(it, by), line)
    head, where, tail = line.partition(b" WHERE ")
    return head + where + INTEGER.sub(lambda it: b"%d" % within(int(it.group()) + by), tail)


def moved_row(line, by):
    """A row with its small integers moved: rows may have more digits."""
    name, *fields = line.split(b",")
    return b",".join([name] + [b"%d" % (int(it) + by) if INTEGER.fullmatch(it) and abs(int(it)) < SMALL else it for it in fields])


def moved(text, random):
    """The script with its integers moved to the greatest or the least that may be written."""
    by = random.choice([1, -1]) * (LARGEST_INTEGER - random.choice(NEAR))
    lines = [moved_statement(it, by) if it.startswith(b"CREATE ") else moved_row(it, by) for it in text.split(b"\n")]
    return b"\n".join(lines)
