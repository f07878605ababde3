"""Pieces of a numbered sequence, put in order: what came twice is dropped, what came too early waits."""


class InOrder:
    """Takes pieces of a sequence that is numbered from 1, each a first number and a list, in any order and more than once."""

    def __init__(self, last=0):
        self.last, self.early = last, {}

    def put(self, first, items):
        """Keeps a piece unless a longer one of that place waits."""
        if first + len(items) - 1 > self.last and len(items) > len(self.early.get(first, ())):
            self.early[first] = items

    def take(self):
        """The items that come next, as pairs of a number and an item, as far as none is missing."""
        found = []
        for first in sorted(self.early):
            if first > self.last + 1:
                break
            items = self.early.pop(first)
            for number, item in enumerate(items[self.last + 1 - first:], self.last + 1):
                found.append((number, item))
                self.last = number
        return found

    def lowest(self):
        """The least number that waits, or None."""
        return min(self.early, default=None)
