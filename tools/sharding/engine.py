"""What a worker asks of an engine: a broker that holds rows, answers and states of partitions, and says who works on what.

The rows of a partition are numbered from 1 on, and so are its answers. Each engine is one class with these calls, in a file of its own. Nothing else of a worker knows which engine it runs on.
"""
from dataclasses import dataclass
from typing import Protocol


class Lost(Exception):
    """The engine is not to be had, or not as it was: what was under way begins again from what is kept."""


@dataclass(frozen=True)
class Kept:
    """A state of a partition: its first `rows` rows are in the checkpoint `text`, and had `answers` answers."""
    rows: int
    answers: int
    text: bytes


class Engine(Protocol):
    """An engine as one worker has it; each call may end with Lost."""

    def open(self):
        """Connects, with no partition owned."""

    def renew(self):
        """Keeps what is owned from running out; a thread of its own calls it several times in a lease."""

    def gained(self, most):
        """Numbers of partitions that became this worker's, at most so many."""

    def lost(self):
        """Numbers of partitions that are no longer this worker's."""

    def kept(self, partition):
        """The newest state of a partition, None where it has none, or Lost where neither can be told yet."""

    def take(self, rows):
        """Waits a moment for rows behind the first so many of each partition, and gives pairs of a partition and a list of (number, row), in order."""

    def publish(self, partition, first, answers):
        """Publishes answers under the numbers from `first` on, and returns when they are durable. Those that stand there are not published again, or
        leave their number so that readers see it; ends with Lost where the engine has lost the answer before the first."""

    def is_full(self, partition):
        """Whether no more rows come before a state is saved."""

    def save(self, partition, kept):
        """Saves a state unless there is one of more rows, and says of its rows that they are not needed again once it is durable; ends with Lost where
        the engine has lost an answer that the state counts."""

    def release(self, partition):
        """Lets another worker have a partition at once."""

    def close(self):
        """Ends what open began."""
