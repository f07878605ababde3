"""The parts of tools/shard."""


class Refused(Exception):
    """What was asked for cannot be done right; the text says why, and what to do."""
