"""The keeper of a session of bq: tools/keep is its command."""
import logging

log = logging.getLogger("keep")


class Fault(Exception):
    """What ends a run, in a sentence for whoever started it."""


class Busy(Fault):
    """Another run has the folder or the output."""


def require(holds, sentence):
    """Ends the run by a sentence where something does not hold."""
    if not holds:
        raise Fault(sentence)
