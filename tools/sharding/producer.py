"""A producer: deals the lines of its input to partitions and numbers the rows of each, so that none comes twice."""
import argparse
import sys

from sharding import Refused
from sharding.engine import Lost
from sharding.keys import Keys, check
from sharding.placing import Placing
from sharding.routing import Router, blocks_of
from sharding.script import Script, column_named, read_lines
from sharding.words import listed


def read_words(words, about, add_words):
    """The words that all producers have, and those that an engine adds."""
    parser = argparse.ArgumentParser(description=about, formatter_class=argparse.RawDescriptionHelpFormatter)
    parser.add_argument("--script", required=True, help="the lines that create streams and queries")
    parser.add_argument("--keys", type=listed, default=[], help="the key column of each stream that is dealt, as S.a,T.b")
    parser.add_argument("--broadcast", type=listed, default=[], help="the streams whose rows go to all partitions")
    parser.add_argument("--dedupe", action="store_true", help="equal tuples are dropped behind the partitions")
    parser.add_argument("--parts", type=int, default=8)
    parser.add_argument("--append", action="store_true", help="the input goes on behind the rows that are there; else it is all rows, from the first on")
    add_words(parser)
    return parser.parse_args(words)


def produce(router, sink, source, numbers):
    """Sends all lines of a descriptor; `numbers` has the number of each partition's next row."""
    for lines in blocks_of(source):
        for partition, rows in enumerate(router.deal(lines)):
            if rows:
                sink.send(partition, numbers[partition], rows)
                numbers[partition] += len(rows)


def main(words, about, make_sink, add_words):
    """Sends standard input to the sink that `make_sink` makes of the words, and gives the status."""
    words = read_words(words, about, add_words)
    try:
        script = Script(read_lines(words.script))
        keys = Keys(script, map(column_named, words.keys), words.broadcast)
        check(script, keys, words.dedupe)
        sink = make_sink(words)
        there = [sink.last_row(partition) if words.append else 0 for partition in range(words.parts)]
        produce(Router(script, keys, Placing(words.parts, None)), sink, 0, [last + 1 for last in there])
        sink.close()
        return 0
    except (Refused, Lost) as fault:
        print(f"produce: {fault}", file=sys.stderr)
        return 1
    except OSError as fault:
        print(f"produce: {fault.filename or 'input'}: {fault.strerror}", file=sys.stderr)
        return 4
