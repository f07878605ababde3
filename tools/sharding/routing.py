"""Rows in, each with the shard that it goes to."""
import os
import re

from sharding.writing import Writer

BLOCK = 1 << 20
INTEGER = re.compile(rb"\s*([+-]?\d+)\s*\r?$")
MOST_KNOWN = 1 << 20


class Shards(dict):
    """The shard of each key, as it is written; one that is not there yet is placed."""

    def __init__(self, placing):
        super().__init__()
        self.placing = placing

    def __missing__(self, field):
        if len(self) >= MOST_KNOWN:
            self.clear()
        shard = self[field] = self.shard_of(field)
        return shard

    def shard_of(self, field):
        """The shard of a key as it is written; shard 0 answers for what is no integer of 64 bits."""
        if field.isdigit() and len(field) < 19 and field[:1] != b"0":
            return self.placing.of_digits(field)
        found = INTEGER.match(field)
        value = int(found[1]) if found else None
        return self.placing.of(value) if value is not None and -(1 << 63) <= value < 1 << 63 else 0


class Router:
    """Deals rows, as bytes without their LF, to shards."""

    def __init__(self, script, keys, placing):
        self.placing = placing
        # Of each stream the place of its key among the pieces of a row, the stream's name being the first; None where its rows go to all shards.
        self.places = {}
        for name, column in keys.of_stream.items():
            self.places[name.encode()] = None if column is None else list(script.streams[name].columns).index(column) + 1
        # Of each stream that is dealt that place, and of its keys, as they were written, the shard.
        self.known = {name: (place, Shards(placing)) for name, place in self.places.items() if place is not None}
        self.cuts = max(place for place, _ in self.known.values()) + 1

    def deal(self, lines):
        """The lines for each shard, in their order. A row costs one split and two look-ups, and a key that is new its placing."""
        piles = [[] for _ in range(self.placing.parts)]
        adds, known, cuts = [pile.append for pile in piles], self.known, self.cuts
        for line in lines:
            pieces = line.split(b",", cuts)
            try:
                place, shards = known[pieces[0]]
                adds[shards[pieces[place]]](line)
            except (KeyError, IndexError):
                for shard in self.shards_of(pieces):
                    adds[shard](line)
        return piles

    def shards_of(self, pieces):
        """The shards of a row whose stream is broadcast, is not there or stands between blanks, or that is no row."""
        stream = pieces[0].strip()
        place = self.places.get(stream, -1)
        if place is None:
            return range(self.placing.parts)
        if not 0 < place < len(pieces):
            return [0]
        return [self.known[stream][1][pieces[place]]]


def blocks_of(source):
    """The lines of a descriptor, in lists; the last line may lack its LF."""
    rest = b""
    while True:
        block = os.read(source, BLOCK)
        if not block:
            break
        lines = (rest + block).split(b"\n")
        rest = lines.pop()
        yield lines
    if rest:
        yield [rest]


def route(router, source, targets):
    """Deals all lines of a descriptor; each shard has a descriptor of its own among the targets, or all go to one, numbered."""
    writers = [Writer(target) for target in targets]
    for lines in blocks_of(source):
        for shard, pile in enumerate(router.deal(lines)):
            if not pile:
                continue
            if len(targets) == router.placing.parts and router.placing.parts > 1:
                writers[shard].put(b"\n".join(pile) + b"\n")
            else:
                lead = b"%d\t" % shard
                writers[0].put(lead + (b"\n" + lead).join(pile) + b"\n")
    for writer in writers:
        writer.end()
