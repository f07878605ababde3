"""Merging and splitting checkpoints by their text."""
import re

from sharding import Refused
from sharding.boxes import Boxes
from sharding.script import Script, asked

COUNT = re.compile(r" cells (\d+) ")


class Kept:
    """What a checkpoint says, or an empty one over the same CREATE lines: rows taken, and of each query the rows given, its cells and its tuples."""

    def __init__(self, lines, program):
        self.script = Script([line for line in lines if not line.startswith("RESUME ")])
        self.script.check_taken(program)
        names = list(self.script.queries)
        replies = asked(program, self.script.lines() + [f"EXPLAIN {name}" for name in names])
        self.boxes, at = {}, len(self.script.streams)
        explained = replies[at + len(names):]
        for name, announced in zip(names, replies[at:]):
            end = explained.index(f"end {name}") + 1
            cells = COUNT.search(announced)
            query = self.script.queries[name]
            self.boxes[name] = Boxes(query, explained[:end], int(cells[1]) if cells else None, [self.script.streams[it] for it in query.streams])
            explained = explained[end:]
        self.rows = 0
        self.given = dict.fromkeys(names, 0)
        self.cells = {name: {} for name in names}
        self.tuples = {name: set() for name in names}
        for line in lines:
            if line.startswith("RESUME "):
                self.take(line.split(" "))

    def take(self, words):
        """Takes one RESUME line."""
        if len(words) == 2:
            self.rows = int(words[1])
        elif words[2] == "AS":
            self.given[words[1]] = int(words[3])
        elif words[2] == "FROM":
            self.cells[words[1]][int(words[3])] = int(words[4])
        else:
            self.tuples[words[1]].add(tuple(map(int, words[3:])))

    def lines(self):
        """The lines of the checkpoint."""
        found = self.script.lines() + [f"RESUME {self.rows}"]
        for name in self.script.queries:
            found.append(f"RESUME {name} AS {self.given[name]}")
            found += [f"RESUME {name} FROM {number} {content}" for number, content in sorted(self.cells[name].items())]
            found += ["RESUME %s SELECT %s" % (name, " ".join(map(str, it))) for it in sorted(self.tuples[name])]
        return found


def joined(kind, one, other):
    """What a cell holds over the rows of two shards."""
    return {"count": one + other, "present": 1, "least": min(one, other), "greatest": max(one, other)}[kind.split(" ")[0]]


def same_kind(query, one, other):
    """Refuses cells that keep something else there than here."""
    if one != other:
        raise Refused(f"a cell of {query} keeps `{one}` in one script and `{other}` in the other; the cells cannot be carried over")


def merged(whole, shards, keys):
    """Puts what the shards keep into the empty checkpoint of the whole script.

    Cells of a stream that is dealt add up, those of a broadcast stream are the same in all shards; a tuple was answered where one shard answered
    it. The numbers of rows are summed, so that broadcast rows are counted once a shard: they bound counts and the row limit, and nothing else.
    """
    whole.rows = sum(shard.rows for shard in shards)
    for name in whole.script.queries:
        holders = [shard for shard in shards if name in shard.script.queries]
        whole.given[name] = sum(shard.given[name] for shard in holders)
        for shard in holders:
            whole.tuples[name] |= shard.tuples[name]
            merge_cells(name, whole, shard, keys)
    return whole


def merge_cells(name, whole, shard, keys):
    """Adds the cells of one query of one shard."""
    for number, content in shard.cells[name].items():
        names, kind = shard.boxes[name].names(number)
        for there in {whole.boxes[name].number(it) for it in names}:
            place, other = there
            if place is None:
                raise Refused(f"a cell of {name} in a shard is none of the whole script; are its domains wider there?")
            same_kind(name, kind, other)
            held = whole.cells[name].get(place)
            if held is None:
                whole.cells[name][place] = content
            elif keys.of_stream[names[0].stream] is not None:
                whole.cells[name][place] = joined(kind, held, content)
            elif held != content:
                raise Refused(f"shards differ in a cell of {name} that broadcast rows of {names[0].stream} made: they have not seen the same rows of it")


def key_value(name, key):
    """The value that the key column has in a cell: a dim, or what a comparison with `=` of its part ties to a dim or an integer; None where nothing tells."""
    values = dict(name.values)
    if key in values:
        return values[key]
    for left, sign, right in name.part.signs:
        if sign == "=" and key in (left, right):
            other = right if key == left else left
            if "." not in other:
                return int(other)
            if other in values:
                return values[other]
    return None


def split_up(whole, shards, keys, placing):
    """Puts what the whole keeps into the empty checkpoints of the shards.

    A cell of a stream that is dealt goes to the shard of its key, one of a broadcast stream to all. Where the key is no dim, any shard may have the
    cell if its stream alone is dealt and the domains are the whole's, since cells of shards add up; else it cannot be told. Tuples that were
    answered go to every shard whose domains hold them, and the numbers of rows are an upper bound in each.
    """
    for shard in shards:
        shard.rows = whole.rows
    for name, query in whole.script.queries.items():
        holders = [shard for shard in shards if name in shard.script.queries]
        alone = len(keys.of_query(query)) == 1 and all(shard.script.streams == whole.script.streams for shard in holders)
        for shard in holders:
            shard.given[name] = whole.given[name]
            shard.tuples[name] |= {it for it in whole.tuples[name] if may_answer(shard.script, query, it)}
        for number, content in whole.cells[name].items():
            names, kind = whole.boxes[name].names(number)
            for shard in owners(names[0], query, holders, keys, placing, alone):
                put_cell(name, shard, names, kind, content)
    return shards


def owners(cell, query, holders, keys, placing, alone):
    """The shards that get a cell."""
    column = keys.of_stream[cell.stream]
    if column is None or len(holders) == 1:
        return holders
    value = key_value(cell, f"{cell.stream}.{column}")
    if value is not None:
        return [holders[placing.of(value)]]
    if alone:
        return holders[:1]
    raise Refused(f"the cells of {query.name} for {cell.stream} are not kept by {column}, so nothing tells whose they are; choose a key that the query joins by or selects")


def put_cell(name, shard, names, kind, content):
    """Puts a cell of the whole into a shard, where its domains hold it."""
    for place, other in {shard.boxes[name].number(it) for it in names}:
        if place is not None:
            same_kind(name, kind, other)
            shard.cells[name][place] = content


def may_answer(script, query, values):
    """Whether a tuple lies within the domains of a script."""
    for (stream, column), value in zip(query.select, values):
        domain = script.streams[stream].columns[column]
        if domain and not domain[0] <= value <= domain[1]:
            return False
    return True
