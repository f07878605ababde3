"""Which choices of keys keep every query exact.

A combination of rows that a query answers must be seen whole by one shard and by no other. That holds where the key columns of all streams
of FROM that are dealt are linked by `=` in the query's own condition, or where one stream alone is dealt. With DISTINCT two shards may answer
one tuple, unless a selected column is linked to the keys, so that the tuple tells the shard. These are rules on the text: what they call
`apart` is so for every placing of keys; another query may be right and is not seen to be.
"""
from sharding import Refused


class Keys:
    """The key column of each stream that is dealt, and None for each that is broadcast."""

    def __init__(self, script, keys, broadcast):
        self.of_stream = {}
        for stream, column in keys:
            if stream not in script.streams:
                raise Refused(f"--keys names {stream}.{column}, and the script has no stream {stream}")
            if column not in script.streams[stream].columns:
                raise Refused(f"--keys names {stream}.{column}, and {stream} has the columns {', '.join(script.streams[stream].columns)}")
            if stream in self.of_stream:
                raise Refused(f"--keys names two columns of {stream}; a stream is dealt by one")
            self.of_stream[stream] = column
        for stream in broadcast:
            if stream not in script.streams:
                raise Refused(f"--broadcast names {stream}, and the script has no such stream")
            if stream in self.of_stream:
                raise Refused(f"{stream} has a key and is broadcast too; leave one out")
            self.of_stream[stream] = None
        for stream in script.streams:
            if stream not in self.of_stream:
                raise Refused(f"{stream} has no key and is not broadcast; add it to --keys or --broadcast")
        if all(column is None for column in self.of_stream.values()):
            raise Refused("no stream has a key, so nothing is dealt; give at least one with --keys")

    def of_query(self, query):
        """The key columns of the streams of FROM that are dealt."""
        return [(stream, self.of_stream[stream]) for stream in query.streams if self.of_stream[stream] is not None]


def linked(query):
    """A function that tells whether two columns are linked by the query's comparisons with `=`."""
    parent = {}

    def root(column):
        while parent.get(column, column) != column:
            column = parent[column]
        return column

    for left, right in query.equal:
        parent[root(left)] = root(right)
    return lambda left, right: root(left) == root(right)


def judged(query, keys):
    """How the shards answer a query: `apart`, `dedupe`, `home` or `wrong`."""
    own = keys.of_query(query)
    if not own:
        return "home"
    are_linked = linked(query)
    if not all(are_linked(own[0], other) for other in own[1:]):
        return "wrong"
    if not query.is_distinct or any(are_linked(own[0], column) for column in query.select):
        return "apart"
    return "dedupe"


def check(script, keys, may_dedupe):
    """Refuses a choice of keys under which a query would not be exact."""
    for query in script.queries.values():
        how = judged(query, keys)
        own = ", ".join(f"{stream}.{column}" for stream, column in keys.of_query(query))
        if how == "wrong":
            raise Refused(f"{query.name} does not say that {own} are equal, so a combination would be torn between shards; broadcast one of these streams, or choose keys that its condition joins by `=`")
        if how == "dedupe" and not may_dedupe:
            raise Refused(f"{query.name} is DISTINCT and selects no column that is equal to its key ({own}), so two shards may answer one tuple; drop equal tuples behind the shards, and say --dedupe")
