"""Redis Streams as an engine: `rows:I` and `answers:I` are streams, `kept:I` a hash with the state, `own:I` the lease of partition I.

The n-th row and the n-th answer of a partition have the id `n-0`. Each is added behind the one before it alone, so neither comes twice nor is left out,
whoever sends it and however often, also where the server was killed and lost the last of what it had confirmed. A state never goes back: a script
compares. So leases are there for economy alone, and a worker that wakes up behind its lease does no harm.
"""
import contextlib
import queue
import random
import time

import redis
from sharding.engine import Kept, Lost

LAST = """local function last_of(stream)
  local told = redis.pcall('XINFO', 'STREAM', stream)
  for place = 1, #told, 2 do
    if told[place] == 'last-generated-id' then return tonumber(string.match(told[place + 1], '%d+')) end
  end
  return 0
end
"""
# A server that was killed may have lost the last of what it had confirmed, and who is connected again need not see it: so both scripts look.
# The first adds items under the numbers from ARGV[1] on, but those that are there.
ADD = LAST + """local first, last = tonumber(ARGV[1]), last_of(KEYS[1])
if last + 1 < first then return redis.error_reply('MISSING entry ' .. (last + 1) .. ' of ' .. KEYS[1]) end
for place = last + 1 - first, #ARGV - 3 do
  redis.call('XADD', KEYS[1], string.format('%.0f-0', first + place), ARGV[2], ARGV[place + 3])
end
return 1"""
SAVE = LAST + """local old = redis.call('HGET', KEYS[1], 'rows')
if old and tonumber(old) > tonumber(ARGV[1]) then return 0 end
for place = 1, 2 do
  if last_of(KEYS[place + 1]) < tonumber(ARGV[place]) then return redis.error_reply('MISSING entry ' .. ARGV[place] .. ' of ' .. KEYS[place + 1]) end
end
redis.call('HSET', KEYS[1], 'rows', ARGV[1], 'answers', ARGV[2], 'text', ARGV[3])
if ARGV[4] == '1' then redis.call('XTRIM', KEYS[2], 'MINID', ARGV[1] .. '-0') end
return 1"""
ITEMS_OF_CALL = 1000
RENEW = "if redis.call('GET', KEYS[1]) == ARGV[1] then return redis.call('PEXPIRE', KEYS[1], ARGV[2]) end return 0"
RELEASE = "if redis.call('GET', KEYS[1]) == ARGV[1] then return redis.call('DEL', KEYS[1]) end return 0"


# Seconds after which a server that says nothing is given up: its machine may be gone, and no connection tells that.
PATIENCE = 20


def add_words(parser):
    """The words that tell where Redis is."""
    parser.add_argument("--host", default="localhost")
    parser.add_argument("--port", type=int, default=6379)


def connected(words):
    """A client of the server."""
    return redis.Redis(words.host, words.port, socket_timeout=PATIENCE, socket_connect_timeout=PATIENCE)


@contextlib.contextmanager
def reached():
    """Faults of the connection and of the server, as Lost: one that has no memory left or reads its file may be well again later."""
    try:
        yield
    except redis.RedisError as fault:
        raise Lost(str(fault)) from fault


def number_of(entry_id):
    """The number of a row or answer, by its id."""
    return int(entry_id.split(b"-")[0])


def last_number(store, stream):
    """The number of the last entry that a stream was given, 0 where there was none."""
    with reached():
        return store.eval(LAST + "return last_of(KEYS[1])", 1, stream)


def add(store, stream, field, first, items):
    """Adds items under the ids from `first`-0 on; those that are there stay as they are, and none is left out before them."""
    for place in range(0, len(items), ITEMS_OF_CALL):
        with reached():
            store.eval(ADD, 1, stream, first + place, field, *items[place:place + ITEMS_OF_CALL])


class Sink:
    """Where a producer sends rows."""

    def __init__(self, words):
        self.store = connected(words)

    def last_row(self, partition):
        """The number of the last row of a partition."""
        return last_number(self.store, f"rows:{partition}")

    def send(self, partition, first, rows):
        """Adds rows under the numbers from `first` on."""
        add(self.store, f"rows:{partition}", "row", first, rows)

    def close(self):
        """Ends the connection."""
        self.store.close()


class Streams:
    """The engine of one worker; the calls are told in tools/sharding/engine.py."""

    def __init__(self, words):
        self.words, self.store = words, connected(words)
        # what the thread that renews leases has lost comes by a queue
        self.own, self.gone, self.looked = set(), queue.SimpleQueue(), 0.0
        # in an order of its own, so that workers do not all ask for the same
        self.order = random.Random(words.name).sample(range(words.parts), words.parts)

    def open(self):
        with reached():
            self.store.ping()
        self.own, self.gone, self.looked = set(), queue.SimpleQueue(), 0.0

    def renew(self):
        with reached():
            for number in list(self.own):
                if not self.store.eval(RENEW, 1, f"own:{number}", self.words.name, self.words.lease):
                    self.gone.put(number)

    def gained(self, most):
        if most < 1 or time.monotonic() - self.looked < self.words.lease / 4000:
            return []
        self.looked, found = time.monotonic(), []
        with reached():
            for number in self.order:
                if len(found) < most and number not in self.own and self.store.set(f"own:{number}", self.words.name, nx=True, px=self.words.lease):
                    found.append(number)
                    self.own.add(number)
        return found

    def lost(self):
        found = set()
        while not self.gone.empty():
            found.add(self.gone.get())
        self.own -= found
        return found

    def kept(self, partition):
        with reached():
            found = self.store.hgetall(f"kept:{partition}")
        return Kept(int(found[b"rows"]), int(found[b"answers"]), found[b"text"]) if found else None

    def take(self, rows):
        if not rows:
            time.sleep(0.05)
            return []
        wanted = {f"rows:{partition}": f"{number}-0" for partition, number in rows.items()}
        with reached():
            found = self.store.xread(wanted, count=self.words.batch, block=100)
        return [(int(stream.split(b":")[1]), [(number_of(it), entry[b"row"]) for it, entry in entries]) for stream, entries in found]

    def publish(self, partition, first, answers):
        add(self.store, f"answers:{partition}", "answer", first, answers)

    def is_full(self, partition):
        return False

    def save(self, partition, kept):
        with reached():
            keys = [f"{name}:{partition}" for name in ("kept", "rows", "answers")]
            self.store.eval(SAVE, 3, *keys, kept.rows, kept.answers, kept.text, int(self.words.trim))

    def release(self, partition):
        self.own.discard(partition)
        with reached():
            self.store.eval(RELEASE, 1, f"own:{partition}", self.words.name)

    def close(self):
        self.store.close()
