"""Random scripts with locks, and what is dealt of them to files and feeds.

The writer asks the evaluator for each reply, as that of other scripts does, and so knows which streams are there and whether a lock stands.
Behind a lock a script goes on with rows of open and of other streams, and with lines that a lock lets not.
"""
from generator import Writer
from language import GREATEST_VALUE, LEAST_VALUE

KEYS = [0, 5, -1, 7, 4711, LEAST_VALUE, GREATEST_VALUE, LEAST_VALUE - 1, GREATEST_VALUE + 1, 10**30]
# lines of the new forms that are wrong in themselves, and lines that only look like them
LOCK_LINES = [b"LOCK", b"lock;", b"LOCK 5;", b"LOCK TO", b"LOCK 5 TO", b"LOCK S", b"LOCK 5 FOR S", b"LOCK 5 5", b"LOCK TO S,", b"LOCK TO S T",
              b"LOCK TO S, S", b"LOCK TO nobody", b"LOCK TO 5", b"LOCK,5", b"LOCK , 5", b"UNLOCK", b"UNLOCK;", b"UNLOCK 5 5", b"UNLOCK S", b"UNLOCK,5",
              b"UNLOCK TO S", b"unlock +5 ;", b"Unlock 005", b"LOCK TO TO", b"LOCK TO LOCK, UNLOCK", b"LOCKED", b"LOCK5", b"LOCK -0 TO S",
              b"LOCK TO " + b"n" * 25, b"LOCK TO select", b"LOCK 9223372036854775808", b"UNLOCK 9223372036854775808", b"LOCK 5 ; TO S",
              b"LOCK TO " + b", ".join([b"S", b"T", b"U", b"W", b"R", b"L", b"s", b"_x", b"m0", b"m1", b"m2", b"Q1", b"Zz", b"in_", b"X", b"Y", b"Z"])]
# what a producer may say that a lock lets not
GARBAGE = [b"DROP QUERY q", b"DROP QUERY hot", b"CREATE QUERY z AS SELECT S.a FROM S", b"CREATE STREAM Z (a)", b"CHECKPOINT", b"EXPLAIN q", b"RESUME 5",
           b"RESUME 1099511627776", b"RESUME q SELECT 1 2", b"RESUME q FROM 0 1", b"LOCK", b"LOCK 5", b"UNLOCK 1", b"UNLOCK 123456789", b";", b"garbage",
           b"SELECT", b"\xff\xfe", b"\x00", b"{\"a\": 1}", b"x" * 1024, b"x" * 1025, b"UNLOCK " + b"9" * 40, b"unlock", b"1,2", b",,,"]
SOME_WORDS = [b"TO", b"LOCK", b"UNLOCK", b"lock"]


class EdgeWriter(Writer):
    """Writes one script with locks."""

    def lock_line(self):
        """A LOCK line, most often one that is taken in an open session."""
        line = self.random.choice([b"LOCK", b"LOCK", b"lock", b"Lock"])
        if self.chance(0.6):
            line += b" %d" % self.random.choice(KEYS[:7] if self.chance(0.95) else KEYS)
        if self.chance(0.6) and self.session.streams:
            names = list(self.session.streams)
            chosen = self.random.sample(names, self.random.randint(1, min(len(names), 3)))
            if self.chance(0.05):
                chosen.append(self.random.choice([b"nobody", chosen[0], b"select", b"m" * 25]))
            line += self.random.choice([b" TO ", b" to ", b"  To\t"]) + self.random.choice([b", ", b",", b" , "]).join(chosen)
        return self.statement(line)

    def unlock_line(self):
        """An UNLOCK line, most often that of the key."""
        key = self.session.lock.key if self.session.lock else None
        if key is None or self.chance(0.15):
            key = self.random.choice(KEYS)
        return self.statement(self.random.choice([b"UNLOCK %d", b"UNLOCK %d", b"unlock %d ;", b"UNLOCK %+d", b"UNLOCK  %d"]) % key)

    def garbage(self):
        lines = GARBAGE + (LOCK_LINES if self.chance(0.5) else [])
        return self.write(self.spaced(self.random.choice(lines)))

    def named_stream(self):
        """A stream whose name is a word of a lock."""
        return self.statement(b"CREATE STREAM %s (a)" % self.random.choice(SOME_WORDS))

    def locked_step(self):
        """One more line under a lock."""
        kind = self.random.random()
        if kind < 0.55:
            self.row()
        elif kind < 0.65 and self.session.lock.key is not None:
            self.unlock_line()
        elif kind < 0.70:
            self.unlock_line()
        elif kind < 0.80:
            self.garbage()
        elif kind < 0.85:
            self.query()
        elif kind < 0.90:
            self.hostile()
        elif kind < 0.93:
            self.statement(b"DROP QUERY " + self.random.choice(list(self.session.queries) + [b"q"]))
        elif kind < 0.96:
            self.lock_line()
        else:
            self.write(self.random.choice([b"", b"-- a comment", b"  ", b"\r"]))

    def step(self):
        if self.session.lock:
            return self.locked_step()
        kind = self.random.random()
        if kind < 0.08:
            return self.lock_line()
        if kind < 0.10:
            return self.unlock_line()
        if kind < 0.12:
            return self.write(self.spaced(self.random.choice(LOCK_LINES)))
        if kind < 0.13:
            return self.named_stream()
        return super().step()

    def whole(self, length):
        """Streams and queries, then all kinds of lines."""
        if self.chance(0.02):
            self.lock_line()
        if self.session.lock:
            while len(self.lines) < 8:
                self.garbage()
            return
        self.mixed(length)

    def start(self, queries):
        """Streams and queries alone, and perhaps a lock: what a script says before rows come."""
        while not self.session.streams:
            self.stream(self.random.choice([1, 2, 3]))
        for _ in range(self.random.randint(0, 3)):
            self.stream(self.random.choice([1, 2, 3]))
        if self.chance(0.2):
            self.named_stream()
        for _ in range(queries):
            self.query()
        if self.chance(0.1):
            self.row()
        if self.chance(0.35):
            self.lock_line()

    def producer_line(self):
        """A line that a producer may send: a row as a rule."""
        before = self.session.lock
        kind = self.random.random()
        if kind < 0.75:
            self.row()
        elif kind < 0.9:
            self.garbage()
        else:
            self.hostile()
        # another reply does not matter here: the lines are dealt to feeds
        self.session.lock = before
        return self.lines[-1]


def text_of(random, lines):
    """Lines as a text, the last of which may lack its LF."""
    text = b"\n".join(lines) + (b"\n" if lines else b"")
    return text[:-1] if text and random.random() < 0.3 else text


def feed_word(random, streams, file):
    """A word for a feed behind a script, and the name of its file."""
    kind = random.random()
    if kind < 0.25:
        return file, file
    if kind < 0.32:
        return "./S@" + file, "S@" + file
    if kind < 0.37:
        return "T@d/U@" + file, "d/U@" + file
    names = random.sample(streams, random.randint(1, min(len(streams), 3))) if streams else ["nobody"]
    if random.random() < 0.15:
        names.insert(random.randint(0, len(names)), random.choice(["nobody", "TO", "lock", names[0], "n" * 24]))
    return ",".join(names) + "@" + file, file
