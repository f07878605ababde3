"""Random queries of few columns, which comparisons of all kinds bound on either side and tie within a stream and across: most have a whole form."""

OPERATORS = [b"<", b"<", b">", b">", b"=", b"<=", b"<=", b">=", b">=", b"<>", b"<>"]
FIRST_BOUNDS = [-1, 0, 1, 2]


def comparison(random, left, right):
    return left + b" " + random.choice(OPERATORS) + b" " + right


def bounds(random, column, low):
    """Comparisons that bound a column, one or two, by `<`, `<=` or `=`."""
    kind, high = random.random(), low + random.choice([1, 2, 2, 3, 4])
    if kind < 0.15:
        return [b"%s = %d" % (column, high)]
    if kind < 0.5:
        return [random.choice([b"%s >= %d" % (column, low + 1), b"%d <= %s" % (low + 1, column)]),
                random.choice([b"%s <= %d" % (column, high), b"%d >= %s" % (high, column)])]
    if kind < 0.85:
        return [random.choice([b"%s > %d" % (column, low), b"%d < %s" % (low, column)]),
                random.choice([b"%s < %d" % (column, high + 1), b"%d > %s" % (high + 1, column)])]
    return [b"%s %s %d" % (column, random.choice([b"<", b"<=", b">", b">="]), random.choice([low, high]))]


def ties(writer, chosen):
    """Comparisons of columns: of streams that stand side by side in FROM, of the first and the last, and within a stream."""
    random, atoms = writer.random, []
    neighbours = [it for it in zip(chosen, chosen[1:]) for _ in range(random.choice([1, 1, 1, 2, 2, 3]))]
    if len(chosen) > 2 and writer.chance(0.4):
        neighbours.append((chosen[0], chosen[-1]))
    for pair in neighbours + [(it, it) for it in chosen if writer.chance(0.3)]:
        sides = [random.choice(writer.columns_of(it)) for it in pair]
        random.shuffle(sides)
        atoms.append(comparison(random, *sides))
    atoms += [b"%s <> %d" % (random.choice(writer.columns_of(it)), random.randint(0, 3)) for it in chosen if writer.chance(0.1)]
    return atoms


def query_text(writer):
    """A query over the streams that are there."""
    random, streams = writer.random, list(writer.session.streams)
    chosen = random.sample(streams, min(len(streams), random.choice([1, 2, 2, 2, 3, 3, 4])))
    columns = [it for stream in chosen for it in writer.columns_of(stream)]
    used = random.sample(columns, min(len(columns), random.choice([1, 2, 2, 3, 4, 5])))
    select = [random.choice(used) for _ in range(random.choice([1, 1, 1, 2]))]
    low, atoms = random.choice(FIRST_BOUNDS), ties(writer, chosen)
    for column in used:
        wanted = column in select or writer.chance(0.5)
        if wanted and not (writer.has_domain(column) and writer.chance(0.6)):
            atoms += bounds(random, column, low)
    random.shuffle(atoms)
    text = b"SELECT " + (b"DISTINCT " if writer.chance(0.55) else b"") + b", ".join(select) + b" FROM " + b", ".join(chosen)
    return text + (b" WHERE " + b" AND ".join(atoms) if atoms else b"")


def stream_text(writer, name):
    """A stream of one to three columns, of which some have a domain of few values."""
    random, share = writer.random, writer.random.choice([0, 0.3, 0.5, 0.9])
    columns = []
    for column in random.sample([b"a", b"b", b"c", b"d"], random.choice([1, 2, 2, 3])):
        low = random.choice(FIRST_BOUNDS)
        columns.append(column + (b" IN %d..%d" % (low, low + random.choice([0, 1, 1, 2, 2, 3, 4])) if writer.chance(share) else b""))
    return b"CREATE STREAM " + name + b" (" + b", ".join(columns) + b")"
