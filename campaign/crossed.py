"""Random queries of which most have no whole form that fits, and many a split form: several columns of a stream are compared with one of
another, on one side or by `<>`, and few of them are bounded."""
SIDES = [[b"<", b"<="], [b">", b">="]]
INTEGERS = [-1, 0, 1, 2, 3]


def wide_streams(writer):
    """The streams with two columns at least, by their columns."""
    return {it: writer.columns_of(it) for it, columns in writer.session.streams.items() if len(columns) > 1}


def selected(writer, columns):
    """A column to select, with comparisons that bound it where it has no domain."""
    random = writer.random
    column = random.choice([it for it in columns if writer.has_domain(it)] or columns)
    if writer.has_domain(column) and writer.chance(0.8):
        return column, []
    return column, writer.bound(column, random.choice(INTEGERS), random.choice([1, 2, 3]))


def comparisons(writer, many, one):
    """Columns of one stream beside one of another: on one side of it as a rule, and now and then unequal to it."""
    signs = writer.random.choice(SIDES)
    for column in many:
        kind = writer.random.random()
        if kind < 0.15:
            yield column + b" <> " + one
        elif kind < 0.2:
            yield column + b" = " + one
        else:
            yield column + b" " + writer.random.choice(signs) + b" " + one


def integers(writer, columns):
    """Comparisons of some of the columns with integers, that bound none on both sides."""
    for column in columns:
        if writer.chance(0.3):
            yield b"%s %s %d" % (column, writer.random.choice([b"<>", b"<>", b"<", b">=", b"<=", b">"]), writer.random.choice(INTEGERS))


def query_text(writer):
    """A query over the streams that are there, or None where too few of them have two columns."""
    random, streams = writer.random, wide_streams(writer)
    if len(streams) < 2:
        return None
    chosen = random.sample(list(streams), min(len(streams), random.choice([2, 2, 2, 3])))
    first, *others = chosen
    select, atoms = selected(writer, streams[random.choice(chosen)])
    free = [it for it in streams[first] if it != select] or streams[first]
    many = random.sample(free, min(len(free), random.choice([1, 2, 2, 3])))
    for other in others:
        one = random.choice([it for it in streams[other] if it != select] or streams[other])
        atoms += comparisons(writer, many, one)
        atoms += integers(writer, [*many, one])
        if writer.chance(0.3):
            atoms.append(random.choice(streams[first]) + b" = " + random.choice(streams[other]))
    if len(many) > 1 and writer.chance(0.3):
        atoms.append(many[0] + random.choice([b" < ", b" <= ", b" <> ", b" = "]) + many[1])
    random.shuffle(atoms)
    distinct = b"DISTINCT " if writer.chance(0.85) else b""
    return b"SELECT " + distinct + select + b" FROM " + b", ".join(chosen) + b" WHERE " + b" AND ".join(atoms)
