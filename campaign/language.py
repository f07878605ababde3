"""The script language: kinds of lines, tokens, statements, rows and the printed form.

Everything here works on bytes. A statement that is refused raises Refused with its word.

The comparisons `<=`, `>=` and `<>` are called soft. CAMPAIGN_SOFT in the environment is the share
of them in random queries. A column may have a domain, the integers from one to another, and a row
outside it is refused. CAMPAIGN_DOMAINS is the share of columns with a domain in random streams. A
query may be shared. CAMPAIGN_SHARED is the share of such ones among random queries. It may be
compact: the word COMPACT is no reserved one, and is known before QUERY alone. Nor are LOCK, UNLOCK and TO. CAMPAIGN_COMPACT is the
share of such ones. A session may be asked for a checkpoint and go on from one. CAMPAIGN_CHECKPOINTS is
the share of random scripts in which that is done.
"""
import os
import re
from collections import namedtuple

LONGEST_LINE = 1024
LONGEST_NAME = 24
MOST_COLUMNS = 8
MOST_SELECTED = 8
MOST_FROM = 4
MOST_ATOMS = 16
MOST_SOFT = 8
MOST_ATTRIBUTES = 12
MOST_CONSTANTS = 6
MOST_OPENED = 16
LARGEST_INTEGER = 999_999_999_999_999
LEAST_VALUE, GREATEST_VALUE = -(2**63), 2**63 - 1

# the share of the inequalities of random queries that are soft; with 0 these queries have none
SOFT_SHARE = float(os.environ.get("CAMPAIGN_SOFT") or 0.4)
# the share of the columns of random streams that have a domain; with 0 none has, and there is no
# line about domains among the random ones
DOMAIN_SHARE = float(os.environ.get("CAMPAIGN_DOMAINS") or 0.4)
# the share of the random queries that are shared; with 0 none is, and no random line says so
SHARED_SHARE = float(os.environ.get("CAMPAIGN_SHARED") or 0.4)
# the share of the random queries that are compact; with 0 none is, and no random line says so
COMPACT_SHARE = float(os.environ.get("CAMPAIGN_COMPACT") or 0.3)
# the share of the random scripts with lines about checkpoints; with 0 none has any
CHECKPOINT_SHARE = float(os.environ.get("CAMPAIGN_CHECKPOINTS") or 0.3)
HARD_OPERATORS = ("<", "=", ">")
SOFT_OPERATORS = ("<=", ">=", "<>")
OPERATORS = HARD_OPERATORS + SOFT_OPERATORS

RESERVED = {
    b"CREATE", b"STREAM", b"QUERY", b"AS", b"SELECT", b"DISTINCT", b"FROM", b"WHERE", b"AND",
    b"EXPLAIN", b"DROP", b"IN", b"SHARED", b"CHECKPOINT", b"RESUME",
}
RESERVED_WORDS = {it.decode() for it in RESERVED}
# the longest token first
MARK = b"|".join([it.encode() for it in SOFT_OPERATORS] + [rb"[,.()<=>;]"])
TOKEN = re.compile(rb"[ \t]*(?:([A-Za-z_][A-Za-z0-9_]*)|([+-]?[0-9]+)|(" + MARK + rb"))")
ROW = re.compile(rb"([A-Za-z_][A-Za-z0-9_]*)[ \t]*,")
VALUE = re.compile(rb"[+-]?[0-9]+\Z")

# The domains stand beside the columns: each a pair of integers, or None.
CreateStream = namedtuple("CreateStream", "name columns domains")
CreateQuery = namedtuple("CreateQuery", "name distinct select streams atoms shared compact",
                         defaults=[False, False])
Explain = namedtuple("Explain", "name")
DropQuery = namedtuple("DropQuery", "name")
Checkpoint = namedtuple("Checkpoint", "")
# What a session goes on from: rows taken, and of a query rows given, a cell or a printed tuple.
ResumeRows = namedtuple("ResumeRows", "rows")
ResumeGiven = namedtuple("ResumeGiven", "name rows")
ResumeCell = namedtuple("ResumeCell", "name index content")
ResumeTuple = namedtuple("ResumeTuple", "name values")
RESUMES = ResumeRows, ResumeGiven, ResumeCell, ResumeTuple
# A lock with its key, or None, and the names of the streams that stay open, of which there are none where all do.
Lock = namedtuple("Lock", "key streams")
Unlock = namedtuple("Unlock", "key")
# A column is a pair of names; an operand is such a pair or an integer.
Atom = namedtuple("Atom", "left operator right")


class Refused(Exception):
    """A line is refused; the word says why."""

    def __init__(self, word):
        super().__init__(word)
        self.word = word


def lines_of(text):
    """The lines of a text: cut at LF, a last piece without LF where it is not empty."""
    pieces = text.split(b"\n")
    return pieces if pieces[-1] else pieces[:-1]


def strip_line(line):
    """A line without one CR at its end, and then without blanks at both ends."""
    if line.endswith(b"\r"):
        line = line[:-1]
    return line.strip(b" \t")


def says_nothing(stripped):
    """Whether a stripped line is empty or a comment."""
    return not stripped or stripped.startswith(b"--")


def tokens_of(stripped):
    """The tokens of a statement, each a kind and a text; a reserved word has its own kind."""
    tokens, place, end = [], 0, len(stripped)
    while place < end:
        found = TOKEN.match(stripped, place)
        if not found:
            if stripped[place:].strip(b" \t"):
                raise Refused("Syntax")
            break
        word, integer, mark = found.groups()
        if word is not None:
            upper = word.upper()
            tokens.append((upper.decode(), word) if upper in RESERVED else ("name", word))
        elif integer is not None:
            tokens.append(("integer", integer))
        else:
            tokens.append((mark.decode(), mark))
        place = found.end()
    return tokens


class Reader:
    """Reads the tokens of one statement from front to back."""

    def __init__(self, tokens):
        self.tokens = tokens
        self.place = 0

    def kind(self):
        """The kind of the next token, or None at the end."""
        return self.tokens[self.place][0] if self.place < len(self.tokens) else None

    def take(self, kind):
        """Takes the next token, which must be of this kind, and gives its text."""
        if self.kind() != kind:
            raise Refused("Syntax")
        self.place += 1
        return self.tokens[self.place - 1][1]

    def takes(self, kind):
        """Takes the next token where it is of this kind, and says so."""
        if self.kind() != kind:
            return False
        self.place += 1
        return True

    def takes_word(self, word):
        """Takes the next token where it is a name that spells a word in any letters, and says so."""
        if self.kind() != "name" or self.tokens[self.place][1].upper() != word:
            return False
        self.place += 1
        return True

    def list_of(self, item, separator):
        """One or more items with separators between them."""
        items = [item()]
        while self.takes(separator):
            items.append(item())
        return items

    def name(self):
        return self.take("name")

    def column(self):
        stream = self.name()
        self.take(".")
        return stream, self.name()

    def column_with_domain(self):
        """A name with the two ends of its domain, or with None."""
        name = self.name()
        if not self.takes("IN"):
            return name, None
        low = int(self.take("integer"))
        self.take(".")
        self.take(".")
        return name, (low, int(self.take("integer")))

    def atom(self):
        """A comparison: one side at least is a column."""
        left = int(self.take("integer")) if self.kind() == "integer" else self.column()
        operator = self.kind()
        if operator not in OPERATORS:
            raise Refused("Syntax")
        self.place += 1
        if isinstance(left, tuple) and self.kind() == "integer":
            return Atom(left, operator, int(self.take("integer")))
        return Atom(left, operator, self.column())


def read_stream(reader):
    reader.take("STREAM")
    name = reader.name()
    reader.take("(")
    columns = reader.list_of(reader.column_with_domain, ",")
    reader.take(")")
    return CreateStream(name, [it for it, _ in columns], [it for _, it in columns])


def read_query(reader):
    shared = reader.takes("SHARED")
    compact = reader.takes_word(b"COMPACT")
    reader.take("QUERY")
    name = reader.name()
    reader.take("AS")
    reader.take("SELECT")
    distinct = reader.takes("DISTINCT")
    select = reader.list_of(reader.column, ",")
    reader.take("FROM")
    streams = reader.list_of(reader.name, ",")
    atoms = reader.list_of(reader.atom, "AND") if reader.takes("WHERE") else []
    return CreateQuery(name, distinct, select, streams, atoms, shared, compact)


def read_resume(reader):
    """A line of a checkpoint that no CREATE line is, after its first word."""
    if reader.kind() == "integer":
        return ResumeRows(int(reader.take("integer")))
    name = reader.name()
    if reader.takes("AS"):
        return ResumeGiven(name, int(reader.take("integer")))
    if reader.takes("FROM"):
        index = int(reader.take("integer"))
        return ResumeCell(name, index, int(reader.take("integer")))
    reader.take("SELECT")
    values = [int(reader.take("integer"))]
    while reader.kind() == "integer":
        values.append(int(reader.take("integer")))
    return ResumeTuple(name, tuple(values))


def read_lock(reader):
    """A lock, after its first word."""
    key = int(reader.take("integer")) if reader.kind() == "integer" else None
    return Lock(key, reader.list_of(reader.name, ",") if reader.takes_word(b"TO") else [])


def read_statement(reader):
    """One statement, with its semicolon where it has one, and nothing behind it."""
    if reader.takes("CREATE"):
        statement = read_stream(reader) if reader.kind() == "STREAM" else read_query(reader)
    elif reader.takes_word(b"LOCK"):
        statement = read_lock(reader)
    elif reader.takes_word(b"UNLOCK"):
        statement = Unlock(int(reader.take("integer")))
    elif reader.takes("EXPLAIN"):
        statement = Explain(reader.name())
    elif reader.takes("CHECKPOINT"):
        statement = Checkpoint()
    elif reader.takes("RESUME"):
        statement = read_resume(reader)
    else:
        reader.take("DROP")
        reader.take("QUERY")
        statement = DropQuery(reader.name())
    reader.takes(";")
    if reader.kind() is not None:
        raise Refused("Syntax")
    return statement


def query_passes_limit(query):
    """Whether a query passes a limit of the language other than that of names."""
    operands = [it for atom in query.atoms for it in (atom.left, atom.right)]
    soft = [it for it in query.atoms if it.operator in SOFT_OPERATORS]
    integers = {it for it in operands if isinstance(it, int)}
    columns = {it for it in operands if not isinstance(it, int)}
    return (len(query.select) > MOST_SELECTED or len(query.streams) > MOST_FROM
            or len(query.atoms) > MOST_ATOMS or len(soft) > MOST_SOFT
            or len(columns) > MOST_ATTRIBUTES
            or any(abs(it) > LARGEST_INTEGER for it in integers)
            or len(integers) > MOST_CONSTANTS)


def stream_passes_limit(stream):
    """Whether a stream passes a limit of the language other than that of names."""
    domains = [it for it in stream.domains if it]
    return (len(stream.columns) > MOST_COLUMNS
            or any(abs(end) > LARGEST_INTEGER for domain in domains for end in domain)
            or any(low > high for low, high in domains))


def resume_passes_limit(resume):
    """Whether a line of a checkpoint has too many integers, or one that is not of 64 bits."""
    if isinstance(resume, ResumeTuple):
        integers = resume.values
    else:
        integers = [it for it in resume if isinstance(it, int)]
    return (len(integers) > MOST_SELECTED
            or not all(LEAST_VALUE <= it <= GREATEST_VALUE for it in integers))


def lock_passes_limit(statement):
    """Whether a LOCK or UNLOCK line has a number that is not of 64 bits, or too many streams."""
    streams = statement.streams if isinstance(statement, Lock) else []
    within = statement.key is None or LEAST_VALUE <= statement.key <= GREATEST_VALUE
    return not within or len(streams) > MOST_OPENED


def parse(stripped):
    """The statement that a stripped line spells; Refused with Syntax or Limit."""
    tokens = tokens_of(stripped)
    statement = read_statement(Reader(tokens))
    if any(kind == "name" and len(text) > LONGEST_NAME for kind, text in tokens):
        raise Refused("Limit")
    if isinstance(statement, CreateStream) and stream_passes_limit(statement):
        raise Refused("Limit")
    if isinstance(statement, CreateQuery) and query_passes_limit(statement):
        raise Refused("Limit")
    if isinstance(statement, RESUMES) and resume_passes_limit(statement):
        raise Refused("Limit")
    if isinstance(statement, (Lock, Unlock)) and lock_passes_limit(statement):
        raise Refused("Limit")
    return statement


def row_name(stripped):
    """The first word of a stripped line that is a row, else None."""
    found = ROW.match(stripped)
    return found.group(1) if found else None


def lies_in(value, domain):
    """Whether a value lies in the domain of its column, where that has one."""
    return domain is None or domain[0] <= value <= domain[1]


def read_row(stripped, domains):
    """The stream and the values of a row; `domains` has those of each stream by its name."""
    name = row_name(stripped)
    if name.upper() in RESERVED:
        raise Refused("Syntax")
    if len(name) > LONGEST_NAME:
        raise Refused("Limit")
    if name not in domains:
        raise Refused("UnknownStream")
    fields = [it.strip(b" \t") for it in stripped.split(b",")[1:]]
    if len(fields) != len(domains[name]):
        raise Refused("Arity")
    if not all(VALUE.match(it) for it in fields):
        raise Refused("Value")
    values = tuple(int(it) for it in fields)
    if not all(LEAST_VALUE <= it <= GREATEST_VALUE for it in values):
        raise Refused("Value")
    if not all(map(lies_in, values, domains[name])):
        raise Refused("Domain")
    return name, values


def print_operand(operand):
    return b"%d" % operand if isinstance(operand, int) else b".".join(operand)


def print_select(query):
    """The printed form of a query, from SELECT on."""
    text = b"SELECT " + (b"DISTINCT " if query.distinct else b"")
    text += b", ".join(b".".join(it) for it in query.select)
    text += b" FROM " + b", ".join(query.streams)
    atoms = [b" ".join((print_operand(it.left), it.operator.encode(), print_operand(it.right)))
             for it in query.atoms]
    return text + (b" WHERE " + b" AND ".join(atoms) if atoms else b"")


def print_column(name, domain):
    """A column of a CREATE STREAM statement with its domain."""
    return name if domain is None else b"%s IN %d..%d" % (name, *domain)


def print_statement(statement):
    """The printed form of a CREATE statement."""
    if isinstance(statement, CreateStream):
        columns = b", ".join(map(print_column, statement.columns, statement.domains))
        return b"CREATE STREAM " + statement.name + b" (" + columns + b")"
    words = b"CREATE " + b"SHARED " * statement.shared + b"COMPACT " * statement.compact
    return words + b"QUERY " + statement.name + b" AS " + print_select(statement)


def print_short(statement):
    """The short form of a CREATE statement: a space stands between two words, and between a word and
    an integer that begins with a digit, alone.
    """
    text, was_word = b"", False
    for kind, token in tokens_of(print_statement(statement)):
        is_word = kind == "name" or kind in RESERVED_WORDS
        if was_word and (is_word or (kind == "integer" and token[:1].isdigit())):
            text += b" "
        text, was_word = text + token, is_word
    return text


def print_line(statement):
    """The line of a checkpoint that creates a query: the printed form, or the short one where the
    printed one is too long for a line.
    """
    printed = print_statement(statement)
    return printed if len(printed) <= LONGEST_LINE else print_short(statement)
