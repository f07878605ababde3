"""What each cell of a query stands for, from its CREATE line and what EXPLAIN answers.

A cell is named by its part, its stream and the values of its dims by column. A part is told by its signs, which are the same in every session
whose query has these atoms, whatever the domains are. EXPLAIN tells no signs of the parts of a compact query: of several such parts each is told
by its number, which means the same only where EXPLAIN and the domains are the same too. The number of a cell means nothing elsewhere.
"""
import hashlib
import re
from dataclasses import dataclass, field

from sharding import Refused


@dataclass(frozen=True)
class Told:
    """How a part is told: by its signs; or, one of several without signs, by its number and the form of its query."""
    signs: tuple
    number: int = 0
    form: str = ""


@dataclass(frozen=True)
class Name:
    """What a cell stands for: its part, its stream, and pairs of a column and its value."""
    part: Told
    stream: str
    values: tuple


@dataclass
class Part:
    """A part as EXPLAIN tells it."""
    signs: list = field(default_factory=list)
    dims: dict = field(default_factory=dict)
    extremes: dict = field(default_factory=dict)


@dataclass
class Box:
    """The cells of one stream in one part, or in several parts that share them: numbers from `base` on."""
    base: int
    size: int
    stream: str
    dims: tuple
    kind: str
    parts: list


def read_parts(lines, streams):
    """The parts that the lines of EXPLAIN tell, from the third line to the last but one."""
    parts = []
    for line in lines[2:-1]:
        words = line.split(" ")
        if words[0] == "part":
            parts.append(Part(dims={stream: [] for stream in streams}))
        elif words[0] == "sign":
            parts[-1].signs.append(tuple(words[1:]))
        elif words[0] == "dim":
            parts[-1].dims[words[1].split(".")[0]].append((words[1], int(words[2]), int(words[3])))
        elif words[0] in ("least", "greatest"):
            parts[-1].extremes[words[1].split(".")[0]] = f"{words[0]} {words[1]}"
        elif words[0] not in ("filter", "equal", "less", "most", "unlike"):
            raise Refused(f"EXPLAIN answers a line that this tool does not know: {line}")
    return parts


def form_of(parts, explained, streams):
    """A name for all that decides the parts of a query, where several have no signs: the text of EXPLAIN and the domains; else nothing."""
    if len(parts) < 2 or any(part.signs for part in parts):
        return ""
    said = repr((explained[1:-1], [(stream.name, stream.columns) for stream in streams]))
    return hashlib.sha256(said.encode(errors="surrogateescape")).hexdigest()


def is_of(element, stream):
    """Whether a side of a sign is an integer or a column of the stream."""
    return "." not in element or element.split(".")[0] == stream


class Boxes:
    """The boxes of cells of one live query, from the text of EXPLAIN, the announced cells and the streams of FROM."""

    def __init__(self, query, explained, announced, streams=()):
        self.query, self.boxes, known, base = query, [], {}, 0
        is_shared = re.match(r"(?i)\s*CREATE\s+SHARED\b", query.line)
        parts = read_parts(explained, query.streams)
        self.form = form_of(parts, explained, streams)
        for number, part in enumerate(parts, 1) if len(query.streams) > 1 else []:
            signs = tuple(part.signs)
            told = Told(signs, number, self.form) if self.form else Told(signs)
            for stream in query.streams:
                dims = tuple(part.dims[stream])
                kind = part.extremes.get(stream, "present" if query.is_distinct else "count")
                local = tuple(sign for sign in signs if is_of(sign[0], stream) and is_of(sign[2], stream))
                alike = (stream, local, dims, kind)
                if is_shared and alike in known:
                    known[alike].parts.append(told)
                    continue
                size = 1
                for _, low, high in dims:
                    size *= high - low + 1
                known[alike] = Box(base, size, stream, dims, kind, [told])
                self.boxes.append(known[alike])
                base += size
        self.cells = base
        if announced is not None and announced != base:
            why = "leave SHARED out, since EXPLAIN does not tell which parts have boxes in common" if self.form else "this program counts them otherwise"
            raise Refused(f"{query.name} announces {announced} cells and EXPLAIN tells of {base}; {why}")

    def names(self, number):
        """The names of a cell, one for each part that shares it, and its kind."""
        for box in self.boxes:
            if box.base <= number < box.base + box.size:
                place, values = number - box.base, []
                for column, low, high in reversed(box.dims):
                    place, step = divmod(place, high - low + 1)
                    values.append((column, low + step))
                return [Name(told, box.stream, tuple(reversed(values))) for told in box.parts], box.kind
        raise Refused(f"{self.query.name} has no cell {number}")

    def number(self, name):
        """The number and kind of the cell of this name; None for the number where a value lies outside of the dims, for both where no part has the name."""
        for box in self.boxes:
            if box.stream == name.stream and name.part in box.parts:
                if [dim[0] for dim in box.dims] != [column for column, _ in name.values]:
                    raise Refused(f"a part of {self.query.name} keeps other columns here than there; the cells cannot be carried over")
                place = 0
                for (_, low, high), (_, value) in zip(box.dims, name.values):
                    if not low <= value <= high:
                        return None, box.kind
                    place = place * (high - low + 1) + value - low
                return box.base + place, box.kind
        if self.boxes:
            self.check_form(name.part)
        return None, None

    def check_form(self, part):
        """Refuses a part of another script whose query has another form there than here."""
        has_signs = any(told.signs for box in self.boxes for told in box.parts)
        if part.form != self.form:
            why = "has several parts without signs in one of these scripts, and other parts in another"
        elif bool(part.signs) != has_signs:
            why = "is one part without signs in one of these scripts and has parts by signs in another"
        else:
            return
        raise Refused(f"{self.query.name} {why}, as EXPLAIN tells; its cells cannot be carried over: leave COMPACT out, or give it domains with "
                      "which all are alike")
