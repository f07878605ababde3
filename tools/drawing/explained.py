"""What EXPLAIN says of a query: its parts, and what each part keeps of each stream."""
import re
from collections import namedtuple

Explained = namedtuple("Explained", "name text parts")
Part = namedtuple("Part", "number signs links dims extremes")
Box = namedtuple("Box", "stream signs dims kind part")
LINKS = ("equal", "less", "most", "unlike")
TURNED = {"<": ">", "=": "=", ">": "<", "<=": ">=", "<>": "<>"}


def read_explained(lines, wanted):
    """The query of this name that is explained, or the first one; None where there is none."""
    for at, line in enumerate(lines):
        word, _, name = line.partition(" ")
        if word == "explain" and wanted in (None, name) and at + 1 < len(lines):
            return Explained(name, lines[at + 1], read_parts(lines[at + 2:], name))
    return None


def read_parts(lines, name):
    """The parts, up to the line that ends them; a filter has none."""
    parts = []
    for line in lines:
        words = line.split(" ")
        if line == f"end {name}":
            break
        if words[0] == "part":
            parts.append(Part(int(words[1]), [], [], [], []))
        elif words[0] == "sign":
            parts[-1].signs.append(tuple(words[1:4]))
        elif words[0] in LINKS:
            parts[-1].links.append(tuple(words[1:4]))
        elif words[0] == "dim":
            parts[-1].dims.append((words[1], int(words[2]), int(words[3])))
        elif words[0] in ("least", "greatest"):
            parts[-1].extremes.append((words[0], words[1]))
    return parts


def is_column(element):
    return not re.fullmatch(r"[+-]?\d+", element)


def stream_of(column):
    return column.split(".")[0]


def streams_of(explained):
    """The streams of FROM, in order."""
    between = re.search(r" FROM (.*?)( WHERE |$)", explained.text).group(1)
    return [name.strip() for name in between.split(",")]


def is_distinct(explained):
    return explained.text.startswith("SELECT DISTINCT ")


def boxes_of(explained, part):
    """What is kept of each stream of FROM: its own signs, the ranges of its cells and what a cell holds.

    Of several parts without signs EXPLAIN does not tell which rows each counts, so a box is told by its part too, and is like no other.
    """
    boxes, number = [], part.number if len(explained.parts) > 1 and not part.signs else None
    for stream in streams_of(explained):
        own = tuple(sign for sign in part.signs if all(
            not is_column(it) or stream_of(it) == stream for it in (sign[0], sign[2])))
        dims = tuple(dim for dim in part.dims if stream_of(dim[0]) == stream)
        boxes.append(Box(stream, own, dims, kind_of(explained, part, stream), number))
    return boxes


def kind_of(explained, part, stream):
    """What a cell of a stream holds."""
    for which, column in part.extremes:
        if stream_of(column) == stream:
            return f"{which} {column}"
    return "whether a row came" if is_distinct(explained) else "how many rows came"


def size_of(explained, box):
    """How many cells a box has; a query over one stream keeps none."""
    if len(streams_of(explained)) == 1:
        return 0
    size = 1
    for _, lo, hi in box.dims:
        size *= hi - lo + 1
    return size


def cost_of(explained, part):
    return sum(size_of(explained, box) for box in boxes_of(explained, part))


def chains_of(box, columns, constants):
    """The integers and columns in ascending order, as lists of groups that are equal in the part; elements whose order the part does
    not settle stand in lists of their own."""
    signs = {}
    for left, sign, right in box.signs:
        signs[left, right] = sign
        signs[right, left] = TURNED[sign]
    elements = [it for it in dict.fromkeys([*constants, *columns]) if is_column(it) or any(it in pair for pair in signs)]
    return [chain_of(them, signs) for them in related(elements, signs)]


def related(elements, signs):
    """The elements in lists: those that signs lead from one to another stand in one."""
    lists = []
    for element in elements:
        near = [them for them in lists if any((element, other) in signs for other in them if is_column(element) or is_column(other))]
        lists = [them for them in lists if them not in near] + [[it for them in near for it in them] + [element]]
    return sorted(lists, key=lambda them: min(elements.index(it) for it in them))


def chain_of(elements, signs):
    """The elements in ascending order, as a list of groups that are equal."""

    def stands(one, other):
        if not is_column(one) and not is_column(other):
            return (int(one) > int(other)) - (int(one) < int(other))
        return {"<": -1, "=": 0, ">": 1}.get(signs.get((one, other)))

    groups = []
    for element in elements:
        place = len(groups)
        for at, group in enumerate(groups):
            order = stands(element, group[0])
            if order == 0:
                group.append(element)
                place = None
                break
            if order == -1:
                place = at
                break
        if place is not None:
            groups.insert(place, [element])
    return groups


def columns_of(explained, part, stream):
    """The columns of a stream that the query compares or that have a range, each once, as they come in the text."""
    named = [it for sign in part.signs for it in (sign[0], sign[2]) if is_column(it)]
    named += [dim[0] for dim in part.dims] + [column for _, column in part.extremes]
    named += [side for left, _, right in part.links for side in (left, right)]
    return [it for it in dict.fromkeys(named) if stream_of(it) == stream]


def constants_of(explained):
    """The integers that the query compares with, each once."""
    condition = explained.text.partition(" WHERE ")[2]
    sides = [side for atom in condition.split(" AND ") for side in re.split(r" (?:<=|>=|<>|<|=|>) ", atom)]
    return sorted({int(side) for side in sides if side and not is_column(side)})


def links_of(part):
    """The comparisons between streams, each as left, sign, right and whether answers look at it; the others are settled by the order."""
    asked = [(*link, True) for link in part.links]
    seen = {frozenset((left, right)) for left, _, right, _ in asked}
    settled = [(left, sign, right, False) for left, sign, right in part.signs
               if is_column(right) and stream_of(left) != stream_of(right) and frozenset((left, right)) not in seen]
    return asked + settled


def counted(number, one, many):
    return f"{number:,} {one if number == 1 else many}"


def saying(explained):
    """What is said of a query without parts."""
    one = len(streams_of(explained)) == 1 and not is_distinct(explained)
    return "a filter: each row is answered by itself, and nothing is kept" if one else "no part: no rows can ever answer"
