"""The picture of a query: panels for the dearest parts, and a list of the others."""
from drawing.explained import (TURNED, boxes_of, chains_of, columns_of, constants_of, cost_of, counted, is_column, links_of, saying, size_of,
                               stream_of, streams_of)
from drawing.picture import WIDTH, Picture

MOST_PANELS, MOST_PARTS = 6, 40
LEFT, RIGHT = 210, 1160
LANE, SHORT, HEAD, GAP, SPREAD = 92, 24, 46, 22, 34
CHARACTER = 7.3


def drawn_whole(explained, palette=None):
    """The picture of a query as SVG."""
    picture = Picture(palette)
    draw_head(picture, explained)
    costs = {part.number: cost_of(explained, part) for part in explained.parts}
    ranked = sorted(explained.parts, key=lambda part: (-costs[part.number], part.number))
    drawn, folded = {}, []
    for part in ranked[:MOST_PARTS]:
        if len(drawn_parts(drawn)) == MOST_PANELS or all(box in drawn for box in boxes_of(explained, part)):
            folded.append(part)
        else:
            Panel(picture, explained, part, drawn).draw(costs)
    if folded:
        draw_folded(picture, explained, folded, costs, drawn)
    draw_rest(picture, ranked[MOST_PARTS:], costs)
    picture.height += 24
    return picture.whole(f"How the query {explained.name} is kept")


def draw_head(picture, explained):
    picture.text(24, 38, explained.name, size=20, weight="bold")
    y = 60
    for line in wrapped(explained.text, 150):
        picture.text(24, y, line, "soft", 13)
        y += 18
    parts = explained.parts
    cells = sum(cost_of(explained, part) for part in parts)
    picture.text(24, y + 4, f"{counted(len(parts), 'part', 'parts')}, {counted(cells, 'cell', 'cells')}" if parts else saying(explained), size=14)
    picture.height = y + 20


def drawn_parts(drawn):
    """The numbers of the parts that have a panel: each of them drew a box."""
    return set(drawn.values())


def draw_folded(picture, explained, parts, costs, drawn):
    """Lists parts that have no panel, a line or two for each."""
    lines = []
    for part in parts:
        words = wrapped(part_words(explained, part, drawn), 155)
        lines += [(f"part {part.number}", counted(costs[part.number], "cell", "cells"), words[0])]
        lines += [("", "", more) for more in words[1:]]
    top, height = picture.height + GAP, 48 + 20 * len(lines)
    picture.box(16, top, WIDTH - 32, height, "panel", "rule", 10)
    picture.text(34, top + 29, counted(len(parts), "part more", "parts more"), size=16, weight="bold")
    for at, (number, cells, words) in enumerate(lines):
        y = top + 54 + 20 * at
        picture.text(34, y, number, size=13, weight="bold")
        picture.text(110, y, cells, size=13)
        picture.text(LEFT, y, words, "soft", 12)
    picture.height = top + height


def part_words(explained, part, drawn):
    """What is said of a part without a panel: what it keeps of each stream, and what answers look at."""
    boxes = "; ".join(f"{box.stream} {box_words(box, drawn)}" for box in boxes_of(explained, part))
    links = ", ".join(f"{left} {sign} {right}" for left, sign, right, is_asked in links_of(part) if is_asked)
    return boxes + (f"; {links}" if links else "")


def box_words(box, drawn):
    """What is said of a box: the part where it is drawn, or its ranges and what its cells keep beside whether or how many."""
    if box in drawn:
        return f"as in part {drawn[box]}"
    ranges = [f"{column.split('.')[1]} {lo:,}" + (f" .. {hi:,}" if hi != lo else "") for column, lo, hi in box.dims]
    extreme = [box.kind] if box.kind.startswith(("least", "greatest")) else []
    return ", ".join(ranges + extreme) or "one cell"


def draw_rest(picture, left, costs):
    """Says how many parts are left, and how many cells they have."""
    if left:
        cells = sum(costs[part.number] for part in left)
        picture.text(34, picture.height + 34, f"and {counted(len(left), 'part', 'parts')} more with together "
                     f"{counted(cells, 'cell', 'cells')}, none above {counted(costs[left[0].number], 'cell', 'cells')}", size=14)
        picture.height += 40


def wrapped(words, most):
    """The words of a text in lines of at most so many characters where that can be."""
    lines = [""]
    for word in words.split(" "):
        if lines[-1] and len(lines[-1]) + 1 + len(word) > most:
            lines.append("")
        lines[-1] += (" " if lines[-1] else "") + word
    return lines


def fitting(words, width, most=12.5):
    """The size of letters at which words fit into a width, within reason."""
    return max(min(most, most * width / (len(words) * CHARACTER + 4)), 8)


class Panel:
    """The panel of a part: a line for each stream, and the comparisons between them."""

    def __init__(self, picture, explained, part, drawn):
        self.picture, self.explained, self.part, self.drawn = picture, explained, part, drawn
        self.boxes = boxes_of(explained, part)
        self.short = [box in drawn for box in self.boxes]
        # of each column where it stands, how far below it a link begins, and how wide it is
        self.where = {}

    def draw(self, costs):
        picture, top = self.picture, self.picture.height + GAP
        heights = [SHORT if is_short else LANE + SPREAD for is_short in self.short]
        height = HEAD + sum(heights) + (10 if self.short[-1] else 10 - SPREAD)
        picture.box(16, top, WIDTH - 32, height, "panel", "rule", 10)
        picture.text(34, top + 29, f"part {self.part.number}", size=16, weight="bold")
        cost, most = costs[self.part.number], max(costs.values())
        picture.text(130, top + 29, counted(cost, "cell", "cells"), size=14)
        if most:
            picture.box(260, top + 17, max(880 * cost / most, 2), 14, "bar", round_by=4)
        y = top + HEAD
        for box, is_short, step in zip(self.boxes, self.short, heights):
            if is_short:
                self.draw_short(y, box)
            else:
                self.draw_box(y, box)
            self.drawn.setdefault(box, self.part.number)
            y += step
        for left, sign, right, is_asked in links_of(self.part):
            if left in self.where and right in self.where:
                self.draw_link(left, right, sign, ("equal" if sign == "=" else "less") if is_asked else "soft")
        picture.height = top + height

    def draw_short(self, y, box):
        """Names a box that stands in an earlier panel, with the links that lead to it."""
        links = [f"{left} {sign} {right}" for left, sign, right, is_asked in links_of(self.part)
                 if is_asked and box.stream in (stream_of(left), stream_of(right))]
        self.picture.text(34, y + 20, box.stream, size=14, weight="bold")
        self.picture.text(LEFT, y + 20, "; ".join([f"as in part {self.drawn[box]}"] + links), "soft", 12)

    def draw_box(self, y, box):
        """Draws what is kept of a stream."""
        explained, picture = self.explained, self.picture
        picture.text(34, y + 34, box.stream, size=14, weight="bold")
        if len(streams_of(explained)) == 1:
            picture.text(34, y + 52, "no cells", "soft", 12)
        else:
            picture.text(34, y + 52, counted(size_of(explained, box), "cell", "cells"), "soft", 12)
            for at, line in enumerate(wrapped(box.kind, 24)):
                picture.text(34, y + 68 + 14 * at, line, "soft", 12)
        chains = chains_of(box, columns_of(explained, self.part, box.stream), [str(it) for it in constants_of(explained)])
        step = (RIGHT - LEFT) / max(sum(len(chain) + 1 for chain in chains), 1)
        begin = LEFT
        for chain in chains:
            self.draw_chain(y + 48, begin, step, box, chain)
            begin += step * (len(chain) + 1)

    def draw_chain(self, axis, begin, step, box, chain):
        """Draws elements whose order is known on a line of their own."""
        picture, end = self.picture, begin + step * (len(chain) + 1) - 24
        if len(chain) > 1:
            picture.line(begin - 10, axis, end, axis, "rule", 2)
            picture.arrow(end, axis)
        ranges = {column: (lo, hi) for column, lo, hi in box.dims}
        for at, group in enumerate(chain):
            self.draw_group(axis, begin + step * (at + 0.9), step, group, ranges)

    def draw_group(self, axis, x, step, group, ranges):
        """Draws elements that are equal: an integer as a mark, columns as a circle, or as a box with their range."""
        picture = self.picture
        numbers, columns = [it for it in group if not is_column(it)], [it for it in group if is_column(it)]
        ranged = next((ranges[it] for it in columns if it in ranges), None)
        width = 12
        if ranged:
            said = f"{ranged[0]:,}" if ranged[0] == ranged[1] else f"{ranged[0]:,} .. {ranged[1]:,}"
            width = max(min(step * 0.92, max(len(said) * CHARACTER + 18, 44)), 24)
            picture.box(x - width / 2, axis - 11, width, 22, "fill", "edge")
            picture.text(x, axis + 4.5, said, size=fitting(said, width), anchor="middle")
        elif numbers:
            picture.line(x, axis - 7, x, axis + 7, "ink", 2)
        elif columns:
            picture.circle(x, axis, 5, "ground", "ink", 2)
        is_labelled = bool(numbers) and not ranged
        if is_labelled:
            picture.text(x, axis + 26, f"{int(numbers[0]):,}", "soft", 12, "middle")
        if columns:
            words = " = ".join(it.split(".")[1] for it in columns)
            picture.text(x, axis - 18, words, size=fitting(words, step, 13), anchor="middle", weight="bold")
            width = max(width, len(words) * CHARACTER)
        for column in columns:
            self.where[column] = (x, axis, 32 if is_labelled else 12, width)

    def draw_link(self, left, right, sign, colour):
        """Draws a comparison between two columns; where it passes a stream between them it bends around what stands there."""
        (x1, y1, below, _), (x2, y2, _, _) = sorted((self.where[left], self.where[right]), key=lambda place: place[1])
        top, bottom = y1 + below, y2 - 32
        passed = [width for x, y, _, width in self.where.values() if y1 < y < y2 and abs(x - (x1 + x2) / 2) < width]
        bend = (max(passed) / 2 + 24) / 0.75 if passed else 0
        middle, x = (top + bottom) / 2, (x1 + x2) / 2 - 0.75 * bend
        self.picture.curve((x1, top), (x1 - bend, middle), (x2 - bend, middle), (x2, bottom), colour, colour == "soft")
        turned = sign if self.where[left][1] <= self.where[right][1] else TURNED[sign]
        self.picture.circle(x, middle, 10, "panel", colour, 1.5)
        self.picture.text(x, middle + 5, turned, colour, 14 if len(turned) == 1 else 11, "middle", "bold")
