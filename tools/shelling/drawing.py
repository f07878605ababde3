"""How a query is kept, drawn in characters from what EXPLAIN answers."""
from drawing import explained as explain

BAR, MOST_PARTS = 40, 12


def drawn(lines, name):
    """The drawing of the query of this name as lines; none where the lines do not explain it."""
    explained = explain.read_explained(lines, name)
    if explained is None:
        return []
    parts = explained.parts
    costs = {part.number: explain.cost_of(explained, part) for part in parts}
    out = [f"{name}: {explained.text}"]
    if not parts:
        return out + [explain.saying(explained)]
    out.append(f"{explain.counted(len(parts), 'part', 'parts')}, {explain.counted(sum(costs.values()), 'cell', 'cells')}")
    ranked = sorted(parts, key=lambda part: (-costs[part.number], part.number))
    seen = {}
    for part in ranked[:MOST_PARTS]:
        out += drawn_part(explained, part, costs, seen)
    if len(ranked) > MOST_PARTS:
        left = ranked[MOST_PARTS:]
        out.append(f"and {explain.counted(len(left), 'part', 'parts')} more, none above {explain.counted(costs[left[0].number], 'cell', 'cells')}")
    return out


def drawn_part(explained, part, costs, seen):
    """The lines of one part: what is kept of each stream, and the comparisons between streams."""
    most = max(costs.values())
    bar = "#" * max(1, round(BAR * costs[part.number] / most)) if most else ""
    out = ["", f"part {part.number}  {explain.counted(costs[part.number], 'cell', 'cells')}  {bar}".rstrip()]
    for box in explain.boxes_of(explained, part):
        if box in seen:
            out.append(f"  {box.stream}: as in part {seen[box]}")
            continue
        seen[box] = part.number
        size = explain.size_of(explained, box)
        kept = f"{explain.counted(size, 'cell', 'cells')}, {box.kind}" if size else "no cells"
        out += [f"  {box.stream}: {kept}", f"    {axis(explained, part, box)}"]
    for left, sign, right, is_asked in explain.links_of(part):
        out.append(f"  {left} {sign} {right}" + ("" if is_asked else "  (settled by the order above)"))
    return out


def axis(explained, part, box):
    """The integers and columns of a stream in the order that they have in the part, smallest first; columns with their ranges. Those whose
    order the part does not settle stand behind a bar."""
    columns = explain.columns_of(explained, part, box.stream)
    ranges = {column: f"[{lo}]" if lo == hi else f"[{lo} .. {hi}]" for column, lo, hi in box.dims}
    chains = explain.chains_of(box, columns, [str(it) for it in explain.constants_of(explained)])
    return " | ".join(" < ".join(said(group, ranges) for group in chain) for chain in chains) or "(no column is compared)"


def said(group, ranges):
    """Elements that are equal, and the range of the column among them that has one."""
    names = [it.split(".")[1] if explain.is_column(it) else it for it in group]
    filled = next((ranges[it] for it in group if it in ranges), "")
    return " = ".join(names) + (f" {filled}" if filled else "")
