"""The page that is shown: a line for each name, with its whole, the last second, and the last 20 seconds as bars."""
BARS = " ▁▂▃▄▅▆▇█"
SHOWN_LAST = 28


def bars(grown):
    """The growth of the last seconds as a row of bars, the greatest of them as the highest."""
    most = max(grown)
    return "".join(BARS[0 if value <= 0 else max(1, round(8 * value / most))] for value in grown)


def number(value):
    return f"{value:,.0f}" if value == int(value) else f"{value:,.3f}"


def rows(series):
    """The lines of a page, those that grew last first."""
    named = sorted(series.items(), key=lambda pair: (pair[0].startswith(("error ", "replies")), -pair[1].grown[-1], pair[0]))
    width = max([len(name) for name, _ in named] + [5])
    lines = [f"{'':<{width}}  {'in all':>14}  {'a second':>10}  the last 20 seconds"]
    for name, it in named:
        grows = it.last != "as it is"
        shown = f"  {bars(it.grown):<20}" if grows else ""
        last = f"  {it.last[:SHOWN_LAST]}" if grows and it.last else ""
        lines.append(f"{name:<{width}}  {number(it.total):>14}  {number(it.grown[-1]) if grows else '':>10}{shown}{last}".rstrip())
    return lines


def one_line(series, seconds):
    """What is said each second where no terminal shows the page."""
    said = [f"{name} {number(it.total)} (+{number(it.grown[-1])})" for name, it in sorted(series.items()) if it.grown[-1]]
    return f"{seconds} s: " + (", ".join(said) if said else "nothing came")


def fitted(lines, columns, height):
    """The page cut to a terminal; what is left out is counted."""
    if len(lines) > height - 1:
        left = len(lines) - (height - 2)
        lines = lines[:height - 2] + [f"and {left} more"]
    return [line[:columns - 1] for line in lines]
