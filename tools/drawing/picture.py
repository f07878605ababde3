"""An SVG that is collected from above to below: light, and dark where the reader asks for it."""
from html import escape

WIDTH = 1200
LIGHT = {"ground": "#ffffff", "ink": "#1d2430", "soft": "#687285", "rule": "#c9d0da", "panel": "#f5f7fa", "fill": "#cfe3f7",
         "edge": "#3a78b5", "equal": "#1f8a55", "less": "#b4552d", "bar": "#3a78b5"}
DARK = {"ground": "#12161c", "ink": "#e6e9ee", "soft": "#9aa5b5", "rule": "#3b4553", "panel": "#1a2029", "fill": "#23425f",
        "edge": "#74b0e8", "equal": "#58c795", "less": "#ef9b70", "bar": "#74b0e8"}


def style():
    """The rules by which a reader who asks for dark colours sees them; the colours of the elements themselves are the light ones."""
    rules = [f".{kind[0]}-{name} {{ {kind}: {colour} }}" for kind in ("fill", "stroke") for name, colour in DARK.items()]
    return "@media (prefers-color-scheme: dark) {\n  " + "\n  ".join(rules) + " }"


class Picture:
    """The lines of a picture, and how high it is so far. Colours are names; palette None means light with the rules for dark."""

    def __init__(self, palette=None):
        self.colours = DARK if palette == "dark" else LIGHT
        self.is_plain = palette is not None
        self.lines, self.height = [], 0

    def painted(self, fill=None, stroke=None):
        """The attributes by which an element gets its colours."""
        pairs = [(kind, name) for kind, name in (("fill", fill), ("stroke", stroke)) if name]
        said = " ".join(f'{kind}="{self.colours[name]}"' for kind, name in pairs)
        classes = " ".join(f"{kind[0]}-{name}" for kind, name in pairs)
        return said if self.is_plain else f'{said} class="{classes}"'

    def text(self, x, y, words, colour="ink", size=13, anchor="start", weight="normal"):
        self.lines.append(f'<text x="{x:.1f}" y="{y:.1f}" {self.painted(colour)} font-size="{size:g}" text-anchor="{anchor}" '
                          f'font-weight="{weight}">{escape(words)}</text>')

    def line(self, x1, y1, x2, y2, colour, width=1.5):
        self.lines.append(f'<line x1="{x1:.1f}" y1="{y1:.1f}" x2="{x2:.1f}" y2="{y2:.1f}" {self.painted(None, colour)} '
                          f'stroke-width="{width}"/>')

    def box(self, x, y, width, height, fill, edge=None, round_by=6):
        self.lines.append(f'<rect x="{x:.1f}" y="{y:.1f}" width="{width:.1f}" height="{height:.1f}" rx="{round_by}" '
                          f'{self.painted(fill, edge)}/>')

    def circle(self, x, y, radius, fill, edge, width):
        self.lines.append(f'<circle cx="{x:.1f}" cy="{y:.1f}" r="{radius}" {self.painted(fill, edge)} stroke-width="{width}"/>')

    def arrow(self, x, y):
        self.lines.append(f'<path d="M {x:.1f} {y - 5:.1f} l 9 5 l -9 5 z" {self.painted("rule")}/>')

    def curve(self, start, one, other, end, colour, is_dashed):
        dashes = ' stroke-dasharray="5 4"' if is_dashed else ""
        points = " ".join(f"{x:.1f} {y:.1f}" for x, y in (one, other, end))
        self.lines.append(f'<path d="M {start[0]:.1f} {start[1]:.1f} C {points}" fill="none" {self.painted(None, colour)} '
                          f'stroke-width="2"{dashes}/>')

    def whole(self, title):
        rules = "" if self.is_plain else f"<style>{style()}</style>\n"
        return (f'<svg xmlns="http://www.w3.org/2000/svg" viewBox="0 0 {WIDTH} {self.height:.0f}" width="{WIDTH}" '
                f'height="{self.height:.0f}" role="img" font-family="DejaVu Sans, Verdana, sans-serif">\n'
                f'<title>{escape(title)}</title>\n{rules}<rect width="100%" height="100%" {self.painted("ground")}/>\n'
                + "\n".join(self.lines) + "\n</svg>\n")
