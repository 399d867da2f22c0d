"""Writes a page of SVG: boxes, lines and text. The font is monospaced, so that the width of a text follows from its length, and
`textLength` keeps that width if the reader has another font. Colours are named by their purpose, once for a light and once for a dark
page. The page has its own background, so that it is readable anywhere."""

from xml.sax.saxutils import escape

LETTER = 0.602  # The width of a letter of DejaVu Sans Mono, of its size; Menlo and Consolas are as wide or narrower.
FONT = "'DejaVu Sans Mono', Menlo, Consolas, 'Liberation Mono', monospace"

# What a colour is for: its colour on a light page, and on a dark one.
COLOURS = {
    "ground": ("#ffffff", "#0d1117"),
    "ink": ("#1f2328", "#e6edf3"),
    "dim": ("#59636e", "#9da7b3"),
    "rule": ("#d1d9e0", "#3d444d"),
    "panel": ("#f6f8fa", "#151b23"),
    "hold": ("#cfe8ff", "#143a63"),
    "owe": ("#ffe9a8", "#574200"),
    "fresh": ("#d3f5d8", "#12421f"),
    "room-limits": ("#f3e3c7", "#4a3a1c"),
    "room-gate": ("#cfe8ff", "#143a63"),
    "room-queue": ("#c9efe6", "#0f4238"),
    "room-script": ("#e6dcfb", "#3a2a63"),
    "room-run": ("#fbdfe6", "#57243a"),
    "room-program": ("#ffe9a8", "#574200"),
    "room-others": ("#dde3ea", "#343d49"),
    "warn": ("#9a6700", "#e3b341"),
    "done": ("#1a7f37", "#238636"),
    "mark": ("#424a53", "#656c76"),
    "on": ("#ffffff", "#ffffff"),
    "one": ("#0550ae", "#79c0ff"),
    "two": ("#bc4c00", "#ffa657"),
    "three": ("#8250df", "#d2a8ff"),
    "four": ("#116329", "#56d364"),
    "five": ("#a40e26", "#ff7b72"),
    "six": ("#6e7781", "#b1bac4"),
    "seven": ("#7d4e00", "#d4b106"),
    "eight": ("#00727a", "#39c5cf"),
}


def width_of(words, size):
    """How wide a text is, in points."""
    return len(words) * LETTER * size


class Wrong(Exception):
    """What keeps a picture from being drawn."""


def take_lines(text, table, take):
    """Hands each line of a table that says something to a function, as its words between bars."""
    for line in text.splitlines():
        if line.startswith("#") or not line.strip():
            continue
        try:
            take([word.strip() for word in line.split("|")])
        except (ValueError, KeyError):
            raise Wrong(f"the table of {table} has a line '{line}'") from None


def number(value):
    """A number of points, with one decimal where it has any."""
    return f"{value:.1f}".removesuffix(".0")


def rules(which):
    """The colours as rules of a style sheet, of the light page (0) or of the dark one (1)."""
    return "\n".join(
        f".{name} {{ fill: {both[which]} }} .{name}-line {{ stroke: {both[which]} }}" for name, both in COLOURS.items()
    )


class Page:
    """The elements of a picture, in the order in which they are drawn."""

    def __init__(self, title, told):
        self.title, self.told, self.drawn, self.texts = title, told, [], []

    def box(self, x, y, wide, high, fill, line=None, round_by=0, dashed=False):
        words = [f'class="{fill}{f" {line}-line" if line else ""}"']
        words += [f'{name}="{number(at)}"' for name, at in zip(("x", "y", "width", "height"), (x, y, wide, high))]
        if round_by:
            words.append(f'rx="{number(round_by)}"')
        if dashed:
            words.append('stroke-dasharray="4 3"')
        self.drawn.append(f"<rect {' '.join(words)}/>")

    def line(self, points, kind, wide=1.0, dashed=False, arrow=False):
        """A line through these points, with an arrow at its end where it is to have one."""
        path = " ".join(f"{number(x)},{number(y)}" for x, y in points)
        dash = ' stroke-dasharray="4 3"' if dashed else ""
        self.drawn.append(f'<polyline class="{kind}-line" points="{path}" stroke-width="{number(wide)}"{dash}/>')
        if arrow:
            self.arrow(points[-2], points[-1], kind)

    def arrow(self, before, end, kind):
        across, down = end[0] - before[0], end[1] - before[1]
        long = (across**2 + down**2) ** 0.5
        across, down = across / long, down / long
        foot = (end[0] - 8 * across, end[1] - 8 * down)
        sides = [(foot[0] - 4 * down, foot[1] + 4 * across), (foot[0] + 4 * down, foot[1] - 4 * across)]
        path = " ".join(f"{number(x)},{number(y)}" for x, y in [end, *sides])
        self.drawn.append(f'<polygon class="{kind}" points="{path}"/>')

    def dot(self, x, y, kind, hollow=False, radius=4):
        fill = f"ground {kind}-line" if hollow else kind
        self.drawn.append(f'<circle class="{fill}" cx="{number(x)}" cy="{number(y)}" r="{number(radius)}"/>')

    def text(self, x, y, words, kind="ink", size=13, anchor="start", bold=False):
        """A text whose letters stand on the line at y."""
        if not words:
            return
        wide = width_of(words, size)
        left = x - {"start": 0, "middle": wide / 2, "end": wide}[anchor]
        self.texts.append((left, y - 0.8 * size, left + wide, y + 0.2 * size, words))
        more = f' text-anchor="{anchor}"' if anchor != "start" else ""
        more += ' font-weight="bold"' if bold else ""
        self.drawn.append(
            f'<text class="{kind}" x="{number(x)}" y="{number(y)}" font-size="{size}"'
            f' textLength="{number(wide)}"{more}>{escape(words)}</text>'
        )

    def look_for_overlaps(self, wide, high):
        """Each text stands on the page, and on no other. They are gone through from the top, beside those that reach as low."""
        reaching = []
        for left, top, right, low, words in sorted(self.texts, key=lambda text: text[1]):
            if left < 0 or top < 0 or right > wide or low > high:
                raise Wrong(f"'{words}' doesn't stand on the page")
            reaching = [other for other in reaching if top < other[3]]
            for other in reaching:
                if left < other[2] and other[0] < right:
                    raise Wrong(f"'{words}' stands on '{other[4]}'")
            reaching.append((left, top, right, low, words))

    def made(self, wide, high):
        """The whole of it."""
        self.look_for_overlaps(wide, high)
        wide, high = number(wide), number(high)
        return "\n".join(
            [
                f'<svg xmlns="http://www.w3.org/2000/svg" width="{wide}" height="{high}" viewBox="0 0 {wide} {high}" role="img">',
                f"<title>{escape(self.title)}</title>",
                f"<desc>{escape(self.told)}</desc>",
                "<style>",
                f"text {{ font-family: {FONT}; white-space: pre }} polyline {{ fill: none }}",
                rules(0),
                "@media (prefers-color-scheme: dark) {",
                rules(1),
                "}",
                "</style>",
                f'<rect class="ground" width="{wide}" height="{high}"/>',
                *self.drawn,
                "</svg>",
                "",
            ]
        )
