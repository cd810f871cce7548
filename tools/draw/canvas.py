"""A canvas for SVG: labels and paths in pixels, and how much room a label takes.

Numbers are measured with a width that no common font passes, and numbers that would not fit their room are refused, so that no two overlap.
"""

from html import escape

from reading import Malformed

MARGIN = 12
DIGIT, LETTER = 0.66, 0.56  # widths in font sizes: of a digit, and of a letter on average
LABEL = 11  # the font size of titles, axes and ticks
LEAST_FONT = 5

STYLE = (
    "text{font-family:'DejaVu Sans',Verdana,sans-serif;fill:#222}"
    ".c{text-anchor:middle}.e{text-anchor:end}.s{fill:#666}"
    ".grid{stroke:#fff;stroke-width:.7;fill:none}.edge{stroke:#555;stroke-width:1.2;fill:none;stroke-linecap:square}"
    ".run{stroke:#222;stroke-width:1.4;fill:none;stroke-linejoin:round}.jump{stroke:#888;stroke-width:.8;stroke-dasharray:3 2;fill:none}"
    ".turn{stroke:#555;stroke-width:.7;fill:none}.head{fill:#222}"
)


def number_text(value):
    """A coordinate, as short as it can be written."""
    return f"{value:.1f}".rstrip("0").rstrip(".")


def text_width(text, size):
    return len(text) * size * (LETTER if any(c.isalpha() for c in text) else DIGIT)


class Canvas:
    """Collects elements and knows how far they reach."""

    def __init__(self):
        self.parts = []
        self.width = 0
        self.height = 0

    def reach(self, x, y):
        self.width, self.height = max(self.width, x), max(self.height, y)

    def text(self, x, y, text, size, kind="", turned=False):
        """A label whose base line is at y. It runs from x on; kind c centres it there, e ends it there."""
        turn = f' transform="rotate(90 {number_text(x)} {number_text(y)})"' if turned else ""
        classes = f' class="{kind}"' if kind else ""
        shift = {"c": 0.5, "e": 0}.get(kind[:1], 1) * text_width(text, size)
        self.reach(x if turned else x + shift, y + shift if turned else y)
        self.parts.append(f'<text x="{number_text(x)}" y="{number_text(y)}" font-size="{number_text(size)}"{classes}{turn}>{escape(text)}</text>')

    def path(self, steps, kind="", fill=""):
        if steps:
            look = f'class="{kind}"' if kind else f'fill="{fill}"'
            self.parts.append(f'<path {look} d="{"".join(steps)}"/>')

    def svg(self, title):
        width, height = round(self.width + MARGIN), round(self.height + MARGIN)
        head = f'<svg xmlns="http://www.w3.org/2000/svg" width="{width}" height="{height}" viewBox="0 0 {width} {height}">'
        name = f"<title>{escape(title)}</title>\n" if title else ""
        back = f'<rect width="{width}" height="{height}" fill="#fff"/>'
        return "\n".join([head, f"{name}<style>{STYLE}</style>", back, *self.parts, "</svg>", ""])


def font_for(labels, width, height):
    """The font size at which every label fits the space."""
    longest = max((len(label) for label in labels), default=1)
    size = min(12, height, width / (longest * DIGIT))
    if size < LEAST_FONT:
        raise Malformed(f"labels of {longest} digits do not fit; use a larger --cell, or fewer labels")
    return size
