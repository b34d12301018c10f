"""A picture as SVG: what is drawn is put down in order, in whole pixels, so that the same input gives the same bytes."""

from html import escape

INK, PALE, RED = "#000000", "#808080", "#c00000"
FONT = "DejaVu Sans, Verdana, Arial, sans-serif"


def width_of(text, size):
    """About how wide a text is."""
    return round(len(text) * size * 0.62)


def cut(text, room, size):
    """A text, or its beginning where there is no more room."""
    most = max(1, int(room / (size * 0.62)))
    return text if len(text) <= most else text[: most - 1] + "…"


class Picture:
    def __init__(self):
        self.parts, self.width, self.height = [], 0, 0

    def reach(self, x, y):
        self.width, self.height = max(self.width, x), max(self.height, y)

    def rect(self, x, y, w, h, fill="none", ink=INK, stroke=1, dash="", told="", round_by=3):
        title = f"<title>{escape(told)}</title>" if told else ""
        dashes = f' stroke-dasharray="{dash}"' if dash else ""
        self.parts.append(
            f'<rect x="{x}" y="{y}" width="{w}" height="{h}" rx="{round_by}" fill="{fill}" stroke="{ink}" '
            f'stroke-width="{stroke}"{dashes}>{title}</rect>'
        )
        self.reach(x + w, y + h)

    def line(self, x, y, to_x, to_y, ink=INK, stroke=1, dash=""):
        dashes = f' stroke-dasharray="{dash}"' if dash else ""
        self.parts.append(f'<line x1="{x}" y1="{y}" x2="{to_x}" y2="{to_y}" stroke="{ink}" stroke-width="{stroke}"{dashes}/>')
        self.reach(max(x, to_x), max(y, to_y))

    def shape(self, points, told):
        title = f"<title>{escape(told)}</title>" if told else ""
        where = " ".join(f"{x},{y}" for x, y in points)
        self.parts.append(f'<polygon points="{where}" fill="{INK}">{title}</polygon>')

    def text(self, x, y, text, size=11, ink=INK, bold=False, anchor="start", told=""):
        weight = ' font-weight="bold"' if bold else ""
        place = f' text-anchor="{anchor}"' if anchor != "start" else ""
        title = f"<title>{escape(told)}</title>" if told else ""
        inside = f"{escape(text, quote=False)}{title}"
        self.parts.append(f'<text x="{x}" y="{y}" font-size="{size}" fill="{ink}"{weight}{place}>{inside}</text>')
        if anchor == "start":
            self.reach(x + width_of(text, size), y)

    def whole(self, title):
        """The file, with a margin and a white ground."""
        w, h = self.width + 16, self.height + 16
        head = f'<svg xmlns="http://www.w3.org/2000/svg" width="{w}" height="{h}" viewBox="0 0 {w} {h}" font-family="{FONT}">'
        ground = f'<rect width="{w}" height="{h}" fill="#ffffff"/>'
        return "\n".join([head, f"<title>{escape(title, quote=False)}</title>", ground, *self.parts, "</svg>", ""])
