"""A picture as SVG: boxes, lines and texts, written the same way each time, so that two pictures can be compared as text."""
from html import escape

STYLE = """text { font: 13px 'DejaVu Sans', Verdana, sans-serif; fill: #222 }
.small { font-size: 11px } .bold { font-weight: bold } .code { font-family: 'DejaVu Sans Mono', monospace; font-size: 11px }
.middle { text-anchor: middle }"""
# Lines over what a power cut may leave as any bytes.
HATCH = """<pattern id="hatch" width="6" height="6" patternUnits="userSpaceOnUse" patternTransform="rotate(45)">
<rect width="6" height="6" fill="#fff0dc"/><line x1="0" y1="0" x2="0" y2="6" stroke="#f2b877" stroke-width="2"/></pattern>"""


class Picture:
    def __init__(self, width, title):
        self.width, self.height, self.title, self.parts = width, 0, title, []

    def reaches(self, y):
        self.height = max(self.height, y)

    def box(self, x, y, width, height, fill, stroke="#555", radius=0):
        self.parts.append(f'<rect x="{x}" y="{y}" width="{width}" height="{height}" rx="{radius}" fill="{fill}" stroke="{stroke}"/>')
        self.reaches(y + height + 10)

    def text(self, x, y, words, kind=""):
        self.parts.append(f'<text x="{x}" y="{y}" class="{kind}">{escape(words)}</text>')
        self.reaches(y + 10)

    def curve(self, start, end, stroke="#999"):
        """From a point down to another one."""
        (x1, y1), (x2, y2) = start, end
        middle = (y1 + y2) / 2
        self.path(f"M {x1} {y1} C {x1} {middle:g}, {x2} {middle:g}, {x2} {y2}", stroke)

    def path(self, steps, stroke="#999"):
        self.parts.append(f'<path d="{steps}" fill="none" stroke="{stroke}"/>')

    def written(self):
        head = f'<svg xmlns="http://www.w3.org/2000/svg" width="{self.width}" height="{self.height}" viewBox="0 0 {self.width} {self.height}">'
        ground = f'<rect width="{self.width}" height="{self.height}" fill="#fff"/>'
        return "\n".join([head, f"<title>{escape(self.title)}</title>", f"<style>{STYLE}</style>", f"<defs>{HATCH}</defs>", ground,
                          *self.parts, "</svg>", ""])
