"""A drawing as SVG: boxes, lines, arrows and words, in the colours of the repository's pictures."""

INK, PALE, PAPER = "#1f2937", "#9ca3af", "#ffffff"
COLOURS = {"commit": "#86c79b", "pre": "#f4a259", "mate": "#e8c547", "final": "#e07a6b", "old": "#b39ddb", "filler": "#e5e7eb", "open": "#dbeafe", "read": "#bfdbfe", "lost": "#d1d5db", "full": "#d1d5db", "board": "#64748b"}


def escaped(text):
    return str(text).replace("&", "&amp;").replace("<", "&lt;").replace(">", "&gt;")


class Drawing:
    def __init__(self, width, height, title):
        self.width, self.height = width, height
        self.parts = ["<title>%s</title>" % escaped(title), '<rect width="%d" height="%d" fill="%s"/>' % (width, height, PAPER)]

    def box(self, x, y, width, height, fill="none", stroke=INK, dashed=False, radius=2):
        self.parts.append('<rect x="%.1f" y="%.1f" width="%.1f" height="%.1f" rx="%d" fill="%s" stroke="%s"%s/>' % (x, y, width, height, radius, fill, stroke, ' stroke-dasharray="4 3"' if dashed else ""))

    def line(self, x1, y1, x2, y2, stroke=INK, dashed=False, arrow=False, width=1):
        self.parts.append('<line x1="%.1f" y1="%.1f" x2="%.1f" y2="%.1f" stroke="%s" stroke-width="%s"%s%s/>' % (x1, y1, x2, y2, stroke, width, ' stroke-dasharray="4 3"' if dashed else "", ' marker-end="url(#head)"' if arrow else ""))

    def arc(self, x1, y1, x2, y2, height, stroke=INK):
        """An arrow from one point to another, bent upwards by so much."""
        self.parts.append('<path d="M%.1f %.1f Q%.1f %.1f %.1f %.1f" fill="none" stroke="%s" marker-end="url(#head)"/>' % (x1, y1, (x1 + x2) / 2, min(y1, y2) - 2 * height, x2, y2, stroke))

    def text(self, x, y, text, size=12, anchor="start", fill=INK, mono=False, bold=False):
        self.parts.append('<text x="%.1f" y="%.1f" font-size="%d" text-anchor="%s" fill="%s"%s%s>%s</text>' % (x, y, size, anchor, fill, ' font-family="DejaVu Sans Mono, monospace"' if mono else "", ' font-weight="bold"' if bold else "", escaped(text)))

    def brace(self, x1, x2, y, text, size=11, below=True, fill=INK):
        """A line over or under a stretch, with what it is."""
        end = y + (-5 if below else 5)
        self.line(x1, y, x2, y, stroke=fill)
        self.line(x1, y, x1, end, stroke=fill)
        self.line(x2, y, x2, end, stroke=fill)
        self.text((x1 + x2) / 2, y + (size + 3 if below else -5), text, size=size, anchor="middle", fill=fill)

    def svg(self):
        head = '<marker id="head" viewBox="0 0 8 8" refX="7" refY="4" markerWidth="7" markerHeight="7" orient="auto"><path d="M0 0 L8 4 L0 8 z" fill="%s"/></marker>' % INK
        return '<svg xmlns="http://www.w3.org/2000/svg" viewBox="0 0 %d %d" width="%d" height="%d" font-family="DejaVu Sans, sans-serif">\n<defs>%s</defs>\n%s\n</svg>\n' % (
            self.width, self.height, self.width, self.height, head, "\n".join(self.parts))
