"""SVG pictures of boxes, circles, arrows and text, for tools/draw_*.py. The colours follow the reader's light or dark scheme."""
import html
import os
import sys

ROOT = os.path.dirname(os.path.dirname(os.path.abspath(__file__)))
FOLDER = os.path.join(ROOT, "docs", "pictures")
# The colours of each class, light and dark. Custom properties would be shorter, but not every viewer has them.
COLOURS = {
    "text": ("fill: #1f2328", "fill: #e6edf3"),
    ".small": ("fill: #57606a", "fill: #a5b0bc"),
    ".ground": ("fill: #ffffff", "fill: #0d1117"),
    ".box": ("fill: #f3f5f8; stroke: #6e7781", "fill: #1b222c; stroke: #7d8792"),
    ".line": ("stroke: #6e7781", "stroke: #7d8792"),
    ".tip": ("fill: #6e7781", "fill: #7d8792"),
    ".old": ("fill: #ffffff; stroke: #1f2328", "fill: #0d1117; stroke: #e6edf3"),
    ".wait": ("stroke: #9a5b00", "stroke: #e0a63a"),
    ".new": ("fill: #0757b5; stroke: #0757b5", "fill: #6cb1ff; stroke: #6cb1ff"),
    ".on-new": ("fill: #ffffff", "fill: #0d1117"),
}
SHAPES = """
text { font-family: "DejaVu Sans", "Segoe UI", Helvetica, Arial, sans-serif; font-size: 13px }
.title { font-weight: bold; font-size: 14px }
.small { font-size: 12px }
.line { fill: none; stroke-width: 1.3 }
.old, .new { stroke-width: 1.5 }
.wait { fill: none; stroke-width: 2; stroke-dasharray: 4 3 }
"""
TIP = (
    '<marker id="tip" viewBox="0 0 10 10" refX="9" refY="5" markerWidth="8" markerHeight="8" orient="auto">'
    '<path class="tip" d="M0 0 L10 5 L0 10 z"/></marker>'
)


def colours(scheme):
    return "\n".join("%s { %s }" % (name, both[scheme]) for name, both in COLOURS.items())


STYLE = "%s%s\n@media (prefers-color-scheme: dark) {\n%s\n}\n" % (SHAPES, colours(0), colours(1))


def wrapped(text, letters):
    """The words of a text in lines of at most so many letters."""
    lines = [""]
    for word in text.split():
        if lines[-1] and len(lines[-1]) + 1 + len(word) > letters:
            lines.append("")
        lines[-1] = (lines[-1] + " " + word).strip()
    return lines


class Picture:
    def __init__(self, width, height, description):
        self.width, self.height, self.description, self.parts = width, height, description, []

    def add(self, tag, content=None, **attributes):
        words = "".join(' %s="%s"' % (name.rstrip("_").replace("_", "-"), html.escape(str(value))) for name, value in attributes.items())
        self.parts.append("<%s%s/>" % (tag, words) if content is None else "<%s%s>%s</%s>" % (tag, words, html.escape(content), tag))

    def text(self, x, y, content, class_="", anchor="middle"):
        self.add("text", content, x=x, y=y, class_=class_, text_anchor=anchor)

    def lines(self, x, y, lines, class_="small", anchor="middle", step=16):
        for number, line in enumerate(lines):
            self.text(x, y + step * number, line, class_, anchor)

    def box(self, x, y, width, height, title, lines=()):
        """A box with a title and smaller lines under it, all centred."""
        self.add("rect", x=x, y=y, width=width, height=height, rx=6, class_="box")
        top = y + height / 2 - 8 * len(lines) + 5
        self.text(x + width / 2, top, title, "title")
        self.lines(x + width / 2, top + 18, lines)

    def arrow(self, path):
        self.add("path", d=path, class_="line", marker_end="url(#tip)")

    def svg(self):
        head = '<svg xmlns="http://www.w3.org/2000/svg" viewBox="0 0 %d %d" width="%d" height="%d" role="img" aria-label="%s">' % (
            self.width, self.height, self.width, self.height, html.escape(self.description))  # fmt: skip
        ground = '<rect class="ground" width="%d" height="%d"/>' % (self.width, self.height)
        return "\n".join([head, "<style>%s</style>" % STYLE, "<defs>%s</defs>" % TIP, ground, *self.parts, "</svg>"]) + "\n"


def main(name, picture):
    """Writes docs/pictures/NAME.svg; with --check only compares."""
    path = os.path.join(FOLDER, name + ".svg")
    if sys.argv[1:] == ["--check"]:
        with open(path, encoding="utf-8") as f:
            sys.exit(0 if f.read() == picture.svg() else "docs/pictures/%s.svg is not what tools/draw_%s.py draws" % (name, name))
    os.makedirs(FOLDER, exist_ok=True)
    with open(path, "w", encoding="utf-8") as f:
        f.write(picture.svg())
