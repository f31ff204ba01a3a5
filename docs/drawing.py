"""Text, boxes and lines of an SVG picture, for docs/layers.py."""
import re
from html import escape

INK, QUIET, RED, LINE = "#1a1a1a", "#595959", "#a3151f", "#123a63"
HARD = "\u00a0"  # a blank at which no line ends


# The widths of letters, in parts of the font's size: for each letter that of the widest of DejaVu Sans, Verdana and Liberation Sans (Arial), rounded up.
# (Those of Verdana were not measured, as the font is not free; the picture was looked at in the other two.)
# A machine without Helvetica and Arial shows the picture in one of the first two, so that is what it is laid out for.
PLAIN = {0.28: "'il", 0.36: " fj·", 0.40: ",.t", 0.44: "!Ir", 0.48: '"()-/:;[]|', 0.56: "?JLcsz", 0.60: "kvxy", 0.72: "ABEKPSVXYZ", 0.80: "&CDGHNOQRU",
         0.84: "#+<=>w×", 0.88: "M", 1.00: "Wm▲▼"}
BOLD = {0.36: "'il ", 0.40: ",.|·", 0.44: ":;fj", 0.48: "!-[]t", 0.52: "r", 0.56: '"()IJ', 0.60: "csz", 0.68: "?Laekvxy", 0.76: "CPSYZ", 0.80: "ABKRVX",
        0.88: "#&+<=>DGHNOQU×", 1.00: "Mw▲▼", 1.16: "Wm"}
WIDTHS = {False: (0.64, {letter: width for width, letters in PLAIN.items() for letter in letters}),
          True: (0.72, {letter: width for width, letters in BOLD.items() for letter in letters})}


def text_width(text, size, bold=False):
    """The width in the widest of the fonts above; letters that are not listed are as wide as digits and most small letters."""
    other, widths = WIDTHS[bold]
    return size * sum(widths.get(letter, other) for letter in text.replace(HARD, " ").replace("`", ""))


def wrap(text, width, size):
    """The lines of a text; what stands between backticks stays together."""
    lines = []
    for word in re.sub("`.+?`", lambda found: found[0].replace(" ", HARD), text).split(" ") if text else []:
        if lines and text_width(f"{lines[-1]} {word}", size) <= width:
            lines[-1] += " " + word
        else:
            lines.append(word)
    return lines


class Drawing:
    def __init__(self):
        self.parts, self.upright = [], []  # upright: the upright lines, so that words can keep out of their way

    def text(self, x, y, text, size=11, colour=INK, bold=False, anchor="start"):
        shown = re.sub(r"`(.+?)`", r'<tspan font-style="italic">\1</tspan>', escape(text))
        weight = ' font-weight="bold"' if bold else ""
        self.parts.append(f'<text x="{x:.1f}" y="{y:.1f}" font-size="{size}" fill="{colour}"{weight} text-anchor="{anchor}">{shown}</text>')

    def paragraph(self, x, y, text, width, size=11, colour=INK):
        """Returns the y below it."""
        lines = wrap(text, width, size)
        for number, line in enumerate(lines):
            self.text(x, y + number * (size + 2), line, size, colour)
        return y + len(lines) * (size + 2)

    def box(self, x, y, width, height, fill, stroke="#8a8a8a", dashed=False, round=3):
        dash = ' stroke-dasharray="5 3"' if dashed else ""
        self.parts.append(f'<rect x="{x:.1f}" y="{y:.1f}" width="{width:.1f}" height="{height:.1f}" rx="{round}" fill="{fill}" stroke="{stroke}"{dash}/>')

    def path(self, points, colour=LINE, width=2.0, arrow=False, dashed=False):
        self.upright += [(x, min(y, end), max(y, end)) for (x, y), (other, end) in zip(points, points[1:]) if x == other]
        places = " ".join(f"{x:.1f},{y:.1f}" for x, y in points)
        ends = (f' marker-end="url(#{"red" if colour == RED else "blue"})"' if arrow else "") + (' stroke-dasharray="9 4"' if dashed else "")
        self.parts.append(f'<polyline points="{places}" fill="none" stroke="{colour}" stroke-width="{width}"{ends}/>')

    def svg(self, width, height):
        arrow = ('<marker id="{}" viewBox="0 0 8 8" refX="7" refY="4" markerWidth="8" markerHeight="8" markerUnits="userSpaceOnUse" '
                 'orient="auto"><path d="M0,0.5 L8,4 L0,7.5 z" fill="{}"/></marker>')
        head = (f'<svg xmlns="http://www.w3.org/2000/svg" width="{width}" height="{height:.0f}" viewBox="0 0 {width} {height:.0f}" '
                'font-family="Helvetica, Arial, \'Liberation Sans\', \'DejaVu Sans\', Verdana, sans-serif">\n'
                f'<defs>{arrow.format("blue", LINE)}{arrow.format("red", RED)}</defs>\n<rect width="100%" height="100%" fill="white"/>\n')
        return head + "\n".join(self.parts) + "\n</svg>\n"
