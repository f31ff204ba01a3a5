#!/usr/bin/env python3
"""Makes docs/layers.svg: the crates as layers, and the way of a frame through them.

    python3 docs/layers.py            makes the picture
    python3 docs/layers.py --check    says whether it is up to date (exit code 1 if not)

Layers come from crates.txt, what a crate holds from the Map in README.md, sizes from the files, the steps of the way of a frame from
docs/way.txt. The script stops where a crate has no place in the picture, or a step names a function that there is not.
"""
import re
import sys
from dataclasses import dataclass, field
from pathlib import Path

sys.dont_write_bytecode = True  # no __pycache__ in docs/
from drawing import HARD, INK, LINE, QUIET, RED, Drawing, text_width, wrap

ROOT = Path(__file__).resolve().parent.parent
PICTURE = ROOT / "docs" / "layers.svg"
WIDTH, MARGIN, GAP = 1520, 24, 14
CODE, PROMISES, DEFINITIONS, PROOF = "#123a63", "#7c9cc0", "#d08a1d", "#c9cdd2"
GROUPS = {"theory": ("Theory: no code", "#fbf3df", 1), "module": ("The module", "#e3edf7", 5),
          "tests": ("Test programs", "#f2f2f2", 2)}  # the last: how many boxes have room side by side
OUTSIDE = "not proved: radio, C firmware, the compiler, C's read and write"
PROVED = "proved: from the bytes to the order of each log, after every list of calls"
NOTE = ("The third call, `clock_in_place` (refused with 26, 10, 25), sets the time, drops what has lapsed (`alive`), and settles as in steps 11 to 13.")
LABEL = text_width("definitions", 11) + 6  # the width of the words before a bar
BLOCK = 230  # the width of all bars of a box, with words and numbers
NUMBERS = text_width("00", 13, True) + 10  # the width of the layers' numbers

def stop(message):
    sys.exit(f"docs/layers.py: {message}")  # exit code 1

def read(path):
    return path.read_text(encoding="utf-8")


# ---- The repository: crates, layers, what the Map says, sizes

@dataclass
class Crate:
    name: str
    stands_on: list  # the crates of this repository that it needs
    layer: int
    group: str = ""
    kind: str = ""
    holds: str = ""
    sizes: dict = field(default_factory=dict)

def read_crates():
    """Each crate of crates.txt; its layer is the longest way down to the bottom."""
    lines = [line for line in read(ROOT / "crates.txt").splitlines() if line.strip() and not line.startswith("#")]
    needs = {said.split()[0]: rest.split() for said, rest in (line.split(":") for line in lines)}  # a static library says so behind its name
    needs = {name: [other for other in rest if other in needs] for name, rest in needs.items()}  # without the kit's own
    layer = lambda name: max((layer(other) + 1 for other in needs[name]), default=0)
    below = lambda name: set(needs[name]).union(*(below(other) for other in needs[name]))
    direct = lambda name: [other for other in needs[name] if not any(other in below(third) for third in needs[name])]
    return [Crate(name, direct(name), layer(name)) for name in needs]

def read_map():
    """The rows of README.md's Map: the crates' names, what they hold, and the last column."""
    part = read(ROOT / "README.md").split("## Map")[1].split("\n## ")[0]
    rows = [[cell.strip() for cell in line.strip("|").split("|")] for line in part.splitlines() if line.startswith("| `")]
    return [(re.findall(r"`(\w+)`", row[0]), row[1], row[2]) for row in rows]

def place(crate, row):
    """The group and the kind of a crate, from the last column of its row of the Map."""
    names, crate.holds, said = row
    if f"`{crate.name}` is" not in said and any(f"`{name}` is" in said for name in names):
        said = "program"  # what is said is of another crate of the row
    for words, group, kind in (("no code", "theory", "no code"), ("no part of the module", "tests", "for tests"), ("must print", "tests", "test program"),
                               ("public", "module", "public"), ("internal", "module", "internal"), ("program", "module", "program")):
        if words in said:
            crate.group, crate.kind = group, kind
            return
    stop(f"crate {crate.name} has no place in the picture: its row of README.md's Map says neither public, internal, program, no code, "
         "no part of the module nor what it must print")

def lines_of(directory, ending, comment):
    files = sorted((ROOT / "crates" / directory).rglob("*" + ending))
    return [line.strip() for file in files for line in read(file).splitlines() if line.strip() and not line.strip().startswith(comment)]

def measure(name):
    """Lines without blank and comment lines. Promises are the lines of requires, ensures and ghost use."""
    code = promises = 0
    inside = False  # a promise that goes on in the next line
    for line in lines_of(f"{name}/src", ".rt", "//"):
        promise = inside or line.startswith(("requires", "ensures", "ghost use"))
        inside = promise and not line.endswith((" }", ";"))
        code, promises = code + (not promise), promises + promise
    promised = any(line.startswith("ensures") for line in lines_of(f"{name}/src", ".rt", "//"))
    return {"code": code, "promises": promises, "definitions": len(lines_of(f"{name}/specs", ".antt", "--")), "promised": promised,
            "proof": len(lines_of(f"{name}/proofs", ".antt", "--")), "edits": len(list((ROOT / "crates" / name / "must-fail").glob("*.edit")))}

def read_repository():
    """All crates with their places."""
    rows, crates = read_map(), read_crates()
    for crate in crates:
        row = next((row for row in rows if crate.name in row[0]), None)
        if not row:
            stop(f"crate {crate.name} of crates.txt has no place in the picture: README.md's Map has no row for it")
        place(crate, row)
        crate.sizes = measure(crate.name)
    return crates


# ---- The legend: what colours, bars, numbers and arrows mean

SAMPLE = 56  # the width of what is explained

def legend_columns(scale):
    """Four columns, each with its title and its lines: what draws a sample from x and the middle y on, and the words."""
    box = lambda fill, dashed=False: lambda drawing, x, y: drawing.box(x, y - 7, SAMPLE - 8, 14, fill, dashed=dashed)
    bar = lambda colour: lambda drawing, x, y: draw_bar(drawing, SAMPLE - 8, colour, x, y, 1)
    word = lambda text, colour=QUIET, size=11, bold=False: lambda drawing, x, y: drawing.text(x, y + 4, text, size, colour, bold)
    line = lambda colour, width, arrow=True: lambda drawing, x, y: drawing.path([(x, y), (x + SAMPLE - 8, y)], colour, width, arrow, not arrow)
    lines = max(number for number in (50, 100, 200, 500, 1000) if number * scale <= SAMPLE - 8 or number == 50)

    def ruler(drawing, x, y):
        drawing.path([(x, y - 4), (x, y + 4), (x, y), (x + lines * scale, y), (x + lines * scale, y - 4), (x + lines * scale, y + 4)], INK, 1)

    return [("Boxes: crates", [(box(GROUPS["module"][1]), "of the module. `public`: its functions are public calls; `internal`: crates above it call it"),
                               (box(GROUPS["module"][1], True), "a program, proved only to be safe and to end"),
                               (box(GROUPS["theory"][1]), "definitions and proofs, no code"),
                               (box(GROUPS["tests"][1]), "a test program")]),
            ("Bars: lines, without blank and comment lines", [(bar(CODE), "code; behind the bar: code + promises"),
                                                              (bar(PROMISES), "promises of the code (`requires`, `ensures`, `ghost use`)"),
                                                              (bar(DEFINITIONS), "definitions (`specs/`)"), (bar(PROOF), "proof (`proofs/`)"),
                                                              (ruler, f"{lines:,} lines; all bars have this scale")]),
            ("Words and numbers", [(word("7", QUIET, 13, True), "left of the boxes: the layer. A crate stands on crates of lower layers"),
                                   (word("on .."), "the crates that it stands on directly"),
                                   (word(".. edits"), "must-fail edits: wrong versions of the crate, which the prover has to refuse"),
                                   (word("steps .."), "its steps in the ways below")]),
            ("The ways below", [(lambda drawing, x, y: draw_mark(drawing, "4", x + 9, y), "a step, with its function and what it does; a lane for each crate"),
                                (line(LINE, 2.0), "to the next step"),
                                (lambda drawing, x, y: draw_number(drawing, "1 to 8", x, y), "refusal numbers that the step answers (docs/SPECIFICATION.md)"),
                                (line(RED, 1.4), "the way of what is refused"),
                                (line(INK, 2.5, False), "here the proof of what is done ends: it holds below the line")])]

def draw_legend(drawing, y, scale):
    """Returns the y below it."""
    columns, frame = legend_columns(scale), len(drawing.parts)
    each = (WIDTH - 2 * MARGIN - 24) / len(columns)
    bottom = y
    for number, (title, rows) in enumerate(columns):
        x, at = MARGIN + 16 + number * each, y + 22
        drawing.text(x, at, title, 12, INK, True)
        at += 20
        for sample, words in rows:
            sample(drawing, x, at - 4)
            at = drawing.paragraph(x + SAMPLE, at, words, each - SAMPLE - 20) + 7
        bottom = max(bottom, at)
    below = Drawing()
    below.box(MARGIN, y, WIDTH - 2 * MARGIN, bottom - y, "white")
    drawing.parts[frame:frame] = below.parts
    drawing.upright.clear()
    return bottom


# ---- The layers: a box for each crate

def draw_proof_line(drawing, points, x):
    """The line where the proof ends, with what is above and below it around that x."""
    drawing.path(points, INK, 2.5, dashed=True)
    drawing.text(x, points[0][1] - 6, "▲ " + OUTSIDE, 11, INK, True, "middle")
    drawing.text(x, points[0][1] + 15, "▼ " + PROVED, 11, INK, True, "middle")


def edits_words(sizes):
    return f"{sizes['edits']}{HARD}must-fail{HARD}edit{'' if sizes['edits'] == 1 else 's'}"

def sum_words(sizes):
    return f"Sum: {edits_words(sizes)}, and lines of"

def bar_rows(sizes):
    """Code with its promises, definitions, proof: the word, the pieces of the bar, and the numbers behind it."""
    rows = [("code", [(sizes["code"], CODE), (sizes["promises"], PROMISES)]), ("definitions", [(sizes["definitions"], DEFINITIONS)]),
            ("proof", [(sizes["proof"], PROOF)])]
    return [(label, pieces, " + ".join(f"{lines:,}" for lines, _ in pieces if lines) or "0") for label, pieces in rows]

def draw_bar(drawing, lines, colour, x, y, scale):
    """A piece of a bar. Returns its right end."""
    drawing.parts.append(f'<rect x="{x:.1f}" y="{y - 4:.1f}" width="{lines * scale:.1f}" height="8" fill="{colour}"/>')
    return x + lines * scale

def draw_bars(drawing, sizes, x, y, scale):
    """A bar and a number for each row. Returns the y below them."""
    rows = bar_rows(sizes)
    for number, (label, pieces, words) in enumerate(rows):
        middle, end = y + 13 * number, x + LABEL
        drawing.text(x, middle + 4, label, 11, QUIET)
        for lines, colour in pieces:
            end = draw_bar(drawing, lines, colour, end, middle, scale)
        drawing.text(end + 5, middle + 4, words, 11)
    return y + 13 * len(rows)

def draw_crate(drawing, crate, marks, x, y, width, height, scale):
    """A crate's box; in a wide one the bars stand beside the words. Returns the y below what it holds."""
    wide = width > 2 * BLOCK
    words = width - 16 - (BLOCK if wide else 0)
    unproved = crate.group == "module" and not crate.sizes["promised"]
    drawing.box(x, y, width, height, GROUPS[crate.group][1], dashed=unproved)
    drawing.text(x + 8, y + 17, crate.name, 14, INK, True)
    beside = 16 + text_width(crate.name, 14, True)
    fits = beside + text_width(crate.kind, 11) <= words + 8  # else the kind goes below the name
    drawing.text(x + (beside if fits else 8), y + (17 if fits else 32), crate.kind, 11, QUIET)
    foot = ["proved only to be safe and to end"] * unproved + ["on " + ", ".join(crate.stands_on)] * bool(crate.stands_on)
    foot += [edits_words(crate.sizes)] * bool(crate.sizes["edits"])
    foot += [HARD.join(["steps"] + marks[crate.name])] if crate.name in marks else []
    bottom = drawing.paragraph(x + 8, y + (33 if fits else 47), crate.holds, words)
    bottom = drawing.paragraph(x + 8, bottom, f"{HARD}· ".join(foot), words, 11, QUIET)
    bars = draw_bars(drawing, crate.sizes, x + width - BLOCK, y + 20, scale) if wide else draw_bars(drawing, crate.sizes, x + 8, bottom, scale)
    return max(bottom, bars)

def group_places(crates, sums):
    """The left edge and the width of each group: by how many boxes its fullest layer has, but at least that of the words of its sum."""
    least = max(text_width(sum_words(sizes), 11, True) for sizes in sums.values())
    fullest = {group: max(sum(crate.group == group and crate.layer == other.layer for crate in crates) for other in crates) for group in GROUPS}
    count = {group: min(fullest[group], GROUPS[group][2]) for group in GROUPS}
    room = WIDTH - 2 * MARGIN - NUMBERS - 2 * 2 * GAP
    narrow = [group for group in GROUPS if room * count[group] < least * sum(count.values())]
    unit = (room - least * len(narrow)) / sum(count[group] for group in GROUPS if group not in narrow)
    places, x = {}, MARGIN + NUMBERS
    for group in GROUPS:
        places[group] = (x, least if group in narrow else unit * count[group])
        x += places[group][1] + 2 * GAP
    return places

def layer_boxes(crates, places):
    """The crates of one layer, each with the left edge and the width of its box, its row, and how many rows there are."""
    boxes = []
    for group, (x, width) in places.items():
        here = [crate for crate in crates if crate.group == group]
        columns = max(min(len(here), GROUPS[group][2]), 1)
        each = (width - GAP * (columns - 1)) / columns
        boxes += [(crate, x + number % columns * (each + GAP), each, number // columns, -(-len(here) // columns)) for number, crate in enumerate(here)]
    return boxes

def bars_scale(layers, places, sums):
    """The width of a line, so that the bars of each box and of each sum, with the numbers behind them, have room."""
    boxes = [(min(width - 16, BLOCK - 8) if width > 2 * BLOCK else width - 16, crate.sizes) for layer in layers for crate, _, width, _, _ in layer_boxes(layer, places)]
    return min((width - LABEL - 5 - text_width(words, 11)) / max(sum(lines for lines, _ in pieces), 1)
               for width, sizes in boxes + [(places[group][1], sums[group]) for group in GROUPS] for _, pieces, words in bar_rows(sizes))

def draw_layer(drawing, crates, marks, places, y, scale):
    """The boxes of one layer. Returns the y below them."""
    boxes = layer_boxes(crates, places)
    height = max((draw_crate(Drawing(), crate, marks, x, 0, width, 0, scale) + GAP) * rows for crate, x, width, _, rows in boxes) - GAP
    for crate, x, width, row, rows in boxes:
        each = (height + GAP) / rows
        draw_crate(drawing, crate, marks, x, y + row * each, width, each - GAP, scale)
    drawing.text(MARGIN, y + height / 2 + 4, str(crates[0].layer), 13, QUIET, True)
    return y + height

def draw_layers(drawing, crates, steps, y):
    """The legend, all layers, the top one first, the line where the proof ends, and the sums."""
    sums = {group: {key: sum(crate.sizes[key] for crate in crates if crate.group == group) for key in crates[0].sizes} for group in GROUPS}
    places = group_places(crates, sums)
    layers = [[crate for crate in crates if crate.layer == layer] for layer in range(max(crate.layer for crate in crates), -1, -1)]
    marks = {step.crate: [other.mark for other in steps if other.crate == step.crate] for step in steps if step.crate}
    scale = bars_scale(layers, places, sums)
    if scale <= 0:
        stop("a box is too narrow for its numbers: let fewer stand side by side")
    y = draw_legend(drawing, y, scale) + 34
    for group, (x, width) in places.items():
        drawing.text(x, y, GROUPS[group][0], 14, INK, True)
    proved = max(crate.layer for crate in crates if crate.group == "module" and crate.sizes["promised"])
    y += 10
    for layer in layers:
        if layer[0].layer == proved:
            line, y = y + 16, y + 38
        y = draw_layer(drawing, layer, marks, places, y, scale) + GAP
    edge, (x, width) = places["tests"][0] - GAP, places["module"]
    draw_proof_line(drawing, [(MARGIN, line), (edge, line), (edge, y + 66)], x + width / 2)
    for group, (x, width) in places.items():
        drawing.text(x, y + 14, sum_words(sums[group]), 11, INK, True)
        draw_bars(drawing, sums[group], x, y + 29, scale)
    return y + 66


# ---- The way of a frame: a lane for each crate, steps from left to right

@dataclass
class Step:
    mark: str
    column: int
    crate: str  # empty: outside the module
    function: str
    words: str
    refusals: str
    before: list

def read_ways():
    """The ways of docs/way.txt: a title and its steps each."""
    ways = []
    for line in read(ROOT / "docs" / "way.txt").splitlines():
        if line.startswith("="):
            ways.append((line[1:].strip(), []))
        elif line.strip() and not line.startswith("#"):
            mark, column, crate, function, words, refusals, before = (cell.strip() for cell in line.split("|"))
            ways[-1][1].append(Step(mark, int(column), crate, function, words, refusals, [part.split() for part in before.split(",") if part]))
            if crate and not any(re.search(rf"(fn|struct) {function}\b", code) for code in lines_of(f"{crate}/src", ".rt", "//")):
                stop(f"docs/way.txt: step {mark} names {function}, which crate {crate} does not have")
    return ways

def column_places(steps):
    """The x of each column: room for its function names, and for its words in as few lines as the picture's width allows."""
    names = 8 + max(text_width(step.crate or "outside", 13, True) for step in steps) + 22  # the width of the lanes' names
    room = WIDTH - 2 * MARGIN - names
    wide = lambda step: max(map(lambda word: text_width(word, 11), step.words.split()))
    need = lambda step, lines: max(58, 30 + number_width(step.refusals) if step.refusals else 0, text_width(step.function, 11, True) + 24, wide(step) + 16,
                                   text_width(step.words, 11) / lines * 1.2 + 16)
    for lines in range(2, 9):
        needed = [max(need(step, lines) for step in steps if step.column == column) for column in range(max(step.column for step in steps) + 1)]
        spare = (room - sum(needed)) / len(needed)
        if spare >= 0:
            return [MARGIN + names + sum(needed[:column]) + spare * column for column in range(len(needed) + 1)]
    stop("the steps of a way need more than the picture's width")

def lane_places(drawing, steps, crates, columns, y):
    """Draws the lanes, what is outside first, then the crates, the top layer first. Returns the y of each, of the proof's line, and of the bottom."""
    room = lambda step: 13 * len(wrap(step.words, columns[step.column + 1] - columns[step.column] - 12, 11))
    promised = {crate.name: crate.sizes["promised"] for crate in sorted(crates, key=lambda crate: -crate.layer)}
    lanes, line = {}, None
    again = {mark for step in steps for mark, *how in step.before if how == ["again"]}
    for name in [""] + [name for name in promised if any(step.crate == name for step in steps)]:
        if name and promised[name] and line is None:
            line, y = y + 20, y + 42
        here = [step for step in steps if step.crate == name]
        above = 0 if not name else 36 if any(step.refusals or step.mark in again for step in here) else 18  # for what stands above the line
        height = max(map(room, here)) + (above + 34 if name else 18)
        drawing.box(MARGIN, y, WIDTH - 2 * MARGIN, height - 4, GROUPS["module"][1] if name else "white", "none" if name else "#8a8a8a")
        drawing.text(MARGIN + 8, y + above + 4 if name else y + 18, name or "outside", 13, INK, True)
        lanes[name] = y + above if name else y + height - 4
        y += height
    return lanes, line, y

def draw_mark(drawing, mark, x, y):
    drawing.parts.append(f'<circle cx="{x:.1f}" cy="{y:.1f}" r="9" fill="{LINE}"/>')
    drawing.text(x, y + 4, mark, 11, "white", True, "middle")

def number_width(numbers):
    return text_width(numbers, 11, True) + 10

def draw_number(drawing, numbers, x, y):
    """Refusal numbers, from x on, around the middle y."""
    drawing.box(x, y - 8, number_width(numbers), 16, "white", RED, round=8)
    drawing.text(x + number_width(numbers) / 2, y + 4, numbers, 11, RED, True, "middle")

def draw_step(drawing, step, columns, y):
    """A step outside is its words; any other a mark with its function, words and refusal numbers."""
    x, width = columns[step.column], columns[step.column + 1] - columns[step.column] - 12
    if not step.crate:
        drawing.paragraph(x - 4, y + 9 - 13 * len(wrap(step.words, width, 11)), step.words, width)
        return
    draw_mark(drawing, step.mark, x, y)
    drawing.text(x + 7, y + 20, step.function, 11, INK, True)
    drawing.paragraph(x + 7, y + 33, step.words, width)

def draw_line(drawing, before, step, how, columns, lanes):
    """The line from one step to the next: along the lane and then up or down, or the other way round."""
    (x, y), (end_x, end_y) = (columns[before.column], lanes[before.crate]), (columns[step.column], lanes[step.crate])
    if how == "again":
        top = min(y, end_y) - 19
        drawing.path([(x, y - 9), (x, top), (end_x, top), (end_x, end_y - 9)], arrow=True)
        drawing.text(end_x, top - 5, "while one is ready", 11, LINE)
        return
    corner = (x, end_y) if how == "down" else (end_x, y)
    last = corner if corner != (end_x, end_y) else (x, y)
    radius = 9 if step.crate else 0
    side = lambda a, b: (a > b) - (a < b)
    points = [(x, y), corner, (end_x + radius * side(last[0], end_x), end_y + radius * side(last[1], end_y))]
    drawing.path([point for number, point in enumerate(points) if number != 1 or corner not in ((x, y), (end_x, end_y))], arrow=True)

def draw_refusals(drawing, steps, columns, lanes):
    """The refusal numbers where they arise, and their line out."""
    refusing = [step for step in steps if step.refusals]
    places = [columns[step.column] + 14 + number_width(step.refusals) / 2 for step in refusing]
    joined = min(lanes[step.crate] for step in refusing) - 28
    for step, x in zip(refusing, places):
        y = lanes[step.crate]
        drawing.path([(x, y - 20), (x, joined), (places[-1], joined)], RED, 1.4)
        draw_number(drawing, step.refusals, columns[step.column] + 14, y - 12)
    drawing.path([(places[-1], joined), (places[-1], lanes[""])], RED, 1.4, arrow=True)

def draw_way(drawing, title, steps, crates, y):
    """One way: its lanes, the line where the proof ends, the lines between the steps, the steps. Returns the y below it."""
    drawing.text(MARGIN, y, title, 16, INK, True)
    columns, found = column_places(steps), {step.mark: step for step in steps}
    lanes, line, bottom = lane_places(drawing, steps, crates, columns, y + 12)
    for step in steps:
        for before, *how in step.before:
            draw_line(drawing, found[before], step, "".join(how), columns, lanes)
    draw_refusals(drawing, steps, columns, lanes)
    for step in steps:
        draw_step(drawing, step, columns, lanes[step.crate] if step.crate else lanes[""] - 4)
    crossing = [MARGIN] + sorted(x for x, top, end in drawing.upright if top < line < end) + [WIDTH - MARGIN]
    middle = max((right - left, (left + right) / 2) for left, right in zip(crossing, crossing[1:]))[1]
    draw_proof_line(drawing, [(MARGIN, line), (WIDTH - MARGIN, line)], middle)
    return bottom


# ---- The whole picture

def picture():
    crates, drawing = read_repository(), Drawing()
    ways = read_ways()
    drawing.text(MARGIN, 40, "Message module of the dryer panel: what stands on what, and the way of a frame", 20, INK, True)
    y = draw_layers(drawing, crates, [step for _, steps in ways for step in steps], 58)
    for title, steps in ways:
        y = draw_way(drawing, title, steps, crates, y + 44)
    y = drawing.paragraph(MARGIN, y + 18, NOTE, WIDTH - 2 * MARGIN, 12)
    return drawing.svg(WIDTH, y + 10)


if __name__ == "__main__":
    made = picture()
    if sys.argv[1:] not in ([], ["--check"]):
        stop("it takes --check or nothing")
    if sys.argv[1:]:
        if not PICTURE.exists() or read(PICTURE) != made:
            stop("docs/layers.svg is not up to date: run python3 docs/layers.py")
        print("docs/layers.svg is up to date")
    else:
        PICTURE.write_text(made, encoding="utf-8", newline="\n")
