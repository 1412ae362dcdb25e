"""Draws docs/crates.svg, the way of the data through the crates; part of `python3 checks pictures`.

It reads crates.txt alone. Each group there is a band with the group's comment, in the order of the
file. Each crate is a box, below those of its band that it uses. A line leads from a crate to each
user of it that does not also use it through another crate. Crates of the first group are used
nearly everywhere and have no lines. Tests, which no program links, are left out.
"""
import html
import textwrap

from checks.gate.crate_order import groups
from checks.gate.crates import crates_below, crates_used

TESTS = "# tests"
WIDTH, LEFT, BOX, TALL, STEP, GAP = 980, 220, 128, 26, 48, 18
MOST = 5  # boxes in a row
SWEEPS = 24
COLOURS = ("#eef3f8", "#f8f3e8")
LINE, EDGE = "#779", "#335"


def bands():
    """The groups that are drawn: their comment, and their crates."""
    for lines in groups():
        if not lines[0].startswith(TESTS):
            crates = [line.partition(":")[0].split()[0] for line in lines[1:] if line[0] != "#"]
            yield lines[0].lstrip("# "), crates


def ways(drawn, base):
    """Pairs of a crate and a user of it, unless that also uses it through another crate."""
    used, below = crates_used(), crates_below()
    for name in drawn:
        direct = [it for it in used[name] if it in below and it not in base]
        for it in direct:
            if not any(it in below[other] for other in direct):
                yield it, name


def rows_of(crates, pairs):
    """The crates of a band in rows, each below those of the band that it uses."""
    depth = {}
    for name in crates:  # in the order of layers
        above = [depth[low] + 1 for low, high in pairs if high == name and low in depth]
        depth[name] = max(above, default=0)
    for level in range(max(depth.values()) + 1):
        row = [name for name in crates if depth[name] == level]
        yield from (row[at:at + MOST] for at in range(0, len(row), MOST))


def bent(rows, pairs):
    """The rows with a bend for each line that passes them, and the lines from row to row."""
    level = {name: at for at, row in enumerate(rows) for name in row}
    rows, parts = [[*row] for row in rows], []
    for low, high in pairs:
        bends = [(low, high, at) for at in range(level[low] + 1, level[high])]
        for bend in bends:
            rows[bend[2]].append(bend)
        parts += zip([low, *bends], [*bends, high])
    return rows, parts


def breadth(it):
    """The room that a box takes, or the bend of a line."""
    return BOX + GAP if isinstance(it, str) else GAP


def spread(row, wanted):
    """The middles of all in a row, side by side and near to the wanted ones: half way between those
    that pushing to the right gives and those that pushing to the left gives."""
    order = sorted(row, key=lambda it: (wanted[it], str(it)))
    right, left, least, most = {}, {}, LEFT, WIDTH
    for it in order:
        right[it] = max(least + breadth(it) / 2, wanted[it])
        least = right[it] + breadth(it) / 2
    for it in reversed(order):
        left[it] = min(most - breadth(it) / 2, wanted[it], right[it])
        most = left[it] - breadth(it) / 2
    least = LEFT
    for it in order:  # what was pushed beyond the left edge
        left[it] = max(left[it], least + breadth(it) / 2)
        least = left[it] + breadth(it) / 2
    is_over = max(right[it] + breadth(it) / 2 for it in order) > WIDTH
    return left if is_over else {it: (left[it] + right[it]) / 2 for it in order}


def placed(rows, parts):
    """The middle of each box and bend: near those that it is joined to, after some sweeps."""
    places, near = {}, {}
    for low, high in parts:
        near.setdefault(low, []).append(high)
        near.setdefault(high, []).append(low)
    for row in rows:
        for at, it in enumerate(row):
            places[it] = LEFT + (WIDTH - LEFT) * (at + 0.5) / len(row)
    for sweep in range(SWEEPS):
        for row in rows if sweep % 2 == 0 else rows[::-1]:
            joined = {it: [places[other] for other in near.get(it, [it])] for it in row}
            places.update(spread(row, {it: sum(all_) / len(all_) for it, all_ in joined.items()}))
    return places


def band_lines(title, top, height, colour):
    yield '<rect y="%d" width="%d" height="%d" fill="%s"/>' % (top, WIDTH, height, colour)
    for at, line in enumerate(textwrap.wrap(title, 30)):
        yield '<text x="12" y="%d" fill="#444">%s</text>' % (top + 24 + 16 * at, html.escape(line))


def box_lines(name, middle, top):
    yield '<rect x="%.0f" y="%d" width="%d" height="%d" rx="4" fill="white" stroke="%s"/>' % (
        middle - BOX / 2, top, BOX, TALL, EDGE)
    yield '<text x="%.0f" y="%d" text-anchor="middle">%s</text>' % (middle, top + 17, name)


def part_line(low, high, places, tops):
    """A part of a line, from a box or a bend to one of the next row. A bend is as tall as the boxes
    beside it, so the line passes between these."""
    begin = tops[low] + TALL * isinstance(low, str)
    y, to_y = tops[low] + TALL, tops[high]
    middle = (y + to_y) / 2
    end = ' marker-end="url(#end)"' if isinstance(high, str) else ""
    return '<path d="M%.0f %d V%d C%.0f %.0f %.0f %.0f %.0f %d" fill="none" stroke="%s"%s/>' % (
        places[low], begin, y, places[low], middle, places[high], middle, places[high],
        to_y - 3 * bool(end), LINE, end)


def head_lines(height):
    yield '<svg xmlns="http://www.w3.org/2000/svg" width="%d" height="%d" %s>' % (
        WIDTH, height, 'font-family="sans-serif" font-size="12"')
    yield ('<defs><marker id="end" viewBox="0 0 8 8" refX="6" refY="4" markerWidth="7" '
           'markerHeight="7" orient="auto"><path d="M0 0 L8 4 L0 8 z" fill="%s"/></marker></defs>'
           % LINE)


def picture():
    found = [*bands()]
    pairs = [*ways([name for _, crates in found for name in crates], {*found[0][1]})]
    grouped = [(title, [*rows_of(crates, pairs)]) for title, crates in found]
    rows, parts = bent([row for _, its in grouped for row in its], pairs)
    places, tops, top, back, front = placed(rows, parts), {}, 0, [], []
    below = iter(rows)
    for number, (title, its) in enumerate(grouped):
        height = STEP * len(its) + GAP
        back += band_lines(title, top, height, COLOURS[number % 2])
        for at in range(len(its)):
            for it in next(below):
                tops[it] = top + GAP + STEP * at
                front += box_lines(it, places[it], tops[it]) if isinstance(it, str) else ()
        top += height
    lines = [part_line(low, high, places, tops) for low, high in parts]
    return "\n".join([*head_lines(top), *back, *lines, *front, "</svg>", ""])
