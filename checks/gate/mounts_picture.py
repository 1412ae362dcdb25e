"""Draws docs/mounts.svg, times on mounts of strata and others; part of `python3 checks pictures`.

It reads the table in the section "Mounts" of docs/SPEED.md. The first column names a workload. Each
other column is a server, strata first: seconds on a fresh mount, and behind a semicolon once more
on the same one. Text in brackets is ignored.
"""
import html
import re
import textwrap

from checks import ROOT

PAGE = "docs/SPEED.md"
SECTION = re.compile(r"^## Mounts\n(.*?)(?=^## |\Z)", re.M | re.S)
TABLE = re.compile(r"^(?:\|.*\n)+", re.M)
NUMBER = re.compile(r"\d+(?:\.\d+)?")
WIDTH, LEFT, TOP, BAR, SPACE, ACROSS, BETWEEN = 980, 210, 62, 9, 12, 330, 70
TITLES = ("fresh mount", "once more on the same mount")
COLOURS = ("#1f77b4", "#ff7f0e", "#2ca02c", "#999999", "#bbbbbb", "#dddddd")


def cells(line):
    return [cell.strip() for cell in line.strip().strip("|").split("|")]


def seconds(cell):
    """The seconds of a cell: fresh, and once more."""
    fresh, again = NUMBER.findall(re.sub(r"\(.*?\)", "", cell))
    return float(fresh), float(again)


def table():
    """The names of the servers; for each workload its name and the seconds of each server."""
    with open("%s/%s" % (ROOT, PAGE), encoding="utf-8") as it:
        head, _, *lines = TABLE.search(SECTION.search(it.read())[1])[0].splitlines()
    rows = []
    for line in lines:
        name, *times = cells(line)
        rows.append((name, [*map(seconds, times)]))
    return cells(head)[1:], rows


def bar_lines(left, top, width, part, colour):
    yield '<rect x="%d" y="%d" width="%.1f" height="%d" fill="%s"/>' % (
        left, top, width, BAR - 1, colour)
    yield '<text x="%.1f" y="%d" font-size="9">%.1f</text>' % (
        left + width + 3, top + BAR - 1, part)


def panel(left, title, rows, which, scale):
    """The bars of all workloads: the time of each server, divided by strata's."""
    yield '<text x="%d" y="%d" font-weight="bold">%s</text>' % (left, TOP - 14, title)
    top = TOP
    for _, times in rows:
        for at, it in enumerate(times):
            part = it[which] / times[0][which]
            yield from bar_lines(left, top + BAR * at, part * scale, part, COLOURS[at])
        top += BAR * len(times) + SPACE
    yield '<path d="M%.1f %d V%d" stroke="#333" stroke-dasharray="3 3"/>' % (
        left + scale, TOP - 6, top - SPACE + 4)


def legend(servers):
    yield '<text x="12" y="20">Time divided by that of strata: above 1, strata is faster</text>'
    for at, name in enumerate(servers):
        left = 350 + 125 * at
        yield '<rect x="%d" y="11" width="10" height="10" fill="%s"/>' % (left, COLOURS[at])
        yield '<text x="%d" y="20">%s</text>' % (left + 14, html.escape(name))


def names_of_rows(rows, step):
    for at, (name, _) in enumerate(rows):
        for number, line in enumerate(textwrap.wrap(name, 30)):
            yield '<text x="%d" y="%d" text-anchor="end">%s</text>' % (
                LEFT - 10, TOP + step * at + 16 + 14 * number, html.escape(line))


def picture():
    servers, rows = table()
    parts = [it[which] / times[0][which] for _, times in rows for it in times for which in (0, 1)]
    scale, step = ACROSS / max(parts), BAR * len(servers) + SPACE
    head = '<svg xmlns="http://www.w3.org/2000/svg" width="%d" height="%d" %s>' % (
        WIDTH, TOP + step * len(rows) + 10, 'font-family="sans-serif" font-size="12"')
    found = [head, '<rect width="100%" height="100%" fill="white"/>', *legend(servers)]
    found += names_of_rows(rows, step)
    for which, title in enumerate(TITLES):
        found += panel(LEFT + (ACROSS + BETWEEN) * which, title, rows, which, scale)
    return "\n".join([*found, "</svg>", ""])
