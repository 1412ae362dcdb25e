"""How time and memory grow with the number of nodes and layers: python3 checks growth PROGRAM [--runs N] [--most NODES] [--drawn FILE]

Measures `serve` over an empty stream, which is reading, checking and stacking the images, and tells for each size the least
processor time of N runs (3), user and system, and the most memory at one moment, of which some 18 MiB are not told apart.
Images are read in full, and once more one kind of them is left in its file. They are in memory (/dev/shm if it exists).
With --drawn it draws what it measured as a picture (SVG), both axes by powers of ten, with the slope of each line of times:
the exponent of the size that fits its last points best. A slope of 1 is linear, and n log n has one of about 1.1 at these
sizes. Of memory it tells the bytes a node between the last two points.

It judges nothing: the status is 0 where all runs end well.
"""
import argparse
import math
import multiprocessing
import os
import subprocess
import sys
import tempfile
from collections import namedtuple

from checks.shared import runs
from checks.speed.bench_inputs import chained, folders, laid_out

NODES = (1_000, 3_000, 10_000, 30_000, 100_000, 300_000, 1_000_000, 3_000_000)
LAYERS = (1, 2, 4, 8, 16, 32, 64, 128)
EACH = 2_000  # names of a layer
# what was measured of one size: seconds of processor, and MiB
Point = namedtuple("Point", "size seconds memory")
Line = namedtuple("Line", "name colour points")
# the points that a slope is taken of: the last, since smaller sizes are mostly the start of a process
FITTED = slice(-4, None)


def tree(nodes):
    """Directories of 1,000 files each, or one of fewer."""
    files = min(nodes, 1_000)
    return [laid_out(folders(nodes // files, files - 1))]


def one_directory(nodes):
    return [laid_out(chained("regular", [b"file-%07d" % number for number in range(nodes)]))]


def layers(count):
    """Layers with names of their own, in one directory."""
    def one(number):
        return laid_out([("directory", -1, 1, 0, b"d", 0),
                         *chained("regular", [b"name-%d-%d" % (number, name) for name in range(EACH)], 1)])

    return [one(number) for number in range(count)]


def written(make, size, folder):
    """Writes the images of a size into a folder."""
    for number, image in enumerate(make(size)):
        with open("%s/%03d.romfs" % (folder, number), "wb") as file:
            file.write(image)


def measured(words, make, size, times):
    """The least of some runs over the images of a size. They are made in another process, since what a process had at one
    moment counts for those that it starts."""
    with tempfile.TemporaryDirectory(dir="/dev/shm" if os.path.isdir("/dev/shm") else None) as folder:
        maker = multiprocessing.Process(target=written, args=(make, size, folder))
        maker.start()
        maker.join()
        paths = sorted("%s/%s" % (folder, name) for name in os.listdir(folder))
        done = [runs.ended(subprocess.Popen([*words, *paths], stdin=subprocess.DEVNULL, stdout=subprocess.DEVNULL,
                                            stderr=subprocess.PIPE)) for _ in range(times)]
    for it in done:
        if it.status != 0:
            sys.exit("serve: %s" % it.errors.decode().strip())
    return min(it.seconds for it in done), max(it.memory for it in done)


def line_of(words, name, colour, make, sizes, times):
    """Measures all sizes of a kind of images, and tells each."""
    points = []
    for size in sizes:
        points.append(Point(size, *measured(words, make, size, times)))
        print("%-32s %9d  %8.4f s  %7.1f MiB" % (name, *points[-1]), flush=True)
    return Line(name, colour, points)


def slope(points):
    """The exponent of the size that fits the times best, by least squares over logarithms."""
    over = [(math.log(it.size), math.log(it.seconds)) for it in points[FITTED]]
    mean_x, mean_y = (sum(it[axis] for it in over) / len(over) for axis in (0, 1))
    return sum((x - mean_x) * (y - mean_y) for x, y in over) / sum((x - mean_x) ** 2 for x, _ in over)


def each(points):
    """The bytes that a node takes, between the last two sizes."""
    before, last = points[-2:]
    return (last.memory - before.memory) * (1 << 20) / (last.size - before.size)


# --- the picture ---

WIDTH, HEIGHT, LEFT, TOP, ACROSS, DOWN = 900, 380, 60, 40, 340, 280


def panel(left, title, unit, lines, value, told):
    """One panel, with its axes by powers of ten, its lines, and a text for each."""
    sizes = [it.size for line in lines for it in line.points]
    values = [value(it) for line in lines for it in line.points]
    low_x, high_x = math.floor(math.log10(min(sizes))), math.ceil(math.log10(max(sizes)))
    low_y, high_y = math.floor(math.log10(min(values))), math.ceil(math.log10(max(values)))

    def x_of(size):
        return left + ACROSS * (math.log10(size) - low_x) / (high_x - low_x)

    def y_of(height):
        return TOP + DOWN * (high_y - math.log10(height)) / (high_y - low_y)

    yield '<text x="%d" y="%d" font-weight="bold">%s</text>' % (left, TOP - 14, title)
    yield '<rect x="%d" y="%d" width="%d" height="%d" fill="none" stroke="#888"/>' % (left, TOP, ACROSS, DOWN)
    for power in range(low_x, high_x + 1):
        x = x_of(10 ** power)
        yield '<path d="M%.1f %d v%d" stroke="#ddd"/>' % (x, TOP, DOWN)
        yield '<text x="%.1f" y="%d" text-anchor="middle">%s</text>' % (x, TOP + DOWN + 16, format(10 ** power, ","))
    for power in range(low_y, high_y + 1):
        y = y_of(10 ** power)
        yield '<path d="M%d %.1f h%d" stroke="#ddd"/>' % (left, y, ACROSS)
        yield '<text x="%d" y="%.1f" text-anchor="end">%g %s</text>' % (left - 4, y + 4, 10 ** power, unit)
    for place, line in enumerate(lines):
        way = " ".join("%.1f,%.1f" % (x_of(it.size), y_of(value(it))) for it in line.points)
        yield '<polyline points="%s" fill="none" stroke="%s" stroke-width="2"/>' % (way, line.colour)
        for it in line.points:
            yield '<circle cx="%.1f" cy="%.1f" r="3" fill="%s"/>' % (x_of(it.size), y_of(value(it)), line.colour)
        yield '<text x="%d" y="%d" fill="%s">%s: %s</text>' % (
            left + 10, TOP + 18 + 16 * place, line.colour, line.name, told(line.points))


def slope_text(points):
    return "slope %.2f" % slope(points)


def each_text(points):
    return "%.0f bytes a node" % each(points)


def picture(lines):
    parts = [*panel(LEFT, "Processor time until served, by nodes", "s", lines, lambda it: it.seconds, slope_text),
             *panel(LEFT + ACROSS + 110, "Memory at the most, by nodes", "MiB", lines, lambda it: it.memory, each_text)]
    return "\n".join(['<svg xmlns="http://www.w3.org/2000/svg" width="%d" height="%d" font-family="sans-serif" font-size="12">'
                      % (WIDTH, HEIGHT), '<rect width="100%" height="100%" fill="white"/>', *parts, "</svg>", ""])


def measure(program, times, most):
    """Measures all kinds of images, up to so many nodes; prints each line with its slope."""
    nodes = [size for size in NODES if size <= most]

    def line(name, colour, make, sizes, way="--whole"):
        return line_of([program, "serve", way], name, colour, make, sizes, times)

    lines = [line("directories of 1,000 files", "#1f77b4", tree, nodes),
             line("the same, left in the file", "#9467bd", tree, nodes, "--in-files"),
             line("one directory", "#d62728", one_directory, [size for size in nodes if size <= 1_000_000])]
    stacks = line("1 to 128 layers", "#2ca02c", layers, LAYERS)
    lines.append(stacks._replace(points=[it._replace(size=it.size * (EACH + 2)) for it in stacks.points]))
    for it in lines:
        print("%-28s %s, %s" % (it.name, slope_text(it.points), each_text(it.points)))
    return lines


def draw(path, lines):
    with open(path, "w", encoding="utf-8") as file:
        file.write(picture(lines))


def main(words):
    parser = argparse.ArgumentParser(description=__doc__.partition("\n")[0])
    parser.add_argument("program")
    parser.add_argument("--runs", type=int, default=3)
    parser.add_argument("--most", type=int, default=max(NODES))
    parser.add_argument("--drawn")
    asked = parser.parse_args(words)
    lines = measure(asked.program, asked.runs, asked.most)
    if asked.drawn:
        draw(asked.drawn, lines)


if __name__ == "__main__":
    main(sys.argv[1:])
