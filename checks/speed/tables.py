"""Measures the tables of docs/SPEED.md in one run: python3 checks tables PROGRAM [--quick] [--write] [PART..]

Each PART is a heading of the page, in lower case with _ for blanks: requests, until_requests_are_served,
growth, workers, a_sandbox_each, mounts, sealed_images, hostile_inputs; without one all are measured. The
tables are printed as the page has them. `--write` puts them into docs/SPEED.md, the mounts also into
README.md, and draws docs/growth.svg and docs/mounts.svg. `--quick` measures smaller inputs, once, to try
the script: its figures mean nothing. Times are processor time, user and system, unless the page says
otherwise. Run it on a quiet machine, as root; it takes about a quarter of an hour.
"""
import argparse
import os
import re
import subprocess
import sys
import tempfile
from concurrent.futures import ProcessPoolExecutor
from multiprocessing import get_context

from checks import ROOT
from checks.gate import mounts_picture, pictures
from checks.shared import runs
from checks.speed import bench, bench_inputs, growth
from checks.speed.mounts import two_digits

PAGE, FRONT = "docs/SPEED.md", "README.md"
TABLE = r"(^## %s\n(?:(?!## )[^|\n].*\n|\n)*)((?:^\|.*\n)+)"
DATA = 5984  # bytes of a file's data: 22,000 of them have 131 MB
BULK = {"bulk_reads": "READs of 128 KiB", "bulk_rows": "READDIRPLUS of 128 KiB",
        "bulk_mix": "READs and READDIRPLUS of 16 KiB, GETATTRs", "bulk_lists": "READDIR of 128 KiB"}
FRONT_ROWS = (("find", 0), ("tar", 0), ("grep", 0), ("find", 1))
STATES = ("fresh mount", "once more")
PARTS = ("requests", "until_requests_are_served", "growth", "workers", "a_sandbox_each", "mounts", "sealed_images",
         "hostile_inputs")
FEW_SANDBOXES = "--paths", "240", "--count", "2", "--runs", "1", "--rounds", "1"


def table(head, rows):
    yield "| %s |" % " | ".join(head)
    yield "|" + "---|" * len(head)
    yield from ("| %s |" % " | ".join(row) for row in rows)


def seconds(value):
    return two_digits(value) + " s" if value >= 0.1 else two_digits(value * 1000) + " ms"


def memory(value):
    return two_digits(value) + " MiB"


class Tables:
    """The program, whether small inputs do, and a `Bench` that keeps what it measures."""

    def __init__(self, program, folder, is_quick):
        self.program, self.is_quick = program, is_quick
        self.bench = bench.Bench(program, folder)
        self.lines = None

    def figures(self, *parts):
        for part in parts:
            getattr(self.bench, part)()
        return self.bench.figures

    def requests(self):
        # sockets come last: `Bench` holds their streams itself
        found = self.figures("serve", "lookups", "sockets")
        (served, most, copied), (lookups, attributes) = found["serve"], found["lookups"]
        at_socket, pipes = found["sockets"]
        return table(("A million requests", "strata", "For comparison"), [
            ("LOOKUP and GETATTR, 5,000 files", "%s, %s" % (seconds(served), memory(most)),
             "`cat` of the same bytes: " + seconds(copied)),
            ("LOOKUP, 100,000 files", seconds(lookups), "GETATTR, 1,000 files: " + seconds(attributes)),
            ("the first stream at a Unix socket", seconds(at_socket), "through pipes: " + seconds(pipes))])

    def until_requests_are_served(self):
        parts = 10 if self.is_quick else 1

        def tree(extra):
            return lambda count: [bench_inputs.laid_out(bench_inputs.folders(count, 999, extra=extra))]

        kinds = [("22,000 nodes", tree(0), 22 // parts, "--whole"),
                 ("the same with 131 MB of data, left in the file", tree(DATA), 22 // parts, "--in-files"),
                 ("100,000 files in one directory", growth.one_directory, 100_000 // parts, "--whole")]
        kinds += [("%d layers of 2,000 names" % count, growth.layers, count, "--whole") for count in (8, 32, 128)]
        rows = []
        for name, make, size, way in kinds:
            words_of = (["check"], ["list"], ["serve", way])
            found = [growth.measured([self.program, *words], make, size, 1 if self.is_quick else 3) for words in words_of]
            rows.append((name, *(seconds(it[0]) for it in found), memory(found[2][1])))
            print(*rows[-1], flush=True)
        return table(("Images", "`check`", "`list`", "Until served", "Peak memory"), rows)

    def growth(self):
        most = 10_000 if self.is_quick else max(growth.NODES)
        self.lines = growth.measure(self.program, 1 if self.is_quick else 3, most)
        rows = []
        for line in self.lines:
            last = line.points[-1]
            rows.append(("%s, to %s nodes" % (line.name, format(last.size, ",")), two_digits(growth.slope(line.points)),
                         "%s, %s, %s bytes a node" % (seconds(last.seconds), memory(last.memory),
                                                      two_digits(growth.each(line.points)))))
        return table(("Images", "Slope", "At most"), rows)

    def workers(self):
        found = self.figures("workers")["workers"]
        return table(("Replies", "One worker", "Four"), [(BULK[name], *map(seconds, times)) for name, *times in found])

    def printed(self, name, *quick):
        """The table that a check of its own prints."""
        words = [sys.executable, "-B", ROOT + "/checks", name, self.program, *(quick if self.is_quick else ())]
        done = subprocess.run(words, stdout=subprocess.PIPE, check=True, text=True)
        print(done.stdout, flush=True)
        return [line for line in done.stdout.splitlines() if line.startswith("|")]

    def a_sandbox_each(self):
        return self.printed("sandboxes", *FEW_SANDBOXES)

    def mounts(self):
        return self.printed("mounts", "--quick")

    def sealed_images(self):
        return self.printed("sealed_speed", "--quick")

    def hostile_inputs(self):
        found = self.figures("check", "stacks", "streams", "pulls")
        kinds = {"image": "an image: `check`", "stream": "a stream: `serve`", "check": "a stack: `check`",
                 "list": "a stack: `list`", "serve": "a stack: `serve`"}
        worst = [(text, max(found[kind])) for kind, text in kinds.items()]
        return table(("Input", "Worst", "Times an honest one"),
                     [(text, "`%s`" % name.rpartition(" ")[2], two_digits(ratio)) for text, (ratio, name) in worst])


def front_table(lines):
    """The table of README.md: strata's times divided by those of others, of a table of mounts."""
    head, _, *rows = map(mounts_picture.cells, lines)
    times = {row[0]: [*map(mounts_picture.seconds, row[1:])] for row in rows}
    return table(["Workload", *head[2:]], [
        ("%s, %s" % (name, STATES[at]), *("%.1f" % (times[name][0][at] / it[at]) for it in times[name][1:]))
        for name, at in FRONT_ROWS if name in times])


def put(page, heading, lines):
    """Replaces the first table below a heading of a page."""
    path = "%s/%s" % (ROOT, page)
    with open(path, encoding="utf-8") as it:
        text = it.read()
    new, count = re.subn(TABLE % re.escape(heading), lambda it: it[1] + "\n".join(lines) + "\n", text, flags=re.M)
    if count != 1:
        sys.exit("%s has no table below '%s'" % (page, heading))
    with open(path, "w", encoding="utf-8") as out:
        out.write(new)


def measured(program, folder, is_quick, part):
    """The lines of a part's table, and what was measured for docs/growth.svg."""
    if is_quick:
        bench_inputs.divide(bench.QUICK)
    tables = Tables(program, folder, is_quick)
    return [*getattr(tables, part)()], tables.lines


def apart(*words):
    """The same in a new process: memory that this one once had would count as that of the runs."""
    with ProcessPoolExecutor(1, get_context("fork")) as pool:
        return pool.submit(measured, *words).result()


def main(words):
    parser = argparse.ArgumentParser(description=__doc__.partition("\n")[0])
    parser.add_argument("program", type=os.path.abspath)
    parser.add_argument("--quick", action="store_true")
    parser.add_argument("--write", action="store_true")
    runs.add_parts(parser, PARTS)
    asked = parser.parse_intermixed_args(words)
    place, found, grown = "/dev/shm" if os.path.isdir("/dev/shm") else None, {}, None
    for part in asked.parts or PARTS:
        with tempfile.TemporaryDirectory(dir=place) as folder:
            found[part], of_growth = apart(asked.program, folder, asked.quick, part)
        grown = grown or of_growth
    for part, lines in found.items():
        heading = part.replace("_", " ").capitalize()
        print("\n".join(["", "## " + heading, "", *lines]))
        if asked.write:
            put(PAGE, heading, lines)
    if "mounts" in found:
        lines = [*front_table(found["mounts"])]
        print("\n".join(["", "README, Speed", "", *lines]))
        if asked.write:
            put(FRONT, "Speed", lines)
            pictures.draw()
    if grown and asked.write:
        growth.draw(ROOT + "/docs/growth.svg", grown)


if __name__ == "__main__":
    main(sys.argv[1:])
