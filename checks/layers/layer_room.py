"""What the tests of tools/layers.py share: a folder for each, and what must come of a layout in it."""
import contextlib
import io
import os
import re
import tarfile
import tempfile

from checks.layers.shown_trees import Unlike, compare, compare_attributes, shown_tree, wanted_tree
from checks.plain import plain_layers
from checks.shared.layer_files import BESIDE, layout_of
from strata_layers import command

GNU, PAX, USTAR = tarfile.GNU_FORMAT, tarfile.PAX_FORMAT, tarfile.USTAR_FORMAT
NAME = "tools/layers.py: "
NOT_HELD = re.compile("(at most [0-9]+ (is|are) held|no (image|link) holds the (name|target) .*)$")
LEFT_OUT = "--leave-out makes it without the entries that romfs cannot hold, and names them"


class LeftOut(Exception):
    """What is missing here for a test."""


class Room:
    """A folder for one test, in which layouts and images get names of their own. Without the program only the images are looked
    at."""

    def __init__(self, strata):
        self.strata, self.path, self.count = strata, tempfile.mkdtemp(prefix="layers-"), 0

    def name(self):
        self.count += 1
        return os.path.join(self.path, str(self.count))

    def convert(self, word, folder):
        """Makes images of a layout: the tool's status, output and lines of standard error."""
        return run_tool(word, folder)

    def taken(self, word, archives):
        """Holds what the images of a layout show against the plain reading of its archives; the lines that were printed."""
        folder = self.name()
        status, output, told = self.convert(word, folder)
        expect(status == 0, "status %d: %s" % (status, told))
        images = [os.path.join(folder, "%02d.romfs" % number) for number in range(len(archives))]
        expect(output == "tools/mount.py %s DIR\n" % " ".join(images), "printed %r" % output)
        names = [BESIDE] * (len(images) > 1) + [*map(os.path.basename, images)]
        expect(sorted(os.listdir(folder)) == names, "in the folder: %r" % os.listdir(folder))
        self.hold(images, archives)
        return told

    def hold(self, images, archives):
        """Holds images against the plain reading of archives: what their trailers say, and what strata shows of them."""
        wanted = plain_layers.shown_by(archives)
        compare_attributes(wanted, images)
        if self.strata is not None:
            compare(wanted_tree(wanted), shown_tree(self.strata, images))

    def refused(self, word, *lines):
        """The tool must say exactly these lines, where `..` stands for anything, and leave
        nothing."""
        folder = self.name()
        status, output, told = self.convert(word, folder)
        expect_lines(status, output, told, lines)
        expect(not os.path.exists(folder), "there is %s" % folder)

    def take(self, *archives):
        return self.taken(layout_of(self.name(), archives).path, archives)

    def refuse(self, line, *archives):
        self.refused(layout_of(self.name(), archives).path, line)


def run_tool(*words):
    """Runs the tool as `main` in this process: its status, output and lines of standard error; without the tool's name, which
    a fault's line bears."""
    out, errors = io.TextIOWrapper(io.BytesIO()), io.StringIO()
    with contextlib.redirect_stdout(out), contextlib.redirect_stderr(errors):
        status = command.main(list(words))
    told = errors.getvalue().splitlines()
    if status == 1:
        expect(told and all(line.startswith(NAME) for line in told), "told %r" % told)
        told = [line[len(NAME):] for line in told]
    return status, out.buffer.getvalue().decode(), told


def with_hint(lines):
    """Lines of refused entries, behind which one says what to do where an image could hold the others."""
    return [*lines, LEFT_OUT] if any(NOT_HELD.search(it) for it in lines) else lines


def expect_lines(status, output, told, lines):
    """A run must have refused something with these lines, where `..` stands for anything."""
    lines = with_hint(lines)
    expect(status == 1 and output == "" and len(told) == len(lines),
           "status %d, printed %r, told %r" % (status, output, told))
    for got, line in zip(told, lines):
        begin, _, end = line.partition("..")
        expect(got == line or ".." in line and got.startswith(begin) and got.endswith(end),
               "told %r, and %r is wanted" % (got, line))


def expect(condition, words):
    if not condition:
        raise Unlike(words)
