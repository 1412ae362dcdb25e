"""Sees that pages have what is there of crates; part of `python3 checks crate_order`.

The tables of crates in docs/ARCHITECTURE.md and docs/GATE.md have a row for each crate of
crates.txt, in its order. The steps that ARCHITECTURE lists are files of crates, and GATE counts the
wrong bodies of crates/NAME/must-fail/ and of trials/gate/.
"""
import glob
import os
import re

from checks import ROOT
from checks.gate.crates import crates_used

ARCHITECTURE, GATE = "docs/ARCHITECTURE.md", "docs/GATE.md"
ROW = re.compile(r"^\| `(\w+)` \|", re.M)
COUNTS = re.compile(r"(\d+) wrong bodies: (\d+) in `must-fail/`, (\d+) in `trials/gate/`")
# what a column of steps names: crate/file and crate:File, or a file of the crate named before
STEPS = (("/", "crates/%s/src/%s.rt"), (":", "crates/%s/specs/%s.antt"))


def read(path):
    with open(os.path.join(ROOT, path), encoding="utf-8") as it:
        return it.read()


def between(text, first, last):
    return text.partition("\n## %s\n" % first)[2].partition("\n## %s\n" % last)[0]


def wrong_rows(page, text):
    """What is wrong in a table of crates."""
    named, wanted = ROW.findall(text), [*crates_used()]
    yield from ("%s: no row of %s" % (page, it) for it in wanted if it not in named)
    yield from ("%s: a row of %s, which is no crate" % (page, it) for it in named if it not in wanted)
    yield from ("%s: %d rows of %s" % (page, named.count(it), it) for it in wanted if named.count(it) > 1)
    if sorted(named) == sorted(wanted) and named != wanted:
        yield "%s: rows in another order than crates.txt" % page


def missing_steps(text):
    """The files of steps that are not there."""
    for line in re.findall(r"^\| .* \|$", text, re.M):
        for cell, (mark, form) in zip(line.split(" | ")[1:], STEPS):
            crate = None
            for name in re.findall(r"`([^`]+)`", cell):
                crate, name = name.split(mark) if mark in name else (crate, name)
                if not os.path.exists(os.path.join(ROOT, form % (crate, name))):
                    yield "%s: no file %s" % (ARCHITECTURE, form % (crate, name))


def wrong_counts(text):
    """The counts of wrong bodies, if they are others."""
    alone = len(glob.glob(ROOT + "/crates/*/must-fail/*.edit"))
    others = sum(len(re.findall("^name:", read(path), re.M)) for path in glob.glob(ROOT + "/trials/gate/*.edits"))
    if COUNTS.findall(text) != [(str(alone + others), str(alone), str(others))]:
        yield "%s: there are %d wrong bodies, %d in must-fail/ and %d in trials/gate/" % (GATE, alone + others, alone, others)


def wrong_pages():
    """A line for each thing that a page has otherwise than the crates."""
    architecture, gate = read(ARCHITECTURE), read(GATE)
    yield from wrong_rows(ARCHITECTURE, between(architecture, "The crates of the program", "What each layer may know"))
    yield from wrong_rows(GATE, gate.partition("\n## The crates\n")[2])
    yield from missing_steps(between(architecture, "Where to find a step", "Recursions"))
    yield from wrong_counts(gate)
