"""Sees that crates.txt stands in the order of layers: python3 checks crate_order

A crate stands below all crates of the repository that it uses, in a group with a line of comment over it that says what the
group is; an empty line parts groups. Pages that list crates have them in this order (crate_pages.py). What is not so is a line
each, and then the status is 1.
"""
import sys

from checks import ROOT
from checks.gate.crate_pages import wrong_pages
from checks.gate.crates import crates_used


def groups():
    """The groups of crates.txt behind its head, as lists of lines."""
    with open(ROOT + "/crates.txt", encoding="utf-8") as it:
        return [part.splitlines() for part in it.read().strip("\n").split("\n\n")[1:]]


def wrong():
    used, above = crates_used(), set()
    for name, uses in used.items():
        yield from ("%s stands above %s, which it uses" % (name, it) for it in uses if it in used and it not in above)
        above.add(name)
    grouped = {line.partition(":")[0].split()[0] for lines in groups() for line in lines[1:] if not line.startswith("#")}
    yield from ("%s stands in no group" % name for name in used if name not in grouped)
    yield from ("the group of %s has no comment over it" % lines[0].partition(":")[0] for lines in groups()
                if not lines[0].startswith("# "))


def main():
    lines = [*("crates.txt: %s" % line for line in wrong()), *wrong_pages()]
    for line in lines:
        print(line)
    print("%d crates in %d groups, %d wrong" % (len(crates_used()), len(groups()), len(lines)))
    return 1 if lines else 0


if __name__ == "__main__":
    sys.exit(main())
