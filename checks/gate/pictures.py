"""Sees that pictures of docs/ show what they are drawn from: python3 checks pictures [--drawn]

docs/crates.svg is drawn from crates.txt, docs/mounts.svg from a table of docs/SPEED.md. --drawn
draws both again. A stale picture is a line, and then the status is 1. docs/growth.svg is drawn by
`make growth`, which measures.
"""
import sys

from checks import ROOT
from checks.gate import crate_picture, mounts_picture

PICTURES = {"docs/crates.svg": crate_picture.picture, "docs/mounts.svg": mounts_picture.picture}


def draw():
    for path, picture in PICTURES.items():
        text = picture()
        with open("%s/%s" % (ROOT, path), "w", encoding="utf-8") as out:
            out.write(text)


def stale():
    """The pictures that do not show what they are drawn from."""
    for path, picture in PICTURES.items():
        with open("%s/%s" % (ROOT, path), encoding="utf-8") as it:
            if it.read() != picture():
                yield path


def main(words):
    if words == ["--drawn"]:
        draw()
    found = [*stale()]
    for path in found:
        print("%s is stale: `make pictures` draws it" % path)
    print("%d pictures, %d stale" % (len(PICTURES), len(found)))
    return 1 if found else 0


if __name__ == "__main__":
    sys.exit(main(sys.argv[1:]))
