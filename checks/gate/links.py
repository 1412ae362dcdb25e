"""Sees that what README.md and docs/*.md name is there, and that nothing is too long to read: python3 checks links

Looked at are links and the headings that they lead to; paths from the root of the repository, and from the folder of a
crate; file names alone, which some folder must have; `make TARGET`; and `python3 checks NAME`. In a path `*` stands for
anything, and so does a word like NAME. Names of code in the pages about it (CODE) must occur in some source. How long a paragraph
may be says paragraphs.py, and a page page_words.py; README.md fits a few screens, and none of its lines is too long for a terminal.
Which turns are not plain English, here, in messages and in comments, says phrases.py. It reads files alone. What is not there, too
long or odd is a line each, and then the status is 1.
"""
import fnmatch
import os
import re
import sys

from checks import ROOT, STARTED
from checks.gate.page_words import long_pages, pages
from checks.gate.paragraphs import long_paragraphs
from checks.gate.phrases import odd_comments, odd_phrases, odd_texts

BUILT = (".git", "build", "out", "__pycache__")
PAGES = ("README.md", *sorted("docs/" + name for name in os.listdir(ROOT + "/docs") if name.endswith(".md")))
LINES_MOST, LINE_MOST = 110, 300  # of README.md, and characters of one
PLACEHOLDER = re.compile(r"\b(?:NAME|CRATE|METHOD|EDIT)\b")
LINK = re.compile(r"\]\(([^)\s]+)\)")
AT_ROOT = re.compile(r"(?<![\w/.-])(?:crates|tools|checks|cases|docs|trials|demo)/[\w./*-]*")
IN_CRATE = re.compile(r"(?<![\w/.-])(?:(\w+)/)?((?:src|specs|proofs|must-fail)/[\w./*-]+)")
ALONE = re.compile(r"(?<![\w/.*-])[\w-]+\.(?:py|rt|antt|case|md|txt)\b(?!/)")
TARGET = re.compile(r"(?:`|^)make ((?:[a-z_]+ ?)+)", re.M)
CHECK = re.compile(r"python3 (?:-B )?checks (\w+)")
CODE = ["docs/%s.md" % it for it in ("ARCHITECTURE", "CHANGING", "DECISIONS", "DEFINITIONS", "GATE", "PROMISES", "TRIALS")]
SPAN = re.compile(r"`([A-Za-z]\w*(?:::\w+)*)`")
OUTSIDE = {"collect", "conflicts_with_all", "diff_id"}  # names of std, clap and OCI


def listed():
    """All files of the repository, but for what is built."""
    for folder, folders, names in os.walk(ROOT):
        folders[:] = [name for name in folders if name not in BUILT]
        yield from (os.path.relpath(os.path.join(folder, name), ROOT) for name in names)


def words_of(name):
    """The words of a file and of its path."""
    try:
        return re.findall(r"\w+", name + "\n" + read(name))
    except UnicodeDecodeError:
        return ()


class There:
    """What there is to be named."""

    def __init__(self):
        self.files = [*listed()]
        folders = {"/".join(name.split("/")[:depth]) for name in self.files for depth in range(1, name.count("/") + 1)}
        self.paths = {*self.files, *folders}
        self.names = {os.path.basename(name) for name in self.files}
        with open(ROOT + "/Makefile", encoding="utf-8") as makefile:
            self.targets = set(" ".join(re.findall(r"^([a-z_ ]+):", makefile.read(), re.M)).split())
        self.checks = {os.path.basename(path) for path in STARTED}
        self.words = {word for name in self.files if not name.startswith("docs/") for word in words_of(name)} | OUTSIDE

    def has(self, path):
        path = PLACEHOLDER.sub("*", path.rstrip("./"))
        return path in self.paths or "*" in path and bool(fnmatch.filter(self.paths, path))


def headings(text):
    """The names by which links lead to the headings of a page."""
    heads = re.findall(r"^#+ (.*)$", re.sub(r"^```.*?^```", "", text, flags=re.M | re.S), re.M)
    return {re.sub(r"[^\w -]", "", head.lower()).replace(" ", "-") for head in heads}


def read(page):
    with open("%s/%s" % (ROOT, page), encoding="utf-8") as it:
        return it.read()


def wrong_links(page, text):
    for target in LINK.findall(text):
        path, _, heading = target.partition("#")
        if re.match(r"[a-z]+:", target):
            continue
        place = os.path.normpath(os.path.join(os.path.dirname(page), path)) if path else page
        if not os.path.exists("%s/%s" % (ROOT, place)):
            yield target
        elif heading and heading not in headings(read(place)):
            yield target


def wrong_names(text, there):
    """The paths, names, targets and checks that are not there."""
    yield from (path for path in AT_ROOT.findall(text) if not there.has(path))
    for crate, path in IN_CRATE.findall(text):
        place = "crates/%s/%s" % (crate or "*", path)
        if not there.has(place) and not there.has(place + ".antt"):
            yield place
    yield from (name for name in ALONE.findall(text) if name not in there.names and not PLACEHOLDER.search(name))
    for words in TARGET.findall(text):
        if words.split()[0] not in there.targets:
            yield "make %s" % words.split()[0]
    yield from ("python3 checks %s" % name for name in CHECK.findall(text) if name not in there.checks)


def wrong_code(text, there):
    """The names of code that no source has."""
    for span in SPAN.findall(text):
        yield from (word for word in span.split("::") if word not in there.words)


def long_lines(page):
    """A line for each line of a page that is too long, and one if it has too many."""
    lines = read(page).splitlines()
    if len(lines) > LINES_MOST:
        yield "%s: %d lines, allowed %d" % (page, len(lines), LINES_MOST)
    for number, line in enumerate(lines, 1):
        if len(line) > LINE_MOST:
            yield "%s:%d: a line of %d characters, allowed %d" % (page, number, len(line), LINE_MOST)


def main():
    there, wrong, long = There(), [], [*long_pages(), *long_lines("README.md")]
    odd = [line for page in pages() for line in odd_phrases(page)] + [*odd_texts(), *odd_comments()]
    for page in PAGES:
        text = read(page)
        long += long_paragraphs(page, text)
        wrong += ["%s: %s" % (page, it) for it in [*wrong_links(page, text), *wrong_names(text, there)]]
        if page in CODE:
            wrong += ["%s: %s" % (page, it) for it in wrong_code(text, there)]
    wrong += ["checks/__init__.py: %s" % path for path in STARTED if not there.has("checks/%s.py" % path)]
    print("".join("%s is not there\n" % line for line in wrong) + "".join(line + "\n" for line in [*long, *odd])
          + "%d pages, %d names not there, %d pages, paragraphs or lines too long, %d odd phrases" % (
              len(PAGES), len(wrong), len(long), len(odd)))
    return 1 if wrong or long or odd else 0


if __name__ == "__main__":
    sys.exit(main())
