"""Sees that no page has more words than its reader has time for; part of `python3 checks links`.

Words are counted as `wc -w` does. README.md, docs/*.md and docs/man/* each have their own limit, and are
held to MOST_TOGETHER.
"""
import os

from checks import ROOT

MOST = {
    "README.md": 1100,
    "docs/ARCHITECTURE.md": 4000,
    "docs/CHANGING.md": 3000,
    "docs/CONTAINERD.md": 1200,
    "docs/DECISIONS.md": 5000,
    "docs/DEFINITIONS.md": 6000,
    "docs/ENGINES.md": 700,
    "docs/GATE.md": 1000,
    "docs/LIMITS.md": 1200,
    "docs/MOUNTING.md": 2400,
    "docs/NOTEBOOK.md": 4000,
    "docs/PROMISES.md": 2500,
    "docs/SNAPSHOTTER.md": 1000,
    "docs/SPEED.md": 1200,
    "docs/TRIALS.md": 1000,
    "docs/USE.md": 3000,
    "docs/man/mount.strata.8": 1000,
    "docs/man/strata-attributes.5": 1000,
    "docs/man/strata-layers.1": 1200,
    "docs/man/strata-mount.1": 1100,
    "docs/man/strata-snapshotter.8": 900,
    "docs/man/strata.1": 1100,
}
MOST_TOGETHER = 38000


def pages():
    """README.md, the pages of docs/ and the man pages."""
    yield "README.md"
    for folder, ending in (("docs", ".md"), ("docs/man", "")):
        names = sorted(os.listdir(os.path.join(ROOT, folder)))
        yield from ("%s/%s" % (folder, name) for name in names
                    if name.endswith(ending) and os.path.isfile(os.path.join(ROOT, folder, name)))


def words_of(page):
    with open(os.path.join(ROOT, page), encoding="utf-8") as text:
        return len(text.read().split())


def long_pages():
    """A line for each page with too many words, and one for all of them together."""
    words = {page: words_of(page) for page in pages()}
    yield from ("%s: no limit of words" % page for page in words if page not in MOST)
    for page, most in MOST.items():
        if words.get(page, 0) > most:
            yield "%s: %d words, allowed %d" % (page, words[page], most)
    together = sum(words.values())
    if together > MOST_TOGETHER:
        yield "all pages: %d words, allowed %d" % (together, MOST_TOGETHER)
