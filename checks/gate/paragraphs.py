"""Sees that no paragraph of README.md and docs/*.md is too long to be read in one breath; part of `python3 checks links`.

A paragraph is a run of lines, or one item of a list. Code and the rows of tables are none.
"""
import re

MOST = 900  # characters
BEGINS_ANEW = re.compile(r"\s*(?:[-*] |\d+\. |#)")


def paragraphs(text):
    """The paragraphs of a page, each with the number of its first line."""
    first, lines, is_code = 1, [], False
    for number, line in enumerate(text.split("\n"), 1):
        is_fence = line.lstrip().startswith("```")
        is_code ^= is_fence
        is_outside = is_fence or is_code or not line.strip() or line.startswith("|")
        if lines and (is_outside or BEGINS_ANEW.match(line)):
            yield first, " ".join(lines)
            lines = []
        if not is_outside:
            first = first if lines else number
            lines.append(line.strip())
    if lines:
        yield first, " ".join(lines)


def long_paragraphs(page, text):
    """A line for each paragraph of the page that is too long."""
    for first, paragraph in paragraphs(text):
        if len(paragraph) > MOST:
            yield "%s:%d: a paragraph of %d characters, allowed %d" % (page, first, len(paragraph), MOST)
