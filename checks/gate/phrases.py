"""Sees that pages and comments speak plain English; part of `python3 checks links`.

PHRASES are turns that readers stumbled over, each with what to say instead. README.md, docs/, the man
pages, what programs print, and all comments and docstrings are held to them.
"""
import ast
import re
import subprocess
import tokenize

from checks import ROOT

PHRASES = {
    r"who (is|are) not root": "users who are not root, unprivileged users",
    r"go(es)? by": "depends on",
    r"(is|are) told": "is reported, prints",
    r"reads? whole": "read in full",
    r"(takes?|taken) (it |them |that )?away": "unmount, remove, hide",
    r"that (is|are) there": "existing, or nothing at all",
    r"what a mount asks": "requests of a mount",
    r"of whom": "whose",
    r"ask(s|ed)? a right": "verify",
    r"comes only where": "only if",
    r"want of memory": "lack of memory",
    r"in whichever": "in any",
    r"gathered of": "gathered from",
    r"of which no": "without",
    r"in (the )?place of": "instead of",
    r"stands? on": "is on, uses",
    r"(is|are|be) had": "is available, can be read",
    r"(is|are) of (19|20)\d\d": "is dated",
    r"says? (nothing|something) else": "says otherwise",
    r"when it begins": "at startup",
    r"out of the way of": "does not use, does not get",
    r"gives? (its|their) bytes": "pipes, streams",
    r"whatever is said": "always",
    r"in whatever": "however, in any",
    r"only where": "only if",
    r"is checked by": "keeps, verifies",
    r"told only": "reported only",
    r"whose files are of": "the owner of files",
    r"to read from it": "reads as",
    r"that proves nothing": "without proofs",
    r"of (these|those|them) (it|they) (is|are)": "they are",
}
# what tools print is quoted as it is
QUOTED = re.compile(r"^\.EX\n.*?^\.EE$|^```.*?^```$|`[^`]*`", re.M | re.S)
NOT_ROOT = re.compile("users who are not root", re.I)
TEXT = re.compile(r'"((?:[^"\\]|\\.)*)"', re.S)
LINE = re.compile(r"^[ \t]*(?://[/!]?|--)(?![-|])(.*)$", re.M)


def odd_in(text):
    """The odd turns in a text, each with what to say instead."""
    text = NOT_ROOT.sub("", " ".join(QUOTED.sub("", text).split()))
    for phrase, better in PHRASES.items():
        for found in re.finditer(r"\b%s\b" % phrase, text, re.I):
            yield "'%s': say %s" % (found[0], better)


def read(path):
    with open("%s/%s" % (ROOT, path), encoding="utf-8") as it:
        return it.read()


def odd_phrases(page):
    """A line for each odd turn of a page."""
    yield from ("%s: %s" % (page, it) for it in odd_in(read(page)))


def comments_of(path):
    """The comments of a source of Rattle, or the comments and docstrings of one of Python."""
    text = read(path)
    if not path.endswith(".py"):
        return "\n".join(LINE.findall(text))
    with open("%s/%s" % (ROOT, path), "rb") as it:
        found = [token.string.lstrip("# ") for token in tokenize.tokenize(it.readline) if token.type == tokenize.COMMENT]
    documented = (ast.Module, ast.ClassDef, ast.FunctionDef)
    found += [ast.get_docstring(it) or "" for it in ast.walk(ast.parse(text)) if isinstance(it, documented)]
    return "\n".join(found)


def texts_of(path):
    """The texts of a source that have several words: what it prints."""
    if path.endswith(".py"):
        tree = ast.parse(read(path))
        documented = {id(it.body[0].value) for it in ast.walk(tree) if isinstance(getattr(it, "body", None), list)
                      and it.body and isinstance(it.body[0], ast.Expr)}
        found = [it.value for it in ast.walk(tree)
                 if isinstance(it, ast.Constant) and isinstance(it.value, str) and id(it) not in documented]
    else:
        found = TEXT.findall(re.sub(r"^ *//.*$", "", read(path), flags=re.M))
    return "\n".join(text for text in found if " " in text)


def odd_texts():
    """A line for each odd turn of what programs print."""
    listed = subprocess.run(["git", "ls-files", "tools/*.py", "crates/strata*/src/*.rt"], cwd=ROOT, stdout=subprocess.PIPE,
                            text=True, check=True)
    for path in listed.stdout.split():
        yield from ("%s: %s" % (path, it) for it in odd_in(texts_of(path)))


def odd_comments():
    """A line for each odd turn in the comments of sources."""
    kinds = "crates/*.rt", "crates/*.antt", "tools/*.py", "checks/*.py", "packaging/*.py"
    listed = subprocess.run(["git", "ls-files", *kinds], cwd=ROOT, stdout=subprocess.PIPE, text=True, check=True)
    for path in listed.stdout.split():
        if path not in ("packaging/launcher.py", "checks/gate/phrases.py"):
            yield from ("%s: %s" % (path, it) for it in odd_in(comments_of(path)))
