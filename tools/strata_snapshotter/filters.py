"""The filters of containerd's List calls, as its package `filters` documents them.

    selectors := selector ("," selector)*        all of them must match
    selector  := fieldpath [operator value]      without an operator: the field is present
    fieldpath := field ("." field)*
    operator  := "==" | "!=" | "~="              "~=" searches for a regular expression

A field or a value may be quoted as a string of Go is, a regular expression also between `/` or `|`.

    filters = parsed(['name==a,labels."b.c"', "kind==view"])
    matches(filters, [{"name": "a", "labels": {"b.c": ""}}, {"name": "b", "labels": {}}]) == [True, False]

Python's search for a regular expression may take for ever, and no other thread runs meanwhile. So it has
a process of its own, which is ended after some seconds of a processor's time.
"""
import collections
import json
import re
import resource
import subprocess
import sys

from strata_format.version import TOP
from strata_snapshotter.faults import InvalidArgument

QUOTED = r'"(?:[^"\\\n]|\\.)*"'
PLAIN = r'[^\s,.=!~"/|][^\s,]*'
FIELD = re.compile(r"\s*(%s|[A-Za-z0-9_]+)" % QUOTED)
OPERATOR = re.compile(r"\s*(==|!=|~=)(?![=!~])")
VALUE = re.compile(r"\s*(%s|%s)" % (QUOTED, PLAIN))
PATTERN = re.compile(r"\s*(%s|/(?:[^/\\\n]|\\.)*/|\|(?:[^|\\\n]|\\.)*\||%s)" % (QUOTED, PLAIN))
# a part of quoted text: characters, or one escape sequence
PART = re.compile(r"([^\\]+)|\\(?:x([0-9A-Fa-f]{2})|([0-7]{3})|u([0-9A-Fa-f]{4})"
                  r"|U([0-9A-Fa-f]{8})|([^xuU0-7]))")
LETTERS = dict(zip("abfnrtv\\", "\a\b\f\n\r\t\v\\"))
BYTE_MOST, CHARACTER_MOST = 0xff, 0x10ffff
SEARCH = "~="
# so much of a processor's time, and of memory, may searches take
SECONDS, MEMORY = 2, 1 << 30
# how they are begun, from the folder of the modules
CODE = ("import sys; sys.path.insert(0, sys.argv[1]); "
        "from strata_snapshotter.filters import search; search()")

# the names of a field, as ("labels", "b.c"), and what it is compared with; without an operator None
Selector = collections.namedtuple("Selector", "path operator wanted")


def wrong(text, at, why):
    return InvalidArgument("filter %r: %s at position %d" % (text, why, at))


# --- parsing ---

def part_bytes(part, quote):
    """The bytes of a part of quoted text; None where there is no such escape sequence."""
    plain, byte, octal, short, long, letter = part.groups()
    if plain is not None:
        return plain.encode()
    if letter is not None:
        return LETTERS.get(letter, letter).encode() if letter in (*LETTERS, quote) else None
    number = int(byte or short or long, 16) if octal is None else int(octal, 8)
    if byte or octal:
        return bytes([number]) if number <= BYTE_MOST else None
    return chr(number).encode(errors="replace") if number <= CHARACTER_MOST else None


def unquoted(word, text, begin):
    """What a word says, which may be quoted."""
    if word[0] not in '"/|':
        return word
    quote, inner, at, found = word[0], word[1:-1], 0, []
    while at < len(inner):
        part = PART.match(inner, at)
        data = None if part is None else part_bytes(part, quote)
        if data is None:
            raise wrong(text, begin + 1 + at, "no such escape sequence")
        found.append(data)
        at = part.end()
    return b"".join(found).decode(errors="replace")


class Parser:
    """A filter that is read from its beginning."""

    def __init__(self, text):
        self.text, self.at = text, 0

    def taken(self, pattern, what):
        """What the next word says."""
        found = pattern.match(self.text, self.at)
        if found is None:
            raise wrong(self.text, self.at, "no " + what)
        self.at = found.end()
        return unquoted(found[1], self.text, found.start(1))

    def is_next(self, character):
        """Whether a character follows, which is then passed over."""
        is_there = self.text.startswith(character, self.at)
        self.at += is_there
        return is_there

    def selector(self):
        """The next selector."""
        path = [self.taken(FIELD, "field")]
        while self.is_next("."):
            path.append(self.taken(FIELD, "field"))
        if self.at == len(self.text) or self.text[self.at] == ",":
            return Selector(path, None, None)
        operator = self.taken(OPERATOR, "operator")
        return Selector(path, operator, self.taken(PATTERN if operator == SEARCH else VALUE, "value"))

    def selectors(self):
        found = [self.selector()]
        while self.at < len(self.text):
            if not self.is_next(","):
                raise wrong(self.text, self.at, "no comma")
            found.append(self.selector())
        return found


def parsed(texts):
    """The selectors of each filter. InvalidArgument where one is no filter."""
    return [Parser(text).selectors() if text else [] for text in texts]


# --- matching ---

def value_of(fields, path):
    """The value of a field, or None where it isn't present."""
    if path[0] == "labels":
        return fields["labels"].get(".".join(path[1:]))
    return fields.get(path[0])


def is_selected(selector, fields):
    """Whether a selector matches fields. One that isn't present differs from every value but the empty
    one; a pattern that is none matches nothing."""
    path, operator, wanted = selector
    value = value_of(fields, path)
    if operator is None:
        return value is not None
    if operator == "==":
        return value == wanted
    if operator == "!=":
        return (value or "") != wanted
    try:
        return re.search(wanted, value or "") is not None
    except (re.error, OverflowError, RecursionError):
        return False


def matches(filters, every):
    """Of each of some fields, whether they match any of some filters; without filters, all do.
    InvalidArgument where that takes too long."""
    if any(it.operator == SEARCH for found in filters for it in found):
        return searched(filters, every)
    return [matches_any(filters, it) for it in every]


def matches_any(filters, fields):
    return not filters or any(all(is_selected(it, fields) for it in found) for found in filters)


def searched(filters, every):
    """The same in a process of its own."""
    done = subprocess.run([sys.executable, "-IBS", "-c", CODE, TOP], input=json.dumps([filters, every]).encode(),
                          stdout=subprocess.PIPE, stderr=subprocess.DEVNULL, cwd="/", env={}, check=False)
    if done.returncode != 0:
        raise InvalidArgument("the filters' regular expressions take more than %d seconds of a processor, or"
                              " %d MiB: status %d" % (SECONDS, MEMORY >> 20, done.returncode))
    return json.loads(done.stdout)


def search():
    """What the process does."""
    resource.setrlimit(resource.RLIMIT_CPU, (SECONDS, SECONDS))
    resource.setrlimit(resource.RLIMIT_AS, (MEMORY, MEMORY))
    filters, every = json.load(sys.stdin)
    filters = [[Selector(*it) for it in found] for found in filters]
    json.dump([matches_any(filters, it) for it in every], sys.stdout)
