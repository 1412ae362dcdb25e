"""Plants wrong lines into copies of the cases, and sees that they are noticed: python3 checks plant PROGRAM

Of each kind of line that says what must come (`|`, `!`, `status`, `left`, and each kind of reply) each value is changed
in turn, and every change must be noticed by a run. Of each kind of line that says what is given one value at least should
be: the kinds of which none was are listed. And of each kind the first word is misspelled, which must be refused.
The status is 0 where every change is noticed.
"""
import contextlib
import io
import os
import re
import sys
import tempfile

from checks.cases import cases
from checks.plain.plain_replies import ERRNOS

WANTED = {"|", "|=", "!", "status", "left", "opened", "entry", "negative", "attributes", "data", "rows", "rows_plus", "ino", "open_flags",
          "statfs", *ERRNOS}
# what only says how a run is made
QUIET = {"fed", "waits", "memory", "stack", "files", "pipes", "gone", "closed", "writes", "folder", "for", "$", "# "}
VALUE = re.compile(r"(?<![A-Za-z0-9_.-])(?:0x)?[0-9a-f_]*[0-9][0-9a-f_]*(?![A-Za-z_-])")


def kind_of(lines, number):
    """The kind of a line of a case file, and whether it says what must come; None where it is empty or a comment."""
    text = lines[number].strip()
    if not text or text.startswith("#"):
        return None
    words = [word for word in text.split() if not word.isdigit() and word not in ("to", "times", "+x")] or [text]
    is_reply = text[0].isdigit() and words[0] in (*WANTED, "INIT", "bytes", "empty")
    if words[0] == "at":
        return "at .. %s" % words[2], False
    place = "client's " if words[0] != "client" and is_of_client(lines, number) else ""
    kind = "! session" if text.startswith("! session ") else place + words[0] + (" (reply)" if is_reply else "")
    return kind, is_reply or words[0] in WANTED


def is_of_client(lines, number):
    """Whether a line of a case file stands below a client."""
    indent = indent_of(lines[number])
    while indent and number:
        number -= 1
        if lines[number].strip() and indent_of(lines[number]) < indent:
            indent = indent_of(lines[number])
            if lines[number].split()[0] == "client":
                return True
    return False


def indent_of(line):
    return len(line) - len(line.lstrip())


def changes(text):
    """The line with each of its values changed in turn, and a text with two letters swapped."""
    body = len(text) - len(text.lstrip())
    for found in VALUE.finditer(text, body):
        word, at = found[0], -1
        new = word[:at] + ("0" if word[at] == "9" else chr(ord(word[at]) + 1) if word[at].isdigit() else "0")
        yield text[:found.start()] + new + text[found.end():]
    for at in range(body + 2, len(text) - 1):
        if text.lstrip()[0] in "|!" and text[at].isalpha() and text[at + 1].isalpha() and text[at] != text[at + 1]:
            yield text[:at] + text[at + 1] + text[at] + text[at + 2:]
            return
    names = sorted(ERRNOS)
    for index, name in enumerate(names):
        if re.search(r"\b%s$" % name, text):
            yield text.replace(name, names[index - 1])


class Planting:
    """Runs of changed case files."""

    def __init__(self, program, folder):
        self.program, self.path = program, os.path.join(folder, "planted.case")

    def told(self, lines, number, new):
        """What a run of the cases with this line says; nothing where all passes."""
        with open(self.path, "w", encoding="utf-8") as out:
            out.write("\n".join([*lines[:number], new, *lines[number + 1:]]) + "\n")
        told = io.StringIO()
        with contextlib.redirect_stdout(told):
            passes = cases.main(self.program, [self.path])
        return "" if passes else told.getvalue()

    def refuses(self, lines, number):
        text = lines[number]
        found = re.search(r"[A-Za-z]{2,}", text)
        if not found:
            return True
        new = text[:found.start()] + "Q" + text[found.start():]
        return "$ strata" not in self.told(lines, number, new)


def misses(planting, is_wanted, places):
    """How many changes of lines of one kind were tried, and those that were not noticed: of lines that say what must
    come every one should be, of others one, by a run."""
    tried, missed = 0, []
    for path, lines, number in places[:3 if is_wanted else 12]:
        for new in changes(lines[number]):
            tried += 1
            told = planting.told(lines, number, new)
            if not told:
                missed.append("%s:%d: %s" % (os.path.basename(path), number + 1, new.strip()[:100]))
            elif not is_wanted and "$ strata" in told:
                return tried, []
    return tried, missed


def main(program, paths):
    by_kind = {}
    for path in paths:
        with open(path, encoding="utf-8") as text:
            lines = text.read().splitlines()
        for number in range(len(lines)):
            by_kind.setdefault(kind_of(lines, number), []).append((path, lines, number))
    by_kind.pop(None)
    lost = all_tried = 0
    silent = []
    with tempfile.TemporaryDirectory() as folder:
        planting = Planting(program, folder)
        for (kind, is_wanted), places in sorted(by_kind.items()):
            if kind.replace("client's ", "") in QUIET:
                continue
            places.sort(key=lambda it: len(it[1]))
            places = [it for at, it in enumerate(places) if at < 3 or it[0] != places[at - 2][0]]
            tried, missed = misses(planting, is_wanted, places)
            if kind[0] not in "|!" and not planting.refuses(places[0][1], places[0][2]):
                missed.append("a misspelled %s" % kind)
            if not is_wanted and missed:
                silent, missed = [*silent, kind], missed[tried:]
            all_tried, lost = all_tried + tried, lost + len(missed)
            for text in missed:
                print("%s: not noticed: %s" % (kind, text))
    print("given, and noticed by no reply: %s" % ", ".join(silent))
    print("%d kinds of lines, %d changes, %d not noticed" % (len(by_kind), all_tried, lost))
    return lost == 0


if __name__ == "__main__":
    sys.exit(0 if main(os.path.abspath(sys.argv[1]), sys.argv[2:] or cases.found()) else 1)
