"""Case files, as checks/cases/cases.py says how they are written: their lines as images, streams, files and runs."""
import re
import struct
from collections import namedtuple

from checks.shared import images, messages, replies
from checks.shared.clients import Client
from checks.shared.text import Words, Wrong, words_of


# a file of so many bytes, zeros behind the first ones
Sparse = namedtuple("Sparse", "front size place end")
# a socket at which nobody listens
SOCKET = object()


class Line:
    """A line of a case file, with the lines below it."""

    def __init__(self, number, text):
        self.number, self.text, self.below = number, text, []

    def words(self):
        return Words(words_of(self.text))


def tree_of(text):
    """The lines of a case file as a tree, by their indent."""
    top, open_lines = [], []
    for number, line in enumerate(text.splitlines(), 1):
        if not line.strip() or line.lstrip().startswith("#"):
            continue
        indent = len(line) - len(line.lstrip())
        made = Line(number, line.strip())
        open_lines = [(depth, it) for depth, it in open_lines if depth < indent]
        (open_lines[-1][1].below if open_lines else top).append(made)
        open_lines.append((indent, made))
    return top


def repeated(lines):
    """The lines with those below `for N 0 to 15`, or `for N in 1 2 5`, once for each of these values instead of N."""
    made = []
    for line in lines:
        found = re.fullmatch(r"for ([A-Z]+) (?:([0-9]+) to ([0-9]+)(?: and ([A-Z]+) from ([0-9]+))?|in ([^#]+))", line.text)
        if not found:
            line.below = repeated(line.below)
            made.append(line)
            continue
        values = found[6].split() if found[6] else range(int(found[2]), int(found[3]) + 1)
        for place, value in enumerate(values):
            below = [replaced(it, found[1], value) for it in line.below]
            made += repeated([replaced(it, found[4], int(found[5]) + place) for it in below] if found[4] else below)
    return made


def replaced(line, name, value):
    made = Line(line.number, re.sub(r"\b%s\b" % name, str(value), line.text))
    made.below = [replaced(below, name, value) for below in line.below]
    return made


class Run:
    """A run of the program, and what must come of it."""

    def __init__(self, line):
        self.line = line
        self.output, self.faults, self.replies, self.left, self.clients, self.opened = [], "", {}, {}, [], []
        self.more_faults = self.unread = False
        self.status = self.writes = None


class Case:
    """A case file: what its lines name, and its runs."""

    def __init__(self, path):
        self.path, self.runs = path, []
        self.images, self.streams, self.files, self.answers, self.used = {}, {}, {}, {}, set()
        with open(path, encoding="utf-8") as text:
            for line in repeated(tree_of(text.read())):
                try:
                    self.read(line)
                except (Wrong, ValueError, OverflowError, struct.error) as wrong:
                    raise Wrong("%s:%d: %s" % (path, line.number, wrong)) from None
        for run in self.runs:
            if run.status is None:
                raise Wrong("%s:%d: no status" % (path, run.line.number))

    def define(self, name, into, value):
        if any(name in table for table in (self.images, self.streams, self.files, self.answers)):
            raise Wrong("%s stands twice" % name)
        into[name] = value

    def read(self, line):
        words = line.words() if line.text[0] not in "|!$" or line.text[:2] == "|=" else None
        kind = line.text[0] if words is None else words.next()
        if kind == "image":
            name = words.next()
            data, base = images.image_of(words, [it.words() for it in line.below], self.images)
            self.used.add(base)
            self.define(name, self.images, data)
        elif kind == "requests":
            self.read_requests(words, line)
        elif kind == "file":
            name = words.next()
            value = self.sparse(words) if words.take("sparse") else words.data()
            words.end()
            self.define(name, self.files, value)
        elif kind in ("folder", "socket"):
            self.define(words.next(), self.files, None if kind == "folder" else SOCKET)
            words.end()
        elif kind == "answers":
            self.define(words.next(), self.answers, replies_below(line))
            words.end()
        elif kind == "$":
            self.runs.append(Run(line))
        elif not self.runs:
            raise Wrong("no run above")
        else:
            self.read_wanted(kind, words, line, self.runs[-1])
        if line.below and kind not in ("image", "requests", "answers", "$", "replies", "left", "client"):
            raise Wrong("lines below that mean nothing here")

    def sparse(self, words):
        size = words.number()
        front = self.front_of(words, self.images) if words.take("=") else b""
        return Sparse(front, size, *((words.number(), words.data()) if words.take("at") else (0, b"")))

    def front_of(self, words, table):
        """The bytes of what a name stands for, or the first ones."""
        name = words.next()
        if name not in table:
            raise Wrong("no such name: %s" % name)
        self.used.add(name)
        count = words.number() if words.take("first") else len(table[name])
        if count > len(table[name]):
            raise Wrong("%s has %d bytes" % (name, len(table[name])))
        return table[name][:count]

    def read_requests(self, words, line):
        name = words.next()
        data = self.front_of(words, self.streams) if words.take("=") else b""
        words.end()
        self.define(name, self.streams, data + messages.stream_of([it.words() for it in line.below]))

    def read_wanted(self, kind, words, line, run):
        text = line.text[2:]
        if kind == "|":
            run.output.append(text.encode())
        elif kind == "|=":
            run.output.append(words.data())
            words.end()
        elif kind == "!" and run.more_faults:
            raise Wrong("a line behind any more lines")
        elif kind == "!" and text == "...":
            run.more_faults = True
        elif kind == "!":
            run.faults += text + "\n"
        elif kind == "status" and run.status is None:
            run.status = words.number()
            words.end()
        elif kind == "unread":
            run.unread = True
            words.end()
        elif kind == "opened":
            run.opened.append(list(words.words))
        elif kind == "writes":
            first = words.number()
            words.expect("to")
            run.writes = first, words.number()
            words.end()
        elif kind == "replies":
            self.read_replies(words, line, run)
        elif kind == "client":
            run.clients.append(self.client_of(words, line))
        elif kind == "left":
            name = words.next()
            run.left[name] = lines_below(line) if line.below else left_data(words)
            words.end()
        else:
            raise Wrong("this line means nothing: %s" % line.text)

    def read_replies(self, words, line, run):
        name = words.next() if words.more() and words.words[0] != "=" else None
        if name in run.replies:
            raise Wrong("replies twice")
        run.replies[name] = self.replies_said(words, line)

    def replies_said(self, words, line):
        """The replies of a line `replies`, behind its name."""
        begun = self.front_of(words, self.answers) if words.take("=") else b""
        words.end()
        if not begun and not line.below:
            raise Wrong("no replies")
        return begun + replies_below(line)

    def client_of(self, words, line):
        """A client of the run's socket."""
        client, sends, size = Client(), b"", None
        client.number, client.is_meanwhile = line.number, words.take("meanwhile")
        words.end()
        for below in line.below:
            words = below.words()
            kind = words.next()
            if kind == "sends":
                sends = self.front_of(words, self.streams)
            elif kind == "fed":
                size = words.number()
            elif kind == "replies":
                client.replies = self.replies_said(words, below)
            else:
                read_habit(kind, words, client)
            words.end()
            if below.below and kind != "replies":
                raise Wrong("lines below that mean nothing here")
        size = size or max(len(sends), 1)
        client.pieces = [sends[at:at + size] for at in range(0, len(sends), size)]
        return client

    def data_of(self, name):
        """The bytes of what a name stands for, None for a folder; and whether there is one."""
        for table in (self.images, self.streams, self.files):
            if name in table:
                self.used.add(name)
                return True, table[name]
        return False, None

    def unused(self):
        names = [*self.images, *self.streams, *self.files, *self.answers]
        return [name for name in names if name not in self.used]


def read_habit(kind, words, client):
    """A line below a client that says how it sends or ends."""
    if kind == "waits":
        client.is_stepwise = True
    elif kind == "deaf":
        client.is_deaf = True
    elif kind == "closes":
        client.closes, client.leaves_some = True, words.take("early")
    elif kind == "files":
        client.files = words.number()
    else:
        raise Wrong("this line means nothing: %s" % kind)


def replies_below(line):
    return replies.replies_of([(it.words(), [row.words() for row in it.below]) for it in line.below])


def lines_below(line):
    """The text of the lines `| TEXT` below a line."""
    if any(it.below or it.text[:2] != "| " for it in line.below):
        raise Wrong("lines below that mean nothing here")
    return "".join(it.text[2:] + "\n" for it in line.below).encode()


def left_data(words):
    if words.take("absent"):
        return None
    return b"" if words.take("empty") else words.data()
