"""Why something is refused, as one line, and how what strangers wrote is shown in one."""
import os

SHOWN, LINE_MOST = 200, 4200


# so many lines tell what is wrong with entries of one layer or folder
TOLD_MOST = 10


class Refused(Exception):
    """Why something is refused, as one line; and lines of what else is wrong with it. `not_held` says
    that there is what no image holds among it."""

    not_held = False

    def __init__(self, line, others=(), not_held=None):
        super().__init__(line)
        self.others = list(others)
        if not_held is not None:
            self.not_held = not_held

    def lines(self):
        return [str(self), *self.others]

    def of(self, words):
        """The same, each line of it said of what the words name."""
        line, *others = ("%s: %s" % (words, it) for it in self.lines())
        return Refused(line, others, self.not_held)


class BadEntry(Refused):
    """Why one entry of a layer or folder is refused; the next ones can be looked at."""


class NotHeld(BadEntry):
    """What no image holds. Without this entry it can be made."""

    not_held = True


class Faults:
    """What is wrong with entries, of which one must not hide which others there are."""

    def __init__(self):
        self.found, self.more, self.not_held = [], 0, False

    def note(self, refused):
        self.not_held |= refused.not_held
        for line in refused.lines():
            if len(self.found) < TOLD_MOST:
                self.found.append(line)
            else:
                self.more += 1

    def settle(self):
        """Refused where something was noted."""
        if self.found:
            more = [".. and %d more" % self.more] * bool(self.more)
            raise Refused(self.found[0], self.found[1:] + more, self.not_held)


class faults_below:
    """Lets the faults of files that no whole path names, since they are opened below a folder, name
    that folder."""

    def __init__(self, place):
        self.place = place

    def __enter__(self):
        return self

    def __exit__(self, kind, fault, trace):
        if not isinstance(fault, OSError):
            return
        if not isinstance(fault.filename, (str, bytes)) or not os.path.isabs(fault.filename):
            raise OSError(fault.errno, fault.strerror, self.place) from None


def bytes_of(text):
    """The bytes of a text: a path's own, or, of what no path says, those of UTF-8."""
    try:
        return os.fsencode(text)
    except UnicodeEncodeError:
        return text.encode(errors="surrogatepass")


def shown(words):
    """Bytes or text of strangers: all but visible characters of ASCII, and the backslash, as a
    backslash and two digits, as `list` prints them. Where that is long, its beginning."""
    data = bytes_of(words) if isinstance(words, str) else words
    text = "".join(chr(b) if 0x21 <= b <= 0x7e and b != 0x5c else "\\%02x" % b for b in data[:SHOWN])
    return text + ".." * (len(data) > SHOWN)


def seen(text, also=""):
    """Text in which what can't be seen, but for some characters, stands as `shown` has it."""
    return "".join(it if it.isprintable() or it in also else shown(it) for it in text)


def one_line(text):
    """The same in one line. Where it is very long, its beginning."""
    return seen(text[:LINE_MOST]) + ".." * (len(text) > LINE_MOST)
