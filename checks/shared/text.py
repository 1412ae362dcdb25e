"""Words of a case file, and the bytes that they say."""
import re

TOKEN = re.compile(r'\s*(?:"((?:[^"\\]|\\[0-9a-f]{2})*)"|([^\s"]+))')
DATA = ("hex", "zeros", "count", "byte", "u32")


class Wrong(Exception):
    """A line that says nothing that is known."""


class Quoted(str):
    """A word that stood in quotation marks."""


def words_of(line):
    """The words of a line: bare ones, and texts in quotation marks. A word that begins with # ends the line."""
    words, at = [], 0
    line = line.strip()
    while at < len(line):
        found = TOKEN.match(line, at)
        if not found:
            raise Wrong("no words: %s" % line[at:])
        if found[2] is not None and found[2].startswith("#"):
            break
        words.append(Quoted(found[1]) if found[1] is not None else found[2])
        at = found.end()
    return words


def plain_bytes(text):
    """The bytes of a text in which a backslash and two digits stand for a byte."""
    parts = re.split(r"\\([0-9a-f]{2})", text)
    return b"".join(bytes([int(part, 16)]) if odd % 2 else part.encode() for odd, part in enumerate(parts))


class Words:
    """The words of a line, taken from the front."""

    def __init__(self, words):
        self.words = list(words)

    def more(self):
        return bool(self.words)

    def next(self):
        if not self.words:
            raise Wrong("a word is missing")
        return self.words.pop(0)

    def take(self, word):
        """Whether the next word is this one, which is then taken."""
        if self.words and self.words[0] == word and not isinstance(self.words[0], Quoted):
            self.words.pop(0)
            return True
        return False

    def expect(self, word):
        if not self.take(word):
            raise Wrong("'%s' should stand here: %s" % (word, " ".join(self.words)))

    def number(self, base=0):
        word = self.next()
        try:
            return int(word, base)
        except ValueError:
            raise Wrong("no number: %s" % word) from None

    def number_of(self, word, base=0):
        """The number behind this word."""
        self.expect(word)
        return self.number(base)

    def name(self):
        """Bytes as a bare word, or as quoted text that may go on: "d/" then "q" * 255."""
        return self.data() if self.begins_text() else plain_bytes(self.next())

    def end(self):
        if self.words:
            raise Wrong("words that mean nothing here: %s" % " ".join(self.words))

    def begins_text(self):
        return bool(self.words) and isinstance(self.words[0], Quoted)

    def begins_data(self):
        return self.begins_text() or bool(self.words) and self.words[0] in DATA

    def data(self):
        """Bytes: "text", "text" * 5, hex 00ff, zeros 16, byte 7, u32 7 (little-endian), count 5000 (byte i is i mod 251),
        count 9 from 4096; joined by then."""
        parts = [self.one_datum()]
        while self.take("then"):
            parts.append(self.one_datum())
        return b"".join(parts)

    def one_datum(self):
        if self.begins_text():
            data = plain_bytes(self.next())
            return data * self.number() if self.take("*") else data
        if self.take("hex"):
            try:
                return bytes.fromhex(self.next().replace("_", ""))
            except ValueError:
                raise Wrong("no hexadecimal digits") from None
        if self.take("zeros"):
            return bytes(self.number())
        if self.take("byte"):
            return bytes([self.number()])
        if self.take("u32"):
            return self.number().to_bytes(4, "little")
        self.expect("count")
        count = self.number()
        start = self.number() if self.take("from") else 0
        return (bytes(range(251)) * (count // 251 + 2))[start % 251:start % 251 + count]
