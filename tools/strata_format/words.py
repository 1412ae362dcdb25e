"""Reads a command's arguments by tables of its options, and writes words for the shell.

It takes what argparse takes: `--name=value`, `--name value`, unique beginnings of long names,
letters in one word (`-fn`), options and names in any order. Everything behind `--` is a name. It is
here because to load argparse takes longer than to mount.
"""


# letters that the shell takes as they are
PLAIN = frozenset("ABCDEFGHIJKLMNOPQRSTUVWXYZabcdefghijklmnopqrstuvwxyz0123456789@%+=:,./-_")


def quoted(words):
    """Words as the shell takes them, like shlex.join, which loads longer than it works."""
    return " ".join(it if it and PLAIN.issuperset(it) else "'%s'" % it.replace("'", "'\"'\"'")
                    for it in words)


def no_option(path):
    """A path so that no program takes it for an option."""
    return "./" + path if path.startswith("-") else path


class WrongWords(Exception):
    """What is wrong with the arguments, as one line."""


class Reader:
    """Reads arguments: `flags` stand alone, `valued` options have a value; both are tables of field
    by option."""

    def __init__(self, flags, valued):
        self.flags, self.valued = flags, valued
        # True for a flag, a list of values for other options; and what is no option
        self.said, self.names = {}, []

    def read(self, words):
        left = iter(words)
        for word in left:
            if word == "--":
                self.names += left
            elif word == "-" or not word.startswith("-"):
                self.names.append(word)
            elif word.startswith("--"):
                self.add_long(word, left)
            else:
                self.add_letters(word, left)
        return self

    def add_long(self, word, left):
        name, equals, value = word.partition("=")
        option = self.full_name(name)
        if option in self.valued:
            self.add_value(option, value if equals else next(left, None), bool(equals))
        elif equals:
            raise WrongWords("argument %s: ignored explicit argument '%s'" % (option, value))
        else:
            self.said[self.flags[option]] = True

    def add_letters(self, word, left):
        for at, letter in enumerate(word[1:], 1):
            option = "-" + letter
            if option in self.valued:
                value = word[at + 1:]
                self.add_value(option, value or next(left, None), bool(value))
                return
            if option not in self.flags:
                raise WrongWords("unrecognized arguments: " + word)
            self.said[self.flags[option]] = True

    def add_value(self, option, value, is_attached):
        """Notes a value. One in a word of its own that begins with a `-` is an option, and the
        value is missing."""
        if value is None or not is_attached and value != "-" and value.startswith("-"):
            raise WrongWords("argument %s: expected one argument" % option)
        self.said.setdefault(self.valued[option], []).append(value)

    def full_name(self, name):
        """The long option that a name, or its beginning, means."""
        every = [it for it in (*self.flags, *self.valued) if it.startswith(name)]
        if name in every:
            return name
        if not every:
            raise WrongWords("unrecognized arguments: " + name)
        if len(every) > 1:
            raise WrongWords("ambiguous option: %s could match %s" % (name, ", ".join(every)))
        return every[0]
