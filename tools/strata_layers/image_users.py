"""Who runs an image: the user of its configuration as numbers, by the passwd(5) and group(5) that
its own layers show, as container runtimes find them.

Of `USER[:GROUP]` each is a name or a number. A name must stand in the image's file; a number need
not. Without GROUP it is the user's group in passwd, or 0, and the user has the other groups that
list his name. Without USER it is root, or, where an unprivileged user calls, he. His home is that of
passwd, or `/`. Symbolic links to these files are followed within the image.
"""
import collections
import os

from strata_format.refused import Refused, shown
from strata_layers.below import Below
from strata_layers.shown_files import file_at
from strata_layers.store_images import layers_of

FILE_MOST = 1 << 20
NUMBER_MOST = (1 << 32) - 2

# a user's number, his group's, those of his other groups, and the path of his home
User = collections.namedtuple("User", "uid gid groups home")
ROOT = 0, 0
FILES = {"user": "passwd", "group": "group"}


def rows_of(data, least):
    """The rows of a file as passwd(5) and group(5) have them, of at least so many fields."""
    rows = (line.split(b":") for line in data.split(b"\n"))
    return [row for row in rows if len(row) >= least]


def number_in(field):
    """A user's or a group's number, or None where the field has none."""
    if not field.isdigit() or len(field) > 10 or int(field) > NUMBER_MOST:
        return None
    return int(field)


def found_row(rows, word):
    """The first row of this name, or, where the word is a number, else of this number."""
    named, number = (row for row in rows if row[0] == word), number_in(word)
    numbered = (row for row in rows if number is not None and number_in(row[2]) == number)
    return next(named, None) or next(numbered, None)


def number_of(row, word, what):
    """The number of a row, or of a word that has none."""
    number = number_in(row[2] if row is not None else word)
    if number is None and row is not None:
        raise Refused("the image's /etc/%s: %s %s has the number %s, which is none" % (FILES[what], what, shown(word), shown(row[2])))
    if number is None:
        raise Refused("the image has no %s %s" % (what, shown(word)))
    return number


def home_of(row):
    """The path of the home that a row of passwd, or none, says."""
    found = row[5] if row is not None and len(row) > 5 else b""
    return os.fsdecode(found) if found and b"\0" not in found else "/"


def user_of(text, passwd, group):
    """The user that a configuration says, by these two files."""
    word, colon, group_word = text.encode().partition(b":")
    groups = rows_of(group, 3)
    row = found_row(rows_of(passwd, 4), word or b"0")
    uid, home = number_of(row, word or b"0", "user"), home_of(row)
    if colon and group_word:
        return User(uid, number_of(found_row(groups, group_word), group_word, "group"), [], home)
    gid = number_in(row[3]) or 0 if row is not None else 0
    name = row[0] if row is not None else None
    listed = [number_in(it[2]) for it in groups if len(it) > 3 and name in it[3].split(b",")]
    return User(uid, gid, sorted({it for it in listed if it is not None} - {gid}), home)


def image_user(store, name, text, caller):
    """The user of an image of a store, whose configuration says this text; `caller` has a user's
    and a group's number."""
    _, files = layers_of(store, name)
    below = Below()
    for number in files:
        below.add(number)
        os.close(number)
    passwd, group = (file_at(below, (b"etc", it), FILE_MOST) for it in (b"passwd", b"group"))
    if text:
        return user_of(text, passwd, group)
    uid, gid = ROOT if caller[0] == 0 else caller
    return User(uid, gid, [], home_of(found_row(rows_of(passwd, 4), b"%d" % uid)))
