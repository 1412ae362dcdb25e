"""Extended attributes of entries: as the records of archives say them, and the kind by which they
are reported.

An entry has them by their names. A list of rights in its text has the name of its record, since it
may stand beside one in its binary form, and may name users without their numbers.
"""
import binascii
import collections
import errno
import os

from strata_format.xattrs import (ACCESS, DEFAULT, acl_entries, acl_mode, acl_of, is_good, is_kept,
                                  list_of)
from strata_layers import acls

# keywords of records: behind each front stands a name
SCHILY, LIBARCHIVE, RHT = b"SCHILY.xattr.", b"LIBARCHIVE.xattr.", b"RHT."
SCHILY_ACL, ACCESS_TEXT = b"SCHILY.acl.", b"acl.access"
# the front of names of records, which no attribute has
UNREAD = b"acl."
TEXTS = {ACCESS_TEXT: ACCESS, b"acl.default": DEFAULT}
# what an image keeps of extended attributes: a list of them, and the bits that the mode of their file
# keeps and gets; and what it loses, None if that is all
Settled = collections.namedtuple("Settled", "items kept_bits own_bits lost")
ALL_BITS = 0o7777
# what is reported about an attribute, by the front of its name, in the singular and the plural
KINDS = {
    b"security.capability": ("capability", "capabilities"),
    b"system.posix_acl_": ("ACL", "ACLs"),
    b"acl.": ("ACL", "ACLs"),
    b"security.": ("label", "labels"),
    b"user.": ("user attribute", "user attributes"),
    b"": ("other attribute", "other attributes"),
}


class Attributes(dict):
    """Extended attributes by their names. Very many entries may share the very same many, of which
    everything is found out once."""

    __slots__ = ("found",)

    def __init__(self, *items):
        super().__init__(*items)
        self.found = {}

    def once(self, key, make):
        """What `make` gave under a key, or gives now."""
        if key not in self.found:
            self.found[key] = make()
        return self.found[key]


def of_record(keyword, value):
    """The name and the value of the attribute that a record of an extended header says; None where
    it says none."""
    if keyword.startswith(SCHILY):
        return keyword[len(SCHILY):], value
    if keyword.startswith(LIBARCHIVE):
        return plain_name(keyword[len(LIBARCHIVE):]), decoded(value)
    if keyword.startswith(SCHILY_ACL):
        return keyword[len(b"SCHILY."):], value
    if keyword.startswith(RHT + b"security."):
        return keyword[len(RHT):], value
    return None


def plain_name(name):
    """A name in which `%` and two digits of base 16 stand for a byte."""
    first, *others = name.split(b"%")
    parts = [bytes.fromhex(it[:2].decode()) + it[2:] if is_hex(it[:2]) else b"%" + it
             for it in others]
    return first + b"".join(parts)


def is_hex(digits):
    return len(digits) == 2 and all(it in b"0123456789abcdefABCDEF" for it in digits)


def decoded(value):
    """The bytes of a text of base 64, which may lack the padding; where it is none, the text."""
    try:
        return binascii.a2b_base64(value + bytes(-len(value) % 4).replace(b"\0", b"="))
    except binascii.Error:
        return value


def of_file(path):
    """The attributes of what stands at a path, in the order of names; none where its file system
    has none at all, as a mount of strata without them. ENODATA where one goes meanwhile."""
    try:
        names = sorted(map(os.fsencode, os.listxattr(path, follow_symlinks=False)))
    except OSError as fault:
        if fault.errno != errno.ENOTSUP:
            raise
        return Attributes()
    return Attributes((name, os.getxattr(path, name, follow_symlinks=False)) for name in names)


def settled(attributes, keeps):
    """What an image keeps of extended attributes, by what `keeps` says of a name, and what that says
    of their file's mode."""
    nothing = Settled((), bits_without(attributes), 0, None)
    if not any(map(keeps, attributes)):
        return nothing
    found, lost = with_binary_acls(attributes), Attributes()
    for name, value in [*found.items()]:
        value = sorted_acl(name, value)
        if keeps(name) and is_kept(name, value) and not name.startswith(UNREAD):
            found[name] = value
        else:
            lost[name] = found.pop(name)
    kept_bits, own_bits = bits_without(lost), 0
    if ACCESS in found:
        kept_bits, own_bits = kept_bits & ~0o777, acl_mode(found[ACCESS])
        if not acls.is_more_than_a_mode(found[ACCESS]):
            del found[ACCESS]
    items = list_of(found)
    return Settled(items, kept_bits, own_bits, lost) if is_good(items, own_bits) else nothing


def with_binary_acls(attributes):
    """Attributes in which lists of rights in their text are in their binary form, where this can be
    said, and is not there already."""
    found = dict(attributes)
    for text, name in TEXTS.items():
        entries = acls.of_text(found[text]) if text in found else None
        value = found.get(name) or (acls.value_of(entries) if entries else None)
        if value is not None:
            found[name] = value
            found.pop(text, None)
    return found


def sorted_acl(name, value):
    """The value of an attribute; of a list of rights, which may have its entries in any order, as
    Linux has it."""
    entries = acl_entries(value) if name in TEXTS.values() else None
    return acl_of(entries) if entries is not None else value


def bits_without(attributes):
    """The bits that the mode of a file keeps which loses its attributes."""
    bits = ALL_BITS
    if ACCESS in attributes:
        bits &= acls.bits_without(acl_entries(attributes[ACCESS]))
    if ACCESS_TEXT in attributes:
        bits &= acls.bits_without(acls.of_text(attributes[ACCESS_TEXT]))
    return bits


def kind_of(name):
    """The words for what an attribute is."""
    return next(words for front, words in KINDS.items() if name.startswith(front))


def counts_text(counts):
    """How many of each kind there are, in words: `counts` by the kind's singular."""
    found = {one: many for one, many in KINDS.values()}
    return ", ".join("%d %s" % (counts[one], one if counts[one] == 1 else many)
                     for one, many in found.items() if counts.get(one))
