"""POSIX access control lists: their text, as archives have it (acl_to_text(3)), and what stays of
one that is lost.

An entry is its tag, the rights of `rwx` as three bits, and for a named user or group the number, or
None where only a name is said; for others NOBODY.
"""
from strata_format.xattrs import GROUP, GROUP_OBJ, MASK, NOBODY, OTHER, USER, USER_OBJ, acl_entries, acl_of

NAMED = (USER, GROUP)
# a tag by its word in a text, without and with a qualifier
WORDS = {b"user": (USER_OBJ, USER), b"u": (USER_OBJ, USER), b"group": (GROUP_OBJ, GROUP),
         b"g": (GROUP_OBJ, GROUP), b"mask": (MASK, None), b"m": (MASK, None),
         b"other": (OTHER, None), b"o": (OTHER, None)}


def value_of(found):
    """The binary form of entries; None where a number is missing."""
    return None if any(number is None for _, _, number in found) else acl_of(found)


def is_more_than_a_mode(value):
    """Whether a good list in its binary form names somebody, or has a mask: else it says what a mode
    says, and Linux keeps it as that."""
    return any(tag in (*NAMED, MASK) for tag, _, _ in acl_entries(value))


def of_text(text):
    """The entries of a list in its text; None where it is none."""
    lines = text.replace(b",", b"\n").split(b"\n")
    words = [it.partition(b"#")[0].strip() for it in lines]
    found = [entry_of(it) for it in words if it]
    return found if found and None not in found else None


def entry_of(words):
    """The entry of a line `TAG:QUALIFIER:PERMS`, behind which some programs write the number."""
    tag, _, rest = words.partition(b":")
    fields = rest.split(b":")
    qualifier, perms, *number = fields if len(fields) > 1 else [b"", *fields]
    bits = bits_of(perms.strip())
    if tag not in WORDS or bits is None:
        return None
    kind = WORDS[tag][qualifier != b""]
    if kind not in NAMED:
        return None if kind is None else (kind, bits, NOBODY)
    digits = number[0] if number else qualifier
    is_number = digits.isdigit() and len(digits) <= 10 and int(digits) < NOBODY
    return kind, bits, int(digits) if is_number else None


def bits_of(perms):
    """The bits of rights such as `r-x`; None of other words."""
    if len(perms) < 3 or any(it not in (letter, ord("-")) for it, letter in zip(perms, b"rwx")):
        return None
    return sum(bit for it, bit in zip(perms, (4, 2, 1)) if it != ord("-"))


def bits_without(found):
    """The bits that the mode of a file keeps which loses the entries of a list (None: nobody can
    read it): nobody has more rights by it than by the list, but for the file's group where an entry
    takes rights from one of its users. The mode's group bits are the list's mask, or, as libarchive
    writes them, its group's own."""
    if found is None:
        return ~0o70
    mask, group, other = 7, 0, 7
    for tag, perms, _ in found:
        if tag == MASK:
            mask &= perms
    for tag, perms, _ in found:
        if tag == GROUP_OBJ:
            group = perms & mask
        elif tag in NAMED:
            other &= perms & mask
    return ~0o77 | group << 3 | other
