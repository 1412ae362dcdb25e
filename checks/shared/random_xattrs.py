"""Random second parts of attribute trailers, with extended attributes: right ones, and ones that break their rule or nearly do,
for checks/shared/random_trailers.py."""
import struct

from checks.shared.build import part

ACCESS, DEFAULT, CAPABILITY = b"system.posix_acl_access", b"system.posix_acl_default", b"security.capability"
NAMES = [b"user.a", b"user.ab", b"user.b", b"a", b"security.selinux", b"trusted.x", b"user." + b"q" * 250]
BAD_NAMES = [b"", b"user\0a", b"user.overlay.a", b"trusted.overlay.opaque", b"user." + b"q" * 251]
VALUES = [b"", b"b", b"system_u:object_r:etc_t:s0\0", bytes(300)]
NOBODY = 2 ** 32 - 1
ENTRY = struct.Struct("<2HI")
VERSION = struct.pack("<I", 2)


def acl(rng, mode):
    """The access control list of a file with this mode, with users who are named or without."""
    owner, group, others = mode >> 6 & 7, mode >> 3 & 7, mode & 7
    entries = [(1, owner, NOBODY)]
    if rng.random() < 0.5:
        entries += [(2, rng.randrange(8), number) for number in sorted(rng.sample([0, 1, 1000, 2 ** 32 - 2], rng.randrange(3)))]
        entries += [(4, rng.randrange(8), NOBODY)] + [(8, 5, 100)] * rng.randrange(2) + [(16, group, NOBODY)]
    else:
        entries.append((4, group, NOBODY))
    return entries + [(32, others, NOBODY)]


def acl_value(entries):
    return VERSION + b"".join(ENTRY.pack(*entry) for entry in entries)


def capability(rng):
    if rng.random() < 0.5:
        return b"\1\0\0\2" + rng.randbytes(16)
    return b"\0\0\0\3" + rng.randbytes(20)


def random_list(rng, mode):
    """The attributes that a file of this mode may have, in order."""
    found = {name: rng.choice(VALUES) for name in rng.sample(NAMES, rng.randrange(4))}
    if rng.random() < 0.2:
        found[CAPABILITY] = capability(rng)
    if rng.random() < 0.3:
        found[ACCESS] = acl_value(acl(rng, mode))
    if rng.random() < 0.1:
        found[DEFAULT] = acl_value(acl(rng, rng.randrange(0o1000)))
    return sorted(found.items())


# --- what may be wrong with an attribute: each of these gives another list ---

def named_badly(rng, items, _):
    return sorted([*items, (rng.choice(BAD_NAMES), b"")])


def twice(rng, items, _):
    items = items or [(b"user.a", b"")]
    at = rng.randrange(len(items))
    return [*items[:at], items[at], *items[at:]]


def falling(rng, items, _):
    return [*items, (b"user.b", b""), (b"user.a", b"")]


def broken_capability(rng, _, __):
    value = capability(rng)
    return [(CAPABILITY, rng.choice([value[:-1], value + bytes(4), b"", b"\2" + value[1:], value[:3] + b"\1" + value[4:]]))]


def broken_acl(rng, _, mode):
    entries = acl(rng, mode)
    at = rng.randrange(len(entries))
    tag, bits, number = entries[at]
    entries[at] = rng.choice([(tag, bits ^ 1, number), (tag, bits | 8, number), (tag, bits, number ^ 1), (tag ^ 3, bits, number)])
    if rng.random() < 0.3:
        entries.pop(at)
    if rng.random() < 0.3:
        entries.reverse()
    return [(rng.choice([ACCESS, ACCESS, DEFAULT]), acl_value(entries) + bytes(rng.choice([0, 0, 0, 1, 8])))]


def long_value(rng, _, __):
    return [(b"user.a", bytes(rng.choice([65536, 65537])))]


CHANGED_LISTS = [named_badly, twice, falling, broken_capability, broken_acl, long_value]


# --- what may be wrong with a part: each of these makes the bytes ---

def other_word(rng, numbers, lists):
    """One changed word of the tables, with a right sum."""
    words = len(numbers) + len(lists) + 3 + 2 * sum(len(items) for items in lists)
    return part(numbers, lists, {rng.randrange(words): rng.choice([0, 1, 2, 3, 24, 28, 32, 40, 2 ** 31, 2 ** 32 - 1])})


def cut_off(rng, numbers, lists):
    data = part(numbers, lists)
    return data[:rng.choice([7, 8, 12, 15, 16, len(data) - 1, len(data) - 4, rng.randrange(len(data))])]


def flipped(rng, numbers, lists):
    data = bytearray(part(numbers, lists))
    data[rng.choice([rng.randrange(8), rng.randrange(16), rng.randrange(len(data))])] ^= 1 << rng.randrange(8)
    return bytes(data)


def led_elsewhere(rng, numbers, lists):
    """A row that leads to another list, or to none that there is."""
    numbers = list(numbers)
    numbers[rng.randrange(len(numbers))] = rng.choice([0, 1, len(lists), len(lists) + 1, 2 ** 32 - 1])
    return part(numbers, lists)


CHANGED_PARTS = [other_word, cut_off, flipped, led_elsewhere]


def random_part(rng, modes):
    """The second part of a trailer whose rows have these modes; one in three is changed. Some equal lists stand twice."""
    numbers, lists, known = [], [], {}
    is_changed = rng.random() < 0.33
    changed = rng.randrange(len(modes)) if is_changed and rng.random() < 0.5 else None
    for row, mode in enumerate(modes):
        items = random_list(rng, mode) if rng.random() < 0.5 else []
        if row == changed:
            items = rng.choice(CHANGED_LISTS)(rng, items, mode)
        if not items:
            numbers.append(0)
            continue
        key = tuple(items)
        if key not in known or rng.random() < 0.2:
            lists.append(items)
            known[key] = len(lists)
        numbers.append(known[key])
    if is_changed and changed is None:
        return rng.choice(CHANGED_PARTS)(rng, numbers, lists)
    return part(numbers, lists)
