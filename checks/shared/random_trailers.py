"""Random attribute trailers behind images, some with a second part: right ones, and ones that break their rule or nearly do, for
checks/fuzz/fuzz.py."""
import struct

from checks.shared.build import trailer
from checks.shared.random_xattrs import random_part

# the fields of a row
PLACE, MODE, UID, GID, SECONDS, NANOSECONDS, LAST = range(7)
OWNERS = [0, 0, 1, 1000, 65534, 2 ** 31, 2 ** 32 - 1]
MODES = [0, 0o644, 0o755, 0o700, 0o1777, 0o4755, 0o7777]
TIMES = [0, 1, -1, 1700000000, 2 ** 31, -2 ** 63, 2 ** 63 - 1]
BAD_MODES, BAD_NANOSECONDS = [0o10000, 0o100644, 2 ** 32 - 1], [10 ** 9, 2 ** 31, 2 ** 32 - 1]


def random_owner(rng):
    """Whom files without a row belong to, or None, where nobody says."""
    return (rng.choice(OWNERS), rng.choice(OWNERS)) if rng.random() < 0.3 else None


def random_row(rng, at):
    return [at, rng.choice([*MODES, rng.randrange(0o10000)]), rng.choice(OWNERS), rng.choice(OWNERS),
            rng.choice([*TIMES, rng.randrange(-2 ** 40, 2 ** 40)]), rng.choice([0, 0, 1, 999999999, rng.randrange(10 ** 9)]), 0]


def random_rows(rng, full):
    """Rows for many of an image's places, or for a few."""
    places = range(0, full, 16)
    count = rng.choice([len(places), len(places), len(places) // 2, min(len(places), 3), 1, 0])
    return [random_row(rng, at) for at in sorted(rng.sample(places, min(count, 600)))]


# --- what may be wrong: each of these gives the bytes of a trailer ---

def with_field(field, values):
    def change(rng, rows, full):
        rng.choice(rows)[field] = rng.choice(values(full))
        return trailer(rows)
    return change


def swapped(rng, rows, _):
    """Two rows the wrong way round, or, where there is one, the same one twice."""
    at = rng.randrange(len(rows))
    rows[at:at + 2] = (rows[at:at + 2] * 2)[1:3]
    return trailer(rows)


def doubled(rng, rows, _):
    at = rng.randrange(len(rows))
    rows.insert(at, list(rows[at]))
    return trailer(rows)


def cut_off(rng, rows, _):
    data = trailer(rows)
    return data[:rng.choice([7, 8, 12, 15, 16, len(data) - 1, len(data) - 4, rng.randrange(len(data))])]


def flipped(rng, rows, _):
    """A bit that is flipped: in the letters, so that there is no trailer, or anywhere."""
    data = bytearray(trailer(rows))
    data[rng.choice([rng.randrange(8), rng.randrange(16), rng.randrange(len(data))])] ^= 1 << rng.randrange(8)
    return bytes(data)


def counted(rng, rows, _):
    """Another count than that of the rows, with a right sum."""
    return trailer(rows, max(0, rng.choice([len(rows) - 1, len(rows) + 1, 2 ** 32 - 1, 2 ** 27])))


CHANGES = [
    with_field(PLACE, lambda full: [full, full - 1, full - full % 16, full + 16, 0, 8, 2 ** 32 - 16]),
    with_field(MODE, lambda _: [0o7777, *BAD_MODES]), with_field(NANOSECONDS, lambda _: [999999999, *BAD_NANOSECONDS]),
    with_field(LAST, lambda _: [1, 2 ** 31]), swapped, doubled, cut_off, flipped, counted]


def random_trailer(rng, full):
    """A trailer for an image of this full size; one in three is changed. Many have a second part."""
    rows = random_rows(rng, full)
    behind = random_part(rng, [row[MODE] for row in rows]) if rows and rng.random() < 0.4 else b""
    is_changed = rows and rng.random() < (0.1 if behind else 0.33)
    return (rng.choice(CHANGES)(rng, rows, full) if is_changed else trailer(rows)) + behind


def with_trailer(rng, data):
    """An image with a trailer at its place, and sometimes something behind it; one that has no right full size stays as it is."""
    full = struct.unpack_from(">I", data, 8)[0] if len(data) >= 12 else 0
    if not 16 <= full <= len(data):
        return data
    return data[:full] + bytes(-full % 16) + random_trailer(rng, full) + rng.choice([b"", b"", bytes(512), b"x" * 33])
