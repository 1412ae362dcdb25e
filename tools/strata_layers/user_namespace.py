"""Which users and groups there are in the user namespace of this process."""
PROC = "/proc/self/"
EVERY = [(0, 1 << 32)]


def ranges(name):
    """The numbers that a map has, each range with its end; all of them where there is no map."""
    try:
        with open(PROC + name, encoding="ascii") as file:
            rows = [list(map(int, line.split())) for line in file]
    except OSError:
        return EVERY
    return [(first, first + count) for first, _, count in rows]


def may_set_groups():
    """Whether a process with all capabilities may have other groups here."""
    try:
        with open(PROC + "setgroups", encoding="ascii") as file:
            return file.read().strip() != "deny"
    except OSError:
        return True


def has(user):
    """Whether root here can become a user with all his groups."""
    users, groups = ranges("uid_map"), ranges("gid_map")
    wanted = [(users, user.uid), *((groups, it) for it in (user.gid, *user.groups))]
    return may_set_groups() and all(
        any(first <= number < end for first, end in there) for there, number in wanted)


def is_callers():
    """Whether root here is a single user outside, as in `unshare -r`, with no other user's rights."""
    return [end - first for first, end in ranges("uid_map")] == [1]
