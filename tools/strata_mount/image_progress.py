"""How far strata is with the images of a mount, as one line on a terminal, from a second on."""
from strata_format.image_files import size_of
from strata_format.progress import Progress

STEP = 0.2


def read_by(process):
    """The bytes that a process has read."""
    try:
        with open("/proc/%d/io" % process, encoding="ascii") as it:
            return int(it.readline().split()[1])
    except (OSError, IndexError, ValueError):
        return 0


def watch(told, bell, server, images):
    """Tells how far a server is until it learns whether the mount answers, and the bell rings. Of
    images that are read in full it is known how many bytes there are; else, with None, how many were
    read is all that is shown."""
    total = sum(map(size_of, images)) if images else None
    with Progress("images", total) as progress:
        while not told:
            count = read_by(server)
            progress.add((count if total is None else min(count, total)) - progress.count)
            bell.wait(STEP)
