"""Named pipes instead of a run's images, by which it is seen which of them the program has open at one moment."""
import errno
import os
import time

# how long a run may take to open what it should, and how long to open what it should not
MOST, MORE = 5, 0.05


def opened(path):
    """The writing end of a pipe, where the program has opened it to read; else none."""
    try:
        return os.open(path, os.O_WRONLY | os.O_NONBLOCK)
    except OSError as why:
        if why.errno != errno.ENXIO:
            raise
        return None


def opened_of(paths, ends):
    """Adds the ends of those pipes that the program has opened."""
    for name, path in paths.items():
        if name not in ends:
            end = opened(path)
            if end is not None:
                ends[name] = end


def told_of_opened(wanted, given, room):
    """Lets the program read pipes, by their names with what each gives: those that it has open at one moment all at once.
    What is not as it must be: each list of `wanted` names those that are open at one moment."""
    left = {name: os.path.join(room, name) for name in given}
    for names in wanted:
        ends, end_of_waiting = {}, time.monotonic() + MOST
        while not {*names} <= {*ends} and time.monotonic() < end_of_waiting:
            opened_of(left, ends)
            time.sleep(0.001)
        time.sleep(MORE)
        opened_of(left, ends)
        for name, end in ends.items():
            os.write(end, given[name])
            os.close(end)
            del left[name]
        if {*names} != {*ends}:
            return ["opened at one moment: wanted %s, got %s" % (" ".join(sorted(names)), " ".join(sorted(ends)))]
    return ["never opened: %s" % " ".join(sorted(left))] if left else []
