"""A control group of processor time, of version 1: what runs of a check are measured by."""
import contextlib
import os

GROUPS = "/sys/fs/cgroup/cpuacct"


def group_of(folder):
    """The control group of a machine's folder (version 1)."""
    return os.path.join(GROUPS, os.path.basename(folder))


def enter_group(folder):
    """Puts all that is started from now on into a control group of its own, if there are those of
    processor time. Containers of ctr are in groups below it."""
    with contextlib.suppress(OSError):
        os.mkdir(group_of(folder))
        with open(group_of(folder) + "/cgroup.procs", "w", encoding="ascii") as out:
            out.write("0")


def remove_group(folder):
    with contextlib.suppress(OSError):
        os.rmdir(group_of(folder))


def processor_time(folder):
    """The processor time of what is in the control group, in seconds; None where that is not
    known."""
    with contextlib.suppress(OSError), \
            open(group_of(folder) + "/cpuacct.usage", encoding="ascii") as file:
        return int(file.read()) / 10 ** 9
    return None
