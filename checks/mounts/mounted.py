"""Mounts stacks with the built program and looks at them through the kernel: python3 checks mounted PROGRAM [CHECK..]

What is seen is held against what went into the images, or against the plain reading of stacks. Each check runs in a
process and a mount namespace of its own and says in a line what it saw, or what is missing here for it. Unprivileged
users mount in a user namespace. A check is a function of a room (checks/shared/mounting.py) that gives its line back, or raises Failed.

`system` looks at the system's own files, or at the tree that STRATA_TREE in the environment names, as debootstrap makes one.

It needs /dev/fuse and a namespace in which it may be mounted; without them a line says that all is left out. The status is 0
where no check fails.
"""
import os
import signal
import sys
import tempfile

from checks.mounts import mounted_attributes
from checks.mounts import mounted_ends as ends
from checks.mounts import mounted_files
from checks.mounts import mounted_readers as several
from checks.mounts import mounted_sealed
from checks.mounts import mounted_sharing
from checks.mounts import mounted_trees as trees
from checks.mounts import mounted_xattrs
from checks.shared.mounting import Room, adopt, apart, try_mount

CHECKS = (trees.tree, trees.whiteouts, trees.directory, trees.reads, trees.mapped, trees.many, trees.names, trees.writes,
          trees.silent, ends.again, ends.killed, ends.aborted, ends.lazily, ends.waiting, ends.refused, ends.shared, ends.helped,
          several.readers, several.busy, *mounted_sharing.CHECKS, *mounted_files.CHECKS, *mounted_attributes.CHECKS,
          *mounted_xattrs.CHECKS, *mounted_sealed.CHECKS)


def told_of(check, program, scratch):
    """The line of a check. Only fusermount3 is of no use in a user namespace."""
    room = Room(program, tempfile.mkdtemp(dir=scratch))
    return apart(lambda: check(room), room.is_root or check is not ends.helped)


def main(program, wanted):
    adopt()
    # mount.py leaves SIGHUP ignored where it was, as under nohup, and is sent one here
    signal.signal(signal.SIGHUP, signal.SIG_DFL)
    passed = failed = 0
    with tempfile.TemporaryDirectory(prefix="mounted-") as scratch:
        os.chmod(scratch, 0o755)
        why = apart(lambda: try_mount(scratch))
        if why != "yes":
            print("mounted: left out: %s" % why.replace("FAILED: ", ""))
            return True
        for check in [it for it in CHECKS if it.__name__ in wanted or not wanted]:
            told = told_of(check, program, scratch)
            print("%-10s %s" % (check.__name__, told), flush=True)
            failed += told.startswith("FAILED")
            passed += not told.startswith(("FAILED", "left out"))
    print("%d passed, %d failed" % (passed, failed))
    return failed == 0 and passed > 0


if __name__ == "__main__":
    sys.exit(0 if main(os.path.abspath(sys.argv[1]), sys.argv[2:]) else 1)
