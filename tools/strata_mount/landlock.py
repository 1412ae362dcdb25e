"""Which files a server can open at all: its images, their trees, and what a program starts with.

It is Landlock's (linux/landlock.h, Linux 5.13 and later): a process that holds itself to such
rules, and what it becomes, opens nothing else, under any user. A kernel without it holds
nobody to anything.
"""
import os
import struct

from strata_format.system import c_ulong, called, libc
from strata_mount.preconditions import OPENED, libraries

CREATE_RULESET, ADD_RULE, RESTRICT_SELF = 444, 445, 446
# rights to files of the first version: the others write, make, remove, or list
EXECUTE, READ_FILE, EVERY = 1 << 0, 1 << 2, (1 << 13) - 1
PATH_BENEATH = 1
# where libraries lie, besides those folders from which this process has its own
LIBRARIES = ("/lib", "/lib64", "/usr/lib", "/usr/lib64", "/usr/local/lib")


def call(number, *words):
    """The result of a call of the kernel; OSError where it fails."""
    found = libc.syscall(c_ulong(number), *words)
    called(min(found, 0))
    return found


class Ruleset:
    """Rules that hold nobody yet. A file that is not there needs none."""

    def __init__(self):
        rights = struct.pack("=Q", EVERY)
        self.number = call(CREATE_RULESET, rights, c_ulong(len(rights)), c_ulong(0))

    def allow(self, path, rights):
        """Allows rights to a file, or to all below a folder."""
        try:
            number = os.open(path, os.O_PATH | os.O_CLOEXEC)
        except OSError:
            return
        try:
            rule = struct.pack("=Qi", rights, number)
            call(ADD_RULE, c_ulong(self.number), c_ulong(PATH_BENEATH), rule, c_ulong(0))
        finally:
            os.close(number)

    def hold_self(self):
        """Holds this process to the rules, which must not gain privileges any more."""
        call(RESTRICT_SELF, c_ulong(self.number), c_ulong(0))
        os.close(self.number)


def folders_of_libraries(program):
    """Where a program may have its libraries."""
    said = os.environ.get("LD_LIBRARY_PATH", "").split(":")
    beside = os.path.join(os.path.dirname(os.path.dirname(os.path.realpath(program))), "lib")
    return {*LIBRARIES, beside, *map(os.path.dirname, libraries()), *filter(os.path.isabs, said)}


def rules_for(program, files):
    """The rules for a program with these files; None where the kernel has none, or none for a
    file system on which one of them lies."""
    try:
        found = Ruleset()
        found.allow(program, EXECUTE | READ_FILE)
        for path in folders_of_libraries(program):
            found.allow(path, EXECUTE | READ_FILE)
        for path in (*files, *OPENED):
            if not os.path.isdir(path):
                found.allow(path, READ_FILE)
        return found
    except OSError:
        return None
