"""Installs strata into fresh roots and uses it there as its users do: python3 checks installed PROGRAM [CHECK..]

Each check is a function of a root (checks/installed/roots.py) that gives its line back, or raises Failed; what is missing
here for one is said in its line. Expected values are of the images that went in, of mount(8)'s and fstab's own pages, and of
the formats' magic numbers. It needs root, namespaces, an overlay and /dev/fuse; without them a line says that all is left out.
The status is 0 where no check fails.
"""
import os
import signal
import sys
import tempfile

from checks.installed import commands, faults, mounts, packages, pages, programs, strangers, traces
from checks.installed.roots import apart

CHECKS = (
    programs.named, programs.early, pages.shown, pages.linked, pages.options, pages.narrow, pages.shells, pages.words_of_fstab,
    pages.faults, packages.same_bytes, packages.service, packages.uninstalled, packages.unbuilt, commands.in_reference)
# those that mount
MOUNTING = (
    programs.alone, programs.lean, programs.links, mounts.typed, mounts.by_fstab, mounts.words, mounts.colons, mounts.stored,
    mounts.faked, mounts.podman_by_user, mounts.in_namespace, mounts.by_user, mounts.for_others,
    mounts.dead, mounts.units, traces.debug, traces.stats, traces.progress, faults.images, faults.not_permitted, faults.device,
    faults.kinds, faults.rules, faults.dashes, *strangers.CHECKS, packages.package, packages.beside, packages.archive,
    commands.mounting, commands.readme)


def main(program, wanted):
    # a program leaves SIGINT ignored where it was, as in the background of a script, and is sent one here
    signal.signal(signal.SIGINT, signal.default_int_handler)
    passed = failed = 0
    with tempfile.TemporaryDirectory(prefix="installed-") as scratch:
        no_root = apart(lambda root: "", program, scratch)
        if no_root:
            print("installed: %s" % no_root)
            return not no_root.startswith("FAILED")
        no_mounts = apart(mounts.tried, program, scratch)
        if no_mounts:
            print("installed: all that mounts is %s" % no_mounts)
        for check in [it for it in CHECKS + MOUNTING * (not no_mounts) if it.__name__ in wanted or not wanted]:
            told = apart(check, program, scratch)
            print("%-14s %s" % (check.__name__, told), flush=True)
            failed += told.startswith("FAILED")
            passed += not told.startswith(("FAILED", "left out"))
    print("installed: %d passed, %d failed" % (passed, failed))
    return failed == 0


if __name__ == "__main__":
    sys.exit(0 if main(os.path.abspath(sys.argv[1]), sys.argv[2:]) else 1)
