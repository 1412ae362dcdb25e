"""Runs the checks of mounts under another Linux kernel, in a machine made for it: python3 checks under_kernel WORDS..

    python3 checks under_kernel PROGRAM KERNEL FOLDER [--readers N] [--slower N] [--processors N] [--user] [CHECK..]

KERNEL is the kernel's package, as STRATA_KERNEL names it (checks/shared/other_kernel.py). FOLDER holds a Debian, of which a
disk is made, or is such a disk already; what is written to it is lost at the end:

    debootstrap --variant=minbase --include=fuse3,git,python3,attr,acl,libcap2-bin,iputils-ping,rsync bookworm FOLDER

The machine boots from it and runs `checks mounted`, as root or as a user, with so many readers for each mount. Each check may
take so many times as long as here, since emulated processors are slow. Its lines are passed on as they come, and after them
what the kernel had to say meanwhile. The status is 0 where no check fails. It takes mke2fs and tar, too.
"""
import argparse
import os
import subprocess
import sys
import tempfile

from checks import ROOT
from checks.shared.other_kernel import END, Unfinished, lines_in, missing_programs

MEMORY, SECONDS = 2048, 4 * 3600
# of the disk, whose file is sparse
SIZE = 4 << 30
# what the disk, its root and the mounts take; ext4 needs a sum that it does not name
MODULES = ("virtio_pci", "virtio_blk", "crc32c_generic", "ext4", "fuse", "overlay")
SCRIPT = """
mkdir /disk
for it in /dev/vda /dev/ubda; do [ -b $it ] && mount -t ext4 $it /disk; done
mkdir /disk/strata
tar -x -C /disk/strata -f /checks.tar
cp /bin/busybox /program /start /disk/strata
for it in dev proc; do mount --move /$it /disk/$it; done
exec switch_root /disk /bin/sh /strata/start
"""
START = """
export PATH=/usr/sbin:/usr/bin:/sbin:/bin HOME=/root STRATA_READERS=%d STRATA_SLOWER=%d
mount -t sysfs sys /sys
mkdir /dev/shm /dev/pts
mount -t tmpfs tmpfs /dev/shm
mount -t devpts devpts /dev/pts
chmod 666 /dev/fuse
[ -e /etc/mtab ] || ln -s ../proc/self/mounts /etc/mtab
cd /strata
./busybox ifconfig lo 127.0.0.1
uname -r
dmesg -C
%s
echo status $?
dmesg --color=never -l emerg,alert,crit,err,warn
echo %s
./busybox poweroff -f
"""
AS_USER = "setpriv --reuid 1000 --regid 1000 --clear-groups "


def disk_of(root, disk):
    """The path of a disk with what a folder holds, if that is no disk already."""
    if not os.path.isdir(root):
        return root
    with open(disk, "wb") as out:
        out.truncate(SIZE)
    subprocess.run(["mke2fs", "-q", "-F", "-t", "ext4", "-d", root, disk], check=True)
    return disk


def lines_under(folder, asked, command):
    """What a command in the machine prints, line by line."""
    packed, start, place = (os.path.join(folder, name) for name in ("checks.tar", "start", "machine"))
    disk = disk_of(asked.folder, os.path.join(folder, "disk.ext4"))
    subprocess.run(["tar", "-c", "--owner=0", "--group=0", "-f", packed, "-C", ROOT, "checks", "tools"], check=True)
    with open(start, "w", encoding="utf-8") as out:
        out.write(START % (asked.readers, asked.slower, (AS_USER if asked.user else "") + command, END))
    os.mkdir(place)
    files = {"checks.tar": packed, "start": start, "program": asked.program}
    yield from lines_in(place, asked.kernel, MODULES, files, SCRIPT, disk, asked.processors, MEMORY, SECONDS)


def main():
    parser = argparse.ArgumentParser(prog="checks under_kernel", description="Runs the checks of mounts under another kernel.")
    parser.add_argument("program", metavar="PROGRAM")
    parser.add_argument("kernel", metavar="KERNEL", help="its package, or two with a comma between")
    parser.add_argument("folder", metavar="FOLDER", help="a Debian")
    parser.add_argument("checks", metavar="CHECK", nargs="*")
    parser.add_argument("--readers", metavar="N", type=int, default=1)
    parser.add_argument("--slower", metavar="N", type=int, default=30)
    parser.add_argument("--processors", metavar="N", type=int, default=2)
    parser.add_argument("--user", action="store_true", help="by an unprivileged user")
    asked = parser.parse_intermixed_args()
    missing = missing_programs(asked.kernel, "mke2fs", "tar")
    if missing:
        print("under_kernel: %s" % missing)
        return 1
    status = None
    with tempfile.TemporaryDirectory(prefix="under-") as folder:
        try:
            for line in lines_under(folder, asked, "python3 -B checks mounted ./program " + " ".join(asked.checks)):
                print(line, flush=True)
                status = line if line.startswith("status ") else status
        except Unfinished as fault:
            print("under_kernel: %s" % fault)
    return 0 if status == "status 0" else 1


if __name__ == "__main__":
    sys.exit(main())
