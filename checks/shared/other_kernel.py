"""Another Linux kernel than this machine's, in a machine that qemu emulates, or as a process, in user-mode Linux.

STRATA_KERNEL names its package, as `apt-get download linux-image-6.1.0-56-amd64` fetches it from Debian; where Debian has a
kernel in two, linux-binary and linux-modules, both stand there, with a comma between. Debian's user-mode-linux is such a
package, too: one processor, without qemu, and ten times as fast. Instead of packages a folder may be named into which they
were unpacked. It takes qemu-system-x86_64 but for user-mode Linux, dpkg-deb, cpio and a busybox that is linked statically
(Debian's busybox-static).
"""
import lzma
import os
import re
import shutil
import subprocess
import threading

PACKAGES = os.environ.get("STRATA_KERNEL")
PROGRAMS = ("cpio", "busybox")
# what the machine has of memory, in MiB, and for how many seconds it may run
MEMORY, SECONDS = 512, 300
# the processor that is emulated: without what makes it slow here, copies byte by byte and guards against spying. On a busy
# machine a kernel that checks its timer finds that none works
PROCESSOR, KERNEL_WORDS = "max,erms=off,smap=off", "console=ttyS0 panic=-1 mitigations=off no_timer_check"
USER_MODE = "linux.uml"
BEGIN, END = "-- begin", "-- end"
INIT = """#!/bin/busybox sh
/bin/busybox --install -s /bin
mount -t devtmpfs dev /dev
mount -t proc proc /proc
dmesg -n 1
for it in %s; do insmod /modules/$it; done
echo %s
. /script
echo %s
poweroff -f
"""


class Unfinished(Exception):
    """A machine that ended before its script did."""


def what_is_missing():
    """What stands in the way of running one, in a line, or None."""
    return missing_programs(PACKAGES) if PACKAGES else "STRATA_KERNEL names no package of a kernel"


def missing_programs(packages, *more):
    """The same of programs: those that a machine with this kernel takes, and some more."""
    is_folder = os.path.isdir(packages)
    is_user_mode = os.path.basename(packages).startswith("user-mode-linux") or is_folder and USER_MODE in names_in(packages)
    wanted = (*PROGRAMS, *["dpkg-deb"] * (not is_folder), *["qemu-system-x86_64"] * (not is_user_mode), *more)
    missing = [name for name in wanted if shutil.which(name) is None]
    return "there is no %s" % ", ".join(missing) if missing else None


def names_in(folder):
    """The names of all files below a folder."""
    return {name for _, _, names in os.walk(folder) for name in names}


# --- what packages hold ---

def unpacked(packages, folder):
    """The kernel and the modules of packages, which are unpacked into a folder, or stand in one already: a path, and paths by
    the modules' names."""
    if os.path.isdir(packages):
        folder = packages
    else:
        for package in packages.split(","):
            subprocess.run(["dpkg-deb", "-x", package, folder], check=True)
    kernels, modules = [], {}
    for place, _, names in os.walk(folder):
        kernels += [os.path.join(place, name) for name in names if name.startswith("vmlinuz") or name == USER_MODE]
        modules.update((it.partition(".ko")[0].replace("-", "_"), os.path.join(place, it)) for it in names if ".ko" in it)
    return kernels[0], modules


def with_needed(modules, names, found=None):
    """The bytes of modules and of those that they need, by their names, in the order in which a kernel takes them. What is no
    module there a kernel has without, or not at all."""
    found = {} if found is None else found
    for name in names:
        if name in modules and name not in found:
            opened = lzma.open if modules[name].endswith(".xz") else open
            with opened(modules[name], "rb") as it:
                data = it.read()
            needed = re.search(rb"\0depends=([^\0]*)", data)[1].decode().replace("-", "_")
            with_needed(modules, needed.split(","), found)
            found[name] = data
    return found


# --- the machine ---

def run_in(folder, modules, files, script):
    """The lines that a script prints in such a machine, which has these files at its root, by their names there, and
    into whose kernel these modules were put. What it takes is laid into an empty folder."""
    return list(lines_in(folder, PACKAGES, modules, files, script))


def lines_in(folder, packages, modules, files, script, disk=None, processors=1, memory=MEMORY, seconds=SECONDS):
    """The same, line by line as they come, under the kernel of these packages, in a machine with these parts. What is written
    to its disk is lost at the end."""
    root = folder + "/root"
    kernel, found = unpacked(packages, folder + "/kernel")
    found = with_needed(found, modules)
    for name in ("bin", "dev", "proc", "modules"):
        os.makedirs(root + "/" + name)
    shutil.copy(shutil.which("busybox"), root + "/bin/busybox")
    for name, data in found.items():
        with open("%s/modules/%s" % (root, name), "wb") as out:
            out.write(data)
    for name, path in files.items():
        shutil.copy(path, root + "/" + name)
    for name, text in (("init", INIT % (" ".join(found), BEGIN, END)), ("script", script)):
        with open(root + "/" + name, "w", encoding="utf-8") as out:
            out.write(text)
    os.chmod(root + "/init", 0o755)
    subprocess.run("find . | cpio -o -H newc --quiet > ../disk", shell=True, cwd=root, check=True)
    return lines_of(words_of(kernel, folder, disk, processors, memory), seconds)


def words_of(kernel, folder, disk, processors, memory):
    """How a machine is started."""
    start = folder + "/disk"
    if os.path.basename(kernel) == USER_MODE:
        disks = ["ubd0=%s/written,%s" % (folder, disk)] * (disk is not None)
        return ["env", "TMPDIR=/dev/shm", kernel, "mem=%dM" % memory, "initrd=" + start, "uml_dir=" + folder, "panic=-1",
                "quiet", "con=null", "con0=null,fd:1", "ssl=null", *disks]
    disks = ["-drive", "file=%s,format=raw,if=virtio,snapshot=on" % disk] * (disk is not None)
    return ["qemu-system-x86_64", "-accel", "tcg", "-cpu", PROCESSOR, "-smp", str(processors), "-m", str(memory), "-nographic",
            "-no-reboot", "-nic", "none", "-kernel", kernel, "-initrd", start, "-append", KERNEL_WORDS, *disks]


def lines_of(words, seconds):
    """What a machine's script prints, line by line; the machine ends by itself, or after so many seconds."""
    machine = subprocess.Popen(words, stdin=subprocess.DEVNULL, stdout=subprocess.PIPE, text=True, errors="replace")
    patience = threading.Timer(seconds, machine.kill)
    patience.start()
    try:
        lines = (line.rstrip("\r\n") for line in machine.stdout)
        last = ""
        for last in lines:
            if last == BEGIN:
                break
        for last in lines:
            if last == END:
                break
            yield last
        machine.wait()
    finally:
        patience.cancel()
        machine.kill()
        machine.wait()
    if last != END:
        raise Unfinished("the machine ended with %d; its last line: %r" % (machine.returncode, last))
