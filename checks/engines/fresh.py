"""Follows docs/CONTAINERD.md as printed on a fresh Debian 12: python3 checks fresh PROGRAM [ROOT]

The packages are built of PROGRAM, a Debian is made by debootstrap (or copied from ROOT, which has
systemd), and booted by systemd-nspawn with systemd as process 1. There it runs the commands of the
page, restarts and kills what the page says may be, and runs what docs/ENGINES.md says of services
and system extensions. It needs root, the network of Debian's packages, debootstrap and
systemd-container. Since Docker's registry may be out of reach, the image that is pulled on the page
is imported.
"""
import os
import re
import shutil
import subprocess
import sys
import tempfile

from checks import ROOT
from checks.engines import images
from checks.registry import made
from checks.shared.mounting import SLOWER

SECONDS = 600 * SLOWER
PAGE, OTHERS = ROOT + "/docs/CONTAINERD.md", ROOT + "/docs/ENGINES.md"
BLOCK = re.compile(r"^## ([^\n]+)\n(.*?)(?=^## |\Z)", re.M | re.S)
CODE = re.compile(r"^```(sh|toml)\n(.*?)^```", re.M | re.S)
IMAGE = "docker.io/library/busybox:1.36"
PULL = "ctr images pull"
UNIT = """
[Unit]
Wants=network.target
[Service]
Type=oneshot
WorkingDirectory=/root
Environment=HOME=/root DEBIAN_FRONTEND=noninteractive
ExecStart=/bin/bash -x /root/page.sh
StandardOutput=file:/root/said
StandardError=inherit
ExecStopPost=/bin/sh -c 'echo $EXIT_STATUS > /root/status; systemctl --no-block poweroff'
[Install]
WantedBy=multi-user.target
"""
# systemd-nspawn gives control groups to read alone, which no machine does
BEFORE = """
set -e
for it in /sys/fs/cgroup/*/; do mount -o remount,rw,bind "$it" || true; done
"""
# behind the page's own commands; `exec` reads what the image has and what the container wrote
MORE = """
set -e
ctr snapshots --snapshotter strata ls
sleep 1
ctr run -d --snapshotter strata %(image)s long sh -c 'echo own > /etc/own; sleep 1000000'
works() { ctr task exec --exec-id "$1" long sh -c 'grep below /etc/issue && grep own /etc/own'; }
nothing() { if "$@" | grep .; then return 1; fi; }
sleep 1
findmnt -t fuse.strata
pgrep -a strata
journalctl --no-pager -n 3 -u strata-snapshotter
du -sh /var/lib/strata-snapshotter/snapshots/*
strata-layers convert --tar --compress gzip image:1 app-strata:1
works before
systemctl restart strata-snapshotter
works restarted
ctr run --rm --snapshotter strata %(image)s second true
systemctl kill -s KILL --kill-whom=main strata-snapshotter
works killed
until ctr run --rm --snapshotter strata %(image)s third true; do sleep 1; done
systemctl restart containerd
works containerd
ctr task kill -s KILL long; sleep 1
ctr task rm long || true
ctr container rm long
ctr images rm --sync %(image)s
sleep 2
nothing findmnt -t fuse.strata
nothing ls /var/lib/strata-snapshotter/snapshots
strata-layers pull oci:/root/image:1 app:1
strata-mount --background -o allow_other,suid,dev image:app:1 /mnt
systemd-run -q --wait --pipe -p RootDirectory=/mnt -p MountAPIVFS=yes /bin/cat /etc/issue
umount /mnt
%(extension)s
test -e /usr/large -a -e /usr/bin/strata
systemd-sysext unmerge
umount /run/extensions/app
test ! -e /usr/large
echo %(end)s
"""
END = "END OF THE PAGE"
# so many lines of one that failed are shown
LINES = 60
CONFIGURED = """
grep '^version = 2$' /etc/containerd/config.toml
cat >> /etc/containerd/config.toml <<'EOF'
%sEOF
"""
# the line of the page's file that Debian's own has, too
VERSION = "version = 2\n"
# what makes an image a system extension
RELEASE = "usr/lib/extension-release.d/extension-release.app"


def blocks(page):
    """The commands and files of a page, by its sections."""
    with open(page, encoding="utf-8") as file:
        return {title: CODE.findall(text) for title, text in BLOCK.findall(file.read())}


def script():
    """What is run: the page's blocks in order."""
    found, parts = blocks(PAGE), [BEFORE]
    for title in ("Install", "Configure", "Run"):
        for kind, text in found[title]:
            if kind == "toml":
                text = CONFIGURED % text.replace(VERSION, "", 1)
            parts += lines_for(text)
    (_, extension), = blocks(OTHERS)["System extensions"]
    return "\n".join([*parts, MORE % {"image": IMAGE, "extension": extension, "end": END}])


def lines_for(text):
    """Lines of the page as a machine without a terminal and Docker's registry runs them."""
    for line in text.splitlines():
        if line.startswith(PULL):
            line = "ctr images import --snapshotter strata /root/image.tar"
        elif " run --rm -t " in line:
            line = "echo 'cat /etc/issue; exit' | script -qec '%s' /dev/null" % line
        yield line


def made_root(folder, given):
    """A fresh Debian in a folder."""
    root = folder + "/root"
    if given is not None:
        subprocess.run(["cp", "-a", given, root], check=True)
    else:
        words = ["debootstrap", "--include=systemd,systemd-sysv,dbus,ca-certificates,procps",
                 "bookworm", root, "http://deb.debian.org/debian"]
        subprocess.run(words, check=True, stdout=subprocess.DEVNULL)
    return root


def put(path, text):
    os.makedirs(os.path.dirname(path), exist_ok=True)
    with open(path, "w", encoding="utf-8") as out:
        out.write(text)


def fill(root, program):
    """Puts the packages, the image and the script into a Debian."""
    subprocess.run([sys.executable, "-B", ROOT + "/packaging/deb.py", program, root + "/root"],
                   check=True, stdout=subprocess.DEVNULL)
    release = made.archive(images.entry(RELEASE, b"ID=debian\nVERSION_ID=12\n"))
    images.Image(root + "/root/image", IMAGE, [*images.layers(), release])
    put(root + "/etc/apt/apt.conf.d/90yes", 'APT::Get::Assume-Yes "true";\n')
    put(root + "/root/page.sh", script())
    put(root + "/etc/systemd/system/page.service", UNIT)
    wanted = root + "/etc/systemd/system/multi-user.target.wants"
    os.makedirs(wanted, exist_ok=True)
    os.symlink("../page.service", wanted + "/page.service")


def boot(root):
    """Boots it, and waits until it powers off; the lines that the script printed."""
    words = ["systemd-nspawn", "-q", "-b", "--register=no", "--keep-unit", "--capability=all",
             "--bind=/dev/fuse", "--system-call-filter=@keyring bpf", "-D", root]
    with open(root + "/../console", "wb") as out:
        subprocess.run(words, stdin=subprocess.DEVNULL, stdout=out, stderr=out, timeout=SECONDS,
                       check=False)
    try:
        with open(root + "/root/said", encoding="utf-8", errors="replace") as lines:
            return lines.read().splitlines()
    except FileNotFoundError:
        return ["the page was not run"]


def main(words):
    folder = tempfile.mkdtemp(prefix="fresh-")
    try:
        root = made_root(folder, words[1] if len(words) > 1 else None)
        fill(root, os.path.abspath(words[0]))
        lines = boot(root)
        if lines[-1:] == [END]:
            print("fresh: the page runs as printed")
            return True
        print("\n".join(lines[-LINES:] + ["fresh: FAILED"]))
        return False
    finally:
        shutil.rmtree(folder, ignore_errors=True)


if __name__ == "__main__":
    sys.exit(0 if main(sys.argv[1:]) else 1)
