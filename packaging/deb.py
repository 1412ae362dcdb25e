"""Makes Debian packages of what is installed, by dpkg-deb: packaging/deb.py PROGRAM FOLDER

The same commit and program give the same bytes: every file bears the commit's time, and archives are packed in order.
"""
import email.utils
import gzip
import hashlib
import os
import re
import subprocess
import sys
import tempfile

import files
import install

PYTHON = "/usr/bin/python3"
MAN, LICENCES = "share/man/", files.DOCUMENTS + "/LICENSE"
MAINTAINER = "strata maintainers <maintainers@users.noreply.dittanystair.example>"
CONTROL = """\
Package: strata
Version: {version}
Architecture: {architecture}
Maintainer: {maintainer}
Installed-Size: {size}
Depends: python3 (>= 3.9), libc6 (>= {libc})
Recommends: fuse3
Suggests: skopeo, genromfs, zstd
Section: utils
Priority: optional
Description: read-only file trees, stacked of romfs images, by FUSE
 strata checks romfs images, lays them one on another by the whiteout rules
 of container layers, and mounts what they show together. That every reply
 is the right one is proved. strata-layers makes an image of each layer of
 a container image, and mount.strata mounts by /etc/fstab.
"""
SNAPSHOTTER_CONTROL = """\
Package: strata-snapshotter
Version: {version}
Architecture: all
Maintainer: {maintainer}
Installed-Size: {size}
Depends: strata (= {version}), python3 (>= 3.9), python3-grpcio, python3-protobuf
Recommends: containerd
Section: admin
Priority: optional
Description: container layers as romfs images, for containerd
 strata-snapshotter is a proxy snapshotter of containerd. It makes a romfs
 image of each layer once, and all containers on the same layers share one
 mount of strata.
"""
# dpkg runs these: modules are compiled for the Python of the machine, and what was compiled goes with the package
POSTINST = """\
#!/bin/sh
set -e
if [ "$1" = configure ] && command -v py3compile > /dev/null; then
    py3compile -p strata /usr/lib/strata
fi
"""
PRERM = """\
#!/bin/sh
set -e
if command -v py3clean > /dev/null; then
    py3clean -p strata
else
    find /usr/lib/strata -name __pycache__ -prune -exec rm -r {} +
fi
"""
# the service that runs goes on with the new files; its socket, containers and their mounts stay
SNAPSHOTTER_POSTINST = """\
#!/bin/sh
set -e
if [ "$1" = configure ] && [ -n "$2" ] && [ -d /run/systemd/system ]; then
    systemctl --system daemon-reload > /dev/null || true
    deb-systemd-invoke restart strata-snapshotter.service > /dev/null || true
fi
"""
# containers keep the mounts below their roots, and each server ends with the last one; nothing would unmount these later
SNAPSHOTTER_PRERM = """\
#!/bin/sh
set -e
if [ "$1" = remove ]; then
    if [ -d /run/systemd/system ]; then
        deb-systemd-invoke stop strata-snapshotter.service strata-snapshotter.socket > /dev/null || true
    fi
    for place in /var/lib/strata-snapshotter/mounts/*; do
        umount "$place" 2> /dev/null || true
    done
fi
"""
# the links are those of `systemctl enable`, which lead to nothing once the package is removed
SNAPSHOTTER_POSTRM = """\
#!/bin/sh
set -e
if [ "$1" = remove ]; then
    for target in multi-user.target.wants/strata-snapshotter.service sockets.target.wants/strata-snapshotter.socket; do
        rm -f "/etc/systemd/system/$target"
    done
    if [ -d /run/systemd/system ]; then
        systemctl --system daemon-reload > /dev/null || true
    fi
fi
"""
# py3compile's own, at an upgrade of python3
RTUPDATE = """\
#!/bin/sh
set -e
if [ "$1" = rtupdate ]; then
    py3clean -p strata
    py3compile -p strata /usr/lib/strata
fi
"""
COPYRIGHT = """\
Format: https://www.debian.org/doc/packaging-manuals/copyright-format/1.0/
Upstream-Name: strata

Files: *
Copyright: {year} the maintainers of strata
License: MIT or Apache-2.0

License: MIT
{mit}

License: Apache-2.0
 On Debian systems the whole text is in /usr/share/common-licenses/Apache-2.0.
"""
# what lintian finds and need not be mended, with why
OVERRIDES = {
    "strata": "# not compiled from C; that it is safe with memory is proved\nstrata: hardening-no-fortify-functions\n",
    "strata-snapshotter": "# containerd calls it by systemd's socket\n"
                          "strata-snapshotter: package-supports-alternative-init-but-no-init.d-script\n",
}
CHANGELOG = """\
{package} ({version}) unstable; urgency=medium

  * The package of this version, made by its own `make deb`.

 -- {maintainer}  {date}
"""


def packed(data, moment):
    return gzip.compress(data, 9, mtime=moment)


def gzipped(entry):
    """A man page, or a link to one, as packages have it."""
    if entry.link is not None:
        return entry._replace(link=entry.link + ".gz")
    return entry._replace(data=packed(entry.data, 0))


def stripped(program):
    """The bytes of the program without its table of symbols, as packages have it."""
    with tempfile.NamedTemporaryFile() as out:
        subprocess.run(["strip", "--strip-unneeded", "-R", ".comment", "-R", ".note", "-o", out.name, program], check=True)
        with open(out.name, "rb") as it:
            return it.read()


def packed_place(path):
    """Where a package has what is installed at a path. Pages stay as they are, so that their links lead somewhere."""
    if path.startswith(LICENCES):
        return said_place("strata")
    if path.startswith(MAN):
        return path + ".gz"
    return path.replace("share/zsh/site-functions/", "share/zsh/vendor-completions/")


def packaged(entries):
    """What is installed, as Debian has it: the file of copyright has the licences."""
    for entry in entries:
        if not entry.path.startswith(LICENCES):
            entry = gzipped(entry) if entry.path.startswith(MAN) else entry
            yield entry._replace(path=packed_place(entry.path))


def said_place(package):
    return "share/doc/%s/copyright" % package


def said_of(package, moment):
    """The entries that say of a package who made it, and when, and what lintian may find."""
    log = CHANGELOG.format(package=package, version=files.version(), maintainer=MAINTAINER,
                           date=email.utils.formatdate(moment, False))
    year = email.utils.formatdate(moment).split()[3]
    text = COPYRIGHT.format(year=year, mit=mit_text())
    return [files.Entry("share/lintian/overrides/" + package, 0o644, OVERRIDES[package].encode()),
            files.Entry(said_place(package), 0o644, text.encode()),
            files.Entry("share/doc/%s/changelog.gz" % package, 0o644, packed(log.encode(), 0))]


def main_entries(program):
    for entry in files.entries(program, PYTHON, is_compiled=False, packed_place=packed_place):
        yield entry._replace(data=stripped(program)) if entry.path == "bin/strata" else entry
    yield files.Entry("share/python3/runtime.d/strata.rtupdate", 0o755, RTUPDATE.encode())


def mit_text():
    """The licence of that name, as a field of the copyright file has it."""
    with open(os.path.join(files.ROOT, "LICENSE-MIT"), encoding="ascii") as file:
        lines = file.read().split("\n\n", 2)[2].splitlines()
    return "\n".join(" " + (line or ".") for line in lines)


def libc_of(program):
    """The least version of the C library that a program asks for."""
    with open(program, "rb") as it:
        found = re.findall(rb"GLIBC_(\d+)\.(\d+)", it.read())
    return "%d.%d" % max((int(major), int(minor)) for major, minor in found)


def architecture():
    return subprocess.run(["dpkg", "--print-architecture"], check=True, stdout=subprocess.PIPE, text=True).stdout.strip()


def control(text, found, scripts=(), **more):
    """What dpkg must know about the package, as files of its own folder, with the scripts that it runs."""
    size = sum(-(-len(entry.data or b"") // 1024) for entry in found) + len(files.folders(found))
    text = text.format(version=files.version(), maintainer=MAINTAINER, size=size, **more)
    sums = "".join("%s  usr/%s\n" % (hashlib.md5(entry.data).hexdigest(), entry.path) for entry in found if entry.link is None)
    runs = [files.Entry("DEBIAN/" + name, 0o755, script.encode()) for name, script in scripts]
    return [files.Entry("DEBIAN/control", 0o644, text.encode()), files.Entry("DEBIAN/md5sums", 0o644, sums.encode()), *runs]


def write(path, said, found, moment):
    """Writes a package of what is said of it and what is installed; its path."""
    with tempfile.TemporaryDirectory(prefix="strata-deb-") as top:
        os.chmod(top, 0o755)
        usr = [entry._replace(path="usr/" + entry.path) for entry in found]
        every = [*said, *usr]
        for below in files.folders(every):
            install.make_folder(os.path.join(top, below))
        for entry in every:
            install.write(os.path.join(top, entry.path), entry)
        subprocess.run(["dpkg-deb", "--root-owner-group", "-Zxz", "-z6", "--build", top, path], check=True,
                       stdout=subprocess.DEVNULL, env={**os.environ, "SOURCE_DATE_EPOCH": str(moment), "XZ_DEFAULTS": "-T1"})
    return path


def build(program, folder):
    """Makes the packages; their paths."""
    files.hold_built(program)
    moment, version, machine = files.moment(), files.version(), architecture()
    found = sorted([*packaged(main_entries(program)), *said_of("strata", moment)])
    scripts = (("postinst", POSTINST), ("prerm", PRERM))
    said = control(CONTROL, found, scripts, architecture=machine, libc=libc_of(program))
    yield write(os.path.join(folder, "strata_%s_%s.deb" % (version, machine)), said, found, moment)
    found = sorted([*packaged(files.snapshotter_entries(PYTHON)), *said_of("strata-snapshotter", moment)])
    scripts = (("postinst", SNAPSHOTTER_POSTINST), ("prerm", SNAPSHOTTER_PRERM), ("postrm", SNAPSHOTTER_POSTRM))
    said = control(SNAPSHOTTER_CONTROL, found, scripts)
    yield write(os.path.join(folder, "strata-snapshotter_%s_all.deb" % version), said, found, moment)


if __name__ == "__main__":
    for made in build(*sys.argv[1:]):
        print(made)
