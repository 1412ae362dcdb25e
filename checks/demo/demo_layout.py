"""Writes the demo's container image, an OCI image layout of three layers: python3 checks demo_layout demo/layout"""
import shutil
import sys

from checks.shared.layer_files import LayoutFolder, archive, character, directory, file, hard, symlink, tag

HELLO = b"#!/bin/sh\necho \"Hello from a container image.\"\n"
TIME = 1700000000
LAYERS = [
    [directory("bin"), file("bin/hello.sh", HELLO, mode=0o755), symlink("bin/greet", "hello.sh"), directory("dev"),
     character("dev/null", 1, 3, mode=0o600), directory("etc"), file("etc/hostname", b"lantern\n"),
     file("etc/motd", b"Welcome to lantern.\n"), hard("etc/issue", "etc/motd"), directory("var"), directory("var/cache"),
     file("var/cache/index.1", b"built for the lowest layer\n")],
    [directory("etc"), file("etc/.wh.motd"), file("etc/hostname", b"beacon\n"), file("srv/www/index.html", b"<p>beacon</p>\n")],
    [directory("var/cache"), file("var/cache/.wh..wh..opq"), file("var/cache/index.2", b"built for the highest layer\n"),
     file("srv/.wh.www")],
]


def main(folder):
    shutil.rmtree(folder, ignore_errors=True)
    parts = LayoutFolder(folder)
    for entries in LAYERS:
        for info, _ in entries:
            info.mtime = TIME
    layers = [parts.layer(archive(entries)) for entries in LAYERS]
    parts.index([parts.manifest(layers, **tag("lantern"))])


main(sys.argv[1])
