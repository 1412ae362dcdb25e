"""Prints what stands below a folder, as JSON: python3 tree.py FOLDER

Of each path the type, whether it may be run, a file's names and its size, device numbers, a
link's target or the digest of a file's bytes, its mode, its owner, and, but of a folder, its time.
"""
import hashlib
import json
import os
import stat
import sys


def shape(path):
    it = os.lstat(path)
    kind, data = stat.S_IFMT(it.st_mode), ""
    if kind == stat.S_IFLNK:
        data = os.readlink(path)
    if kind == stat.S_IFREG:
        with open(path, "rb") as file:
            data = hashlib.sha256(file.read()).hexdigest()
    is_run = kind != stat.S_IFLNK and it.st_mode & 0o111 != 0
    size = 0 if kind == stat.S_IFDIR else it.st_size
    # what unpacks layers changes the time of a folder in which it takes something away
    time = 0 if kind == stat.S_IFDIR else it.st_mtime_ns
    said = [oct(it.st_mode), it.st_uid, it.st_gid, time]
    return [oct(kind), is_run, it.st_nlink if kind == stat.S_IFREG else 0, size, it.st_rdev, data, *said]


def tree(root):
    found = {".": shape(root)}
    for place, folders, files in os.walk(root):
        for name in folders + files:
            path = os.path.join(place, name)
            found[os.path.relpath(path, root)] = shape(path)
    return found


if __name__ == "__main__":
    json.dump(tree(sys.argv[1]), sys.stdout, sort_keys=True)
