"""Layers that are given as images, which is what a stranger says: an archive of one file."""
import itertools
import os
import resource
import stat
import subprocess

from strata_format.refused import Refused
from strata_layers.image_archive import NAME

# so much memory may strata take for one: a stranger names files without end in a few bytes each
MEMORY = 1 << 30


def given_image(folder):
    """The path of the image that an unpacked layer is alone, or None."""
    with os.scandir(folder) as entries:
        names = [it.name for it in itertools.islice(entries, 2)]
    if names != [NAME.decode()]:
        return None
    path = os.path.join(folder, names[0])
    return path if stat.S_ISREG(os.lstat(path).st_mode) else None


def hold_image(program, path):
    """Sees that a file is an image that strata mounts; Refused where it isn't."""
    checking = subprocess.Popen([program, "check", "--attributes", path], stdin=subprocess.DEVNULL,
                                stdout=subprocess.DEVNULL, stderr=subprocess.PIPE)
    resource.prlimit(checking.pid, resource.RLIMIT_AS, (MEMORY, MEMORY))
    said = checking.communicate()[1]
    if checking.returncode != 0:
        why = said.decode(errors="replace").strip().replace(path, NAME.decode())
        raise Refused(why or "%s: status %d" % (NAME.decode(), checking.returncode))
