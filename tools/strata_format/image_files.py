"""Looks at files that are meant as images, which strangers may have put in their places."""
import os
import stat

# who only looks waits for nobody, and gets no terminal
LOOKING = os.O_RDONLY | os.O_NONBLOCK | os.O_NOCTTY | os.O_CLOEXEC
# what only one reader can read, and may let him wait for ever
ONCE = {stat.S_IFIFO: "a pipe", stat.S_IFSOCK: "a socket", stat.S_IFCHR: "a device that is read once"}


def read_once(path):
    """What a file is that is not opened only to look at it, or None. OSError where it is not there."""
    return ONCE.get(stat.S_IFMT(os.stat(path).st_mode))


def opened(path):
    """An open file to look into; None for what is not opened for that, also where it has taken a file's place by now."""
    if read_once(path) is not None:
        return None
    file = open(path, "rb", 0, opener=lambda name, _: os.open(name, LOOKING))
    if stat.S_IFMT(os.fstat(file.fileno()).st_mode) not in ONCE:
        return file
    file.close()
    return None


def size_of(path):
    """The bytes of an image, a block device's too; of what can't be told, 0."""
    try:
        file = opened(path)
        if file is None:
            return 0
        with file:
            return file.seek(0, os.SEEK_END)
    except OSError:
        return 0
