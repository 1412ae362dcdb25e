"""Names of images that only skopeo reads: by its transports, and what makes a layout of such an image."""
from strata_format.refused import one_line

TRANSPORTS = "docker-archive:", "oci-archive:", "dir:", "containers-storage:", "docker-daemon:"


def layout_made(word):
    """How a layout is made of an image that a word names so."""
    import shlex
    return "`skopeo copy %s oci:LAYOUT:TAG` makes a layout of it" % one_line(shlex.quote(word))


def layout_hint(word):
    """The same behind a fault's line; nothing of another word."""
    return "; " + layout_made(word) if word.startswith(TRANSPORTS) else ""
