"""The line that `strata-layers pull` prints."""


def pulled_line(name, count, new, store=None):
    """The line of an image with so many layers, of which so many were not in the store; with --store that is named."""
    layers = "1 layer" if count == 1 else "%d layers" % count
    verify = "strata-layers verify" + (" --store " + store if store else "")
    others = ", %d not read again (`%s` does that)" % (count - new, verify) if new < count else ""
    return "%s: %s, %d of them new%s\n" % (name, layers, new, others)
