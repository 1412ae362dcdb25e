"""What an image and its attribute trailer don't hold of the entries of layers."""
from strata_format.refused import SHOWN, Refused, shown
from strata_format.romfs import path_text
from strata_format.xattrs import ACCESS, DEFAULT, OVERLAYS
from strata_layers import attributes
from strata_layers.entries import HARD, TIME_LEAST, TIME_MOST, is_owner

LOST = {
    "entries": "entries that romfs cannot hold are left out",
    "attributes": "extended attributes are not kept",
    "overlays": "attributes of overlayfs's own are left out",
    "owners": "owners that are not numbers from 0 to 4294967295 are kept as 65534",
    "times": "times beyond 64 bits are kept as the nearest that fit",
    "members": "files that only the folder has are not in the image",
}
NAMED_MOST = 200


def entries_text(count):
    return "1 entry" if count == 1 else "%d entries" % count


def line_of(kind, counts):
    """What is reported about a kind of loss."""
    of_kinds = " (%s)" % attributes.counts_text(counts) if kind == "attributes" else ""
    return "%s: %s%s" % (LOST[kind], entries_text(counts[kind]), of_kinds)


class Parts:
    """Names of extended attributes: an overlay's own, the others, and how many of each kind these
    are."""

    def __init__(self, names):
        self.own = [it for it in names if it.startswith(OVERLAYS)]
        self.others = [it for it in names if not it.startswith(OVERLAYS)]
        self.counts = {}
        for kind, _ in map(attributes.kind_of, self.others):
            self.counts[kind] = self.counts.get(kind, 0) + 1


class Lost:
    """Of each kind of loss how many entries, and their names, as far as they are not very many; and
    of each kind of extended attribute how many. `leaves_out` says that entries that no image holds
    are left out, and not refused; `fails` that nothing may be lost, `bare` that all extended
    attributes are."""

    def __init__(self, leaves_out=False, fails=False, bare=False):
        self.counts, self.named = {}, {}
        self.leaves_out, self.fails, self.bare = leaves_out, fails, bare

    def keeps(self, _name):
        """Whether an extended attribute of a name is kept, if its value may be."""
        return not self.bare

    def keeps_of_link(self, name):
        """The same of a symbolic link, for which Linux knows no lists of rights."""
        return name not in (ACCESS, DEFAULT) and self.keeps(name)

    def add(self, counts):
        """Adds so many of some kinds, as they were counted before."""
        for kind, count in counts.items():
            self.counts[kind] = self.counts.get(kind, 0) + count

    def since(self, before):
        """What came to counts that were copied before."""
        found = {kind: count - before.get(kind, 0) for kind, count in self.counts.items()}
        return {kind: count for kind, count in found.items() if count}

    def note(self, kind, where, names=()):
        """Notes an entry, as the words `where` name it, and the names of what is lost of it."""
        self.add({kind: 1})
        lines = self.named.setdefault(kind, [])
        if len(lines) < NAMED_MOST:
            lines.append("  " + where + (": " + shown(b",".join(names[:SHOWN]))) * bool(names))

    def note_attributes(self, where, there):
        """Notes an entry that has these extended attributes."""
        parts = there.once(Parts, lambda: Parts(there))
        if parts.own:
            self.note("overlays", where, parts.own)
        if parts.others:
            self.note("attributes", where, parts.others)
            self.add(parts.counts)

    def note_entry(self, front, path, entry):
        """Notes an entry at a path, which is named behind some words. What a hard link leads to
        says of itself what there is to say."""
        if entry.kind == HARD:
            return
        if entry.attributes:
            self.note_attributes(front + path_text(path), entry.attributes)
        if not (is_owner(entry.uid) and is_owner(entry.gid)):
            self.note("owners", front + path_text(path))
        if not TIME_LEAST <= entry.time[0] <= TIME_MOST:
            self.note("times", front + path_text(path))

    def hold_names(self, count):
        """Refused where an image may not have so many names; here it may have as many as it holds."""

    def lines(self):
        """A line for each kind, with the names that are known behind it."""
        for kind in LOST:
            if kind in self.counts:
                yield line_of(kind, self.counts)
                yield from self.named.get(kind, [])
                more = self.counts[kind] - len(self.named.get(kind, []))
                if more and kind in self.named:
                    yield "  .. and %d more" % more

    def settle(self):
        """Refused where something is lost that may not be."""
        if self.fails and self.counts:
            first, *others = self.lines()
            raise Refused("--fail-on-lost: " + first, [it.strip() for it in others])
