"""Images that hold all of a layer, or none: a layer of which an image would lose something is
refused, and can stay a folder."""
from strata_format.refused import Refused, shown
from strata_layers.lost import LOST, Lost

# a security module labels files anew, as a mount says
LABELS = (b"security.selinux",)
# each takes up to 700 bytes of memory while an image is made
NAMES_MOST = 1 << 21


class Nothing(Lost):
    """What may be lost of a layer: nothing but labels. Anything else is Refused by name."""

    def keeps(self, name):
        return name not in LABELS

    def hold_names(self, count):
        if count > NAMES_MOST:
            raise Refused("it has more than %d names" % NAMES_MOST)

    def note(self, kind, where, names=()):
        names = [it for it in names if self.keeps(it)]
        if kind == "attributes" and names:
            raise Refused("%s: has the extended attribute %s, which an image does not hold"
                          % (where, shown(names[0])))
        if kind != "attributes":
            raise Refused("%s: %s" % (where, LOST[kind]))
