"""A plain reading of the whole program: what `check`, `list` and `serve` must come to. `make fuzz` holds strata against it.

plain_images.py reads images, plain_attributes.py their trailers, plain_stacks.py stacks and plain_replies.py requests. `strict`,
`attributes` and `owner` are the program's options of these names.
"""
from checks.plain.plain_images import TEXTS, Image, fault, word
from checks.plain.plain_replies import Session, bad_length, split
from checks.plain.plain_stacks import Stack


class Stop(Exception):
    """The fault line that the program ends with, and its status."""


def check_layers(images, strict, attributes):
    """Stops at the lowest image that breaks a rule."""
    for layer, data in enumerate(images):
        found = fault(data, strict, attributes)
        if found:
            raise Stop("layer %d at %08x: %s" % (layer, found[1], TEXTS[found[0]]), 3)


def stack_of(images, strict=False, attributes=False, owner=(0, 0)):
    if not 1 <= len(images) <= 128:
        raise Stop("layers: %d, allowed 1 to 128" % len(images), 3)
    check_layers(images, strict, attributes)
    return Stack([Image(data, attributes) for data in images], owner)


def check(images, strict=False, attributes=False):
    """The lines that `check` prints."""
    check_layers(images, strict, attributes)
    return ["layer %d: %d bytes" % (layer, word(data, 8)) for layer, data in enumerate(images)]


def list_(images, strict=False, attributes=False):
    """The lines that `list` prints."""
    return list(stack_of(images, strict, attributes).lines())


class Answered:
    """What serving a stream over a stack comes to, lastingly or not: all replies that stand, and then how it ends."""

    def __init__(self, stack, stream, is_lasting=False):
        session = Session(stack, is_lasting)
        messages, rest = split(stream)
        self.parts = [session.reply(message) for message in messages]
        self.replies, self.stop, self.balances = b"".join(self.parts), None, session.balances
        at = len(stream) - len(rest)
        length = bad_length(rest, 0)
        if length is not None:
            self.stop = Stop("request at %d: bad length %d" % (at, length), 4)
        elif rest:
            self.stop = Stop("request at %d: cut off" % at, 4)

    def balance_lines(self):
        """The file of balances, which stays empty where the stream breaks off."""
        return [] if self.stop else ["%d %d" % pair for pair in enumerate(self.balances, 1)]


class Served(Answered):
    """The same over images."""

    def __init__(self, images, stream, strict=False, is_lasting=False, attributes=False, owner=(0, 0)):
        super().__init__(stack_of(images, strict, attributes, owner), stream, is_lasting)
