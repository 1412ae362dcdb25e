"""Requests to a server of sealed images whose files lie, or are written over."""
import errno
import os
import random

from checks.liar.lies import NEVER, Lie, LyingFiles
from checks.liar.stacks import SealedStack
from checks.liar.talk import talk
from checks.liar.writer import Writer, write_all
from checks.plain import plain
from checks.plain.plain_replies import READ, error
from checks.shared.mounting import Failed

# how many requests a try has
REQUESTS = 200


def unique_of(message):
    return message[8:16]


def is_lost(message, reply):
    """Whether this is a READ and its reply EIO."""
    return int.from_bytes(message[4:8], "little") == READ and reply == error(int.from_bytes(unique_of(message), "little"), errno.EIO)


def hold_replies(told, messages, wanted, got, may_lie, seen):
    """Holds each reply: as wanted or, to a READ while files lie, EIO."""
    if len(got) != len(messages):
        raise Failed("%s: %d replies to %d requests" % (told, len(got), len(messages)))
    for message, right in zip(messages, wanted):
        reply = got.get(unique_of(message))
        seen["READs"] += int.from_bytes(message[4:8], "little") == READ
        if reply == right:
            continue
        if not (may_lie and is_lost(message, reply)):
            raise Failed("%s: to %s should come %.60s, and comes %.60s" % (
                told, message.hex(), right.hex(), reply.hex() if reply else "nothing"))
        seen["EIO"] += 1


def hold_end(told, done, images, may_refuse, seen):
    """Holds how a server ended; whether it served."""
    line = done.errors.decode(errors="replace")
    if (done.status, line) == (0, ""):
        return True
    refused = done.status == 3 and line in ["image %d: not as sealed\n" % number for number in range(images)]
    if not (refused and may_refuse):
        raise Failed("%s: status %r, %r" % (told, done.status, line))
    seen["refused"] += 1
    return False


class Way:
    """How a server is started: by pipes or over a socket, by so many readers, with images in their files or read in full."""

    def __init__(self, rng):
        self.is_device = rng.random() < 0.6
        self.is_whole = rng.random() < 0.1
        self.words = ["--whole" if self.is_whole else "--in-files", "--attributes"]
        if self.is_device:
            self.words += ["--device", "--readers", rng.choice(["1", "4", "4"])]

    def told(self):
        return " ".join(self.words)


def serve(room, rng, told, stack, path_of, once_begun, may_refuse, may_lie, seen):
    """Holds what a server answers, started over files that may lie already; `once_begun` is called when INIT is answered.
    `may_lie` says at the end whether a lie was told."""
    way = told.way
    messages = stack.messages(rng, REQUESTS)
    wanted = plain.Answered(stack.stack, b"".join(messages), way.is_device).parts
    words = [room.program, "serve", *way.words, *stack.words(path_of)]
    got, done = talk(words, messages, way.is_device, once_begun)
    if hold_end(told, done, len(stack.images), may_refuse, seen):
        hold_replies(told, messages, wanted, got, may_lie() and not way.is_whole, seen)
    elif got:
        raise Failed("%s: refused, with %d replies" % (told, len(got)))


class Told:
    """What a try does, for the line that says that it failed."""

    def __init__(self, way, what):
        self.way, self.what = way, what

    def __str__(self):
        return "%s: %s" % (self.way.told(), self.what)


def try_shown(room, seed, seen):
    """Files that a file system of the test's own shows."""
    rng = random.Random("streams %d" % seed)
    stack, way = SealedStack(rng), Way(rng)
    for _ in range(4):
        lie, first = Lie(rng, stack.images), rng.choice([NEVER, NEVER, 0, rng.randrange(100)])
        disk = LyingFiles(room, lie, first)
        told = Told(way, "%s from %s on" % (lie.told(), "INIT" if first == NEVER else "read %d" % first))
        try:
            serve(room, rng, told, stack, disk.path, disk.begin, first != NEVER, lambda: disk.counts()[1] > 0, seen)
        finally:
            seen["lies"] += disk.counts()[1]
            disk.end()


def try_written(room, seed, seen):
    """Files that another process writes over."""
    rng = random.Random("written %d" % seed)
    stack, way = SealedStack(rng), Way(rng)
    path_of = lambda name: os.path.join(room.folder, name)
    for image in stack.images:
        for name, data in image.files().items():
            write_all(path_of(name), data)
    for _ in range(4):
        is_early = rng.random() < 0.3
        writer = Writer(rng, stack.images, path_of)
        if is_early:
            writer.begin()
        try:
            serve(room, rng, Told(way, "written over from %s on" % ("the start" if is_early else "INIT")), stack, path_of,
                  writer.begin, is_early, lambda: writer.changes() > 0, seen)
        finally:
            seen["changes"] += writer.changes()
            writer.end()
