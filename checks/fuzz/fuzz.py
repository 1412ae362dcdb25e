"""Holds the built program against the plain reading of the formats, over random and mutated inputs.

python3 checks fuzz PROGRAM [--seed N] [--tries N] [--minutes N] [PART..]

Each try of a part makes its inputs of a seed of its own, from N (1) on, and uses any plan, strictly or not, with attributes or
not, over images that stay in their files or are read in full, and with any owner. Some images have an attribute trailer, right or
broken. Some stacks are sealed: each image, or each but some, has its digest on the line and its tree in a file, which changes
nothing either, unless one is not as sealed. The parts:

- `images`: images, most of them broken, through `check` and `list`; `stacks`: stacks of 1 to 6 layers, too.
- `streams`: requests over such stacks through `serve`, from files and through pipes in pieces, lastingly or not, with
  balances, and one in three through `socket`, one to three clients, some of which leave early.
- `device`: requests through `serve --device`, over a socket of packets instead of /dev/fuse: a read gives one packet, of a
  message, of several, or of any piece, and a write must be one whole reply. Some stand-ins go away early. Or by several
  readers, whose replies may come in any order.
- `long`: lists of hundreds and thousands of rows, for which workers are started, in all these ways.
- `made`: genromfs's images of random folders with bits flipped, records swapped and words changed, through `check`, `list`
  and one of these ways; `kernel`: the requests of a real mount over the demo's layers, changed in the same spirit.

With --minutes the parts go on by turns, and end then. Where a try differs, or three times takes more than two seconds of processor
time or a minute by the clock, its files are kept, its words are printed, and how to make it again alone; where the words name no
file of requests, that file's bytes came through a pipe or as packets, and those of requests-1 and so on from the clients.

`made` needs genromfs, and is left out without it. The status is 0 where no try differs.
"""
import argparse
import collections
import os
import random
import shutil
import sys
import time

from checks.fuzz.fuzz_runs import Difference, Running, TooSlow, Wanted
from checks.fuzz.mutations import Made, demo_images, has_genromfs, mutated_image, mutated_stream, recorded
from checks.plain import plain, plain_verity
from checks.plain.plain_attributes import trailer
from checks.shared.build import init
from checks.shared.clients import Client
from checks.shared.images import EMPTY
from checks.shared.random_inputs import (kinds_of, long_stack, long_stream, mutated, others_of, random_flags, random_image,
                                         random_stack, random_stream)
from checks.shared.random_trailers import random_owner, with_trailer
from checks.shared.replies import single
from checks.shared.runs import add_parts

# what a read of /dev/fuse gives at most
MOST_PACKET = 131072
INIT, DESTROY = 26, 38


# --- images ---

class Profile:
    """By which rules images are checked, whether their trailers are read, and whether they are read in full or, where they
    are served, left in their files, which changes nothing: at random, `--strict` so often as is said."""

    def __init__(self, rng, strictly):
        self.strict, self.attributes = rng.random() < strictly, rng.random() < 0.4
        self.words = ["--strict"] * self.strict + ["--attributes"] * self.attributes + ["--whole"] * (rng.random() < 0.3)
        self.checked = self.words + ["--as-mounted"] * (self.attributes and rng.random() < 0.5)
        if "--as-mounted" in self.checked and rng.random() < 0.5:
            self.checked.remove("--attributes")
        self.served = self.words + ["--in-files"] * (rng.random() < 0.5)
        self.rules = self.strict, self.attributes

    def images(self, rng, images):
        """Images, some of which get a trailer: most of them where it is read."""
        return [with_trailer(rng, data) if rng.random() < (0.7 if self.attributes else 0.1) else data for data in images]


def sealed_words(running, rng, images):
    """What names the digests of images, whose trees are written beside them; and the lowest image that is not as sealed, if one
    is not."""
    words, wrong = [], []
    for number, data in enumerate(images):
        name, algorithm = "image-%d" % number, rng.choice(["sha256", "sha512"])
        tree, digest = plain_verity.tree(algorithm, data), plain_verity.digest(algorithm, data)
        if rng.random() < 0.2:
            digest = "-"
        elif rng.random() < 0.03:
            wrong.append(number)
            tree, digest = unlike(rng, algorithm, data, tree, digest)
        running.write(name + ".verity", tree)
        words += ["--digest", digest]
    return words, min(wrong, default=None)


def unlike(rng, algorithm, data, tree, digest):
    """A tree and a digest that are not both an image's: the digest of other bytes, another digit, or another tree."""
    other = "0" if digest[-1] != "0" else "1"
    choices = [(tree, plain_verity.digest(algorithm, data + b"\0")), (tree, digest[:-1] + other)]
    if tree:
        choices += [(tree[:-1], digest), (b"", digest), (bytes([tree[0] ^ 1]) + tree[1:], digest)]
    return rng.choice(choices)


def seal(running, rng, images):
    """The words that seal one stack in five, and what must come where an image is not as sealed."""
    if rng.random() < 0.8:
        return [], None
    words, wrong = sealed_words(running, rng, images)
    return words, None if wrong is None else Wanted(3, b"", "image %d: not as sealed\n" % wrong, {})


def unread(images, profile):
    """What is printed of images whose trailer is not asked for."""
    return "" if profile.attributes else "".join("layer %d: attributes not read\n" % number
                                                 for number, data in enumerate(images) if trailer(data) is not None)


def lines_or_stop(lines, images, profile):
    """What must come of a command that prints lines."""
    try:
        return Wanted(0, "".join(line + "\n" for line in lines(images, *profile.rules)).encode(), unread(images, profile), {})
    except plain.Stop as stop:
        return Wanted(stop.args[1], b"", stop.args[0] + "\n", {})


def hold_lines(running, rng, images, profile):
    """Holds `check` and `list` of these images; how `list` must end."""
    names = [running.write("image-%d" % number, data) for number, data in enumerate(images)]
    digests, unsealed = seal(running, rng, images)
    running.hold(["check", *profile.checked, *digests, *names], unsealed or lines_or_stop(plain.check, images, profile))
    want = unsealed or lines_or_stop(plain.list_, images, profile)
    running.hold(["list", *names, *digests, *profile.checked], want)
    return want


def rule_of(want):
    """The broken rule that a command must tell."""
    return want.line[want.line.find(": ") + 2:].strip() if want.status else "no fault"


def try_image(running, rng, seen):
    """Holds a single image."""
    profile = Profile(rng, 0.3)
    want = hold_lines(running, rng, profile.images(rng, [mutated(rng, random_image(rng))]), profile)
    seen[rule_of(want)] += 1


def try_stack(running, rng, seen):
    profile = Profile(rng, 0.2)
    images = profile.images(rng, random_stack(rng, others_of(rng)))
    want = hold_lines(running, rng, images, profile)
    seen["broken"] += want.status != 0
    seen["lines"] += want.output.count(b"\n")
    seen["markers"] += sum(data.count(b".wh.") for data in images)


# --- requests ---

def cut(rng, stream, sizes=(1, 7, 60, 500, 5000, 65536)):
    """A stream in pieces of random lengths up to one of these."""
    most, pieces = rng.choice(sizes), []
    if len(stream) // most > 2000:
        most = 5000
    at = 0
    while at < len(stream):
        size = rng.randrange(1, most + 1)
        pieces.append(stream[at:at + size])
        at += size
    return pieces


def random_plan(rng, are_long):
    """Words of any plan, the least and the most more often; for long streams those that share them out."""
    workers = rng.choice([*[2, 3, 64] * are_long, 1, 64, rng.randrange(1, 65)])
    batch = rng.choice([*[1, 2, 7, 16, 30] * are_long, 1, 256, rng.randrange(1, 257)])
    return ["--workers", str(workers), "--batch", str(batch)]


class Inputs:
    """Images, and the words that name them; the stack that they make, or that of the sound ones where some are broken."""

    def __init__(self, running, rng, images, are_long=False):
        self.running, self.rng, self.are_long, self.stop = running, rng, are_long, None
        profile, owner = Profile(rng, 0.1), random_owner(rng)
        images = profile.images(rng, images)
        try:
            self.stack = plain.stack_of(images, *profile.rules, owner or (0, 0))
        except plain.Stop as stop:
            self.stop = stop
            self.stack = plain.stack_of([data for data in images if plain.fault(data) is None] or [EMPTY])
        self.words = [running.write("image-%d" % number, data) for number, data in enumerate(images)]
        digests, self.unsealed = seal(running, rng, images)
        self.words += digests + profile.served + (["--owner", "%d:%d" % owner] if owner else [])
        if rng.random() < 0.8:
            self.words += random_plan(rng, are_long)

    def is_refused(self):
        """Whether no request is read."""
        return self.stop or self.unsealed

    def cut(self, stream):
        """A stream in pieces: in long ones where its lists are."""
        return cut(self.rng, stream, (500, 65536, 65536, 65536)) if self.are_long else cut(self.rng, stream)

    def packets(self, stream):
        """A stream in packets of a message each, of several whole messages each, or of any bytes."""
        messages, rest = plain.split(stream)
        if self.rng.random() < 0.2 or max(map(len, [b"", *messages])) > MOST_PACKET:
            return self.cut(stream)
        most, parts = self.rng.choice([60000] if self.are_long else [0, 0, 1000, 60000]), []
        for message in [*messages, *[rest] * bool(rest)]:
            if parts and len(parts[-1]) + len(message) <= most:
                parts[-1] += message
            else:
                parts.append(message)
        return parts

    def served(self, stream, is_lasting):
        """What must come of serving a stream: how it ends, and the replies."""
        if self.unsealed:
            return self.unsealed, b""
        if self.stop:
            return Wanted(self.stop.args[1], b"", self.stop.args[0] + "\n", {"balances": b""}), b""
        done = plain.Answered(self.stack, stream, is_lasting)
        line, status = done.stop.args if done.stop else ("", 0)
        balances = "".join(it + "\n" for it in done.balance_lines()).encode()
        return Wanted(status, b"", line + "\n" if line else "", {"balances": balances}), done.replies


def serve(inputs, make, seen):
    """Holds `serve` of a stream."""
    rng, running, stream, is_lasting = inputs.rng, inputs.running, make(), inputs.rng.random() < 0.5
    words = ["serve", "--balances", "balances", *["--lasting"] * is_lasting, *inputs.words]
    want, replies = inputs.served(stream, is_lasting)
    pieces, requests = [], running.write("requests", stream)
    if rng.random() < 0.6:
        words += ["--requests", requests]
    else:
        pieces = inputs.cut(stream)
    if rng.random() < 0.5:
        words += ["--replies", "replies"]
        if not inputs.unsealed:  # else no file is made
            want.files["replies"] = replies
    else:
        want = want._replace(output=replies)
    running.hold(words, want, pieces)
    note(seen, [stream], [replies])


def random_client(inputs, stream, replies):
    """A client that stays to the end of its replies, or goes away."""
    rng, client = inputs.rng, Client(inputs.cut(stream), replies)
    client.is_meanwhile = rng.random() < 0.3
    if rng.random() < 0.3:
        client.closes, client.replies = True, replies[:rng.choice([0, len(replies), rng.randrange(len(replies) + 1)])]
        client.pieces = [stream]
    elif rng.random() < 0.1:
        client.is_deaf, client.replies = True, b""
    return client


def serve_clients(inputs, make, seen):
    """Holds `socket` with one to three clients."""
    rng, is_lasting = inputs.rng, inputs.rng.random() < 0.5
    streams = [make() for _ in range(rng.choice([1, 2, 3]))]
    words = ["socket", "--listen", "socket", "--sessions", str(len(streams)), *["--lasting"] * is_lasting, *inputs.words]
    wants = [inputs.served(stream, is_lasting) for stream in streams]
    if inputs.is_refused():
        inputs.running.hold(words, wants[0][0]._replace(files={}))
        return
    clients = [random_client(inputs, stream, replies) for stream, (_, replies) in zip(streams, wants)]
    inputs.running.hold_sessions(words, clients, [want.line.strip() for want, _ in wants])
    seen["sessions"] += len(streams)
    note(seen, streams, [it.replies for it in clients])


def serve_device(inputs, make, seen):
    """Holds `serve --device`, which is lasting, over a stand-in that stays or goes away early."""
    rng, stream = inputs.rng, make()
    want, replies = inputs.served(stream, True)
    patience = rng.randrange(len(single(replies)) + 1) if rng.random() < 0.15 and not inputs.is_refused() else None
    inputs.running.hold_device(["serve", "--device", *inputs.words], want, replies, inputs.packets(stream), patience)
    seen["devices"] += 1
    note(seen, [stream], [replies])


def in_one_session(rng, stream):
    """The messages of a stream whose replies don't depend on their order: an INIT, and all that begins and ends no session."""
    messages = plain.split(stream)[0]
    first = messages[0] if messages and opcode_of(messages[0]) == INIT else init(1, flags=random_flags(rng))
    return [first, *[it for it in messages if opcode_of(it) not in (INIT, DESTROY) and len(it) <= MOST_PACKET]]


def opcode_of(message):
    return int.from_bytes(message[4:8], "little")


def serve_readers(inputs, make, seen):
    """Holds `serve --device` by several readers, a message a packet."""
    messages = in_one_session(inputs.rng, make())
    want, replies = inputs.served(b"".join(messages), True)
    words = ["serve", "--device", "--readers", str(inputs.rng.choice([2, 3, 4, 64])), *inputs.words]
    inputs.running.hold_device(words, want, replies, messages, in_order=False)
    seen["devices of several readers"] += 1
    note(seen, [b"".join(messages)], [replies])


def note(seen, streams, replies):
    seen["requests"] += sum(len(plain.split(stream)[0]) for stream in streams)
    seen["bytes of replies"] += sum(map(len, replies))


def try_stream(running, rng, seen):
    inputs = Inputs(running, rng, random_stack(rng, others_of(rng)))
    seen["nodes"] += sum(kinds_of(inputs.stack))
    rng.choice([serve, serve, serve_clients])(inputs, lambda: random_stream(rng, inputs.stack), seen)


def try_device(running, rng, seen):
    inputs = Inputs(running, rng, random_stack(rng, others_of(rng)))
    rng.choice([serve_device, serve_device, serve_readers])(inputs, lambda: random_stream(rng, inputs.stack), seen)


def try_long(running, rng, seen):
    inputs = Inputs(running, rng, long_stack(rng), True)
    seen["nodes"] += sum(kinds_of(inputs.stack))
    serve_so = rng.choice([serve, serve, serve_clients, serve_device, serve_readers])
    serve_so(inputs, lambda: long_stream(rng, inputs.stack), seen)


# --- mutated ---

MADE = Made()


def try_made(running, rng, seen):
    images = [mutated_image(rng, MADE.image(rng)) for _ in range(rng.choice([1, 1, 2, 3]))]
    profile = Profile(rng, 0.3)
    images = profile.images(rng, images)
    want = hold_lines(running, rng, images, profile)
    seen[rule_of(want)] += 1
    if rng.random() < 0.3:
        inputs = Inputs(running, rng, images)
        rng.choice([serve, serve_clients, serve_device])(inputs, lambda: random_stream(rng, inputs.stack), seen)


RECORDED = recorded()


def try_kernel(running, rng, seen):
    inputs = Inputs(running, rng, demo_images())
    serve_so = rng.choice([serve, serve, serve_clients, serve_device, serve_readers])
    serve_so(inputs, lambda: mutated_stream(rng, RECORDED), seen)


# --- all parts ---

# how many tries a part has where no number is said
TRIES = {"images": 3000, "stacks": 3000, "streams": 2000, "device": 1000, "long": 200, "made": 1000, "kernel": 1000}
PARTS = {"images": try_image, "stacks": try_stack, "streams": try_stream, "device": try_device, "long": try_long,
         "made": try_made, "kernel": try_kernel}
# with --minutes a turn has so many of these at a time
TURN = 50


class Counts:
    """What the tries of a part came to."""

    def __init__(self, part, first):
        self.part, self.first, self.tries, self.seen = part, first, 0, collections.Counter()

    def told(self):
        seen = ", ".join("%s %d" % it for it in sorted(self.seen.items()))
        return "%-8s %d tries, seeds %d to %d: %s" % (self.part, self.tries, self.first, self.first + self.tries - 1, seen)


def make(running, counts, seed):
    """Makes a try. A slow one is made again: on a full machine a program that waits for its threads takes time for that, and a
    machine that stands still a minute ends what was under way."""
    for again in (True, True, False):
        try:
            PARTS[counts.part](running, random.Random("%s %d" % (counts.part, seed)), counts.seen)
            return
        except TooSlow:
            if not again:
                raise


def go_on(running, counts, tries):
    """Some more tries of a part."""
    for _ in range(tries):
        seed = counts.first + counts.tries
        try:
            make(running, counts, seed)
        except Difference as difference:
            raise Difference("%s\nonce more: python3 checks fuzz PROGRAM --seed %d --tries 1 %s" % (
                difference, seed, counts.part)) from None
        counts.tries += 1


def run(running, asked, all_counts):
    if asked.minutes is None:
        for counts in all_counts:
            go_on(running, counts, asked.tries or TRIES[counts.part])
            print(counts.told(), flush=True)
        return
    until = time.monotonic() + asked.minutes * 60
    while time.monotonic() < until:
        for counts in all_counts:
            go_on(running, counts, max(1, TRIES[counts.part] // TURN))
    for counts in all_counts:
        print(counts.told())


def main(words):
    parser = argparse.ArgumentParser(description="Holds strata against the plain reading, over random and mutated inputs.")
    parser.add_argument("program")
    parser.add_argument("--seed", type=int, default=1)
    parser.add_argument("--tries", type=int)
    parser.add_argument("--minutes", type=float)
    add_parts(parser, PARTS)
    asked = parser.parse_intermixed_args(words)
    parts = asked.parts or list(PARTS)
    if "made" in parts and not has_genromfs():
        parts.remove("made")
        print("made     left out: no genromfs")
    running = Running(os.path.abspath(asked.program))
    try:
        run(running, asked, [Counts(part, asked.seed) for part in parts])
    except Difference as difference:
        print("a difference: %s" % difference)
        return 1
    shutil.rmtree(running.folder)
    print("%d runs, no difference" % running.runs)
    return 0


if __name__ == "__main__":
    sys.exit(main(sys.argv[1:]))
