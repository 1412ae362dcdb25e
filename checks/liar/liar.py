"""Serves sealed images whose files lie: python3 checks liar PROGRAM [--seed N] [--tries N] [--minutes N] [--quick] [PART..]

Whatever the files of an image and its tree give, each READ must be the sealed image's bytes or EIO, every other reply that of the
sealed image, and what is refused at startup must say `image <n>: not as sealed`. Each try makes a random stack of sealed images
of a seed of its own. The parts:

- `streams`: a FUSE file system of the test's own shows the files and lies as checks/liar/lies.py says: after the images were
  opened, from a random read on, or from the first. `serve` answers READs through pipes, or over a socket instead of /dev/fuse, by
  one reader or four.
- `written`: the same over files that another process writes over, cuts and mends meanwhile.
- `mounts`: such images are mounted, and 8 processes read while the files lie; at the end the files tell the truth, everything
  can be read again, and the mount ends by the unmount alone.
- `changed`: each byte of small images and of their trees is changed, files are cut, grown and exchanged.

With --minutes the parts go on by turns, and end then. `--quick` is for the gate. Parts that need /dev/fuse and a namespace are
left out without them. The status is 0 where no try failed.
"""
import argparse
import collections
import os
import sys
import tempfile
import time

from checks.liar import changed, mounts, streams
from checks.shared.mounting import Room, adopt, apart, try_mount
from checks.shared.runs import add_parts

PARTS = {"streams": streams.try_shown, "written": streams.try_written, "mounts": mounts.try_mount, "changed": changed.try_changed}
MOUNTED = ("streams", "mounts")
# how many tries a part has, and how many for the gate; a turn has a tenth of them
TRIES = {"streams": 120, "written": 80, "mounts": 12, "changed": 64}
QUICK = {"streams": 16, "written": 8, "mounts": 3, "changed": 8}
TURNS = 12


def try_once(part, program, scratch, seed):
    """What came of a try, as text: counts by name, or why it failed."""
    def tried():
        seen = collections.Counter()
        with tempfile.TemporaryDirectory(dir=scratch) as folder:
            PARTS[part](Room(program, folder), seed, seen)
        return " ".join("%s=%d" % it for it in sorted(seen.items()))
    return apart(tried)


class Counts:
    """What the tries of a part came to."""

    def __init__(self, part, first):
        self.part, self.first, self.tries, self.seen = part, first, 0, collections.Counter()

    def go_on(self, program, scratch, tries):
        """Some more tries; whether none failed."""
        for _ in range(tries):
            seed = self.first + self.tries
            told = try_once(self.part, program, scratch, seed)
            if told.startswith("FAILED"):
                print("%s: %s\nonce more: python3 checks liar PROGRAM --seed %d --tries 1 %s" % (self.part, told, seed, self.part))
                return False
            for it in told.split():
                name, _, count = it.rpartition("=")
                self.seen[name] += int(count)
            self.tries += 1
        return True

    def told(self):
        seen = ", ".join("%s %d" % it for it in sorted(self.seen.items()))
        return "%-8s %d tries, seeds %d to %d: %s" % (self.part, self.tries, self.first, self.first + self.tries - 1, seen)


def run(asked, parts, scratch):
    """Runs the parts; whether no try failed."""
    program, every = os.path.abspath(asked.program), [Counts(part, asked.seed) for part in parts]
    until = time.monotonic() + asked.minutes * 60 if asked.minutes else 0
    while True:
        for counts in every:
            tries = asked.tries or (QUICK if asked.quick else TRIES)[counts.part]
            if not counts.go_on(program, scratch, max(1, tries // TURNS) if until else tries):
                return False
        if time.monotonic() >= until:
            break
    print("\n".join(counts.told() for counts in every))
    return True


def main(words):
    parser = argparse.ArgumentParser(prog="checks liar", description="Serves sealed images whose files lie.")
    parser.add_argument("program", metavar="PROGRAM")
    parser.add_argument("--seed", metavar="N", type=int, default=1)
    parser.add_argument("--tries", metavar="N", type=int)
    parser.add_argument("--minutes", metavar="N", type=float)
    parser.add_argument("--quick", action="store_true")
    add_parts(parser, PARTS)
    asked = parser.parse_intermixed_args(words)
    parts = asked.parts or list(PARTS)
    adopt()
    with tempfile.TemporaryDirectory(prefix="liar-") as scratch:
        os.chmod(scratch, 0o755)
        why = apart(lambda: try_mount(scratch))
        if why != "yes":
            print("%s: left out: %s" % (", ".join(MOUNTED), why.replace("FAILED: ", "")))
            parts = [part for part in parts if part not in MOUNTED]
        return run(asked, parts, scratch)


if __name__ == "__main__":
    sys.exit(0 if main(sys.argv[1:]) else 1)
