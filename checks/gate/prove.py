"""Proves and builds the program, crates side by side where they can be: python3 checks prove [--kept]

Each crate of crates.txt below strata_main is proved from nothing, as the gate proves it: over the statements of what it
uses, a sixth of what their proofs are to read. What is proved stands in build/proved, with a sum of all that it
was made from, so a run that was ended goes on with the crates that are left. A line tells when a crate begins and when
it ends, and how much is left; what the prover says goes to build/logs/CRATE. The program is build/strata.

With --kept each is proved by `rt lib`, which keeps its work in the crate's out/: `rt check` then proves after an edit
what has changed alone, and checks/gate/trials.py takes up what was kept. rt lets one run work in a crate and in all that it
uses, so two crates that share one would wait for each other. Each is proved in a copy of its own.

The last crate waits for the longest chain of crates that use each other. So of crates that can begin, the one with
the longest chain above it begins first; the first of all gets two processors or more, and the others let it go before.
The program itself gets one, since copies of the prover would each read all of it. What a crate costs is read from
docs/GATE.md.

It needs `rt` on the path, 4 GiB of memory and 2 of disk (8 with --kept). The status is 0 where all is proved and built.
"""
import fcntl
import hashlib
import os
import re
import shutil
import signal
import subprocess
import sys
import tempfile
import threading
import time

from checks import ROOT
from checks.gate.crates import copied, crates_below, crates_used
from checks.gate.kit import Kit

PROGRAM = "strata_main"
CORES = len(os.sched_getaffinity(0))
BEGUN = time.monotonic()
GIB = 1 << 30
MEMORY = 4 * GIB  # bytes, for the largest proofs
EACH = 2 * GIB  # for each proof beside others
COST = re.compile(r"\| `(\w+)` \| \d+ \| (\d+)\b")


def clock(seconds):
    return "%d:%02d" % (seconds // 60, seconds % 60)


def say(text):
    print("%5s  %s" % (clock(time.monotonic() - BEGUN), text), flush=True)


class Proving:
    """The proof of one crate, under way, by a command in a folder. `keep` learns whether all is proved at its end."""

    def __init__(self, crate, words, folder, is_first, keep):
        self.crate, self.keep, self.begun = crate, keep, time.monotonic()
        self.log = "%s/build/logs/%s" % (ROOT, crate)
        words = words if is_first else ["nice", "-n", "5", *words]
        with open(self.log, "w", encoding="utf-8") as out:
            self.process = subprocess.Popen(words, cwd=folder, stdin=subprocess.DEVNULL, stdout=out,
                                            stderr=subprocess.STDOUT, start_new_session=True)
        say("%s begins" % crate)

    def is_ended(self):
        return self.process.poll() is not None

    def close(self):
        """Ends it, and keeps what it has done; whether all was."""
        if not self.is_ended():
            os.killpg(self.process.pid, signal.SIGTERM)
        is_proved = self.process.wait() == 0
        self.keep(is_proved)
        self.seconds = time.monotonic() - self.begun
        return is_proved


class Statements:
    """Proofs from nothing, each over the statements of what it uses."""

    DISK = {ROOT: 2 * GIB}

    def __init__(self, below):
        self.kit, self.below, self.uses, self.sums = Kit(), below, crates_used(), {}
        self.folder = ROOT + "/build/proved"
        os.makedirs(self.folder, exist_ok=True)
        self.lock = open(self.folder + "/lock", "w", encoding="utf-8")
        try:
            fcntl.flock(self.lock, fcntl.LOCK_EX | fcntl.LOCK_NB)
        except BlockingIOError:
            sys.exit("another run is proving here")

    def sum(self, crate):
        """A sum of all that a crate's proof is made from."""
        if crate not in self.sums:
            uses = self.uses[crate]
            parts = [self.kit.version, repr(uses), *(self.sum(name) for name in uses if name in self.below)]
            for path in files_of(crate):
                with open(path, "rb") as file:
                    parts.append("%s %s" % (os.path.relpath(path, ROOT), hashlib.sha256(file.read()).hexdigest()))
            self.sums[crate] = hashlib.sha256("\n".join(parts).encode()).hexdigest()
        return self.sums[crate]

    def of(self, crate, kind):
        return "%s/%s.%s" % (self.folder, crate, kind)

    def proved(self, wanted):
        """What earlier runs proved and can stay: over what has been proved again nothing stays."""
        found = set()
        for crate in wanted:
            is_there = os.path.exists(self.of(crate, "o" if crate == PROGRAM else "rlib"))
            is_same = text_of(self.of(crate, "sum")) == self.sum(crate)
            if is_there and is_same and found.issuperset(self.below[crate]):
                found.add(crate)
            elif os.path.exists(self.of(crate, "sum")):
                os.remove(self.of(crate, "sum"))
        return found

    def begin(self, crate, jobs, is_first):
        folder, before = "%s/crates/%s" % (ROOT, crate), self.sum(crate)

        def keep(is_proved):
            del self.sums[crate]
            if is_proved and self.sum(crate) == before:
                with open(self.of(crate, "sum"), "w", encoding="utf-8") as file:
                    file.write(before)

        words = self.kit.build(crate, folder, self.uses[crate], self.folder, jobs)
        return Proving(crate, words, folder, is_first, keep)

    def program(self):
        made = ROOT + "/build/strata.new"
        done = subprocess.run(self.kit.link(PROGRAM, self.folder, made), stdout=subprocess.PIPE,
                                stderr=subprocess.STDOUT, text=True, check=False)
        if done.returncode:
            sys.exit("%s is not linked\n%s" % (PROGRAM, done.stdout))
        os.replace(made, ROOT + "/build/strata")


class Kept:
    """Proofs by `rt lib`, which keeps their work, each in a copy of all that it reads."""

    DISK = {ROOT: 8 * GIB, tempfile.gettempdir(): 2 * GIB}

    def __init__(self, below):
        self.below = below

    def proved(self, _wanted):
        """rt itself sees what is proved."""
        return set()

    def begin(self, crate, jobs, is_first):
        room = tempfile.TemporaryDirectory(prefix="strata-%s-" % crate)
        folder = "%s/crates/%s" % (room.name, crate)
        copied(crate, self.below[crate], room.name, linked)
        words = ["rt", "lib", "--jobs", str(jobs)]
        if crate == PROGRAM:
            words = ["rt", "run", "--", "check", "data/e.img"]

        def keep(_is_proved):
            """Its copy is removed while the next begins."""
            if os.path.isdir(folder + "/out"):
                kept = "%s/crates/%s/out" % (ROOT, crate)
                shutil.rmtree(kept, ignore_errors=True)
                shutil.move(folder + "/out", kept)
            threading.Thread(target=room.cleanup).start()

        return Proving(crate, words, folder, is_first, keep)

    def program(self):
        shutil.copy("%s/crates/%s/out/%s" % (ROOT, PROGRAM, PROGRAM), ROOT + "/build/strata")


def linked(source, target):
    """A link to what earlier runs kept, where the file system has links; a copy of any source, which may be edited."""
    try:
        if "/out/" not in source:
            raise OSError
        os.link(source, target)
    except OSError:
        shutil.copy2(source, target)


class Left:
    """What is left to prove, and how long it takes at the speed so far."""

    def __init__(self, below):
        self.below, self.left = below, costs_of(below)
        self.work, self.seconds = 0, 0

    def done(self, it):
        self.work += self.left.pop(it.crate)
        self.seconds += it.seconds

    def chains(self):
        """For each crate what the longest chain costs that begins with it."""
        found = {}
        for name in sorted(self.left, key=lambda it: -len(self.below[it])):
            found[name] = self.left[name] + max((found[it] for it in found if name in self.below[it]), default=0)
        return found

    def kept(self, crates):
        for name in crates:
            del self.left[name]

    def told(self):
        if not self.left:
            return ""
        work = max(max(self.chains().values()) / min(1.5, CORES), sum(self.left.values()) / CORES)
        return "; %d left, some %d minutes" % (len(self.left), work * self.seconds / self.work / 60 + 1)


def costs_of(crates):
    """What a check of each crate costs: its seconds of docs/GATE.md, and else what crates of its size cost."""
    with open(ROOT + "/docs/GATE.md", encoding="utf-8") as page:
        told = {name: int(seconds) for name, seconds in COST.findall(page.read()) if name in crates}
    sizes = {name: size_of(name) for name in crates}
    rate = sum(told.values()) / max(1, sum(sizes[name] for name in told)) or 1
    return {name: told.get(name) or rate * sizes[name] for name in crates}


def files_of(crate, parts=("src", "specs", "proofs")):
    """The files of a crate in these folders, in an order of their own."""
    return sorted(os.path.join(folder, name) for part in parts
                  for folder, _, names in os.walk("%s/crates/%s/%s" % (ROOT, crate, part)) for name in names)


def size_of(crate):
    """The bytes of the sources of a crate."""
    return sum(map(os.path.getsize, files_of(crate, ["src"])))


def text_of(path):
    try:
        with open(path, encoding="utf-8") as file:
            return file.read()
    except FileNotFoundError:
        return None


def tail_of(path):
    with open(path, encoding="utf-8", errors="replace") as log:
        return "".join(log.readlines()[-20:])


def free_memory():
    with open("/proc/meminfo", encoding="utf-8") as lines:
        told = dict(line.split(":") for line in lines)
    return int(told["MemAvailable"].split()[0]) << 10


def hold_room(way):
    """Ends where something that the proofs want is missing."""
    if not shutil.which("rt"):
        sys.exit("the proofs want the command rt of the Rattle kit on the path")
    if not os.access(ROOT, os.W_OK):
        sys.exit("the proofs want to write to %s" % ROOT)
    wanted = [("memory", free_memory(), MEMORY)]
    wanted += [("disk below %s" % folder, shutil.disk_usage(folder).free, room) for folder, room in way.DISK.items()]
    for kind, there, least in wanted:
        if there < least:
            sys.exit("the proofs want %d GiB of %s, and %.1f are free" % (least // GIB, kind, there / GIB))


def prove_all(below, way, running):
    """Proves all crates, and tells each end."""
    left = Left(below)
    places = max(1, min(CORES, free_memory() // EACH))
    chains = left.chains()
    wanted = sorted(below, key=lambda name: -chains[name])  # so each is behind all that it uses
    proved = way.proved(wanted)
    left.kept(proved)
    if len(proved) < len(wanted):
        say("proving %d crates, on %d cores; some minutes the first time" % (len(wanted) - len(proved), CORES))
    while len(proved) < len(wanted):
        started = proved | {it.crate for it in running}
        ready = [name for name in wanted if name not in started and proved.issuperset(below[name])]
        first = next(name for name in wanted if name not in proved)
        for name in ready[:places - len(running)]:
            share = -(-places // (len(running) + len(ready)))
            jobs = 1 if name == PROGRAM else min(places, max(share, 2 if name == first else 1))
            running.append(way.begin(name, jobs, name == first))
            ready.remove(name)
        for it in [it for it in running if it.is_ended()]:
            running.remove(it)
            if not it.close():
                sys.exit("%s is not proved: %s ends\n%s" % (it.crate, it.log, tail_of(it.log)))
            proved.add(it.crate)
            left.done(it)
            say("%s is proved, after %s%s" % (it.crate, clock(it.seconds), left.told()))
        time.sleep(0.2)


def main(words):
    hold_room(Kept if words == ["--kept"] else Statements)
    everything = crates_below()
    below = {name: everything[name] for name in [*everything[PROGRAM], PROGRAM]}
    os.makedirs(ROOT + "/build/logs", exist_ok=True)
    way, running = Kept(below) if words == ["--kept"] else Statements(below), []
    try:
        prove_all(below, way, running)
    finally:
        for it in running:
            it.close()
    way.program()
    say("build/strata is built")


def interrupted(_signal, _frame):
    raise KeyboardInterrupt


if __name__ == "__main__":
    signal.signal(signal.SIGTERM, interrupted)  # so what is under way ends with it
    try:
        main(sys.argv[1:])
    except KeyboardInterrupt:
        sys.exit("interrupted; the next run goes on from here")
