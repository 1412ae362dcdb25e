"""Times the built program, and hostile inputs against honest ones: python3 checks bench PROGRAM [--quick] [PART..]

The parts are `serve` (a million requests, against cat), `lookups` (in a large directory, against attributes in a small
one), `check` (images), `stacks` (check, list and serve of stacks), `streams` (dear requests), `pulls` (a byte at a time),
`workers` (long replies by four workers, against one) and `sockets` (a million requests at a socket, against pipes; the shortest
sessions). Files lie in memory (/dev/shm where it is there). A time is processor time, user and system, the least of three
runs; memory is the most that a run had at one moment, and less than some 20 MiB is not told apart. The status is 0 where each
hostile input takes at most five times as long as an honest one of its size; where it gives a longer list, at most five times
as long for each byte of it; where `serve`, `lookups` and `sockets` are within bounds of their own; and where four workers give
the bytes of one in at most three times its processor time. `--quick` is for the gate: the hostile parts alone, of a quarter of
the size.
"""
import argparse
import filecmp
import multiprocessing
import os
import subprocess
import sys
import tempfile
import threading
import time
from collections import namedtuple

from checks.shared import runs
from checks.speed import bench_inputs as inputs
from checks.speed import bench_sockets

RUNS, MANY_RUNS, LONG = 3, 12, 0.4
# how many times as long a hostile input may take as an honest one, a million requests as copying them, and a LOOKUP in a
# large directory as a GETATTR in a small one
MOST, MOST_OF_CAT, MOST_OF_GETATTR = 5, 4, 11
# how many times the processor time of one worker four may take
MOST_WORKERS = 3
# how many times the processor time of a stream through pipes one at a socket may take; how many of the shortest sessions
MOST_OF_PIPES, SESSIONS = 4, 20000
HOSTILE = ("check", "stacks", "streams", "pulls")
COMMANDS = ("check", "list", "serve")  # what is timed over stacks
# `sockets` comes last: it holds its streams itself, and the memory reported for a run counts what its parent had at the fork
PARTS = ("serve", "lookups", *HOSTILE, "workers", "sockets")
# what the sizes are divided by for the gate
QUICK = 4
Cost = namedtuple("Cost", "seconds memory written line")


def run(words, output, packets):
    """What one run of some words costs; the bytes of a file of packets come through a pipe, one a read."""
    source, pipe = os.pipe2(os.O_DIRECT | os.O_CLOEXEC) if packets else (os.open(os.devnull, os.O_RDONLY), None)
    with open(output, "wb") as sink:
        child = subprocess.Popen(words, stdin=source, stdout=sink, stderr=subprocess.PIPE)
    os.close(source)
    if packets:
        threading.Thread(target=feed, args=(packets, pipe), daemon=True).start()
    done = runs.ended(child)
    line = done.errors.decode().strip()
    if done.status not in (0, 3):
        sys.exit("%s: %s" % (" ".join(words)[:200], "no end after a minute" if done.status is None else line))
    return Cost(done.seconds, done.memory, os.path.getsize(output), line)


def feed(packets, pipe):
    try:
        with open(packets, "rb") as data:
            while True:
                byte = data.read(1)
                if not byte:
                    break
                os.write(pipe, byte)
    except OSError:
        pass
    finally:
        os.close(pipe)


def cost(*words, output=os.devnull, packets=None):
    """The least that some words cost, of a few runs; of many, where they are short: other programs on the machine
    disturb these most."""
    return costs(words, output=output, packets=packets)[0]


def costs(*words_of, output=os.devnull, packets=None):
    """The same of the words of each, which are run in turn: what disturbs one of them disturbs the others."""
    runs_of = [[] for _ in words_of]
    while len(runs_of[0]) < RUNS or len(runs_of[0]) < MANY_RUNS and min(map(seconds, runs_of)) < LONG:
        for words, its in zip(words_of, runs_of):
            its.append(run(words, output, packets))
    return [min(its) for its in runs_of]


def seconds(its):
    return sum(it.seconds for it in its)


def apart(function, *arguments):
    """Calls a function in a process of its own, so that what it takes does not count as memory of the runs."""
    with multiprocessing.get_context("fork").Pool(1) as pool:
        return pool.apply(function, arguments)


class Bench:
    """The program, a folder for files, and whether all has been within its bounds; figures has what each part measured."""

    def __init__(self, program, folder):
        self.program, self.folder, self.within, self.figures = program, folder, True, {}

    def held(self, kind, name, taken, honest, beside="honest"):
        """Prints what a hostile input of a kind costs, beside an honest one, or beside another program."""
        ratio = taken.seconds / max(honest.seconds, 0.001)
        self.figures.setdefault(kind, []).append((ratio, name))
        what = "  " + kind if kind in COMMANDS else name
        longer = max(1, taken.written / max(honest.written, 1))
        self.within = self.within and ratio <= MOST * longer
        line = taken.line or "for %.1f times the output" % longer * (longer > 1.1)
        print("%-30s %8.3f s %6.0f MiB   %-6s %8.3f s %6.0f MiB  %5.1f times  %s" % (
            what, taken.seconds, taken.memory, beside, honest.seconds, honest.memory, ratio, line), flush=True)

    def serve(self):
        """A million LOOKUPs and GETATTRs over 5,000 files, against reading and writing as many bytes."""
        image, requests = apart(inputs.write_million, self.folder)
        replies, copy = self.folder + "/replies", self.folder + "/copy"
        served = cost(self.program, "serve", "--requests", requests, "--replies", replies, image)
        copied = cost("cat", requests, output=copy).seconds + cost("cat", replies, output=copy).seconds
        print("1,000,000 requests over 5,000 files: %d bytes of requests, %d of replies" % (
            os.path.getsize(requests), os.path.getsize(replies)))
        print("  strata serve %.3f s, %.0f MiB; cat of both %.3f s: %.1f times" % (
            served.seconds, served.memory, copied, served.seconds / copied), flush=True)
        self.figures["serve"] = served.seconds, served.memory, copied
        self.within = self.within and served.seconds <= MOST_OF_CAT * copied

    def lookups(self):
        """A million LOOKUPs of names of a directory of 100,000 files, against a million GETATTRs over 1,000; what images and
        the start take is taken off."""
        begin, times = apart(inputs.write_begin, self.folder), []
        for image, requests in apart(inputs.write_lookups, self.folder):
            taken, idle = (cost(self.program, "serve", "--requests", it, "--replies", os.devnull, image).seconds
                           for it in (requests, begin))
            times.append(taken - idle)
        print("1,000,000 LOOKUPs in 100,000 files %.3f s, 1,000,000 GETATTRs in 1,000 files %.3f s: %.1f times" % (
            *times, times[0] / times[1]), flush=True)
        self.figures["lookups"] = times
        self.within = self.within and times[0] <= MOST_OF_GETATTR * times[1]

    def sockets(self):
        """A million requests at a socket, against pipes, by turns; and the shortest sessions, many at one socket."""
        image, requests = apart(inputs.write_million, self.folder)
        with open(requests, "rb") as data:
            stream = data.read()
        pairs = [(bench_sockets.piped(self.program, image, stream), bench_sockets.at_socket(self.program, image, [stream]))
                 for _ in range(RUNS)]
        same = all(pair[0].output == pair[1].output for pair in pairs)
        pipes, at_socket = (min(it.seconds for it in ends) for ends in zip(*pairs))
        print("1,000,000 requests through pipes %.3f s, at a socket %.3f s: %.2f times  %s" % (
            pipes, at_socket, at_socket / pipes, "same bytes" if same else "OTHER BYTES"))
        shortest = bench_sockets.shortest()
        one, many = (min(bench_sockets.at_socket(self.program, image, [shortest] * count).seconds for _ in range(RUNS))
                     for count in (1, SESSIONS))
        print("  %d sessions of an INIT and a DESTROY: %.1f microseconds each" % (
            SESSIONS, (many - one) / (SESSIONS - 1) * 1e6), flush=True)
        self.figures["sockets"] = at_socket, pipes
        self.within = self.within and same and at_socket <= MOST_OF_PIPES * pipes

    def check(self):
        """Hostile images against the first one, which has as many headers and bytes."""
        honest = None
        for name in inputs.IMAGES:
            taken = cost(self.program, "check", apart(inputs.write_image, name, self.folder))
            honest = honest or taken
            self.held("image", "check of " + name, taken, honest)

    def stacks(self):
        """Hostile stacks, each against an honest one of as many headers in as many layers."""
        requests = apart(inputs.write_begin, self.folder)
        arguments = {"check": (), "list": (), "serve": ("--requests", requests)}
        for name in inputs.STACKS:
            headers, hostile, honest = apart(inputs.write_stacks, name, self.folder)
            print("%s: %d headers in %d layers" % (name, headers, len(hostile)))
            for command in COMMANDS:
                output = self.folder + "/output"
                words_of = [[self.program, command, *arguments[command], *layers] for layers in (hostile, honest)]
                self.held(command, name, *costs(*words_of, output=output))
            for path in {*hostile, *honest}:
                os.remove(path)

    def streams(self):
        """Streams of dear requests, each against an honest one."""
        for name in inputs.STREAMS:
            image, *streams = apart(inputs.write_streams, name, self.folder)
            words_of = [[self.program, "serve", "--requests", it, "--replies", os.devnull, image] for it in streams]
            honest, hostile = costs(*words_of)
            self.held("stream", name, hostile, honest)

    def pulls(self):
        """Requests through a pipe, a byte a read, against cat, which reads them like that too."""
        image, packets = apart(inputs.write_packets, self.folder)
        self.held("pulls", "%d pulls of a byte" % os.path.getsize(packets), cost(self.program, "serve", image, packets=packets),
                  cost("cat", packets=packets), "cat")

    def workers(self):
        """Streams of long replies by one worker and by four: the same bytes, and little more processor time in all."""
        for name in inputs.BULK:
            image, requests = apart(inputs.write_bulk, name, self.folder)
            outputs = [self.folder + "/replies-%d" % count for count in (1, 4)]
            one, four = [cost(self.program, "serve", "--workers", count, "--requests", requests, "--replies", output, image)
                         for count, output in zip("14", outputs)]
            same, ratio = filecmp.cmp(*outputs, shallow=False), four.seconds / max(one.seconds, 0.001)
            self.figures.setdefault("workers", []).append((name, one.seconds, four.seconds))
            self.within = self.within and same and ratio <= MOST_WORKERS
            print("%-30s %8.3f s %6.0f MiB   one worker %5.3f s %6.0f MiB  %5.2f times  %s" % (
                name + " by four", four.seconds, four.memory, one.seconds, one.memory, ratio, "same bytes" if same else "OTHER BYTES"),
                flush=True)
            for path in (image, requests, *outputs):
                os.remove(path)


def main(words):
    parser = argparse.ArgumentParser(description="Times strata, and hostile inputs against honest ones.")
    parser.add_argument("program", type=os.path.abspath)
    parser.add_argument("--quick", action="store_true")
    runs.add_parts(parser, PARTS)
    asked = parser.parse_intermixed_args(words)
    if asked.quick:
        inputs.divide(QUICK)
    place = "/dev/shm" if os.path.isdir("/dev/shm") else None
    with tempfile.TemporaryDirectory(dir=place) as folder:
        bench = Bench(asked.program, folder)
        begun = time.monotonic()
        for part in asked.parts or (HOSTILE if asked.quick else PARTS):
            getattr(bench, part)()
        print("%.0f s in all" % (time.monotonic() - begun))
    return 0 if bench.within else "slower than promised"


if __name__ == "__main__":
    sys.exit(main(sys.argv[1:]))
