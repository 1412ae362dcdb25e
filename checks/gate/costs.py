"""Where the time of a crate's proof goes, by function and by goal: python3 checks costs [--most N] CRATE

The crate is checked from nothing with one job, over what `make build` has proved of the crates below it, or `--proved
FOLDER` holds of them; of a crate of tests, its tests. The prover writes a file for each part of a proof as it comes to
its end, so the time between two files is what the later one took. A line tells of each of the N functions (20) that
took longest, the seconds by the clock, and how much of them were its steps (`Lts`: what may live and is dropped on each
path through it), its proof, the tie of both, and the rest. Where one function takes a tenth of its crate, fewer paths on which
fewer things live are cheaper: split it where a `?` is passed while much is owned.

Then a line of each of the N goals for which the prover took most steps. These it counts itself, so they are the same
on every machine, whatever runs beside; a million of them takes up to a second. A written answer may spare them, but
not in a cycle of calls, where it has its statement made twice more: measure it.

The status is that of the check.
"""
import argparse
import collections
import os
import re
import subprocess
import sys
import tempfile

from checks import ROOT
from checks.gate.crates import crates_used
from checks.gate.kit import Kit

PARTS = {"Lts": "steps", "Proof": "proof", "Answers": "proof", "Goals": "proof", "Tie": "tie"}
# a declaration in what the prover keeps of a part: its name, and the steps that it took by kind
DECLARATION = re.compile(r'"name":"((?:[^"\\\\]|\\\\.)*)","notes":.*?"steps":\[(\d+),(\d+),(\d+)\]')
# what stands for all members of a cycle, once each of them is proved
OF_ALL = ("-passed", "_spec")


def command(crate, proved, kept):
    """What checks the crate, and keeps the files of its parts below `kept`."""
    folder = "%s/crates/%s" % (ROOT, crate)
    words = Kit().build(crate, folder, crates_used()[crate], proved, 1)
    end = words.index("--statements" if "--statements" in words else "--toolchain")
    words[1] = "check"
    tests = ["--test"] if crate.endswith("_tests") else []
    return [*words[:end], "--incremental", kept, *tests, words[-1]], folder


def files_of(kept):
    """The files that were kept, by their folders: those of parts, and the records of these."""
    for folder, _, names in os.walk(kept):
        for name in names:
            if name.endswith(".oantt"):
                yield os.path.basename(folder) == "records", "%s/%s" % (folder, name)


def place_of(crate, path):
    """The words of the path of a part in the crate, and its kind."""
    name = os.path.basename(path).removesuffix(".oantt").removesuffix(".decls")
    words = name.removeprefix("Rattle-%s-" % crate).split(".")
    return words, words[-1].partition("-")[0]


def parts_of(kept):
    """The parts of the proof and the seconds that each took, in the order in which they came."""
    files = sorted((os.stat(path).st_mtime, path) for is_record, path in files_of(kept) if not is_record)
    return [(path, after - before) for (before, _), (after, path) in zip(files, files[1:])]


def by_function(crate, parts):
    """The seconds of each function, by its parts."""
    spent = collections.defaultdict(collections.Counter)
    for path, seconds in parts:
        words, kind = place_of(crate, path)
        function = ".".join(words[1:-1]) if words[0] == "proofs" and len(words) > 2 else "all else"
        spent[function][PARTS.get(kind, "rest")] += seconds
    return spent


def goals_of(crate, kept):
    """The goals of functions, each with the steps that the prover took, the most first."""
    found = []
    for is_record, path in files_of(kept):
        words, kind = place_of(crate, path)
        if not is_record or PARTS.get(kind) != "proof":
            continue
        with open(path, "rb") as file:
            text = file.read().decode("utf-8", "replace")
        for name, *steps in DECLARATION.findall(text):
            if not name.endswith(OF_ALL):
                found.append((sum(map(int, steps)), ".".join(words[1:-1]), name))
    return sorted(found, reverse=True)


def main():
    parser = argparse.ArgumentParser(description=__doc__.partition("\n")[0])
    parser.add_argument("crate")
    parser.add_argument("--most", type=int, default=20)
    parser.add_argument("--proved", default=ROOT + "/build/proved")
    given = parser.parse_args()
    if given.crate not in crates_used():
        sys.exit("%s is no crate of crates.txt" % given.crate)
    with tempfile.TemporaryDirectory() as kept:
        words, folder = command(given.crate, os.path.abspath(given.proved), kept)
        done = subprocess.run(words, cwd=folder, stdout=subprocess.PIPE, stderr=subprocess.STDOUT, text=True, check=False)
        spent, goals = by_function(given.crate, parts_of(kept)), goals_of(given.crate, kept)
    if done.returncode:
        print(done.stdout[-2000:])
    total = sum(sum(counts.values()) for counts in spent.values())
    print("%6.0f seconds, %d functions" % (total, len(spent) - 1))
    for function, counts in sorted(spent.items(), key=lambda item: -sum(item[1].values()))[:given.most]:
        told = ", ".join("%s %.1f" % (part, seconds) for part, seconds in counts.most_common())
        print("%6.1f %s: %s" % (sum(counts.values()), function, told))
    print("million steps of %.0f, by goal" % (sum(steps for steps, _, _ in goals) / 1e6))
    for steps, function, goal in goals[:given.most]:
        print("%6.1f %s: %s" % (steps / 1e6, function, goal))
    sys.exit(done.returncode)


if __name__ == "__main__":
    main()
