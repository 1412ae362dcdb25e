"""Tries the wrong bodies of trials/gate/CRATE.edits: python3 checks wrong_bodies [--jobs N] [--others] [--only NAME].. [CRATE..]

The prover must refuse each. `rt ci` tries those of must-fail/ by a check of the whole crate, which is what the crate's
proof costs. Here only the function is checked that an edit makes wrong: what its proof takes from others is their
contracts, which stand. What it calls within the crate is checked with it, so leaves cost least.

Each crate is laid into a scratch folder, with the edits of different functions in it together, and one `rattle check
--only` of these functions tries them, over what `rt ci` or `make build` has proved of the crates below. An edit counts
as refused where a goal of its own function is not proved, or its own written answers are refused at more than a name.
What no batch shows refused is tried alone. An edit of anything else than a body, as a constant, has a line `by: NAME`
of the function that is then wrong. Its file may be of a crate below (`file: ../CRATE/specs/..`), if a law here judges
that: the crates from there on are proved anew first. --others tries those of trials/CRATE.edits instead, which `make
trials` tries over what `make kept` kept, but for those of crates below; it leaves those of no body that have no such
line, by name. --only tries those of these names alone. Where no CRATE is named, all edits of trials/ must apply, too.

A line tells of each edit at what it was refused. The status is 0 where all were.
"""
import argparse
import concurrent.futures
import glob
import os
import re
import shutil
import subprocess
import sys
import tempfile
import time

from checks import ROOT
from checks.gate.crates import crates_below, crates_used
from checks.gate.judged import AT_NAME, Said, elsewhere, heads_of, owner_of, place_of, refusals
from checks.gate.kit import Kit
from checks.gate.trial_edits import Edit, Misfit, batches_of, bodies_of, together, written_in

GATE, MOST = "trials/gate", 6
BY = re.compile(r"(?m)^by: *(\S+)\n")
# of some arguments of a type alone; the name of such a function says them
OF_ARGUMENTS = re.compile(r"impl(?:<.*?>)? \w+<[^>]*<")


def edits_at(folder, crate):
    """The edits of a crate as they are written, by their names."""
    path = "%s/%s/%s.edits" % (ROOT, folder, crate)
    return written_in(path) if os.path.exists(path) else {}


def proved_at(crate):
    """Where the statements of a proved crate stand."""
    for place in ("crates/%s/out/rlib/%s.rlib" % (crate, crate), "build/proved/%s.rlib" % crate):
        if os.path.isdir("%s/%s" % (ROOT, place)):
            return "%s/%s" % (ROOT, place)
    sys.exit("%s is not proved: rt ci or make build proves it" % crate)


def name_of(file, text, body):
    """The name that a check gives to a function, by its path in the crate, or the end of that: a method is of its type's module."""
    lines = text.split("\n")
    if lines[body.opens].startswith(" ") or lines[body.first].startswith(" "):
        head = heads_of("\n".join(lines[:body.first]))[-1]
        if OF_ARGUMENTS.match(head):
            return body.name
        _, owner = owner_of(head)
        return "::".join([*([] if owner in elsewhere(text) else place_of(file)), owner, body.name])
    return "::".join([*place_of(file), body.name])


def said_by(words, folder):
    """What a command prints that is run in a folder."""
    return subprocess.run(words, cwd=folder, stdin=subprocess.DEVNULL, stdout=subprocess.PIPE, stderr=subprocess.STDOUT,
                          text=True, errors="replace", check=False).stdout


class Tried:
    """Edits of one crate that are tried together."""

    def __init__(self, crate, edits, room):
        self.crate, self.edits, self.room = crate, edits, room

    def names(self):
        """The functions that they make wrong."""
        names = set()
        for edit in self.edits:
            names.update(BY.findall(edit.written))
            names.update(name_of(file, edit.texts[file], bodies_of(edit.texts[file])[place]) for file, place in edit.changes)
        return sorted(names)

    def anew(self, texts):
        """The crates below that these texts change or that use one of those, lowest first."""
        changed, below = {file.split("/")[1] for file in texts if file.startswith("../")}, crates_below()
        return [name for name in crates_used() if name in below[self.crate] and changed.intersection([name, *below[name]])]

    def check(self, texts):
        """What the prover says of these functions in a crate of these texts."""
        with tempfile.TemporaryDirectory(prefix="wrong-") as folder:
            anew, room = self.anew(texts), folder + "/proved"
            for name in [*anew, self.crate]:
                shutil.copytree("%s/crates/%s" % (ROOT, name), "%s/%s" % (folder, name),
                                ignore=shutil.ignore_patterns("out", "must-fail"))
            for file, text in texts.items():
                with open("%s/%s/%s" % (folder, self.crate, file), "w", encoding="utf-8") as out:
                    out.write(text)
            shutil.copytree(self.room, room, symlinks=True, ignore=shutil.ignore_patterns(*(name + ".rlib" for name in anew)))
            for name in anew:
                printed = said_by(Kit().build(name, "%s/%s" % (folder, name), crates_used()[name], room, 1), "%s/%s" % (folder, name))
                if not os.path.exists("%s/%s.rlib" % (room, name)):
                    return printed
            at = "%s/%s" % (folder, self.crate)
            return said_by(Kit().check(self.crate, at, crates_used()[self.crate], room, self.names()), at)

    def outcomes(self):
        """At what each edit was refused, by its name; where it was not, None and what the prover said."""
        if len(self.edits) == 1 and not self.edits[0].changes:
            texts, (edit,) = self.edits[0].texts, self.edits
            printed = self.check(texts)
            said = Said(printed)
            found = said.verdict() if said.is_ended else None
            return {edit.name: (None if found and found.startswith(AT_NAME) else found, printed)}
        texts = together(self.edits, "%s/crates/%s" % (ROOT, self.crate))
        printed = self.check(texts)
        said = Said(printed)
        found = refusals(self.edits, said, texts) if said.is_ended else {}
        outcomes = {it.name: (found.get(it.name), printed) for it in self.edits}
        for edit in self.edits if len(self.edits) > 1 else ():
            if not outcomes[edit.name][0]:
                outcomes.update(Tried(self.crate, [edit], self.room).outcomes())
        return outcomes


def edits_of(place, crate, only=()):
    """The edits of a crate, each of which must apply; those of these names alone, if there are any."""
    folder = "%s/crates/%s" % (ROOT, crate)
    try:
        return [Edit(name, text, folder) for name, text in edits_at(place, crate).items() if name in only or not only]
    except Misfit as why:
        sys.exit("%s/%s.edits: %s" % (place, crate, why))


def batches(place, crate, only, room):
    """The edits of a crate in batches, those of something else than bodies alone."""
    edits = edits_of(place, crate, only)
    lost = [it for it in edits if not it.changes and not BY.search(it.written)]
    if lost and place == GATE:
        sys.exit("%s/%s.edits: %s changes no body and has no line by:" % (place, crate, lost[0].name))
    for it in lost:
        print("left to make trials, which checks the whole crate: %s/%s" % (crate, it.name))
        edits.remove(it)
    groups = batches_of([it for it in edits if it.changes], MOST) + [[it] for it in edits if not it.changes]
    return [Tried(crate, group, room) for group in groups]


def crates_with(place):
    """The crates that have edits there."""
    return sorted(os.path.basename(it)[:-len(".edits")] for it in glob.glob("%s/%s/*.edits" % (ROOT, place)))


def lines_of(crate):
    return sum(os.path.getsize(path) for path in glob.glob("%s/crates/%s/*/**" % (ROOT, crate), recursive=True))


def timed(tried):
    """What came of edits, and how many seconds it took."""
    begun = time.monotonic()
    return tried.outcomes(), time.monotonic() - begun


def say(tried, outcomes, seconds):
    """Tells what came of each edit; how many were refused."""
    print("%s: %s together, %d s" % (tried.crate, len(outcomes), seconds))
    for name, (found, printed) in outcomes.items():
        print("wrong body %s/%s: %s" % (tried.crate, name, "refused: %s" % found if found else "NOT REFUSED"), flush=True)
        if not found:
            print(printed[-3000:], flush=True)
    return sum(bool(found) for found, _ in outcomes.values())


def main(words):
    wanted = argparse.ArgumentParser(prog="wrong_bodies", description="Tries the wrong bodies of trials/gate.")
    wanted.add_argument("crates", nargs="*", metavar="CRATE")
    wanted.add_argument("--others", action="store_true", help="those of trials/ instead")
    wanted.add_argument("--only", action="append", default=[], metavar="NAME", help="the edit of this name")
    wanted.add_argument("--jobs", type=int, default=len(os.sched_getaffinity(0)), help="the checks at a time")
    given = wanted.parse_args(words)
    place = "trials" if given.others else GATE
    there = crates_with(place)
    unknown = [name for name in given.crates if name not in there] + [name for name in there if name not in crates_used()]
    if unknown:
        sys.exit("no wrong bodies of %s" % ", ".join(unknown))
    for crate in () if given.crates else crates_with("trials"):
        edits_of("trials", crate)
    crates, below = given.crates or there, crates_below()
    with tempfile.TemporaryDirectory(prefix="proved-") as room:
        for name in sorted({other for crate in crates for other in below[crate]}):
            os.symlink(proved_at(name), "%s/%s.rlib" % (room, name))
        tries = [it for crate in sorted(crates, key=lines_of, reverse=True) for it in batches(place, crate, given.only, room)]
        refused = 0
        with concurrent.futures.ThreadPoolExecutor(given.jobs) as pool:
            begun = {pool.submit(timed, it): it for it in tries}
            for done in concurrent.futures.as_completed(begun):
                refused += say(begun[done], *done.result())
    of = sum(len(it.edits) for it in tries)
    print("wrong bodies: %d refused, %d not" % (refused, of - refused))
    return 0 if refused == of else 1


if __name__ == "__main__":
    sys.exit(main(sys.argv[1:]))
