"""Tries the wrong bodies of trials/CRATE.edits: python3 checks trials [--all] [--only NAME].. [--jobs N] [CRATE..]

The prover must refuse each. --all tries those of the gate too, --only those of these names alone. The last line says
how many were refused; the status is 0 where these are all. What a crate's run showed is written into
trials/outcomes.txt: a run of all takes the place of the crate's earlier lines, one of some is a line below them.

Each crate is laid into a scratch copy of the repository, with what `make kept` kept of it and of the crates below.
Edits that change bodies alone, each another function's, are laid into it together, and one `rt check --only` of these
functions tries them. That is fair: what a function's proof takes from another is its contract, which stands, and never
its body or its proof. So a wrong body is judged by its own goals: it counts as refused where one of them is, at a
place within the function, or in its own written answers; that it calls what is not proved does not count. Where a
batch does not compile, the edit at the place of the error is taken out and the others are tried again.

Any other edit, and each that no batch shows refused, is tried alone: by a whole check of the crate over what was kept,
and where that shows nothing by `rt must-fail`, from nothing. "Only at a name" is what fails since a written answer
names what the edit removed, which tells little of the contract.
"""
import argparse
import glob
import os
import re
import resource
import shutil
import subprocess
import sys
import tempfile
import time

from checks import ROOT
from checks.gate.crates import copied, crates_below
from checks.gate.judged import Said, is_in, refusals, rest_of
from checks.gate.trial_edits import Edit, Misfit, batches_of, bodies_of, together, written_in

OUTCOMES = ROOT + "/trials/outcomes.txt"
MOST = 12


class Trials:
    """The edits of one crate, tried in a scratch copy."""

    def __init__(self, crate, room, jobs):
        self.crate, self.room, self.jobs = crate, room, jobs
        self.folder, self.kept, self.said = "%s/crates/%s" % (room, crate), room + "/kept", ""
        self.check([])
        if "\nlogic=proved" not in self.said:
            sys.exit("%s is not proved as it stands\n%s" % (crate, self.said[-2000:]))
        self.names = re.findall(r"(?m)^fn (\S+): proved", self.said)
        shutil.copytree(self.folder, self.kept)

    def check(self, words):
        done = subprocess.run(["rt", "check", "--jobs", self.jobs, *words], cwd=self.folder, text=True,
                              stdin=subprocess.DEVNULL, stdout=subprocess.PIPE, stderr=subprocess.STDOUT,
                              errors="replace", check=False)
        self.said = done.stdout

    def lay(self, texts):
        """The crate with these texts instead of its own, and what was kept of it."""
        shutil.rmtree(self.folder)
        shutil.copytree(self.kept, self.folder)
        for file, text in texts.items():
            with open("%s/%s" % (self.folder, file), "w", encoding="utf-8") as out:
                out.write(text)

    def named(self, edit):
        """The names that a check gives to the functions that an edit changes: all that end alike in their module."""
        found = set()
        for file, name in edit.keys:
            ends = {it.name for it in bodies_of(edit.texts[file]) if it.cycle == name} or {name}
            for it in self.names:
                crate, *parts = it.split("::")
                if crate == self.crate and parts[-1] in ends and is_in(parts, file, edit.texts[file]):
                    found.add(it)
        return found

    def batch(self, edits):
        """At what each of these edits was refused, by its name; None where this does not tell."""
        texts = together(edits, self.kept)
        self.lay(texts)
        names = sorted(set().union(*map(self.named, edits)))
        self.check([word for name in names for word in ("--only", name)])
        said = Said(self.said)
        if not said.is_ended:
            left = rest_of(edits, said, texts)
            return {**{it.name: None for it in edits}, **(self.batch(left) if 0 < len(left) < len(edits) else {})}
        return refusals(edits, said, texts)

    def alone(self, edit):
        """Whether an edit is refused by a check of the whole crate, and at what."""
        self.lay(edit.texts)
        self.check([])
        said = Said(self.said)
        if "\nlogic=not-proved" in self.said and all(it[0].startswith("proofs/") for it in said.errors):
            found = said.verdict()
            if found:
                return True, found
        self.lay({})
        os.makedirs(self.folder + "/must-fail")
        with open("%s/must-fail/%s.edit" % (self.folder, edit.name), "w", encoding="utf-8") as out:
            out.write(edit.written)
        done = subprocess.run(["rt", "must-fail", self.crate], cwd=self.room, stdout=subprocess.PIPE,
                              stderr=subprocess.STDOUT, text=True, errors="replace", check=False)
        is_refused = ": refused, as it must be" in done.stdout
        return is_refused, "%s%s" % ("must-fail, " * is_refused, done.stdout.strip().split("\n")[-1][:200])

    def say(self, edit, text):
        print("%s %s: %s" % (self.crate, edit, text), flush=True)

    def run(self, written):
        """At what those of these edits were refused that are."""
        edits, kinds = [], []
        for name, text in written.items():
            try:
                edits.append(Edit(name, text, self.kept))
            except Misfit as why:
                self.say(name, "DOES NOT FIT: %s" % why)
        fit = [it for it in edits if self.named(it)]
        left = [it for it in edits if it not in fit]
        groups = batches_of(fit, MOST)
        for at, group in enumerate(groups):
            begun = time.monotonic()
            outcomes = self.batch(group)
            print("%s: batch %d of %d, %d s" % (self.crate, at + 1, len(groups), time.monotonic() - begun))
            for edit in group:
                found = outcomes[edit.name]
                self.say(edit.name, "refused: %s" % found if found else "not told, so tried alone below")
                kinds += [found.partition(",")[0]] if found else []
                left += [edit] if found is None else []
        for edit in left:
            begun = time.monotonic()
            is_refused, found = self.alone(edit)
            kinds += [found.partition(",")[0]] if is_refused else []
            self.say(edit.name, "%s: %s; alone, %d s" % ("refused" if is_refused else "NOT REFUSED", found,
                                                         time.monotonic() - begun))
        return kinds


def crates_with_trials():
    return sorted(os.path.basename(path)[:-len(".edits")] for path in glob.glob(ROOT + "/trials/*.edits"))


def commit():
    """The commit that is tried, with a + where its crates or trials were changed since."""
    def git(*words):
        return subprocess.run(["git", *words], cwd=ROOT, stdout=subprocess.PIPE, text=True, check=True).stdout.strip()
    changed = git("status", "--porcelain", "--", "crates", "trials", ":!trials/outcomes.txt")
    return git("rev-parse", "--short", "HEAD") + "+" * bool(changed)


def note(crate, outcome, only):
    """Writes the outcome of a crate, or of the edits of these names alone. Crates that have no trials any more are left out."""
    part = "only %s: " % ", ".join(only) if only else ""

    def is_kept(line):
        name, _, rest = line.partition(": ")
        if name != crate:
            return not line.startswith("#") and name in there
        return only and not rest.startswith(part)

    there = crates_with_trials()
    with open(OUTCOMES, encoding="utf-8") as kept:
        lines = kept.read().splitlines()
    heads = [it for it in lines if it.startswith("#")]
    outcomes = sorted([*filter(is_kept, lines), "%s: %s%s" % (crate, part, outcome)], key=lambda it: it.partition(":")[0])
    with open(OUTCOMES, "w", encoding="utf-8") as out:
        out.write("\n".join([*heads, *outcomes]) + "\n")


def edits_of(crate, with_gate, only):
    """The edits of a crate as they are written, by their names: those of these names alone, where there are any. Those
    of crates below are left to wrong_bodies."""
    paths = glob.glob("%s/trials/%s.edits" % (ROOT, crate))
    if with_gate:
        paths += glob.glob("%s/trials/gate/%s.edits" % (ROOT, crate))
        paths += sorted(glob.glob("%s/crates/%s/must-fail/*.edit" % (ROOT, crate)))
    try:
        edits = {name: text for path in paths for name, text in written_in(path).items()}
    except Misfit as why:
        sys.exit(str(why))
    return {name: text for name, text in edits.items() if (name in only or not only) and "\nfile: ../" not in "\n" + text}


def tried(crate, others, edits, with_gate, is_whole, jobs):
    """How many of these edits of a crate were refused."""
    begun = time.monotonic()
    print("%s: %d edits" % (crate, len(edits)), flush=True)
    with tempfile.TemporaryDirectory(prefix="trials-") as room:
        copied(crate, others, room)
        kinds = Trials(crate, room, jobs).run(edits)
    counts = "".join(", %d %s" % (kinds.count(it), it) for it in sorted(set(kinds)))
    outcome = "%d of %d refused%s" % (len(kinds), len(edits), counts)
    dated = "%s; %sat %s, %s" % (outcome, "with those of the gate, " * with_gate, commit(), time.strftime("%Y-%m-%d"))
    note(crate, dated, [] if is_whole else edits)
    print("%s: %s; %d s" % (crate, outcome, time.monotonic() - begun), flush=True)
    return len(kinds)


def main(words):
    wanted = argparse.ArgumentParser(prog="trials.py", description="Tries the wrong bodies of trials/CRATE.edits.")
    wanted.add_argument("crates", nargs="*", metavar="CRATE")
    wanted.add_argument("--all", action="store_true", help="those of the gate too")
    wanted.add_argument("--only", action="append", default=[], metavar="NAME", help="the edit of this name")
    wanted.add_argument("--jobs", default="2", help="the processors that a check may use")
    given = wanted.parse_args(words)
    below, there = crates_below(), crates_with_trials()
    unknown = [name for name in given.crates if name not in (below if given.all else there)]
    lost = [name for name in there if name not in below]
    if unknown or lost:
        sys.exit("no trials of %s" % ", ".join(unknown) if unknown else "trials of no crate: %s" % ", ".join(lost))
    edits = {crate: edits_of(crate, given.all, given.only) for crate in given.crates or there}
    missing = [name for name in given.only if not any(name in it for it in edits.values())]
    if missing:
        sys.exit("no edit %s" % ", ".join(missing))
    refused = sum(tried(crate, below[crate], it, given.all, not given.only, given.jobs) for crate, it in edits.items() if it)
    used = resource.getrusage(resource.RUSAGE_CHILDREN)
    print("%d minutes of one processor" % ((used.ru_utime + used.ru_stime) / 60))
    print("%d refused, %d not" % (refused, sum(map(len, edits.values())) - refused))
    sys.exit(0 if refused == sum(map(len, edits.values())) else 1)


if __name__ == "__main__":
    main(sys.argv[1:])
