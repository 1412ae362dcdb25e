"""Proves every crate, and tries the wrong bodies of must-fail/: python3 checks ci [WORDS of rt ci..]

Runs `rt ci`, tells what it tells, and reads what it says of each crates/CRATE/must-fail/NAME.edit. `rt ci` counts an edit
that can't be applied or compiled for nothing, and one that was refused anywhere for refused. Here an edit counts where
the first goal that is not proved stands in a file whose functions the edit changes, or the first error in the written
answers of that file's functions. One that changes no function but a constant counts wherever it was refused.

`rt ci` tries an edit by a check of its whole crate. So an edit may leave out what its function does not use
(`leave_out`): what is left is checked sooner, and no contract of it is another. Where what is left does not compile
without it, the edit is reported here.

The status is that of `rt ci`; 1, too, where an edit does not count.
"""
import glob
import os
import re
import subprocess
import sys

from checks import ROOT
from checks.gate.judged import place_of
from checks.gate.trial_edits import bodies_of

TOLD = re.compile(r"rt: must-fail (\w+/[\w.-]+\.edit): (.*)")
REFUSED = re.compile(r"refused, as it must be: (?:note: )?(?:\./)?((?:src|proofs|specs)/\S+?):\d+:\d+: (?:it is not proved|error)")
LEFT_OUT = "#[cfg(test)] "


def is_in_body(text, old):
    """Whether a piece of a file stands in one of its functions."""
    line = text[:text.index(old)].count("\n")
    return any(it.first <= line <= it.ends for it in bodies_of(text))


def changed(crate, edit):
    """The files of a crate in which an edit changes a function, and does more than to leave it out."""
    file, old, files = None, None, set()
    with open("%s/crates/%s/must-fail/%s" % (ROOT, crate, edit), encoding="utf-8") as lines:
        for line in lines.read().split("\n"):
            word, _, rest = line.partition(": ")
            if word == "file":
                file = rest.strip()
                with open("%s/crates/%s/%s" % (ROOT, crate, file), encoding="utf-8") as source:
                    text = source.read()
            elif word == "old":
                old = rest
            elif line.startswith("new:") and rest != LEFT_OUT + old and is_in_body(text, old):
                files.add(file)
    return files


def stands_there(place, files):
    """Whether a file is one of these, or has written answers of functions of one."""
    modules = [place_of(file) for file in files if file.startswith("src/")]
    return place in files or any(place.startswith("/".join(["proofs", *it, ""])) for it in modules if it)


def fault(name, outcome):
    """Why the edit of this name does not count, by what `rt ci` told of it; None where it does."""
    crate, file = name.split("/")
    found = REFUSED.match(outcome)
    if not found:
        return outcome
    files = changed(crate, file)
    if not files or stands_there(found[1], files):
        return None
    return "refused at %s, and changes %s" % (found[1], ", ".join(sorted(files)))


def passed_on(words):
    """Runs rt ci, passes on what it says, and returns its status and what it told of each edit."""
    told = {}
    with subprocess.Popen(["rt", "ci", *words], cwd=ROOT, stdout=subprocess.PIPE, text=True, errors="replace") as run:
        for line in run.stdout:
            print(line, end="", flush=True)
            edit = TOLD.match(line)
            if edit:
                told[edit[1]] = edit[2]
    return run.returncode, told


def main(words):
    status, told = passed_on(words)
    there = glob.glob(ROOT + "/crates/*/must-fail/*.edit")
    names = {"%s/%s" % (path.split("/")[-3], os.path.basename(path)) for path in there}
    faults = {name: fault(name, told[name]) for name in sorted(names & told.keys())}
    if not words and not status:
        faults.update({name: "rt ci told nothing of it" for name in sorted(names - told.keys())})
    faults = {name: why for name, why in faults.items() if why}
    for name, why in faults.items():
        print("%s does not count: %s" % (name, why))
    print("wrong bodies of must-fail/: %d refused where they stand, %d not" % (len(told.keys() - faults.keys()), len(faults)))
    return status or (1 if faults else 0)


if __name__ == "__main__":
    sys.exit(main(sys.argv[1:]))
