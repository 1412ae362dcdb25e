"""The crates of crates.txt, what each uses, and a copy of the repository for one of them."""
import shutil

from checks import ROOT


def crates_used():
    """Each crate of crates.txt with the libraries that it uses, of the repository and of the kit."""
    named = {}
    with open(ROOT + "/crates.txt", encoding="utf-8") as lines:
        for line in lines:
            if ":" in line and not line.startswith("#"):
                head, _, rest = line.partition(":")
                named[head.split()[0]] = rest.split()
    return named


def crates_below():
    """Each crate of crates.txt with the crates of the repository that it uses, at any distance."""
    named = crates_used()
    below = {}

    def visit(name):
        if name not in below:
            below[name] = []
            for other in named[name]:
                if other in named:
                    below[name] += [other, *visit(other)]
            below[name] = sorted(set(below[name]))
        return below[name]

    for name in named:
        visit(name)
    return below


def copied(crate, others, room, copy=shutil.copy2):
    """A copy of the repository that holds this crate, what it uses, and what was kept of these."""
    lines = open(ROOT + "/crates.txt", encoding="utf-8").read().splitlines()
    kept = [line for line in lines if line.partition(":")[0].split()[:1] in [[name] for name in [crate, *others]]]
    with open(room + "/crates.txt", "w", encoding="utf-8") as out:
        out.write("\n".join(kept) + "\n")
    shutil.copy(ROOT + "/HANDLES", room)
    for name in [crate, *others]:
        ignored = shutil.ignore_patterns("must-fail", *(["incremental"] if name != crate else []))
        shutil.copytree("%s/crates/%s" % (ROOT, name), "%s/crates/%s" % (room, name), ignore=ignored,
                        copy_function=copy)
