"""Sees that the program names the logic that proves it: python3 checks logic

`rt version` ends with the beginning of the checksum of the prover's logic. The program says it (`version.rt` of strata_words),
and README, USE and the checks of what is installed name it. A file that does not is a line each, and then the status is 1.
"""
import sys

from checks import ROOT
from checks.gate.kit import said

NAMING = ("crates/strata_words/src/version.rt", "cases/words.case", "checks/installed/programs.py", "README.md", "docs/USE.md")


def main():
    logic = said("rt", "version").split()[-1]
    wrong = 0
    for name in NAMING:
        with open("%s/%s" % (ROOT, name), encoding="utf-8") as it:
            if logic not in it.read():
                print("%s: does not name the logic %s of this prover" % (name, logic))
                wrong += 1
    print("logic %s, named in %d files, not in %d" % (logic, len(NAMING) - wrong, wrong))
    return 1 if wrong else 0


if __name__ == "__main__":
    sys.exit(main())
