"""Starts one of the checks: python3 checks NAME [WORDS..], from any folder. Without a name, tells which there are.

`make NAME` builds what a check needs first. The WORDS of each stand in its file's head.
"""
import ast
import os
import runpy
import sys

sys.path[0] = os.path.dirname(os.path.dirname(os.path.abspath(__file__)))
from checks import ROOT, STARTED


def purpose(path):
    """The first line of a file's head, up to how it is started."""
    with open("%s/checks/%s.py" % (ROOT, path), encoding="utf-8") as it:
        return ast.get_docstring(ast.parse(it.read())).split("\n")[0].partition(": python3 ")[0]


def main(words):
    by_name = {os.path.basename(path): path for path in STARTED}
    if words[:1] and words[0] in by_name:
        sys.argv = words
        runpy.run_module("checks." + by_name[words[0]].replace("/", "."), run_name="__main__", alter_sys=True)
        return
    print("usage: python3 checks NAME [WORDS..], where NAME is one of these\n")
    for name, path in by_name.items():
        print("%-12s checks/%s.py\n    %s" % (name, path, purpose(path)))
    sys.exit(2)


main(sys.argv[1:])
