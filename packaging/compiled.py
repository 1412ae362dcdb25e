"""Compiles modules for the Python that runs it: python3 -IBS packaging/compiled.py FOLDER OUT
NAME..

Each NAME is a module's path below FOLDER. Python takes what is written below OUT as long as the
module has the bytes that it was made of. The same modules and the same Python give the same bytes.
"""
import importlib.util
import os
import py_compile
import sys


def main(folder, out, *names):
    for name in names:
        place = importlib.util.cache_from_source(os.path.join(out, name))
        py_compile.compile(os.path.join(folder, name), place, name, True,
                           invalidation_mode=py_compile.PycInvalidationMode.CHECKED_HASH)


if __name__ == "__main__":
    main(*sys.argv[1:])
