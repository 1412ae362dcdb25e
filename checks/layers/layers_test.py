"""Tests tools/layers.py: python3 checks layers_test [PROGRAM]

Layouts are made on the spot. Those that must be taken are: their images go through `check --strict` and `list`, all is
read back through `serve`, and it must be what the plain reading of the same archives says (checks/plain/plain_layers.py); so must
what the images' trailers say, by the plain reading of these. Those that must be refused are: with the one line that is printed,
status 1, and no file left behind. The layout in demo is tried too. Without PROGRAM only the images are looked at. Linux's own
romfs reads an image with a trailer, where this kernel has it, and in another one where STRATA_KERNEL names its package
(checks/shared/other_kernel.py). The status is 0 where no test fails.
"""
import os
import shutil
import sys

from checks.layers import (added_trailers, folder_images, kept_attributes, lost_attributes, read_layouts,
                           refused_layers, sealed_images, sparse_layers, split_layers, taken_layers, written_folders, written_trailers)
from checks.layers.layer_room import LeftOut, Room
from checks.layers.shown_trees import Unlike
from checks.plain import plain_layers

MODULES = (folder_images, taken_layers, refused_layers, sparse_layers, split_layers, read_layouts,
           written_folders, written_trailers, added_trailers, lost_attributes, kept_attributes, sealed_images)


def main(strata):
    tests = [(name[5:].replace("_", " "), test) for module in MODULES for name, test in vars(module).items()
             if name.startswith("test_")]
    failed = left_out = 0
    for name, test in tests:
        room = Room(strata)
        try:
            test(room)
        except (Unlike, plain_layers.Impossible) as wrong:
            print("layers: %s: %s" % (name, wrong or "no image holds this"))
            failed += 1
        except LeftOut as missing:
            print("layers: %s: left out: %s" % (name, missing))
            left_out += 1
        finally:
            shutil.rmtree(room.path)
    print("layers: %d passed, %d failed" % (len(tests) - failed - left_out, failed))
    return failed == 0


if __name__ == "__main__":
    sys.exit(0 if main(os.path.abspath(sys.argv[1]) if len(sys.argv) > 1 else None) else 1)
