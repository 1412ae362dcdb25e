"""Mounts for mount(8), as strata_mount/helper.py says. Installed it is mount.strata."""
import sys

from strata_mount.helper import main

if __name__ == "__main__":
    sys.exit(main(sys.argv[1:]))
