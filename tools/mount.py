#!/usr/bin/env python3
"""Mounts romfs images, as strata_mount/command.py says. Installed it is strata-mount."""
import sys

from strata_mount.command import main

if __name__ == "__main__":
    sys.exit(main(sys.argv[1:], "mount.py"))
