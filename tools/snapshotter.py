#!/usr/bin/env python3
"""Serves snapshots to containerd, as strata_snapshotter/command.py says."""
import sys

from strata_snapshotter.command import main

if __name__ == "__main__":
    sys.exit(main(sys.argv[1:]))
