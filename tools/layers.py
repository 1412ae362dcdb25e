#!/usr/bin/env python3
"""Makes romfs images of a container image's layers, as strata_layers/command.py says.

Installed it is strata-layers.
"""
import sys
sys.dont_write_bytecode = True

from strata_layers.command import main

if __name__ == "__main__":
    sys.exit(main(sys.argv[1:]))
