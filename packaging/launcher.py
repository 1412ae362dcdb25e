#!/usr/bin/env -S -u PYTHONEXECUTABLE -u __PYVENV_LAUNCHER__ @PYTHON@ -@FLAGS@
# @NAME@: what it does stands in lib/strata beside this file, wherever a link to it stands.
import _signal as signal  # built in: it is there at once

# while modules are loaded SIGINT just ends the program, without Python's own lines
interrupted = signal.getsignal(signal.SIGINT)
if interrupted is signal.default_int_handler:
    signal.signal(signal.SIGINT, signal.SIG_DFL)

import os
import sys

# OpenSSL, from which only hashes are taken, would run what these name
for name in ("OPENSSL_CONF", "OPENSSL_MODULES", "OPENSSL_ENGINES"):
    os.environ.pop(name, None)
# a folder of the caller's PATH may be a stranger's
if os.geteuid() == 0:
    os.environ["PATH"] = "/usr/local/sbin:/usr/local/bin:/usr/sbin:/usr/bin:/sbin:/bin"
HERE = os.path.dirname(os.path.dirname(os.path.realpath(__file__)))
sys.path.insert(0, os.path.join(HERE, "lib", "strata"))
from @MODULE@ import main

try:
    signal.signal(signal.SIGINT, interrupted)
    sys.exit(main(@WORDS@))
except KeyboardInterrupt:
    sys.exit(130)
