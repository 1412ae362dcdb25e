"""Checks of strata-snapshotter's service by a client: python3 checks snapshots PROGRAM

Each runs in a mount namespace of its own. Without python3-grpcio, for others than root, or where
nothing can be mounted, they are left out, which one line says.
"""
import contextlib
import os
import sys
import tempfile

from checks.engines import calls, early, faults, layers
from checks.engines.snapshotters import Snapshotter, python_with_grpc
from checks.shared.mounting import Failed, apart, children, hold, try_mount, wait_until


def inside(check, program, folder):
    """Runs a check over a new snapshotter in a folder; at its end nothing may be left."""
    snapshotter = Snapshotter(program, folder).start()
    check(snapshotter)
    snapshotter.remove_all()
    # an image may still be made of a layer that is removed
    with contextlib.suppress(Failed):
        wait_until("nothing is left", lambda: not snapshotter.left())
    hold("what is left", [], snapshotter.left())
    hold("status", 0, snapshotter.stop())
    wait_until("the servers end", lambda: not reaped())
    return "passed"


def reaped():
    """Waits for children that have ended; those that are left."""
    for child in children():
        os.waitpid(child, os.WNOHANG)
    return children()


def main(words):
    program, python = os.path.abspath(words[0]), python_with_grpc()
    if python is None:
        print("snapshots: left out: no python3-grpcio and python3-protobuf here")
        return True
    if python != sys.executable:
        os.execv(python, [python, "-B", os.path.dirname(os.path.dirname(os.path.abspath(__file__))),
                          "snapshots", *words])
    with tempfile.TemporaryDirectory() as folder:
        why = apart(lambda: try_mount(folder)) if os.geteuid() == 0 else "only root makes devices"
    if why != "yes":
        print("snapshots: left out: %s" % why)
        return True
    every, failed = (*calls.CHECKS, *layers.CHECKS, *early.CHECKS, *faults.CHECKS), 0
    for check in every:
        with tempfile.TemporaryDirectory(prefix="snapshots-") as folder:
            said = apart(lambda: inside(check, program, folder))
        if said != "passed":
            print("snapshots: %s: %s" % (check.__name__[len("check_"):].replace("_", " "), said),
                  flush=True)
            failed += said.startswith("FAILED")
    print("snapshots: %d checks, %d failed" % (len(every), failed))
    return failed == 0


if __name__ == "__main__":
    sys.exit(0 if main(sys.argv[1:]) else 1)
