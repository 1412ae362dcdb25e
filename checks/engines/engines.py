"""Checks with containerd, runc and a registry: python3 checks engines PROGRAM [NAME..]

A NAME is that of a check, as `many_at_once`; `hundreds_of_kills` runs only by its name. With
--measure [STARGZ] it measures (checks/engines/measure.py).

All runs in namespaces of its own, which end with it. It needs root, and Debian's packages
containerd, runc, docker-registry, skopeo, busybox-static, python3-grpcio and python3-protobuf.
"""
import os
import secrets
import shutil
import subprocess
import sys
import tempfile
import time

from checks.engines import stargz
from checks.engines.groups import remove_group
from checks.engines.machine import PROGRAMS, Machine, begin_loopback
from checks.engines.snapshotters import python_with_grpc
from checks.shared.mounting import Failed, LeftOut

INSIDE = "STRATA_ENGINES_INSIDE"
NAMESPACES = ("unshare", "--mount", "--pid", "--net", "--fork", "--mount-proc", "--propagation",
              "private", "--kill-child")


def missing():
    """What is missing here, in words."""
    found = [it for it in PROGRAMS if shutil.which(it) is None]
    if python_with_grpc() is None:
        found.append("python3-grpcio or python3-protobuf")
    return found + ["root"] * (os.geteuid() != 0)


def go_inside(words):
    """Runs all in new namespaces and in a new folder; whether all is right."""
    checks = os.path.dirname(os.path.dirname(os.path.abspath(__file__)))
    # containerd takes few names for a namespace, and none as mkdtemp may make
    folder = os.path.join(tempfile.gettempdir(), "engines-" + secrets.token_hex(8))
    os.mkdir(folder, 0o700)
    try:
        words = [*NAMESPACES, "--", python_with_grpc(), "-B", checks, "engines", *words]
        done = subprocess.run(words, env={**os.environ, INSIDE: folder}, check=False)
        return done.returncode == 0
    finally:
        # with the namespaces the mounts in it have ended
        shutil.rmtree(folder)
        remove_group(folder)


def run(checks, machine):
    """Runs checks over a machine; how many failed."""
    failed = 0
    for check in checks:
        begin, name = time.monotonic(), check.__name__[len("check_"):].replace("_", " ")
        try:
            check(machine)
            said = "passed"
        except LeftOut as missing_here:
            said = "left out: %s" % missing_here
        except Exception as wrong:
            said = "FAILED: %s" % (wrong if isinstance(wrong, Failed) else repr(wrong))
            failed += 1
        print("engines: %s: %s (%.1f s)" % (name, said, time.monotonic() - begin), flush=True)
        if failed:
            print(machine.last_lines(), flush=True)
            break
    return failed


def main(words):
    program = os.path.abspath(words[0])
    lacking = missing()
    if lacking:
        print("engines: left out: no %s here" % ", no ".join(lacking))
        return True
    if INSIDE not in os.environ:
        if words[1:2] == ["--measure"] and len(words) > 2:
            words[2] = stargz.built(words[2])
        return go_inside([program, *words[1:]])
    folder = os.environ.pop(INSIDE)
    for place in ("/run", folder):
        # in memory, so that the disk decides nothing
        subprocess.run(["mount", "-t", "tmpfs", "-o", "mode=755", "tmpfs", place], check=True)
    return inside(Machine(program, folder), words)


def inside(machine, words):
    from checks.engines import containers, imports, measure, others, pods
    begin_loopback()
    try:
        if "--measure" in words:
            measure.install(machine)
            machine.start()
            measure.measure(machine, words[2] if len(words) > 2 else None)
            return True
        machine.start()
        every = [*containers.CHECKS, *imports.CHECKS, *pods.CHECKS, *others.CHECKS]
        if words[1:]:
            every = [it for it in (*every, *containers.LONG)
                     if it.__name__[len("check_"):] in words[1:]]
        failed = run(every, machine)
        print("engines: %d failed" % failed)
        return failed == 0
    finally:
        machine.stop()


if __name__ == "__main__":
    sys.exit(0 if main(sys.argv[1:]) else 1)
