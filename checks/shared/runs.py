"""Runs of a program: what each wrote, and what it took.

What a run takes is its own processor time, so that it tells the same beside busy neighbours. The clock judges nothing: it
only ends what hangs, after a minute.
"""
import argparse
import concurrent.futures
import fcntl
import os
import select
import signal
import struct
import termios
import threading
import time
from collections import namedtuple

MINUTE = 60
# how a run ended (None: it hung, and was killed), what it wrote to its pipes, its processor time in seconds, user and
# system, the most memory that it had at one moment, in MiB, and how many writes it made (where nothing is fed to it)
Ended = namedtuple("Ended", "status output errors seconds memory writes")


def ended(child):
    """Waits for a program that `subprocess.Popen` started, and reads its pipes meanwhile."""
    def read(stream):
        if stream is None:
            return b""
        with stream:
            return stream.read()

    # child.kill would wait for a child that has ended, and take what wait4 is to tell below
    patience = threading.Timer(MINUTE, os.kill, (child.pid, signal.SIGKILL))
    patience.start()
    with concurrent.futures.ThreadPoolExecutor(2) as readers:
        output, errors = readers.map(read, (child.stdout, child.stderr))
    os.waitid(os.P_PID, child.pid, os.WEXITED | os.WNOWAIT)
    before = writes_of("self")
    _, status, used = os.wait4(child.pid, 0)
    writes = writes_of("self") - before  # those of a child are its parent's once it was waited for
    has_hung = not patience.is_alive()
    patience.cancel()
    child.returncode = os.waitstatus_to_exitcode(status)
    return Ended(None if has_hung else child.returncode, output, errors, used.ru_utime + used.ru_stime, used.ru_maxrss / 1024,
                 writes)


def writes_of(process):
    """How many writes a process has made, with those of the children that it has waited for."""
    with open("/proc/%s/io" % process, encoding="ascii") as lines:
        return int(dict(line.split(":") for line in lines)["syscw"])


def feed(pieces, pipe):
    """Writes pieces into a pipe in a thread of its own, each when the one before was taken out, as long as anyone reads."""
    def write():
        unread = select.poll()
        unread.register(pipe, 0)
        try:
            for piece in pieces:
                os.write(pipe, piece)
                while struct.unpack("i", fcntl.ioctl(pipe, termios.FIONREAD, bytes(4)))[0] and not unread.poll(0):
                    time.sleep(0)
        except OSError:
            pass
        finally:
            os.close(pipe)

    threading.Thread(target=write, daemon=True).start()


def add_parts(parser, known):
    """Lets a tool be asked for some of its parts by their names."""
    def part(name):
        if name not in known:
            raise argparse.ArgumentTypeError("no such part: %s" % name)
        return name

    parser.add_argument("parts", nargs="*", type=part, metavar="PART", help=", ".join(known))
