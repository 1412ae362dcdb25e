"""The process that Launcher keeps: it waits for words, and forks for each run of strata-mount.

    sys.exit(main(words_to_run(), "strata-mount"))      comes to main in the new processes alone

Its standard input is a socket that gives one for each run. The words come there, and what the run
says goes back, and behind that one byte, its status. It ends with the service, which has the other
end. All modules that a mount needs are loaded here.
"""
import _signal as signal
import _socket as socket
import os
import sys

# main is passed on
from strata_mount import dead_mounts, kernel_seals, sharing
from strata_mount.command import main

LOADED = dead_mounts, kernel_seals, sharing, main
# of a descriptor that comes through a socket
INT_SIZE = 4
STATUSES = 0xff


def received(outer):
    """The descriptor that comes next, or None behind the last."""
    data, found, *_ = outer.recvmsg(1, socket.CMSG_SPACE(INT_SIZE), socket.MSG_CMSG_CLOEXEC)
    return int.from_bytes(found[0][2][:INT_SIZE], sys.byteorder) if data else None


def all_of(number):
    """All bytes that come."""
    with open(number, "rb", 0, closefd=False) as file:
        return file.read()


def words_to_run():
    """Returns with the words of a run in a new process for it, whose standard error is the run's
    socket."""
    signal.signal(signal.SIGCHLD, signal.SIG_IGN)
    outer = socket.socket(fileno=0)
    while True:
        number = received(outer)
        if number is None:
            os._exit(0)
        if os.fork() == 0:
            outer.close()
            return words_from(number)
        os.close(number)


def words_from(number):
    """The same for one run, whose end another process waits for and tells."""
    signal.signal(signal.SIGCHLD, signal.SIG_DFL)
    words = [os.fsdecode(it) for it in all_of(number).split(b"\0")]
    run = os.fork()
    if run != 0:
        status = os.waitstatus_to_exitcode(os.waitpid(run, 0)[1])
        os.write(number, bytes([status & STATUSES]))
        os._exit(0)
    os.dup2(number, 2)
    os.close(number)
    return words
