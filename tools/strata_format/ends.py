"""What a program finds at startup, and what it writes for any reader."""
import _signal as signal  # without enum, which takes longer to load than all of this
import os
import sys

OUTPUT = "/dev/stdout"


def begin():
    """Opens the standard ends that are closed, so that no other file takes their numbers. Children are waited for, also
    where SIGCHLD was ignored, since then the system tells nobody how they ended."""
    signal.signal(signal.SIGCHLD, signal.SIG_DFL)
    for number in range(3):
        try:
            os.fstat(number)
        except OSError:
            # it gets this number, since those below are taken
            os.set_inheritable(os.open(os.devnull, os.O_RDWR), True)
    sys.stdout = sys.stdout or open(1, "w", encoding="utf-8", closefd=False)
    sys.stderr = sys.stderr or open(2, "w", encoding="utf-8", errors="backslashreplace", closefd=False)


def write(text):
    """Writes text on standard error, if that takes it: what was done stays done."""
    try:
        sys.stderr.write(text)
        sys.stderr.flush()
    except OSError:
        lose(sys.stderr)


def put(data, done=""):
    """Writes bytes on standard output, which are what was asked for; OSError where it doesn't take them, with what is done
    nevertheless."""
    try:
        sys.stdout.buffer.write(data)
        sys.stdout.flush()
    except OSError as fault:
        lose(sys.stdout)
        raise OSError(fault.errno, fault.strerror + ("; " + done if done else ""), OUTPUT) from None


def tell(name, text, done=""):
    """The same of text, by a program of this name; the status to end with, after a line where it isn't taken."""
    try:
        put(text.encode(errors="surrogateescape"), done)
        return 0
    except OSError as fault:
        write("%s: %s: %s\n" % (name, OUTPUT, fault.strerror.lower()))
        return 1


def leave(status):
    """Ends this process with a status at once: to take itself down Python takes as long as some
    modules to load. The status is given back if an end does not take what was written."""
    try:
        sys.stdout.flush()
        sys.stderr.flush()
    except OSError:
        return status
    os._exit(status)


def lose(end):
    """Lets what an end doesn't take go nowhere. Else python tries again at its own end, and changes the status."""
    number = os.open(os.devnull, os.O_WRONLY)
    os.dup2(number, end.fileno())
    os.close(number)
