"""Programs that a mount starts: found, started and waited for, without what takes longer to load
than a mount takes."""
import _signal as signal
import os

# why a program cannot be started comes as an errno in this many bytes
ERRNO_SIZE = 4


def found_program(name):
    """The path of a program: of a name alone, in the folders of PATH; None where there is none."""
    path = "" if os.path.dirname(name) else os.environ.get("PATH", os.defpath)
    for folder in path.split(os.pathsep):
        place = os.path.join(folder, name)
        if os.access(place, os.X_OK) and not os.path.isdir(place):
            return place
    return None


def hold_descriptors():
    """Keeps open files that came from who called this from what is started: only its standard ends
    are passed on."""
    for number in map(int, os.listdir("/proc/self/fd")):
        if number > 2:
            try:
                os.set_inheritable(number, False)
            except OSError:
                pass  # the one by which the folder was read


class Bell:
    """Rings at each signal that is heard, at each child's end, and when it is rung. Who waits for
    it misses no signal that comes just before, as waitpid(2) would."""

    def __init__(self):
        self.heard, self.rung = os.pipe()
        os.set_blocking(self.rung, False)
        signal.set_wakeup_fd(self.rung, warn_on_full_buffer=False)
        signal.signal(signal.SIGCHLD, lambda *_: None)

    def ring(self):
        os.write(self.rung, b"\0")

    def wait(self, seconds=None):
        """Waits until it rings, or so many seconds."""
        if seconds is not None:
            import select
            if not select.select([self.heard], [], [], seconds)[0]:
                return
        os.read(self.heard, 1 << 10)


class Process:
    """A program that was started; its status is waited for once."""

    def __init__(self, pid):
        self.pid, self.status = pid, None

    def has_ended(self):
        if self.status is None:
            pid, status = os.waitpid(self.pid, os.WNOHANG)
            self.status = os.waitstatus_to_exitcode(status) if pid else None
        return self.status is not None

    def wait(self):
        """The status, below 0 for the signal that ended the program."""
        if self.status is None:
            self.status = os.waitstatus_to_exitcode(os.waitpid(self.pid, 0)[1])
        return self.status

    def send(self, number):
        if self.status is None:
            os.kill(self.pid, number)


def start(words, ends, passed=(), prepared=None, shown=None, environment=None):
    """Starts a program at a path with these words, `ends` as its standard ends, and the descriptors
    `passed`. The new process calls `prepared` before it becomes the program. `shown` stands for the
    program's name in the list of processes. OSError, with the path, where it can't be started."""
    told, telling = os.pipe()
    pid = os.fork()
    if pid == 0:
        try:
            os.close(told)
            become(words, ends, passed, prepared, shown, environment)
        except OSError as fault:
            os.write(telling, fault.errno.to_bytes(ERRNO_SIZE, "big"))
        finally:
            os._exit(127)
    os.close(telling)
    number = os.read(told, ERRNO_SIZE)
    os.close(told)
    process = Process(pid)
    if number:
        process.wait()
        fault = int.from_bytes(number, "big")
        raise OSError(fault, os.strerror(fault), words[0])
    return process


def become(words, ends, passed, prepared, shown, environment):
    # descriptors may stand in one another's places
    kept = [os.dup(number) for number in ends]
    for at, number in enumerate(kept):
        os.dup2(number, at)
    for number in passed:
        os.set_inheritable(number, True)
    # Python lets these be ignored, and what is started would inherit that
    for number in (signal.SIGPIPE, signal.SIGXFSZ):
        signal.signal(number, signal.SIG_DFL)
    if prepared is not None:
        prepared()
    environment = os.environ if environment is None else environment
    os.execve(words[0], [shown or words[0], *words[1:]], environment)
