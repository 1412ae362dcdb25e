"""What a server is left of privileges at startup: none that it has no use for.

strata opens its images, and their trees, by their names at startup, and then only reads them, and reads and
writes the open /dev/fuse. So of root's capabilities it needs none, or, where an image or strata itself could
not be opened else, the one to read files whosever they are. It can gain none again, starts no other
program, opens no files but its images and libraries, those only to read, and has the calls below
alone. A script in strata's place needs other files and calls, and keeps them.
"""
import os
import struct

from strata_format.system import addressof, c_char, called, libc
from strata_mount import landlock

PR_SET_NO_NEW_PRIVS, PR_SET_SECCOMP, SECCOMP_MODE_FILTER = 38, 22, 2
CAPABILITY_VERSION, NONE, OVERRIDE, READ_SEARCH = 0x20080522, 0, 1 << 1, 1 << 2
# what a server may need to be started at all: nothing, to pass through another user's folder, or to
# run another user's own program
TO_START = NONE, READ_SEARCH, READ_SEARCH | OVERRIDE
ELF, MACHINE_NAME = b"\x7fELF", "x86_64"

# linux/filter.h, linux/seccomp.h, linux/audit.h: a filter of calls is a program over their number,
# machine and arguments
LOAD, EQUAL, AT_LEAST, ANY_BIT, GIVE = 0x20, 0x15, 0x35, 0x45, 0x06
NUMBER, MACHINE, FIRST_ARGUMENT, ARGUMENT_SIZE = 0, 4, 16, 8
X86_64, X32_FIRST = 0xc000003e, 0x40000000
ALLOWED, KILLED, REFUSED = 0x7fff0000, 0x80000000, 0x00050000
EPERM, ENOSYS = 1, 38

# the calls of strata, of its C library and of the loader, by the kernel's numbers for x86_64
CALLS = {
    "read": 0, "write": 1, "close": 3, "stat": 4, "fstat": 5, "lstat": 6, "lseek": 8, "mmap": 9,
    "mprotect": 10, "munmap": 11, "brk": 12, "rt_sigaction": 13, "rt_sigprocmask": 14,
    "rt_sigreturn": 15, "pread64": 17, "readv": 19, "writev": 20, "access": 21, "sched_yield": 24,
    "mremap": 25, "madvise": 28, "nanosleep": 35, "getpid": 39, "execve": 59, "exit": 60,
    "sigaltstack": 131, "arch_prctl": 158, "gettid": 186, "futex": 202, "sched_getaffinity": 204,
    "set_tid_address": 218, "restart_syscall": 219, "clock_gettime": 228, "clock_nanosleep": 230,
    "exit_group": 231, "newfstatat": 262, "set_robust_list": 273, "preadv": 295, "getrandom": 318,
    "statx": 332, "rseq": 334}
# those that depend on an argument
IOCTL, CLONE, TGKILL, OPENAT, PRLIMIT64 = 16, 56, 234, 257, 302
NOT_TO_READ = os.O_WRONLY | os.O_RDWR | os.O_CREAT | os.O_TRUNC | os.O_PATH
CLONE_THREAD, TCGETS = 0x10000, 0x5401


def step(code, value, if_so=0, if_not=0):
    return struct.pack("=HBBI", code, if_so, if_not, value)


def depending(number, argument, test, value, is_wanted=True):
    """The steps that allow a call if an argument passes a test, or if it does not."""
    load = step(LOAD, FIRST_ARGUMENT + argument * ARGUMENT_SIZE)
    tested = step(test, value, 1, 0) if is_wanted else step(test, value, 0, 1)
    return [step(EQUAL, number, 0, 4), load, tested,
            step(GIVE, REFUSED | EPERM), step(GIVE, ALLOWED)]


def filter_program(process):
    """The filter for a process. A call that is not known fails as one that the kernel does not
    have, so that the C library does without."""
    steps = [step(LOAD, MACHINE), step(EQUAL, X86_64, 1), step(GIVE, KILLED),
             step(LOAD, NUMBER), step(AT_LEAST, X32_FIRST, 0, 1), step(GIVE, KILLED)]
    for number in CALLS.values():
        steps += [step(EQUAL, number, 0, 1), step(GIVE, ALLOWED)]
    # files are opened to read alone; threads are made, and no process; signals go to this process
    # alone, and limits are of it; a descriptor is asked whether it is a terminal
    steps += depending(OPENAT, 2, ANY_BIT, NOT_TO_READ, is_wanted=False)
    steps += depending(CLONE, 0, ANY_BIT, CLONE_THREAD)
    steps += depending(TGKILL, 0, EQUAL, process)
    steps += depending(PRLIMIT64, 0, EQUAL, 0)
    steps += depending(IOCTL, 1, EQUAL, TCGETS)
    return [*steps, step(GIVE, REFUSED | ENOSYS)]


def install_filter():
    steps = filter_program(os.getpid())
    data = b"".join(steps)
    held = (c_char * len(data)).from_buffer_copy(data)
    program = struct.pack("=H6xQ", len(steps), addressof(held))
    called(libc.prctl(PR_SET_SECCOMP, SECCOMP_MODE_FILTER, program, 0, 0))


def set_capabilities(effective, permitted):
    low, high = 2 ** 32 - 1, 32
    words = effective & low, permitted & low, 0, effective >> high, permitted >> high, 0
    called(libc.capset(struct.pack("=II", CAPABILITY_VERSION, 0), struct.pack("=6I", *words)))


def permitted():
    """The capabilities that this process may have."""
    with open("/proc/self/status", "rb", 0) as it:
        return int(it.read().partition(b"\nCapPrm:")[2].split(None, 1)[0], 16)


class Confinement:
    """What a server will be held to. It is made before there is a mount, since afterwards a path
    may lead into that. A relay, which starts the program, is no direct one, and neither is a
    script: they open other files, too, and make other calls."""

    def __init__(self, program, files, is_direct):
        self.program, self.files = program, files
        is_held = is_direct and is_elf(program)
        self.has_filter = is_held and os.uname().machine == MACHINE_NAME
        self.rules = landlock.rules_for(program, files) if is_held else None

    def enter(self):
        """Leaves this process, which becomes the server, what it needs to start and to open its
        files."""
        own = permitted()
        if own:
            needed = self.needed(own)
            set_capabilities(needed, needed)
        called(libc.prctl(PR_SET_NO_NEW_PRIVS, 1, 0, 0, 0))
        if self.rules is not None:
            self.rules.hold_self()
        if self.has_filter:
            install_filter()

    def needed(self, own):
        """What of this process's capabilities is needed; it tries them."""
        for found in TO_START:
            set_capabilities(found & own, own)
            if os.access(self.program, os.X_OK, effective_ids=True):
                break
        if not all(os.access(it, os.R_OK, effective_ids=True) for it in self.files):
            found |= READ_SEARCH
        return found & own


def is_elf(program):
    """Whether a program is none that another one reads."""
    try:
        with open(program, "rb", 0) as it:
            return it.read(len(ELF)) == ELF
    except OSError:
        return False
