"""Mounts by a plan: strata is started on an open device that is mounted, and waited for."""
import _signal as signal
import _thread
import errno
import os
import sys

from strata_format import ends
from strata_format.refused import one_line
from strata_mount import acls, preconditions, privileges, read_ahead
from strata_mount.device import DEVICE, answers, mounted, take_away
from strata_mount.options import Options
from strata_mount.processes import Bell, found_program, hold_descriptors, start

# The C library keeps freed memory for what it is asked for next, until the end. A block of this many
# bytes and more it gives back, so that a server keeps what it needs to serve, and not what it needed
# to begin; small ones it joins at once, instead of keeping each apart for one of its size; and it
# takes no more than it is asked for.
MEMORY = {"MALLOC_MMAP_THRESHOLD_": str(1 << 13),
          "GLIBC_TUNABLES": "glibc.malloc.tcache_count=0:glibc.malloc.mxfast=0:"
                            "glibc.malloc.top_pad=0"}
# all that the server gets of this environment, which may hold secrets
KEPT = "PATH", "LD_LIBRARY_PATH"
RELAY = os.path.join(os.path.dirname(os.path.realpath(__file__)), "relay.py")
INTERRUPTED = 130


# --- the server ---

def option_words(plan):
    """The options that strata is called with."""
    words = ["--strict"] * plan.strict + ["--whole"] * plan.whole
    words += ["--workers", str(plan.workers)] * (plan.workers is not None)
    words += ["--readers", str(plan.readers)] * (plan.readers is not None)
    words += ["--owner", plan.owner] * (plan.owner is not None)
    for digest in plan.hashed():
        words += ["--digest", digest]
    return words


def serve_words(plan):
    """How strata is called."""
    words = [plan.program, "serve", "--device", "--attributes", *option_words(plan)]
    return [*words, *plan.opened()[:len(plan.images)]]


def shown_name(plan):
    """The name of the server in the list of processes, which says where it was mounted."""
    return "%s@%s" % (os.path.basename(plan.program), plan.folder)


def relay_words(plan, errors, counts):
    """How the relay is called, and the descriptors that it gets."""
    words = [sys.executable, "-IBS", RELAY, "--errors", str(errors.fileno())]
    words += ["--debug"] * plan.debug
    numbers = [errors.fileno(), *plan.passed()]
    for number in plan.by_kernel.values():
        words += ["--pass", str(number)]
    for it in plan.seals():
        words += ["--seal", "not sealed" if it is None else "sealed by %s: %s" % it]
    if counts is not None:
        words += ["--stats", str(counts)]
        numbers.append(counts)
    return [*words, "--shown=" + shown_name(plan), "--"], numbers


def served(plan, device, errors, counts, confinement):
    """Starts strata on an open device, away from the signals of the terminal and from this folder.
    The device is open there alone from then on."""
    words, numbers = [], plan.passed()
    if plan.is_relayed():
        words, numbers = relay_words(plan, errors, counts)
    try:
        ends = [device, device, 2 if plan.debug else errors.fileno()]
        shown = None if plan.is_relayed() else shown_name(plan)
        words += serve_words(plan)
        environment = {**MEMORY, **{it: os.environ[it] for it in KEPT if it in os.environ}}
        return start(words, ends, numbers, lambda: prepare(confinement), shown, environment)
    finally:
        os.close(device)


def confinement_of(plan):
    """What the server will be held to; None where it keeps all privileges."""
    if plan.keeps_privileges:
        return None
    return privileges.Confinement(plan.program, plan.opened(), is_direct=not plan.is_relayed())


def prepare(confinement):
    """Makes the process that becomes the server one of its own, without privileges that it has no
    use for."""
    os.setsid()
    os.chdir("/")
    unblock()
    if confinement is not None:
        confinement.enter()


def answers_first(plan, server, bell, with_acls):
    """Whether a mount answers before its server ends. If images have ACLs it says so where the
    mount enforces none. A thread asks, so that signals are heard here."""
    told = []

    def ask():
        is_there = answers(plan.folder)
        told.extend((is_there, is_there and with_acls and acls.is_without(plan.folder)))
        bell.ring()

    try:
        _thread.start_new_thread(ask, ())
    except RuntimeError:
        raise OSError(errno.EAGAIN, os.strerror(errno.EAGAIN)) from None  # for a thread
    if sys.stderr.isatty() and not plan.is_relayed():
        from strata_mount import image_progress
        image_progress.watch(told, bell, server.pid, plan.images if plan.whole else None)
    while not told:
        bell.wait()
    is_there, is_without = told
    if is_without:
        acls.tell(plan, with_acls)
    return is_there


def status_of(server, errors, plan, bell):
    """The status with which strata ends, which is waited for; its line is passed on, with what
    stands behind it."""
    while not server.has_ended():
        bell.wait()
    status = server.status
    errors.seek(0)
    text = errors.read().decode(errors="replace")
    ends.write(text)
    if status > 0 and not text:
        plan.say("%s ended with status %d, without a line" % (one_line(plan.program), status))
    if status > 0:
        from strata_mount import faults
        for line in faults.explained(text, plan.images, plan.store):
            plan.say(line)
    if status < 0:
        plan.say("strata was killed by signal %d" % -status)
    return status if status >= 0 else 128 - status


def status_of_none(server, errors, plan, bell):
    """The status where a server has ended before the mount answered: none of success."""
    status = status_of(server, errors, plan, bell)
    if status == 0:
        plan.say("%s ended before the mount answered" % one_line(plan.program))
    return status or 1


# --- signals ---

def stopping():
    """The signals that take the mount away: SIGHUP too, but not under nohup."""
    is_heard = signal.getsignal(signal.SIGHUP) != signal.SIG_IGN
    return [signal.SIGINT, signal.SIGTERM] + [signal.SIGHUP] * is_heard


def hear(handler):
    for each in stopping():
        signal.signal(each, handler)


def interrupt(*_):
    """Ends what is waited for, once: no signal is heard after it."""
    hear(signal.SIG_IGN)
    raise KeyboardInterrupt


def unblock():
    signal.pthread_sigmask(signal.SIG_UNBLOCK, stopping())


# --- from the mount to its end ---

def run(plan, counts=None, heard=None):
    """Mounts and serves; the status to end with. Requests are counted in the open file `counts`,
    unless that is None. `heard` is called with the server once a mount in the background
    answers."""
    # strata must not hold this script's standard error open in the background, and no folder is
    # needed for what it says
    errors = os.fdopen(os.memfd_create("errors"), "w+b")
    signal.pthread_sigmask(signal.SIG_BLOCK, stopping())
    hear(interrupt)
    bell, confinement = Bell(), confinement_of(plan)
    cold = [] if plan.whole else read_ahead.cold_ones(plan.images)
    device = mounted(plan)
    try:
        tell_modes(plan)
        server = served(plan, device, errors, counts, confinement)
        try:
            read_ahead.ask(cold)
            status = waited(plan, server, errors, bell)
            if status == 0 and plan.background and heard is not None:
                heard(server)
        except BaseException:
            # a fault leaves no mount
            server.send(signal.SIGTERM)
            server.wait()
            raise
        return interrupted(plan, server) if status is None else status
    finally:
        # what stands there by now may be another mount, which answers
        if not answers(plan.folder):
            take_away(plan.folder)


def waited(plan, server, errors, bell):
    """Waits until a server has ended, or, in the background, until the mount answers; the status to
    end with, or None where that is interrupted."""
    try:
        unblock()
        if plan.stats is not None:
            signal.signal(signal.SIGUSR1, lambda *_: server.send(signal.SIGUSR1))
        with_acls = acls.with_acls(plan)
        is_asked = plan.background or sys.stderr.isatty() or with_acls
        is_there = is_asked and answers_first(plan, server, bell, with_acls)
        if not plan.background:
            return status_of(server, errors, plan, bell)
        return 0 if is_there else status_of_none(server, errors, plan, bell)
    except KeyboardInterrupt:
        return None


def interrupted(plan, server):
    """Takes the mount away; the status to end with."""
    take_away(plan.folder)
    server.send(signal.SIGTERM)
    server.wait()
    # who asked for a mount in the background has none
    return INTERRUPTED if plan.background else 0


def counts_of(plan):
    """An open file in which requests are counted, or None where they are not."""
    if plan.stats is None:
        return None
    return os.open(plan.stats, os.O_WRONLY | os.O_CREAT | os.O_CLOEXEC, 0o666)


def attempt(plan):
    """Mounts by a plan, or says why nothing can be mounted; the status to end with."""
    try:
        preconditions.hold_here([*plan.images, *([] if plan.is_printed else [plan.folder])])
        if not plan.is_printed:
            preconditions.hold_folder(plan)
        preconditions.find_images(plan)
        preconditions.hold_by_path(plan)
        preconditions.hold_digests(plan)
        preconditions.hold_names(plan)
        program = found_program(plan.program)
        if not program:
            raise OSError(0, "no such program", plan.program)
        plan.program = os.path.abspath(program)
        if not plan.is_printed:
            plan.folder = os.path.realpath(plan.folder)
            preconditions.hold_images(plan)
        hold_descriptors()
        if plan.replace and not plan.is_printed:
            preconditions.clear(plan)
        if plan.share:
            from strata_mount import sharing
            return sharing.attempt(plan)
        return run(plan, counts_of(plan))
    except OSError as fault:
        unknown = Options(",".join(plan.words)).unknown
        if fault.errno == errno.EINVAL and unknown:
            plan.say("-o: unknown: %s" % one_line(", ".join(unknown)))
        plan.say_fault(fault)
        for line in hints(fault):
            plan.say(line)
        return 1


def tell_modes(plan):
    """Says of a mount that others may use which images keep no modes."""
    if "allow_other" in plan.words and not plan.modeless:
        from strata_mount import modes
        modes.tell(plan)


def hints(fault):
    """What to do about a fault of a mount, where that is known."""
    if fault.filename == DEVICE and fault.errno in (errno.ENOENT, errno.ENODEV, errno.EPERM):
        yield ("FUSE is not available here: `modprobe fuse`, or start the container with "
               "`--device /dev/fuse`")
    if fault.filename == DEVICE and fault.errno == errno.EACCES:
        yield ("this user may not open it, nor may fusermount3 for this user: `chmod 666 /dev/fuse` as "
               "root lets all users mount, as udev does")
