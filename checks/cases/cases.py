"""Runs the cases of cases/*.case on the built program: python3 checks cases PROGRAM [CASE..]

A case file is a transcript. Lines that begin with # are comments, and indented lines belong to the line above; those
below `for N 0 to 15`, or `for N in 1 2 5`, stand once for each of these values, instead of N; `for N 0 to 15 and M from 1`
counts M beside N.

    image NAME [volume "v"]         what it holds, a line each (checks/shared/images.py), and edits by offset
    image NAME = OTHER              the image `empty`, `sample` or OTHER, and edits; sealed only if a line says `seal`
    requests NAME [= OTHER [first N]]   requests by name, a line each (checks/shared/messages.py), after the first bytes of others
    answers NAME                    replies that several runs have, a line each (checks/shared/replies.py)
    file NAME DATA                  what a file holds before a run; `file NAME sparse SIZE [= IMAGE] [at PLACE DATA]` has that many
                                    bytes, zeros but for those of the image and these, which take no blocks
    folder NAME
    socket NAME                     at which nobody listens any more
    $ strata WORDS [< NAME] [> NAME] [2> NAME]
      fed N                         the input is a pipe, fed N bytes at a time
      waits                         the input is a pipe; a request is written when the reply to the one before it has come
      device                        the input and the output are one socket instead of an open /dev/fuse: a request is a
                                    packet, which is sent when the reply to the one before it has come
      room N                        a file may grow to N bytes, and then writes fail
      disk N                        the run's folder is a file system of N KiB
      memory N                      so many MiB of address space
      stack N                       so many KiB of stack
      files N                       so many files may be open
      pipes                         the images are named pipes, which can be read once they are opened
      terminal                      the input is a terminal at which nobody types
      gone > [2>]                   the output, or standard error, is a pipe that nobody reads any more
      closed < [>] [2>]             these streams are closed before the program begins
    client [meanwhile]              who connects to the socket that the run listens at, once the client above it has ended or,
                                    meanwhile, while that one is served, and gets nothing before its end. It shuts its writing
                                    half down when all is sent, and reads to the end
      sends NAME [first N]          requests, or their first bytes; else nothing
      fed N                         N bytes at a time, each when those before them were read
      waits                         a request is sent when the reply to the one before it has come
      deaf                          its reading half is shut down before it sends
      closes [early]                it closes when all replies below have come and, early, more that it does not read, and
                                    shuts nothing down
      files N                       so many files may be open in the program from its end on
      replies [= ANSWERS [first N]]     what comes to it
    | TEXT                          a line of the output
    |= DATA                         the same as data
    ! TEXT                          a line of standard error, where `! ...` stands for any more lines
    replies [NAME] [= ANSWERS [first N]]    what came out as replies, or stands in that file: the first bytes of these
                                    answers, and a line each below
    left NAME DATA                  what a file holds after the run; `left NAME empty`, `left NAME absent`, or lines
                                    `| TEXT` below
    unread                          nothing was read of the input
    opened NAME ..                  which of the pipes are open at one moment, before any of them gives a byte; a line for
                                    each such moment, in turn
    writes N to M                   how many writes the program made
    status N                        how the process ended

Each run has a folder of its own, with the files that its line names. Whatever is not said must be empty, and each
run says its status. A name that no run uses, and a line that means nothing, fail. A run with `disk` is left out where no
file system may be mounted. The status is 0 where all pass.
"""
import functools
import os
import resource
import shutil
import signal
import socket
import subprocess
import sys
import tempfile

from checks import ROOT
from checks.cases.case_files import SOCKET, Case, Sparse
from checks.cases.pipes import told_of_opened
from checks.plain.plain_replies import split
from checks.shared import replies, runs
from checks.shared.clients import Party, converse, exchange, leave_socket, widen
from checks.shared.mounting import enter
from checks.shared.text import Words, Wrong, plain_bytes, words_of
from strata_format.system import called, libc


FED = {"fed", "waits", "device"}
# what the file of an image's fs-verity tree has behind its name
TREE = ".verity"
LIMITS = (*FED, "terminal", "room", "disk", "memory", "stack", "files", "pipes", "gone", "closed")


class Started:
    """How a line starts the program: its words, and the files of its three streams."""

    def __init__(self, case, line):
        words = Words(words_of(line.text[2:]))
        words.expect("strata")
        self.words, self.streams, self.limits = [], {}, {}
        while words.more():
            word = words.next()
            if word in ("<", ">", "2>"):
                self.streams[word] = words.next()
            elif words.more() and words.words[0] == "times":
                words.next()
                self.words += [words.next()] * int(word)
            else:
                self.words.append(word)
        for below in line.below:
            limit = below.words()
            name = limit.next()
            if name not in LIMITS or below.below:
                raise Wrong("this line means nothing: %s" % below.text)
            if name in ("gone", "closed"):
                self.limits[name] = [limit.next() for _ in list(limit.words)]
            else:
                self.limits[name] = limit.number() if name not in ("waits", "device", "terminal", "pipes") else None
            limit.end()
        self.names = {part for word in self.words for part in (word, word.partition("=")[2])}
        self.names |= set(self.streams.values())
        self.case, self.line = case, line

    def lay_out(self, room):
        for name in self.names | {name + TREE for name in self.names}:
            is_there, value = self.case.data_of(name)
            path = os.path.join(room, name)
            if is_there and value is None:
                os.mkdir(path)
            elif "pipes" in self.limits and name in self.case.images:
                os.mkfifo(path)
            elif value is SOCKET:
                leave_socket(room, name)
            elif is_there:
                with open(path, "wb") as out:
                    out.write(value.front if isinstance(value, Sparse) else value)
                    if isinstance(value, Sparse):
                        out.seek(value.place)
                        out.write(value.end)
                        out.truncate(value.size)

    def pipes(self):
        """What each image gives, where these are pipes."""
        names = self.names & {*self.case.images} if "pipes" in self.limits else ()
        return {name: self.case.data_of(name)[1] for name in names}

    def listens_at(self):
        """The path of the socket that the words name."""
        for at, word in enumerate(self.words):
            if word == "--listen" or word.startswith("--listen="):
                return plain_bytes((self.words[at + 1:at + 2] or [""])[0] if word == "--listen" else word[9:])
        raise Wrong("%s:%d: there is no socket for clients" % (self.case.path, self.line.number))

    def given(self):
        """The bytes of the requests that the run reads, as far as they can be told."""
        names = [self.streams.get("<")]
        for at, word in enumerate(self.words):
            if word == "--requests":
                names = self.words[at + 1:at + 2]
        return self.case.streams.get(names[0], b"") if names else b""


def sink(room, name, is_gone):
    """Where a stream of a run goes: a file, a pipe that nobody reads any more, or a pipe that is read."""
    if is_gone:
        end, pipe = os.pipe()
        os.close(end)
        return os.fdopen(pipe, "wb")
    return open(os.path.join(room, name), "wb") if name else subprocess.PIPE


def open_streams(started, room):
    """The input, the output and standard error of a run, and the other end of the pipe, the terminal or the socket behind
    the input."""
    names = started.streams
    pair = [sink(room, names.get(it), it in started.limits.get("gone", ())) for it in (">", "2>")]
    if "fed" in started.limits or "waits" in started.limits:
        end, pipe = os.pipe()
        return end, pair, pipe
    if "device" in started.limits:
        near, far = socket.socketpair(socket.AF_UNIX, socket.SOCK_SEQPACKET)
        widen(near, far)
        return os.dup(far.fileno()), [os.fdopen(far.detach(), "wb"), pair[1]], near
    if "terminal" in started.limits:
        pipe, end = os.openpty()
        return end, pair, pipe
    return os.open(os.path.join(room, names["<"]) if "<" in names else "/dev/null", os.O_RDONLY), pair, None


def limited(limits):
    def set_limits():
        for name, what, unit in (("room", resource.RLIMIT_FSIZE, 1), ("memory", resource.RLIMIT_AS, 1 << 20),
                                 ("stack", resource.RLIMIT_STACK, 1 << 10), ("files", resource.RLIMIT_NOFILE, 1)):
            if name in limits:
                resource.setrlimit(what, (limits[name] * unit, limits[name] * unit))
        for stream in limits.get("closed", ()):
            os.close(("<", ">", "2>").index(stream))
        signal.signal(signal.SIGPIPE, signal.SIG_DFL)  # as a shell leaves it
    return set_limits


@functools.lru_cache(maxsize=None)
def may_mount():
    """Whether this process may mount file systems, in a namespace of its own."""
    try:
        enter()
        return True
    except OSError:
        return False


def bytes_of(path):
    if not os.path.exists(path):
        return None
    if not os.path.isfile(path):
        return b""
    with open(path, "rb") as it:
        return it.read()


def compared(what, wanted, got, requests=None):
    """Why these are not the same."""
    if wanted == got:
        return []
    if got is None or wanted is None:
        return ["%s: %s" % (what, "there is no such file" if got is None else "there is such a file")]
    if requests is None:
        return ["%s: wanted %r, got %r" % (what, wanted[:2000], got[:2000])]
    wanted_lines, got_lines = replies.lines_of(requests, wanted), replies.lines_of(requests, got)
    at = next((i for i, pair in enumerate(zip(wanted_lines, got_lines)) if pair[0] != pair[1]),
              min(len(wanted_lines), len(got_lines)))
    place = next((i for i, pair in enumerate(zip(wanted, got)) if pair[0] != pair[1]), min(len(wanted), len(got)))
    told = ["%s: %d bytes wanted, %d got, which differ at byte %d" % (what, len(wanted), len(got), place)]
    return told + ["  %-6s %s" % (whose, (lines[at:at + 1] or ["nothing"])[0][:300])
                   for whose, lines in (("wanted", wanted_lines), ("got", got_lines))]


def judged(run, started, room, ended, position):
    """What is not as it must be after a run that ended so."""
    told = []
    if ended.status != run.status:
        told.append("status: wanted %d, got %s" % (run.status, "no end after a minute" if ended.status is None else ended.status))
    wanted = b"".join(line + b"\n" for line in run.output) + run.replies.get(None, b"")
    told += compared("the output", wanted, ended.output, started.given() if None in run.replies else None)
    faults = ended.errors.decode(errors="replace")
    if not (faults.startswith(run.faults) if run.more_faults else faults == run.faults):
        told.append("standard error: wanted %r, got %r" % (run.faults, faults[:2000]))
    for name, data in run.replies.items():
        if name is not None:
            told += compared("the replies of %s" % name, data, bytes_of(os.path.join(room, name)), started.given())
    for name, data in run.left.items():
        told += compared("the file %s" % name, data, bytes_of(os.path.join(room, name)))
    if run.writes and not run.writes[0] <= ended.writes <= run.writes[1]:
        told.append("writes: wanted %d to %d, got %d" % (*run.writes, ended.writes))
    if run.unread and position != 0:
        told.append("%d bytes of the input were read" % position)
    return told


def ran(program, started, run, source, pair, pipe, room):
    """How the program ended, and what it wrote; what was not as it must be with its clients."""
    words = [program.encode(), *(plain_bytes(word) for word in started.words)]
    done = subprocess.Popen(words, cwd=room, stdin=source, stdout=pair[0], stderr=pair[1],
                            preexec_fn=limited(started.limits), restore_signals=False)
    came = b""
    is_fed = FED & {*started.limits}
    if pipe is not None:
        os.close(source)
    if is_fed:
        data = started.case.data_of(started.streams["<"])[1]
    if "device" in started.limits:
        pair[0].close()
        with pipe:
            came = exchange(pipe, split(data), replies.single(run.replies.get(None, b"")))
    elif "waits" in started.limits:
        came = converse(done.stdout.fileno(), pipe, split(data)[0], replies.single(run.replies[None]))
        os.close(pipe)
    elif is_fed:
        size = started.limits["fed"]
        runs.feed((data[at:at + size] for at in range(0, len(data), size)), pipe)
    told = told_of_opened(run.opened, started.pipes(), room)
    visits = Party(run.clients, room, started.listens_at() if run.clients else None, done)
    got, ended = visits.ended()
    return ended._replace(output=came + ended.output), told + visits.told + told_of(run.clients, got)


def told_of(clients, got):
    """What clients got that is not as it must be."""
    told = []
    for number, (client, came) in enumerate(zip(clients, got), 1):
        told += compared("the replies to client %d" % number, client.replies, came, client.sent())
    return told


def tried(program, case, run):
    """Runs the program once; what is not as it must be."""
    started = Started(case, run.line)
    is_fed = FED & {*started.limits}
    if (run.unread or is_fed) and "<" not in started.streams or run.unread and is_fed:
        raise Wrong("%s:%d: an input that is a file is wanted here" % (case.path, run.line.number))
    if "waits" in started.limits and None not in run.replies:
        raise Wrong("%s:%d: replies are wanted here" % (case.path, run.line.number))
    if not {">", "2>"} - {*started.streams} >= {*started.limits.get("gone", ())}:
        raise Wrong("%s:%d: a stream that is gone goes to no file" % (case.path, run.line.number))
    if "disk" in started.limits and not may_mount():
        return None
    room = tempfile.mkdtemp(prefix="case-")
    try:
        if "disk" in started.limits:
            called(libc.mount(b"strata", room.encode(), b"tmpfs", 0, b"size=%dk" % started.limits["disk"]))
        started.lay_out(room)
        source, pair, pipe = open_streams(started, room)
        ended, told = ran(program, started, run, source, pair, pipe, room)
        position = 0
        if pipe is None:
            position = position_of(source)
            os.close(source)
        elif "terminal" in started.limits:
            os.close(pipe)
        for stream in pair:
            if stream is not subprocess.PIPE:
                stream.close()
        return told + judged(run, started, room, ended, position)
    finally:
        if "disk" in started.limits:
            called(libc.umount2(room.encode(), 0))
        shutil.rmtree(room)


def position_of(source):
    try:
        return os.lseek(source, 0, os.SEEK_CUR)
    except OSError:
        return 0


def main(program, paths):
    passed = failed = left_out = 0
    for path in paths:
        try:
            case = Case(path)
            for run in case.runs:
                told = tried(program, case, run)
                if told is None:
                    left_out += 1
                    continue
                passed, failed = passed + (not told), failed + bool(told)
                if told:
                    print("%s:%d: %s\n  %s" % (path, run.line.number, run.line.text, "\n  ".join(told)))
            unused = case.unused()
        except Wrong as wrong:
            print(wrong)
            failed += 1
            continue
        if unused:
            print("%s: never used: %s" % (path, ", ".join(unused)))
            failed += 1
    if left_out:
        print("%d left out, since no file system may be mounted here" % left_out)
    print("%d passed, %d failed" % (passed, failed))
    return failed == 0 and passed > 0


def found():
    """All cases of the repository."""
    return sorted("%s/cases/%s" % (ROOT, name) for name in os.listdir(ROOT + "/cases") if name.endswith(".case"))


if __name__ == "__main__":
    sys.exit(0 if main(os.path.abspath(sys.argv[1]), sys.argv[2:] or found()) else 1)
