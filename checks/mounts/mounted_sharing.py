"""Checks of checks/mounts/mounted.py: one mount for all who ask for the same (--share), what is
seen of mounts from outside, a second mount on one folder, and what a server is left of
privileges."""
import errno
import fcntl
import json
import os
import shutil
import signal
import socket
import subprocess
import sys
import time

from checks.mounts.mounted_ends import OTHER, as_other, open_to_all, python_of
from checks.mounts.mounted_trees import file, folder, wanted_of
from checks.shared.mounting import (SCRIPT, LeftOut, called, children, fails, hold, hold_tree, libc,
                                    places, shown, wait_until)
from strata_mount.privileges import Confinement
from strata_mount.sharing import processes

# a server ends so soon after the last mount of it
SECOND = 1.0
# of a process, what proc(5) says of its capabilities
CAPABILITIES = ("CapInh", "CapPrm", "CapEff", "CapAmb")
TRIES = 8
OVERRIDE, READ_SEARCH = 1 << 1, 1 << 2
ENDS = {"stdin": subprocess.DEVNULL, "stdout": subprocess.PIPE, "stderr": subprocess.PIPE,
        "text": True}
# a program that serves once a file is there
SLOW = "#!/bin/sh\nuntil [ -e %s/go ]; do sleep 0.02; done\nexec %s \"$@\"\n"
# runs mount.py where no thread can be started
NO_THREADS = """
import sys, _thread
sys.path.insert(0, %r)
def refused(*_):
    raise RuntimeError
_thread.start_new_thread = refused
from strata_mount.command import main
sys.exit(main(%r, "mount.py"))
"""
# runs mount.py, and turns a link from one image to another before the server begins, and back once the mount answers
LED_ELSEWHERE = """
import os, sys
sys.path.insert(0, %r)
from strata_mount import mounting
from strata_mount.command import main
confinement_of, waited = mounting.confinement_of, mounting.waited
first, second, link = %r, %r, %r
def led(image, found):
    os.symlink(image, link + "-")
    os.rename(link + "-", link)
    return found
mounting.confinement_of = lambda *words: led(second, None) or confinement_of(*words)
mounting.waited = lambda *words: led(first, waited(*words))
sys.exit(main(%r, "mount.py"))
"""
ENDED = os.WEXITED | os.WNOHANG | os.WNOWAIT


def own_runtime():
    """Puts an empty folder over /run, in this namespace."""
    called(libc.mount(b"tmpfs", b"/run", b"tmpfs", 0, b"mode=755"))


def run(room, *words):
    """A run of mount.py: its status and what it wrote."""
    done = subprocess.run([*room.words(), *words], **ENDS)
    return done.returncode, done.stdout, done.stderr


def share(room, images, *words):
    """A folder that shows a shared mount."""
    at = room.place()
    hold("mount.py --share", (0, "", ""), run(room, "--share", *words, *images, at))
    return at


def device_of(at):
    return os.stat(at).st_dev


def umount(at, flags=0):
    called(libc.umount2(os.fsencode(at), flags))


def hold_ended(server):
    """Holds that a server ends by itself within a second, with 0."""
    until = time.monotonic() + SECOND
    wait_until("the server's end", lambda: os.waitid(os.P_PID, server, ENDED))
    hold("ended in time", True, time.monotonic() < until)
    hold("the server's status", 0, os.waitstatus_to_exitcode(os.waitpid(server, 0)[1]))


def items_of(text):
    return [file("x", text), folder("d"), file("d/y", b"y")]


def sharing(room):
    """Folders that show one mount; other options, and other bytes, make another; the last one ends
    the server."""
    own_runtime()
    items = items_of(b"data")
    image = room.layer(items)
    places_of = [share(room, [image]) for _ in range(3)]
    server, = children()
    with open("/run/strata/another", "wb"):
        pass  # no note of strata's, which nobody removes
    for at in places_of:
        hold_tree("shared", wanted_of([items]), shown(at))
        hold("the file system", device_of(places_of[0]), device_of(at))
        fails("a write", errno.EROFS, os.mkdir, at + "/new")
    hold("the flags", os.statvfs(places_of[0]).f_flag, os.statvfs(places_of[2]).f_flag)
    others = [share(room, [image], "-o", "noexec"), share(room, [image], "--strict"),
              share(room, [image, image])]
    hold("servers of other options", 4, len(children()))
    os.utime(image, (5, 5))
    others.append(share(room, [image]))
    hold("servers of a file that was touched", 5, len(children()))
    for at in others:
        hold("another file system", False, device_of(at) == device_of(places_of[0]))
        umount(at)
    for at in places_of[:2]:
        umount(at)
    hold_tree("the last one", wanted_of([items]), shown(places_of[2]))
    hold("the server", (0, 0), os.waitpid(server, os.WNOHANG))
    umount(places_of[2])
    hold_ended(server)
    wait_until("all servers' end", lambda: not alive())
    at = share(room, [image])
    hold("notes, and what is none", 2, len(os.listdir("/run/strata")))
    hold("what is no note", True, os.path.exists("/run/strata/another"))
    called(libc.mount(b"tmpfs", at.encode(), b"tmpfs", 0, None))
    beside = share(room, [image])
    hold_tree("beside a mount that is covered", wanted_of([items]), shown(beside))
    for it in (at, at, beside):
        umount(it)
    wait_until("the last server's end", lambda: not alive())
    return "3 folders, one server that ends with the last; other options, times, stacks have others"


def alive():
    """The children of this process that have not ended."""
    found = set(children())
    for child in found.copy():
        if os.waitid(os.P_PID, child, ENDED):
            os.waitpid(child, 0)
            found.remove(child)
    return found


def raced(room):
    """Eight that begin at one moment make one mount; so do eight where a server has just been
    killed."""
    own_runtime()
    image = room.layer(items_of(b"data"))
    for _ in range(3):
        found = [room.place() for _ in range(8)]
        runs = [subprocess.Popen([*room.words(), "--share", image, at], **ENDS) for at in found]
        hold("what they say", [("", 0)] * 8, [(it.communicate()[1], it.returncode) for it in runs])
        server, = alive()
        hold("file systems", 1, len(set(map(device_of, found))))
        os.kill(server, signal.SIGKILL)
        os.waitpid(server, 0)
        for at in found:
            fails("a folder of a dead server", errno.ENOTCONN, os.statvfs, at)
            umount(at, 2)
    return "three times eight at once, one server each"


def revived(room):
    """A server that dies is reported by each folder, and made anew by the next mount; one that is unmounted
    is not missed."""
    own_runtime()
    items = items_of(b"data")
    image = room.layer(items)
    first, second = share(room, [image]), share(room, [image])
    server, = children()
    os.kill(server, signal.SIGKILL)
    os.waitpid(server, 0)
    for at in (first, second):
        fails("a folder of a dead server", errno.ENOTCONN, os.statvfs, at)
    third = share(room, [image])
    status, _, told = run(room, "--share", image, first)
    hold("a dead mount on the folder", (1, True), (status, "a dead mount, whose server" in told))
    hold("--replace", (0, "", ""), run(room, "--share", "--replace", image, first))
    hold("file systems", 1, len({device_of(first), device_of(third)}))
    # the first folder is not where the mount began
    umount(third)
    hold_tree("anew", wanted_of([items]), shown(share(room, [image])))
    hold("servers", 1, len(children()))
    for at in (second, first):
        umount(at)
    for at in [at for at in places() if at.startswith(room.folder)]:
        umount(at)
    wait_until("all servers' end", lambda: not alive())
    return "ENOTCONN in each folder, and a new server for who asks next"


def mistaken(room):
    """No other stack is shown than the one that was asked for: not where a mount has got the device number of one
    whose server is about to end, nor where two stacks were mounted at one folder at one moment."""
    own_runtime()
    first, second = (room.layer(items_of(text)) for text in (b"1", b"2"))
    # another process may get the number before
    is_same = any(hold_given_anew(room, first, second) for _ in range(TRIES))
    hold_at_one_moment(room, first, second)
    hold_led_elsewhere(room, first, second)
    return "a number that is given anew%s; two stacks at one folder; another file by the same name" % (
        "" if is_same else " (left out: it was not)")


def hold_given_anew(room, first, second):
    """Holds what is shown once the number of a mount's device was given anew, while its server is there; whether it was."""
    at = share(room, [first])
    server, number = children().pop(), device_of(at)
    os.kill(server, signal.SIGSTOP)
    umount(at)
    is_same = device_of(share(room, [second])) == number
    hold("a file, with a server that has not ended", b"1", open_and_read(share(room, [first]) + "/x"))
    hold("servers", 3, len(children()))
    os.kill(server, signal.SIGCONT)
    umount_all(room)
    return is_same


def umount_all(room):
    for at in [at for at in places() if at.startswith(room.folder)]:
        umount(at)
    wait_until("all servers' end", lambda: not alive())


def hold_at_one_moment(room, first, second):
    """Holds that a mount that answers late, over which another has come, is not taken for that one."""
    beside = share(room, [second])
    note = note_of(device_of(beside))
    umount(beside)
    slow, go, at = room.write((SLOW % (room.folder, room.program)).encode()), room.folder + "/go", room.place()
    os.chmod(slow, 0o755)
    with open(note, "rb") as held:
        fcntl.flock(held, fcntl.LOCK_EX)
        over = subprocess.Popen([*room.words(), "--share", second, at], **ENDS)
        wait_until("it waits", lambda: is_waiting(over.pid))
        late = subprocess.Popen([*room.words(), "--share", "--strata", slow, first, at], **ENDS)
        wait_until("the first mount", lambda: at in places())
    hold("the mount over it", ("", 0), (over.communicate()[1], over.returncode))
    with open(go, "wb"):
        hold("the first one", ("", 0), (late.communicate()[1], late.returncode))
    for words, image, text in ((("--strata", slow), first, b"1"), ((), second, b"2")):
        hold("a file of %s" % text, text, open_and_read(share(room, [image], *words) + "/x"))
    umount_all(room)


def hold_led_elsewhere(room, first, second):
    """Holds that a mount is not shared as that of an image whose server has opened another file, since a link led there
    and back again meanwhile."""
    for words in ((), ("-o", "whole")):
        link, at = room.folder + "/link", room.place()
        os.symlink(first, link)
        line = ["--share", *words, "--strata", room.program, link, at]
        script = LED_ELSEWHERE % (os.path.dirname(SCRIPT), first, second, link, line)
        done = subprocess.run([sys.executable, "-B", "-c", script], **ENDS)
        hold("the link's mount", (0, "", b"2"), (done.returncode, done.stderr, open_and_read(at + "/x")))
        hold("a file", b"1", open_and_read(share(room, [first], *words) + "/x"))
        umount_all(room)
        os.unlink(link)


def unnoted(room):
    """Where a mount can't be noted, or no thread can be started, a line says so, and no mount is left."""
    own_runtime()
    image, at = room.layer(items_of(b"data")), room.place()
    os.mkdir("/run/strata", 0o700)
    called(libc.mount(b"tmpfs", b"/run/strata", b"tmpfs", 0, b"mode=700,size=4096"))
    with open("/run/strata/full", "wb") as out:
        out.write(bytes(4096))
    for words in ((at,), ("--print",)):
        status, _, told = run(room, "--share", image, *words)
        hold("a full disk", (1, True), (status, told.endswith(": No space left on device\n") and told.startswith("mount.py: /run/strata/")))
        hold("what is left", (set(), []), (alive(), [it for it in places() if it.startswith((room.folder, "/run/strata/"))]))
    umount("/run/strata")
    script = NO_THREADS % (os.path.dirname(SCRIPT), ["--background", "--strata", room.program, image, at])
    done = subprocess.run([sys.executable, "-B", "-c", script], **ENDS)
    hold("without threads", (1, "mount.py: Resource temporarily unavailable\n"), (done.returncode, done.stderr))
    hold("what is left", (set(), False), (alive(), at in places()))
    return "a full disk, and no thread: a line, and no mount left"


def note_of(device):
    """The path of the note that names a device."""
    number = b"%d:%d " % (os.major(device), os.minor(device))
    found, = [it for it in os.scandir("/run/strata") if it.is_file() and number in open_and_read(it.path)]
    return found.path


def is_waiting(process):
    """Whether a process waits for a file's lock."""
    with open("/proc/locks", encoding="ascii") as lines:
        return any(" -> " in line and str(process) in line.split() for line in lines)


def spaces(room):
    """A run in another namespace of processes takes no mount of this one for one that has gone."""
    if not shutil.which("unshare"):
        raise LeftOut("no unshare")
    own_runtime()
    image, other = room.layer(items_of(b"1")), room.layer(items_of(b"2"))
    words = ["unshare", "--pid", "--mount", "--fork", "--kill-child", "--mount-proc", "sh", "-c", 'echo; read it && "$@"', "sh"]
    inner = subprocess.Popen([*words, *room.words(), "--share", other, room.place()], **{**ENDS, "stdin": subprocess.PIPE})
    hold("its namespaces are there", "\n", inner.stdout.readline())
    status, at, _ = run(room, "--share", "--print", image)
    hold("what it says", ("", ""), inner.communicate("\n"))
    hold("its status, and that of --print", (0, 0), (inner.returncode, status))
    hold("the folder that was printed", b"1", open_and_read(at.rstrip("\n") + "/x"))
    hold("told again", (0, at, ""), run(room, "--share", "--print", image))
    hold("servers", 1, len(alive()))
    umount(at.rstrip("\n"))
    wait_until("the server's end", lambda: not alive())
    return "what is mounted stays where another namespace of processes shares the notes"


def printed(room):
    """--print tells one folder to all; a dead mount there is made anew."""
    own_runtime()
    image = room.layer(items_of(b"data"))
    hold("--print without --share", 2, run(room, "--print", image)[0])
    told = [run(room, "--share", "--print", image) for _ in range(2)]
    status, text, fault = told[0]
    at = text.rstrip("\n")
    hold("told twice", (told[0], 0, ""), (told[1], status, fault))
    hold("below", "/run/strata", os.path.dirname(at))
    hold("servers", 1, len(children()))
    bound = share(room, [image])
    hold("file systems", 1, len({device_of(at), device_of(bound)}))
    server, = children()
    os.kill(server, signal.SIGKILL)
    os.waitpid(server, 0)
    hold("anew", told[0], run(room, "--share", "--print", image))
    hold("a file", b"data", open_and_read(at + "/x"))
    for it in (at, bound):
        umount(it)
    wait_until("all servers' end", lambda: not alive())
    return "one folder for all, made anew where its server died; " + printed_to_user(room, image)


def open_and_read(path):
    with open(path, "rb") as it:
        return it.read()


def user_words(room):
    """How another user calls mount.py, with a folder for what is of this boot."""
    runtime = room.place()
    scripts = shutil.copytree(os.path.dirname(SCRIPT), room.folder + "/scripts")
    os.chown(runtime, OTHER, OTHER)
    environment = {**os.environ, "XDG_RUNTIME_DIR": runtime}
    who = {"user": OTHER, "group": OTHER, "extra_groups": [], "env": environment, **ENDS}
    words = [python_of(room), "-B", os.path.join(scripts, os.path.basename(SCRIPT))]
    return [*words, "--strata", shutil.copy(room.program, room.folder)], who, runtime


def printed_to_user(room, image):
    """The same for an unprivileged user, who may bind nothing."""
    if not room.is_root:
        return "left out for others: only root can become another user"
    if not shutil.which("fusermount3"):
        return "left out for others: no fusermount3"
    open_to_all(room)
    words, who, runtime = user_words(room)
    os.chmod(image, 0o644)
    told = [subprocess.run([*words, "--share", "--print", image], **who) for _ in range(2)]
    hold("told to a user", (0, ""), (told[0].returncode, told[0].stderr))
    hold("told twice", told[0].stdout, told[1].stdout)
    at = told[0].stdout.rstrip("\n")
    hold("below", runtime + "/strata", os.path.dirname(at))
    hold("servers", 1, len(alive()))
    hold("a look", 0, as_other(room, lambda: hold("a file", b"data", open_and_read(at + "/x"))))
    bound = subprocess.run([*words, "--share", image, room.place()], **who)
    hold("a folder of their own", (1, True), (bound.returncode, "--share --print" in bound.stderr))
    hold("fusermount3 -u", 0, subprocess.run(["fusermount3", "-u", at], **who).returncode)
    wait_until("all servers' end", lambda: not alive())
    link = room.folder + "/link"
    os.symlink(runtime, link)
    who["env"]["XDG_RUNTIME_DIR"] = link + "/"
    refused = subprocess.run([*words, "--share", "--print", image], **who)
    hold("a link", (1, True), (refused.returncode, link + ": is a symbolic link" in refused.stderr))
    who["env"]["XDG_RUNTIME_DIR"] = runtime
    os.chmod(runtime, 0o777)
    refused = subprocess.run([*words, "--share", "--print", image], **who)
    hold("a folder in which all may write", 1, refused.returncode)
    hold("what is said of it", True, "nobody else may write in it; `chmod 700 %s` sees to that" % runtime in refused.stderr)
    del who["env"]["XDG_RUNTIME_DIR"]
    refused = subprocess.run([*words, "--share", "--print", image], **who)
    line = ("mount.py: /run/user/%d: No such file or directory; shared mounts are noted there; without a login session, set "
            "XDG_RUNTIME_DIR to a directory of your own, in which nobody else may write\n" % OTHER)
    hold("without a login session", (1, line), (refused.returncode, refused.stderr))
    return "and for an unprivileged user"


def strangers(room):
    """No stranger's mount is joined, whatever it says of itself, and no stranger's folder or link
    is used for notes."""
    if not room.is_root:
        raise LeftOut("only root can become another user")
    own_runtime()
    image = room.layer(items_of(b"data"))
    os.mkdir("/run/strata")
    for owner, mode in ((OTHER, 0o700), (0, 0o777), (0, 0o720)):
        os.chown("/run/strata", owner, owner)
        os.chmod("/run/strata", mode)
        status, _, told = run(room, "--share", image, room.place())
        hold("a folder of %d" % owner, (1, True), (status, "nobody else may write in it" in told))
    os.rmdir("/run/strata")
    mode = os.stat("/run").st_mode & 0o7777
    os.chmod("/run", 0o1777)
    status, _, told = run(room, "--share", image, room.place())
    hold("a folder of all", (1, True), (status, "/run: shared mounts" in told and told.endswith("; `chmod 755 /run` sees to that\n")))
    os.chmod("/run", mode)
    status, _, told = run(room, "--share", "--print", image, room.place())
    hold("a DIR beside --print", (1, True), (status, told.endswith(": is a directory; --print takes no DIR, and prints one\n")))
    os.mkdir("/run/elsewhere", 0o700)
    os.symlink("/run/elsewhere", "/run/strata")
    status, _, told = run(room, "--share", image, room.place())
    hold("a link", (1, True, []), (status, "symbolic link" in told, os.listdir("/run/elsewhere")))
    os.unlink("/run/strata")
    hold("servers", set(), alive())
    return "folders and links of others are refused; " + other_mount(room, image)


def other_mount(room, image):
    """A user's mount with the same source, which even a note tells, is not joined."""
    if not shutil.which("fusermount3"):
        return "left out: no fusermount3"
    open_to_all(room)
    os.chmod(image, 0o644)
    at = share(room, [image])
    note, = os.listdir("/run/strata")
    umount(at)
    wait_until("all servers' end", lambda: not alive())
    words, who, _ = user_words(room)
    theirs = room.place()
    os.chown(theirs, OTHER, OTHER)
    done = subprocess.run([*words, "--background", image, theirs], **who)
    hold("a user's mount", (0, ""), (done.returncode, done.stderr))
    server, = alive()
    table = open_and_read("/proc/self/mountinfo").decode().splitlines()
    row = next(line.split() for line in table if theirs in line)
    ticks = open_and_read("/proc/%d/stat" % server).rpartition(b")")[2].split()[19].decode()
    with open("/run/strata/" + note, "w", encoding="ascii") as out:
        out.write("%s %d %s %s\n" % (row[2], server, ticks, processes()))
    ours = share(room, [image])
    hold("servers", 2, len(alive()))
    hold("the file system", False, os.minor(device_of(ours)) == int(row[2].split(":")[1]))
    umount(ours)
    umount(theirs)
    wait_until("all servers' end", lambda: not alive())
    return "nor is a user's mount joined that a note tells"


def occupied(room):
    """A second mount on one folder is reported; --replace unmounts the first one, and -o stack mounts
    over it."""
    first, second = room.layer([file("x", b"1")]), room.layer([file("x", b"2")])
    at = room.place()
    hold("a first mount", (0, "", ""), run(room, "--background", first, at))
    status, _, told = run(room, "--background", second, at)
    line = ("mount.py: %s: something is mounted here already: `umount %s` unmounts it, and so does "
            "--replace; `-o stack` mounts over it\n" % (at, at))
    hold("a second one", (1, line), (status, told))
    status, _, told = run(room, "--background", "--replace", "/none", at)
    hold("where an image is missing", (1, "mount.py: /none: No such file or directory\n", b"1"),
         (status, told, open_and_read(at + "/x")))
    hold("--replace", (0, "", ""), run(room, "--background", "--replace", second, at))
    hold("mounts, and data", (1, b"2"), (places().count(at), open_and_read(at + "/x")))
    hold("-o stack", (0, "", ""), run(room, "--background", "-o", "stack", first, at))
    hold("mounts, and data", (2, b"1"), (places().count(at), open_and_read(at + "/x")))
    for data in (b"1", b"2"):
        hold("data", data, open_and_read(at + "/x"))
        umount(at)
    wait_until("all servers' end", lambda: not alive())
    return "told, replaced, stacked"


def listed(room):
    """--list and --json tell folder, images, process, memory and age; the table of mounts and the
    list of processes name them."""
    own_runtime()
    hold("--list makes nothing", (0, []), (run(room, "--list")[0], os.listdir("/run")))
    image, other = room.layer([file("x", b"1")]), room.layer([file("y", b"2")])
    alone, (one, two) = room.place(), (share(room, [image]) for _ in range(2))
    shared_server, = children()
    hold("a mount", (0, "", ""), run(room, "--background", image, other, alone))
    server, = children() - {shared_server}
    status, text, fault = run(room, "--list", "--json")
    hold("--list --json", (0, ""), (status, fault))
    found = {row["folder"]: row for row in json.loads(text)}
    wanted = {one: (image, [image], shared_server), two: (image, [image], shared_server),
              alone: (image + "+1", [image, other], server)}
    for at, told in wanted.items():
        row = found[at]
        hold("source, images and process", told, (row["source"], row["images"], row["process"]))
        hold("memory, age", (True, True), (0 < row["memory"] < 100 << 20, 0 <= row["age"] <= 600))
    status, text, fault = run(room, "--list")
    hold("--list", (0, "", "PROCESS"), (status, fault, text.split()[0]))
    row, = [line for line in text.splitlines() if line.split()[0] == str(server)]
    hold("folder and images", [alone, image, other], row.split()[3:])
    shown_name = open_and_read("/proc/%d/cmdline" % server).decode().split("\0")[0]
    hold("the server's name", "%s@%s" % (os.path.basename(room.program), alone), shown_name)
    hold_relayed(room, image)
    for at in (one, two, alone):
        umount(at)
    wait_until("all servers' end", lambda: not alive())
    left = json.loads(run(room, "--list", "--json")[1])
    hold("what is listed at the end", [], [it for it in left if it["folder"].startswith(room.folder)])
    return "two folders of one mount and one of another, with images, process, memory and age"


def hold_relayed(room, image):
    """Of a mount with --stats, the program is listed that the relay started."""
    at = room.place()
    hold("a mount", (0, "", ""), run(room, "--background", "--stats", room.folder + "/counts", image, at))
    row, = (it for it in json.loads(run(room, "--list", "--json")[1]) if it["folder"] == at)
    hold("images with --stats", [image], row["images"])
    hold("the program", os.path.realpath(room.program), os.readlink("/proc/%d/exe" % row["process"]))
    hold("memory, age", (True, True), (0 < row["memory"] < 100 << 20, 0 <= row["age"] <= 600))
    umount(at)


def status_of(process):
    """The fields of proc(5) that tell of privileges."""
    text = open_and_read("/proc/%d/status" % process).decode()
    rows = dict(line.split(":\t", 1) for line in text.splitlines() if ":\t" in line)
    capabilities = {name: int(rows[name], 16) for name in CAPABILITIES}
    return capabilities, int(rows["NoNewPrivs"]), int(rows["Seccomp"])


def has_landlock():
    """Whether the kernel has rules for files that processes hold themselves to."""
    return libc.syscall(444, None, 0, 1) > 0


def hold_refused_calls(room, image):
    """Holds that a process with a server's privileges can read its image, and neither read other
    files, write, start others nor signal them."""
    if os.uname().machine != "x86_64":
        return
    path, parent = room.write(b"data"), os.getpid()
    tried = [lambda: os.open(image, os.O_WRONLY), lambda: os.open(image, os.O_RDONLY | os.O_TRUNC), lambda: os.open(path, os.O_PATH),
             lambda: os.unlink(path), lambda: os.chmod(path, 0), os.fork, socket.socket,
             lambda: os.kill(parent, 0), lambda: os.setuid(0)]
    tried += [lambda: os.open(path, os.O_RDONLY)] * has_landlock()
    child = os.fork()
    if child == 0:
        status = 200
        try:
            Confinement(room.program, [image], is_direct=True).enter()
            status = len(tried) + (os.read(os.open(image, os.O_RDONLY), 8) != b"-rom1fs-")
            for function in tried:
                try:
                    function()
                except OSError as fault:
                    status -= fault.errno in (errno.EPERM, errno.ENOSYS, errno.EACCES)
        finally:
            os._exit(status)
    hold("calls that are not refused", 0, os.waitstatus_to_exitcode(os.waitpid(child, 0)[1]))


def hold_over_libraries(room, image):
    """Holds that a mount over folders that rules name waits for nothing."""
    status, _, told = run(room, "--background", image, "/usr/local")
    if status == 0:
        umount("/usr/local")
        wait_until("the server's end", lambda: not alive())
    else:
        hold("a mount over what runs it", True, "strata needs this file" in told)


def privileges(room):
    """A server has no capability, can gain none, and has a filter of calls; -o caps leaves it
    all."""
    image, none = room.layer(items_of(b"data")), dict.fromkeys(CAPABILITIES, 0)
    filtered = 2 if os.uname().machine == "x86_64" else 0
    own = status_of(os.getpid())
    dropped = (none, 1, filtered)
    for words, wanted in ((("-o", "readers=4,workers=4"), dropped), (("-o", "caps"), own)):
        mount = room.mount([image], *words)
        hold("privileges with %s" % (words,), wanted, status_of(mount.server))
        hold("a file", b"data", open_and_read(mount.path(b"x")))
        mount.end()
    hold_refused_calls(room, image)
    hold_over_libraries(room, image)
    if room.is_root:
        os.chmod(image, 0o600)
        os.chown(image, OTHER, OTHER)
        mount = room.mount([image])
        kept = {**none, "CapPrm": READ_SEARCH, "CapEff": READ_SEARCH}
        hold("with another user's image", (kept, 1, filtered), status_of(mount.server))
        mount.end()
        hold_of_another(room, image, {**none, "CapPrm": READ_SEARCH | OVERRIDE, "CapEff": READ_SEARCH | OVERRIDE}, kept)
    return "no capability, but to read another user's image; a filter of calls%s; -o caps" % (
        "; no file but images" * has_landlock())


def hold_of_another(room, image, to_run, to_pass):
    """Holds that a server whose program only another user may run is left no more than it takes to start it."""
    folder = room.place()
    program, filtered = shutil.copy(room.program, folder), 2 if os.uname().machine == "x86_64" else 0
    for place, wanted in ((folder, to_pass), (program, to_run)):
        os.chown(place, OTHER, OTHER)
        os.chmod(place, 0o700)
        at = room.place()
        hold("a mount", (0, "", ""), run(room, "--background", "--strata", program, image, at))
        server, = children()
        hold("with another user's %s" % place, (wanted, 1, filtered), status_of(server))
        umount(at)
        wait_until("the server's end", lambda: not alive())


CHECKS = (sharing, raced, mistaken, spaces, unnoted, revived, printed, strangers, occupied, listed, privileges)
