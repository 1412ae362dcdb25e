"""mount.strata and strata-mount as a stranger would have them: odd ends, surroundings, names, words, and files that are none."""
import os
import signal
import socket
import subprocess
import tarfile

from checks.installed.mounts import NOT_MOUNTED, STACK, WRONG_WORDS, hold_stack, places, servers, settle
from checks.installed.roots import hold, hold_in
from strata_format.version import PACKAGES

HELPER, PLACE = "/usr/local/sbin/mount.strata", "/mnt/strange"
LOWER = "/srv/lower.romfs"
OURS = "/usr/local/lib/strata/"
SECONDS = 60
# what a stranger may have planted, each of which leaves a word in this file
PLANTED = "/tmp/planted"
MODULES = ("os", "strata_mount", "strata_layers", "strata_format", "struct", "argparse", "site", "sitecustomize",
           "encodings/__init__")
OWN_MODULES = ["/lib/python3.%d" % it for it in range(9, 20)]
PROGRAMS = ("strata", "fusermount3", "python3", "sh")


def begin(root):
    root.install()
    os.mkdir(PLACE)


def taken_away(root):
    """Ends the one mount that there must be."""
    hold("mounts", [PLACE], [place for place, _ in places()])
    root.good("umount", PLACE)
    settle("no server is left", [], servers)


def held_refused(root, what, status, line, *words, **named):
    """Holds a call that mounts nothing, with its status, and its last line."""
    done = root.run(*words, timeout=SECONDS, **named)
    hold(what, (status, []), (done.status, places()))
    hold_in(what, line, done.err.splitlines()[-1] if done.err else "")
    return done


def ends(root):
    """Standard ends that are closed or full, and SIGCHLD ignored, change no status."""
    begin(root)
    for closed in ((0,), (1,), (2,), (0, 1, 2)):
        def close(numbers=closed):
            for number in numbers:
                os.close(number)
        hold("closed %r" % (closed,), 0, root.run(HELPER, LOWER, PLACE, "-v", preexec_fn=close).status)
        taken_away(root)
        hold("closed %r, and no image" % (closed,), NOT_MOUNTED, root.run(HELPER, "/none", PLACE, preexec_fn=close).status)
    with open("/dev/full", "wb") as full:
        hold("full", 0, root.run(HELPER, LOWER, PLACE, "-v", stdout=full, stderr=full).status)
        taken_away(root)
        hold("full, and no image", NOT_MOUNTED, root.run(HELPER, "/none", PLACE, stdout=full, stderr=full).status)
        done = root.run("strata-mount", "--share", "--print", LOWER, stdout=full)
        hold("full, of a folder", (1, "strata-mount: /dev/stdout: No space left on device\n"), (done.status, done.err))
        hold("full, of a folder: mounts", [], places())
        done = root.run("strata-layers", "--version", stdout=full)
        hold("full, of strata-layers", (1, "strata-layers: /dev/stdout: no space left on device\n"), (done.status, done.err))
    held_refused(root, "SIGCHLD ignored", NOT_MOUNTED, "image 0 is /none: no such file", HELPER, "/none", PLACE,
                 preexec_fn=lambda: signal.signal(signal.SIGCHLD, signal.SIG_IGN))
    return "closed and full ends, and SIGCHLD ignored, change no status"


def plant(folder):
    """Plants modules and programs, which all tell that they were run."""
    os.makedirs(folder + "/encodings")
    os.makedirs(folder + "/lib/strata")
    for name in MODULES:
        # python takes a folder for that of its own modules if `os.py` is there
        for place in (folder, folder + "/lib/strata/" * ("/" not in name), *(folder + it for it in OWN_MODULES)):
            path = os.path.join(place or folder, name + ".py")
            os.makedirs(os.path.dirname(path), exist_ok=True)
            with open(path, "w", encoding="ascii") as out:
                out.write("import posix\nposix.write(posix.open(%r, 0x441, 0o666), %r)\n" % (PLANTED, name.encode()))
    for name in PROGRAMS:
        with open(os.path.join(folder, name), "w", encoding="ascii") as out:
            out.write("#!/bin/sh\necho %s >> %s\n" % (name, PLANTED))
            os.fchmod(out.fileno(), 0o755)
    # who opens it waits for ever
    os.mkfifo(folder + "/openssl.cnf")
    for place in (folder, folder + "/sbin"):
        os.makedirs(place, exist_ok=True)
        os.symlink(HELPER, place + "/mount.strata")


def surroundings(root):
    """Nothing of the environment, of the working folder, or beside a link to the helper decides what it runs."""
    begin(root)
    folder = "/tmp/stranger"
    plant(folder)
    named = {name: folder for name in ("PYTHONPATH", "PYTHONHOME", "PYTHONUSERBASE", "HOME", "TMPDIR", "XDG_DATA_HOME")}
    odd = {"PATH": folder + ":/usr/bin", "PYTHONSTARTUP": folder + "/os.py", "PYTHONINSPECT": "1", "PYTHONMALLOC": "odd", "IFS": "/",
           "PYTHONIOENCODING": "rot13", "PYTHONUTF8": "x", "LANG": "xx", "LC_ALL": "xx_YY", "BASH_ENV": folder + "/sh",
           "OPENSSL_CONF": folder + "/openssl.cnf", "_FUSE_COMMFD": "3", "PYTHONEXECUTABLE": folder + "/python3",
           "__PYVENV_LAUNCHER__": folder + "/python3", **named}
    for helper in (HELPER, "./mount.strata", "sbin/mount.strata"):
        for mask in (0, 0o777):
            done = root.run(helper, STACK, PLACE, cwd=folder, env=odd, umask=mask)
            hold(helper, (0, ""), (done.status, done.err))
            hold_stack(root, PLACE)
            taken_away(root)
        held_refused(root, helper, NOT_MOUNTED, "no such file", helper, "/none", PLACE, cwd=folder, env=odd)
    for words in (("strata-mount", "--background", LOWER, PLACE), ("strata-mount", "--share", "--replace", LOWER, PLACE),
                  ("strata-layers", "image", "/usr/local/lib/strata", "/srv/image.romfs"), ("strata-layers", "seal", LOWER)):
        hold(words[0], 0, root.run("/usr/local/bin/" + words[0], *words[1:], cwd=folder, env=odd, timeout=SECONDS).status)
    taken_away(root)
    hold("what was planted", False, os.path.exists(PLANTED))
    hold("strata-mount", 0, root.run("strata-mount", "--background", LOWER, PLACE, env=dict(os.environ, SECRET="1")).status)
    for process in servers():
        with open("/proc/%d/environ" % process, "rb") as told:
            hold("a secret of the caller's", False, b"SECRET" in told.read())
    taken_away(root)
    return "environment, working folder, links and masks decide nothing; no server keeps the environment"


def odd_words(root):
    """Numbers out of range, and very long or odd words, are refused before anything is mounted, in one line."""
    begin(root)
    for said in ("readers=0", "readers=65", "readers=" + "9" * 50000, "workers=0", "workers=65", "uid=" + "9" * 50000, "a\nb", "nonsense," * 9000):
        done = held_refused(root, said[:20], WRONG_WORDS, "mount.strata: ", HELPER, LOWER, PLACE, "-o", said)
        hold("lines of %s" % said[:20], (1, True), (done.err.count("\n"), len(done.err) < 5000))
    hold("many words", 0, root.run(HELPER, LOWER, PLACE, "-o", "readers=00064," + "x-a,ro," * 15000).status)
    taken_away(root)
    return "numbers, a new line, very many words"


def names(root):
    """Names of all bytes, long ones, and a working folder that is gone."""
    begin(root)
    for name in ("new\nline", "\x1b[31m", "-x", "$(id)'\"", "..x"):
        os.link(LOWER, "/srv/" + name)
        hold("a name", 0, root.run(HELPER, "/srv/" + name, PLACE).status)
        taken_away(root)
        done = held_refused(root, "a missing one", NOT_MOUNTED, "", HELPER, "/srv/no/" + name, PLACE)
        hold("lines", (2, True), (done.err.count("\n"), done.err.replace("\n", "").isprintable()))
    os.link(LOWER, b"/srv/\xff")
    held_refused(root, "no UTF-8", NOT_MOUNTED, "the name is not UTF-8", HELPER, b"/srv/\xff", PLACE)
    held_refused(root, "a long name", NOT_MOUNTED, "file name too long", HELPER, "/" + "a" * 4000, PLACE)
    held_refused(root, "a longer one", WRONG_WORDS, "bytes together", HELPER, "/" + "a" * 5000, PLACE)
    os.mkdir("/tmp/gone")
    gone = "cd /tmp/gone; rmdir /tmp/gone; exec "
    held_refused(root, "a folder that is gone", NOT_MOUNTED, "mount.strata: the working folder: No such file or directory",
                 "sh", "-c", gone + HELPER + " x.romfs " + PLACE)
    os.mkdir("/tmp/gone")
    gone = "mount -t tmpfs gone /tmp/gone; cp %s /tmp/gone/x.romfs; cd /tmp/gone; umount -l /tmp/gone; exec " % LOWER
    held_refused(root, "a folder without a path", 1, "strata-mount: the working folder: No such file or directory",
                 "sh", "-c", gone + "strata-mount --background x.romfs " + PLACE)
    return "names of all bytes are shown in one line"


def no_files(root):
    """Pipes, sockets and devices are not waited for to say what they are; of a sparse archive headers alone are read."""
    begin(root)
    os.mkfifo("/srv/pipe")
    writer = subprocess.Popen(["sh", "-c", "echo hallo > /srv/pipe"])
    held_refused(root, "a pipe", NOT_MOUNTED, "layer 0 is /srv/pipe: an image has at least 16 bytes", HELPER, "/srv/pipe", PLACE)
    writer.wait()
    hold("-f of a pipe", 0, root.run(HELPER, "/srv/pipe", PLACE, "-f", timeout=SECONDS).status)
    socket.socket(socket.AF_UNIX).bind("/srv/socket")
    held_refused(root, "a socket", NOT_MOUNTED, "it is a socket", HELPER, "/srv/socket", PLACE)
    held_refused(root, "a device", NOT_MOUNTED, "an image has at least 16 bytes", HELPER, "/dev/null", PLACE)
    held_refused(root, "a file of /proc", NOT_MOUNTED, "begins with `-rom1fs-`", HELPER, "/proc/version", PLACE)
    os.symlink("loop", "/srv/loop")
    held_refused(root, "a loop", NOT_MOUNTED, "too many levels of symbolic links", HELPER, "/srv/loop", PLACE)
    info = tarfile.TarInfo("p")
    info.type, info.size = b"x", 8 << 30
    with open("/srv/sparse", "wb") as out:
        out.write(info.tobuf(tarfile.GNU_FORMAT))
        out.truncate(9 << 30)
    held_refused(root, "a sparse archive", NOT_MOUNTED, "a tar archive", "prlimit", "--as=%d" % (1 << 30), HELPER, "/srv/sparse", PLACE)
    return "a pipe, a socket, devices, a file of /proc, a loop, an archive that says 8 GiB"


def by_number(root):
    """An image that is named by the number of an open file is refused in one line, which says what to name instead."""
    begin(root)
    number, (source, sink) = os.open(LOWER, os.O_RDONLY), os.pipe()
    os.symlink("/dev/fd/%d" % number, "/srv/link")
    line = ": strata does not inherit the caller's open files; name "
    pipes = "a file by its path, or a pipe that mkfifo makes"
    for command, status in ((("strata-mount", "--background"), 1), (("strata-mount", "--share"), 1), ((HELPER,), NOT_MOUNTED)):
        for name, wanted in (("/proc/self/fd/%d" % number, LOWER), ("/dev/fd/%d" % number, LOWER), ("/srv/link", LOWER),
                             ("/proc/%d/fd/%d" % (os.getpid(), number), LOWER), ("/dev/stdin", "/srv/upper.romfs"),
                             ("/dev/fd/%d" % source, pipes)):
            with open("/srv/upper.romfs", "rb") as given:
                done = held_refused(root, name, status, name + line + wanted, *command, name, PLACE,
                                    stdin=given, pass_fds=(number, source))
            hold("lines", 1, done.err.count("\n"))
    os.close(sink)
    return "in /proc and /dev, by links, of files and pipes"


def has_begun(process):
    """Whether strata-mount has read its modules, of which ctypes is one, and has begun, so that SIGINT ends it at once."""
    with open("/proc/%d/maps" % process, encoding="utf-8") as it:
        has_modules = "_ctypes" in it.read()
    with open("/proc/%d/status" % process, encoding="ascii") as it:
        caught, = (int(line.split()[1], 16) for line in it if line.startswith("SigCgt:"))
    return has_modules and not caught >> signal.SIGINT - 1 & 1


def interrupted_early(root):
    """SIGINT before anything is mounted ends strata-mount without a word."""
    os.mkfifo("/srv/counts")
    run = subprocess.Popen(("strata-mount", "--stats", "/srv/counts", LOWER, PLACE), stdin=subprocess.DEVNULL,
                           stderr=subprocess.PIPE)
    settle("the run has begun", True, lambda: has_begun(run.pid))
    run.send_signal(signal.SIGINT)
    hold("interrupted early", (b"", -signal.SIGINT, []), (run.communicate(timeout=SECONDS)[1], run.returncode, places()))


def interrupted(root):
    """Who waits for a file that doesn't answer is ended by SIGTERM and SIGINT, and doesn't say that it is mounted."""
    begin(root)
    os.mkfifo("/srv/silent")
    for words, wanted in (((HELPER, "/srv/silent", PLACE), 8), (("strata-mount", "--background", "/srv/silent", PLACE), 130)):
        for number in (signal.SIGTERM, signal.SIGINT):
            run = subprocess.Popen(words, stdin=subprocess.DEVNULL)
            settle("a server", 1, lambda: len(servers()))
            run.send_signal(number)
            hold("%s, by signal %d" % (words[0], number), (wanted, []), (run.wait(SECONDS), places()))
            settle("no server is left", [], servers)
    interrupted_early(root)
    return "an image that never comes: 8 by mount.strata, 130 by strata-mount; before the mount nothing is said"


def over_itself(root):
    """strata is not mounted over what it needs: it would wait for itself."""
    begin(root)
    for place, needed in (("/usr/local", "/usr/local/bin/strata"), ("/usr/local/bin", "/usr/local/bin/strata"),
                          (OURS, OURS + "strata_"),
                          *((OURS + package, OURS + package + "/__init__.py") for package in PACKAGES), ("/usr", "/usr/"),
                          ("/etc", "/etc/ld.so."), ("/dev", "/dev/null"), ("/proc", "/proc/self/fd"),
                          ("/sys", "/sys/devices/system/cpu/online"), ("/lib64", "/lib64/ld-linux-x86-64.so.2")):
        held_refused(root, place, NOT_MOUNTED, "%s" % needed, HELPER, LOWER, place)
        held_refused(root, place, NOT_MOUNTED, "strata needs this file, which is in the directory", HELPER, LOWER, place)
    link = PLACE + "/link"
    os.symlink(LOWER, link)
    held_refused(root, "a link to an image", NOT_MOUNTED, link + ": this image is in the directory", HELPER, link, PLACE)
    return "a mount over strata's program, modules or libraries, /etc, /dev, /proc, /sys, or over a link to its image is refused"


CHECKS = (ends, surroundings, odd_words, names, no_files, by_number, interrupted, over_itself)
