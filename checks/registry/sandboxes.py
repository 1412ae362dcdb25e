"""Checks of the user that a sandbox of bwrap runs as, by what its program can read."""
import os
import shlex
import shutil
import subprocess
import sys
import tarfile

from checks.registry import made
from checks.registry.mounts import mounted
from checks.registry.printed import library_files
from checks.registry.rooms import LAYERS, NAME, LeftOut, hold, needs

SCRIPT = b"""#!/bin/sh
for name in of-root of-tape of-worker of-all; do
    (read -r word < /data/$name) 2> /dev/null && echo $name
done
while read -r what one rest; do case $what in Uid:|Gid:) echo "$what $one";; esac; done < /proc/self/status
echo "Home: $HOME"
(: > /data/new) 2> /dev/null && echo written
exit 0
"""
NUMBERS = "while read -r what one rest; do case $what in Uid:|Gid:) echo $what $one;; esac; done < /proc/self/status"
PASSWD = b"root:x:0:0::/root:/\nworker:x:1000:1000::/home/worker:/\nnobody:x:65534:65534:::/\n"
GROUP = b"root:x:0:\ntape:x:26:worker\nworker:x:1000:\n"
FILES = (("of-root", 0o600, 0, 0), ("of-tape", 0o640, 0, 26), ("of-worker", 0o600, 1000, 1000), ("of-all", 0o644, 0, 0))
OPTIONS = ("--dev", "/dev", "--proc", "/proc")


def image(room, user):
    """A layout of an image whose program says what it can read, and as whom."""
    entries = [made.folder(it) for it in ("bin", "dev", "etc", "proc", "data")]
    for name, source in {"/bin/sh": os.path.realpath("/bin/sh"), **library_files("/bin/sh")}.items():
        with open(source, "rb") as file:
            entries.append(made.entry(name.lstrip("/"), file.read(), mode=0o755))
    entries += [made.entry("bin/tell", SCRIPT, mode=0o755), made.entry("etc/passwd", PASSWD), made.entry("etc/group", GROUP)]
    entries += [made.entry("data/" + name, b"word\n", mode=mode, uid=uid, gid=gid) for name, mode, uid, gid in FILES]
    run = {"Entrypoint": ["/bin/tell"], "Env": ["PATH=/bin"], "WorkingDir": "/", **({"User": user} if user else {})}
    it = made.Layout(room.name(), run)
    it.index(made.tagged(it.image([made.archive(*entries)]), "1"))
    return it.path


def told(room, words, at, *options):
    """The command that the tool prints for a sandbox over a mount, or its fault, as lines."""
    done = subprocess.run([*words, sys.executable, "-B", LAYERS, "config", "--store", room.store, "--bwrap", *options, "app",
                           "--ro-bind", at, "/", *OPTIONS], stdin=subprocess.DEVNULL, stdout=subprocess.PIPE,
                          stderr=subprocess.PIPE, text=True, check=False, env=room.environment)
    return done.stdout if done.returncode == 0 else None, done.stderr


def ran(room, words, command):
    done = room.run(*words, "sh", "-c", command)
    if "Operation not permitted" in done.stderr or "No permissions" in done.stderr:
        raise LeftOut("no namespaces of users here: %s" % done.stderr.strip())
    return done.stdout.split("\n")[:-1]


# by the user that an image says: what its program reads, as whom it runs, and its home
SEEN = {
    # root has no capabilities there
    "": ["of-root", "of-tape", "of-all", "Uid: 0", "Gid: 0", "Home: /root"],
    "worker": ["of-tape", "of-worker", "of-all", "Uid: 1000", "Gid: 1000", "Home: /home/worker"],
    "1000:1000": ["of-worker", "of-all", "Uid: 1000", "Gid: 1000", "Home: /home/worker"],
    "nobody": ["of-all", "Uid: 65534", "Gid: 65534", "Home: /"],
    "4321": ["of-all", "Uid: 4321", "Gid: 0", "Home: /"],
}


def check_users_of_sandboxes(room):
    """Run by root, an image's program reads what its user may read, and nothing else."""
    needs("bwrap", "setpriv")
    if os.geteuid() != 0:
        raise LeftOut("only root becomes another user")
    os.chmod(room.path, 0o755)
    for user, wanted in SEEN.items():
        room.layers("pull", "oci:" + image(room, user), "app")
        at = mounted(room, "-o", "allow_other", "image:app")
        command, fault = told(room, [], at, *([] if user else ["--as-caller"]))
        hold("told for %r" % user, "", fault)
        hold("what %r reads" % user, wanted, ran(room, [], command))
    at = mounted(room, "image:app")
    line = "%s%s: mounted without allow_other, so the image's user 4321:0 cannot read it; mount it with -o allow_other\n"
    hold("a mount for root alone", (None, line % (NAME, at)), told(room, [], at))


def check_users_of_other_callers(room):
    """An unprivileged user is refused another's number, or keeps his own rights under it."""
    needs("bwrap", "setpriv")
    if os.geteuid() != 0:
        raise LeftOut("root makes the mount that all may read")
    os.chmod(room.path, 0o755)
    room.layers("pull", "oci:" + image(room, "worker"), "app")
    at = mounted(room, "-o", "allow_other", "image:app")
    shutil.copytree(room.store, room.store + "-of-nobody")
    room.store += "-of-nobody"
    for place, _, names in os.walk(room.store):
        for name in [place, *(os.path.join(place, it) for it in names)]:
            os.chown(name, 65534, 65534)
    become = ["setpriv", "--reuid", "65534", "--regid", "65534", "--clear-groups"]
    command, fault = told(room, become, at)
    hold("refused", (None, True), (command, "the image's user is 1000:1000, and you are 65534:65534" in fault))
    command = room.ran(*become, sys.executable, "-B", LAYERS, "config", "--store", room.store, "--bwrap", "--as-caller", "app",
                       "--ro-bind", at, "/", *OPTIONS)
    hold("his own rights", ["of-all", "Uid: 1000", "Gid: 1000", "Home: /home/worker"], ran(room, become, command))
    hold("words", "bwrap", shlex.split(command)[0])


ROWS, OTHERS = b"app:x:77:78::/srv/app:/\n", b"app:x:1:2::/:/\n"
FILE = made.entry("usr/p", ROWS)
# archives of layers in which links lead to the file that counts, by what is special about them
LINKED = {
    "a relative link": [[FILE, made.link("etc/passwd", "../usr/p")]],
    "an absolute link": [[FILE, made.link("etc/passwd", "/usr/./p")]],
    "a link above the root": [[FILE, made.link("etc/passwd", "../../../../../../usr/p")]],
    "a linked folder": [[made.entry("usr/etc/passwd", ROWS), made.link("etc", "usr/etc")]],
    "a folder linked absolutely": [[made.entry("usr/etc/passwd", ROWS), made.link("etc", "/usr/etc")]],
    "a folder linked above the root": [[made.entry("usr/etc/passwd", ROWS), made.link("etc", "../../usr/etc")]],
    "links on the way": [[made.entry("a/b/p", ROWS), made.link("x", "a"), made.link("etc/passwd", "../x/y/../b/p"),
                          made.folder("a/y")]],
    "a hard link": [[FILE, made.hard("usr/q", "usr/p"), made.link("etc/passwd", "../usr/q")]],
    "a file of a layer above": [[made.entry("usr/p", OTHERS)], [made.link("etc/passwd", "/usr/p")], [FILE]],
    "a file of a layer below": [[FILE], [made.entry("etc/passwd", OTHERS)], [made.link("etc/passwd", "/usr/p")]],
    "a folder of another layer": [[made.entry("etc/passwd", OTHERS)], [made.entry("usr/etc/passwd", ROWS)],
                                  [made.link("etc", "usr/etc")]],
    "forty links": [[FILE, made.link("etc/passwd", "../1"), *(made.link(str(it), str(it + 1)) for it in range(1, 39)),
                     made.link("39", "usr/p")]],
}
# the same where nothing is at the end, as where there is no passwd
NOWHERE = {
    "a missing file": [[made.link("etc/passwd", "../usr/p")]],
    "a missing folder": [[FILE, made.link("etc/passwd", "/none/../usr/p")]],
    "a whiteout": [[FILE, made.link("etc/passwd", "../usr/p")], [made.entry("usr/.wh.p")]],
    "an opaque folder": [[FILE, made.link("etc/passwd", "../usr/p")], [made.entry("usr/.wh..wh..opq")]],
    "a whiteout's own name": [[FILE, made.link("etc/passwd", "/usr/.wh.p")], [made.entry("usr/.wh.p")]],
}
FRONT = "the image's /etc/passwd: "
UNREAD = {
    "user app has the number 4294967295, which is none": [[made.entry("etc/passwd", b"app:x:4294967295:1::/:/\n77:x:x:1::/:/\n")]],
    "more than 40 symbolic links on the way": [[made.link("etc/passwd", "passwd")]],
    "a directory": [[made.folder("usr/p"), made.link("etc/passwd", "../usr/p")]],
    "not a regular file": [[made.entry("etc/passwd", kind=tarfile.FIFOTYPE)]],
    "not a directory on the way: etc": [[made.entry("etc")]],
    "a file of 1048577 bytes, at most 1048576 are read": [[made.entry("etc/passwd", b"\n" * ((1 << 20) + 1))]],
}


def bwrap_words(room, layers, user):
    """How the tool ends that prints a sandbox of an image of these layers, and what it prints."""
    it = made.Layout(room.name(), {**made.RUN, "User": user})
    it.index(made.tagged(it.image([made.archive(*entries) for entries in layers]), "1"))
    room.layers("pull", "oci:" + it.path, "app")
    return room.tried("config", "--bwrap", *(["--as-caller"] if os.geteuid() else []), "app")


def numbers(room, layers, user):
    """The numbers of the user and his group in a sandbox of an image of these layers."""
    words = shlex.split(bwrap_words(room, layers, user).stdout)
    return tuple(words[words.index(it) + 1] for it in (("--uid", "--gid") if os.geteuid() else ("--reuid", "--regid")))


def check_users_behind_links(room):
    """passwd may stand behind symbolic links, which lead nowhere but within the image."""
    for what, layers in LINKED.items():
        for user in ("77", "app"):
            hold("%s, user %s" % (what, user), ("77", "78"), numbers(room, layers, user))
    outside = os.path.join(room.path, "passwd")
    with open(outside, "wb") as file:
        file.write(ROWS)
    for what, layers in {**NOWHERE, "a file outside": [[made.link("etc/passwd", outside)]]}.items():
        hold(what, ("77", "0"), numbers(room, layers, "77"))
        hold(what, (1, "", NAME + "the image has no user app\n"), bwrap_words(room, layers, "app"))
    for why, layers in UNREAD.items():
        user = "app" if "user app" in why else "77"
        hold(why, (1, "", "%s%s%s\n" % (NAME, FRONT, why)), bwrap_words(room, layers, user))


def check_users_of_namespaces(room):
    """Root of a user namespace becomes no user that this does not have, and may run it with the rights of who made it."""
    needs("bwrap", "unshare")
    inside = ["unshare", "-rm"]
    ran(room, inside, "true")
    for user, numbers_said in (("worker", "1000:1000"), ("1000:0", "1000:0"), ("0:26", "0:26")):
        room.layers("pull", "oci:" + image(room, user), "app")
        why = "the image's user is %s, which this user namespace does not have; --as-caller runs it with your rights under that number"
        hold("refused", (None, NAME + why % numbers_said + "\n"), told(room, inside, "/"))
    command = room.ran(*inside, sys.executable, "-B", LAYERS, "config", "--store", room.store, "--bwrap", "--as-caller", "app",
                       "--ro-bind", "/", "/")
    hold("his own rights", ["bwrap", "--unshare-user", "--uid", "0", "--gid", "26"], shlex.split(command)[:6])
    front = command.partition(" -- ")[0] + " --proc /proc "
    hold("numbers", ["Uid: 0", "Gid: 26"], ran(room, inside, front + "sh -c " + shlex.quote(NUMBERS)))
    room.layers("pull", "oci:" + image(room, ""), "app")
    hold("root", "bwrap", (told(room, inside, "/")[0] or "").split(" ")[0])


def in_namespace(room, *words):
    """How the tool ends in a user namespace with users and groups 0 to 9 of outside."""
    script = 'echo; read -r _; exec "$@"'
    tool = subprocess.Popen(["unshare", "-U", "sh", "-c", script, "sh", *room.words("config", "--bwrap", *words)], cwd=room.path,
                            stdin=subprocess.PIPE, stdout=subprocess.PIPE, stderr=subprocess.PIPE, text=True, env=room.environment)
    tool.stdout.readline()
    for name in ("uid_map", "gid_map"):
        with open("/proc/%d/%s" % (tool.pid, name), "w", encoding="ascii") as file:
            file.write("0 0 10\n")
    out, errors = tool.communicate("\n")
    return shlex.split(out)[:7], errors


def check_users_of_larger_namespaces(room):
    """Root of a user namespace becomes each user that this has with all groups, and gives no rights of others away."""
    needs("unshare")
    if os.geteuid() != 0:
        raise LeftOut("only root gives a namespace other users")
    os.chmod(room.path, 0o755)
    room.layers("pull", "oci:" + image(room, "5:6"), "inside")
    become = ["setpriv", "--reuid", "5", "--regid", "6", "--clear-groups", "--inh-caps=-all"]
    hold("a user of it", (become, ""), in_namespace(room, "inside"))
    for user, numbers_said in (("5:10", "5:10"), ("worker", "1000:1000")):
        room.layers("pull", "oci:" + image(room, user), "app")
        why = "the image's user is %s, which this user namespace does not have; run it outside, or in one that has him and his groups"
        hold("another", ([], NAME + why % numbers_said + "\n"), in_namespace(room, "app"))
        hold("--as-caller", ([], NAME + "--as-caller would give root's rights to the image's user; leave it out\n"),
             in_namespace(room, "--as-caller", "app"))


CHECKS = [check_users_of_sandboxes, check_users_of_other_callers, check_users_behind_links, check_users_of_namespaces,
          check_users_of_larger_namespaces]
