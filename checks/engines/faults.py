"""Checks of what goes wrong: a snapshotter that is killed, mounts that are gone, a full disk, a
damaged database, removals while images are made, many calls at once."""
import contextlib
import glob
import os
import random
import resource
import signal
import socket
import sqlite3
import subprocess
import threading
import time

from checks.engines.layers import end, kind_of, lowers_of, put, without_images
from checks.engines.snapshotters import Snapshotter
from checks.shared.mounting import SECONDS, Failed, hold, places, wait_until
from strata_snapshotter import places as held_places, sockets
from strata_snapshotter.state import Kind


def fill(folder):
    put(folder, "file", b"x" * 100000)


def hold_mount(snapshotter, key):
    """Holds that the mounts of a snapshot show the layer."""
    lower, = lowers_of(*snapshotter.call("Mounts", key=key).mounts)
    hold("the layer", ["file"], os.listdir(lower))


def check_killed_and_restarted(snapshotter):
    """The mounts of one that was killed are taken over; its servers go on."""
    snapshotter.layer("one", "", fill)
    snapshotter.settled()
    snapshotter.call("Prepare", key="c", parent="one")
    before = places()
    snapshotter.stop(signal.SIGKILL)
    hold("mounts stay", before, places())
    snapshotter.start()
    hold_mount(snapshotter, "c")
    hold("the same mounts", before, places())
    snapshotter.stop()
    snapshotter.start()
    hold_mount(snapshotter, "c")
    hold("the same mounts", before, places())


def check_mounts_that_are_gone(snapshotter):
    """After a reboot there is state and no mount, or a server was killed: it is mounted anew."""
    snapshotter.layer("one", "", fill)
    snapshotter.settled()
    snapshotter.call("Prepare", key="c", parent="one")
    place = snapshotter.root + "/mounts/1"
    # one at which nobody has looked, so that the kernel keeps nothing of it
    os.kill(snapshotter.servers()[0], signal.SIGKILL)
    wait_until("the mount is dead", lambda: is_dead(place))
    hold_mount(snapshotter, "c")
    subprocess.run(["umount", place], check=True)
    hold_mount(snapshotter, "c")
    wait_until("one server", lambda: len(snapshotter.servers()) == 1)
    os.kill(snapshotter.servers()[0], signal.SIGKILL)
    wait_until("the mount is dead", lambda: is_dead(place))
    hold_mount(snapshotter, "c")
    hold("mounts", 1, places().count(place))
    snapshotter.call("Prepare", key="d", parent="one")
    hold("mounts", 1, places().count(place))


def is_dead(place):
    try:
        os.statvfs(place)
        return False
    except OSError:
        return True


def check_kept_mounts(snapshotter):
    """With --keep an image is mounted before a container asks for it, and the mount stays when the
    last one goes, but not longer than its layer, than the service, or than is said."""
    snapshotter.restart_keeping("1000")
    snapshotter.layer("one", "", fill)
    place = snapshotter.root + "/mounts/1"
    wait_until("it is mounted ahead", snapshotter.servers)
    servers = snapshotter.servers()
    for _ in range(2):
        snapshotter.call("Prepare", key="c", parent="one")
        hold_mount(snapshotter, "c")
        snapshotter.call("Remove", key="c")
        hold("the same mount", (1, servers), (places().count(place), snapshotter.servers()))
    snapshotter.call("Remove", key="one")
    hold("what is left", [], snapshotter.left())
    snapshotter.layer("two", "", fill)
    wait_until("it is mounted ahead", snapshotter.servers)
    hold("status", 0, snapshotter.stop())
    hold("mounts of one that was stopped", [], [it for it in places()
                                                if it.startswith(snapshotter.root)])
    snapshotter.start()
    snapshotter.view("v", "two")
    snapshotter.call("Remove", key="v")
    hold("servers", 1, len(snapshotter.servers()))
    snapshotter.restart_keeping("1", signal.SIGKILL)
    wait_until("it is unmounted", lambda: not snapshotter.servers())
    hold("snapshots", ["two"], snapshotter.names())
    # while they are mounted ahead, too
    snapshotter.restart_keeping("1000")
    for number in range(8):
        snapshotter.layer("removed", "", fill)
        time.sleep(0.02 * number)
        snapshotter.call("Remove", key="removed")
    wait_until("nothing is left", lambda: snapshotter.left() == ["snapshots/4"])


def launchers(snapshotter):
    """The processes of the service that start mounts."""
    found = []
    for path in glob.glob("/proc/%d/task/*/children" % snapshotter.process.pid):
        with open(path, encoding="ascii") as numbers:
            found += map(int, numbers.read().split())
    return found


def kill_launcher(snapshotter):
    os.kill(*launchers(snapshotter), signal.SIGKILL)


def check_the_launcher_killed(snapshotter):
    """The process that starts mounts is killed before and while it does: there is a new one, and the
    mount is made."""
    snapshotter.layer("one", "", fill)
    for number in range(6):
        # the first one may have found that the process was killed, and started it again
        for killing in (None, threading.Timer(0.003 * number, kill_launcher, (snapshotter,))):
            if killing is not None:
                killing.start()
            hold("the layer", ["file"], os.listdir(snapshotter.view("v", "one")))
            snapshotter.call("Remove", key="v")
            wait_until("no server", lambda: not snapshotter.servers())
        killing.join()
    kill_launcher(snapshotter)
    hold("the layer", ["file"], os.listdir(snapshotter.view("v", "one")))
    hold("launchers", 1, len(launchers(snapshotter)))
    snapshotter.stop(signal.SIGKILL)
    snapshotter.start()
    hold("launchers", 1, len(launchers(snapshotter)))


def check_what_is_mounted_ahead(snapshotter):
    """A layer on which another one is about to lie is not mounted ahead."""
    snapshotter.layer("one", "", fill)
    snapshotter.settled()
    snapshotter.stop()
    snapshots = without_images(snapshotter, 1000)
    one = snapshots.stat("one")
    with snapshots.ahead.coming_over(one):
        snapshots.ahead.mount(one)
        hold("mounts", [], snapshotter.left()[1:])
    snapshots.ahead.mount(one)
    hold("servers", 1, len(snapshotter.servers()))
    end(snapshots)
    hold("mounts", [], snapshotter.left()[1:])
    snapshotter.start()


def lies_on(snapshotter, key):
    """In which folder of the root a new snapshot's lower folder is."""
    lower, = lowers_of(*snapshotter.call("Prepare", key=key, parent="one").mounts)
    return kind_of(snapshotter, lower)


def check_replaced_folders(snapshotter):
    """With --keep what is unpacked lies on a folder that an image has just replaced, and containers
    on the mount. The folder goes with what lies on it, once it is kept no longer."""
    snapshotter.restart_keeping("1000")
    snapshotter.layer("one", "", fill)
    snapshotter.settled()
    hold("unpacked", "snapshots", lies_on(snapshotter, "extract-2"))
    hold("a container", "mounts", lies_on(snapshotter, "c"))
    snapshotter.restart_keeping("0")
    hold("unpacked later", "mounts", lies_on(snapshotter, "extract-3"))
    folder = snapshotter.root + "/snapshots/1/fs"
    hold("the folder", ["file"], os.listdir(folder))
    snapshotter.call("Remove", key="extract-2")
    hold("the folder is there", False, os.path.exists(folder))


def check_what_a_killed_one_left(snapshotter):
    """Folders that no snapshot has, images that were begun, folders that were being removed."""
    snapshotter.layer("one", "", fill)
    snapshotter.settled()
    snapshotter.stop(signal.SIGKILL)
    root = snapshotter.root
    for name in ("snapshots/77/fs/x", "trash/y/z", "mounts/78", "snapshots/1/fs/old"):
        os.makedirs(os.path.join(root, name))
    with open(root + "/new/begun", "wb"):
        pass
    snapshotter.start()
    hold("what is left", ["snapshots/1"], snapshotter.left())
    hold("the layer", ["layer.romfs", "layer.romfs.verity"], sorted(os.listdir(root + "/snapshots/1")))


def check_random_kills(snapshotter, count=25):
    """Killed at random moments of a round of calls: each time all is as some call left it, and what
    was committed stays."""
    draw = random.Random(7)
    snapshotter.layer("base", "", fill)

    def round_of_calls(number):
        snapshotter.tried("Prepare", key="extract-%d" % number, parent="base")
        snapshotter.tried("Commit", name="l%d" % number, key="extract-%d" % number)
        snapshotter.tried("View", key="v%d" % number, parent="l%d" % number)
        snapshotter.tried("Remove", key="v%d" % number)
        snapshotter.tried("Remove", key="l%d" % number)

    for number in range(count):
        work = threading.Thread(target=round_of_calls, args=(number,))
        work.start()
        time.sleep(draw.random() * 0.1)
        snapshotter.stop(signal.SIGKILL)
        work.join()
        snapshotter.start()
        hold("the base", True, "base" in snapshotter.names())
    hold("the layer", ["file"], os.listdir(snapshotter.view("v", "base")))


def check_refused_roots(snapshotter):
    """A second snapshotter on a root, a root that others may look into, a damaged database: one
    line each, and status 1."""
    def hold_line(what, words):
        status, text = snapshotter.refused()
        hold(what, (1, 1, True),
             (status, text.count("\n"), text.startswith("strata-snapshotter: ") and words in text))

    hold_line("another one", "another snapshotter runs here")
    snapshotter.layer("one", "", fill)
    snapshotter.settled()
    hold("status", 0, snapshotter.stop())
    os.chmod(snapshotter.root, 0o755)
    hold_line("others", "with the mode 700")
    os.chmod(snapshotter.root, 0o700)
    base = snapshotter.root + "/state.db"
    with open(base, "rb") as file:
        data = file.read()
    for wrong in (b"no database at all" * 100, data[:4096] + os.urandom(4096) + data[8192:]):
        with open(base, "wb") as file:
            file.write(wrong)
        hold_line("a damaged database", "state.db: ")
    for words in ("kind = 9", "form = 'x'", "labels = 'x'", "labels = '[]'", "labels = '{\"a\": 1}'", "name = x'ff'", "parent = id"):
        with open(base, "wb") as file:
            file.write(data)
        with contextlib.closing(sqlite3.connect(base, isolation_level=None)) as opened:
            opened.execute("UPDATE snapshots SET " + words)
        hold_line("a snapshot with " + words, "state.db: damaged: snapshot 1;")
    with open(base, "wb") as file:
        file.write(data)
    snapshotter.start()
    hold("the layer", ["file"], os.listdir(snapshotter.view("v", "one")))


def replace(path):
    """Puts another database into the place of one."""
    with contextlib.closing(sqlite3.connect(path + "-")) as other:
        other.execute("CREATE TABLE others(id INTEGER)")
    os.rename(path + "-", path)


def pipe(path):
    os.unlink(path)
    os.mkfifo(path)


def folder(path):
    os.unlink(path)
    os.mkdir(path)


def check_a_lost_database(snapshotter):
    """A database that is removed or replaced while the service runs: changes fail, what it held is kept beside it, and without it
    no service begins, which would remove all snapshots."""
    snapshotter.layer("one", "", fill)
    snapshotter.settled()
    base, names = snapshotter.root + "/state.db", ["one"]
    for number, lose in enumerate((os.unlink, replace, folder, pipe)):
        lose(base)
        # the last one is noticed at the end alone
        if lose != pipe:
            snapshotter.fails("UNAVAILABLE", "Prepare", key="none")
        hold("names", names, snapshotter.names())
        hold("status", 0, snapshotter.stop())
        status, text = snapshotter.refused()
        hold("without it", (1, 1, True), (status, text.count("\n"), text.startswith("strata-snapshotter: %s: " % base)))
        if lose == folder:
            os.rmdir(base)
        os.rename(base + ".kept", base)
        snapshotter.start()
        names = sorted([*names, "a%d" % number])
        snapshotter.call("Prepare", key="a%d" % number)
    snapshotter.stop()
    with open(base, "rb+") as file:
        data = file.read()
        file.truncate(0)
    hold("an empty one", (1, True), (snapshotter.refused()[0], "missing or empty" in snapshotter.refused()[1]))
    with open(base, "wb") as file:
        file.write(data)
    snapshotter.start()
    hold("names", names, snapshotter.names())
    hold("the layer", ["file"], os.listdir(snapshotter.view("v", "one")))


def make_deep(folder, depth):
    """Makes folders within folders, deeper than any path leads."""
    number = os.open(folder, os.O_RDONLY)
    for _ in range(depth):
        os.mkdir("a" * 20, dir_fd=number)
        below = os.open("a" * 20, os.O_RDONLY, dir_fd=number)
        os.close(number)
        number = below
    os.close(number)


def check_deep_folders(snapshotter):
    """Folders within folders, as a container may make them, are removed: with their snapshot, and at the start."""
    memory = snapshotter.folder + "/memory"
    os.mkdir(memory)
    subprocess.run(["mount", "-t", "tmpfs", "-o", "mode=700", "tmpfs", memory], check=True)
    other = Snapshotter(snapshotter.program, memory).start()
    try:
        hold_deep(other)
    finally:
        other.stop()
        subprocess.run(["umount", memory], check=True)


def hold_deep(snapshotter):
    make_deep(snapshotter.files(snapshotter.call("Prepare", key="a").mounts), 1100)
    hold("inodes", True, 100 < snapshotter.call("Usage", key="a").inodes <= 1101)
    snapshotter.layer("one", "", lambda folder: make_deep(folder, 1100))
    snapshotter.settled()
    hold("why", True, "a path of 513 names" in snapshotter.call("Stat", key="one").info.labels["strata/folder"])
    snapshotter.call("Remove", key="a")
    snapshotter.call("Remove", key="one")
    hold("what is left", [], snapshotter.left())
    snapshotter.stop(signal.SIGKILL)
    for name in ("snapshots/77/fs", "trash/x"):
        os.makedirs(os.path.join(snapshotter.root, name))
        make_deep(os.path.join(snapshotter.root, name), 1100)
    snapshotter.start()
    hold("what is left at the start", [], snapshotter.left())


def check_large_folders(snapshotter):
    """While it is measured what a folder takes other calls are answered."""
    snapshotter.stop()
    snapshots, measured = without_images(snapshotter), held_places.usage
    why = "it is a folder"
    snapshots.create("extract-1", "", Kind.ACTIVE, {})
    snapshots.maker.folder_reason = lambda snapshot: why
    calling = []

    def usage(path):
        asking = threading.Thread(target=lambda: calling.append(snapshots.stat("extract-1").name), daemon=True)
        asking.start()
        asking.join(SECONDS / 2)
        return measured(path)

    held_places.usage = usage
    try:
        snapshots.commit("one", "extract-1", {})
    finally:
        held_places.usage = measured
    hold("answered meanwhile", ["extract-1"], calling)
    hold("why", why, snapshots.stat("one").why)
    end(snapshots)
    snapshotter.start()


def check_removed_while_it_is_made(snapshotter):
    """Layers that are removed while their images are made leave nothing."""
    for number in range(6):
        name = "l%d" % number
        snapshotter.layer(name, "", lambda folder: put(folder, "large", bytes(20 << 20)))
        time.sleep(0.01 * number)
        snapshotter.call("Remove", key=name)
    wait_until("nothing is left", lambda: not snapshotter.left())


def check_removed_while_it_is_committed(snapshotter):
    """Commit and Remove of one snapshot at once: one of them is first."""
    for number in range(10):
        key, name = "extract-%d" % number, "n%d" % number
        snapshotter.call("Prepare", key=key)
        said = []
        both = [threading.Thread(target=lambda it=it, words=words: said.append(
            snapshotter.tried(it, key=key, **words)))
                for it, words in (("Commit", {"name": name}), ("Remove", {}))]
        for it in both:
            it.start()
        for it in both:
            it.join()
        hold("one fails", ["NOT_FOUND"],
             [it.partition(":")[0] for it in said if isinstance(it, str)])


def check_many_at_once(snapshotter):
    """Fifty are prepared and removed at once on one layer: each has a folder of its own, and there
    is one mount."""
    snapshotter.layer("one", "", fill)
    snapshotter.settled()
    found, files = {}, snapshotter.open_files()

    def one(key):
        mount, = snapshotter.call("Prepare", key=key, parent="one").mounts
        found[key] = [it for it in mount.options if it.startswith("upperdir=")]

    run_all(one, ["c%d" % number for number in range(50)])
    hold("folders", 50, len({it for its in found.values() for it in its}))
    hold("mounts", 1, len([it for it in places() if it.startswith(snapshotter.root)]))
    run_all(lambda key: snapshotter.call("Remove", key=key), list(found))
    hold("mounts", 0, len([it for it in places() if it.startswith(snapshotter.root)]))
    wait_until("open files are as before", lambda: snapshotter.open_files() == files)


def run_all(function, keys):
    wrong = []

    def guarded(key):
        try:
            function(key)
        except Failed as fault:
            wrong.append(str(fault))

    threads = [threading.Thread(target=guarded, args=(key,)) for key in keys]
    for it in threads:
        it.start()
    for it in threads:
        it.join()
    hold("faults", [], wrong)


def check_a_full_disk(snapshotter):
    """On a full disk calls fail, what is committed stays, and after there is room again all goes
    on."""
    small = snapshotter.folder + "/small"
    os.mkdir(small)
    subprocess.run(["mount", "-t", "tmpfs", "-o", "size=3m,mode=700", "tmpfs", small], check=True)
    other = Snapshotter(snapshotter.program, small).start()
    try:
        other.layer("one", "", fill)
        other.settled()
        # the image has no room beside the folder
        other.layer("two", "one", lambda folder: put(folder, "large", bytes(1400 << 10)))
        other.settled()
        mount, = other.call("View", key="v", parent="two").mounts
        hold("a folder", "overlay", mount.type)
        with open(small + "/rest", "wb", 0) as out:
            try:
                while out.write(bytes(4096)):
                    pass
            except OSError:
                pass
        status = [other.tried("Prepare", key="c%d" % number) for number in range(3)]
        hold("calls fail", {"UNAVAILABLE"},
             {it.partition(":")[0] for it in status if isinstance(it, str)})
        os.unlink(small + "/rest")
        other.call("Prepare", key="again", parent="one")
        hold_mount(other, "again")
        other.remove_all()
        hold("what is left", [], other.left())
    finally:
        other.stop()
        subprocess.run(["umount", small], check=True)


def check_the_socket_of_systemd(snapshotter):
    """With a socket that systemd holds, a call that comes while the service is down is answered
    once it runs again; and systemd learns when it is ready."""
    snapshotter.stop()
    place, told = snapshotter.folder + "/outer.sock", snapshotter.folder + "/told.sock"
    with socket.socket(socket.AF_UNIX) as outer, \
            socket.socket(socket.AF_UNIX, socket.SOCK_DGRAM) as ready:
        outer.bind(place)
        outer.listen()
        ready.bind(told)
        ready.settimeout(SECONDS / 2)

        def start():
            script = 'exec 3<&%d; export LISTEN_PID=$$ LISTEN_FDS=1; exec "$@"' % outer.fileno()
            return subprocess.Popen(["sh", "-c", script, "sh", *snapshotter.words],
                                    pass_fds=[outer.fileno()],
                                    env={**os.environ, "NOTIFY_SOCKET": told},
                                    stdin=subprocess.DEVNULL)

        snapshotter.socket, snapshotter.process = place, start()
        hold("told", b"READY=1", ready.recv(100))
        snapshotter.connect()
        snapshotter.call("Prepare", key="a")
        hold("names", ["a"], snapshotter.names())
        # a client that is connected all the time, as containerd is
        kept = snapshotter.channel
        snapshotter.connect()
        hold("status", 0, snapshotter.stop())
        hold("told", b"STOPPING=1", ready.recv(100))
        names = []
        snapshotter.connect()
        asking = threading.Thread(target=lambda: names.extend(snapshotter.names()))
        asking.start()
        snapshotter.process = start()
        asking.join()
        hold("names", ["a"], names)
        snapshotter.channel, kept = kept, snapshotter.channel
        hold("names, by an earlier connection", ["a"], snapshotter.names())
        kept.close()


def check_greetings(snapshotter):
    """A client of the socket that systemd holds is greeted before there is a service; what it sends
    is passed on, but for its answer to the greeting, and so is what the service sends."""
    outer, inner = snapshotter.folder + "/outer.sock", snapshotter.folder + "/inner.sock"
    frames = [bytes.fromhex(it) for it in ("000006 04 00 00000000 000300000064",
                                           "000000 04 01 00000000",
                                           "000002 01 04 00000001 8283", "000000 04 01 00000000")]
    with socket.socket(socket.AF_UNIX) as listening, socket.socket(socket.AF_UNIX) as client, \
            socket.socket(socket.AF_UNIX) as serving:
        listening.bind(outer)
        listening.listen()
        passing = sockets.Passing(listening, inner)
        client.connect(outer)
        hold("settings", sockets.GREETING, sockets.received(client, len(sockets.GREETING)))
        client.sendall(b"p" * sockets.PREFACE + b"".join(frames))
        client.shutdown(socket.SHUT_WR)
        serving.bind(inner)
        serving.listen()
        passing.is_open.set()
        with serving.accept()[0] as connection:
            wanted = b"p" * sockets.PREFACE + b"".join([frames[0], *frames[2:]])
            hold("what is passed on", wanted, sockets.received(connection, len(wanted) + 1))
            connection.sendall(frames[0])
        hold("what comes back", frames[0], sockets.received(client, len(frames[0]) + 1))
        passing.stop()


def check_too_many_connections(snapshotter):
    """Where there are too many connections at once no more are taken, but later ones are."""
    place = snapshotter.folder + "/outer.sock"
    with socket.socket(socket.AF_UNIX) as listening, contextlib.ExitStack() as opened:
        listening.bind(place)
        listening.listen(100)
        passing = sockets.Passing(listening, snapshotter.socket)
        clients = [opened.enter_context(socket.socket(socket.AF_UNIX)) for _ in range(20)]
        before = resource.getrlimit(resource.RLIMIT_NOFILE)
        resource.setrlimit(resource.RLIMIT_NOFILE, (len(os.listdir("/proc/self/fd")) + 6, before[1]))
        for it in clients:
            it.connect(place)
        time.sleep(0.2)
        resource.setrlimit(resource.RLIMIT_NOFILE, before)
        clients[-1].settimeout(SECONDS / 2)
        hold("settings", sockets.GREETING, sockets.received(clients[-1], len(sockets.GREETING)))
        passing.stop()


CHECKS = (check_killed_and_restarted, check_mounts_that_are_gone, check_kept_mounts,
          check_the_launcher_killed, check_what_is_mounted_ahead, check_replaced_folders,
          check_what_a_killed_one_left, check_random_kills, check_refused_roots, check_a_lost_database,
          check_deep_folders, check_large_folders, check_removed_while_it_is_made,
          check_removed_while_it_is_committed, check_many_at_once, check_a_full_disk,
          check_the_socket_of_systemd, check_greetings, check_too_many_connections)
