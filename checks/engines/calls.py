"""Checks of the snapshot service, call by call, as containerd's own tests of snapshotters ask."""
import os
import threading
import time

from checks.shared.mounting import hold

SECOND = 10 ** 9


def names_are(snapshotter, wanted, *filters):
    hold("snapshots that match %r" % (filters,), sorted(wanted), snapshotter.names(*filters))


def time_of(stamp):
    return stamp.seconds * SECOND + stamp.nanos


def several(snapshotter):
    """Snapshots of each kind: c1 and c2 are committed, c2 on c1; a1 is active and v1 a view on c2;
    a2 and v2 lie on nothing."""
    for name, parent in (("c1", ""), ("c2", "c1")):
        snapshotter.layer(name, parent, lambda folder: None)
    snapshotter.call("Prepare", key="a1", parent="c2", labels={"l": "1"})
    snapshotter.call("Prepare", key="a2")
    snapshotter.call("View", key="v1", parent="c2")
    snapshotter.call("View", key="v2", labels={"l": "2", "a.b/c": "d e"})


def check_every_call(snapshotter):
    """What each call answers."""
    before = time.time_ns()
    mount, = snapshotter.call("Prepare", key="a", labels={"x": "1"}).mounts
    hold("mount of nothing", ("bind", ["rw", "rbind"]), (mount.type, list(mount.options)))
    hold("mode of its folder", 0o40755, os.stat(mount.source).st_mode)
    with open(mount.source + "/file", "wb") as out:
        out.write(bytes(8192))
    usage = snapshotter.call("Usage", key="a")
    hold("inodes", 2, usage.inodes)
    hold("size", True, 8192 <= usage.size <= 8192 + 2 * 4096)
    info = snapshotter.call("Stat", key="a").info
    hold("info", ("a", "", 2, {"x": "1"}),
         (info.name, info.parent, info.kind, dict(info.labels)))
    created, updated = time_of(info.created_at), time_of(info.updated_at)
    hold("times", True, before <= created == updated <= time.time_ns())
    snapshotter.call("Commit", name="b", key="a", labels={"y": "2"})
    info = snapshotter.call("Stat", key="b").info
    # labels of the active snapshot are not inherited
    hold("committed", ("b", "", 3, {"y": "2"}),
         (info.name, info.parent, info.kind, dict(info.labels)))
    mount, = snapshotter.call("Prepare", key="c", parent="b").mounts
    options = dict(it.partition("=")[::2] for it in mount.options)
    hold("overlay", ("overlay", "overlay"), (mount.type, mount.source))
    hold("options", {"lowerdir", "upperdir", "workdir"}, {*options} - {"index"})
    hold("what stands below", ["file"], os.listdir(options["lowerdir"]))
    hold("the same mounts", [mount], list(snapshotter.call("Mounts", key="c").mounts))
    snapshotter.call("View", key="v", parent="b")
    snapshotter.call("Cleanup")
    for name in ("v", "c", "b"):
        snapshotter.call("Remove", key=name)


def check_what_is_missing(snapshotter):
    """Names that no snapshot has."""
    for name in ("Mounts", "Remove", "Stat", "Usage"):
        snapshotter.fails("NOT_FOUND", name, key="none")
    snapshotter.fails("NOT_FOUND", "Commit", name="new", key="none")
    snapshotter.fails("NOT_FOUND", "Update", info={"name": "none"})
    for name in ("Prepare", "View"):
        snapshotter.fails("NOT_FOUND", name, key="a", parent="none")
        snapshotter.fails("INVALID_ARGUMENT", name, key="")
    names_are(snapshotter, [])


def check_wrong_parents(snapshotter):
    """Only committed snapshots have others on them, and none of these is removed."""
    several(snapshotter)
    for name in ("Prepare", "View"):
        for parent in ("a1", "a2", "v1", "v2"):
            snapshotter.fails("INVALID_ARGUMENT", name, key="new", parent=parent)
    for name in ("c1", "c2"):
        snapshotter.fails("FAILED_PRECONDITION", "Remove", key=name)
    for name in ("a1", "v1", "c2", "c1", "a2", "v2"):
        snapshotter.call("Remove", key=name)
    names_are(snapshotter, [])


def check_wrong_kinds(snapshotter):
    """Only what is active is committed, and what is committed has no mounts."""
    several(snapshotter)
    for key in ("v1", "v2", "c1"):
        snapshotter.fails("FAILED_PRECONDITION", "Commit", name="new", key=key)
    snapshotter.fails("FAILED_PRECONDITION", "Mounts", key="c2")
    snapshotter.fails("INVALID_ARGUMENT", "Commit", name="", key="a1")


def check_names_that_exist(snapshotter):
    """No two snapshots have one name, and a name is free again once its snapshot is removed."""
    several(snapshotter)
    for key in ("a1", "a2", "v1", "v2", "c1", "c2"):
        snapshotter.fails("ALREADY_EXISTS", "Prepare", key=key)
        snapshotter.fails("ALREADY_EXISTS", "View", key=key, parent="c1")
        snapshotter.fails("ALREADY_EXISTS", "Commit", name=key, key="a1")
    snapshotter.call("Remove", key="a1")
    snapshotter.call("Prepare", key="a1", parent="c2")
    snapshotter.call("Commit", name="c3", key="a1")
    snapshotter.fails("NOT_FOUND", "Stat", key="a1")


def check_updates(snapshotter):
    """Labels alone are changed: all, or those that a mask names."""
    several(snapshotter)
    for name in ("a1", "a2", "v1", "v2", "c1", "c2"):
        before = snapshotter.call("Stat", key=name).info
        labels = {"l1": "v1", "l2": "v2", "l3": "v3"}
        info = snapshotter.call("Update", info={"name": name, "parent": "none",
                                                "labels": labels}).info
        hold("all labels", labels, dict(info.labels))
        hold("what stays", (before.parent, before.kind, before.created_at),
             (info.parent, info.kind, info.created_at))
        hold("updated", True, time_of(info.updated_at) > time_of(before.updated_at))
        for labels, paths, wanted in (
                ({"l1": "new", "l4": "v4"}, ["labels.l1", "labels.l2"], {"l1": "new", "l3": "v3"}),
                ({"l4": "v4"}, ["labels"], {"l4": "v4"}), ({"a.b/c": "d"}, ["labels.a.b/c"],
                                                           {"l4": "v4", "a.b/c": "d"})):
            info = snapshotter.call("Update", info={"name": name, "labels": labels},
                                    update_mask={"paths": paths}).info
            hold("labels by %s" % paths, wanted, dict(info.labels))
        for path in ("parent", "name", "kind", "created_at", "labels.", ""):
            snapshotter.fails("INVALID_ARGUMENT", "Update", info={"name": name},
                              update_mask={"paths": [path]})
        hold("labels", wanted, dict(snapshotter.call("Stat", key=name).info.labels))


# what containerd's package `filters` says that these mean
FILTERS = (
    (("name==c1",), "c1"), (("name!=c1",), "a1 a2 c2 v1 v2"), (("name~=^c",), "c1 c2"),
    (("name~=/[12]$/,kind==view",), "v1 v2"), (("name~=|a.|",), "a1 a2"),
    (("kind==active",), "a1 a2"), (("kind!=active,kind!=view",), "c1 c2"),
    (("parent==c2",), "a1 v1"), (('parent==""',), "a2 c1 v2"),
    (("parent",), "a1 a2 c1 c2 v1 v2"), (("labels",), ""), (("labels.l",), "a1 v2"),
    (("labels.l==1",), "a1"), (('labels."a.b/c"=="d e"',), "v2"),
    (('labels."a.b/c"=="d\\x20e"',), "v2"),
    (('labels."a.b/c"=="d\\u0020\\145"',), "v2"), (("labels.none==1",), ""),
    (("labels.l!=1",), "a2 c1 c2 v1 v2"), (("name == c1",), "c1"),
    (("name==c1", "name==v1"), "c1 v1"),
    (("",), "a1 a2 c1 c2 v1 v2"), (("none==1",), ""), (("name~=(",), ""), (("name~=a{99999999999}",), ""),
    (("name~=" + "(" * 5000,), ""), (("name~=^a.$,labels.l==1", "name~=2,kind==view"), "a1 v2"))
BAD_FILTERS = ("name=", "name==", "name=c1", "name===c1", "name==c1,", ",name==c1", "name==c1 x",
               "name ", "a..b", "name==/c1/", 'name=="c1', 'name=="\\q"', '"name', "name~=/c",
               'name=="\\400"')


def check_filters(snapshotter):
    """Lists by containerd's filters; one that is none fails."""
    several(snapshotter)
    for filters, wanted in FILTERS:
        names_are(snapshotter, wanted.split(), *filters)
    for text in BAD_FILTERS:
        snapshotter.fails("INVALID_ARGUMENT", "List", filters=[text])
        snapshotter.fails("INVALID_ARGUMENT", "List", filters=["name==c1", text])


def check_endless_searches(snapshotter):
    """A pattern whose search takes for ever ends, and other calls are answered meanwhile."""
    name = "a" * 60 + "b"
    snapshotter.call("Prepare", key=name)
    said = []
    asking = threading.Thread(target=lambda: said.append(snapshotter.tried("List", filters=["name~=^(a|aa)*$"])))
    asking.start()
    answered = 0
    while asking.is_alive():
        time.sleep(0.05)
        snapshotter.call("Stat", key=name)
        answered += asking.is_alive()
    hold("calls are answered meanwhile", True, answered > 0)
    line = "the filters' regular expressions take more than 2 seconds of a processor, or 1024 MiB: status -9"
    hold("the list", ["INVALID_ARGUMENT: " + line], said)


def check_long_lists(snapshotter):
    """Lists of many snapshots, and of more bytes than a client takes in one message; a name of as many in a status."""
    wanted = ["a%03d" % number for number in range(120)]
    for number, name in enumerate(wanted):
        snapshotter.call("Prepare", key=name, labels={"l": "v" * (3 << 20) * (number % 40 == 0)})
    names_are(snapshotter, wanted)
    snapshotter.fails("NOT_FOUND", "Stat", key="a" * (3 << 20))


CHECKS = (check_every_call, check_what_is_missing, check_wrong_parents, check_wrong_kinds,
          check_names_that_exist, check_updates, check_filters, check_endless_searches,
          check_long_lists)
