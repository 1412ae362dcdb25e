"""strata-snapshotter: a proxy snapshotter of containerd over strata.

It serves containerd.services.snapshots.v1 on a Unix socket. Layers become romfs images once; all
containers on a chain of layers share one mount of strata, with overlayfs above it.
"""
import argparse
import logging
import os
import resource
import signal
import sys
import threading

from strata_format import ends, version
from strata_format.refused import Refused, one_line, shown

ROOT = "/var/lib/strata-snapshotter"
SOCKET = "/run/strata-snapshotter/strata-snapshotter.sock"
STORE = "/var/lib/strata"
CONTENT = "/var/lib/containerd/io.containerd.content.v1.content"
NAME = "strata-snapshotter"
# the socket of gRPC itself in the root, if systemd holds the one that containerd knows
INNER = "grpc.sock"
GRACE = 2
KEEP = 10
# fewer digits has a number of seconds
DIGITS = 7
NO_GRPC = "needs grpcio and protobuf of this python3 (Debian: python3-grpcio, python3-protobuf): %s"


class Parser(argparse.ArgumentParser):
    """Writes as the other commands do, also where nobody takes it."""

    def print_help(self, file=None):
        sys.exit(ends.tell(NAME, self.format_help()))

    def error(self, message):
        ends.write("%s%s: error: %s\n" % (self.format_usage(), NAME, message))
        sys.exit(2)


def seconds(text):
    """A number of seconds that an option says."""
    if not (text.isascii() and text.isdigit() and len(text) < DIGITS):
        raise argparse.ArgumentTypeError("%r is no number of seconds" % text)
    return int(text)


def parser():
    found = Parser(
        prog=NAME, description="Serves snapshots to containerd: its layers as romfs images.",
        epilog="containerd's configuration names the socket as a proxy plugin of type snapshot.")
    found.add_argument("--root", metavar="DIR", default=ROOT,
                       help="where layers and containers' files are kept (%(default)s)")
    found.add_argument("--socket", metavar="PATH", default=SOCKET,
                       help="where containerd reaches it, unless systemd gives one (%(default)s)")
    found.add_argument("--store", metavar="DIR", default=STORE,
                       help="the store of strata-layers, whose layers are used as they are (%(default)s)")
    found.add_argument("--content", metavar="DIR", default=CONTENT,
                       help="containerd's content store, for layers that are fetched (%(default)s)")
    found.add_argument("--keep", metavar="SECONDS", type=seconds, default=KEEP,
                       help="how long a mount stays that nothing uses (%(default)s); 0 also mounts "
                            "no image ahead of its first container")
    found.add_argument("--wait-for-images", action="store_true",
                       help="let each container wait until its layers are images, instead of "
                            "starting on their folders")
    found.add_argument("--strata", metavar="PROGRAM", dest="program", default=None,
                       help="start PROGRAM instead of the installed strata")
    found.add_argument("--debug", action="store_true", help="log each call with its time")
    found.add_argument("--version", action="store_true", help="print the version")
    return found


def serve(words):
    """Serves until a signal ends it; the mounts stay, and so do the processes that serve them."""
    from strata_snapshotter import sockets
    done = threading.Event()
    for it in (signal.SIGTERM, signal.SIGINT):
        signal.signal(it, lambda *_: done.set())
    given = sockets.given()
    path = words.socket if given is None else os.path.join(words.root, INNER)
    # its clients are greeted before all else is loaded
    passing = None if given is None else sockets.Passing(given, path)
    snapshots, server = served(words, path)
    server.start()
    if passing is not None:
        passing.is_open.set()
    sockets.tell("READY=1")
    done.wait()
    sockets.tell("STOPPING=1")
    if passing is not None:
        passing.stop()
    server.stop(GRACE).wait()
    snapshots.close()
    # threads that wait for an image would be waited for
    os._exit(0)


def served(words, path):
    """The snapshots of a root, and a server of them at a socket, which is not started."""
    from strata_snapshotter import service, sockets
    from strata_snapshotter.blob_image import Content
    from strata_snapshotter.places import Places
    from strata_snapshotter.ready_layers import ReadyLayers
    from strata_snapshotter.snapshots import Snapshots
    from strata_snapshotter.store_layers import StoreLayers
    held = Places(words.root)
    os.makedirs(os.path.dirname(path) or ".", 0o700, exist_ok=True)
    sockets.clear(path)
    program = os.path.abspath(words.program or version.program())
    ready = ReadyLayers(held, StoreLayers(words.store), Content(words.content), program)
    snapshots = Snapshots(held, program, ready, words.keep, words.wait_for_images)
    server = service.server_of(snapshots)
    try:
        server.add_insecure_port("unix:" + os.path.abspath(path))
    except RuntimeError as fault:
        raise Refused("%s: %s" % (shown(path), one_line(str(fault)))) from None
    return snapshots, server


def begin(words):
    """What is the same for all files and threads of the process."""
    logging.basicConfig(level=logging.DEBUG if words.debug else logging.INFO,
                        format=NAME + ": %(message)s")
    # nobody else may connect to the socket, or look into the root
    os.umask(0o077)
    _, most = resource.getrlimit(resource.RLIMIT_NOFILE)
    resource.setrlimit(resource.RLIMIT_NOFILE, (most, most))
    os.environ["GRPC_ENABLE_FORK_SUPPORT"] = "0"


def main(words):
    ends.begin()
    words = parser().parse_args(words)
    if words.version:
        return ends.tell(NAME, "%s %s\n" % (NAME, version.version()))
    begin(words)
    try:
        serve(words)
    except ImportError as fault:
        ends.write("%s: %s\n" % (NAME, NO_GRPC % fault))
    except Refused as refused:
        ends.write("%s: %s\n" % (NAME, refused))
    except OSError as fault:
        where = fault.filename if isinstance(fault.filename, str) else words.root
        ends.write("%s: %s: %s\n" % (NAME, shown(where), fault.strerror or fault))
    return 1
