"""Checks of pulls from a registry that lies, by a small one that this file has: it needs skopeo alone."""
import gzip
import http.server
import json
import os
import socketserver
import threading

from checks.registry import made
from checks.registry.hostile import hold_nothing
from checks.registry.loopback import trust
from checks.registry.rooms import Failed, hold, needs, snapshot
from strata_layers import fetch

PIECE = bytes(1 << 16)
# skopeo's own files are smaller here, so that less is written
OWN_MOST = 1 << 22


class Answers(http.server.BaseHTTPRequestHandler):
    """What a client gets, by what the server's `lie` says of a blob."""

    protocol_version = "HTTP/1.1"

    def log_message(self, *_):
        pass

    def told(self, status, data=b"", **headers):
        self.send_response(status)
        for name, value in {"Content_Length": str(len(data)), **headers}.items():
            self.send_header(name.replace("_", "-"), value)
        self.end_headers()
        if self.command != "HEAD":
            self.wfile.write(data)

    def do_HEAD(self):
        self.do_GET()

    def do_GET(self):
        what, _, its_name = self.path.rpartition("/")
        if what.endswith("manifests"):
            self.told(200, self.server.manifest, Content_Type=made.MANIFEST)
        elif what.endswith("blobs"):
            self.server.lie(self, self.server.blobs.get(its_name, b""), its_name == self.server.layer)
        else:
            self.told(200, b"{}")


class Lying(socketserver.ThreadingMixIn, http.server.HTTPServer):
    """A registry with one image of one layer."""

    daemon_threads = True

    def __init__(self, room, size=None):
        super().__init__(("127.0.0.1", 0), Answers)
        self.host = "127.0.0.1:%d" % self.server_address[1]
        archive = made.LAYERS[0]
        packed = gzip.compress(archive, mtime=0)
        config = json.dumps({"os": "linux", "architecture": "amd64", "config": made.RUN,
                             "rootfs": {"type": "layers", "diff_ids": [made.digest(archive)]}}).encode()
        self.layer, self.blobs = made.digest(packed), {made.digest(packed): packed, made.digest(config): config}
        parts = {"mediaType": made.CONFIG, "digest": made.digest(config), "size": len(config)}, {
            "mediaType": made.ARCHIVE + "+gzip", "digest": self.layer, "size": len(packed) if size is None else size}
        self.manifest = json.dumps({"schemaVersion": 2, "mediaType": made.MANIFEST, "config": parts[0], "layers": parts[1:]}).encode()
        self.lie = plain
        trust(room, self.host)
        threading.Thread(target=self.serve_forever, daemon=True).start()
        room.ends.append(self.shutdown)

    def handle_error(self, *_):
        pass


# --- lies about a layer ---

def plain(answers, data, _):
    answers.told(200, data)


def endless(answers, data, is_layer):
    if not is_layer:
        return answers.told(200, data)
    answers.send_response(200)
    answers.send_header("Transfer-Encoding", "chunked")
    answers.end_headers()
    while answers.command != "HEAD":
        answers.wfile.write(b"%x\r\n%s\r\n" % (len(PIECE), PIECE))


def longer(answers, data, is_layer):
    answers.told(200, data + b"x" * is_layer)


def shorter(answers, data, is_layer):
    answers.told(200, data[:-1] if is_layer else data)


def cut(answers, data, is_layer):
    answers.told(200, data[:-1] if is_layer else data, Content_Length=str(len(data)))
    answers.close_connection = True


def other(answers, data, is_layer):
    answers.told(200, bytes(len(data)) if is_layer else data)


def to_file(answers, data, is_layer):
    answers.told(307 if is_layer else 200, data, Location="file://" + answers.server.secret)


def round_about(answers, data, is_layer):
    answers.told(307 if is_layer else 200, data, Location=answers.path)


LIES = (longer, shorter, cut, other, to_file, round_about, endless)


def refused_in_one_line(room, what, *words):
    done = room.tried("pull", *words)
    if done.returncode != 1 or done.stderr.count("\n") != 1 or len(done.stderr) > 2000:
        raise Failed("%s: status %d, told %r" % (what, done.returncode, done.stderr[-600:]))
    return done.stderr


def check_lying_registry(room):
    """A layer that is longer, shorter, cut off, another, endless, or elsewhere is refused in a line, and nothing is kept."""
    needs("skopeo")
    fetch.OWN_MOST = OWN_MOST
    registry = Lying(room)
    registry.secret = os.path.join(room.path, "secret")
    with open(registry.secret, "wb") as out:
        out.write(registry.blobs[registry.layer])
    source = "docker://%s/app:1" % registry.host
    room.layers("images", store=made_store(room))
    outside = snapshot(room.path, room.store)
    for lie in LIES:
        registry.lie = lie
        refused_in_one_line(room, lie.__name__, source)
        hold_nothing(room, lie.__name__)
        hold("left of %s" % lie.__name__, ([], []), (os.listdir(os.path.join(room.store, "new")), room.blobs()))
        hold("outside the store", outside, snapshot(room.path, room.store))
    registry.lie = plain
    hold("the truth", "app:1: 1 layer, 1 of them new\n", room.layers("pull", source))


def made_store(room):
    """The room's store, which is made by a pull that fails."""
    room.tried("pull", "oci:" + room.path)
    return room.store


def check_lying_manifest(room):
    """A manifest that lies about sizes: negative, as large as no file is, of a layer that the store has."""
    needs("skopeo")
    registry = Lying(room, 7)
    refused_in_one_line(room, "a size that is not the blob's", "docker://%s/app:1" % registry.host)
    room.layers("pull", "docker://%s/app:1" % Lying(room).host)
    for size in (-1, 2 ** 62, 2 ** 63, 10 ** 40, 1.5, True, "7"):
        registry = Lying(room, size)
        refused_in_one_line(room, "a size of %r" % size, "docker://%s/app:2" % registry.host)
    hold("images", 1, room.layers("images").count("\n"))
    hold("verified", "", room.layers("verify"))


CHECKS = [check_lying_registry, check_lying_manifest]
