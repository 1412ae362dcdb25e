"""Tests of `tools/layers.py seal IMAGE..`. A test is a function of a room."""
import hashlib
import os
import shutil
import subprocess
import threading

from checks.layers.layer_room import expect, expect_lines, run_tool
from strata_layers import packing, verity

# sizes of files, the digests that fsverity 1.5 printed, how long the trees are that it wrote, and their SHA-256
STORED = [
    (0, "sha256:3d248ca542a24fc62d1c43b916eae5016878e2533c88238480b26128a1f1af95",
     0, "e3b0c44298fc1c149afbf4c8996fb92427ae41e4649b934ca495991b7852b855"),
    (4096, "sha256:35bee561c5795a8044fe6cb352e9149fa1ab4445092438d6da1d9cf7dac6b653",
     0, "e3b0c44298fc1c149afbf4c8996fb92427ae41e4649b934ca495991b7852b855"),
    (4097, "sha256:a29d9620c80a98f4e8cc460e02a4f0fed4df09c5a85b61dd427b3bfd2f612bff",
     4096, "56035405226ce947c5add3195d8eeb75ee616d8c55e4208f61f261935f69f529"),
    (528385, "sha256:1ea020317561a3d919c643611dcb1ae9c16df91b9d1da961f5e063d27411741f",
     12288, "3ce5ce40c6dc2d3ea7f18fa66e62d35b31330b4074959c69e43dfe0bc42387e1"),
    (4097, "sha512:2ded6b8e955c23f980d4ccc9d3cf830a863dcd99abb3e37130f760789e6c0cee715ae0e4f"
     "24b3904c75113b2c984b28dea4bebcc9ba30ddab56bbb60760c69b8",
     4096, "cf6fd23f31667ddebb8b25cbf65d598b570b13f18f32c7b279009b732a8e3764"),
    (266240, "sha512:28b02cb298f203d9d5d1215795e913c8c4d7d60015f5f2f0727b499d2ad113604e97cbba9"
     "483a030086df0f9a6ada469b3c817f9e6774606fac02581f0ee6776",
     12288, "a9211b0ed89acf9e3c82aa14fc16fb71eb2142c3655439a2df46c87550edb60f"),
]


def made_file(room, size):
    """A file of so many bytes."""
    path = "%s/%d" % (room.path, size)
    with open(path, "wb") as out:
        out.write(bytes((31 * i + i // 4096) % 251 for i in range(size)))
    return path


def sealed(path, algorithm):
    """Runs the verb: the digest that it prints, and the tree that it writes."""
    status, output, told = run_tool("seal", "--hash-alg", algorithm, path)
    expect((status, told) == (0, []), "status %d, told %r" % (status, told))
    digest, name = output.rstrip("\n").split(" ", 1)
    expect(name == path, "printed %r" % output)
    with open(path + ".verity", "rb") as tree:
        return digest, tree.read()


def test_stored_seals(room):
    """Digests and trees are those that fsverity gave."""
    for size, digest, length, sum_of_tree in STORED:
        got, tree = sealed(made_file(room, size), digest.partition(":")[0])
        expect((got, len(tree), hashlib.sha256(tree).hexdigest()) == (digest, length, sum_of_tree),
               "%d bytes: %s, a tree of %d bytes" % (size, got, len(tree)))


def test_seals_as_fsverity(room):
    """They are those of this machine's fsverity, where it is there, for sizes around each whole level."""
    if not shutil.which("fsverity"):
        return
    for algorithm, most in (("sha256", 128), ("sha512", 64)):
        for size in (1, 4095, 8192, most * 4096 - 1, most * 4096, most * 4096 + 1):
            path = made_file(room, size)
            told = subprocess.run(["fsverity", "digest", path, "--hash-alg=" + algorithm, "--out-merkle-tree=%s.tree" % path],
                                  capture_output=True, text=True, check=True).stdout
            with open(path + ".tree", "rb") as tree:
                expect(sealed(path, algorithm) == (told.split()[0], tree.read()), "%s of %d bytes" % (algorithm, size))
            os.unlink(path + ".tree")


def test_several_seals(room):
    """Several images are sealed by one command, and an older tree is replaced."""
    paths = [made_file(room, size) for size in (5, 5000)]
    with open(paths[0] + ".verity", "wb") as older:
        older.write(b"older")
    status, output, _ = run_tool("seal", *paths)
    expect(status == 0 and [line.split()[1] for line in output.splitlines()] == paths, "printed %r" % output)
    expect([os.path.getsize(path + ".verity") for path in paths] == [0, 4096], "trees of other lengths")


def test_refused_seals(room):
    """What is no file is refused, and nothing is left behind."""
    os.mkdir(room.path + "/folder")
    os.mkfifo(room.path + "/pipe")
    for name in ("folder", "pipe"):
        path = "%s/%s" % (room.path, name)
        expect_lines(*run_tool("seal", path), [path + ": no file"])
    path = room.path + "/missing"
    expect_lines(*run_tool("seal", path), [path + ": no such file or directory"])
    expect(sorted(os.listdir(room.path)) == ["folder", "pipe"], "left %r" % os.listdir(room.path))


def test_no_memory_for_threads(room):
    """Where no thread can start, digests are taken without one, and what needs one says so in a line."""
    pieces, before = [bytes([number]) * (1 << 17) for number in range(40)], threading.Thread.start
    wanted = verity.seal_of(pieces)

    def refused(_):
        raise RuntimeError("can't start new thread")

    threading.Thread.start = refused
    try:
        expect(verity.seal_of(pieces) == wanted, "another digest")
        if packing.zstd_module() is None and shutil.which("zstd"):
            try:
                next(packing.packed_pieces(pieces, "zstd"))
                expect(False, "zstd was fed without a thread")
            except MemoryError:
                pass
    finally:
        threading.Thread.start = before
