"""The fs-verity trees and digests of a store's layers. A layer that was brought before there were
any has none until it is pulled again."""
import json
import os

from strata_format.progress import Progress
from strata_format.refused import Refused
from strata_layers.store import TREE, pieces_of, told_verb
from strata_layers.verity import DIGEST, sealed_pieces, tree_size

ALGORITHM = "sha256"
OTHER_BYTES = "%s: the layer sha256:%s has other bytes than its digest says; run %s, and pull again"


def record_of(digits):
    """The name of the record that says a layer's digest."""
    return "sha256-%s%s" % (digits, TREE)


def noted_digest(store, layer):
    """The digest of a layer whose tree is there; else None."""
    value = store.small_json(store.records, record_of(layer.digits)) or {}
    digest, size = str(value.get("digest")), store.size_of(layer.digits + TREE)
    is_there = DIGEST.fullmatch(digest) and size == tree_size(ALGORITHM, layer.size)
    return digest if is_there else None


def keep_seal(store, digits, seal):
    """Keeps the tree of a layer, and notes its digest."""
    store.keep_tree(seal.levels, digits)
    data = json.dumps({"digest": seal.digest}).encode()
    store.write_small(store.records, record_of(digits), data)


def sealed_file(number):
    """The digits of the SHA-256 of an open file, and its seal."""
    with Progress("hashed", os.fstat(number).st_size) as progress:
        return sealed_pieces(pieces_of(number), progress.add)


def made_digest(store, number, digits):
    """The digest of a layer in an open file, which has no tree yet, if its bytes are right."""
    found, seal = sealed_file(number)
    if found != digits:
        raise Refused(OTHER_BYTES % (store.name, digits, told_verb("verify", store.place)))
    keep_seal(store, digits, seal)
    return seal.digest


def has_wrong_seal(store, digits, seal):
    """Whether a layer has another tree or digest than this one, or has lost its tree; one that never
    had any has no wrong one."""
    number = store.open_layer(digits + TREE)
    try:
        noted = store.small_json(store.records, record_of(digits))
        if number is None:
            return noted is not None
        tree = b"".join(pieces_of(number))
        return tree != b"".join(seal.levels) or (noted or {}).get("digest") != seal.digest
    except Refused:
        return True  # no record that can be read
    finally:
        if number is not None:
            os.close(number)
