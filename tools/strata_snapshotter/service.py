"""The snapshot service over gRPC: requests become calls of Snapshots, and faults statuses."""
import concurrent.futures
import contextlib
import logging
import sqlite3
import time

import grpc

from strata_format.refused import Refused, one_line
from strata_snapshotter import faults
from strata_snapshotter.messages import API, CALLS, SERVICE
from strata_snapshotter.snapshots import labels_of
from strata_snapshotter.state import Kind

STATUSES = {
    faults.NotFound: grpc.StatusCode.NOT_FOUND,
    faults.AlreadyExists: grpc.StatusCode.ALREADY_EXISTS,
    faults.FailedPrecondition: grpc.StatusCode.FAILED_PRECONDITION,
    faults.InvalidArgument: grpc.StatusCode.INVALID_ARGUMENT,
    faults.Unavailable: grpc.StatusCode.UNAVAILABLE,
}
# so many calls are answered at once: one that waits for an image takes one of them
THREADS = 64
# so many bytes of snapshots stand in one message of a list, unless one alone has more: containerd takes 16 MiB
LISTED = 1 << 20
# the most characters of what a status says, since clients bound it, too
SAID_MOST = 1000
SECOND = 10 ** 9


def info_of(snapshot):
    """A snapshot as the service describes it."""
    info = API.Info(name=snapshot.name, parent=snapshot.parent_name, kind=int(snapshot.kind),
                    labels=labels_of(snapshot))
    for at, when in ((info.created_at, snapshot.created), (info.updated_at, snapshot.updated)):
        at.seconds, at.nanos = divmod(when, SECOND)
    return info


def mounts_of(mounts):
    return [API.Mount(type=it.type, source=it.source, options=it.options) for it in mounts]


class Service:
    """The calls of the service, each by its name."""

    def __init__(self, snapshots):
        self.snapshots = snapshots

    def Prepare(self, asked, context):
        return self.created(asked, context, Kind.ACTIVE, API.PrepareSnapshotResponse)

    def View(self, asked, context):
        return self.created(asked, context, Kind.VIEW, API.ViewSnapshotResponse)

    def created(self, asked, context, kind, answer):
        mounts = self.snapshots.create(asked.key, asked.parent, kind, dict(asked.labels),
                                       context.is_active)
        return answer(mounts=mounts_of(mounts))

    def Mounts(self, asked, _):
        return API.MountsResponse(mounts=mounts_of(self.snapshots.mounts(asked.key)))

    def Commit(self, asked, _):
        self.snapshots.commit(asked.name, asked.key, dict(asked.labels))
        return API.Empty()

    def Remove(self, asked, _):
        self.snapshots.remove(asked.key)
        return API.Empty()

    def Stat(self, asked, _):
        return API.StatSnapshotResponse(info=info_of(self.snapshots.stat(asked.key)))

    def Update(self, asked, _):
        found = self.snapshots.update(asked.info.name, dict(asked.info.labels),
                                      list(asked.update_mask.paths))
        return API.UpdateSnapshotResponse(info=info_of(found))

    def List(self, asked, _):
        part, size = [], 0
        for info in map(info_of, self.snapshots.list(list(asked.filters))):
            size += info.ByteSize()
            if part and size > LISTED:
                yield API.ListSnapshotsResponse(info=part)
                part, size = [], info.ByteSize()
            part.append(info)
        if part:
            yield API.ListSnapshotsResponse(info=part)

    def Usage(self, asked, _):
        size, inodes = self.snapshots.usage(asked.key)
        return API.UsageResponse(size=size, inodes=inodes)

    def Cleanup(self, _, __):
        self.snapshots.cleanup()
        return API.Empty()


# --- how calls fail ---

@contextlib.contextmanager
def told(name, context):
    """Ends a call that fails with the status of its fault."""
    begin = time.monotonic()
    try:
        yield
        logging.debug("%s: %.1f ms", name, 1000 * (time.monotonic() - begin))
    except faults.Fault as fault:
        logging.debug("%s: %s", name, fault)
        context.abort(STATUSES[type(fault)], one_line(str(fault))[:SAID_MOST])
    except (OSError, sqlite3.Error, Refused) as fault:
        logging.error("%s: %s", name, fault)
        context.abort(grpc.StatusCode.UNAVAILABLE, "strata-snapshotter: " + one_line(str(fault))[:SAID_MOST])


def handler(name, call):
    """What gRPC does with a call: List answers a stream, and all others one message."""
    asked, answer = (getattr(API, it) for it in CALLS[name])
    words = {"request_deserializer": asked.FromString,
             "response_serializer": answer.SerializeToString}

    def one(request, context):
        with told(name, context):
            return call(request, context)

    def several(request, context):
        with told(name, context):
            yield from call(request, context)

    if name == "List":
        return grpc.unary_stream_rpc_method_handler(several, **words)
    return grpc.unary_unary_rpc_method_handler(one, **words)


def server_of(snapshots):
    """A server of gRPC that answers all calls, and is not started."""
    service = Service(snapshots)
    server = grpc.server(concurrent.futures.ThreadPoolExecutor(THREADS))
    handlers = {name: handler(name, getattr(service, name)) for name in CALLS}
    server.add_generic_rpc_handlers((grpc.method_handlers_generic_handler(SERVICE, handlers),))
    return server
