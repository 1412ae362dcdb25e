"""The messages of containerd's snapshot service, containerd.services.snapshots.v1.

Message classes are built at startup from protobuf descriptors, so no generated code is kept. The
fields are those of containerd's public API: api/services/snapshots/v1/snapshots.proto and
api/types/mount.proto.

    API.PrepareSnapshotRequest(key="new", parent="sha256:..", labels={"a": "b"})
"""
import types

from google.protobuf import (
    descriptor_pb2, descriptor_pool, empty_pb2, field_mask_pb2, message_factory, timestamp_pb2)

PACKAGE = "containerd.services.snapshots.v1"
TYPES = "containerd.types"
SERVICE = PACKAGE + ".Snapshots"
STANDARD = (empty_pb2, field_mask_pb2, timestamp_pb2)
Field = descriptor_pb2.FieldDescriptorProto
SCALARS = {"string": Field.TYPE_STRING, "int64": Field.TYPE_INT64}
LABELS = "labels:map"
KINDS = ("UNKNOWN", "VIEW", "ACTIVE", "COMMITTED")
# the numbers of fields are their places in these lists, from 1; a star stands for a repeated field
MOUNT = ("type:string", "source:string", "target:string", "*options:string")
CREATED = ("snapshotter:string", "key:string", "parent:string", LABELS)
NAMED = ("snapshotter:string", "key:string")
MOUNTS = ("*mounts:.%s.Mount" % TYPES,)
ONE_INFO = ("info:.%s.Info" % PACKAGE,)
FIELDS = {
    "PrepareSnapshotRequest": CREATED,
    "PrepareSnapshotResponse": MOUNTS,
    "ViewSnapshotRequest": CREATED,
    "ViewSnapshotResponse": MOUNTS,
    "MountsRequest": NAMED,
    "MountsResponse": MOUNTS,
    "RemoveSnapshotRequest": NAMED,
    "CommitSnapshotRequest": ("snapshotter:string", "name:string", "key:string", LABELS),
    "StatSnapshotRequest": NAMED,
    "Info": ("name:string", "parent:string", "kind:enum",
             "created_at:.google.protobuf.Timestamp", "updated_at:.google.protobuf.Timestamp",
             LABELS),
    "StatSnapshotResponse": ONE_INFO,
    "UpdateSnapshotRequest": ("snapshotter:string", *ONE_INFO,
                              "update_mask:.google.protobuf.FieldMask"),
    "UpdateSnapshotResponse": ONE_INFO,
    "ListSnapshotsRequest": ("snapshotter:string", "*filters:string"),
    "ListSnapshotsResponse": ("*info:.%s.Info" % PACKAGE,),
    "UsageRequest": NAMED,
    "UsageResponse": ("size:int64", "inodes:int64"),
    "CleanupRequest": ("snapshotter:string",),
}
# the calls of the service, each with what it is asked and what it answers; List answers a stream
CALLS = {
    "Prepare": ("PrepareSnapshotRequest", "PrepareSnapshotResponse"),
    "View": ("ViewSnapshotRequest", "ViewSnapshotResponse"),
    "Mounts": ("MountsRequest", "MountsResponse"),
    "Commit": ("CommitSnapshotRequest", "Empty"),
    "Remove": ("RemoveSnapshotRequest", "Empty"),
    "Stat": ("StatSnapshotRequest", "StatSnapshotResponse"),
    "Update": ("UpdateSnapshotRequest", "UpdateSnapshotResponse"),
    "List": ("ListSnapshotsRequest", "ListSnapshotsResponse"),
    "Usage": ("UsageRequest", "UsageResponse"),
    "Cleanup": ("CleanupRequest", "Empty"),
}


# --- descriptors ---

def add_map(message, name, number):
    """Adds a map from strings to strings to a message, which is a list of pairs on the wire."""
    entry = message.nested_type.add(name="LabelsEntry")
    entry.options.map_entry = True
    for at, part in enumerate(("key", "value"), 1):
        entry.field.add(name=part, number=at, type=Field.TYPE_STRING, label=Field.LABEL_OPTIONAL)
    message.field.add(name=name, number=number, type=Field.TYPE_MESSAGE, label=Field.LABEL_REPEATED,
                      type_name=".%s.%s.LabelsEntry" % (PACKAGE, message.name))


def add_field(message, said, number):
    """Adds a field as `[*]name:type` says it."""
    name, _, kind = said.lstrip("*").partition(":")
    if kind == "map":
        add_map(message, name, number)
        return
    label = Field.LABEL_REPEATED if said.startswith("*") else Field.LABEL_OPTIONAL
    field = message.field.add(name=name, number=number, label=label)
    if kind == "enum":
        field.type, field.type_name = Field.TYPE_ENUM, ".%s.Kind" % PACKAGE
    elif kind in SCALARS:
        field.type = SCALARS[kind]
    else:
        field.type, field.type_name = Field.TYPE_MESSAGE, kind


def add_message(file, name, fields):
    message = file.message_type.add(name=name)
    for number, said in enumerate(fields, 1):
        add_field(message, said, number)


def mount_file():
    file = descriptor_pb2.FileDescriptorProto(
        name="github.com/containerd/containerd/api/types/mount.proto", package=TYPES,
        syntax="proto3")
    add_message(file, "Mount", MOUNT)
    return file


def service_file(mounts):
    file = descriptor_pb2.FileDescriptorProto(
        name="github.com/containerd/containerd/api/services/snapshots/v1/snapshots.proto",
        package=PACKAGE, syntax="proto3")
    file.dependency.extend([it.DESCRIPTOR.name for it in STANDARD] + [mounts.name])
    kind = file.enum_type.add(name="Kind")
    for number, name in enumerate(KINDS):
        kind.value.add(name=name, number=number)
    for name, fields in FIELDS.items():
        add_message(file, name, fields)
    return file


# --- classes ---

def class_of(pool, name):
    """The class of a message, by protobuf from 4.22 on and before it."""
    found = pool.FindMessageTypeByName(name)
    if hasattr(message_factory, "GetMessageClass"):
        return message_factory.GetMessageClass(found)
    return message_factory.MessageFactory(pool).GetPrototype(found)


def classes():
    """The classes of all messages, by their names."""
    pool, mounts = descriptor_pool.DescriptorPool(), mount_file()
    for it in STANDARD:
        pool.AddSerializedFile(it.DESCRIPTOR.serialized_pb)
    for file in (mounts, service_file(mounts)):
        pool.AddSerializedFile(file.SerializeToString())
    found = {name: class_of(pool, "%s.%s" % (PACKAGE, name)) for name in FIELDS}
    return {**found, "Mount": class_of(pool, TYPES + ".Mount"), "Empty": empty_pb2.Empty}


API = types.SimpleNamespace(**classes())
