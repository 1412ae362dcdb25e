"""The few calls of Kubernetes' container runtime interface, runtime.v1, that these checks make.

Requests are written as protobuf's wire format has them: `(1, "text", (3, b"inner"))` and so on, by
the numbers of the fields in the public api.proto.
"""
import grpc

SECONDS = 60


def number(value):
    out = bytearray()
    while value > 127:
        out.append(value & 127 | 128)
        value >>= 7
    return bytes(out) + bytes([value])


def message(*fields):
    """A message of pairs of a field's number and its value: a number, text, or a message."""
    parts = []
    for at, value in fields:
        if isinstance(value, int):
            parts += [number(at << 3), number(value)]
        else:
            data = value.encode() if isinstance(value, str) else value
            parts += [number(at << 3 | 2), number(len(data)), data]
    return b"".join(parts)


def fields_of(data):
    """The numbers and values of a message's fields, in order."""
    at = 0

    def next_number():
        nonlocal at
        value = shift = 0
        while True:
            byte = data[at]
            at += 1
            value |= (byte & 127) << shift
            shift += 7
            if byte < 128:
                return value

    while at < len(data):
        key = next_number()
        if key & 7 == 0:
            yield key >> 3, next_number()
        elif key & 7 == 2:
            size = next_number()
            yield key >> 3, data[at:at + size]
            at += size
        else:
            at += 8 if key & 7 == 1 else 4


def field(data, *path):
    """The first value at a path of fields, or None."""
    for wanted in path:
        data = next((value for at, value in fields_of(data) if at == wanted), None)
        if data is None:
            return None
    return data


class Runtime:
    """The services Runtime and Image of a containerd."""

    def __init__(self, socket):
        self.channel = grpc.insecure_channel("unix:" + socket)

    def call(self, service, method, data=b""):
        path = "/runtime.v1.%sService/%s" % (service, method)
        return self.channel.unary_unary(path)(data, timeout=SECONDS, wait_for_ready=True)

    def pull(self, image):
        """Pulls an image; what it is known by."""
        return field(self.call("Image", "PullImage", message((1, message((1, image))))), 1).decode()

    def remove_image(self, image):
        self.call("Image", "RemoveImage", message((1, message((1, image)))))

    def pod(self, name, logs):
        """A pod in the network of its host; its configuration and its number."""
        options = message((2, message((1, message((1, 2))))))
        config = message((1, message((1, name), (2, "uid-" + name), (3, "default"))), (3, logs),
                         (8, options))
        found = self.call("Runtime", "RunPodSandbox", message((1, config)))
        return config, field(found, 1).decode()

    def container(self, pod, name, image, command):
        """A container that runs in a pod."""
        config, number_of_pod = pod
        said = message((1, message((1, name))), (2, message((1, image))),
                       *((3, it) for it in command),
                       (11, name + ".log"), (15, message((2, b""))))
        found = field(self.call("Runtime", "CreateContainer",
                                message((1, number_of_pod), (2, said), (3, config))), 1).decode()
        self.call("Runtime", "StartContainer", message((1, found)))
        return found

    def execute(self, container, *command):
        """The output and the status of a command in a container."""
        words = message((1, container), *((2, it) for it in command), (3, SECONDS))
        found = self.call("Runtime", "ExecSync", words)
        return (field(found, 1) or b"").decode(), field(found, 3) or 0

    def has_stats(self, container):
        found = self.call("Runtime", "ContainerStats", message((1, container)))
        return field(found, 1, 1, 1) == container.encode()

    def remove(self, pod, containers):
        for it in containers:
            self.call("Runtime", "StopContainer", message((1, it), (2, 0)))
            self.call("Runtime", "RemoveContainer", message((1, it)))
        for method in ("StopPodSandbox", "RemovePodSandbox"):
            self.call("Runtime", method, message((1, pod[1])))
