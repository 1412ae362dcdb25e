"""What a call of the snapshot service fails with, each kind by a class of its own."""


class Fault(Exception):
    """Why a call fails, as one line."""


class NotFound(Fault):
    """No snapshot has this name."""


class AlreadyExists(Fault):
    """A snapshot has this name already, or the layer that is wanted stands ready."""


class FailedPrecondition(Fault):
    """The snapshot is of another kind, or something lies on it."""


class InvalidArgument(Fault):
    """What is asked for can't be."""


class Unavailable(Fault):
    """Something that is needed fails here; the same call may succeed later."""


def why_of(fault):
    """Why something failed, in words: Python says nothing of memory."""
    return "out of memory" if isinstance(fault, MemoryError) else str(fault)
