"""Numbers that processes share, each of 64 bits."""
import mmap

SIZE = 8


def shared_numbers(count):
    """So many numbers, all 0, in memory that this process shares with those that it starts. Each is written at once;
    struct.pack_into writes zeros first, which another process may see."""
    return memoryview(mmap.mmap(-1, SIZE * count)).cast("Q")
