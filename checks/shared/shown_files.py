"""A FUSE file system (linux/fuse.h) of a few files in one folder, whose reads are answered as a check says. It keeps nothing in
the kernel's page cache, so each read comes here."""
import errno
import os
import select
import struct

from checks.shared.mounting import hold
from strata_format.system import called, libc
from strata_mount.device import DEVICE, MNT_DETACH

LOOKUP, FORGET, GETATTR, OPEN, READ, RELEASE, FLUSH, INIT, INTERRUPT, BATCH_FORGET = 1, 2, 3, 14, 15, 18, 25, 26, 36, 42
ROOT, FIRST = 1, 2
FOPEN_DIRECT_IO = 1


class ShownFiles:
    """The file system, mounted, with a process that serves it. Its files are `names`; whoever inherits it says by `size` how
    long each is, and answers reads by `answer_read`."""

    def __init__(self, room, names):
        self.at, self.names = room.place(), names
        self.device = os.open(DEVICE, os.O_RDWR)
        text = "fd=%d,rootmode=40000,user_id=%d,group_id=%d" % (self.device, 0, 0)
        called(libc.mount(b"shown", os.fsencode(self.at), b"fuse", 0, text.encode()))
        self.server = os.fork()
        if self.server == 0:
            status = 1
            try:
                self.serve()
                status = 0
            finally:
                os._exit(status)
        os.close(self.device)

    def path(self, name):
        return "%s/%s" % (self.at, name)

    def end(self):
        called(libc.umount2(os.fsencode(self.at), MNT_DETACH))
        hold("the status of what shows the files", 0, os.waitstatus_to_exitcode(os.waitpid(self.server, 0)[1]))

    def size(self, name):
        raise NotImplementedError

    def answer_read(self, unique, name, offset, size):
        """Answers a read; whether that was done. If not, it is asked again."""
        raise NotImplementedError

    def note_waiting(self, count):
        """Called again and again with the number of reads that wait."""

    def serve(self):
        """Answers requests until the unmount."""
        waiting = []
        while True:
            if select.select([self.device], [], [], 0.002)[0]:
                try:
                    message = os.read(self.device, 1 << 18)
                except OSError as fault:
                    # a request that was interrupted before it came is gone
                    if fault.errno == errno.ENOENT:
                        continue
                    return
                if not self.answer(message):
                    waiting.append(message)
            waiting = [message for message in waiting if not self.answer(message)]
            self.note_waiting(len(waiting))

    def reply(self, unique, data=b"", error=0):
        try:
            os.write(self.device, struct.pack("<IiQ", 16 + len(data), -error, unique) + data)
        except OSError:
            pass

    def attr(self, node):
        size, mode = (0, 0o040755) if node == ROOT else (self.size(self.names[node - FIRST]), 0o100644)
        return struct.pack("<QQQQQQIIIIIIIIII", node, size, (size + 511) // 512, 0, 0, 0, 0, 0, 0, mode, 1, 0, 0, 0, 4096, 0)

    def answer(self, message):
        """Answers a request; whether that was done."""
        _, opcode, unique, node = struct.unpack_from("<IIQQ", message)
        body = message[40:]
        if opcode == INIT:
            self.reply(unique, struct.pack("<IIIIHHIIHH8I", 7, 31, 0, 0, 16, 12, 131072, 1, 32, 0, *[0] * 8))
        elif opcode == LOOKUP:
            self.look_up(unique, body.rstrip(b"\0").decode(errors="replace"))
        elif opcode == GETATTR:
            self.reply(unique, struct.pack("<QII", 0, 0, 0) + self.attr(node))
        elif opcode == OPEN:
            self.reply(unique, struct.pack("<QII", 0, FOPEN_DIRECT_IO, 0))
        elif opcode == READ:
            return self.answer_read(unique, self.names[node - FIRST], *struct.unpack_from("<QI", body, 8))
        elif opcode in (RELEASE, FLUSH):
            self.reply(unique)
        elif opcode not in (FORGET, BATCH_FORGET, INTERRUPT):
            self.reply(unique, error=errno.ENOSYS)
        return True

    def look_up(self, unique, name):
        if name not in self.names:
            self.reply(unique, error=errno.ENOENT)
            return
        node = FIRST + self.names.index(name)
        self.reply(unique, struct.pack("<QQQQII", node, 0, 60, 0, 0, 0) + self.attr(node))
