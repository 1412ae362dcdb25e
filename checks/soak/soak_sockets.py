"""Parts of checks/soak/soak.py at a Unix socket: random requests for long, and clients that are killed."""
import os
import random
import re
import signal
import subprocess
import time

from checks.plain.plain_replies import split
from checks.shared import clients
from checks.shared.mounting import Failed, LeftOut, hold
from checks.shared.random_inputs import random_stream
from checks.soak.soak_streams import SWAY, Client, Memory, resident, write_all

SESSIONS = 10
LINE = re.compile(rb"session ([0-9]+): (?:(request at [0-9]+: (?:cut off|bad length [0-9]+))|read fault|write fault)")


class Server:
    """`strata socket` over a client's images, for so many sessions."""

    def __init__(self, program, folder, client, sessions):
        self.folder, self.path = folder, os.path.join(folder, "socket")
        words = [program, "socket", "--listen", "socket", "--sessions", str(sessions), *client.paths]
        self.faults = open(os.path.join(folder, "faults"), "w+b")
        self.process = subprocess.Popen(words, cwd=folder, stdin=subprocess.DEVNULL, stdout=subprocess.DEVNULL,
                                        stderr=self.faults)
        while not os.path.exists(self.path) and self.process.poll() is None:
            time.sleep(0.01)
        if self.process.poll() is not None:
            self.end_early()

    def end_early(self):
        """Tells why there is no socket."""
        self.faults.seek(0)
        told = self.faults.read()
        self.kill()
        if b"unrecognized subcommand" in told:
            raise LeftOut("the program has no command socket")
        raise Failed("strata socket ends at once, and says %r" % told)

    def connected(self):
        try:
            return clients.connected(self.folder, "socket", self.process.pid)
        except clients.Hanging as hanging:
            raise Failed(hanging) from None

    def ended(self):
        """Waits for the end; the status and the fault lines."""
        status = self.process.wait(60)
        hold("the socket is there still", False, os.path.exists(self.path))
        self.faults.seek(0)
        return status, self.faults.read().splitlines()

    def kill(self):
        self.process.kill()
        self.process.wait()
        self.faults.close()


def sessions(program, folder, seconds):
    """Random requests in a few sessions, one after another, over one table."""
    client = Client(random.Random(13), folder)
    server = Server(program, folder, client, SESSIONS)
    memory = Memory(server.process.pid, seconds)
    try:
        for number in range(SESSIONS):
            with server.connected() as it:
                client.begin()
                until = time.monotonic() + seconds / SESSIONS
                while time.monotonic() < until:
                    client.ask(it.fileno(), it.fileno())
                    memory.is_over()
        hold("the end", (0, []), server.ended())
    finally:
        server.kill()
    return "%d requests in %d sessions as the plain reading has them; %s" % (client.requests, SESSIONS, memory.told())


def kills(program, folder, count):
    """Clients that are killed in all they do, one after another; between them, and at the end, one that is served well."""
    rng = random.Random(14)
    client = Client(rng, folder)
    server = Server(program, folder, client, count + 2)
    try:
        states = []
        for first, last in ((0, count // 10), (count // 10, count)):
            for _ in range(first, last):
                kill_one(rng, server, client)
            states.append(well_served(server, client))
        status, lines = server.ended()
        hold_lines(lines, status)
        (memory, descriptors), (memory_then, descriptors_then) = states
        hold("descriptors", descriptors, descriptors_then)
        hold("memory grows from %d to %d KiB" % (memory, memory_then), True, memory_then <= memory + SWAY)
    finally:
        server.kill()
    return "%d clients killed, %d of their sessions told as faults; the next was served as the plain reading has it" % (
        count, len(lines))


def well_served(server, client):
    """A session with random requests; the state of the server in it."""
    with server.connected() as it:
        client.begin()
        for _ in range(20):
            client.ask(it.fileno(), it.fileno())
        return state_of(server.process.pid)


def state_of(process):
    """The memory of a process, and how many descriptors it has."""
    return resident(process), len(os.listdir("/proc/%d/fd" % process))


def hold_lines(lines, status):
    """Each fault line is of a session of its own, in order; the status is that of the first."""
    found = [LINE.fullmatch(line) for line in lines]
    hold("fault lines", [], [line for line, it in zip(lines, found) if not it])
    numbers = [int(it[1]) for it in found]
    hold("the order of sessions", sorted(set(numbers)), numbers)
    hold("the status", 0 if not found else 4 if found[0][2] else 1, status)


def kill_one(rng, server, client):
    """Connects a process of its own, which is killed some moments later."""
    stream, habit = b"".join(split(random_stream(rng, client.stack))[0]), rng.randrange(4)
    with server.connected() as it:
        child = os.fork()
        if child == 0:
            try:
                misbehave(it.fileno(), stream[:rng.randrange(len(stream) + 1)], habit)
            finally:
                os._exit(0)
    time.sleep(rng.choice([0, 0, 0.001, 0.005, 0.02]) * rng.random())
    os.kill(child, signal.SIGKILL)
    os.waitpid(child, 0)


def misbehave(end, stream, habit):
    """Writes and waits, reads nothing, writes byte by byte, or reads as it writes."""
    if habit == 0:
        write_all(end, stream)
    elif habit == 1:
        while True:
            write_all(end, stream or bytes([40, 0, 0, 0]) + bytes(36))
    elif habit == 2:
        for at in range(len(stream)):
            os.write(end, stream[at:at + 1])
    else:
        write_all(end, stream)
        while os.read(end, 100):
            pass
    signal.pause()
