"""A disk's two processes, and a client of each."""

import os
import re
import signal
import subprocess
import time
from pathlib import Path

from trials.connections import connect, open_connection
from trials.formats.reader import Misread, Reader
from trials.formats.state_file import read_state
from trials.ports import free_port
from trials.processes import begin
from trials.settings import put_values

# The seconds that these trials wait for a process or a reply.
LONGEST_STEP = 120
READ, WRITE = 0, 1
COOKIE = 7


def take(stream, count):
    """This number of bytes, the next ones of a connection."""
    data = b""
    while len(data) < count:
        part = stream.recv(count - len(data))
        if not part:
            raise Misread("a connection ended")
        data += part
    return data


def fetch_of(tree, leaf):
    """A FETCH of a leaf's path."""
    return bytes([1, tree]) + leaf.to_bytes(4, "big")


def fetch_levels_of(tree, first, last, leaf):
    """A FETCH of some levels of a leaf's path."""
    return bytes([6, tree, first, last]) + leaf.to_bytes(4, "big")


def ask_host(stream, body):
    """The host's answer to a request; both are frames."""
    stream.sendall(len(body).to_bytes(4, "big") + body)
    return take(stream, int.from_bytes(take(stream, 4), "big"))


class PageClient:
    """A client of a disk, written after the page's part on NBD."""

    def __init__(self, path, process):
        self.stream = self.connect(path, process)
        greeting = self.take(18)
        if greeting != b"NBDMAGICIHAVEOPT\0\3":
            raise Misread("the greeting")
        self.stream.sendall(bytes([0, 0, 0, 3]) + b"IHAVEOPT" + (1).to_bytes(4, "big") + (4).to_bytes(4, "big") + b"disk")
        export = Reader(self.take(10))
        self.size, self.flags = export.number(8), export.number(2)

    def connect(self, path, process):
        begun = time.monotonic()
        while process.poll() is None and time.monotonic() < begun + LONGEST_STEP:
            try:
                stream = open_connection(path)
                stream.settimeout(LONGEST_STEP)
                return stream
            except (FileNotFoundError, ConnectionRefusedError):
                time.sleep(0.02)
        raise Misread("nobody serves the disk")

    def take(self, count):
        return take(self.stream, count)

    def send(self, command, offset, length, data=b""):
        head = [(0x25609513, 4), (0, 2), (command, 2), (COOKIE, 8), (offset, 8), (length, 4)]
        self.stream.sendall(b"".join(number.to_bytes(count, "big") for number, count in head) + data)

    def ask(self, command, offset, length, data=b""):
        """The error of a request, and the bytes that it read."""
        self.send(command, offset, length, data)
        reply = Reader(self.take(16))
        reply.expect(bytes.fromhex("67446698"), "a reply begins so")
        error, cookie = reply.number(4), reply.number(8)
        if cookie != COOKIE:
            raise Misread("the cookie of a reply")
        return error, self.take(length) if command == READ and not error else b""


class DiskFolder:
    """A disk's folder, and its two processes."""

    def __init__(self, folder, program, sizes, values):
        self.folder, self.program, self.processes = Path(folder), program, {}
        self.sizes, self.near = sizes, values.get("near", sizes.default_near())
        self.log = open(self.folder.parent / f"{self.folder.name}.log", "wb")
        # A new disk has blocks of 4,096 bytes, until its settings say otherwise.
        self.run("new", str(self.folder), "--size", "4096")
        self.port = free_port()
        put_values(self.folder / "disk.toml", {"size": sizes.blocks * sizes.block_bytes, "host": f"127.0.0.1:{self.port}", **values})
        put_values(self.folder / "host.toml", {"listen": f"127.0.0.1:{self.port}"})

    def key(self):
        text = (self.folder / "disk.toml").read_text()
        return bytes.fromhex(re.search(r'^key = "([0-9a-f]{64})"$', text, re.MULTILINE)[1])

    def near_levels(self):
        """How many levels of tree 0 the client keeps itself."""
        return self.sizes.near_levels(self.near)

    def start(self, *words):
        return begin([self.program, *words], stdin=subprocess.DEVNULL, stdout=self.log, stderr=self.log)

    def run(self, *words):
        """Runs the program to its end, which has to be a success."""
        status = self.start(*words).wait(LONGEST_STEP)
        if status != 0:
            raise Misread(f"oramdisk {words[0]} ended with the status {status}: {self.said()}")

    def host(self, *new):
        """Starts the host."""
        self.processes["host"] = self.start("host", *new, str(self.folder / "host.toml"))

    def format(self):
        # The host may not listen yet.
        stream = self.host_stream()
        stream.close()
        self.run("format", str(self.folder / "disk.toml"))

    def host_stream(self):
        """A connection to the host."""
        stream = connect(self.port, self.processes["host"])
        if stream is None:
            raise Misread(f"the host ended: {self.said()}")
        return stream

    def serve(self):
        """Serves the disk. Returns a connection to it."""
        self.processes["serve"] = self.start("serve", str(self.folder / "disk.toml"))
        return PageClient(self.folder / "disk.sock", self.processes["serve"])

    def end(self, *names):
        """Kills these processes of the disk, or all of them if none is named."""
        for name in names or list(self.processes):
            process = self.processes.pop(name)
            os.killpg(process.pid, signal.SIGKILL)
            process.wait()

    def state(self):
        # Who reads the file first misses nothing that is in the log by then.
        return read_state((self.folder / "disk.state").read_bytes(), (self.folder / "disk.state-log").read_bytes())

    def state_while_served(self):
        """The state of a disk whose process may write its files meanwhile."""
        begun = time.monotonic()
        while True:
            try:
                return self.state()
            except Misread:
                if time.monotonic() > begun + LONGEST_STEP:
                    raise
                time.sleep(0.02)

    def said(self):
        """What its processes have printed last."""
        self.log.flush()
        return Path(self.log.name).read_text(errors="replace")[-1000:]
