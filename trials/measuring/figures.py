"""A client that measures times, and the figures that result."""

import os
import random
import re
import struct
import sys
import time
from pathlib import Path

from trials.disk import BLOCK
from trials.nbd_client import READ, WRITE, NbdClient, Request

SIXTEEN = 16
TICKS = os.sysconf("SC_CLK_TCK")


class TimedClient(NbdClient):
    """A connection to a disk, with requests in flight, whose lengths are in `waiting` by their cookies."""

    def __init__(self, stream):
        super().__init__(stream)
        self.waiting = {}
        if not self.greet():
            sys.exit("measure: what listens there is no server of NBD")
        self.size = self.choose()

    def take(self, count):
        found = super().take(count)
        if found is None:
            sys.exit("measure: the disk has ended the connection")
        return found

    def send(self, kind, offset, length):
        self.say(Request(kind, offset, length, os.urandom(length) if kind == WRITE else b""))
        self.waiting[self.cookie] = length if kind == READ else 0

    def take_reply(self):
        """Takes the next reply, to whichever request."""
        _, error, cookie = struct.unpack(">IIQ", self.take(16))
        if error:
            sys.exit(f"measure: a request was answered with the error {error}")
        self.take(self.waiting.pop(cookie))

    def time_of(self, requests, length, in_flight):
        """Seconds for these requests, each the kind and the offset, with `in_flight` of them in flight."""
        begun = time.monotonic()
        for kind, offset in requests:
            self.send(kind, offset, length)
            if len(self.waiting) == in_flight:
                self.take_reply()
        while self.waiting:
            self.take_reply()
        return time.monotonic() - begun


def busy(process):
    """The seconds of processor time that a process has used."""
    fields = Path(f"/proc/{process.pid}/stat").read_text().rpartition(")")[2].split()
    return (int(fields[11]) + int(fields[12])) / TICKS


def written(process):
    """The bytes that a process has written to files so far, in whole pages, as the system counts them."""
    return int(re.search(r"^write_bytes: (\d+)$", Path(f"/proc/{process.pid}/io").read_text(), re.M)[1])


def most_memory(process):
    """The most memory that a process had at once so far, in bytes."""
    return int(re.search(r"^VmHWM:\s*(\d+) kB$", Path(f"/proc/{process.pid}/status").read_text(), re.M)[1]) * 1024


class Figures:
    """What requests over one line took: seconds for each, and the number of requests a second with sixteen in flight. Also what they cost each
    process: processor time, bytes written to files, and memory."""

    def __init__(self, client, count, line=None, processes=()):
        places = client.size // BLOCK
        some = [(number % 2, random.randrange(places) * BLOCK) for number in range(count)]
        client.time_of(some[:2], BLOCK, 1)
        carried, spent = line.carried if line else 0, [(busy(process), written(process)) for process in processes]
        messages = line.frames.count if line else 0
        self.alone = client.time_of(some, BLOCK, 1) / count
        self.carried = ((line.carried if line else 0) - carried) / count
        self.messages = ((line.frames.count if line else 0) - messages) / count
        self.busy = [(busy(process) - before) / count for process, (before, _) in zip(processes, spent)]
        self.written = [(written(process) - before) / count for process, (_, before) in zip(processes, spent)]
        more, before = some * 2, [written(process) for process in processes]
        self.sixteen = len(more) / client.time_of(more, BLOCK, SIXTEEN)
        self.written_together = [(written(process) - then) / len(more) for process, then in zip(processes, before)]
        long = 16 * BLOCK
        in_order = [(READ, number * long % client.size) for number in range(max(2, count // 8))]
        self.long = client.time_of(in_order, long, 1) / len(in_order)
        self.memory = [most_memory(process) for process in processes]

    def cells(self):
        """The figures as cells of a table's row."""
        return f"{spoken(self.alone)} | {self.sixteen:.0f} | {spoken(self.long)}"


def spoken(seconds):
    """Seconds, as people say them."""
    if seconds < 0.01:
        return f"{seconds * 1000:.1f} ms"
    return f"{seconds * 1000:.0f} ms" if seconds < 1 else f"{seconds:.1f} s"
