"""Hosts that are slow to read or to answer: whatever the client sends meanwhile, neither side waits for the other for ever."""

import socket
import threading
import time

from trials.bucket_messages import PUT, is_a
from trials.connections import connect, frame_of, read_exactly, read_frame, write_frame
from trials.disk import SMALL, Disk
from trials.disk_array import DiskArray, check_disk
from trials.nbd.tampering import STAMP_TREE
from trials.nbd_client import WRITE, Request

# The bytes of the buffers of a connection that holds hardly anything, of a piece that is read or written at once, and the seconds between two pieces.
BUFFER, PIECE, PAUSE = 1 << 16, 1 << 14, 0.0005


class SlowHost(threading.Thread):
    """Leads to a host, and carries the messages of each connection in its own way."""

    def __init__(self, host, carry):
        super().__init__(daemon=True)
        self.listener = socket.socket()
        # Connections have the buffers of the socket that listens.
        for buffer in (socket.SO_RCVBUF, socket.SO_SNDBUF):
            self.listener.setsockopt(socket.SOL_SOCKET, buffer, BUFFER)
        self.listener.bind(("127.0.0.1", 0))
        self.listener.listen()
        self.address, self.host, self.carry, self.connections = f"127.0.0.1:{self.listener.getsockname()[1]}", host, carry, 0
        self.start()

    def run(self):
        while True:
            try:
                near, _ = self.listener.accept()
            except OSError:
                return
            self.connections += 1
            far = connect(self.host.port, self.host.process)
            try:
                self.carry(near, lambda body, far=far: read_frame(far) if write_frame(far, body) else None)
            except OSError:
                pass
            near.close()
            far.close()

    def end(self):
        self.listener.close()


def in_turn(near, answer_of):
    """Reads a message only once all of the answer before was taken."""
    while (body := read_frame(near)) is not None and write_frame(near, answer_of(body)):
        pass


def at_last(near, answer_of):
    """Gives no answer to a batch that has stamps until it has all of its messages."""
    held, is_within = [], False
    while (body := read_frame(near)) is not None:
        held.append(answer_of(body))
        if is_a(PUT, body) and body[1] == STAMP_TREE:
            is_within = not is_within
        if not is_within:
            near.sendall(b"".join(map(frame_of, held)))
            held.clear()


def in_pieces(near, answer_of):
    """Reads and answers piece by piece, with a pause between two of them."""
    while len(head := read_exactly(near, 4)) == 4:
        body, length = b"", int.from_bytes(head, "big")
        while len(body) < length:
            body += read_exactly(near, min(PIECE, length - len(body)))
            time.sleep(PAUSE)
        answer = frame_of(answer_of(body))
        for at in range(0, len(answer), PIECE):
            near.sendall(answer[at : at + PIECE])
            time.sleep(PAUSE)


WAYS = {
    "reads a message once its last answer was taken": in_turn,
    "answers once it has the whole batch": at_last,
    "reads and answers in pieces": in_pieces,
}


def try_slow_hosts(trial):
    """A host reads or answers slowly, and connections hold hardly anything. All blocks are written at once and read back, with near levels and
    without, over one connection."""
    for near in (0, 40_000):
        disk, array = Disk(trial, f"slow-{near}", table=64, near=near, reconnect_timeout=60).formatted(), DiskArray()
        for way, carry in WAYS.items():
            use_slowly(trial, f"near {near}, a host that {way}", disk, array, SlowHost(disk.host, carry))
        disk.host.stop()


def use_slowly(trial, what, disk, array, slow):
    """The disk is written and read over a slow host."""
    disk.set(host=slow.address)
    client = disk.serve().client()
    for turn in range(2):
        request = Request(WRITE, 0, SMALL, trial.dice.randbytes(SMALL))
        reply = client.ask(*request)
        trial.check(f"{what}: write {turn}", reply == (0, b""), reply)
        array.note_reply(trial, request, reply)
    check_disk(trial, f"{what}: what it holds", client, array)
    trial.check(f"{what}: one connection", slow.connections == 1, (slow.connections, disk.lines()[-2:]))
    client.close()
    disk.stop()
    slow.end()
