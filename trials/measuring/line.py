"""A line between two machines, which delays and limits what goes over it."""

import socket
import threading
import time
from queue import Queue

# How many bytes the line takes in at once. They are passed on together, so a greater number would delay the first of them.
CHUNK = 1 << 14
# How many bytes the line holds, each way, beside those that are under way: as many as the buffers of a network's devices do.
HELD = 1 << 18


class Frames:
    """Counts the frames that go by: each is a length of four bytes, and then that number of bytes."""

    def __init__(self):
        self.count, self.left, self.head = 0, 0, b""

    def take(self, heard):
        while heard:
            if self.left:
                skipped = min(self.left, len(heard))
                self.left, heard = self.left - skipped, heard[skipped:]
                continue
            missing = 4 - len(self.head)
            self.head, heard = self.head + heard[:missing], heard[missing:]
            if len(self.head) == 4:
                self.count, self.left, self.head = self.count + 1, int.from_bytes(self.head, "big"), b""


class Way:
    """The delay and the rate of a line, and how people say its delay."""

    def __init__(self, milliseconds, rate):
        self.delay = milliseconds / 1000
        self.label = f"{milliseconds:g} ms" if milliseconds else "none"
        self.rate = rate * 1e6 if milliseconds else float("inf")


class Line(threading.Thread):
    """Listens, and carries each connection to a port, each way with half the round trip's delay and at no more than a rate."""

    def __init__(self, port, way):
        super().__init__(daemon=True)
        self.far_port, self.delay, self.rate = port, way.delay / 2, way.rate
        self.listener = socket.create_server(("127.0.0.1", 0))
        self.port = self.listener.getsockname()[1]
        self.carried, self.frames = 0, Frames()
        self.start()

    def run(self):
        while True:
            try:
                near, _ = self.listener.accept()
            except OSError:
                return
            far = socket.create_connection(("127.0.0.1", self.far_port))
            for stream in (near, far):
                stream.setsockopt(socket.IPPROTO_TCP, socket.TCP_NODELAY, 1)
            for ends in ((near, far), (far, near)):
                queue, frames = Queue(self.most_chunks()), self.frames if ends[0] is near else Frames()
                threading.Thread(target=self.hear, args=(ends[0], queue, frames), daemon=True).start()
                threading.Thread(target=self.pass_on, args=(queue, ends[1]), daemon=True).start()

    def most_chunks(self):
        """How many chunks are under way and held at most, each way; 0 if there is no limit."""
        return int((self.rate * self.delay / 8 + HELD) // CHUNK) if self.rate < float("inf") else 0

    def hear(self, stream, queue, frames):
        while True:
            try:
                heard = stream.recv(CHUNK)
            except OSError:
                heard = b""
            frames.take(heard)
            queue.put((time.monotonic(), heard))
            if not heard:
                return

    def pass_on(self, queue, stream):
        """Sends what was received once the line has had the time for it. A line is busy with one chunk after the other, and
        delays each."""
        free = 0.0
        while True:
            when, heard = queue.get()
            free = max(free, when) + len(heard) * 8 / self.rate
            time.sleep(max(0.0, free + self.delay - time.monotonic()))
            try:
                if not heard:
                    stream.shutdown(socket.SHUT_WR)
                    return
                stream.sendall(heard)
                self.carried += len(heard)
            except OSError:
                return

    def close(self):
        self.listener.close()
