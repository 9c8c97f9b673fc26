"""Connections to processes, and the frames that go over those to a host: each is a length of four bytes, and then that number of bytes."""

import os
import select
import socket
import struct
import subprocess

from trials.processes import LONGEST_WAIT

# The most bytes of a frame's body.
LONGEST_BODY = 1 << 20


def open_connection(place):
    """Connects to whoever listens at a port of this machine, if the place is a number, or else at a Unix socket."""
    if isinstance(place, int):
        stream = socket.create_connection(("127.0.0.1", place), timeout=LONGEST_WAIT)
        stream.setsockopt(socket.IPPROTO_TCP, socket.TCP_NODELAY, 1)
        return stream
    stream = socket.socket(socket.AF_UNIX)
    stream.settimeout(LONGEST_WAIT)
    try:
        stream.connect(str(place))
    except OSError:
        stream.close()
        raise
    return stream


def connect(place, process):
    """Connects to a process that is about to listen at a port or a Unix socket; None if it ended first."""
    while True:
        try:
            return open_connection(place)
        except (FileNotFoundError, ConnectionRefusedError, ConnectionResetError):
            # Nobody listens yet, or the process ends, or a killed process left its socket: try again soon, unless the process has ended.
            try:
                process.wait(0.02)
                return None
            except subprocess.TimeoutExpired:
                pass


def read_exactly(stream, count):
    """Reads this number of bytes, or fewer if the stream ends."""
    parts = bytearray()
    while len(parts) < count:
        part = stream.recv(count - len(parts))
        if not part:
            break
        parts += part
    return bytes(parts)


def read_pipe(pipe, count):
    """Reads this number of bytes of a pipe, or fewer if it ends or gives none for a minute."""
    parts = b""
    while len(parts) < count and select.select([pipe], [], [], LONGEST_WAIT)[0]:
        part = os.read(pipe.fileno(), count - len(parts))
        if not part:
            break
        parts += part
    return parts


def frame_of(body):
    """The frame that carries this body."""
    return struct.pack(">I", len(body)) + body


def read_frame(stream):
    """Reads one frame, and returns its body; None if the stream has ended."""
    try:
        head = read_exactly(stream, 4)
        if len(head) < 4:
            return None
        (length,) = struct.unpack(">I", head)
        body = read_exactly(stream, length)
        return body if len(body) == length else None
    except ConnectionError:
        return None


def write_frame(stream, body):
    """Writes one frame, and returns whether the other side still took it."""
    try:
        stream.sendall(frame_of(body))
        return True
    except ConnectionError:
        return False


def reset_on_close(stream):
    """Closing this connection will reset it: the other side gets an error in place of an end."""
    stream.setsockopt(socket.SOL_SOCKET, socket.SO_LINGER, struct.pack("ii", 1, 0))


class FrameClient:
    """A connection whose messages and answers are frames, as those to a host and to a proxy are. The stream is None if nobody listened."""

    def __init__(self, stream):
        self.stream = stream

    def ask(self, body):
        """The answer to a message; None if the connection ended before it."""
        if self.stream is None or not write_frame(self.stream, body):
            return None
        return read_frame(self.stream)

    def send_all(self, bodies):
        """Sends messages in one write, and reads no answer. Returns whether they were sent."""
        try:
            self.stream.sendall(b"".join(map(frame_of, bodies)))
        except OSError:
            return False
        return True

    def send_slowly(self, bodies):
        """Sends messages one byte at a time."""
        for number in b"".join(map(frame_of, bodies)):
            self.stream.sendall(bytes([number]))

    def read(self):
        """The next answer; None if the connection ended before it."""
        return read_frame(self.stream)

    def close(self):
        if self.stream:
            self.stream.close()
