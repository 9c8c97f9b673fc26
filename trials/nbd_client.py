"""A client of NBD, the network block device protocol (proto.md of the NBD project)."""

import struct
from typing import NamedTuple

from trials.connections import read_exactly

# Requests.
READ, WRITE, DISCONNECT, FLUSH, TRIM, ZEROES = 0, 1, 2, 3, 4, 6
# Errors.
EIO, EINVAL, ENOSPC = 5, 22, 28
# Options, and the kinds of their replies; those from REFUSED on are errors.
EXPORT_NAME, LIST, STARTTLS, INFO, GO = 1, 3, 5, 6, 7
ACK = 1
REFUSED = 1 << 31
REQUEST_MAGIC, REPLY_MAGIC = 0x25609513, 0x67446698


class Request(NamedTuple):
    """A request of NBD."""

    kind: int
    offset: int = 0
    length: int = 0
    payload: bytes = b""
    flags: int = 0

    @classmethod
    def drawn(cls, dice, size):
        """A random request to a disk of this size."""
        kind = dice.choice([WRITE, WRITE, WRITE, TRIM, ZEROES, READ, FLUSH])
        if kind == FLUSH:
            return cls(FLUSH)
        length = min(size, dice.choice([1, 17, 512, 4096, 8192, dice.randrange(1, 20000)]))
        offset = dice.randrange(size - length + 1)
        return cls(WRITE, offset, length, dice.randbytes(length), dice.choice([0, 1])) if kind == WRITE else cls(kind, offset, length)


def head_of(cookie, kind, offset, length, flags=0):
    """The head of a request."""
    return struct.pack(">IHHQQI", REQUEST_MAGIC, flags, kind, cookie, offset, length)


def option_of(kind, sent=b"", length=None):
    """An option with the data that is sent along, and the length that it gives for this data, if it isn't the right one."""
    return b"IHAVEOPT" + struct.pack(">II", kind, len(sent) if length is None else length) + sent


class NbdClient:
    """A connection to a disk. Calls that return what was read return None if the connection has ended."""

    def __init__(self, stream):
        self.stream = stream
        self.cookie = 0

    def greet(self, flags=3):
        """Takes the greeting of the fixed newstyle, and answers it."""
        hello = self.take(18)
        self.give(struct.pack(">I", flags))
        return hello == b"NBDMAGICIHAVEOPT\x00\x03"

    def take(self, count):
        """This number of bytes, the next ones of the connection."""
        try:
            found = read_exactly(self.stream, count)
        except OSError:
            return None
        return found if len(found) == count else None

    def give(self, sent):
        """Sends bytes, and returns whether it could."""
        try:
            self.stream.sendall(sent)
            return True
        except OSError:
            return False

    def choose(self, name=b""):
        """Asks for an export by the oldest option, and returns its size."""
        if not self.give(option_of(EXPORT_NAME, name)):
            return None
        answer = self.take(10)
        return answer and struct.unpack(">QH", answer)[0]

    def option(self, kind, sent=b""):
        """The kinds of the replies to an option, up to one that ends it."""
        self.give(option_of(kind, sent))
        kinds = []
        while head := self.take(20):
            kinds.append(struct.unpack(">II", head[12:])[0])
            self.take(struct.unpack(">II", head[12:])[1])
            if kinds[-1] == ACK or kinds[-1] >= REFUSED:
                break
        return kinds

    def ask(self, kind, offset=0, length=0, payload=b"", flags=0):
        """The error of the reply to a request, and what the reply brings."""
        request = Request(kind, offset, length, payload, flags)
        return self.hear(self.cookie, request) if self.say(request) else None

    def say(self, request):
        """Sends a request under the next cookie, and returns whether it could."""
        self.cookie += 1
        return self.give(head_of(self.cookie, request.kind, request.offset, request.length, request.flags) + request.payload)

    def say_all(self, requests):
        """Sends requests at once under the next cookies, and returns whether it could."""
        sent = b""
        for request in requests:
            self.cookie += 1
            sent += head_of(self.cookie, request.kind, request.offset, request.length, request.flags) + request.payload
        return self.give(sent)

    def hear(self, cookie, request):
        """The error of the reply to a request, and what the reply brings. None also if another reply comes."""
        reply = self.take(16)
        if reply is None:
            return None
        magic, error, replied = struct.unpack(">IIQ", reply)
        if magic != REPLY_MAGIC or replied != cookie:
            return None
        found = self.take(request.length) if request.kind == READ and error == 0 else b""
        return None if found is None else (error, found)

    def close(self):
        """Tells the disk that it leaves, and closes the connection."""
        self.give(head_of(0, DISCONNECT, 0, 0))
        self.stream.close()
