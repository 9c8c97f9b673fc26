"""Devices of oramd, the plain array that each has to be like, and requests whose replies are compared with it."""

import struct

from trials.connections import FrameClient, connect

READ, WRITE, DISCARD = 0x11, 0x12, 0x13
DATA, DONE, REFUSED = 0x90, 0x91, 0x92
# Why a request is refused.
NO_SUCH_BLOCK, WRONG_LENGTH, DEVICE_FAILED, NO_REQUEST = 1, 2, 6, 7
TAPE_KEY = "5f" * 32
SEAL_KEY = "a7" * 32


class Device:
    """The numbers of a device, and how its buckets are sealed."""

    def __init__(self, name, blocks, block_bytes, slots, top, seal):
        self.name, self.blocks, self.block_bytes = name, blocks, block_bytes
        self.slots, self.top, self.seal = slots, top, seal

    def sizes(self):
        """Its numbers, as settings."""
        return {"blocks": self.blocks, "block_bytes": self.block_bytes, "slots": self.slots, "top": self.top, "lifetime": 1000000}

    def sealer(self):
        """Its sealer, as settings."""
        return {"seal": "plain"} if self.seal == "plain" else {"seal": "chacha", "seal_key": SEAL_KEY}


DEVICES = [
    Device("one tree, plain", 64, 16, 4, 64, "plain"),
    Device("three trees, plain", 64, 16, 4, 4, "plain"),
    Device("one tree, sealed", 200, 256, 4, 256, "chacha"),
    Device("three trees, sealed", 1000, 32, 4, 16, "chacha"),
]


class DeviceArray:
    """The plain array beside a device: what each of its blocks may hold, which is more than one content if a request had no reply."""

    def __init__(self, device, dice):
        self.device, self.dice = device, dice
        self.blocks = [{bytes(device.block_bytes)} for _ in range(device.blocks)]

    def draw_request(self):
        """A random request: its kind, its block's address, and what it writes."""
        address = self.dice.randrange(self.device.blocks)
        kind = self.dice.choice([READ, READ, WRITE, WRITE, DISCARD])
        data = self.dice.randbytes(self.device.block_bytes) if kind == WRITE else b""
        return kind, address, data

    def content_after(self, kind, data):
        """What a request leaves in its block."""
        return data if kind == WRITE else bytes(self.device.block_bytes)

    def is_answer(self, kind, address, data, reply):
        """Whether this is the array's reply. From then on the array is as the request leaves it."""
        if kind == READ:
            found, is_known = reply[1:], reply[:1] == bytes([DATA]) and reply[1:] in self.blocks[address]
            self.blocks[address] = {found} if is_known else self.blocks[address]
            return is_known
        self.blocks[address] = {self.content_after(kind, data)}
        return reply == bytes([DONE])

    def note_unanswered(self, kind, address, data):
        """A request had no reply: the block is as it was, or as the request leaves it."""
        if kind != READ:
            self.blocks[address].add(self.content_after(kind, data))


def open_session(port, process):
    """A connection to a proxy that is about to listen."""
    return FrameClient(connect(port, process))


def body_of(kind, address, data=b""):
    """The body of a request."""
    return struct.pack(">BI", kind, address) + data


def make_requests(tally, what, session, array, count):
    """Sends this number of random requests. Returns whether each was answered. Each answer is the array's."""
    for _ in range(count):
        request = array.draw_request()
        reply = session.ask(body_of(*request))
        if reply is None:
            array.note_unanswered(*request)
            return False
        tally.check(f"{what}: a reply", array.is_answer(*request, reply), reply.hex())
    return True


def read_all(tally, what, session, array):
    """Reads each block. Each answer is the array's."""
    for address in range(array.device.blocks):
        reply = session.ask(body_of(READ, address)) or b""
        tally.check(f"{what}: block {address}", array.is_answer(READ, address, b"", reply), reply.hex())
