"""The plain array of bytes that a disk has to be like, and requests whose replies are compared with it."""

import threading

from trials.disk import BLOCK, SMALL
from trials.nbd_client import READ, WRITE, ZEROES, Request


class DiskArray:
    """The plain array beside a disk: what each of its blocks may hold, which is more than one content if a write had no reply."""

    def __init__(self, size=SMALL, block=BLOCK):
        self.block = block
        self.blocks = [{bytes(block)} for _ in range(size // block)]
        self.size = size

    def write(self, offset, payload, is_sure):
        """What a write leaves. If its reply didn't come, each block is as before, or as written."""
        for at in range(offset // self.block, (offset + len(payload) - 1) // self.block + 1):
            start = at * self.block
            left, right = max(offset, start), min(offset + len(payload), start + self.block)
            part = payload[left - offset : right - offset]
            after = {old[: left - start] + part + old[right - start :] for old in self.blocks[at]}
            self.blocks[at] = after if is_sure else self.blocks[at] | after

    def may_hold(self, offset, found):
        """Whether these bytes may be there."""
        copy = DiskArray(self.size, self.block)
        copy.blocks = [set(held) for held in self.blocks]
        copy.write(offset, found, True)
        return all(one & other for one, other in zip(copy.blocks, self.blocks))

    def wrong(self, whole):
        """The blocks of the disk that hold what they may not. From then on each block holds what was found."""
        found = [whole[at : at + self.block] for at in range(0, self.size, self.block)]
        bad = [at for at, bytes_found in enumerate(found) if bytes_found not in self.blocks[at]]
        self.blocks = [{bytes_found} for bytes_found in found]
        return bad

    def note_reply(self, trial, request, reply):
        """What a request leaves, with this reply or without one; and whether the reply is right."""
        if reply is not None:
            is_right = reply[0] == 0 and (request.kind != READ or self.may_hold(request.offset, reply[1]))
            trial.check("a request", is_right, (request.kind, reply[0]))
        # A trim doesn't change what a block holds.
        if request.kind in (WRITE, ZEROES):
            self.write(request.offset, request.payload or bytes(request.length), reply is not None and reply[0] == 0)


def read_whole(client, size, step=1 << 20):
    """All bytes of a disk; None if a read had an error."""
    whole = b""
    for offset in range(0, size, step):
        reply = client.ask(READ, offset, min(step, size - offset))
        if reply is None or reply[0] != 0:
            return None
        whole += reply[1]
    return whole


def check_disk(trial, what, client, array):
    """The disk holds what the array holds."""
    whole = client and read_whole(client, array.size)
    wrong = array.wrong(whole) if whole else "it couldn't be read"
    trial.check(what, wrong == [], wrong)


def check_and_end(trial, what, disk, array):
    """The disk is served once more, and holds what the array holds. Then all its processes are ended."""
    client = disk.serve().client()
    check_disk(trial, what, client, array)
    disk.end(client)


def ask_at_random(trial, client, array, in_flight=1):
    """Sends this many random requests, all of them before it waits for a reply. They change the array one after the other. Returns whether
    each had a reply."""
    requests = [Request.drawn(trial.dice, array.size) for _ in range(in_flight)]
    first = client.cookie + 1
    # A disk that waits for its client to take a reply reads no more requests, so another thread sends them.
    sender = threading.Thread(target=lambda: all(map(client.say, requests)))
    sender.start()
    is_answered = True
    for cookie, request in enumerate(requests, first):
        reply = client.hear(cookie, request) if is_answered else None
        is_answered = reply is not None
        array.note_reply(trial, request, reply)
    sender.join()
    return is_answered


def make_requests(trial, client, array, count):
    """Sends this many random requests, each once the one before it has its reply."""
    for _ in range(count):
        ask_at_random(trial, client, array)


def write_block(trial, client, array, number):
    """Writes random bytes to a whole block, which makes an access, unlike some random requests. Returns whether it had a reply."""
    request = Request(WRITE, array.block * number, array.block, trial.dice.randbytes(array.block))
    reply = client.ask(*request)
    array.note_reply(trial, request, reply)
    return reply is not None


def lose_write(trial, what, client, array, offset=0, payload=b"lost"):
    """A write gets no reply, so it may have been done or not."""
    trial.check(what, client.ask(WRITE, offset, len(payload), payload) is None)
    array.write(offset, payload, False)
    client.stream.close()
