"""What the protocol allows a client, and what is refused."""

import struct

from trials.disk import BLOCK, SMALL, Disk
from trials.nbd_client import EINVAL, ENOSPC, EXPORT_NAME, FLUSH, READ, REPLY_MAGIC, TRIM, WRITE, ZEROES, head_of, option_of

LONGEST_OPTION, LONGEST_WRITE = 1 << 16, 1 << 25
UNKNOWN_KIND = 99


def try_protocol(trial):
    """A name that is too long, flags that don't exist, ranges beyond the end, a write that is too long, a client that wants zeros, and
    requests sent ahead."""
    disk = Disk(trial, "protocol", sync=False).formatted()
    nbd = disk.serve().connect()
    # The protocol has no reply to EXPORT_NAME but the size, so the connection ends.
    nbd.greet(3)
    nbd.give(option_of(EXPORT_NAME, bytes(LONGEST_OPTION + 1)))
    trial.check("protocol: a name that is too long", nbd.take(1) is None)
    nbd.close()
    # Clients with and without the flag of the fixed newstyle, and that of no zeros after the answer to their choice.
    for flags, zeros in ((3, 0), (2, 0), (0, 124), (1, 124)):
        nbd = disk.connect()
        found = nbd.greet(flags) and nbd.choose()
        trial.check(f"protocol: the flags {flags}", (found, nbd.take(zeros)) == (SMALL, bytes(zeros)), found)
        reply = nbd.ask(READ, 0, 512)
        trial.check(f"protocol: a request after the flags {flags}", reply == (0, bytes(512)), reply)
        if flags != 1:
            nbd.close()
    for what, kind, offset, length, flags, error in (
        ("an unknown flag", READ, 0, 512, 1 << 5, EINVAL),
        ("the flag of zeroes at a read", READ, 0, 512, 2, EINVAL),
        ("a flag that wasn't offered", ZEROES, 0, 512, 1 << 4, EINVAL),
        ("a TRIM beyond the end", TRIM, SMALL - 1, 2, 0, EINVAL),
        ("a TRIM far beyond the end", TRIM, (1 << 64) - 1, 0xFFFFFFFF, 0, EINVAL),
        ("ZEROES beyond the end", ZEROES, SMALL, 1, 0, ENOSPC),
        ("a READ of nothing", READ, 0, 0, 0, 0),
    ):
        reply = nbd.ask(kind, offset, length, flags=flags)
        trial.check(f"protocol: {what}", reply == (error, b""), reply)
    reply = nbd.ask(WRITE, 0, LONGEST_WRITE + 1, bytes(LONGEST_WRITE + 1))
    trial.check("protocol: a WRITE that is too long", reply is not None and reply[0] == EINVAL, reply)
    send_ahead(trial, nbd)
    disk.end(nbd)


def send_ahead(trial, nbd):
    """Requests of all kinds are sent before any reply is read. The replies come in the order of the requests."""
    block, part = trial.dice.randbytes(BLOCK), trial.dice.randbytes(100)
    requests = [
        (WRITE, 0, BLOCK, block, (0, b"")),
        (READ, 0, BLOCK, b"", (0, block)),
        (WRITE, 50, 100, part, (0, b"")),
        (FLUSH, 0, 0, b"", (0, b"")),
        (READ, 0, 200, b"", (0, block[:50] + part + block[150:200])),
        (WRITE, SMALL, 1, b"x", (ENOSPC, b"")),
        (ZEROES, 60, 10, b"", (0, b"")),
        (READ, 40, 40, b"", (0, block[40:50] + part[:10] + bytes(10) + part[20:30])),
        (UNKNOWN_KIND, 0, 0, b"", (EINVAL, b"")),
        (READ, BLOCK, 10, b"", (0, bytes(10))),
    ]
    nbd.give(b"".join(head_of(cookie, kind, offset, length) + payload for cookie, (kind, offset, length, payload, _) in enumerate(requests)))
    for cookie, (_, _, _, _, (error, found)) in enumerate(requests):
        reply = nbd.take(16)
        brought = nbd.take(len(found)) if reply else None
        wanted = (struct.pack(">IIQ", REPLY_MAGIC, error, cookie), found)
        trial.check(f"protocol: request {cookie} of those sent ahead", (reply, brought) == wanted, reply)
