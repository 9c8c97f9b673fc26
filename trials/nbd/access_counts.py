"""How many accesses a disk makes in each round, and of which levels, as its host can see."""

import struct
from itertools import groupby

from trials.bucket_messages import FETCH_LEVELS, PUT, STORE_LEVELS, is_a
from trials.disk import BLOCK, SMALL, Disk
from trials.disk_array import DiskArray, make_requests
from trials.nbd_client import READ, WRITE, ZEROES, Request

PART = BLOCK // 4
# How many bytes near records may have, with how many near levels that makes of the five of tree 0: each record has 16,488 bytes.
NEAR = {0: 0, 40_000: 1, 120_000: 3, 1_000_000: 4}


def rounds_of(kinds):
    """The number of accesses of each round, from the kinds of the messages to a host that keeps one tree: a round fetches a path for each
    of its accesses, and a stamp goes before these FETCHes."""
    return [len(list(run)) for kind, run in groupby(kinds) if kind == FETCH_LEVELS]


def sent_for(trial, disk, client, kind, ranges):
    """Sends requests of one kind for these ranges, all at once, and returns the messages that the host gets for them. What is written is what
    the blocks of a new disk have already."""
    bodies = []
    disk.relay.instead = lambda body: bodies.append(body)
    requests = [Request(kind, offset, length, bytes(length) if kind == WRITE else b"") for offset, length in ranges]
    first = client.cookie + 1
    trial.check("the requests are sent", client.say_all(requests))
    for number, request in enumerate(requests):
        reply = client.hear(first + number, request)
        found = bytes(request.length) if kind == READ else b""
        trial.check("a request on a new disk", reply == (0, found), reply and reply[0])
    return bodies


def kinds_of(bodies):
    return [body[0] for body in bodies]


def try_access_counts(trial):
    """Parts of blocks make the same rounds whether they are read, written or zeroed. Whole blocks that are asked for at once share one: its
    FETCHes go before the STOREs of the round before, and both between its stamps."""
    disk = Disk(trial, "counts", table=64).formatted()
    client = disk.serve().client()
    cases = (
        ("sixteen parts of blocks", [(number * PART, PART) for number in range(16)], [1] * 32, (READ, WRITE, ZEROES)),
        ("a range that begins within a block", [(PART, 16 * BLOCK)], [2, 17], (READ, WRITE, ZEROES)),
        ("a range within a block", [(7, 9)], [1, 1], (READ, WRITE, ZEROES)),
        ("a range of whole blocks", [(0, 16 * BLOCK)], [16], (READ, WRITE, ZEROES)),
        # The bytes of sixteen writes may come in several pieces, and then make several rounds.
        ("sixteen whole blocks at once", [(number * BLOCK, BLOCK) for number in range(16)], [16], (READ, ZEROES)),
    )
    for what, ranges, rounds, kinds in cases:
        for kind in kinds:
            found = rounds_of(kinds_of(sent_for(trial, disk, client, kind, ranges)))
            trial.check(f"{what}: the rounds of command {kind}", found == rounds, found)
    # The round before this one had sixteen accesses, too.
    check_order(trial, "a disk of one tree", sent_for(trial, disk, client, READ, [(0, 16 * BLOCK)]))
    disk.end(client)


def check_order(trial, what, bodies, accesses=16):
    """These are the messages of a round of a disk with one tree, which has so many accesses, as the round before it had."""
    found = kinds_of(bodies)
    wanted = [PUT] + [FETCH_LEVELS] * accesses + [STORE_LEVELS] * accesses + [PUT]
    trial.check(f"{what}: the messages of a round in their order", found == wanted, found)


def try_levels_asked(trial):
    """Whatever is asked of a disk, each FETCH and each STORE in a tree is about the same levels: those that aren't near, down to the leaves. Its
    host hears of no whole paths, and of no single records but the stamps."""
    for near, levels in NEAR.items():
        for trees, table in ((1, 64), (2, 16)):
            disk = Disk(trial, f"asked-{near}-{trees}", table=table, near=near).formatted()
            what, bodies = f"near levels: {levels}, trees: {trees}", []
            disk.relay.instead = lambda body, bodies=bodies: bodies.append(body)
            client, array = disk.serve().client(), DiskArray()
            make_requests(trial, client, array, 20)
            trial.check(f"{what}: a read of all", client.ask(READ, 0, SMALL)[0] == 0)
            check_levels(trial, what, disk, bodies, levels)
            if trees == 1:
                bodies.clear()
                for _ in range(2):
                    trial.check(f"{what}: a read of some blocks", client.ask(READ, 0, 16 * BLOCK)[0] == 0)
                check_order(trial, what, bodies[-34:])
            disk.end(client)


def check_levels(trial, what, disk, bodies, near):
    """These messages to the host of a disk with so many near levels ask for the same levels of all paths of a tree."""
    sizes = disk.sizes()
    wanted = {tree: (0 if tree else near, depth) for tree, depth in enumerate(sizes.depths())}
    fetched = {(body[1], *body[2:4]) for body in bodies if is_a(FETCH_LEVELS, body)}
    trial.check(f"{what}: the levels that are fetched", fetched == {(tree, *levels) for tree, levels in wanted.items()}, fetched)
    stored = {(body[1], body[2], body[2] + (len(body) - 7) / sizes.record_len() - 1) for body in bodies if is_a(STORE_LEVELS, body)}
    trial.check(f"{what}: the levels that are stored", stored == fetched, stored)
    others = {body[:2].hex() for body in bodies if not (is_a(FETCH_LEVELS, body) or is_a(STORE_LEVELS, body))}
    # The identity and the stamps are fetched, each stamp is put, and a message without a body asks whether the host is there.
    trial.check(f"{what}: its other messages", others == {"01ff", "01fe", "03fe", ""}, others)
    leaves = {(body[1], *struct.unpack(">I", body[4:])) for body in bodies if is_a(FETCH_LEVELS, body)}
    trial.check(f"{what}: leaves of both halves of the tree", {leaf >> (wanted[0][1] - 1) for tree, leaf in leaves if tree == 0} == {0, 1}, leaves)
