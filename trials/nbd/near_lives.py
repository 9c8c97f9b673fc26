"""Whole lives of disks whose clients keep near records themselves: of all settings of `near`, and of trees of all sizes."""

import signal
from typing import NamedTuple

from trials.bucket_file import BucketFile
from trials.disk import BLOCK, SMALL, Disk
from trials.disk_array import DiskArray, check_disk, make_requests, write_block
from trials.nbd.kills import KILLS, kill_and_ask
from trials.statuses import EXISTS


class Shape(NamedTuple):
    """A disk's settings, and how many levels of its tree 0 are near, of how many. A record has 16,488 bytes, and 16,480 if nothing is sealed; with
    blocks of 64 bytes it has 360."""

    name: str
    near: int
    levels: tuple
    size: int = SMALL
    values: dict = {}


SHAPES = [
    Shape("no-near", 0, (0, 5)),
    Shape("one-byte-too-few", 49_463, (1, 5)),
    Shape("some-near", 40_000, (1, 5)),
    Shape("more-near", 120_000, (3, 5)),
    Shape("all-but-leaves", 1_000_000, (4, 5)),
    Shape("two-trees", 40_000, (1, 5), values={"table": 16}),
    Shape("two-trees-all", 1_000_000, (4, 5), values={"table": 16}),
    # The tree of a disk of up to five blocks has one level, which is that of its leaves.
    Shape("one-block", 1_000_000, (0, 1), size=BLOCK),
    Shape("four-blocks", 1_000_000, (0, 1), size=4 * BLOCK),
    # The trees of these have fewer levels than there is room for.
    Shape("six-blocks", 1_000_000, (1, 2), size=6 * BLOCK),
    Shape("four-leaves", 1_000_000, (2, 3), size=4 * BLOCK, values={"leaf_load": 1}),
    Shape("plain", 120_000, (3, 5), values={"sealer": "plain", "sync": False}),
    Shape("three-trees", 2_519, (2, 7), size=1 << 14, values={"block": 64, "table": 4}),
]


def try_near_lives(trial):
    """A disk of each shape is formatted, written, read back and killed on either side at random moments. Each byte that was acknowledged is there.
    The client keeps the near records, and the host has none of them, and no record before the first access. Once it was used it isn't
    formatted again."""
    answered = sum(live(trial, number, shape) for number, shape in enumerate(SHAPES))
    trial.check("near lives: requests between the kills", answered > 0, answered)
    print(f"{answered} requests between {KILLS} kills, with near levels", flush=True)


def kills_of(number):
    """How many kills the disk of this number gets: the first ones get one more, so that there are as many as is said."""
    return KILLS // len(SHAPES) + (number < KILLS % len(SHAPES))


def live(trial, number, shape):
    """The life of a disk. Returns how many requests were answered between the kills."""
    disk = Disk(trial, shape.name, size=f"{shape.size}", near=shape.near, reconnect_timeout=60, **{"table": 64, **shape.values})
    array = DiskArray(shape.size, shape.values.get("block", BLOCK))
    near, levels = shape.levels
    disk.formatted()
    trial.check(f"{shape.name}: its levels", (disk.near_levels(), disk.sizes().depths()[0] + 1) == shape.levels, disk.near_levels())
    check_near_bytes(trial, disk, near)
    check_records(trial, f"{shape.name}, formatted", disk, range(0))
    client = disk.serve().client()
    check_disk(trial, f"{shape.name}: zeros at first", client, array)
    blocks = shape.size // array.block
    for block in range(0, blocks, -(-blocks // 64)):
        write_block(trial, client, array, block)
    make_requests(trial, client, array, 10)
    check_disk(trial, f"{shape.name}: what was written", client, array)
    client.close()
    disk.stop(signal.SIGKILL)
    check_records(trial, f"{shape.name}, used", disk, range(near, levels))
    answered = kill_and_ask(trial, disk, array, 1 + 15 * (number % 2), kills_of(number))
    check_records(trial, f"{shape.name}, at last", disk, range(near, levels))
    check_near_bytes(trial, disk, near)
    line = f"{disk.name}/disk.state is there already, and is left as it is: to format anew, take it away, and name a new file at the host"
    trial.ends(f"{shape.name}: format it once it was used", disk.format(), EXISTS, f"oramdisk: {line}")
    disk.host.stop()
    return answered


def check_near_bytes(trial, disk, near):
    """`status` says how many bytes the near records have: those of so many levels."""
    length = disk.sizes().near_len(near)
    said = disk.status().get("near")
    trial.check(f"{disk.name}: its near records", said == f"{length} bytes", (said, length))


def check_records(trial, what, disk, levels):
    """The host has records of tree 0 at these levels, and at no others. It has no record whose parent's it doesn't have, but for near parents. Of its
    own trees it has the identity and the stamps."""
    disk.settle_host()
    records = BucketFile(disk.host.path()).records()
    found = {(node + 1).bit_length() - 1 for tree, node in records if tree == 0}
    trial.check(f"{what}: the levels at the host", found == set(levels), found)
    orphans = [(tree, node) for tree, node in records if tree < 254 and node and (tree, (node - 1) // 2) not in records]
    near = [(tree, node) for tree, node in orphans if (tree, (node + 1).bit_length() - 1) == (0, levels.start)]
    trial.check(f"{what}: records without a parent's", orphans == near, orphans)
    own = {place for place in records if place[0] >= 254}
    trial.check(f"{what}: the identity and the stamps", own == {(254, 0), (254, 1), (255, 0)}, own)
