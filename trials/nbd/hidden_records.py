"""A host that hides records which were stored, and one that answers a FETCH of levels in a way in which no host does."""

import signal

from trials.bucket_file import BucketFile
from trials.bucket_messages import DONE, FETCH_LEVELS, MISSING, is_a, refused
from trials.disk import SMALL, Disk
from trials.disk_array import DiskArray, check_and_end, check_disk, write_block
from trials.nbd.tampering import check_failure, check_retry, fill_disk, records_of
from trials.nbd_client import EIO, READ

# Blocks of a disk of three trees: tree 0 has seven levels, of which two are near, and tree 1 has three.
MAP_BLOCK = 64
THREE_TREES = {"size": 256 * MAP_BLOCK, "block": MAP_BLOCK, "table": 4, "near": 2000}
# The settings of disks, the tree in which records are hidden, and the levels at which they are. The root's record is on each path that waits, so
# nobody can hide it.
HIDDEN = [
    ({"near": 0, "table": 16}, 0, range(1, 5)),
    ({"near": 40_000, "table": 16}, 0, range(1, 5)),
    ({"near": 120_000, "table": 16}, 0, range(3, 5)),
    (THREE_TREES, 1, range(1, 3)),
]


def hide(file, level, tree):
    """Takes away each record at a level of a tree that a host's file has. Returns the nodes."""
    buckets = BucketFile(file)
    buckets.replay()
    hidden = records_of(buckets, level, tree)
    for tree, node in hidden:
        buckets.set_there(tree, node, False)
    return hidden


def show(file, hidden):
    """Gives back the records that `hide` has taken away, but for those that were stored since."""
    buckets = BucketFile(file)
    buckets.replay()
    held = buckets.records()
    for tree, node in hidden:
        if (tree, node) not in held:
            buckets.set_there(tree, node, True)


def try_hidden_records(trial):
    """A host says of the records at some level that it has none, although they were stored. The disk makes the records of the formatting in their
    place, sees that these aren't the ones that were stored last, and fails. Once the host shows what was stored, the disk goes on."""
    for number, (values, tree, levels) in enumerate(HIDDEN):
        disk = Disk(trial, f"hidden-{number}")
        disk.set(**values)
        array = DiskArray(disk.settings()["size"], disk.sizes().block_bytes)
        fill_disk(trial, disk.formatted(), array)
        for level in levels:
            hide_level(trial, disk, array, tree, level)


def hide_level(trial, disk, array, tree, level):
    """The records at one level are hidden and shown again."""
    what = f"{disk.name}: hidden records at level {level} of tree {tree}"
    hidden = hide(disk.host.path(), level, tree)
    trial.check(f"{what}: there are some", len(hidden) > 1, hidden)
    disk.start_host()
    check_failure(trial, disk, level, tree)
    show(disk.host.path(), hidden)
    disk.start_host()
    client = disk.serve().client()
    check_disk(trial, f"{what}: what it holds once they are shown", client, array)
    for number in range(2):
        write_block(trial, client, array, number)
    disk.end(client)


def try_no_levels(trial):
    """Answers to a FETCH of levels that no host gives fail the disk, and so does a refusal. With the host's own answers it goes on."""
    disk = Disk(trial, "no-levels", table=64, near=40_000).formatted()
    array = DiskArray()
    record_len = disk.sizes().record_len()
    nothing, answers = "what the host answered is no answer", {
        "no count": DONE,
        "no records behind a count": DONE + b"\1",
        "half a record": DONE + b"\1" + bytes(record_len // 2),
        "a record without a count": DONE + bytes(record_len),
        "more records than the count says": DONE + b"\1" + bytes(2 * record_len),
        "more levels than were asked for": DONE + b"\5" + bytes(5 * record_len),
        "another first byte": b"\x82\0",
    }
    cases = [(what, answer, nothing) for what, answer in answers.items()]
    cases.append(("a refusal", refused(MISSING), "the host refused a message, with code 6"))
    client = disk.serve().client()
    write_block(trial, client, array, 0)
    client.close()
    disk.stop(signal.SIGKILL)
    for what, answer, reason in cases:
        disk.relay.instead = lambda body, answer=answer: answer if is_a(FETCH_LEVELS, body) else None
        client = disk.serve().client()
        trial.check(f"levels, {what}: a READ", client.ask(READ, 0, SMALL) == (EIO, b""))
        client.close()
        disk.stop()
        said = disk.status().get("state", "")
        trial.check(f"levels, {what}: why", said.startswith(f"it has failed: {reason}, at "), said)
        check_retry(trial, disk, 0, b"oramdisk serve goes on from the saved state\n", "")
    disk.relay.instead = lambda body: None
    check_and_end(trial, "levels: what it holds afterwards", disk, array)
