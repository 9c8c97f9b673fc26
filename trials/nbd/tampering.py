"""A host that changes records, or gives back older ones."""

import re
import signal

from trials.bucket_file import BucketFile
from trials.bucket_host import TIME
from trials.bucket_messages import DONE, FETCH_LEVELS, is_a
from trials.disk import Disk
from trials.disk_array import DiskArray, check_and_end, make_requests, write_block
from trials.nbd_client import EIO, FLUSH, READ, TRIM, WRITE, ZEROES, Request
from trials.processes import end_of
from trials.statuses import DISK_FAILED, NOT_FAILED

# The trees in whose records a host keeps the stamps and the identity of its disk.
STAMP_TREE, IDENTITY_TREE = 254, 255


def tamper(file, level=None):
    """Changes a bit of each record of a disk's trees that a host's file has, or of those at one level of tree 0. Returns the file's records
    after that."""
    buckets = BucketFile(file)
    buckets.replay()
    for tree, node in records_of(buckets, level):
        buckets.flip(tree, node)
    return buckets.records()


def records_of(buckets, level=None, tree=0):
    """The trees and nodes of a disk's trees of which a host's file has a record, or those at one level of a tree."""
    held = [place for place in buckets.records() if place[0] < STAMP_TREE]
    return held if level is None else [(at, node) for at, node in held if (at, (node + 1).bit_length() - 1) == (tree, level)]


def mend(file, changed):
    """Changes back each record of a disk's trees in a host's file that is still the one that `tamper` left. The others were stored since: the
    disk may have carried out some commands before it came to a record that had been changed."""
    buckets = BucketFile(file)
    buckets.replay()
    for (tree, node), record in buckets.records().items():
        if tree < STAMP_TREE and record == changed.get((tree, node)):
            buckets.flip(tree, node)


def is_failure(reason, tree=r"\d+", level=r"\d+"):
    """Whether `status` says of a disk that it has failed, at a record of this tree and level."""
    record = f"in tree {tree} the record at level {level} of a path wasn't the one that was stored last"
    return re.fullmatch(f"it has failed: {record}, at {TIME}", reason)


def check_retry(trial, disk, status, out, err):
    """`retry` ends in this way."""
    end = end_of(disk.start("retry"))
    trial.check(f"{disk.name}: retry", (end.status, end.out, end.err.decode()) == (status, out, err), end)


def check_that_retry_works(trial, disk):
    check_retry(trial, disk, 0, b"oramdisk serve goes on from the saved state\n", "")


def try_tampered(trial):
    """After the host changed a record, all requests have errors, and the status says why. With its own records the disk goes on."""
    disk = Disk(trial, "tampered", table=16).formatted()
    array = DiskArray()
    client = disk.serve().client()
    make_requests(trial, client, array, 10)
    disk.end(client)
    changed = tamper(disk.host.path())
    reason = fail_disk(trial, disk, array)
    failed = disk.kept.read()
    refused = "oramdisk: the disk of tampered/disk.state has failed, and oramdisk status says why: see that its own host is reached, with its own file, and then say oramdisk retry; oramdisk check says what is lost at the host, and oramdisk export --salvage saves the rest"
    trial.ends("tampered: served again", disk.start("serve"), DISK_FAILED, refused)
    trial.check("tampered: its state is left as it is", disk.kept.read() == failed and disk.status().get("state") == reason)
    disk.host.stop()
    mend(disk.host.path(), changed)
    disk.start_host()
    check_that_retry_works(trial, disk)
    sound = "oramdisk: the disk of tampered/disk.state has not failed, and is left as it is: oramdisk serve serves it"
    check_retry(trial, disk, NOT_FAILED, b"", f"{sound}\n")
    check_and_end(trial, "tampered: what it holds with its own records", disk, array)


def fail_disk(trial, disk, array):
    """Over records that were changed a read has an error, and so has each request after it. Returns what `status` then says of the disk."""
    disk.start_host()
    client = disk.serve().client()
    # Records of the paths that the client stores once more are right again, so all blocks are read.
    trial.check("tampered: a READ", client.ask(READ, 0, array.size) == (EIO, b""))
    # The failure is kept before the error is answered.
    mode = (disk.folder / "disk.state.failed").stat().st_mode & 0o777
    trial.check("tampered: what is kept of the failure is its owner's", mode == 0o600, oct(mode))
    reason = disk.status().get("state", "")
    trial.check("tampered: why", is_failure(reason), reason)
    trial.check("tampered: a WRITE", client.ask(WRITE, 0, 4, b"more") == (EIO, b""))
    for what, kind, offset, length in (
        ("a FLUSH", FLUSH, 0, 0),
        ("a TRIM of part of a block", TRIM, 1, 2),
        ("a WRITE of nothing", WRITE, 0, 0),
        ("ZEROES", ZEROES, 0, 1),
        ("a READ of nothing", READ, 0, 0),
    ):
        trial.check(f"tampered: {what}", client.ask(kind, offset, length) == (EIO, b""))
    client.close()
    disk.stop(signal.SIGKILL)
    return reason


def fill_disk(trial, disk, array):
    """A disk is written everywhere. Its last rounds are about one block each, so that the STOREs of one path wait, which the next process sends
    before it looks at what they replace. Then it and its host are stopped."""
    client = disk.serve().client()
    request = Request(WRITE, 0, array.size, trial.dice.randbytes(array.size))
    array.note_reply(trial, request, client.ask(*request))
    for number in range(2):
        write_block(trial, client, array, number)
    disk.end(client)


def try_each_level(trial):
    """A record that was changed at any level of a path is found at that level. The root's record is on each path that waits, so a changed one
    counts only before the first access, when the host has none: it makes one up."""
    disk = Disk(trial, "unused-level", table=16, leaf_load=1).formatted()
    disk.relay.instead = lambda body: DONE + b"\1" + bytes(disk.sizes().record_len()) if is_a(FETCH_LEVELS, body) and body[1] == 0 else None
    check_failure(trial, disk, 0)
    disk, array = Disk(trial, "levels", table=16, leaf_load=1).formatted(), DiskArray()
    fill_disk(trial, disk, array)
    before, kept = disk.host_files(), disk.kept.read()
    for level in range(1, 7):
        disk.put_host_files(before)
        disk.kept.put(kept)
        tamper(disk.host.path(), level)
        disk.start_host()
        check_failure(trial, disk, level)
    disk.put_host_files(before)
    disk.kept.put(kept)
    disk.start_host()
    check_and_end(trial, "levels: what it holds with its own records", disk, array)


def check_failure(trial, disk, level, tree=0):
    """A disk whose host runs fails at a record of this level. Its state is left as it was, and its host is stopped."""
    what = f"{disk.name}, tree {tree}, level {level}"
    reason = failure_of(trial, disk, what)
    trial.check(f"{what}: why", is_failure(reason, tree, level), reason)
    check_that_retry_works(trial, disk)
    disk.host.stop()


def failure_of(trial, disk, what):
    """A read of all blocks fails. Returns what `status` then says of the disk."""
    client = disk.serve().client()
    trial.check(f"{what}: a READ", client.ask(READ, 0, disk.settings()["size"]) == (EIO, b""))
    client.close()
    disk.stop()
    return disk.status().get("state", "")
