"""A disk that is read as a whole: all its records are checked, and what is in it is exported to an image."""

import json
import os
import re
import shutil
import signal
import struct
import subprocess

from trials.bucket_file import BucketFile
from trials.bucket_messages import is_a, refused
from trials.disk import BLOCK, SMALL, Disk
from trials.disk_array import DiskArray, check_and_end, check_disk, make_requests, write_block
from trials.host.full_disk import mount_disk
from trials.nbd.kills import TABLES
from trials.nbd.tampering import mend, tamper
from trials.nbd_client import READ, WRITE, ZEROES, Request
from trials.processes import end_of
from trials.statuses import BAD_FILE, IN_USE, OTHER_ANSWER, OTHER_DISK, OUT_OF_REACH, RECORDS_LOST

# The first byte of the message that asks for the records of nodes in a row.
RECORDS = 5


def used_disk(trial, name, trees=1, **values):
    """A disk with random contents, whose host runs, and its array. Its last commands wait in its state. It is served by nobody."""
    disk, array = Disk(trial, name, table=TABLES[trees], **values).formatted(), DiskArray()
    client = disk.serve().client()
    make_requests(trial, client, array, 25)
    # The last block is never written.
    for number in range(0, 40, 3):
        write_block(trial, client, array, number)
    request = Request(ZEROES, 3 * BLOCK, 2 * BLOCK)
    array.note_reply(trial, request, client.ask(*request[:3]))
    client.close()
    disk.stop(signal.SIGKILL)
    return disk, array


def levels_of(disk, tree=0):
    """How many levels a tree of the disk has."""
    return BucketFile(disk.host.path()).trees()[tree][0] + 1


def whole_report(disk, trees):
    """What a check prints of a disk with this many trees, all of whose records are sound."""
    counts = [2 ** levels_of(disk, tree) - 1 for tree in range(trees)]
    return "".join(f"tree {tree}: {count} record{'s' * (count > 1)}, all sound\n" for tree, count in enumerate(counts)).encode()


def check_whole(trial, what, disk, trees):
    """A check finds all records of the disk, and reports its progress."""
    end = end_of(disk.start("check"))
    trial.check(what, (end.status, end.out) == (0, whole_report(disk, trees)), end)
    trial.check(f"{what}: its progress", b"oramdisk: checking: 100 % (" in end.err, end)


def start_export(disk, image, *flags):
    return disk.trial.start("export", *flags, f"{disk.name}/disk.toml", image)


def check_export(trial, what, disk, array, image):
    """An export ends well, and its image holds what the array holds. Returns the image's bytes."""
    end = end_of(start_export(disk, image))
    says = f"all {2 ** levels_of(disk) - 1} records are sound".encode()
    trial.check(what, (end.status, end.out) == (0, b"") and says in end.err, end)
    return check_image(trial, what, array, trial.folder / image)


def check_image(trial, what, array, path):
    """A file is an image that holds what the array holds, and that only its owner may read. Returns its bytes."""
    whole = path.read_bytes() if path.exists() else b""
    wrong = array.wrong(whole) if len(whole) == array.size else f"{len(whole)} bytes"
    trial.check(f"{what}: what the image holds", wrong == [], wrong)
    trial.check(f"{what}: its mode", path.exists() and path.stat().st_mode & 0o777 == 0o600)
    trial.check(f"{what}: no other file is left", not path.with_name(f"{path.name}.unfinished").exists())
    return whole


def state_and_host(disk):
    """The bytes of the files of the disk's state, and its host's records by tree and node, but for those of its stamps."""
    disk.settle_host()
    records = BucketFile(disk.host.path()).records()
    return disk.kept.read(), {key: record for key, record in records.items() if key[0] < 254}


def try_export(trial):
    """What is in a disk, one with two trees too, comes to an image, to standard output and to a sparse file, also if accesses wait in
    the disk's state. Its records are found sound. Neither command changes anything, and both are refused while the disk is used."""
    for trees in (1, 2):
        what = f"a whole disk with {trees} trees"
        disk, array = used_disk(trial, f"whole{trees}", trees)
        check_whole(trial, f"{what}: check", disk, trees)
        before = state_and_host(disk)
        image = check_export(trial, f"{what}: export", disk, array, f"image{trees}")
        end = end_of(start_export(disk, "-"))
        trial.check(f"{what}: export to standard output", (end.status, end.out) == (0, image), (end.status, end.err))
        trial.check(f"{what}: nothing is left of that", not list(disk.folder.glob("*.export")))
        end = end_of(start_export(disk, f"image{trees}"))
        taken = f"oramdisk: image{trees} is there already: name another file\n".encode()
        trial.check(f"{what}: over an image", (end.status, end.err) == (BAD_FILE, taken), end)
        check_whole(trial, f"{what}: a second check", disk, trees)
        trial.check(f"{what}: nothing has changed", state_and_host(disk) == before)
        client = disk.serve().client()
        for command, more in (("check", []), ("export", ["other"])):
            used = f"oramdisk: the disk of whole{trees}/disk.state is in use by another process: end that one first"
            trial.ends(f"{what}: {command} while it is served", disk.trial.start(command, f"whole{trees}/disk.toml", *more), IN_USE, used)
        check_disk(trial, f"{what}: it goes on", client, array)
        compare_with_nbdcopy(trial, what, disk, client, image)


def compare_with_nbdcopy(trial, what, disk, client, image):
    """What nbdcopy reads of the disk is what the image has. Then all its processes are ended."""
    client.close()
    if shutil.which("nbdcopy") is None:
        trial.skip("not here: nbdcopy")
    else:
        copy = trial.folder / f"copy-{disk.name}"
        end = subprocess.run(["nbdcopy", disk.address(), str(copy)], capture_output=True, timeout=120)
        trial.check(f"{what}: nbdcopy reads the same", end.returncode == 0 and copy.read_bytes() == image, end.stderr)
    disk.stop()
    disk.host.stop()


def try_sparse_image(trial):
    """The image of a disk that was hardly written takes hardly any room, and one that was never written takes none."""
    disk = Disk(trial, "sparse", size="16MiB").formatted()
    client = disk.serve().client()
    request = Request(WRITE, 9 << 20, BLOCK, trial.dice.randbytes(BLOCK))
    trial.check("sparse: a write", client.ask(*request) == (0, b""))
    # A block of zeros that was written takes no room either.
    trial.check("sparse: a write of zeros", client.ask(WRITE, 2 << 20, 1 << 20, bytes(1 << 20)) == (0, b""))
    client.close()
    disk.stop()
    end = end_of(start_export(disk, "sparse.img"))
    image = trial.folder / "sparse.img"
    whole = bytearray(16 << 20)
    whole[9 << 20 : (9 << 20) + BLOCK] = request.payload
    trial.check("sparse: its image", end.status == 0 and image.read_bytes() == whole, end)
    trial.check("sparse: the room that it takes", end.status == 0 and image.stat().st_blocks * 512 <= 1 << 18, image.stat().st_blocks)
    disk.host.stop()


def put_record(trial, buckets, node):
    """Gives a node a record that nobody stored."""
    _, record_len, base = buckets.trees()[0]
    with open(buckets.file, "r+b") as file:
        file.seek(base + node * buckets.cell_len(record_len))
        file.write(b"\1" + trial.dice.randbytes(record_len))


def try_each_lost_level(trial):
    """A record that the host has at some level of a tree, and that nobody stored, is found by a check, with its level and all records below
    it. The client keeps no level itself. The disk has made no access yet, so no STOREs wait that would put the record right."""
    disk = Disk(trial, "lost-levels", near=0).formatted()
    disk.host.stop()
    before, levels = disk.host_files(), levels_of(disk)
    records = 2**levels - 1
    for level in range(levels):
        buckets = BucketFile(disk.host.path())
        buckets.replay()
        put_record(trial, buckets, 2**level - 1 + trial.dice.randrange(2**level))
        disk.start_host()
        end = end_of(disk.start("check"))
        lost = 2 ** (levels - level) - 1
        report = f"tree 0: {records} records, {lost} lost\n" + "".join(lost_line(level, below) for below in range(level, levels))
        line = f"the host at {disk.host_address()} has lost {lost} of {records} records of the disk: oramdisk export --salvage writes the rest"
        holds = (end.status, end.out.decode()) == (RECORDS_LOST, report) and line.encode() in end.err
        trial.check(f"a changed record at level {level}: check", holds, (end, report))
        end = end_of(start_export(disk, "levels.img"))
        left = [path.name for path in trial.folder.glob("levels.img*")]
        trial.check(f"a changed record at level {level}: export", end.status == RECORDS_LOST and line.encode() in end.err and not left, (end, left))
        disk.host.stop()
        disk.put_host_files(before)


def try_near_readings(trial):
    """However many levels its client keeps itself, a disk is whole just after it was formatted, and when it was written in part. A host
    that hides what was stored has lost it, also if its client makes the records of the formatting in place of those."""
    for levels, near in ((0, 0), (2, 60_000), (4, 1 << 20)):
        name = f"near-{levels}"
        what, array = f"a disk with {levels} near levels", DiskArray()
        disk = Disk(trial, name, near=near).formatted()
        check_whole(trial, f"{what}, just formatted: check", disk, 1)
        check_export(trial, f"{what}, just formatted: export", disk, array, f"{name}-new.img")
        client = disk.serve().client()
        for number in range(0, 20, 4):
            write_block(trial, client, array, number)
        client.close()
        disk.stop(signal.SIGKILL)
        check_whole(trial, f"{what}, written in part: check", disk, 1)
        check_export(trial, f"{what}, written in part: export", disk, array, f"{name}.img")
        disk.settle_host()
        stored = {node for tree, node in BucketFile(disk.host.path()).records() if tree == 0}
        far = min(stored, default=0) >= 2**levels - 1
        trial.check(f"{what}: the host has records, and none of the near nodes", len(stored) > 0 and far, stored)
        disk.host.stop()
        before = disk.host_files()
        for node in stored:
            hide_record(BucketFile(disk.host.path()), node)
        disk.start_host()
        end = end_of(disk.start("check"))
        trial.check(f"{what}: a host that hides what was stored", end.status == RECORDS_LOST and b" missing" not in end.out, end)
        disk.host.stop()
        disk.put_host_files(before)
        disk.start_host()
        check_whole(trial, f"{what}: with these records again", disk, 1)
        check_and_end(trial, f"{what}: it goes on", disk, array)


def lost_line(level, below):
    """What a check prints of a level of a tree that has one changed record at `level`."""
    sound = 2**below - 2 ** (below - level)
    if below == level:
        return f"  level {below}: {sound} sound, 1 changed\n"
    return f"  level {below}: {sound} sound, {2 ** (below - level)} below one of these, which can't be checked\n"


def try_salvage(trial):
    """Of a disk whose host has lost records, an export saves all other blocks: each block is what was written, or zeros. A disk that has
    failed is saved in the same way, and the host's own records make it whole again."""
    disk, array = used_disk(trial, "salvage")
    check_whole(trial, "salvage: it is whole at first", disk, 1)
    disk.settle_host()
    disk.host.stop()
    before = disk.host_files()
    sound = end_image(trial, disk, "sound.img", 0)
    levels = levels_of(disk)
    lost_blocks = 0
    for turn in range(6):
        buckets = BucketFile(disk.host.path())
        for _ in range(trial.dice.randrange(1, 4)):
            lose_record(trial, buckets, trial.dice.randrange(1, 2**levels - 1))
        image = end_image(trial, disk, f"salvaged{turn}.img", None, "--salvage")
        blocks = [(image[at : at + BLOCK], sound[at : at + BLOCK]) for at in range(0, SMALL, BLOCK)]
        trial.check(f"salvage {turn}: each block is there, or zeros", all(one in (other, bytes(BLOCK)) for one, other in blocks))
        lost_blocks += sum(one != other for one, other in blocks)
        disk.put_host_files(before)
    trial.check("salvage: some blocks were lost", lost_blocks > 0)
    check_salvage(trial, disk)
    disk.put_host_files(before)
    changed = tamper(disk.host.path())
    fail_whole(trial, disk)
    end_image(trial, disk, "failed.img", RECORDS_LOST, "--salvage")
    mend(disk.host.path(), changed)
    trial.check("salvage: the image of a failed disk over its own records", end_image(trial, disk, "again.img", 0) == sound)
    disk.start_host()
    trial.check("salvage: retry", end_of(disk.start("retry")).status == 0)
    check_and_end(trial, "salvage: it goes on", disk, array)


def check_salvage(trial, disk):
    """A check says how many blocks an export would save if the host has lost records, and only then. It has lost every other leaf's, more
    than the STOREs that wait put right."""
    levels = levels_of(disk)
    for lost in (False, True):
        if lost:
            buckets = BucketFile(disk.host.path())
            for node in range(2 ** (levels - 1), 2**levels - 1, 2):
                lose_record(trial, buckets, node)
        disk.start_host()
        end = end_of(disk.start("check", "--salvage"))
        told = re.search(rb"^an export would save [1-9]\d* blocks that were written; all others are zeros, or lost\n\Z", end.out, re.M)
        trial.check(f"check --salvage, lost: {lost}", (end.status == RECORDS_LOST, told is not None) == (lost, lost), end)
        trial.check(f"check --salvage, lost: {lost}: it exports nothing", b"checking: 100 %" in end.err and b"exporting" not in end.err, end)
        disk.host.stop()


def lose_record(trial, buckets, node):
    """Changes a node's record, or takes it away."""
    if trial.dice.random() < 0.5:
        buckets.flip(0, node)
        return
    hide_record(buckets, node)


def hide_record(buckets, node):
    """Takes a node's record away."""
    _, record_len, base = buckets.trees()[0]
    with open(buckets.file, "r+b") as file:
        file.seek(base + node * buckets.cell_len(record_len))
        file.write(b"\0")


def fail_whole(trial, disk):
    """The disk is served over changed records, and fails."""
    disk.start_host()
    client = disk.serve().client()
    if client:
        for number in range(SMALL // BLOCK):
            client.ask(READ, number * BLOCK, BLOCK)
        client.close()
    disk.stop(signal.SIGKILL)
    disk.host.stop()
    trial.check("salvage: it has failed", (disk.folder / "disk.state.failed").exists())


def end_image(trial, disk, image, status, *flags):
    """Starts the host, exports the disk and ends the host. The export ends with this status, or with one of loss. Returns the image."""
    disk.start_host()
    end = end_of(start_export(disk, image, *flags))
    wanted = (0, RECORDS_LOST) if status is None else (status,)
    path = trial.folder / image
    trial.check(f"{image}: export", end.status in wanted and path.exists() and path.stat().st_size == SMALL, end)
    is_told = b"what was in them reads as zeros in the image\n" in end.err
    trial.check(f"{image}: the last line", is_told == (end.status == RECORDS_LOST), end)
    disk.host.stop()
    return path.read_bytes() if path.exists() else b""


def try_waiting_stash(trial, most=100):
    """Blocks that lie in the stash, and writes that wait in the state, are in the image. With one slot a bucket, a block comes to lie in
    the stash after a few writes."""
    disk, array = Disk(trial, "stash", table=TABLES[1], slots=1, sync=False).formatted(), DiskArray()
    client = disk.serve().client()
    stash = 0
    for _ in range(most):
        write_block(trial, client, array, trial.dice.randrange(SMALL // BLOCK))
        stash = json.loads(end_of(disk.start("status", "--json")).out)["stash"]
        if stash:
            break
    client.close()
    disk.stop(signal.SIGKILL)
    trial.check("a block came to lie in the stash", stash > 0)
    check_export(trial, f"a disk with {stash} blocks in its stash", disk, array, "stash.img")
    check_whole(trial, "stash: check", disk, 1)
    check_and_end(trial, "stash: it goes on", disk, array)


def try_broken_readings(trial):
    """An export goes on after its connection is cut, at each of its messages; if the host doesn't come back it ends, and leaves nothing."""
    disk, array = used_disk(trial, "cut-readings", reconnect_timeout=20)
    disk.relay.messages = 0
    check_export(trial, "an export", disk, array, "uncut.img")
    for at in range(disk.relay.messages):
        for answer in (False, True):
            disk.relay.cut(at, answer)
            check_export(trial, f"an export that was cut at message {at}", disk, array, f"cut{at}{answer}.img")
    disk.set(reconnect_timeout=1)
    disk.host.stop()
    line = f"oramdisk: can't reach the host at {disk.host_address()}: see that it runs there"
    for command, more in (("check", []), ("export", ["lost.img"])):
        end = end_of(trial.start(command, "cut-readings/disk.toml", *more))
        trial.check(f"{command} without a host", end.status == OUT_OF_REACH and line.encode() in end.err, end)
    trial.check("an export without a host leaves nothing", not list(trial.folder.glob("lost.img*")))


def try_lying_records(trial):
    """A host that answers the question for records in another way than a host does ends the reading with a line of its own; one that gives
    other records is found out. Another disk's host is told as that."""
    disk, array = used_disk(trial, "lies")
    check_export(trial, "before all lies", disk, array, "truth.img")
    answers = {"refuses": refused(7), "gives nothing": b"\x80", "gives too much": b"\x80" + bytes(100), "gives no rows": b"\x80" + b"\2" * 31}
    line = f"oramdisk: the host at {disk.host_address()} gave an answer that no host of this version gives: have it run the same version of oramdisk"
    for what, answer in answers.items():
        disk.relay.instead = lambda body, answer=answer: answer if is_a(RECORDS, body) else None
        for command, more in (("check", []), ("export", ["lies.img"]), ("export", ["--salvage", "lies.img"])):
            end = end_of(trial.start(command, "lies/disk.toml", *more))
            holds = end.status == OTHER_ANSWER and end.err.decode().endswith(f"{line}\n") and not list(trial.folder.glob("lies.img*"))
            trial.check(f"a host that {what}: {' '.join([command, *more])}", holds, end)
    disk.relay.instead = lambda body: b"\x80" + bytes(struct.unpack(">I", body[7:])[0]) if is_a(RECORDS, body) else None
    end = end_of(disk.start("check"))
    trial.check("a host that has no records: check", (end.status, b"31 lost" in end.out) == (RECORDS_LOST, True), end)
    image = trial.folder / "nothing.img"
    end = end_of(start_export(disk, "nothing.img", "--salvage"))
    trial.check("a host that has no records: salvage", end.status == RECORDS_LOST and image.stat().st_size == SMALL, end)
    disk.relay.instead = lambda body: None
    other = Disk(trial, "another").formatted()
    own = disk.relay.host, disk.relay.host_port
    disk.relay.lead_to(other.host.process, other.host.port)
    end = end_of(disk.start("check"))
    trial.check("another disk's host: check", end.status == OTHER_DISK, end)
    disk.relay.lead_to(*own)
    check_and_end(trial, "it goes on after all lies", disk, array)
    other.host.stop()


def try_seen_messages(trial):
    """What a host sees of a reading is the same list of messages for all disks of one size, whatever is in them and how they were used."""
    seen = []
    for name in ("seen1", "seen2"):
        disk, _ = used_disk(trial, name)
        end_of(disk.start("check"))
        bodies = []
        disk.relay.instead = lambda body, bodies=bodies: bodies.append(body) if is_a(RECORDS, body) else None
        for command, more in (("check", []), ("export", [f"{name}.img"])):
            trial.check(f"{name}: {command}", end_of(trial.start(command, f"{name}/disk.toml", *more)).status == 0)
        seen.append(bodies)
        disk.host.stop()
    trial.check("what two hosts have seen", seen[0] == seen[1] and len(seen[0]) > 1, [len(bodies) for bodies in seen])


def try_killed_readings(trial, kills=12):
    """A check or an export that is killed harms nothing, and leaves no image under its name."""
    disk, array = used_disk(trial, "killed")
    for number in range(kills):
        at = trial.dice.randrange(6)
        # The relay holds the reading up at this message, so it is killed there.
        disk.relay.messages = 0
        process = []
        disk.relay.instead = lambda body: process[0].send_signal(signal.SIGKILL) if process and disk.relay.messages > at else None
        process.append(start_export(disk, f"killed{number}.img") if number % 2 else disk.start("check"))
        end_of(process[0])
        killed = trial.folder / f"killed{number}.img"
        trial.check(f"an export that was killed at message {at}", process[0].returncode == 0 or not killed.exists(), process[0].returncode)
    disk.relay.instead = lambda body: None
    check_export(trial, "an export after those that were killed", disk, array, "whole-again.img")
    check_and_end(trial, "it goes on after those", disk, array)


def try_full_image(trial):
    """An image for which there is no room ends the export with a line that says so, and leaves nothing. So does a folder that isn't there."""
    disk, array = used_disk(trial, "fullimage")
    end = end_of(start_export(disk, "nowhere/a.img"))
    trial.check("an image in no folder", (end.status, end.err.count(b"\n")) == (BAD_FILE, 1), end)
    folder = trial.folder / "small"
    if os.geteuid() != 0 or shutil.which("mount") is None or not mount_disk(folder, "64k"):
        trial.skip()
    else:
        try:
            end = end_of(start_export(disk, "small/a.img"))
            line = b"oramdisk: small/a.img.unfinished: the disk is full: make room on it\n"
            trial.check("a full disk", end.status == BAD_FILE and end.err.endswith(line), end)
            trial.check("a full disk keeps no part of the image", not list(folder.iterdir()), list(folder.iterdir()))
        finally:
            subprocess.run(["umount", "-l", str(folder)], check=True)
    check_export(trial, "an image where there is room", disk, array, "roomy.img")
    disk.host.stop()
