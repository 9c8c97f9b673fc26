"""A host whose file is older than what its disk knows, or whose stamps are forged; and a process that slept while another one went on."""

import copy
import shutil
import signal

from trials.bucket_file import BucketFile
from trials.bucket_messages import NO_ROOM, PUT, fetch, is_a, is_store, refused
from trials.disk import Disk
from trials.disk_array import DiskArray, check_and_end, check_disk, lose_write, make_requests, write_block
from trials.kept_files import KeptFiles
from trials.nbd.tampering import STAMP_TREE
from trials.statuses import NO_STAMPS, OLDER_HOST, REPLACED_STATE

OLDER = "shows an older file of this disk than it has shown before, and nothing was stored there: have it serve its newest file; nothing is lost here"
FORGED = "doesn't show what this disk has stored there, and nothing more was stored: have it serve the disk's own file, unchanged; nothing is lost here"
REPLACED = "is an older state of its disk, and nothing was stored by it: put the newest one back; if a loss of power with sync = false took that one, the disk is lost"


def used_disk(trial, name):
    """A disk that has been used, its array, and the files of its host from before it was used. Its host isn't running."""
    disk, array = Disk(trial, name, table=16).formatted(), DiskArray()
    disk.host.stop()
    before = disk.host_files()
    disk.start_host()
    client = disk.serve().client()
    make_requests(trial, client, array, 5)
    # A write makes an access, unlike some random requests.
    write_block(trial, client, array, 0)
    disk.end(client)
    return disk, array, before


def host_line(disk, says):
    return f"oramdisk: the host at {disk.host_address()} {says}"


def try_older_file(trial):
    """An older file of buckets that is put back is noticed before anything is stored. With the newest file the disk goes on."""
    disk, array, before = used_disk(trial, "older")
    newest, state = disk.host_files(), disk.kept.text()
    disk.put_host_files(before)
    disk.start_host()
    trial.ends("an older file: served over it", disk.start("serve"), OLDER_HOST, host_line(disk, OLDER))
    disk.host.stop()
    trial.check("an older file: the state is as it was", disk.kept.text() == state)
    disk.put_host_files(newest)
    disk.start_host()
    check_and_end(trial, "an older file: what it holds with the newest file", disk, array)


def try_older_file_meanwhile(trial):
    """An older file is put back while the disk is served, and is used for a while. Over the next connection the disk ends, and loses nothing."""
    disk, array, before = used_disk(trial, "meanwhile")
    disk.start_host()
    client = disk.serve().client()
    write_block(trial, client, array, 1)
    disk.host.stop()
    newest = disk.host_files()
    disk.put_host_files(before)
    disk.start_host()
    lose_write(trial, "an older file meanwhile: no reply", client, array)
    status = disk.wait()
    said = (status, disk.lines()[-1])
    trial.check("an older file meanwhile: how it ends", said == (OLDER_HOST, host_line(disk, OLDER)), said)
    disk.host.stop()
    disk.put_host_files(newest)
    disk.start_host()
    check_and_end(trial, "an older file meanwhile: what it holds with the newest file", disk, array)


def try_older_file_after_refusal(trial):
    """The host has no room for a STORE, and puts the stamps of its batch all the same. A copy of its file from then is put back after the batch
    was sent again and carried out: this is noticed too. With the newest file the disk goes on."""
    disk, array = Disk(trial, "refused", table=16).formatted(), DiskArray()
    client = disk.serve().client()
    write_block(trial, client, array, 0)
    before = copy_after_refusal(disk)
    # The STORE of a write goes to the host with the next write.
    trial.check("after a refusal: a reply", write_block(trial, client, array, 1))
    trial.check("after a refusal: a copy of the file", len(before) == 1, len(before))
    disk.host.stop()
    newest = disk.host_files()
    disk.put_host_files(before[0])
    disk.start_host()
    lose_write(trial, "after a refusal: no reply", client, array)
    status = disk.wait()
    said = (status, disk.lines()[-1])
    trial.check("after a refusal: how it ends", said == (OLDER_HOST, host_line(disk, OLDER)), said)
    trial.ends("after a refusal: served again", disk.start("serve"), OLDER_HOST, host_line(disk, OLDER))
    disk.host.stop()
    disk.put_host_files(newest)
    disk.start_host()
    check_and_end(trial, "after a refusal: what it holds with the newest file", disk, array)


def copy_after_refusal(disk):
    """From now on the host seems to have no room for STOREs, until a batch begins again. Just before, its files are copied into the list that is
    returned."""
    refusals, copies = [], []

    def instead(body):
        if copies:
            return None
        if is_store(body):
            refusals.append(body)
            return refused(NO_ROOM)
        if refusals and is_a(PUT, body) and body[1:6] == bytes([STAMP_TREE, 0, 0, 0, 0]):
            copies.append(disk.host_files())
        return None

    disk.relay.instead = instead
    return copies


def try_forged_stamps(trial):
    """Stamps that the host has changed, or has put in each other's place, are noticed before anything is stored. So are older ones."""
    disk, array, before = used_disk(trial, "forged")
    newest = disk.host_files()
    disk.put_host_files(before)
    older = stamps_of(disk)
    disk.put_host_files(newest)
    own = stamps_of(disk)
    disk.start_host()
    number = own[:1] + own[1:9][:-1] + bytes([own[8] ^ 1]) + own[9:]
    for what, answer, status, says in (
        ("another number", number, NO_STAMPS, FORGED),
        ("another tag", own[:-1] + bytes([own[-1] ^ 128]), NO_STAMPS, FORGED),
        ("each at the other's place", own[:1] + own[49:] + own[1:49], NO_STAMPS, FORGED),
        ("one of them missing", own[:49], NO_STAMPS, FORGED),
        ("no such tree", b"\x81\x01", NO_STAMPS, FORGED),
        ("older ones", older, OLDER_HOST, OLDER),
    ):
        disk.relay.instead = lambda body, answer=answer: answer if body == fetch(STAMP_TREE, 0) else None
        disk.relay.messages = 0
        trial.ends(f"forged stamps, {what}", disk.start("serve"), status, host_line(disk, says))
        trial.check(f"forged stamps, {what}: two messages", disk.relay.messages == 2, disk.relay.messages)
    disk.relay.instead = lambda body: None
    check_and_end(trial, "forged stamps: what it holds afterwards", disk, array)


def stamps_of(disk):
    """The answer in which a host shows its stamps, given its files."""
    buckets = BucketFile(disk.host.path())
    buckets.replay()
    records = buckets.records()
    return b"\x80" + records[STAMP_TREE, 0] + records[STAMP_TREE, 1]


def copied(trial, disk, name):
    """A copy of a disk with its state, which reaches the same host by a way of its own."""
    other = copy.copy(disk)
    other.name, other.folder = name, trial.folder / name
    other.folder.mkdir()
    for file in (disk.settings_file, disk.kept.state, disk.kept.log):
        shutil.copy(file, other.folder / file.name)
    other.state_file, other.settings_file = other.folder / "disk.state", other.folder / "disk.toml"
    other.kept = KeptFiles(other.state_file)
    other.set(host=f"127.0.0.1:{disk.host.port}")
    return other


def try_slept(trial):
    """A process sleeps while another one goes on from a copy of its state. When it wakes up it ends, and nothing is lost of what the other one
    stored, which goes on."""
    disk, array, _ = used_disk(trial, "slept")
    disk.start_host()
    client = disk.serve().client()
    write_block(trial, client, array, 1)
    disk.process.send_signal(signal.SIGSTOP)
    other = copied(trial, disk, "awake")
    beside = other.serve().client()
    check_disk(trial, "slept: what the copy holds", beside, array)
    for number in (2, 1, 0):
        write_block(trial, beside, array, number)
    disk.process.send_signal(signal.SIGCONT)
    lost = DiskArray()
    lose_write(trial, "slept: no reply after it", client, lost)
    status = disk.wait()
    said = (status, disk.lines()[-1])
    trial.check("slept: how it ends", said == (REPLACED_STATE, f"oramdisk: disk.state {REPLACED}"), said)
    write_block(trial, beside, array, 3)
    beside.close()
    other.stop()
    client = other.serve().client()
    check_disk(trial, "slept: what the copy holds afterwards", client, array)
    other.end(client)
