"""A host that has no room on its disk."""

import time

from trials.bucket_messages import NO_ROOM, is_store, refused
from trials.disk import Disk
from trials.disk_array import DiskArray, check_and_end, lose_write, write_block
from trials.statuses import HOST_FULL


def refuse_for_room(relay, refuses=is_store):
    """From now on the host seems to have no room for messages of which this is true: STOREs, if nothing else is said."""
    relay.instead = lambda body: refused(NO_ROOM) if refuses(body) else None


def no_room(disk):
    """The line by which a program ends whose host has no room."""
    return f"oramdisk: the host at {disk.host_address()} has no room: make room on its disk, and start again"


def try_no_room(trial):
    """The disk waits for a host without room, and says so. If there is no room until the reconnect timeout, the service ends, with
    everything kept."""
    disk = Disk(trial, "roomless", table=16, reconnect_timeout=60).formatted()
    array = DiskArray()
    wait_for_room(trial, disk, array)
    disk.set(reconnect_timeout=2)
    client = disk.serve().client()
    full, again = f"oramdisk: the host at {disk.host_address()} has no room", f"oramdisk: the host at {disk.host_address()} answers again"
    trial.check("no room for a while: its log", disk.lines().count(full) == 1 and again in disk.lines(), disk.lines())
    refuse_for_room(disk.relay)
    begun = time.monotonic()
    lose_write(trial, "no room: no reply", client, array)
    status = disk.wait()
    took = time.monotonic() - begun
    trial.check("no room: how it ends", (status, disk.lines()[-1]) == (HOST_FULL, no_room(disk)), (status, disk.lines()[-1]))
    trial.check("no room: its timeout", 2 <= took < 20, took)
    disk.relay.instead = lambda body: None
    check_and_end(trial, "no room: what it holds once there is", disk, array)


def wait_for_room(trial, disk, array):
    """The host refuses six STOREs for want of room, and then no more: each write has its reply."""
    client = disk.serve().client()
    refusals = []
    disk.relay.instead = lambda body: refusals.append(body) or refused(NO_ROOM) if is_store(body) and len(refusals) < 6 else None
    for number in range(5):
        trial.check("no room for a while: a reply", write_block(trial, client, array, number))
    trial.check("no room for a while: it was refused more often than a message is sent otherwise", len(refusals) == 6, len(refusals))
    client.close()
    disk.stop()
