"""Clients that say nothing or read nothing, and would keep others out."""

import re
import struct
import threading

from trials.bucket_host import TIME
from trials.disk import SMALL, Disk
from trials.disk_array import DiskArray, ask_at_random, check_disk
from trials.nbd_client import READ, head_of
from trials.processes import LONGEST_WAIT


def check_line(trial, what, disk, pattern):
    """The disk has printed a line of this form."""
    trial.check(what, any(re.fullmatch(pattern, line) for line in disk.lines()), disk.lines()[-3:])


def check_that_others_are_turned_away(trial, what, disk):
    """A client that comes while another one has the disk learns this at once: its connection is closed, and there is a line."""
    other = disk.connect()
    port = other.stream.getsockname()[1]
    try:
        found = other.stream.recv(1)
    except OSError:
        found = b""
    other.stream.close()
    trial.check(f"{what}: it is turned away", found == b"", found)
    check_line(trial, f"{what}: its line", disk, rf"oramdisk: 127\.0\.0\.1:{port} at {TIME}, turned away: the disk has a client")


def try_silent(trial):
    """A client that makes no handshake is disconnected after ten seconds; one that has made it may be idle. Others are turned away
    meanwhile. One that leaves its replies unread is disconnected after a minute."""
    disk = Disk(trial, "silent", sync=False).formatted()
    array = DiskArray()
    disk.serve()
    try_without_handshake(trial, disk, array, "no handshake", b"", idle_seconds=12)
    try_without_handshake(trial, disk, array, "half a handshake", struct.pack(">I", 3) + b"IHAVEOPT", idle_seconds=0)
    # A client that asks for more than the buffers between the two hold, and then goes.
    ask_for_all(disk.client(), 40).stream.close()
    client = disk.client()
    check_disk(trial, "after a client that left its replies unread", client, array)
    client.close()
    # One that asks for as much, reads nothing, and stays.
    unread = ask_for_all(disk.client(), 60)
    line = "oramdisk: .*, it left a reply unread for a minute"
    waited = threading.Event()
    for _ in range(3 * LONGEST_WAIT):
        if waited.wait(1) or any(re.fullmatch(line, printed) for printed in disk.lines()):
            break
    check_line(trial, "a client that reads nothing is let go", disk, line)
    client = disk.client()
    check_disk(trial, "after a client that read nothing", client, array)
    client.close()
    unread.stream.close()
    disk.stop()
    disk.host.stop()


def try_without_handshake(trial, disk, array, what, said, idle_seconds):
    """A client that says no more than this keeps others out for ten seconds. The next client has the disk, although it is then
    idle."""
    silent = disk.connect()
    silent.give(said)
    silent.take(18)
    check_that_others_are_turned_away(trial, what, disk)
    trial.check(f"{what}: it is let go", silent.take(1) is None)
    client = disk.client()
    trial.check(f"{what}: the next has the disk", client is not None and ask_at_random(trial, client, array))
    check_line(trial, f"{what}: its line", disk, rf"oramdisk: \S+ from {TIME} until {TIME}, it made no handshake within ten seconds")
    check_that_others_are_turned_away(trial, f"beside a client, {what}", disk)
    # A client after its handshake may be idle for longer than that.
    threading.Event().wait(idle_seconds)
    trial.check(f"{what}: an idle client", ask_at_random(trial, client, array))
    client.close()


def ask_for_all(client, times):
    """A client asks for the whole disk this many times, and reads no reply."""
    for cookie in range(times):
        client.give(head_of(cookie, READ, 0, SMALL))
    return client
