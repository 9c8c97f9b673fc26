"""A host whose disk is full for a while."""

import os
import shutil
import subprocess

from trials.bucket_host import Host, check_answers
from trials.bucket_messages import NO_ROOM, Model, fetch, refused, shape, store
from trials.host.kills import format_tree, random_store


def mount_disk(folder, size):
    """Mounts a disk of this size at a new folder. Returns whether that worked."""
    folder.mkdir()
    words = ["mount", "-t", "tmpfs", "-o", f"size={size}", "tmpfs", str(folder)]
    return subprocess.run(words, stderr=subprocess.DEVNULL).returncode == 0


def try_full_disk(trial, depth=3, record_len=8000):
    """On a full disk a request that needs room is refused, and nothing is lost; one that needs none is done. Once there is room the same
    process goes on. It prints a line when its disk is full, and one when it isn't any more."""
    folder = trial.folder / "full"
    if os.geteuid() != 0 or shutil.which("mount") is None or not mount_disk(folder, "6m"):
        trial.skip()
        return
    try:
        host, model = Host(trial.oramdisk, folder), Model()
        host.start()
        format_tree(trial, host, model, depth, record_len)
        body = fill_disk(trial, host, model, depth, record_len)
        make_room(trial, host, model, body)
    finally:
        # After an exception the host may still run, with its file in this folder: so the unmounting is a lazy one.
        subprocess.run(["umount", "-l", str(folder)], check=True)


def fill_disk(trial, host, model, depth, record_len):
    """Fills the disk, and stores paths whose records are there, and one in a tree that has none. Returns that one, which was refused."""
    client = host.client()
    another = shape(1, depth, record_len)
    check_answers(trial, "another tree", client, model, [another])
    # Another file takes up the room that is left, except for a little.
    room = os.statvfs(host.folder)
    (host.folder / "filler").write_bytes(bytes(max(room.f_bavail * room.f_frsize - 20_000, 0)))
    # The log has room for some of these, and begins again when it can't grow.
    check_answers(trial, "STOREs on a full disk", client, model, [random_store(trial.dice, depth, record_len) for _ in range(200)])
    body = store(1, 0, [trial.dice.randbytes(record_len) for _ in range(depth + 1)])
    trial.check("new records on a full disk", client.ask(body) == refused(NO_ROOM))
    trial.check("and once more", client.ask(body) == refused(NO_ROOM))
    full = f"oramdisk: {host.file} has no room: make room on its disk"
    trial.check("one line says so at once", host.lines().count(full) == 1, host.lines())
    check_answers(trial, "every path on a full disk", client, model, [fetch(0, leaf) for leaf in range(2**depth)])
    client.close()
    line = host.connection_line(client.port)
    trial.check("the line of that connection", line and line[3] == ", the disk was full", line)
    return body


def make_room(trial, host, model, body):
    """The STORE that was refused is done once there is room, and what is there outlasts the process."""
    again = f"oramdisk: {host.file} has room again"
    trial.check("no line for room before there is some", again not in host.lines(), host.lines())
    (host.folder / "filler").unlink()
    client = host.client()
    check_answers(trial, "once there is room", client, model, [body] + model.all_fetches())
    trial.check("a line for that", host.lines().count(again) == 1, host.lines())
    client.close()
    line = host.connection_line(client.port)
    trial.check("its line", line and line[3] == "", line)
    host.stop()
    host.start()
    client = host.client()
    check_answers(trial, "started again after a full disk", client, model, model.all_fetches())
    client.close()
    host.stop()
