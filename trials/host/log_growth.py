"""How long a host's log gets: it grows by zeros ahead of what is written."""

import os
import shutil
import signal
import subprocess

from trials.bucket_file import BucketFile, log_of
from trials.bucket_host import Host, check_answers
from trials.bucket_messages import Model
from trials.host.full_disk import mount_disk
from trials.host.kills import format_tree, random_store

# Where the log's entries end at the latest.
LOG_END = 1 << 26


def try_growth_without_room(trial, depth=3, record_len=8000, left=300_000):
    """There is room for an entry of the log, but not for the zeros that it grows by. Then those are cut off again, and no more than those: the
    entry is written, the log ends behind it, and a process that is killed then has lost nothing."""
    folder = trial.folder / "growth"
    if os.geteuid() != 0 or shutil.which("mount") is None or not mount_disk(folder, "6m"):
        trial.skip()
        return
    try:
        host, model = Host(trial.oramdisk, folder).start(), Model()
        format_tree(trial, host, model, depth, record_len)
        client, log = host.client(), log_of(host.path())
        check_answers(trial, "the paths before the disk is full", client, model, [random_store(trial.dice, depth, record_len)] + model.all_fetches())
        room = os.statvfs(folder)
        filler = folder / "filler"
        filler.write_bytes(bytes(room.f_bavail * room.f_frsize - left))
        grown = store_until_grown(trial, client, model, log, lambda: random_store(trial.dice, depth, record_len))
        entries, end = BucketFile(host.path()).entries()
        trial.check("the log ends behind its last entry", grown and entries and log.stat().st_size == end + 1, (grown, end, log.stat().st_size))
        host.stop(signal.SIGKILL)
        client.close()
        filler.unlink()
        client = host.start().client()
        check_answers(trial, "after a growth without room, and a kill", client, model, model.all_fetches())
        client.close()
        host.stop()
    finally:
        # After an exception the host may still run, with its file in this folder: so the unmounting is a lazy one.
        subprocess.run(["umount", "-l", str(folder)], check=True)


def store_until_grown(trial, client, model, log, new_store, most=40):
    """Stores paths until the log has got longer. Returns whether it has."""
    before = log.stat().st_size
    for _ in range(most):
        check_answers(trial, "a STORE while there is little room", client, model, [new_store()])
        if log.stat().st_size != before:
            return log.stat().st_size > before
    return False


def try_longest_log(trial, depth=3, record_len=250_000, count=80):
    """However much is stored over one connection, the log gets no longer than its place."""
    host, model = trial.host("longest-log").start(), Model()
    format_tree(trial, host, model, depth, record_len)
    client, log, longest = host.client(), log_of(host.path()), 0
    for _ in range(count):
        check_answers(trial, "a STORE into a long log", client, model, [random_store(trial.dice, depth, record_len)])
        longest = max(longest, log.stat().st_size)
    trial.check("the log was nearly as long as it may be", LOG_END - (4 << 20) < longest <= LOG_END, longest)
    check_answers(trial, "after a long log", client, model, model.all_fetches())
    client.close()
    host.stop()
