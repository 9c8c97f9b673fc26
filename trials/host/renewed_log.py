"""The copy that takes a log's place whenever a host opens its files."""

import os
import re
import signal
import tempfile
from pathlib import Path

from trials import strace
from trials.bucket_file import BucketFile, log_of
from trials.bucket_host import check_answers
from trials.host.kills import kill_children, random_store
from trials.host.rot import DEPTH, RECORD_LEN, killed_host
from trials.statuses import BAD_FILE

# The calls on a copy that may fail, with their errors, so that the host goes on with the log as it is.
FAILURES_WITHOUT_COPY = [
    ("openat", "EACCES"),
    ("openat", "EROFS"),
    ("openat", "ENOSPC"),
    ("pwrite64", "EDQUOT"),
    ("pwrite64", "ENOSPC"),
    ("fsync", "ENOSPC"),
    ("rename", "EPERM"),
    ("rename", "ENOSPC"),
]

# The calls that fail with an error of the disk, so that the host ends: each with the file that it is about, the copy or its folder.
FAILURES_OF_THE_DISK = [("openat", "copy"), ("pwrite64", "copy"), ("fsync", "copy"), ("rename", "copy"), ("fsync", "folder")]


def try_renewed_log(trial):
    """A copy of the log takes its place at each start, on the disk before anything else is written. Where no copy can be made, the host goes
    on with the log that it has."""
    host, model = killed_host(trial, "renewed")
    log = log_of(host.path())
    log.chmod(0o640)
    try_order_of_calls(trial, host, model, log)
    try_leftovers(trial, host, model, log)
    try_without_copy(trial, host, model, log)
    try_disk_failures(trial, host, model, log)
    try_failing_reads(trial, host, model, log)
    try_cut_copy(trial, host, model, log)


def try_start(trial, what, host, model, under=()):
    """A host starts, has all its records, and ends, and leaves no copy behind."""
    host.start(under)
    client = host.client()
    check_answers(trial, f"{what}: what the host has", client, model, model.all_fetches())
    client.close()
    if under:
        kill_children(host.process)
        host.wait()
    else:
        host.stop()
    trial.check(f"{what}: no copy is left", not list(host.folder.glob("*.unfinished")))


def try_order_of_calls(trial, host, model, log):
    """The copy is synced, gets the log's name, and the folder is synced, and only then is anything else written."""
    before, had = log.stat(), BucketFile(host.path()).entries()
    trial.check("a log with entries", had[0])
    if not strace.is_usable():
        trial.skip()
        return
    with tempfile.NamedTemporaryFile() as found:
        try_start(trial, "a log with entries", host, model, strace.noting(strace.CHANGES_AND_SENDS, found.name))
        text = Path(found.name).read_text()
    copy = re.escape(f"{log.resolve()}.unfinished")
    folder = re.escape(str(log.parent.resolve()))
    wanted = [rf"pwrite64\(\d+<{copy}>", rf"sync\(\d+<{copy}>", rf'rename\w*\(.*"{copy}"', rf"sync\(\d+<{folder}>"]
    done = [line for line in text.splitlines() if re.search(r"pwrite64|sync\(|rename", line)]
    steps = [next((number for number, wants in enumerate(wanted) if re.search(wants, line)), len(wanted)) for line in done]
    holds = steps == sorted(steps) and set(steps) >= set(range(len(wanted)))
    trial.check("the copy is written, synced and renamed, and the folder is synced, before any other write", holds, steps[:40])
    after = log.stat()
    trial.check("the log is another file", after.st_ino != before.st_ino, after)
    trial.check("with the same mode and owner", (after.st_mode, after.st_uid, after.st_gid) == (before.st_mode, before.st_uid, before.st_gid), after)


def try_leftovers(trial, host, model, log):
    """A copy of a start that was killed is replaced; so is a link, and what it leads to stays. The log may be a link itself."""
    copy, other = log.with_name(f"{log.name}.unfinished"), log.with_name("other")
    other.write_bytes(b"other")
    copy.write_bytes(b"half a copy")
    try_start(trial, "beside a half-made copy", host, model)
    copy.symlink_to(other.name)
    try_start(trial, "beside a link", host, model)
    trial.check("what the link leads to has its bytes", other.read_bytes() == b"other" and not other.is_symlink())
    folder = log.parent / "elsewhere"
    folder.mkdir()
    log.rename(folder / "its-log")
    log.symlink_to("elsewhere/its-log")
    before = (folder / "its-log").stat().st_ino
    try_start(trial, "with a link to its log", host, model)
    trial.check("the link stays, and leads to the copy", log.is_symlink() and (folder / "its-log").stat().st_ino != before)
    trial.check("nothing else is there", [it.name for it in folder.iterdir()] == ["its-log"])
    log.unlink()
    (folder / "its-log").rename(log)


def try_without_copy(trial, host, model, log):
    """There is no room for a copy, or the system doesn't allow it, at any of its calls."""
    if not strace.is_usable():
        trial.skip()
        return
    copy = log.resolve().with_name(f"{log.name}.unfinished")
    for call, error in FAILURES_WITHOUT_COPY:
        before = log.stat().st_ino
        try_start(trial, f"{call} of the copy fails with {error}", host, model, strace.failing_on(copy, call, error, 1))
        trial.check(f"{call} of the copy fails with {error}: the log is the one that it was", log.stat().st_ino == before)


def try_disk_failures(trial, host, model, log):
    """The disk fails while a copy takes the log's place: the host ends, and once it is started again it has everything."""
    if not strace.is_usable():
        trial.skip()
        return
    files = {"copy": log.resolve().with_name(f"{log.name}.unfinished"), "folder": log.resolve().parent}
    for call, name in FAILURES_OF_THE_DISK:
        host.start(strace.failing_on(files[name], call, "EIO", 1))
        host.wait()
        trial.check(f"{call} of the {name} fails: the host ends", host.process.returncode == BAD_FILE, host.process.returncode)
        try_start(trial, f"after {call} of the {name} failed", host, model)


def leave_entries(trial, host, model, log):
    """Leaves a log with entries, and nothing behind them."""
    client = host.start().client()
    check_answers(trial, "STOREs before a kill", client, model, [random_store(trial.dice, DEPTH, RECORD_LEN) for _ in range(3)])
    host.stop(signal.SIGKILL)
    client.close()
    found, end = BucketFile(host.path()).entries()
    trial.check("the log has entries", len(found) == 3 * (DEPTH + 1), found)
    os.truncate(log, end + 1)
    return end


def try_failing_reads(trial, host, model, log):
    """A read of the log fails while it is copied: the host ends, and both files are as they were."""
    if not strace.is_usable():
        trial.skip()
        return
    leave_entries(trial, host, model, log)
    files = {file: file.read_bytes() for file in (host.path(), log)}
    with tempfile.NamedTemporaryFile() as found:
        try_start(trial, "before reads of the log fail", host, model, strace.noting("pread64,rename", found.name))
        before_renaming = Path(found.name).read_text().partition(" rename(")[0]
    reads = len(re.findall(rf"pread64\(\d+<{re.escape(str(log.resolve()))}>", before_renaming))
    trial.check("reads of the log before its copy has its name", reads > 2, reads)
    for number in range(1, reads + 1):
        for file, data in files.items():
            file.write_bytes(data)
        host.start(strace.failing_on(log.resolve(), "pread64", "EIO", number))
        host.wait()
        end = (host.process.returncode, all(file.read_bytes() == data for file, data in files.items()))
        trial.check(f"read {number} of the log fails: the host ends, and the files are as they were", end == (BAD_FILE, True), end)
    try_start(trial, "after reads of the log that failed", host, model)


def try_cut_copy(trial, host, model, log):
    """The system takes only a part of the copy, since the host may make no file that long, and then ends the host: the log keeps its
    entries."""
    end = leave_entries(trial, host, model, log)
    kept = log.read_bytes()
    host.start(["prlimit", f"--fsize={end // 2}:unlimited"])
    host.wait()
    trial.check("a copy that is cut short: the log is as it was", log.read_bytes() == kept)
    try_start(trial, "after a copy that was cut short", host, model)
