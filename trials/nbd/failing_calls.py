"""System calls of the client that fail while it opens the two files of its state, and while it keeps its state in them."""

import copy
import dataclasses
import re
import tempfile
from pathlib import Path

from trials import strace
from trials.bucket_file import BucketFile
from trials.disk import SMALL, Disk
from trials.disk_array import DiskArray, Request, check_and_end, write_block
from trials.host.kills import kill_children
from trials.kept_files import LONG_LOG
from trials.nbd_client import WRITE
from trials.statuses import BAD_FILE, CANNOT_KEEP

CALLS = ("openat", "pread64", "pwrite64", "fsync", "fdatasync", "rename")
# How many blocks are written while calls fail.
MOST_WRITES = 3
# Why a state isn't kept: in the system's words, and for want of room before any of it counts.
REASONS = {"EIO": "Input/output error (os error 5)", "ENOSPC": "No space left on device (os error 28)"}
NO_ROOM = "the disk is full"
# How an opening ends that fails.
NOT_OPENED = [
    "oramdisk: can't open, read or write disk.state: see that it is there and may be written, and that its disk has room",
    "oramdisk: disk.state: the disk is full: make room on it",
]


@dataclasses.dataclass(frozen=True)
class Step:
    """A call that a client makes: what it does to which file, and its number among the calls of this name."""

    call: str
    number: int
    file: str
    part: str = ""

    def name(self):
        return f"{self.call} {self.file}{self.part and ', '}{self.part}"


class Moment:
    """The files of a disk and of its host, which is stopped, and what the disk holds."""

    def __init__(self, disk, array):
        self.files, self.array = {**disk.kept.read(), **disk.host_files()}, array

    def put_back(self, disk):
        """Puts the files back and starts the host. Returns what the disk holds."""
        for file, whole in self.files.items():
            file.write_bytes(whole)
        disk.start_host()
        return copy.deepcopy(self.array)


def part_of(file, data, place):
    """Which part of a file a write is about."""
    if place < BucketFile.LOG_START:
        return "its front"
    if not file.endswith("-log"):
        return "its text"
    if len(data) == 1:
        return "a gate"
    return "zeros" if not any(data) else "a batch"


def steps_of(text):
    """The calls in the lines that strace has written about the files of a state and their folder: those before anything is sent, which open
    the files, and those after that, which keep."""
    counts, opening, keeping = {}, [], []
    steps = opening
    for line in text.splitlines():
        call = re.match(r"\d+ +(\w+)\(", line)
        if not call:
            continue
        name = call[1]
        if name == "sendto":
            steps = keeping
            continue
        counts[name] = counts.get(name, 0) + 1
        about = re.search(r'\(\d+<([^>]*)>|, "([^"]*)"|\("([^"]*)"', line)
        file = strace.path_in(next(filter(None, about.groups()))).name
        if not file.startswith("disk.state") or file.endswith((".lock", ".failed")):
            # A sync of a folder.
            if name != "fsync":
                continue
            file = "the folder"
        wrote = re.search(r'<.*>, "(.*)"\.*, (\d+), (\d+)\) ', line) if name == "pwrite64" else None
        part = part_of(file, strace.from_hex(wrote[1]), int(wrote[3])) if wrote else ""
        steps.append(Step(name, counts[name], file, part))
    return opening, keeping


def steps_from(trial, disk, moment):
    """The calls of a client that opens the files of a moment and answers some writes."""
    array = moment.put_back(disk)
    with tempfile.NamedTemporaryFile() as found:
        disk.serve(strace.noting_bytes(",".join([*CALLS, "sendto"]), found.name))
        answered = write_until_lost(trial, disk, array)
        trial.check("a client without failures", answered == MOST_WRITES, answered)
        kill_children(disk.process)
        disk.wait()
        disk.host.stop()
        return steps_of(Path(found.name).read_text())


def write_until_lost(trial, disk, array):
    """Writes blocks until one write has no reply. Returns how many had one."""
    client = disk.client()
    if client is None:
        # It has ended while it opened its files, or carried out what waited from before.
        return 0
    for number in range(MOST_WRITES):
        if not write_block(trial, client, array, number):
            client.stream.close()
            return number
    client.close()
    return MOST_WRITES


def fail(trial, what, disk, moment, step, error):
    """A call of a client fails. Returns its status and its last line, None for a client that goes on. In any case the next one finds what was
    acknowledged."""
    array = moment.put_back(disk)
    disk.serve(strace.failing(step.call, error, step.number))
    goes_on = write_until_lost(trial, disk, array) == MOST_WRITES
    if goes_on:
        kill_children(disk.process)
    status = disk.wait()
    line = disk.lines()[-1]
    check_and_end(trial, f"{what}: what it holds", disk, array)
    return None if goes_on else (status, line)


def one_of_each(trial, steps):
    """One step of each name, at random."""
    by_name = {}
    for step in steps:
        by_name.setdefault(step.name(), []).append(step)
    return [trial.dice.choice(alike) for alike in by_name.values()]


def may_open(step, error):
    """Whether a client may go on although this call of its opening fails: the log may stay as short as it is, and a log of which there is no
    room for a copy is used as it is. The front of the file says by then what is written there."""
    is_spared = step.file == "disk.state-log.unfinished" or step.call == "pread64" or step.name() == "pwrite64 disk.state, its front"
    return step.part == "zeros" or (error == "ENOSPC" and is_spared)


def is_end_of_opening(step, error, end):
    """Whether a client may end so if this call of its opening fails."""
    if end is None:
        return may_open(step, error)
    status, line = end
    return status == BAD_FILE and line in NOT_OPENED and step.part != "zeros" and (error == "ENOSPC" or line == NOT_OPENED[0])


def is_end_of_keeping(step, error, end):
    """Whether a client may end so if this call of a keeping fails. Its log may stay as short as it is, and its front needn't say how long the file
    is if there is no room for that."""
    if end is None or step.part == "zeros":
        return end is None and (step.part == "zeros" or (error, step.name()) == ("ENOSPC", "pwrite64 disk.state, its front"))
    reasons = [REASONS[error], NO_ROOM] if error == "ENOSPC" else [REASONS[error]]
    line = "oramdisk: can't keep the state in disk.state ({}): see that its folder may be written and has room, and start again"
    return end in [(CANNOT_KEEP, line.format(reason)) for reason in reasons]


# The calls without which no file of a state is opened, and without which nothing is kept.
OPENINGS = {
    "openat disk.state",
    "openat disk.state-log",
    "openat disk.state-log.unfinished",
    "pread64 disk.state",
    "pread64 disk.state-log",
    "fsync disk.state-log.unfinished",
    "rename disk.state-log.unfinished",
    "fsync the folder",
}
KEEPINGS = {
    "pwrite64 disk.state-log, its front",
    "pwrite64 disk.state, its front",
    "pwrite64 disk.state-log, a batch",
    "pwrite64 disk.state-log, a gate",
    "pwrite64 disk.state, its text",
}
SYNCS = {"fdatasync disk.state-log", "fdatasync disk.state"}


def moments_of(trial, disk):
    """A disk's files when it is formatted, and when it was used, so that its log has entries and a round waits."""
    formatted = Moment(disk, DiskArray())
    disk.host.stop()
    array = formatted.put_back(disk)
    write_until_lost(trial, disk.serve(), array)
    disk.stop()
    disk.host.stop()
    return formatted, Moment(disk, array)


def try_failing_calls(trial):
    """Each kind of call with which the client opens the files of its state, or keeps its state in them, fails once. The request whose state
    isn't kept gets no reply, the process ends by a line with the reason, and each byte that was acknowledged is there."""
    if not strace.is_usable():
        trial.skip()
        return
    for sync in (True, False):
        disk = Disk(trial, f"failing-{sync}", table=16, sync=sync).formatted()
        formatted, used = moments_of(trial, disk)
        # Without syncs, what is opened anew differs little.
        for moment in (formatted, used) if sync else (used,):
            opening, keeping = steps_from(trial, disk, moment)
            kinds = [(opening, OPENINGS, is_end_of_opening), (keeping, KEEPINGS | (SYNCS if sync else set()), is_end_of_keeping)]
            for steps, least, may_end in kinds:
                names = {step.name() for step in steps}
                trial.check(f"failing calls, sync = {sync}: what there is", least <= names, least - names)
                for step in one_of_each(trial, steps):
                    error = trial.dice.choice(list(REASONS))
                    what = f"failing calls, sync = {sync}: {step.name()}, number {step.number}, {error}"
                    end = fail(trial, what, disk, moment, step, error)
                    trial.check(f"{what}: how it ends", may_end(step, error, end), end)


def try_failing_emptying(trial, most=20):
    """A sync of the file fails: while a long log is emptied before a keeping, or once the next generation is written into the front of the file. The
    request has no reply, and what was acknowledged is found in the log."""
    if not strace.is_usable():
        trial.skip()
        return
    disk, array = Disk(trial, "failing-long", table=16).formatted(), DiskArray()
    # Two syncs of the file open it, and one more belongs to the first keeping.
    for when in (4, 5):
        what = f"a failing sync of the file, number {when}"
        client = disk.serve(strace.failing_on(disk.kept.state.resolve(), "fdatasync", "EIO", when)).client()
        answered = 0
        while answered < most:
            request = Request(WRITE, 0, SMALL, trial.dice.randbytes(SMALL))
            reply = client.ask(*request)
            array.note_reply(trial, request, reply)
            if reply is None:
                break
            answered += 1
        client.stream.close()
        length = disk.kept.log.stat().st_size
        trial.check(f"{what}: the log is long", 0 < answered < most and length > LONG_LOG, (answered, length))
        status, line = disk.wait(), disk.lines()[-1]
        wanted = f"oramdisk: can't keep the state in disk.state ({REASONS['EIO']}): see that its folder may be written and has room, and start again"
        trial.check(f"{what}: how it ends", (status, line) == (CANNOT_KEEP, wanted), (status, line))
        check_and_end(trial, f"{what}: what it holds", disk, array)
        disk.start_host()
    disk.host.stop()
