"""How a host makes its file and its log: what others have at one of their names stays, and what a making leaves that was broken off goes."""

import itertools
import os
import signal

from trials import strace
from trials.bucket_file import log_of
from trials.bucket_host import Host
from trials.bucket_messages import DONE, shape
from trials.host.kills import kill_children
from trials.ports import free_port
from trials.processes import LONGEST_WAIT, start
from trials.settings import toml_of
from trials.statuses import BAD_FILE, EXISTS, FILE_HELD, WRONG_LOG

# What comes after the file's name at each name at which a making looks, with the status and the line of a host that finds something of
# somebody else's there.
NAMES = [
    (".unfinished", EXISTS, "oramdisk: new.unfinished is where the new file is made, and something else is there, which is left as it is: take it away"),
    ("-log.unfinished", EXISTS, "oramdisk: new-log.unfinished is where the new log is made, and something else is there, which is left as it is: take it away"),
    (
        "-log",
        WRONG_LOG,
        "oramdisk: there is no file new, but a log is there, the file beside it with -log after its name: put the file back that the log belongs to, or take the log away",
    ),
    ("", EXISTS, "oramdisk: new is there already, and is left as it is: leave --new out to serve it"),
]

# The calls of a making before each of which a host is killed.
CHANGES = ("pwrite64", "fsync", "fdatasync", "flock", "link", "linkat", "unlink", "unlinkat", "rename", "renameat", "renameat2")

# A new log grows by writes of zeros. A kill before each of these would show nothing new.
GROWTH = range(4, 255)

A_SHAPE = shape(0, 1, 8)


def try_making(trial):
    """A new file is made beside nothing of somebody else's, whole or not at all, and by one host alone."""
    try_taken_names(trial)
    try_leftovers(trial)
    try_without_links(trial)
    try_failing_links(trial)
    try_killed_makings(trial)
    try_makings_at_once(trial)


def put_file(path):
    path.write_bytes(b"somebody's text")


def put_link(path):
    """A link to a file whose bytes are there afterwards."""
    path.with_name("other").write_bytes(b"VIDLAQEB\3" + bytes(23))
    path.symlink_to("other")


def put_dead_link(path):
    path.symlink_to("nowhere")


def put_pipe(path):
    os.mkfifo(path)


def put_folder(path):
    path.mkdir()


def put_long_file(path):
    """Zeros, but more of them than a new file ever has."""
    path.write_bytes(bytes((1 << 20) + 1))


def seen_in(folder):
    """What is in a folder: for each name its kind and inode, and its bytes if it is a file."""
    return {it.name: (it.lstat().st_mode, it.lstat().st_ino, it.read_bytes() if it.is_file() else b"") for it in folder.iterdir()}


def try_taken_names(trial):
    """Something of somebody else's has one of the names: the host says which, and changes nothing."""
    for put in (put_file, put_link, put_dead_link, put_pipe, put_folder, put_long_file):
        for ending, status, line in NAMES:
            what = f"{put.__name__} at new{ending}"
            folder = trial.folder / what.replace(" ", "-")
            folder.mkdir()
            (folder / "host.toml").write_text(toml_of({"listen": f"127.0.0.1:{free_port()}", "file": "new"}))
            put(folder / f"new{ending}")
            before = seen_in(folder)
            trial.ends(what, trial.start("host", "--new", "host.toml", folder=folder), status, line)
            trial.check(f"{what}: all is as it was", seen_in(folder) == before)


def try_leftovers(trial):
    """What a making has left is taken away, even if a loss of power has left zeros in its place, and whatever else has the same bytes stays."""
    host = trial.host("left")
    front = bytes(16)
    left = {
        "new.unfinished": b"VIDLAQEB\3" + bytes(7) + front,
        "new-log.unfinished": b"",
        "new-log": b"VIDLAQEL\3" + bytes(7) + front + bytes(4064) + b"\x0f",
    }
    host.file = "new"
    for number, zeros in enumerate((False, True)):
        for name, data in left.items():
            (host.folder / name).write_bytes(bytes(len(data)) if zeros else data)
        (host.folder / "second").unlink(missing_ok=True)
        (host.folder / "second").hardlink_to(host.folder / "new.unfinished")
        check_serves(trial, f"leftovers {number}", host)
        trial.check("another name of a leftover keeps its bytes", len((host.folder / "second").read_bytes()) == len(left["new.unfinished"]))
        for path in (host.path(), log_of(host.path())):
            path.unlink()


def check_serves(trial, what, host, under=()):
    """A host starts, with a new file if there is none, and keeps what it is asked to; no new log is left beside its two files."""
    host.start(under)
    client = host.client()
    trial.check(f"{what}: a host serves", client.stream is not None and client.ask(A_SHAPE) == DONE, host.lines()[-1:])
    client.close()
    if under:
        kill_children(host.process)
        host.wait()
    else:
        host.stop()
    trial.check(f"{what}: nothing else is there", not list(host.folder.glob("*-log.unfinished")), list(host.folder.iterdir()))


def try_without_links(trial):
    """On a file system without links, the new files are renamed."""
    if not strace.is_usable():
        trial.skip()
        return
    host = trial.host("without-links")
    check_serves(trial, "without links", host, strace.failing("link,linkat", "EPERM", "1+"))
    trial.check("both files have their names alone", sorted(it.name for it in host.folder.glob("buckets*")) == ["buckets", "buckets-log"])


def try_failing_links(trial):
    """A link fails although the file system has links: the host says so, renames nothing, and leaves nothing but a log that it gave its name."""
    if not strace.is_usable():
        trial.skip()
        return
    for number, left in enumerate(([], ["buckets-log"]), 1):
        host = trial.host(f"failing-link-{number}")
        host.start(strace.failing("link,linkat", "EIO", str(number)))
        host.wait()
        trial.check(f"link {number} fails: the host ends", host.process.returncode == BAD_FILE, host.process.returncode)
        there = sorted(it.name for it in host.folder.glob("buckets*"))
        trial.check(f"link {number} fails: what is there", there == left, there)
        check_serves(trial, f"after link {number} failed", host)


def try_killed_makings(trial):
    """A host is killed before each call of a making: there is no file, or the whole pair; and the next host makes it, or opens it."""
    if not strace.is_usable():
        trial.skip()
        return
    found = [is_there for call in CHANGES for is_there in kill_makings(trial, call)]
    kills, pairs = len(found), sum(found)
    trial.check("kills before and after the file had its name", 10 < kills and 0 < pairs < kills, (kills, pairs))
    print(f"{kills} makings killed, {pairs} of them after the file had its name", flush=True)


def kill_makings(trial, call):
    """A host is killed before each call of this name, until one isn't killed. Yields for each that was whether the file had its name."""
    for when in itertools.count(1):
        if call == "pwrite64" and when in GROWTH:
            continue
        host = trial.host(f"killed-making-{call}-{when}")
        host.start(strace.killing_before(call, when))
        # A host listens before it makes its files, so only an answer says that it has made them.
        client = host.client()
        is_made = client.ask(b"") is not None
        client.close()
        if is_made:
            kill_children(host.process)
            host.wait()
            return
        host.wait()
        is_there, what = host.path().exists(), f"kill before {call} {when}"
        trial.check(f"{what}: no file, or a pair", not is_there or log_of(host.path()).exists(), list(host.folder.iterdir()))
        check_serves(trial, f"after a {what}", host)
        yield is_there


def try_makings_at_once(trial, rounds=10, together=4):
    """Several hosts make the same file at once: one of them serves it at most, and the others say that it is held, or is there."""
    for number in range(rounds):
        folder = trial.folder / f"at-once-{number}"
        folder.mkdir()
        hosts = [start_making(trial, folder, index) for index in range(together)]
        said = [host.stderr.readline() for host in hosts]
        serving = [host for host, line in zip(hosts, said) if line == b"oramdisk: made new\n"]
        ended = [host.wait(LONGEST_WAIT) for host in hosts if host not in serving]
        trial.check(f"makings at once {number}: one at most", len(serving) <= 1, said)
        trial.check(f"makings at once {number}: the others", all(status in (FILE_HELD, EXISTS) for status in ended), (ended, said))
        for host in serving:
            host.send_signal(signal.SIGTERM)
            host.wait(LONGEST_WAIT)
        again = Host(trial.oramdisk, folder, "new")
        check_serves(trial, f"makings at once {number}", again)


def start_making(trial, folder, index):
    """Starts a host that is to make the file `new` of this folder, with settings of its own."""
    settings = folder / f"host-{index}.toml"
    settings.write_text(toml_of({"listen": f"127.0.0.1:{free_port()}", "file": "new"}))
    return start([trial.oramdisk, "host", "--new", settings.name], folder)
