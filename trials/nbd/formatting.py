"""Formattings that have no room, are made twice, are broken off, or are killed."""

import signal
import subprocess
import threading
from contextlib import suppress

from trials import strace
from trials.bucket_messages import FETCH_LEVELS, IDENTITY_TREE, PUT, SHAPE, fetch, is_a
from trials.disk import Disk
from trials.disk_array import DiskArray, check_and_end, check_disk, make_requests
from trials.kept_files import STATE
from trials.nbd.no_room import no_room, refuse_for_room
from trials.processes import LONGEST_WAIT, end_of
from trials.statuses import EXISTS, HAS_A_DISK, HOST_FULL, WRONG_LOG


def check_that_host_has_a_disk(trial, what, disk, address=None):
    """A formatting at a host that keeps a disk already, its own one or one at another address, ends with its line."""
    line = f"oramdisk: the host at {address or disk.host_address()} keeps a disk already: name a new file at the host"
    refused = end_of(disk.format())
    trial.check(what, (refused.status, refused.err.decode().splitlines()[-1:]) == (HAS_A_DISK, [line]), refused)


def try_second_disk(trial):
    """A second disk isn't introduced to a host that keeps one. The first one goes on, whether it is at rest meanwhile or served. The second one
    has its state, and its formatting is finished at another file of the host."""
    first, second = Disk(trial, "first-there", table=16).formatted(), Disk(trial, "second-there", size="16kB", table=16)
    second.set(host=first.host_address())
    array = DiskArray()
    first.settle_host()
    before = first.host_files()
    heard = []
    first.relay.instead = lambda body: heard.append(body)
    check_that_host_has_a_disk(trial, "a second disk, the first one at rest", second, first.host_address())
    kinds = [is_a(SHAPE, heard[0]), heard[1:] == [fetch(IDENTITY_TREE, 0)]]
    trial.check("nothing was sent but the question for the identity", kinds == [True, True], [body[:8].hex() for body in heard])
    trial.check("the host's files are as they were", first.host_files() == before)
    first.relay.instead = lambda body: None
    client = first.serve().client()
    make_requests(trial, client, array, 3)
    # The relay has one connection at a time, and the first disk's is open.
    straight = f"127.0.0.1:{first.host.port}"
    second.set(host=straight)
    check_that_host_has_a_disk(trial, "a second disk, the first one served", second, straight)
    make_requests(trial, client, array, 3)
    check_disk(trial, "the first disk after the second one's formatting", client, array)
    first.end(client)
    trial.check("the second disk has its state", second.kept.left() == STATE, second.kept.left())
    second.set(host=second.host_address())
    second.start_host()
    second.introduced_again("the second disk, at a host of its own")
    second.host.stop()


def try_formatting_in_the_way(trial):
    """Something is at one of the names of the new files, or where they are made: the formatting is refused before its host hears anything."""
    disk = Disk(trial, "format-way", table=16)
    disk.start_host()
    without = "oramdisk: there is no file {}, but a log is there, the file beside it with -log after its name: put the file back that the log belongs to, or take the log away"
    taken = "oramdisk: {}{} is where the new {} is made, and something else is there, which is left as it is: take it away"
    for name, status, line in (
        ("disk.state-log", WRONG_LOG, without),
        ("disk.state.unfinished", EXISTS, taken.format("{}", ".unfinished", "file")),
        ("disk.state-log.unfinished", EXISTS, taken.format("{}", "-log.unfinished", "log")),
    ):
        other = disk.folder / name
        other.write_bytes(b"of somebody else")
        disk.relay.messages = 0
        trial.ends(f"a formatting, with {name} in the way", disk.format(), status, line.format("format-way/disk.state"))
        trial.check(f"a formatting, with {name} in the way: its host heard nothing", disk.relay.messages == 0, disk.relay.messages)
        trial.check(f"a formatting, with {name} in the way: it stays", other.read_bytes() == b"of somebody else" and disk.kept.left() == [name])
        other.unlink()
    disk.host.stop()
    disk.formatted()
    check_and_end(trial, "a formatting with nothing in the way any more", disk, DiskArray())


def try_full_formatting(trial):
    """A formatting reports a host without room, and is finished once there is room. Two formattings with one key have nothing in common."""
    disk = Disk(trial, "full-format", table=16)
    disk.start_host()
    refuse_for_room(disk.relay, lambda body: is_a(PUT, body))
    end = end_of(disk.format())
    trial.check("a formatting without room", (end.status, end.err.decode().splitlines()[-1:]) == (HOST_FULL, [no_room(disk)]), end)
    trial.check("a formatting without room: its state", disk.kept.left() == STATE, disk.kept.left())
    disk.relay.instead = lambda body: None
    disk.introduced_again("a formatting once there is room")
    disk.host.stop()
    disk.take_state_away()
    (salt, key_check, fetched), (other_salt, other_key_check, other_fetched) = [format_and_read(trial, disk, number) for number in range(2)]
    trial.check("two formattings: paths at other places", fetched != other_fetched and len(fetched) > 60, len(fetched))
    trial.check("two formattings: two salts and two key checks", salt != other_salt and key_check != other_key_check)


def format_and_read(trial, disk, number):
    """The disk is formatted at a new file of the host, and read. Returns the salt and the key check of its state, and the FETCHes of levels
    that the host heard."""
    disk.host.file = f"second-{number}"
    failure = disk.folder / "disk.state.failed"
    failure.write_text("of another disk\n")
    disk.formatted()
    # A host that is killed right after a formatting has all of it.
    disk.host.stop(signal.SIGKILL)
    trial.check("what an earlier disk left is gone", not failure.exists())
    disk.start_host()
    fetched = []
    disk.relay.instead = lambda body: fetched.append(body) if is_a(FETCH_LEVELS, body) else None
    check_and_end(trial, f"formatting {number}: what it holds", disk, DiskArray())
    title = disk.kept.text()[:64]
    disk.take_state_away()
    return title[:32], title[32:], fetched


def kill_introduction(trial, disk, number):
    """Formats a disk, and kills that when this number of messages has come to the relay."""
    reached, killed = threading.Event(), threading.Event()
    left = iter(range(number))

    def stop_there(_body):
        if next(left, None) is None:
            reached.set()
            killed.wait(LONGEST_WAIT)

    disk.relay.instead = stop_there
    process = disk.format()
    trial.check("a formatting comes as far as it is to be killed", reached.wait(LONGEST_WAIT), number)
    process.kill()
    process.communicate()
    killed.set()
    disk.relay.instead = lambda body: None


def kill_hashing(trial, disk, seconds):
    """Formats a disk, and kills that after so many seconds, unless it has ended."""
    process = disk.format()
    with suppress(subprocess.TimeoutExpired):
        process.wait(seconds)
    process.kill()
    process.communicate()
    left = disk.kept.left()
    trial.check(f"a formatting that is killed after {seconds} s: its host heard nothing before there was a state", STATE[0] in left or disk.relay.messages == 0, left)


# How many messages introduce a disk of two trees to a new host.
INTRODUCTION = 10


def try_killed_formatting(trial):
    """A formatting that is killed before there is a state has sent nothing, and one that is killed later is finished by the next one. Both
    times the host goes on with the file that it has."""
    disk = Disk(trial, "killed-format", size="4MiB", table=16)
    disk.start_host()
    for number in range(INTRODUCTION):
        kill_introduction(trial, disk, number)
        trial.check(f"a formatting killed at message {number}: the state is there", disk.kept.left() == STATE, disk.kept.left())
        if trial.dice.random() < 0.5:
            disk.host.stop(signal.SIGKILL)
            disk.start_host()
        disk.introduced_again(f"a formatting after one that was killed at message {number}")
        disk.introduced_again(f"another one after that one {number}")
        trial.check(f"a formatting killed at message {number}: the disk is sound", disk.status().get("state") == "it is sound")
        disk.name_new_host_file(f"again-{number}")
    for number in range(5):
        disk.relay.messages = 0
        kill_hashing(trial, disk, trial.dice.random())
        end = end_of(disk.format())
        trial.check(f"a formatting after a killed one {number}", end.status == 0, end)
        disk.name_new_host_file(f"hashed-{number}")
    try_killed_making(trial, disk)
    disk.host.stop()
    disk.host.file = "last"
    disk.formatted()
    trial.check("a formatting at last", disk.status().get("state") == "it is sound")
    disk.host.stop()


def try_killed_making(trial, disk):
    """A formatting is killed right before one of the calls with which it makes the files of the state: it leaves both or no state, and the
    next formatting takes away what it has left."""
    if not strace.is_usable():
        trial.skip()
        return
    for number, (calls, when) in enumerate([("link,linkat", 1), ("link,linkat", 2), ("fsync", 1), ("fdatasync", 1), ("fdatasync", 5), ("pwrite64", 1), ("pwrite64", 5)]):
        what = f"a formatting that is killed before {calls} {when}"
        disk.relay.messages = 0
        end = end_of(disk.trial.start_under(strace.killing_before(calls, when), "format", f"{disk.name}/disk.toml"))
        trial.check(f"{what}: it is killed", end.status == -signal.SIGKILL, end)
        trial.check(f"{what}: there is no state", not disk.state_file.exists(), disk.kept.left())
        trial.check(f"{what}: it has begun to make the files", disk.kept.left())
        trial.check(f"{what}: its host heard nothing", disk.relay.messages == 0, disk.relay.messages)
