"""The two files of a disk's state: what a killed process leaves of them, what is in their way, who may use them, and who may look at them."""

import signal
import socket
import threading

from trials import strace
from trials.bucket_file import BucketFile
from trials.disk import Disk
from trials.disk_array import DiskArray, ask_at_random, check_and_end, check_disk, make_requests, write_block
from trials.host.kills import kill_children
from trials.ports import free_port
from trials.processes import end_of
from trials.settings import put_values
from trials.statuses import BAD_FILE, IN_USE, LISTENER_TAKEN, REPLACED_STATE

# The calls before which a process is killed while it opens its files and keeps some states, each with the greatest number of the call. The
# first writes make the copy of the log, and the next ones write its entries to their places.
KILLING_CALLS = [("rename,renameat,renameat2", 1), ("fsync", 3), ("fdatasync", 12), ("pwrite64", 60)]
# How many of the writes are tried.
MOST_KILLS = 8
# A process that is killed before one of these calls makes so many writes at most.
MOST_WRITES = 6


def try_killed_keeping(trial):
    """A process is killed right before one of the calls with which it opens its files or keeps a state, whichever it is: what was acknowledged
    is there, and the files are sound. The state has the record of the root, which each round changes, on 17 pages."""
    if not strace.is_usable():
        trial.skip()
        return
    for sync in (True, False):
        disk, array = Disk(trial, f"killed-keeping-{sync}".lower(), table=16, sync=sync, near=40_000).formatted(), DiskArray()
        killed = 0
        for calls, most in KILLING_CALLS:
            for when in sorted(trial.dice.sample(range(1, most + 1), min(most, MOST_KILLS))):
                killed += kill_before(trial, disk, array, calls, when)
        trial.check(f"{disk.name}: it was killed often", killed > MOST_KILLS, killed)
        check_and_end(trial, f"{disk.name}: what it holds at last", disk, array)


def kill_before(trial, disk, array, calls, when):
    """The process that serves the disk is killed before this call, or once it has made some writes. Returns whether it was killed before the call."""
    what = f"{disk.name}, killed before {calls} {when}"
    client = disk.serve(strace.killing_before(calls, when)).client()
    is_killed = client is None or not all(write_block(trial, client, array, trial.dice.randrange(60)) for _ in range(MOST_WRITES))
    if client:
        client.stream.close()
    if not is_killed:
        kill_children(disk.process)
    disk.wait()
    trial.check(f"{what}: the state", b"state: it is sound\n" in end_of(disk.start("status")).out)
    client = disk.serve().client()
    check_disk(trial, f"{what}: what it holds", client, array)
    client.close()
    disk.stop(signal.SIGKILL)
    return is_killed


def try_in_the_way(trial):
    """What is in the place where the copy of the log is made: a half-made copy and a link are replaced, and what the link leads to stays. A
    folder is left as it is, and nothing else is changed either."""
    disk, array = Disk(trial, "way", table=16).formatted(), DiskArray()
    copy, other = disk.folder / "disk.state-log.unfinished", disk.folder / "other"
    other.write_bytes(b"other")
    for what, put in (("a half-made copy", lambda: copy.write_bytes(b"half a copy")), ("a link", lambda: copy.symlink_to(other.name))):
        put()
        client = disk.serve().client()
        check_disk(trial, f"beside {what}: what it holds", client, array)
        make_requests(trial, client, array, 5)
        client.close()
        disk.stop(signal.SIGKILL)
        trial.check(f"beside {what}: no copy is left", disk.kept.left() == ["disk.state", "disk.state-log"], disk.kept.left())
    trial.check("what the link led to has its bytes", other.read_bytes() == b"other" and not other.is_symlink())
    copy.mkdir()
    before = disk.kept.read()
    line = "oramdisk: can't open, read or write way/disk.state: see that it is there and may be written, and that its disk has room"
    trial.ends("a folder in the way of the copy", disk.start("serve"), BAD_FILE, line)
    trial.check("a folder in the way of the copy: the state", disk.status().get("state") == "it is sound")
    trial.check("a folder in the way of the copy: the files are left as they are", disk.kept.read() == before)
    copy.rmdir()
    check_and_end(trial, "without the folder: what it holds", disk, array)


def try_status_meanwhile(trial):
    """While a disk is served under load, and while its next process opens the files, each look at it finds a sound state."""
    for sync in (True, False):
        disk, array = Disk(trial, f"looks-{sync}".lower(), table=16, sync=sync).formatted(), DiskArray()
        for turn in range(2):
            look_meanwhile(trial, f"{disk.name}, {turn}", disk, array)
        check_and_end(trial, f"{disk.name}: what it holds", disk, array)


def look_meanwhile(trial, what, disk, array, looks=20, most=500, batches=5):
    """Looks so often at a disk from the start of its process on, and goes on until these batches of random requests have had their replies."""
    ended, answered = threading.Event(), []
    disk.serve()
    seen = [end_of(disk.start("status")) for _ in range(3)]
    client = disk.client()
    load = threading.Thread(target=ask_until, args=(trial, client, array, ended, answered))
    load.start()
    while len(seen) < looks or (len(answered) < batches and len(seen) < most):
        seen.append(end_of(disk.start("status")))
    ended.set()
    load.join()
    wrong = [str(end) for end in seen if end.status != 0 or b"\nstate: it is sound\n" not in end.out or end.err]
    trial.check(f"{what}: each look finds a sound state", not wrong, wrong[:2])
    trial.check(f"{what}: it was served meanwhile", len(answered) >= batches and all(answered), len(answered))
    client.close()
    disk.stop(signal.SIGKILL)


def ask_until(trial, client, array, ended, answered):
    """Makes random requests, four at a time, until that is to end. Notes of each time whether all had a reply."""
    while not ended.is_set():
        answered.append(ask_at_random(trial, client, array, 4))


def try_replaced(trial):
    """An older state that is put back is refused, and nothing is stored by it. With the newest state the disk goes on."""
    disk = Disk(trial, "replaced", table=16).formatted()
    array, states = DiskArray(), [disk.kept.read()]
    client = disk.serve().client()
    for turn in range(6):
        # The state after each write is the one of its round.
        for number in (turn, turn + 1, 2 * turn):
            write_block(trial, client, array, number)
        states.append(disk.kept.read())
    # So the last of these states is only one round older than the newest one.
    write_block(trial, client, array, 3)
    disk.end(client)
    newest, records = disk.kept.read(), records_at(disk.host)
    disk.start_host()
    line = "oramdisk: replaced/disk.state is an older state of its disk, and nothing was stored by it: put the newest one back; if a loss of power with sync = false took that one, the disk is lost"
    for number, state in enumerate(states):
        disk.kept.put(state)
        text = disk.kept.text()
        trial.ends(f"replaced: served with older state {number}", disk.start("serve"), REPLACED_STATE, line)
        trial.check(f"replaced: older state {number} is left as it is", disk.kept.text() == text)
    disk.host.stop()
    trial.check("replaced: the host's records", records_at(disk.host) == records)
    disk.start_host()
    disk.kept.put(newest)
    check_and_end(trial, "replaced: what it holds with the newest state", disk, array)


def records_at(host):
    """The records that a host keeps, while the host isn't running."""
    file = BucketFile(host.path())
    file.replay()
    return file.records()


def try_in_use(trial):
    """While a process has the disk, no other one does: it ends, and changes nothing."""
    disk = Disk(trial, "used", table=16).formatted()
    array = DiskArray()
    client = disk.serve().client()
    make_requests(trial, client, array, 5)
    try_second_process(trial, disk)
    for _ in range(5):
        trial.check("the first goes on", ask_at_random(trial, client, array))
    check_disk(trial, "the first: what it holds", client, array)
    client.close()
    try_taken_port(trial, disk)
    try_linked(trial, disk, array)
    check_and_end(trial, "the next: what it holds", disk, array)


def try_second_process(trial, disk):
    """A second process ends at once with a line, even if it is to serve at another address."""
    before = disk.kept.read()
    line = "oramdisk: the disk of used/disk.state is in use by another process: end that one first"
    for command in ("serve", "format", "retry"):
        trial.ends(f"a second process, {command}", disk.start(command), IN_USE, line)
    # The same settings but for the address.
    other = disk.folder / "other.toml"
    other.write_text(disk.settings_file.read_text())
    put_values(other, {"listen": f"127.0.0.1:{free_port()}"})
    trial.ends("a second process at another address", trial.start("serve", "used/other.toml"), IN_USE, line)
    (disk.folder / "linked.state").symlink_to("disk.state")
    put_values(other, {"state": "linked.state"})
    line = line.replace("used/disk.state", str(disk.state_file.resolve()))
    trial.ends("a second process by a link to the state", trial.start("serve", "used/other.toml"), IN_USE, line)
    trial.check("the files are as they were", disk.kept.read() == before)


def try_linked(trial, disk, array):
    """A disk whose settings name a link to its state: the state is kept where it is, with the log beside it, and the link stays."""
    before, folder = disk.kept.text(), sorted(path.name for path in disk.folder.iterdir())
    disk.set(state="linked.state")
    client = disk.serve().client()
    make_requests(trial, client, array, 5)
    disk.end(client)
    trial.check("the link stays", (disk.folder / "linked.state").is_symlink())
    trial.check("the files that it leads to have a new state", disk.kept.text() != before)
    found = sorted(path.name for path in disk.folder.iterdir())
    trial.check("no other file is beside the link", found == folder, found)
    disk.set(state="disk.state")
    disk.start_host()


def try_taken_port(trial, disk):
    """A disk that can't be served since its port is taken leaves its state alone, too."""
    with socket.create_server(("127.0.0.1", 0)) as taken:
        disk.stop(signal.SIGKILL)
        address = f"127.0.0.1:{taken.getsockname()[1]}"
        disk.set(listen=address)
        before = disk.kept.text()
        line = f"oramdisk: can't listen at {address}: see that no other program listens there, that it is a place of this machine, and that you may use it"
        trial.ends("a port that is taken", disk.start("serve"), LISTENER_TAKEN, line)
        trial.check("and the state is as it was", disk.kept.text() == before)
