"""A host that keeps another disk, or none."""

from trials.bucket_host import Host
from trials.disk import BLOCK, Disk
from trials.disk_array import DiskArray, ask_at_random, check_and_end, lose_write
from trials.nbd.no_room import refuse_for_room
from trials.statuses import NO_DISK, OTHER_DISK


def try_wrong_host(trial):
    """A disk reports a host that keeps another disk, or none, before it sends anything to it. Nothing is changed, there or here."""
    disk, other = (Disk(trial, name, table=16) for name in ("right", "wrong"))
    array = DiskArray()
    for one in (disk, other):
        one.formatted()
        one.settle_host()
        one.host.stop()
    leave_write_waiting(trial, disk, array)
    kept, state = other.settled_files(), disk.kept.text()
    empty = Host(trial.oramdisk, trial.folder / "empty")
    for what, host, status, says in (("another disk", other.host, OTHER_DISK, "keeps another disk"), ("no disk", empty, NO_DISK, "keeps no disk")):
        host.start()
        disk.relay.lead_to(host.process, host.port)
        disk.relay.messages = 0
        line = f"oramdisk: the host at {disk.host_address()} {says}, and nothing was sent to it: see that the settings name the right host, and that it was started with its own file"
        trial.ends(f"a host that keeps {what}", disk.start("serve"), status, line)
        trial.check(f"a host that keeps {what}: one message", disk.relay.messages == 1, disk.relay.messages)
        host.stop()
    trial.check("the other disk is as it was", other.settled_files() == kept)
    trial.check("the state is as it was", disk.kept.text() == state)
    disk.start_host()
    check_and_end(trial, "after the wrong hosts: what it holds", disk, array)


def leave_write_waiting(trial, disk, array):
    """A write is left waiting: its STORE was kept, and not answered."""
    disk.set(reconnect_timeout=1)
    disk.start_host()
    client = disk.serve().client()
    ask_at_random(trial, client, array)
    refuse_for_room(disk.relay)
    lose_write(trial, f"{disk.name}: a write is left waiting", client, array, offset=BLOCK, payload=b"wait")
    disk.wait()
    disk.host.stop()
    disk.relay.instead = lambda body: None
    disk.set(reconnect_timeout=600)
    trial.check(f"{disk.name}: it waits", disk.status().get("waiting") == "1", disk.status())
