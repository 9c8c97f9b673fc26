"""The life of a disk, from `new` to its accesses."""

import signal

from trials.disk import SMALL, Disk
from trials.disk_array import DiskArray, check_disk, make_requests
from trials.processes import end_of
from trials.statuses import EXISTS


def try_life(trial):
    """A disk is made, formatted, looked at, served, ended and served again."""
    disk = Disk(trial, "life", table=16).formatted()
    status = disk.status()
    wanted = {"used": "by nobody", "size": f"{SMALL} bytes, 63 blocks of 4096", "trees": "2", "waiting": "0", "state": "it is sound"}
    trial.check("life: how it stands", wanted.items() <= status.items(), status)
    check_folder(trial, "life: after the formatting", disk, {"disk.toml", "host.toml", "buckets", "buckets-log", "log"})
    disk.introduced_again("life: format again")
    array = DiskArray()
    for _ in range(3):
        # Whoever only looks at the disk doesn't keep it from being served.
        disk.serve()
        looks = [disk.start("status") for _ in range(4)]
        client = disk.client()
        trial.check("life: its status beside its start", all(end_of(look).status == 0 for look in looks))
        trial.check("life: it is used", disk.status().get("used") == "by another process", disk.status())
        check_disk(trial, "life: what it holds", client, array)
        make_requests(trial, client, array, 20)
        client.close()
        disk.stop(signal.SIGKILL)
    check_folder(trial, "life: after it was served", disk, {"disk.toml", "host.toml", "buckets", "buckets-log", "log", "serve.log"})
    status = disk.status()
    made = int(status["accesses"].split()[0])
    trial.check("life: its accesses", made >= 3 * 63, status)
    line = "life/disk.state is there already, and is left as it is: to format anew, take it away, and name a new file at the host"
    trial.ends("life: format it once it was used", disk.format(), EXISTS, f"oramdisk: {line}")
    disk.host.stop()


def check_folder(trial, what, disk, others):
    """Only its owner may read a disk's state and the log beside it, and its folder has nothing but them, their lock and these files."""
    modes = {file.name: oct(file.stat().st_mode & 0o777) for file in disk.kept.read()}
    trial.check(f"{what}: the state and its log are their owner's", modes == {"disk.state": "0o600", "disk.state-log": "0o600"}, modes)
    found = {path.name for path in disk.folder.iterdir()}
    trial.check(f"{what}: what is in the folder", found == others | {*modes, "disk.state.lock"}, found)
