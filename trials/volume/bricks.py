"""A disk in use, while bricks of its host's volume are killed."""

import signal
import threading

from trials.bucket_host import Host
from trials.disk import Disk
from trials.disk_array import DiskArray, ask_at_random, check_and_end, write_block
from trials.ports import free_port
from trials.settings import toml_of
from trials.statuses import FILE_HELD
from trials.volume.gluster import LONGEST


def check_requests(trial, what, client, array, count):
    """This number of random requests, each with its reply."""
    for _ in range(count):
        trial.check(what, ask_at_random(trial, client, array))


def try_volume(trial, volume):
    """A disk is used while one brick is killed, and then two. At last every acknowledged block is there."""
    disk = Disk(trial, "replicated", table=16, reconnect_timeout=LONGEST)
    disk.host = Host(trial.oramdisk, volume.mount / "host")
    disk.formatted()
    array = DiskArray()
    client = disk.serve().client()
    check_requests(trial, "a request to three bricks", client, array, 20)
    try_second_host(trial, volume)
    kill_one(trial, volume, client, array)
    kill_two(trial, volume, disk, client, array)
    check_requests(trial, "a request after that", client, array, 20)
    client.close()
    disk.stop(signal.SIGKILL)
    disk.host.stop(signal.SIGKILL)
    disk.start_host()
    check_and_end(trial, "what it holds at last", disk, array)
    print("\n".join(disk.host.lines()[-5:]), flush=True)


def try_second_host(trial, volume):
    """Another machine has the volume mounted too, and can't serve the file that the first one serves."""
    held = "oramdisk: buckets is held by another process: end that one first"
    other = volume.other / "host" / "other.toml"
    other.write_text(toml_of({"listen": f"127.0.0.1:{free_port()}", "file": "buckets"}))
    trial.ends("a second host, by another mount", trial.start("host", other.name, folder=other.parent), FILE_HELD, held)


def kill_one(trial, volume, client, array):
    """One brick is killed, and nobody notices; then it is healed."""
    killer = threading.Timer(0.5, volume.kill, [trial.dice.randrange(3)])
    killer.start()
    check_requests(trial, "a request while a brick is killed", client, array, 60)
    killer.join()
    trial.check("one brick is gone", volume.pids().count(None) == 1, volume.pids())
    trial.check("it is healed", volume.revive())


def kill_two(trial, volume, disk, client, array):
    """Two bricks are killed: a request waits for them, and is answered once they are back."""
    first, second = trial.dice.sample(range(3), 2)
    volume.kill(first)
    volume.kill(second)
    waiting = threading.Thread(target=wait_for_bricks, args=(trial, client, array))
    waiting.start()
    waiting.join(15)
    trial.check("the client waits", waiting.is_alive() and disk.process.poll() is None)
    trial.check("the host waits", disk.host.process.poll() is None)
    trial.check("the bricks come back", volume.revive())
    waiting.join(LONGEST)
    trial.check("and the request is answered", not waiting.is_alive())


def wait_for_bricks(trial, client, array):
    """A write of a block, which needs the host, and then random requests."""
    trial.check("a write that waited for two bricks", write_block(trial, client, array, 0))
    check_requests(trial, "a request that waited for two bricks", client, array, 5)
