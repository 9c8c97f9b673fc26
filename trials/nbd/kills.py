"""Processes that are killed while a disk is used."""

import os
import signal
import threading

from trials.disk import Disk
from trials.disk_array import DiskArray, ask_at_random, check_disk

KILLS = int(os.environ.get("KILLS") or 100)
# The `table` of a disk with one tree, and of one with two.
TABLES = {1: 64, 2: 16}


def try_kills(trial):
    """The process that serves a disk and its host are killed at random moments, with the state synced and not, with one request and sixteen
    in flight, and with one tree and two: every acknowledged byte is there, and the disk is sound."""
    for in_flight, counts in ((1, (2, 1)), (16, (1, 2))):
        answered = sum(kill_new_disk(trial, sync, in_flight, trees) for sync, trees in zip((True, False), counts))
        trial.check(f"requests between the kills, {in_flight} in flight", answered > 0)
        print(f"{answered} requests between {KILLS // 4 * 2} kills, {in_flight} in flight", flush=True)


def kill_new_disk(trial, sync, in_flight, trees):
    """Kills at a new disk, as below. Returns how many requests were answered."""
    name = f"kills-{sync}-{in_flight}".lower()
    disk = Disk(trial, name, table=TABLES[trees], reconnect_timeout=60, sync=sync).formatted()
    trial.check(f"kills: {trees} trees", disk.status().get("trees") == str(trees), disk.status())
    answered = kill_and_ask(trial, disk, DiskArray(), in_flight, KILLS // 4)
    disk.host.stop()
    return answered


def kill_and_ask(trial, disk, array, in_flight, kills):
    """Kills this many times, and makes requests in between. Counts the requests of those turns in which each request in
    flight had a reply. The host still runs afterwards."""
    answered = 0
    for number in range(kills):
        client = disk.serve().client()
        trial.check(f"{disk.name}, kill {number}: it is served", client is not None, disk.lines()[-2:])
        if client is None:
            break
        if number % 10 == 0:
            check_disk(trial, f"{disk.name}, kill {number}: what was acknowledged", client, array)
        ask = ask_while_host_is_killed if trial.dice.random() < 0.5 else ask_until_disk_is_killed
        answered += ask(trial, disk, client, array, in_flight)
    client = disk.serve().client()
    check_disk(trial, f"{disk.name}: what was acknowledged before all kills", client, array)
    if client is not None:
        client.close()
    disk.stop()
    trial.check(f"{disk.name}: it is sound", disk.status().get("state") == "it is sound", disk.status())
    return answered


def kill_soon(trial, process):
    """Kills a process within half a second."""
    killer = threading.Timer(trial.dice.uniform(0.01, 0.5), lambda: process.send_signal(signal.SIGKILL))
    killer.start()
    return killer


def ask_while_host_is_killed(trial, disk, client, array, in_flight):
    """Asks while the host is killed and started again, and then kills the process that serves the disk. Counts the replies."""
    killer = kill_soon(trial, disk.host.process)
    answered = 0
    restarter = threading.Thread(target=lambda: (killer.join(), disk.host.wait(), disk.start_host()))
    restarter.start()
    while restarter.is_alive() or answered < 3:
        if not ask_at_random(trial, client, array, in_flight):
            trial.check("a host that was killed and came back", False, disk.lines()[-2:])
            break
        answered += in_flight
    restarter.join()
    client.close()
    disk.stop(signal.SIGKILL)
    return answered


def ask_until_disk_is_killed(trial, disk, client, array, in_flight):
    """Asks until the process that serves the disk is killed. Counts the replies."""
    killer = kill_soon(trial, disk.process)
    answered = 0
    while ask_at_random(trial, client, array, in_flight):
        answered += in_flight
    killer.join()
    disk.wait()
    client.stream.close()
    return answered
