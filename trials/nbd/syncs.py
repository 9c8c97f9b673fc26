"""What is synced, and when: strace counts the syncs, and says their order."""

import itertools
import shutil

from trials import strace
from trials.disk import BLOCK, SMALL, Disk
from trials.formats.pair_files import generation_of
from trials.nbd_client import WRITE

NO_STRACE = "strace is not here, or may not trace"


def without_repeats(steps):
    """The steps, where those that are done several times in a row count once."""
    return [step for step, _ in itertools.groupby(steps)]


def keeping(disk, synced):
    """The steps of a request that makes an access, from its keeping on: everything but the first byte of the batch goes into the log, and
    then that byte, each with a sync; then the batch goes to its places. Nothing is sent before."""
    log, file = str(disk.kept.log.resolve()), str(disk.kept.state.resolve())
    steps = [("write", log), ("sync", log), ("write", log), ("sync", log), ("write", file), ("send", "")]
    return steps if synced else without_repeats(step for step in steps if step[0] != "sync")


def beginning(disk, synced):
    """The steps before the first entry of an empty log: a new generation is said in both fronts, first in that of the log."""
    log, file = str(disk.kept.log.resolve()), str(disk.kept.state.resolve())
    steps = [("write", log), ("sync", log), ("write", file), ("sync", file)]
    return [step for step in steps if synced or step[0] != "sync"]


def generations(disk):
    """The generations that the fronts of the two files say."""
    return [generation_of(whole[:4096]) for whole in disk.kept.read().values()]


def try_syncs(trial, writes=5):
    """A disk whose settings say so syncs the log of its state twice before it sends anything of a round, and any other never does; a host
    syncs its file before it answers a STORE."""
    if not strace.is_usable():
        trial.skip(NO_STRACE)
        return
    for sync in (True, False):
        disk = Disk(trial, f"syncs-{sync}".lower(), table=16, sync=sync).formatted()
        client = disk.serve().client()
        ask = lambda count=writes: [client.ask(WRITE, BLOCK * block, BLOCK, bytes(BLOCK)) for block in range(count)]
        first = strace.steps_while(disk.process, lambda: ask(1))
        found = strace.steps_while(disk.process, ask)
        if first is None or found is None:
            trial.skip("strace can't be used here")
        else:
            wanted = [*beginning(disk, sync), *keeping(disk, sync)]
            trial.check(f"the steps of the first keeping, sync = {sync}", without_repeats(first) == wanted, first)
            trial.check(f"the steps of a keeping, sync = {sync}", without_repeats(found) == writes * keeping(disk, sync), without_repeats(found))
            syncs = [step for step in found if step[0] == "sync"]
            trial.check(f"the client's syncs, sync = {sync}", len(syncs) == (2 * writes if sync else 0), syncs)
            found = strace.count_syncs(disk.host.process, ask)
            trial.check(f"the host's syncs, sync = {sync}", found >= 2 * writes, found)
        disk.end(client)


def try_long_logs(trial, times=2, most=20):
    """A log whose entries are long is emptied before a keeping: the file is synced first, and then a new generation begins, which both files
    say. The log doesn't get longer by that."""
    if not strace.is_usable():
        trial.skip(NO_STRACE)
        return
    disk = Disk(trial, "long-log", table=16).formatted()
    client = disk.serve().client()
    client.ask(WRITE, 0, BLOCK, bytes(BLOCK))
    log, file = str(disk.kept.log.resolve()), str(disk.kept.state.resolve())
    wanted = [("sync", file), ("write", log), ("sync", log), *beginning(disk, True), *keeping(disk, True)]
    emptied, before = 0, generations(disk)
    for _ in range(times * most):
        steps = strace.steps_while(disk.process, lambda: client.ask(WRITE, 0, SMALL, trial.dice.randbytes(SMALL)))
        if steps is None:
            trial.skip("strace can't be used here")
            break
        steps = without_repeats(steps)[: len(wanted)]
        if steps[0] == ("sync", file):
            emptied += 1
            length = disk.kept.log.stat().st_size
            trial.check(f"a long log: the steps of time {emptied}", steps == wanted, steps)
            trial.check(f"a long log: its length at time {emptied}", length <= disk.kept.longest_log(), length)
            now = generations(disk)
            trial.check(f"a long log: the generation of time {emptied}", now == [before[0] + emptied] * 2, (before, now))
        if emptied == times:
            break
    else:
        trial.check("a long log is emptied", False, emptied)
    disk.end(client)


def names_after_syncs(steps, names):
    """Whether each file that was written was synced after its last write, and before it got its name."""
    for unfinished, name in names.items():
        last = max(at for at, step in enumerate(steps) if step == ("write", unfinished))
        synced = [at for at, step in enumerate(steps) if step == ("sync", unfinished) and at > last]
        if not synced or synced[0] > steps.index(("link", name)):
            return False
    return True


def try_outlasting(trial):
    """What `new` and `format` leave is meant to outlast a loss of power: each file is synced before it gets its name, and each folder that got
    a new name in it. The log of a state has its name before the file has its own."""
    end, calls = strace.trace_renames_and_syncs(trial.folder, trial.oramdisk, "new", "outlasts", "--size", "256kB")
    if calls is None:
        trial.skip(NO_STRACE)
        return
    top = trial.folder.resolve()
    folder = top / "outlasts"
    trial.check("a traced new", end.status == 0, end)
    trial.check("new: its syncs", calls == [("sync", f"{file}") for file in (folder / "host.toml", folder / "disk.toml", folder, top)], calls)
    shutil.rmtree(folder)
    disk = Disk(trial, "outlasts")
    disk.start_host()
    end, steps = strace.trace_steps(trial.folder, trial.oramdisk, "format", "outlasts/disk.toml")
    trial.check("a traced format", end.status == 0, end)
    log, file = f"{folder}/disk.state-log.unfinished", f"{folder}/disk.state.unfinished"
    steps = [step for step in steps if step[0] != "send"]
    fronts = [("sync", log), ("sync", file)]
    names = [("link", "outlasts/disk.state-log"), ("sync", f"{folder}"), ("link", "outlasts/disk.state"), ("sync", f"{folder}")]
    calls = [step for step in steps if step[0] != "write"]
    trial.check("format: its syncs", calls == [*fronts, *fronts, *fronts, *names], calls)
    holds = names_after_syncs(steps, {log: "outlasts/disk.state-log", file: "outlasts/disk.state"})
    trial.check("format: what is written is synced before it has its name", holds, without_repeats(steps))
    disk.host.stop()
