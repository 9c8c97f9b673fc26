"""How much room a disk takes at its host."""

from trials.disk import BLOCK, Disk
from trials.nbd_client import READ, WRITE

# The disk's bytes, a power of two: 16,384 blocks, for which there are 4,096 leaves.
SIZE = 64 << 20
BLOCKS = SIZE // BLOCK
# What a request covers: 64 blocks, which are carried out in one round.
STEP = 1 << 18
# The most bytes that the host's file may have for each byte of the disk.
MOST = 2.1
# The most blocks that the stash may have. After far more accesses than these no greater one was ever seen.
MOST_STASH = 30


def try_space(trial):
    """A disk takes at most 2.1 times its size at its host, also once all of it was written and read at random; its stash stays small, and so
    does the log of its state."""
    disk = Disk(trial, "space", size=f"{SIZE}", sync=False, table=BLOCKS).formatted()
    fresh = disk.host.path().stat().st_size
    client = disk.serve().client()
    steps = [at * STEP for at in range(SIZE // STEP)]
    written = {}
    for offset in trial.dice.sample(steps, len(steps)):
        written[offset] = trial.dice.randbytes(STEP)
        reply = client.ask(WRITE, offset, STEP, written[offset])
        trial.check("space: a write", reply is not None and reply[0] == 0, reply)
    for offset in trial.dice.sample(steps, len(steps)):
        reply = client.ask(READ, offset, STEP)
        trial.check("space: a read", reply is not None and reply == (0, written[offset]), offset)
    client.close()
    disk.stop()
    bytes_kept = disk.host.path().stat().st_size
    state, log = (file.stat().st_size for file in (disk.kept.state, disk.kept.log))
    trial.check("space: the log of its state", log <= disk.kept.longest_log(), (state, log))
    trial.check("space: the host's file", fresh <= bytes_kept <= MOST * SIZE, (fresh, bytes_kept))
    status = disk.status()
    made, stash = int(status["accesses"].split()[0]), int(status["stash"].split()[0])
    trial.check("space: its accesses", made >= 2 * BLOCKS, status)
    trial.check("space: its stash", stash <= MOST_STASH, status)
    disk.host.stop()
    print(f"space: {SIZE} bytes take {bytes_kept} at the host; after {made} accesses the stash has {status['stash']}; its state has {state} bytes, and the log {log}", flush=True)
