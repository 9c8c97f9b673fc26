"""How much a process writes to keep the state of a disk with a long table, and with many near records."""

from pathlib import Path

from trials.disk import Disk
from trials.kept_files import ON_PAGE, PAGE_LEN
from trials.nbd_client import READ, WRITE

# Blocks of the shortest length, so that the table is long beside all else that is kept of the disk: 4 bytes for each of 65,536 blocks.
BLOCK, BLOCKS = 16, 1 << 16
TABLE = 4 * BLOCKS
# How many bytes near records may have: none, and those of all levels but the leaves, 2.7 MB.
NEAR = (0, 1 << 22)
# How many requests each process answers.
REQUESTS = 4
# The most bytes of what is kept beside STOREs, the table and near records: the title, the note, a stash of some blocks, and commands.
AROUND = 1024


def path_len(disk):
    """How many bytes the records of a path have."""
    sizes = disk.sizes()
    return (sizes.depths()[0] + 1) * sizes.record_len()


def most_kept(disk):
    """The most bytes of one keeping: the STORE of a path, what stands around the table, an entry of the table, the near records of a path, and the
    head. A record lies on as many pages as it fills, and on two more at most; each page has a head of its own in the log."""
    pages = disk.near_levels() * (disk.sizes().record_len() // ON_PAGE + 2) + 2
    return path_len(disk) + AROUND + pages * (PAGE_LEN + 32)


def try_short_keepings(trial):
    """A request of one block writes little to the files of the state, and far less than the table and the near records: also the first one of each
    process, which goes on from what the files hold."""
    for near in NEAR:
        disk = Disk(trial, f"short-keepings-{near}", size=f"{BLOCK * BLOCKS}")
        disk.set(block=BLOCK, sync=False, near=near)
        disk.formatted()
        near_len, state = disk.sizes().near_len(disk.near_levels()), disk.kept.state.stat().st_size
        what = f"short keepings, {near_len} bytes of near records"
        trial.check(f"{what}: the state has the table and the near records", state > TABLE + near_len, state)
        for process in range(2):
            keep_some(trial, f"{what}, process {process}", disk, process)
        disk.host.stop()


def keep_some(trial, what, disk, process):
    """A process answers some requests, and writes little for each. What a request keeps goes to the log and to its place, and a STORE to the host. All
    that it writes from its start on counts for the first request: it first writes what the log has of the process before to its place, and
    carries out again what waits."""
    kept = most_kept(disk)
    round_takes = 2 * kept + path_len(disk)
    before = 0
    client = disk.serve().client()
    for number in range(REQUESTS):
        reply = client.ask(WRITE, BLOCK * number, BLOCK, bytes([number] * BLOCK)) if process == 0 else client.ask(READ, BLOCK * number, BLOCK)
        wanted = (0, b"") if process == 0 else (0, bytes([number] * BLOCK))
        trial.check(f"{what}: request {number}", reply == wanted, reply)
        written = bytes_written(disk)
        took, before = written - before, written
        limit = round_takes if number else 2 * round_takes + process * REQUESTS * kept
        trial.check(f"{what}: what it writes for request {number}", 0 < took <= limit, (took, limit))
    client.close()
    disk.stop()


def bytes_written(disk):
    """How many bytes the process that serves a disk has handed to calls that write, to sockets among them, without as many as the log has: these it
    has copied at its start, or the log has grown by them."""
    lines = dict(line.split(": ") for line in Path(f"/proc/{disk.process.pid}/io").read_text().splitlines())
    return int(lines["wchar"]) - disk.kept.log.stat().st_size
