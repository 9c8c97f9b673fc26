"""Near records, and digests of the formatting, that were changed in a disk's state together with their checksums: the core notices, since it checks
each record against the digest in the one above it."""

import struct

from trials.disk import Disk
from trials.disk_array import DiskArray, check_and_end
from trials.formats.ciphers import siphash
from trials.nbd.state_damage import pages_of_records, settled
from trials.nbd.tampering import check_failure

# The bytes of a digest, of which two are kept of each upper node.
DIGEST = 32


def changed(files, state, places):
    """The settled files of a state with a bit changed at each of these places of its records, and with right checksums."""
    whole, pages = bytearray(files[state]), list(pages_of_records(files[state]))
    on_page = pages[0][1] - pages[0][0]
    for place in places:
        begin, check = pages[place // on_page]
        whole[begin + place % on_page] ^= 1
        whole[check : check + 8] = struct.pack("<Q", siphash(bytes(whole[begin:check])))
    return {**files, state: bytes(whole)}


def nodes_at(level):
    return range(2**level - 1, 2 ** (level + 1) - 1)


def try_changed_records(trial):
    """All near records of a level are changed, or all digests that are kept of a level: the disk, which was never used, fails at that level, and goes
    on with its own state. Its tree has seven levels, and the upper nodes are those of the first three."""
    for what, near, levels, place_of in (
        ("near records", 120_000, 3, lambda disk, node: disk.sizes().record_len() * node + 50),
        ("digests of the formatting", 0, 3, lambda disk, node: 2 * DIGEST * node + trial.dice.randrange(2 * DIGEST)),
    ):
        disk = Disk(trial, f"changed-{near}", table=64, near=near, leaf_load=1).formatted()
        disk.host.stop()
        sizes, own, host_files = disk.sizes(), settled(disk.kept.read()), disk.host_files()
        found = (sizes.near_levels(near), sizes.upper_counts(), disk.kept.records_len(), sizes.depths())
        trial.check(f"changed {what}: what there is", found == (3 if near else 0, [7], sizes.near_len(found[0]) + 7 * 64, [6]), found)
        for level in range(levels):
            disk.put_host_files(host_files)
            disk.kept.put(changed(own, disk.kept.state, [place_of(disk, node) for node in nodes_at(level)]))
            disk.start_host()
            check_failure(trial, disk, level)
        disk.put_host_files(host_files)
        disk.kept.put(own)
        disk.start_host()
        check_and_end(trial, f"changed {what}: what it holds with its own ones", disk, DiskArray())
