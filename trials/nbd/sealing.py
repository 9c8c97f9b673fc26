"""What the host sees of a disk's blocks, and the keys on which that rests."""

import tomllib

from trials import strace
from trials.disk import BLOCK, Disk
from trials.nbd_client import WRITE
from trials.processes import end_of, start


def try_sealed(trial):
    """What a client wrote is found in the host's file only if the disk isn't sealed."""
    for sealer in ("chacha", "plain"):
        disk = Disk(trial, f"sealed-{sealer}", table=16, sealer=sealer).formatted()
        client = disk.serve().client()
        written = trial.dice.randbytes(BLOCK)
        for block in range(20):
            trial.check(f"{sealer}: a WRITE", client.ask(WRITE, BLOCK * block, BLOCK, written) == (0, b""))
        disk.end(client)
        seen = any(written[1000:1100] in whole for whole in disk.host_files().values())
        trial.check(f"{sealer}: what the host sees", seen == (sealer == "plain"), seen)


def try_keys(trial):
    """Each new disk has a key of its own, and each formatting a salt of its own, from which the other keys are derived."""
    disks = [Disk(trial, f"keys-{number}") for number in range(3)]
    keys = {tomllib.loads(disk.settings_file.read_text())["key"] for disk in disks}
    trial.check("keys: each disk has one of its own", len(keys) == len(disks), keys)
    trial.check("keys: they look random", all(len(set(bytes.fromhex(key))) > 16 for key in keys), keys)
    # The second disk gets the key of the first one, so only the salts tell them apart.
    disks[1].set(key=min(keys))
    disks[0].set(key=min(keys))
    for disk in disks:
        disk.formatted()
        disk.host.stop()
    heads = [disk.kept.text()[:64] for disk in disks]
    salts, checks = {head[:32] for head in heads}, {head[32:] for head in heads}
    trial.check("keys: each formatting has a salt of its own", len(salts) == len(disks), heads)
    trial.check("keys: the salts look random", all(len(set(salt)) > 16 for salt in salts), heads)
    trial.check("keys: what is derived from one key and two salts differs", len(checks) == len(disks), heads)
    try_known_bytes(trial)


def try_known_bytes(trial):
    """The key of a new disk, and the salt of a formatting, are the bytes that the system gave when it was asked for random ones."""
    if not strace.is_usable():
        trial.skip()
        return
    key, salt = bytes(range(32)), bytes(range(100, 132))
    made = end_of(start([*strace.giving_random(key), trial.oramdisk, "new", "drawn", "--size", "256kB"], trial.folder))
    settings = trial.folder / "drawn" / "disk.toml"
    trial.check("keys: the key that was drawn", made.status == 0 and tomllib.loads(settings.read_text())["key"] == key.hex(), made)
    disk = Disk(trial, "salted")
    disk.start_host()
    end = end_of(start([*strace.giving_random(salt), trial.oramdisk, "format", "disk.toml"], disk.folder))
    disk.host.stop()
    trial.check("keys: the salt that was drawn", end.status == 0 and disk.kept.text()[:32] == salt, end)
