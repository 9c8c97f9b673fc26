"""Settings that aren't those with which a disk was formatted."""

import re

from trials.disk import BLOCK, SMALL, Disk
from trials.disk_array import DiskArray, check_and_end
from trials.statuses import CHANGED_SETTING, NO_STATE, WRONG_KEY


def try_wrong_settings(trial):
    """A disk has a wrong key, or numbers that aren't those of the formatting: `serve` and `status` say so, and change nothing."""
    disk = Disk(trial, "settings", table=16).formatted()
    file = disk.settings_file
    right, kept = file.read_text(), disk.kept.text()
    changed = "oramdisk: {} in settings/disk.toml was {} when the disk was formatted: put that back"
    other_key = "oramdisk: the key in settings/disk.toml isn't this disk's: put the one back that it was formatted with"
    key = re.search(r'^key = "(.*)"', right, re.MULTILINE)[1]
    for status, line, values in (
        (WRONG_KEY, other_key, {"key": key[:-1] + ("0" if key[-1] != "0" else "1")}),
        (CHANGED_SETTING, changed.format("size", SMALL), {"size": SMALL + BLOCK}),
        (CHANGED_SETTING, changed.format("block", BLOCK), {"block": 2048}),
        (CHANGED_SETTING, changed.format("slots", 4), {"slots": 3}),
        (CHANGED_SETTING, changed.format("leaf_load", 5), {"leaf_load": 1}),
        (CHANGED_SETTING, changed.format("table", 16), {"table": 8}),
        (CHANGED_SETTING, changed.format("sealer", '"chacha"'), {"sealer": "plain"}),
        (CHANGED_SETTING, changed.format("near", 0), {"near": 1 << 20}),
    ):
        disk.set(**values)
        for command in ("serve", "status"):
            trial.ends(f"{command} with another {list(values)[0]}", disk.start(command), status, line)
        file.write_text(right)
    trial.check("the state is as it was", disk.kept.text() == kept)
    try_older_states(trial, disk)
    check_and_end(trial, "with its own settings: what it holds", disk, DiskArray())
    try_older_disk(trial, changed.format("leaf_load", 1))


def try_older_states(trial, disk):
    """States of older versions, which have no log, are reported as such, and left as they are. So is a file that is no state."""
    files, text = disk.kept.read(), disk.kept.text()
    state, log = files
    log.unlink()
    line = "oramdisk: settings/disk.state is the state of a disk of an older version, and is left as it is: serve it with that version, and copy what is in it to a new disk"
    other = "oramdisk: settings/disk.state isn't the state of a disk, and is left as it is: see that the settings name the right file"
    older = [b"VIDLAQE%d" % number for number in range(1, 7)] + [b"VIDLAQEC\1" + bytes(7)]
    others = [b"VIDLAQE7" + text, b"VIDLAQEC\7" + bytes(7) + text, b"", b"VIDLAQEC"]
    for whole, says in [*((letters + text, line) for letters in older), *((whole, other) for whole in others)]:
        state.write_bytes(whole)
        for command in ("serve", "status", "check"):
            trial.ends(f"{command} with a state that begins with {whole[:9]}", disk.start(command), NO_STATE, says)
        trial.check(f"a state that begins with {whole[:9]} stays", state.read_bytes() == whole and disk.kept.left() == [state.name])
    disk.kept.put(files)


def try_older_disk(trial, line):
    """A disk with one block to a leaf, as older versions made all, whose settings have no leaf load: the line names the value."""
    disk = Disk(trial, "one-to-a-leaf", table=16, leaf_load=1).formatted()
    right = disk.settings_file.read_text()
    disk.settings_file.write_text(re.sub(r"^leaf_load = 1\n", "", right, flags=re.MULTILINE))
    trial.ends("serve of an older disk", disk.start("serve"), CHANGED_SETTING, line.replace("settings/", "one-to-a-leaf/"))
    disk.settings_file.write_text(right)
    check_and_end(trial, "an older disk with leaf_load = 1: what it holds", disk, DiskArray())
