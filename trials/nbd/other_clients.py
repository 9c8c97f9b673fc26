"""Clients of NBD that others wrote."""

import shutil
import subprocess

from trials.disk import Disk

PROGRAMS = ["nbdinfo", "nbdcopy", "qemu-io", "qemu-img", "mkfs.ext4", "e2fsck"]
QEMU_IO_COMMANDS = [
    "write -P 0x5a 1000 5000",
    "read -P 0x5a 1000 5000",
    "write -z 2000 9000",
    "read -P 0 2000 9000",
    "write -P 0x33 8192 65536",
    "discard 8192 65536",
    "read -P 0x33 8192 65536",
    "write -P 0x11 100000 70000",
    "flush",
    "read -P 0x11 100000 70000",
]


def run_to_end(trial, what, *words, folder=None):
    """A program that others wrote ends well. Returns what it printed."""
    try:
        end = subprocess.run(words, cwd=folder or trial.folder, capture_output=True, timeout=300)
    except subprocess.TimeoutExpired:
        trial.check(what, False, "it didn't end in five minutes")
        return ""
    trial.check(what, end.returncode == 0, (end.returncode, end.stdout[-300:], end.stderr[-300:]))
    return end.stdout.decode(errors="replace")


def compare_images(trial, what, image, disk):
    """qemu-img finds that an image and the disk hold the same."""
    run_to_end(trial, what, "qemu-img", "compare", "-f", "raw", "-F", "raw", str(image), disk.address())


def try_others(trial):
    """What nbdinfo, nbdcopy, qemu-io, qemu-img, mkfs.ext4 and e2fsck make of a disk."""
    missing = [name for name in PROGRAMS if shutil.which(name) is None]
    if missing:
        trial.skip(f"not here: {' '.join(missing)}")
        return
    disk = Disk(trial, "others", size="4MiB", sync=False).formatted()
    disk.serve()
    disk.client().close()
    trial.check("a client that leaves", len(disk.wait_for_lines(" until ", 1)) == 1)
    printed = run_to_end(trial, "nbdinfo", "nbdinfo", disk.address())
    trial.check("nbdinfo: its size", "export-size: 4194304" in printed, printed)
    trial.check("nbdinfo: the list", "export=" in run_to_end(trial, "nbdinfo --list", "nbdinfo", "--list", disk.address()))
    copy_file_system(trial, disk)
    words = [word for command in QEMU_IO_COMMANDS for word in ("-c", command)]
    printed = run_to_end(trial, "qemu-io", "qemu-io", "-f", "raw", *words, disk.address())
    trial.check("qemu-io: its patterns", "failed" not in printed, printed[-300:])
    disk.stop()
    disk.host.stop()


def copy_file_system(trial, disk):
    """An image with a file system and some files goes to the disk and comes back."""
    image = trial.folder / "image"
    image.write_bytes(bytes(4 << 20))
    files = trial.folder / "files"
    files.mkdir()
    for number in range(10):
        (files / f"{number}").write_bytes(trial.dice.randbytes(trial.dice.randrange(100_000)))
    run_to_end(trial, "mkfs.ext4", "mkfs.ext4", "-q", "-F", "-d", str(files), str(image))
    run_to_end(trial, "nbdcopy to the disk", "nbdcopy", str(image), disk.address())
    compare_images(trial, "qemu-img compare", image, disk)
    back = trial.folder / "back"
    run_to_end(trial, "nbdcopy from the disk", "nbdcopy", disk.address(), str(back))
    trial.check("the image came back", back.exists() and back.read_bytes() == image.read_bytes())
    run_to_end(trial, "e2fsck", "e2fsck", "-f", "-n", str(back))
