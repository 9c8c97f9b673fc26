"""Images of a disk: which names are refused, where they go, and what an export needs of the host."""

import os
import shutil
import signal

from trials import strace
from trials.bucket_messages import RECORDS, is_a
from trials.disk import Disk
from trials.disk_array import check_and_end
from trials.nbd.other_clients import run_to_end
from trials.nbd.whole_disk import check_export, start_export, used_disk
from trials.processes import end_of, start
from trials.statuses import BAD_FILE, RECORDS_LOST


def try_taken_names(trial):
    """An image takes the place of nothing: whatever has its name, or the name that it has until it is whole, stays as it is. So does a
    file that gets its name while the image is written."""
    disk, array = used_disk(trial, "taken")
    folder = trial.folder
    (folder / "link.img").symlink_to("target.img")
    os.mkfifo(folder / "pipe.img")
    (folder / "folder.img").mkdir()
    (folder / "half.img.unfinished").write_bytes(b"half")
    (folder / "other.img.unfinished").symlink_to("target.img")
    before = sorted(path.name for path in folder.iterdir())
    taken = ["link.img", "pipe.img", "folder.img", "folder.img/", "half.img.unfinished", "taken/disk.state", "taken/disk.state-log"]
    for image, name in [(name, name) for name in taken] + [(f"{name}.img", f"{name}.img.unfinished") for name in ("half", "other")]:
        end = end_of(start_export(disk, image))
        line = f"oramdisk: {name} is there already: name another file\n".encode()
        trial.check(f"an image {image}, where {name} is there", (end.status, end.err) == (BAD_FILE, line), end)
    trial.check("no name that was taken is lost", sorted(path.name for path in folder.iterdir()) == before)
    trial.check("a file that was there has its bytes", (folder / "half.img.unfinished").read_bytes() == b"half")

    late = folder / "late.img"
    disk.relay.instead = lambda body: late.write_bytes(b"late") and None if is_a(RECORDS, body) else None
    end = end_of(start_export(disk, "late.img"))
    disk.relay.instead = lambda body: None
    is_told = end.err.endswith(b"oramdisk: late.img is there already: name another file\n")
    trial.check("a name that is taken meanwhile", (end.status, is_told) == (BAD_FILE, True), end)
    trial.check("the file that took it has its bytes", late.exists() and late.read_bytes() == b"late")
    trial.check("the image that found its name taken is gone", not (folder / "late.img.unfinished").exists())
    check_export(trial, "an image of a name with spaces", disk, array, "mein Gerät – 1.img")
    check_and_end(trial, "taken: it goes on", disk, array)


def try_lost_output(trial):
    """An export or a check whose output goes nowhere ends with a line that says so, and leaves nothing."""
    disk, array = used_disk(trial, "output")
    for command, *more in (["check"], ["export", "-"]):
        words = [trial.oramdisk, command, "output/disk.toml", *more]
        with open("/dev/full", "wb") as full:
            end = end_of(start(words, trial.folder, stdout=full))
        line = b"oramdisk: standard output: the disk is full: make room on it\n"
        trial.check(f"{command} to a full disk", end.status == BAD_FILE and end.err.endswith(line), end)
        reader, writer = os.pipe()
        os.close(reader)
        end = end_of(start(words, trial.folder, stdout=writer))
        os.close(writer)
        line = b"oramdisk: can't open, read or write standard output: see that it is there and may be written, and that its disk has room\n"
        trial.check(f"{command} to a pipe that nobody reads", end.status == BAD_FILE and end.err.endswith(line), end)
    trial.check("nothing is left of that", not list(disk.folder.glob("*.export")))
    check_and_end(trial, "output: it goes on", disk, array)


# What the last line says of a file if its disk fails.
FAILED = "can't open, read or write {}: see that it is there and may be written, and that its disk has room"
# For each call of an export on its unfinished image that fails: the call, its error, which of these calls fails, and what the last line
# says of the file.
FAILURES = [
    ("openat", "EACCES", 1, "{}: permission denied: see that you may read and write it"),
    ("ftruncate", "EIO", 1, FAILED),
    ("pwrite64", "EIO", 3, FAILED),
    ("fsync", "EIO", 1, FAILED),
]


def try_failing_image(trial):
    """Each system call with which an export writes an image fails once. The export ends with a line about the file, and leaves nothing.
    On a file system without links an image gets its name all the same, and also then it replaces nothing."""
    if not strace.is_usable():
        trial.skip()
        return
    disk, array = used_disk(trial, "failing-image")
    image = trial.folder / "failing.img"
    words = ("export", "failing-image/disk.toml", "failing.img")
    name = "failing.img.unfinished"
    for calls, error, when, why in FAILURES:
        end = end_of(trial.start_under(strace.failing_on(trial.folder / name, calls, error, when), *words))
        holds = (end.status, end.err.decode().endswith(f"oramdisk: {why.format(name)}\n")) == (BAD_FILE, True)
        trial.check(f"an image whose {calls} fails: {error}", holds, end)
        trial.check(f"an image whose {calls} fails: nothing is left", not list(trial.folder.glob("failing.img*")))
    end = end_of(trial.start_under(strace.failing("linkat,link", "EPERM", 1), *words))
    trial.check("an image on a file system without links", end.status == 0 and array.wrong(image.read_bytes()) == [], end)
    trial.check("an image without links: no other file is left", [path.name for path in trial.folder.glob("failing.img*")] == ["failing.img"])
    end = end_of(trial.start_under(strace.failing_on(trial.folder, "fsync", "EIO", 1), "export", "failing-image/disk.toml", "second.img"))
    left = [path.read_bytes() for path in trial.folder.glob("second.img*")]
    trial.check("an image whose folder can't be synced", end.status == BAD_FILE and all(array.wrong(one) == [] for one in left), (end, len(left)))
    check_and_end(trial, "failing image: it goes on", disk, array)


def try_lost_map(trial):
    """An export needs no record of the trees of the position map, so it saves all of a disk whose host has lost them. A check tells."""
    disk, array = used_disk(trial, "lostmap", trees=2)
    asked = []

    def lose(body):
        """The host has no record of tree 1, which is one record long."""
        if not is_a(RECORDS, body):
            return None
        asked.append(body[2])
        return b"\x80\0" if body[2] == 1 else None

    disk.relay.instead = lose
    end = end_of(disk.start("check"))
    trial.check("a lost map: check", end.status == RECORDS_LOST and b"all sound\ntree 1: 1 record, 1 lost\n" in end.out, end)
    trial.check("a lost map: what it says of an export", end.out.endswith(b"all data is in tree 0, so an export loses nothing\n"), end)
    trial.check("a lost map: it was asked for", 1 in asked, asked)
    asked.clear()
    check_export(trial, "a lost map: export", disk, array, "lostmap.img")
    end = end_of(start_export(disk, "-"))
    trial.check("a lost map: export to standard output", b" to standard output: all 31 records are sound\n" in end.err, end.err)
    trial.check("a lost map: it wasn't asked for", set(asked) == {0}, asked)
    disk.relay.instead = lambda body: None
    check_and_end(trial, "a lost map: it goes on once it is back", disk, array)


def try_brought_back(trial):
    """An image is brought back into a new disk that is larger, and has another key and another number of trees, as docs/disk.md says. What
    is exported of that disk after its process was killed is the image, and then zeros."""
    if shutil.which("nbdcopy") is None:
        trial.skip("not here: nbdcopy")
        return
    disk, array = used_disk(trial, "first", trees=2)
    image = check_export(trial, "an image to bring back", disk, array, "back.img")
    disk.host.stop()
    larger = Disk(trial, "second", size="400kB").formatted()
    larger.serve().client().close()
    run_to_end(trial, "an image is copied to a new disk", "nbdcopy", "--destination-is-zero", "back.img", larger.address())
    larger.stop(signal.SIGKILL)
    end = end_of(start_export(larger, "larger.img"))
    whole = (trial.folder / "larger.img").read_bytes() if end.status == 0 else b""
    trial.check("what the new disk has", len(whole) > len(image) > 0 and whole == image.ljust(len(whole), b"\0"), (end, len(whole), len(image)))
    larger.host.stop()
