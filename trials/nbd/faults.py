"""The faults of a disk: each has a line and a status."""

import subprocess

from trials import strace
from trials.disk import BLOCK, Disk
from trials.nbd.formatting import check_that_host_has_a_disk
from trials.nbd.lost_host import unreachable
from trials.ports import free_port
from trials.processes import LONGEST_WAIT, end_of, start
from trials.statuses import BAD_FILE, BAD_WORDS, DAMAGED, NO_STATE, NO_STATE_FILE, OUT_OF_REACH


def try_faults(trial):
    """Each fault of a disk has a line and a status."""
    try_words(trial)
    disk = Disk(trial, "faults", size="1MiB")
    try_unformatted(trial, disk)
    files = try_formattings(trial, disk)
    try_damaged_state(trial, disk, files)
    try_lost_report(trial, disk)


def try_words(trial):
    """Command lines that can't be read, that ask for help, or that name what can't be had."""
    missing, unexpected = "the following required arguments were not provided:", "unexpected argument '{}' found"
    for words, wrong in (
        (["new", "x"], missing),
        (["new", "--size", "1MiB"], missing),
        (["serve"], missing),
        (["status", "a", "b"], unexpected.format("b")),
        (["serve", "a", "--size", "1MiB"], unexpected.format("--size")),
        (["sreve", "a"], "unrecognized subcommand 'sreve'"),
    ):
        refused = end_of(trial.start(*words))
        holds = refused.err.decode().startswith(f"oramdisk: {wrong}\n") and b"\nUsage: " in refused.err
        trial.check(f"words {words}", (refused.status, refused.out) == (BAD_WORDS, b"") and holds, refused)
    for words in (["--help"], ["-h"], ["help"], ["help", "serve"], ["retry", "-h"], ["--version"], ["serve", "--version"]):
        helped = end_of(trial.start(*words))
        trial.check(f"words {words}", (helped.status, helped.err) == (0, b"") and helped.out.endswith(b"\n"), helped)
    for size, why in (
        ("257GiB", "no disk has the size 257GiB: name one up to 256GiB"),
        ("big", "big isn't a size: name a number and its unit, such as 512MiB or 1GiB"),
        ("0", "0 isn't a size: name a number and its unit, such as 512MiB or 1GiB"),
        ("1G", "the size 1G has half a unit: write 1GiB, or 1GB for powers of ten"),
        ("64", "a disk of 64 bytes would be smaller than one block, which has 4096: name a size and its unit, such as 64MiB"),
    ):
        line = f"oramdisk: {why}"
        trial.ends(f"the size {size}", trial.start("new", "x", f"--size={size}"), BAD_WORDS, line)
    line = "oramdisk: none/x: no such file or folder: see that its name is right"
    trial.ends("no folder is made", trial.start("new", "none/x", "--size", "1MiB"), BAD_FILE, line)


def try_unformatted(trial, disk):
    """Commands for a disk without settings, and for one that isn't formatted."""
    line = "oramdisk: none.toml: no such file or folder: see that its name is right"
    trial.ends("no settings", trial.start("format", "none.toml"), BAD_FILE, line)
    how = "see that its place is mounted; if the disk isn't formatted yet, start its host, and then say oramdisk format"
    for command in ("serve", "status", "retry"):
        trial.ends(f"{command}: no state", disk.start(command), NO_STATE_FILE, f"oramdisk: there is no state faults/disk.state: {how}")


def try_formattings(trial, disk):
    """Settings that no disk can have, and formattings without a host or at a host that has a disk already. Returns what the files of the disk held,
    which was formatted; they are gone."""
    disk.set(size=1000)
    line = "faults/disk.toml, line 2: size has to be a whole number of blocks, from 1 to 67108864 of them"
    trial.ends("numbers of no disk", disk.format(), BAD_WORDS, f"oramdisk: {line}")
    # A disk that clients of 512 bytes can't see whole.
    disk.set(size=4000, block=1000)
    line = "faults/disk.toml: size has to be a multiple of 512, since clients count the bytes of a disk by so many"
    trial.ends("no whole sectors", disk.format(), BAD_WORDS, f"oramdisk: {line}")
    disk.set(block=BLOCK)
    trial.ends("a folder in place of settings", trial.start("serve", "faults"), BAD_FILE, "oramdisk: faults is a folder: name a file in it")
    disk.set(size=1 << 20, sealer="none")
    trial.ends("bad settings", disk.format(), BAD_WORDS, 'oramdisk: faults/disk.toml, line 18: sealer has to be "chacha" or "plain"')
    nobody = f"127.0.0.1:{free_port()}"
    disk.set(sealer="chacha", host=nobody)
    end = end_of(disk.format())
    *lines, last = end.err.decode().splitlines()
    trial.check("no host", (end.status, end.out, last) == (OUT_OF_REACH, b"", unreachable(nobody)), end)
    disk.check_progress(lines)
    disk.set(host=disk.host_address())
    disk.start_host()
    disk.introduced_again("no host: once there is one")
    files = disk.kept.read()
    for file in files:
        file.unlink()
    check_that_host_has_a_disk(trial, "a host that has a disk", disk)
    return files


def try_damaged_state(trial, disk, files):
    """The last byte of the state is missing, or one in its text is another."""
    state, log = files
    whole = files[state]
    cut = "oramdisk: faults/disk.state is shorter than it was, and is left as it is: put the whole file back"
    damaged = "oramdisk: faults/disk.state, or its log, the file beside it with -log after its name, is damaged, and both are left as they are: put back the newest copies of both, if there are any; oramdisk refuses older ones"
    for held, status, line in ((whole[:-1], DAMAGED, cut), (whole[:-1] + bytes([whole[-1] ^ 1]), NO_STATE, damaged)):
        disk.kept.put({state: held, log: files[log]})
        for command in ("serve", "status"):
            trial.ends(f"{command}: {line}", disk.start(command), status, line)
        trial.check(f"{line}: it is", state.read_bytes() == held)
    disk.kept.put(files)
    disk.host.stop()


def try_lost_report(trial, disk):
    """A report that can't be written is a fault."""
    with open("/dev/full", "wb") as full:
        end = end_of(start([trial.oramdisk, "status", "faults/disk.toml"], trial.folder, stdout=full))
    line = "oramdisk: standard output: the disk is full: make room on it\n"
    trial.check("status: a report that can't be written", (end.status, end.err.decode()) == (BAD_FILE, line), end)


def try_denied(trial):
    """The program names a file of the disk that the system doesn't let it open, with the system's reason."""
    if not strace.is_usable():
        trial.skip()
        return
    disk = Disk(trial, "denied", size="16kB", table=16).formatted()
    disk.host.stop()
    for command, name in (("status", "disk.state"), ("serve", "disk.state"), ("serve", "disk.state.lock"), ("retry", "disk.state.lock")):
        file = f"denied/{name}"
        words = [*strace.denying(file), trial.oramdisk, command, "denied/disk.toml"]
        refused = subprocess.run(words, cwd=trial.folder, capture_output=True, text=True, timeout=LONGEST_WAIT)
        line = f"oramdisk: {file}: permission denied: see that you may read and write it"
        seen = (refused.returncode, refused.stdout, refused.stderr.splitlines()[-1:])
        trial.check(f"denied: {command}, {name}", seen == (BAD_FILE, "", [line]), refused)
