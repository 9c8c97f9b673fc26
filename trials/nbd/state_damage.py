"""Files of a disk's state that aren't whole, or that don't belong together: they are refused with the right line and stay as they are, or
the disk holds what it held."""

import shutil
import signal
import struct

from trials.bucket_file import BucketFile
from trials.disk import Disk
from trials.disk_array import DiskArray, check_and_end, check_disk, make_requests, write_block
from trials.kept_files import HEAD_AT, NUMBERS, ON_PAGE, PAGE_LEN, TABLE_AT, replayed
from trials.processes import end_of
from trials.statuses import DAMAGED, NO_STATE, NO_STATE_FILE, REPLACED_STATE, WRONG_LOG

LOG_IS = "oramdisk: the log of {}, the file beside it with -log after its name,"
# What is said of files that are refused, each with its status.
OTHER_KIND = NO_STATE, "oramdisk: {} isn't the state of a disk, and is left as it is: see that the settings name the right file"
BROKEN = NO_STATE, "oramdisk: {}, or its log, the file beside it with -log after its name, is damaged, and both are left as they are: put back the newest copies of both, if there are any; oramdisk refuses older ones"
CUT_SHORT = DAMAGED, "oramdisk: {} is shorter than it was, and is left as it is: put the whole file back"
NO_LOG = WRONG_LOG, f"{LOG_IS} isn't there: put back the one that it was served with last"
OTHER_LOG = WRONG_LOG, f"{LOG_IS} is another file's: put back the one that it was served with last"
OLDER_LOG = WRONG_LOG, f"{LOG_IS} is older than the file, and both are left as they are: put back the log that it was served with last"
OLDER_FILE = WRONG_LOG, "oramdisk: {} is older than its log, the file beside it with -log after its name, and both are left as they are: put back the file that was served last"
# The disk isn't refused, and holds what it held.
HOLDS = None

# A disk with few and small blocks, so that its log is short, and with two near levels, whose three records have 6,456 bytes.
SMALL_BLOCK, BLOCKS = 512, 63
SMALL_DISK = {"size": SMALL_BLOCK * BLOCKS, "block": SMALL_BLOCK, "table": 64, "near": 7000}


def used_disk(trial, name):
    """A disk that has been used until its process was killed, so that its log has entries, and its array. Its host runs. Since its last process has
    done little, the log is short."""
    disk, array = Disk(trial, name), DiskArray(SMALL_BLOCK * BLOCKS, SMALL_BLOCK)
    disk.set(**SMALL_DISK)
    disk.formatted()
    for ask in (lambda client: make_requests(trial, client, array, 5), lambda client: [write_block(trial, client, array, number) for number in range(4)]):
        client = disk.serve().client()
        ask(client)
        client.close()
        disk.stop(signal.SIGKILL)
    return disk, array


def settled(files):
    """What an opening makes of the files before it begins anything else: the entries are at their places, and the log is empty."""
    (state, records), (log, entries) = files.items()
    start = BucketFile.LOG_START
    return {state: replayed(records, entries), log: entries[:start] + BucketFile.SHUT + entries[start + 1 :]}


def what_counts(files):
    """The files without what is behind the shut gate at the beginning of a log: an opening copies no more of a log without entries."""
    (state, records), (log, entries) = files.items()
    start = BucketFile.LOG_START
    is_empty = entries[start : start + 1] == BucketFile.SHUT
    return {state: records, log: entries[: start + 1] if is_empty else entries}


def said_of(disk, status, lines):
    """What a command has said of a state, as above: its status, and its last line without the name of the state's file."""
    line = lines[-1] if lines else ""
    for name in (f"{disk.name}/disk.state", "disk.state"):
        line = line.replace(name, "{}")
    return status, line


def check_files(trial, what, disk, array, files, wanted):
    """The disk has these files. `status` and `serve` refuse them in the same way, and leave them as they are; or the disk holds what it held.
    `wanted` has the ways that are right. Returns whether they were refused."""
    disk.kept.put(files)
    end = end_of(disk.start("status"))
    is_sound = end.status == 0 and b"\nstate: it is sound\n" in end.out
    seen = HOLDS if is_sound else said_of(disk, end.status, end.err.decode().splitlines())
    trial.check(f"{what}: status", seen in wanted, end)
    trial.check(f"{what}: status leaves the files as they are", disk.kept.read() == files)
    client = disk.serve().client()
    if client is not None:
        trial.check(f"{what}: status says that it is sound, too", is_sound, end)
        check_disk(trial, f"{what}: what it holds", client, array)
        client.close()
        disk.stop(signal.SIGKILL)
        return False
    found = said_of(disk, disk.wait(), disk.lines())
    trial.check(f"{what}: serve", found == seen, found)
    trial.check(f"{what}: serve leaves the files as they are", what_counts(disk.kept.read()) == what_counts(files))
    return True


def regions(files):
    """The regions of the two files, by name: the file, where the region begins and ends, and the ways in which a changed bit there may end."""
    (state, records), (log, entries) = files.items()
    start, has_entries = BucketFile.LOG_START, entries[BucketFile.LOG_START : BucketFile.LOG_START + 1] == BucketFile.OPEN
    found = {
        "the letters": (state, 0, 16, {OTHER_KIND}),
        "the identity": (state, 16, 32, {OTHER_LOG}),
        "the first generation": (state, 32, 48, {HOLDS, BROKEN}),
        "the second generation": (state, 48, 64, {HOLDS, BROKEN}),
        "the length": (state, 64, 80, {HOLDS}),
        "what is between the front and the head": (state, 80, HEAD_AT, {HOLDS}),
        "the log's letters": (log, 0, 16, {OTHER_LOG}),
        "the log's identity": (log, 16, 32, {OTHER_LOG}),
        "the log's first generation": (log, 32, 48, {HOLDS, BROKEN}),
        "the log's second generation": (log, 48, 64, {HOLDS, BROKEN}),
        "what is between the front of the log and its first gate": (log, 64, start, {HOLDS}),
        "the first gate": (log, start, start + 1, {BROKEN}),
    }
    if has_entries:
        found |= regions_of_entries(log, entries)
    else:
        found |= regions_of_text(state, records)
    return found


def regions_of_entries(log, entries):
    """The regions of a log's entries: of the first one, of the last one, and of the one between."""
    at, found, places = BucketFile.LOG_START, {}, []
    while entries[at : at + 1] == BucketFile.OPEN:
        length = struct.unpack_from("<I", entries, at + 9)[0]
        places.append((at, length))
        at += BucketFile.HEAD_LEN + length + BucketFile.CHECK_LEN
    for name, (begin, length) in (("first", places[0]), ("middle", places[len(places) // 2]), ("last", places[-1])):
        data = begin + BucketFile.HEAD_LEN
        found[f"the gate of the {name} entry"] = (log, begin, begin + 1, {BROKEN})
        found[f"the place and length of the {name} entry"] = (log, begin + 1, data, {BROKEN})
        found[f"the bytes of the {name} entry"] = (log, data, data + length, {BROKEN})
        found[f"the checksum of the {name} entry"] = (log, data + length, data + length + BucketFile.CHECK_LEN, {BROKEN})
    found["the last gate"] = (log, at, at + 1, {BROKEN})
    found["what is behind the last gate"] = (log, at + 1, len(entries), {HOLDS})
    return found


def regions_of_text(state, records):
    """The regions in which a file without entries in its log has its text, but for the records."""
    before_len, numbers, after_len, records_len = struct.unpack_from("<4Q", records, HEAD_AT)
    first = TABLE_AT + 4 * min(numbers, NUMBERS)
    text = TABLE_AT + (-(-numbers // NUMBERS) + -(-records_len // ON_PAGE)) * PAGE_LEN
    return {
        "the head": (state, HEAD_AT, HEAD_AT + 48, {BROKEN}),
        "the first page": (state, TABLE_AT, first, {BROKEN}),
        "the checksum of the first page": (state, first, first + 8, {BROKEN}),
        "the title": (state, text, text + 65, {BROKEN}),
        "the text before the table": (state, text + 65, text + before_len, {BROKEN}),
        "the text behind the table": (state, text + before_len, text + before_len + after_len, {BROKEN}),
    }


def pages_of_records(records):
    """The pages that a file has of its records: where each begins, and where its checksum is."""
    numbers, _, records_len = struct.unpack_from("<3Q", records, HEAD_AT + 8)
    first = TABLE_AT + -(-numbers // NUMBERS) * PAGE_LEN
    for at in range(0, records_len, ON_PAGE):
        begin = first + at // ON_PAGE * PAGE_LEN
        yield begin, begin + min(ON_PAGE, records_len - at)


def flipped(files, file, at, bit):
    """The files with one bit changed."""
    whole = bytearray(files[file])
    whole[at] ^= 1 << bit
    return {**files, file: bytes(whole)}


def try_flipped_bits(trial):
    """A bit is changed in each region of both files, with a log that has entries and with an empty one."""
    disk, array = used_disk(trial, "flipped")
    files, is_empty = disk.kept.read(), False
    refused = 0
    for _ in range(2):
        for name in regions(settled(files) if is_empty else files):
            whole = settled(files) if is_empty else files
            file, begin, end, wanted = regions(whole)[name]
            at, bit = trial.dice.randrange(begin, end), trial.dice.randrange(8)
            what = f"flipped, entries: {not is_empty}: {name}, bit {bit} of byte {at}"
            if check_files(trial, what, disk, array, flipped(whole, file, at, bit), wanted):
                refused += 1
            else:
                files = disk.kept.read()
        is_empty = True
    trial.check("flipped: many were refused", refused > 20, refused)
    disk.kept.put(files)
    check_and_end(trial, "flipped: what it holds at last", disk, array)


def try_flipped_records(trial, bits=4):
    """A bit is changed on each page of the near records and of the digests of the formatting, in any place: it is told, but for the bytes of the last
    page that don't count."""
    disk, array = used_disk(trial, "flipped-records")
    files = settled(disk.kept.read())
    state, pages = disk.kept.state, list(pages_of_records(files[disk.kept.state]))
    records_len = sum(check - begin for begin, check in pages)
    sizes = disk.sizes()
    wanted = sizes.near_len(2) + sizes.digests_len()
    trial.check("flipped records: what there is", (records_len, len(pages)) == (wanted, -(-wanted // ON_PAGE)), (records_len, len(pages)))
    for number, (begin, check) in enumerate(pages):
        places = [begin, *(trial.dice.randrange(begin, check) for _ in range(bits)), check - 1, trial.dice.randrange(check, check + 8)]
        for at in places:
            bit = trial.dice.randrange(8)
            what = f"flipped records: page {number}, bit {bit} of byte {at}"
            check_files(trial, what, disk, array, flipped(files, state, at, bit), {BROKEN})
    begin, check = pages[-1]
    at = trial.dice.randrange(check + 8, begin + PAGE_LEN)
    check_files(trial, "flipped records: behind the last page's checksum", disk, array, flipped(files, state, at, 0), {HOLDS})
    check_and_end(trial, "flipped records: what it holds at last", disk, array)


def try_cut_files(trial):
    """Either file is cut off, also in the middle of the last batch, or the log has zeros from there on."""
    disk, array = used_disk(trial, "cut-files")
    files = disk.kept.read()
    (state, records), (log, entries) = files.items()
    places = regions_of_entries(log, entries)
    least = struct.unpack_from("<Q", records, 64)[0]
    for at, wanted in ((0, OTHER_KIND), (31, OTHER_KIND), (40, BROKEN), (80, CUT_SHORT), (HEAD_AT, CUT_SHORT), (least // 2, CUT_SHORT), (least - 1, CUT_SHORT)):
        check_files(trial, f"cut: the file at {at}", disk, array, {**files, state: records[:at]}, {wanted})
    for at, wanted in ((0, OTHER_LOG), (31, OTHER_LOG), (40, BROKEN), (80, BROKEN), (BucketFile.LOG_START, BROKEN)):
        check_files(trial, f"cut: the log at {at}", disk, array, {**files, log: entries[:at]}, {wanted})
    for name, (_, begin, end, _) in places.items():
        if name.startswith("what is behind"):
            continue
        for at in {begin, trial.dice.randrange(begin, end)}:
            check_files(trial, f"cut: the log in {name}, at {at}", disk, array, {**files, log: entries[:at]}, {BROKEN})
            zeros = entries[:at] + bytes(len(entries) - at)
            check_files(trial, f"cut: the log with zeros in {name}, from {at} on", disk, array, {**files, log: zeros}, {BROKEN})
    # The log has what was written to the file since it was begun, and nothing that counts behind its last gate.
    check_files(trial, "cut: the file where it ended before the log", disk, array, {**files, state: records[:least]}, {HOLDS})
    files = disk.kept.read()
    end = places_end(files[log])
    check_files(trial, "cut: the log behind its last gate", disk, array, {**files, log: files[log][: end + 1]}, {HOLDS})
    check_and_end(trial, "cut: what it holds at last", disk, array)


def places_end(entries):
    """Where a log's last gate is."""
    at = BucketFile.LOG_START
    while entries[at : at + 1] == BucketFile.OPEN:
        at += BucketFile.HEAD_LEN + struct.unpack_from("<I", entries, at + 9)[0] + BucketFile.CHECK_LEN
    return at


def moments(trial, disk, array):
    """Copies of the two files, in their order: of a disk that was formatted, that was killed, that has ended, and that was killed again."""
    yield "after the formatting", disk.kept.read()
    for when, how in (("after a kill", signal.SIGKILL), ("after an end", signal.SIGTERM), ("after another kill", signal.SIGKILL)):
        client = disk.serve().client()
        for number in range(3):
            write_block(trial, client, array, number)
        client.close()
        disk.stop(how)
        yield when, disk.kept.read()


def try_other_moments(trial):
    """A file and a log of two different moments are told, whichever of them is older. So are a log that is missing, and one of another disk. Then
    the two that belong together hold what was acknowledged."""
    disk, array = Disk(trial, "moments", table=16).formatted(), DiskArray()
    state, log = disk.kept.state, disk.kept.log
    copies = list(moments(trial, disk, array))
    for number, (earlier, older) in enumerate(copies):
        for later, newer in copies[number + 1 :]:
            both = {state: newer[state], log: older[log]}
            check_files(trial, f"the log {earlier} beside the file {later}", disk, array, both, {OLDER_LOG})
            both = {state: older[state], log: newer[log]}
            check_files(trial, f"the file {earlier} beside the log {later}", disk, array, both, {OLDER_FILE})
    newest = copies[-1][1]
    try_other_logs(trial, disk, newest)
    disk.kept.put(newest)
    client = disk.serve().client()
    check_disk(trial, "moments: what it holds with the two that belong together", client, array)
    try_within_generation(trial, disk, array, client)


def try_other_logs(trial, disk, newest):
    """In place of the log there is nothing, another disk's log, a folder, or a link that leads nowhere; or there is only the log."""
    state, log = disk.kept.state, disk.kept.log
    other = Disk(trial, "other-moments", table=16).formatted()
    other.host.stop()
    for what, put, wanted in (
        ("nothing", lambda: None, NO_LOG),
        ("another disk's log", lambda: shutil.copy(other.kept.log, log), OTHER_LOG),
        ("a folder", log.mkdir, OTHER_LOG),
        ("a link that leads nowhere", lambda: log.symlink_to("nowhere"), OTHER_LOG),
    ):
        disk.kept.put(newest)
        log.unlink()
        put()
        left, held = disk.kept.left(), log.read_bytes() if log.is_file() else None
        for command, *more in (["status"], ["serve"], ["check"], ["export", "moments.img"]):
            end = end_of(trial.start(command, "moments/disk.toml", *more))
            trial.check(f"moments: {what} in place of the log: {command}", said_of(disk, end.status, end.err.decode().splitlines()) == wanted, end)
        same = state.read_bytes() == newest[state] and (disk.kept.left(), log.read_bytes() if log.is_file() else None) == (left, held)
        trial.check(f"moments: {what} in place of the log: all is left as it is", same)
        log.rmdir() if log.is_dir() else log.unlink(missing_ok=True)
    disk.kept.put(newest)
    state.unlink()
    how = "see that its place is mounted; if the disk isn't formatted yet, start its host, and then say oramdisk format"
    for command in ("status", "serve"):
        trial.ends(f"moments: no file beside the log: {command}", disk.start(command), NO_STATE_FILE, f"oramdisk: there is no state moments/disk.state: {how}")
    trial.check("moments: no file beside the log: all is left as it is", disk.kept.left() == [log.name] and log.read_bytes() == newest[log])


def try_within_generation(trial, disk, array, client):
    """Between two moments of one generation the log has grown. The newer log has all of it, whatever the file has. An older log has an older
    state, which is refused."""
    state, log = disk.kept.state, disk.kept.log
    write_block(trial, client, array, 5)
    older = disk.kept.read()
    for number in (6, 7, 8):
        write_block(trial, client, array, number)
    client.close()
    disk.stop(signal.SIGKILL)
    newest = disk.kept.read()
    disk.kept.put({state: newest[state], log: older[log]})
    end = end_of(disk.start("serve"))
    trial.check("moments: a log of the same generation that is older", end.status == REPLACED_STATE, end)
    check_files(trial, "moments: a file of the same generation that is older", disk, array, {state: older[state], log: newest[log]}, {HOLDS})
    check_and_end(trial, "moments: what it holds at last", disk, array)
