"""A host's two files after one bit in them has changed: a disk gets old, or a copy goes wrong."""

import shutil
import signal

from trials.bucket_file import BucketFile, log_of
from trials.bucket_host import Host, check_answers
from trials.bucket_messages import Model, store
from trials.host.kills import format_tree
from trials.statuses import DAMAGED, NO_BUCKETS, OTHER_VERSION, WRONG_LOG

DEPTH, RECORD_LEN = 3, 200

# How a host may end that is given such files, and what its line has to name.
REFUSALS = (DAMAGED, NO_BUCKETS, OTHER_VERSION, WRONG_LOG)


def killed_host(trial, name, stores=6):
    """A host that was killed, in a folder of this name, with STOREs that are in its log. Returns it with its model."""
    host, model = trial.host(name).start(), Model()
    format_tree(trial, host, model, DEPTH, RECORD_LEN)
    client = host.client()
    records = lambda: [trial.dice.randbytes(RECORD_LEN) for _ in range(DEPTH + 1)]
    leaves = (trial.dice.randrange(1 << DEPTH) for _ in range(stores))
    check_answers(trial, "STOREs before a kill", client, model, [store(0, leaf, records()) for leaf in leaves])
    host.stop(signal.SIGKILL)
    client.close()
    return host, model


def places_of_log(host):
    """The kinds of bytes in a log, with the places of each: its front, gates, places, lengths, bytes, checksums, the gate at its end."""
    entries, end = BucketFile(host.path()).entries()
    parts = {"a gate": (0, 1), "a place": (1, 9), "a length": (9, 13)}
    found = {"the log's front": list(range(32)), "the gate at the end": [end]}
    for name, (first, last) in parts.items():
        found[name] = [at + place for at, _ in entries for place in range(first, last)]
    found["the bytes of an entry"] = [at + place for at, length in entries for place in range(13, length - 8)]
    found["a checksum"] = [at + place for at, length in entries for place in range(length - 8, length)]
    return found


def flipped(data, at, bit):
    """The bytes with one bit changed."""
    return data[:at] + bytes([data[at] ^ 1 << bit]) + data[at + 1 :]


def try_flip(trial, host, model, what, in_log, at, bit):
    """With this bit changed, a host answers as before, or it refuses the files, names them, and leaves them as they are. Returns
    whether it refused them."""
    rotten = Host(trial.oramdisk, trial.folder / "rotten", host.file)
    for old, new, is_it in ((host.path(), rotten.path(), not in_log), (log_of(host.path()), log_of(rotten.path()), in_log)):
        shutil.copyfile(old, new)
        if is_it:
            new.write_bytes(flipped(old.read_bytes(), at, bit))
    before = [file.read_bytes() for file in (rotten.path(), log_of(rotten.path()))]
    seen = len(rotten.lines()) if (rotten.folder / "log").exists() else 0
    rotten.start()
    client = rotten.client()
    name = f"{what} at {at}, bit {bit}"
    # A host listens before it opens its files, so a connection to one that refuses them may be there for a moment.
    if client.stream is None or client.ask(b"") is None:
        client.close()
        rotten.wait()
        lines = rotten.lines()[seen:]
        named = len(lines) == 1 and rotten.file in lines[0]
        trial.check(f"{name}: it is refused", rotten.process.returncode in REFUSALS and named, (rotten.process.returncode, lines))
        trial.check(f"{name}: the files stay", before == [file.read_bytes() for file in (rotten.path(), log_of(rotten.path()))])
        return True
    check_answers(trial, f"{name}: it answers as before", client, model, model.all_fetches())
    client.close()
    rotten.stop()
    return False


def try_rot(trial, of_each=30):
    """Whichever bit of the log or of the header has changed: nothing wrong is answered, and no STORE is gone unnoticed."""
    host, model = killed_host(trial, "rot")
    refused, tried = {}, 0
    kinds = [("the file's front", False, list(range(32))), ("the header", False, list(range(4096, 4112)))]
    kinds += [(what, True, places) for what, places in places_of_log(host).items()]
    for what, in_log, places in kinds:
        for _ in range(of_each):
            at, bit = trial.dice.choice(places), trial.dice.randrange(8)
            refused[what] = refused.get(what, 0) + try_flip(trial, host, model, what, in_log, at, bit)
            tried += 1
    trial.check("bits that were changed", tried >= of_each * 8, tried)
    print(f"{tried} bits changed, and refused: {refused}", flush=True)
