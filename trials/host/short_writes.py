"""A host whose system takes only a part of a write, since the host may make no file longer than that."""

import copy
import resource
import signal

from trials.bucket_file import BucketFile
from trials.bucket_host import check_answers
from trials.bucket_messages import DONE, Model, store
from trials.host.kills import format_tree

DEPTH, RECORD_LEN = 3, 30_000


def path_to(trial, leaf):
    """A STORE of new records on the path to a leaf."""
    return store(0, leaf, [trial.dice.randbytes(RECORD_LEN) for _ in range(DEPTH + 1)])


def try_short_writes(trial, rounds=4):
    """If the system takes a part of a write, in the log or in the file, nothing of it counts as written that isn't: a STORE that is answered
    can be read, and one that isn't answered is there whole or not at all."""
    host, model = trial.host("short-writes").start(), Model()
    format_tree(trial, host, model, DEPTH, RECORD_LEN)
    host.stop()
    base = BucketFile(host.path()).trees()[0][2]
    cut = 0
    for number in range(2 * rounds):
        leaf = trial.dice.randrange(2, 1 << DEPTH)
        # The second STORE of a host has its entries behind those of the first one, and the record of its leaf behind all of these.
        size = BucketFile.HEAD_LEN + 1 + RECORD_LEN + BucketFile.CHECK_LEN
        entries = BucketFile.LOG_START + (DEPTH + 1) * size
        cell = base + ((1 << DEPTH) - 1 + leaf) * BucketFile.cell_len(RECORD_LEN)
        first, length = (cell, RECORD_LEN) if number % 2 else (entries, (DEPTH + 1) * size)
        what = f"a write to the {'file' if number % 2 else 'log'} that is cut short"
        model, was_cut = store_up_to(trial, what, host, model, leaf, first + trial.dice.randrange(1, length))
        cut += was_cut
        if model is None:
            return
    trial.check("STOREs that were cut short", cut == 2 * rounds, cut)


def store_up_to(trial, what, host, model, leaf, limit):
    """A host stores a path, and then another one after it may make no file longer than `limit` bytes. Returns what is there then, or None if
    that isn't right, and whether the second STORE had no answer."""
    client = host.start().client()
    check_answers(trial, "a STORE before that", client, model, [path_to(trial, leaf)])
    resource.prlimit(host.process.pid, resource.RLIMIT_FSIZE, (limit, resource.RLIM_INFINITY))
    body, then = path_to(trial, leaf), copy.deepcopy(model)
    wanted, answer = then.answer(body), client.ask(body)
    if answer is not None:
        trial.check(f"{what}: the answer", answer == wanted == DONE, answer[:8].hex())
        check_answers(trial, f"{what}: what is there", client, then, then.all_fetches())
    client.close()
    # The system ends a process that goes on to write behind the limit.
    if answer is not None or host.process.poll() is None:
        host.process.send_signal(signal.SIGKILL)
    host.wait()
    client = host.start().client()
    found = [client.ask(body) for body in then.all_fetches()]
    client.close()
    host.stop()
    may_be = [then] if answer is not None else [model, then]
    left = next((each for each in may_be if found == [each.answer(body) for body in each.all_fetches()]), None)
    trial.check(f"{what}: the STORE is there whole or not at all", left is not None, [it and it[:4].hex() for it in found])
    return left, answer is None
