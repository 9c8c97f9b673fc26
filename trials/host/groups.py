"""STOREs that arrive together, alone or between the two PUTs of a stamp, which a host commits together."""

import signal

from trials import strace
from trials.bucket_host import check_answers
from trials.bucket_messages import DiskModel, put, shape
from trials.host.kills import either_store, format_tree, random_store

# The tree with the stamps of a disk, and the length of its records.
STAMP_TREE, STAMP_LEN = 254, 48

# A batch of the redo log costs two syncs: one before its gate is opened, and one after that.
SYNCS_OF_A_BATCH = 2

# How often a figure is taken. In between the host may empty its log, which costs more syncs, so the smallest one counts.
TRIES = 3


def try_groups(trial, depth=4, record_len=100):
    """STOREs that have arrived together are synced together, and the PUTs of a stamp around them with them."""
    if not strace.is_usable():
        trial.skip()
        return
    host, model = trial.host("groups").start(), DiskModel()
    format_tree(trial, host, model, depth, record_len)
    client = host.client()
    check_answers(trial, "the formatting of the stamps", client, model, formatting_of_stamps(trial.dice))
    check_answers(trial, "a STORE alone", client, model, [random_store(trial.dice, depth, record_len)])
    for count in (1, 8, 16):
        what = f"{count} STOREs" if count > 1 else "a single STORE"

        def stores(count=count):
            return [either_store(trial.dice, depth, record_len) for _ in range(count)]

        try_syncs(trial, what, host, client, model, stores)
        try_syncs(trial, f"{what} between the PUTs of a stamp", host, client, model, lambda: stamped(trial.dice, stores()))
    check_answers(trial, "what is there then", client, model, model.all_fetches())
    client.close()
    host.stop()


def formatting_of_stamps(dice):
    """The messages that format the tree with the stamps."""
    return [shape(STAMP_TREE, 1, STAMP_LEN)] + [put(STAMP_TREE, node, dice.randbytes(STAMP_LEN)) for node in range(3)]


def stamped(dice, stores):
    """A batch of a disk's client that has no FETCHes: a PUT of the stamp that begins it, STOREs, and a PUT of the stamp that says that they
    are done."""
    begun, done = [put(STAMP_TREE, node, dice.randbytes(STAMP_LEN)) for node in (0, 1)]
    return [begun, *stores, done]


def try_syncs(trial, what, host, client, model, make):
    """The host commits messages that arrive together as one batch. `make` makes some."""
    found = [syncs_of(trial, what, host, client, model, make()) for _ in range(TRIES)]
    if None in found:
        trial.skip()
    else:
        trial.check(f"the syncs of {what}", min(found) == SYNCS_OF_A_BATCH, found)


def syncs_of(trial, what, host, client, model, bodies):
    """How many syncs the host makes for messages that arrive together; None if they can't be counted here."""

    def ask_together():
        # While the host stands still, all of them arrive.
        host.process.send_signal(signal.SIGSTOP)
        client.send_all(bodies)
        host.process.send_signal(signal.SIGCONT)
        trial.check(f"the answers to {what}", [client.read() for _ in bodies] == [model.answer(body) for body in bodies])

    return strace.count_syncs(host.process, ask_together)
