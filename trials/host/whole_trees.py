"""Trees that are read whole, each of their records once."""

import signal

from trials.bucket_host import check_answers
from trials.bucket_messages import RECORDS, DiskModel, fetch, path, put, records, shape, store
from trials.connections import frame_of, read_exactly, read_frame, reset_on_close
from trials.host.kills import format_tree

# All records of tree 0 fit in one answer, and make it nearly as long as a frame may be.
DEPTH, RECORD_LEN = 6, 8_000
NODES = (2 << DEPTH) - 1


def by_rows(answer):
    """The records that an answer gives, node by node."""
    found, at = [], 1
    while at < len(answer):
        length = RECORD_LEN if answer[at] == 1 else 0
        found.append(answer[at + 1 : at + 1 + length] if length else None)
        at += 1 + length
    return found


def by_fetches(client):
    """The same records, from a FETCH of each path."""
    found = [None] * NODES
    for leaf in range(1 << DEPTH):
        answer = client.ask(fetch(0, leaf))
        for level, node in enumerate(path(DEPTH, leaf)):
            found[node] = answer[1 + level * RECORD_LEN : 1 + (level + 1) * RECORD_LEN]
    return found


def refusals():
    """Requests that are refused, each for another reason or at another limit."""
    whole = records(0, 0, NODES)
    return [
        bytes([RECORDS]),
        whole[:-1],
        whole + b"\0",
        whole[:1] + b"\1" + whole[2:],
        records(7, 0, 1),
        records(0, NODES, 1),
        records(0, 1, NODES),
        records(0, (1 << 32) - 1, (1 << 32) - 1),
        records(0, 0, 0),
        records(2, 0, 3),
        records(2, 0, 2),
    ]


def try_whole_trees(trial, client, model):
    """Trees with gaps, and with records that wait to be committed, are given whole and in parts."""
    bodies = [shape(1, 3, 33), shape(2, 1, 400_000)]
    bodies += [put(1, node, trial.dice.randbytes(33)) for node in trial.dice.sample(range(15), 6)]
    check_answers(trial, "trees with gaps", client, model, bodies)
    for step in (NODES, 50, 1):
        check_answers(trial, f"{step} records at a time", client, model, [body for body in model.all_records(step) if body[2] < 2])
    check_answers(trial, "requests for records that are refused", client, model, refusals())
    check_answers(trial, "a STORE", client, model, [store(0, 5, [trial.dice.randbytes(RECORD_LEN)] * (DEPTH + 1))])
    check_answers(trial, "the records after a STORE", client, model, [records(0, 0, NODES)])
    trial.check("the records are those of the paths", by_rows(client.ask(records(0, 0, NODES))) == by_fetches(client))


def try_cut_answers(trial, host, model):
    """A client that leaves within an answer, and a host that is killed within one, harm nothing."""
    whole = records(0, 0, NODES)
    client = host.client()
    client.stream.sendall(frame_of(whole))
    read_exactly(client.stream, 1_000)
    reset_on_close(client.stream)
    client.stream.close()
    client = host.client()
    check_answers(trial, "the records after a client that left", client, model, [whole, records(0, 0, 50)])
    client.stream.sendall(frame_of(whole))
    read_exactly(client.stream, 1_000)
    host.stop(signal.SIGKILL)
    trial.check("no more of an answer than was sent", read_frame(client.stream) is None)
    client.close()
    host.start()
    client = host.client()
    check_answers(trial, "the rest of the records after a kill", client, model, [records(0, 50, NODES - 50), records(1, 0, 15), whole])
    client.close()


def try_records(trial):
    """RECORDS gives all that the host has: what FETCHes give, and which nodes have no record. It changes nothing."""
    host, model = trial.host("whole-trees").start(), DiskModel()
    format_tree(trial, host, model, DEPTH, RECORD_LEN)
    client = host.client()
    try_whole_trees(trial, client, model)
    client.close()
    try_cut_answers(trial, host, model)
    client = host.client()
    check_answers(trial, "all after that", client, model, [*model.all_records(20)[:7], fetch(0, 5), fetch(1, 0)])
    client.close()
    host.stop()
