"""A host that is killed: while it stores, right before a write or a sync, after a formatting, and while thousands of PUTs wait."""

import contextlib
import copy
import os
import signal
import tempfile
import threading
from pathlib import Path

from trials import strace
from trials.bucket_file import BucketFile
from trials.bucket_host import check_answers
from trials.bucket_messages import DONE, MISSING, PUT, SHAPE_TAKEN, DiskModel, Model, fetch, is_a, put, refused, shape, store, store_levels
from trials.host.messages import random_body

# How many bytes a host copies at once when it copies its log.
COPIED_AT_ONCE = 65536

# The most records of a formatting that a host leaves unsynced before it syncs them together.
MOST_PENDING = 4096


def messages_of_formatting(dice, depth, record_len):
    """The messages that format tree 0 with random records."""
    return [shape(0, depth, record_len)] + [put(0, node, dice.randbytes(record_len)) for node in range((2 << depth) - 1)]


def format_tree(trial, host, model, depth, record_len):
    """Tree 0 is formatted, over a connection of its own."""
    client = host.client()
    check_answers(trial, "the formatting of tree 0", client, model, messages_of_formatting(trial.dice, depth, record_len))
    client.close()


def random_store(dice, depth, record_len):
    """A STORE of a random path of tree 0."""
    return store(0, dice.randrange(1 << depth), [dice.randbytes(record_len) for _ in range(depth + 1)])


def either_store(dice, depth, record_len):
    """A STORE of a random path of tree 0, or one of its levels from a random one on."""
    if dice.random() < 0.5:
        return random_store(dice, depth, record_len)
    first = dice.randrange(depth + 1)
    return store_levels(0, first, dice.randrange(1 << depth), [dice.randbytes(record_len) for _ in range(first, depth + 1)])


def store_until_killed(trial, host, model, depth, record_len):
    """Stores random paths until the host is killed. Returns the STORE that had no answer, and how many had one."""
    client = host.client()
    killer = threading.Timer(trial.dice.uniform(0.02, 0.6), lambda: host.process.send_signal(signal.SIGKILL))
    killer.start()
    stored = 0
    while True:
        last = either_store(trial.dice, depth, record_len)
        answer = client.ask(last)
        if answer is None:
            break
        trial.check("a STORE", answer == DONE, answer[:8].hex())
        model.answer(last)
        stored += 1
    killer.join()
    host.wait()
    client.close()
    return last, stored


def try_kills(trial, rounds=15, depth=4, record_len=2000):
    """The host is killed while it stores: what was acknowledged is there, and the STORE in flight is there whole or not at all."""
    host, model = trial.host("kills").start(), DiskModel()
    format_tree(trial, host, model, depth, record_len)
    in_all = 0
    for number in range(rounds):
        last, stored = store_until_killed(trial, host, model, depth, record_len)
        in_all += stored
        host.start()
        client = host.client()
        found = [client.ask(body) for body in model.all_fetches()]
        without = [model.answer(body) for body in model.all_fetches()]
        if found != without:
            model.answer(last)
        trial.check(f"kill {number}: every STORE whole", found == [model.answer(body) for body in model.all_fetches()])
        client.close()
    trial.check("STOREs between the kills", in_all > 0, in_all)
    host.stop()
    print(f"{in_all} STOREs between {rounds} kills", flush=True)


def prefixes(model, messages):
    """What a host holds before these messages, after the first, and so on to the last."""
    fetches, now = model.all_fetches(), copy.deepcopy(model)
    held = [[now.answer(body) for body in fetches]]
    for body in messages:
        now.answer(body)
        held.append([now.answer(body) for body in fetches])
    return held


def store_groups_until_killed(trial, host, depth, record_len, together):
    """Stores random paths, some of them in one write each time, until the host is killed. Returns them, and how many had an answer."""
    client = host.client()
    killer = threading.Timer(trial.dice.uniform(0.02, 0.6), lambda: host.process.send_signal(signal.SIGKILL))
    killer.start()
    sent, answered, goes_on = [], 0, True
    while goes_on:
        group = [either_store(trial.dice, depth, record_len) for _ in range(together)]
        sent += group
        goes_on = client.send_all(group)
        for _ in group if goes_on else []:
            answer = client.read()
            if answer is None:
                goes_on = False
                break
            trial.check("a STORE of a group", answer == DONE, answer[:8].hex())
            answered += 1
    killer.join()
    host.wait()
    client.close()
    return sent, answered


def try_killed_groups(trial, rounds=15, depth=4, record_len=700, together=16):
    """The host is killed while STOREs arrive together: what was acknowledged is there, and of the others a beginning, each of them whole."""
    host, model = trial.host("killed-groups").start(), DiskModel()
    format_tree(trial, host, model, depth, record_len)
    in_all = 0
    for number in range(rounds):
        sent, answered = store_groups_until_killed(trial, host, depth, record_len, together)
        in_all += answered
        host.start()
        client = host.client()
        found = [client.ask(body) for body in model.all_fetches()]
        held = prefixes(model, sent[: answered + together])[answered:]
        trial.check(f"kill {number}: every acknowledged STORE, and a beginning of the others", found in held, (answered, len(sent)))
        for body in sent[: answered + (held.index(found) if found in held else 0)]:
            model.answer(body)
        client.close()
    trial.check("STOREs between the kills", in_all > 0, in_all)
    host.stop()
    print(f"{in_all} STOREs that arrived together between {rounds} kills", flush=True)


def try_left_groups(trial, depth=4, record_len=700, together=16):
    """A client sends STOREs in one write and leaves, so that nobody reads the answers: a beginning of them is there, each of them whole. And
    a client sends STOREs one byte at a time, and gets an answer to each."""
    host, model = trial.host("left-groups").start(), DiskModel()
    format_tree(trial, host, model, depth, record_len)
    group = [either_store(trial.dice, depth, record_len) for _ in range(together)]
    client = host.client()
    client.send_all(group)
    client.stream.close()
    client = host.client()
    found = [client.ask(body) for body in model.all_fetches()]
    held = prefixes(model, group)
    trial.check("a client that left: a beginning of its STOREs", found in held, "")
    for body in group[: held.index(found) if found in held else 0]:
        model.answer(body)
    slow = [either_store(trial.dice, depth, 1) for _ in range(3)] + [either_store(trial.dice, depth, record_len)] + model.all_fetches()[:2]
    client.send_slowly(slow)
    given = [client.read() for _ in slow]
    trial.check("one byte at a time", given == [model.answer(body) for body in slow], given[:4])
    client.close()
    host.stop()


def try_cut_writes(trial, rounds=40):
    """The host is killed right before a write or a sync, even while it opens its file: what was acknowledged is there, and the
    request in flight is there whole or not at all. Of the PUTs that no other answer has covered yet, a beginning is there."""
    if not strace.is_usable():
        trial.skip()
        return
    host, model = trial.host("cut-writes"), DiskModel()
    host.start().client().close()
    host.stop()
    cuts = 0
    for _ in range(rounds):
        # A host first copies its log. Most of the cuts come after that.
        opening = log_of(host).stat().st_size // COPIED_AT_ONCE + 3
        when = trial.dice.randrange(1, 60) + trial.dice.choice([0, opening, opening, opening])
        host.start(strace.killing_before("pwrite64,fdatasync,fsync", when))
        states, has_ended = ask_until_killed(trial, host, model)
        # strace ends by the same signal as the program that it runs.
        cuts += has_ended and host.process.returncode == -signal.SIGKILL
        model = state_after_cut(trial, host, states, when)
        if model is None:
            break
    trial.check("cuts", cuts > rounds // 4, cuts)
    print(f"{cuts} hosts cut off at a write or a sync", flush=True)


def log_of(host):
    """The log beside a host's file."""
    return host.path().with_name(f"{host.path().name}-log")


def ask_until_killed(trial, host, model, count=40):
    """Asks at random until the host ends. Returns what may be there then, from what is there for sure to what would be there with the
    request that had no answer; and whether the host ended before all were asked."""
    states, client = [model], host.client()
    for _ in range(count):
        body = random_body(trial.dice, states[-1])
        then = copy.deepcopy(states[-1])
        wanted, answer = then.answer(body), client.ask(body)
        states.append(then)
        if answer is None:
            break
        trial.check("an answer before the cut", answer == wanted, answer[:8].hex())
        if not is_a(PUT, body) and answer[:1] == DONE:
            states = [then]
    client.close()
    has_ended = answer is None
    if not has_ended:
        kill_children(host.process)
    host.wait()
    return states, has_ended


def kill_children(tracer):
    """Kills the processes that strace watches; it ends with them. They may have ended by now, at a write after the connection's end."""
    with contextlib.suppress(OSError):
        for watched in Path(f"/proc/{tracer.pid}/task/{tracer.pid}/children").read_text().split():
            os.kill(int(watched), signal.SIGKILL)


def state_after_cut(trial, host, states, when):
    """The state in which the host is found after a cut; None if it is none of those in which it may be."""
    host.start()
    client = host.client()
    fetches = states[-1].all_fetches()
    found = [client.ask(body) for body in fetches]
    client.close()
    host.stop()
    # Answers don't tell which of the states it is: a FETCH shows no record of a path that lacks another one. The file does.
    records = BucketFile(host.path()).records()
    may_be = [state for state in states if state.records == records and found == [state.answer(body) for body in fetches]]
    trial.check(f"a cut before write {when}: each request whole", may_be, [answer and answer[:4].hex() for answer in found][:8])
    return may_be[-1] if may_be else None


def try_killed_formatting(trial, depth=5, record_len=300):
    """What a formatting put before a SHAPE was answered is there after a kill, and so is the shape."""
    host, model = trial.host("formatting").start(), Model()
    client = host.client()
    bodies = messages_of_formatting(trial.dice, depth, record_len)
    check_answers(trial, "a formatting's first tree", client, model, bodies + [shape(1, 1, 8)])
    for node in range(3):
        client.ask(put(1, node, bytes(8)))
    client = kill_and_start(host, client)
    check_answers(trial, "its records after a kill", client, model, [fetch(0, leaf) for leaf in range(1 << depth)])
    trial.check("its second shape after a kill", client.ask(shape(1, 1, 8)) == refused(SHAPE_TAKEN))
    client.close()
    host.stop()


def try_many_puts(trial, depth=12):
    """One PUT more than may wait to be synced makes the host sync those before it. So after a kill these are there, and that one isn't."""
    host, model = trial.host("many").start(), Model()
    client = host.client()
    # Nodes 4095 and 4096 are leaves 0 and 1, and all nodes above a leaf were put before it.
    bodies = [shape(0, depth, 1)] + [put(0, node, bytes([node % 251])) for node in range(MOST_PENDING + 1)]
    check_answers(trial, "one PUT more than may wait", client, model, bodies)
    client = kill_and_start(host, client)
    check_answers(trial, "what was synced, after a kill", client, model, [fetch(0, 0)])
    trial.check("the last PUT, after a kill", client.ask(fetch(0, 1)) == refused(MISSING))
    client.close()
    host.stop()


def kill_and_start(host, client):
    """Kills the host and starts it again. Returns a new connection in place of the one that this broke."""
    host.stop(signal.SIGKILL)
    client.close()
    host.start()
    return host.client()
