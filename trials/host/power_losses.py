"""Losses of power, made from the system calls of a host: of what it wrote or renamed since it last synced a file or the folder, any part may
be gone."""

import copy
import tempfile
from pathlib import Path

from trials import strace
from trials.bucket_file import log_of
from trials.bucket_host import Host
from trials.host.kills import kill_children, random_store
from trials.host.rot import DEPTH, RECORD_LEN, killed_host

# A write that wasn't synced is there or isn't, or leaves other bytes, for each of its parts of so many bytes: a byte, a sector, a page.
PARTS_OF_WRITES = (1, 512, 4096)


def traced_life(trial, host, model, failing=None, connections=3, stores=4):
    """A host is started under strace, stores random paths over some connections, and is killed. If a number is given, the data sync with this
    number fails. Returns its two files as they were before, the calls since then, and the models after no STORE, one STORE, and so on."""
    before = {file: file.read_bytes() for file in (host.path().resolve(), log_of(host.path()).resolve())}
    models = [copy.deepcopy(model)]
    with tempfile.NamedTemporaryFile() as found:
        if failing is None:
            host.start(strace.noting_bytes(strace.CHANGES_AND_SENDS, found.name))
        else:
            host.start(strace.noting_bytes_and_failing(strace.CHANGES_AND_SENDS, found.name, "fdatasync", failing))
        for _ in range(connections):
            client = host.client()
            for _ in range(stores):
                client = store_until_answered(trial, host, client, model)
                models.append(copy.deepcopy(model))
            client.close()
        kill_children(host.process)
        host.wait()
        calls = strace.changes_and_sends(Path(found.name).read_text())
    return before, calls, models


def store_until_answered(trial, host, client, model):
    """Stores a random path. If the disk fails, the host ends the connection without an answer, and opens its files again. Returns the last
    connection."""
    body = random_store(trial.dice, DEPTH, RECORD_LEN)
    wanted, answer = model.answer(body), client.ask(body)
    if answer is None:
        client.close()
        client = host.client()
        answer = client.ask(body)
    trial.check("a STORE before a loss of power", answer == wanted, answer and answer[:8].hex())
    return client


class Disk:
    """The files of a folder, as calls leave them in the system's memory, and what a loss of power may leave of them."""

    def __init__(self, before):
        # A file has a number, by which its calls are kept. A name leads to a file, and may lead to another one by now.
        self.names = {name: number for number, name in enumerate(before)}
        self.first = dict(enumerate(before.values()))
        self.writes = {number: [] for number in self.first}
        self.synced = {number: 0 for number in self.first}
        # The writes that a sync left out as it failed: no later sync covers them, although a read returns them.
        self.left_out = {number: set() for number in self.first}
        self.folder = next(iter(before)).parent
        self.names_since_sync = [dict(self.names)]

    def make(self, call):
        """Takes one more call."""
        if call.name == "create":
            number = self.names[call.file] = len(self.first)
            self.first[number], self.writes[number], self.synced[number], self.left_out[number] = b"", [], 0, set()
        elif call.name == "rename":
            self.names[call.new_name] = self.names.pop(call.file)
        elif call.name == "unlink":
            del self.names[call.file]
        elif call.is_write():
            self.writes[self.names[call.file]].append(call)
        elif call.is_failed_sync():
            number = self.names[call.file]
            self.left_out[number].update(range(self.synced[number], len(self.writes[number])))
        elif call.is_sync() and call.file == self.folder:
            self.names_since_sync = []
        elif call.is_sync():
            self.synced[self.names[call.file]] = len(self.writes[self.names[call.file]])
        self.names_since_sync.append(dict(self.names))

    def after_loss(self, dice):
        """Files by name: each name leads where it led at some moment since the folder was synced."""
        part, wanted = dice.choice(PARTS_OF_WRITES), {name for names in self.names_since_sync for name in names}
        led = {name: dice.choice(self.names_since_sync).get(name) for name in sorted(wanted)}
        left = {number: self.bytes_after_loss(dice, number, part) for number in self.first}
        return {name: left[number] for name, number in led.items() if number is not None}

    def bytes_after_loss(self, dice, number, part):
        data = bytearray(self.first[number])
        for place, call in enumerate(self.writes[number]):
            if place < self.synced[number] and place not in self.left_out[number]:
                data.extend(bytes(max(0, call.place - len(data))))
                data[call.place : call.place + len(call.data)] = call.data
            else:
                lose_parts(dice, data, call.place, call.data, part)
        return data


def lose_parts(dice, data, place, new, part):
    """These bytes after a write that wasn't synced: each part of the file of so many bytes is there, isn't, or is other bytes. A single byte
    is never another one, since no disk tears it. Nor are zeros behind the file's end, which a read of the file without them returns too."""
    at = place
    if place >= len(data) and not any(new):
        data.extend(bytes(dice.choice([0, place + len(new) - len(data)])))
        return
    while at < place + len(new):
        end = min(at - at % part + part, place + len(new))
        left = dice.choice(["new", "old", "old", "other" if len(new) > 1 else "new"])
        if left != "old":
            data.extend(bytes(max(0, end - len(data))))
            data[at:end] = new[at - place : end - place] if left == "new" else dice.randbytes(end - at)
        at = end


def try_loss(trial, before, calls, models):
    """After a loss of power right after these calls, a host has each STORE that it answered, and the next one whole or not at all."""
    host, disk = Host(trial.oramdisk, trial.folder / "after-loss"), Disk(before)
    for call in calls:
        disk.make(call)
    for file in host.folder.glob("buckets*"):
        file.unlink()
    for file, data in disk.after_loss(trial.dice).items():
        (host.folder / file.name).write_bytes(data)
    host.start()
    client, answered = host.client(), sum(call.is_send() for call in calls)
    found = [client.ask(body) for body in models[0].all_fetches()]
    client.close()
    if host.process.poll() is None:
        host.stop()
    may_be = [[model.answer(body) for body in model.all_fetches()] for model in models[answered : answered + 2]]
    seen = ([it and it[:4].hex() for it in found], host.lines()[-1:])
    trial.check(f"a loss of power after {len(calls)} calls and {answered} answers", found in may_be, seen)


def try_losses_of(trial, what, host, model, losses, failing=None):
    """The power fails while a host opens its files, and while it stores."""
    before, calls, models = traced_life(trial, host, model, failing)
    written = {call.file for call in calls if call.is_write()}
    sends = sum(call.is_send() for call in calls)
    copied = log_of(next(iter(before))).with_name(f"{host.file}-log.unfinished")
    trial.check(f"the calls of a host {what}", written == {*before, copied} and sends == len(models) - 1, (written, sends))
    # An opening begins with the first call, and another one with a sync that failed. It ends with the next answer.
    begin = next((number for number, call in enumerate(calls) if call.is_failed_sync()), 0)
    end = next(number for number, call in enumerate(calls) if call.is_send() and number > begin)
    trial.check(f"a sync {what}", (failing is None) == (begin == 0), begin)
    for number in range(losses):
        at = trial.dice.randrange(begin, end + 1) if number % 2 else trial.dice.randrange(len(calls) + 1)
        try_loss(trial, before, calls[:at], models)
    print(f"{losses} losses of power {what}, {losses // 2} of them among the {end - begin} calls of an opening", flush=True)


def try_power_losses(trial, losses=150):
    """Whenever the power fails: each STORE that was answered is there, and the one under way is there whole or not at all."""
    if not strace.is_usable():
        trial.skip()
        return
    host, model = killed_host(trial, "power")
    try_losses_of(trial, "with entries in its log", host, model, losses // 3)
    for _ in range(4):
        host.start().client().close()
        host.stop()
        failing = trial.dice.randrange(8, 30)
        try_losses_of(trial, f"with a failure of sync {failing}", host, model, losses // 8, failing)
    host.start().client().close()
    host.stop()
    try_losses_of(trial, "with an empty log", host, model, losses // 3)
