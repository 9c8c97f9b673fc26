"""What is done with a disk whose files are read."""

import os
import time
from itertools import takewhile
from pathlib import Path

from trials.formats.checks import Reading
from trials.formats.ciphers import Tape, derived
from trials.formats.host_files import read_buckets
from trials.formats.processes import LONGEST_STEP, READ, WRITE, DiskFolder, ask_host, fetch_levels_of, fetch_of
from trials.formats.reader import Misread
from trials.formats.sizes import node_of
from trials.formats.state_file import AT_WORK, WRITE_BLOCK

EXPORT_FLAGS = 0x6D


class Life:
    """What is done with a disk, and what follows from it."""

    def __init__(self, tally, name, disk, sizes):
        self.tally, self.name, self.disk, self.sizes = tally, name, disk, sizes
        self.contents, self.addresses = {}, []
        self.last = [{} for _ in sizes.trees()]
        # What the blocks were, and their last commands, after each command.
        self.past = [self.moment()]

    def check(self, what, holds, seen=""):
        self.tally.check(f"{self.name}: {what}", holds, seen)

    def moment(self):
        return dict(self.contents), [dict(last) for last in self.last]

    def accept(self, address):
        """A command to a block is also one to the map blocks above it."""
        self.addresses.append(address)
        for last in self.last:
            last[address] = len(self.addresses) - 1
            address //= self.sizes.entries()
        self.past.append(self.moment())

    def write(self, client, address):
        data = os.urandom(self.sizes.block_bytes)
        error, _ = client.ask(WRITE, address * len(data), len(data), data)
        self.check(f"a write of block {address}", error == 0, error)
        self.contents[address] = data
        self.accept(address)

    def read(self, client, address):
        length = self.sizes.block_bytes
        reply = client.ask(READ, address * length, length)
        self.check(f"a read of block {address}", reply == (0, self.contents.get(address, bytes(length))))
        self.accept(address)

    def look(self, when):
        """The disk's files are as they have to be. The commands of the last round still wait in them, since the next process carries these
        out first."""
        contents, last = self.past[len(self.addresses) - len(self.disk.state().waiting)]
        Reading(self.tally, f"{self.name}, {when}", self.disk, contents, last).run(self.addresses)

    def fetch(self):
        """The host answers a FETCH, and a FETCH of levels from any level on, with the records that its file has."""
        buckets, stream = read_buckets(self.disk.folder / "buckets"), self.disk.host_stream()
        for tree, depth in enumerate(self.sizes.depths()):
            wrong = []
            for leaf in range(2**depth):
                path = [buckets.kept(tree, node_of(depth, leaf, level)) for level in range(depth + 1)]
                whole = b"\x81\6" if None in path else b"\x80" + b"".join(path)
                wrong += [leaf] if ask_host(stream, fetch_of(tree, leaf)) != whole else []
                asked = [(fetch_levels_of(tree, first, depth, leaf), path[first:]) for first in range(depth + 1)]
                wrong += [body.hex() for body, held in asked if ask_host(stream, body) != levels_answer(held)]
            self.check(f"the paths of tree {tree}", not wrong, wrong)
        stream.close()

    def interrupt(self, client):
        """Without its host a command stays at work: the state has it, and the FETCH of the leaf that the tape says."""
        self.disk.end("host")
        data, address, tree = os.urandom(self.sizes.block_bytes), next(iter(self.contents)), len(self.sizes.trees()) - 1
        client.send(WRITE, address * len(data), len(data), data)
        state, begun = self.disk.state_while_served(), time.monotonic()
        while state.accepted == len(self.addresses) and time.monotonic() < begun + LONGEST_STEP:
            time.sleep(0.02)
            state = self.disk.state_while_served()
        self.disk.end("serve")
        state = self.disk.state()
        tape = Tape(derived(self.disk.key(), b"vidlaqe tape key", state.salt), tree + 1)
        words, block = tape.words(len(self.addresses)), address // self.sizes.entries() ** tree
        waits = [(command.kind, command.address, command.data, command.words) for command in state.waiting]
        is_at_work = state.mode in AT_WORK and waits == [(WRITE_BLOCK, address, data, words)]
        self.check("the command at work", is_at_work, (state.mode, len(waits)))
        leaf = tape.words(self.last[tree][block])[tree][1] % 2 ** self.sizes.depths()[tree]
        first = (state.outstanding, state.message)
        self.check("its first message", first == (0, fetch_of(tree, leaf)), first)


def levels_answer(held):
    """The answer to a FETCH of levels with these records, or None in place of those that the host doesn't have."""
    records = list(takewhile(bool, held))
    return bytes([0x80, len(records)]) + b"".join(records)


def try_disk(tally, folder, program, name, sizes, values):
    """A disk of these sizes, with these values in its settings, is read once it is formatted, once it was used, and with a
    command at work."""
    disk = DiskFolder(Path(folder) / name, program, sizes, values)
    try:
        life = Life(tally, name, disk, sizes)
        disk.host("--new")
        disk.format()
        life.look("formatted")
        for turn in range(2):
            client = disk.serve()
            export = (client.size, client.flags)
            tally.check(f"{name}: its size", export == (sizes.blocks * sizes.block_bytes, EXPORT_FLAGS), export)
            for address in (0, sizes.blocks - 1, sizes.blocks // 2, 1, 0):
                life.write(client, (address + turn) % sizes.blocks)
            for address in (0, 3, sizes.blocks - 1):
                life.read(client, address)
            disk.end()
            life.look(f"used {turn + 1} times")
            disk.host()
        life.fetch()
        life.interrupt(disk.serve())
    except Misread as why:
        tally.check(f"{name}: it is read", False, why)
    finally:
        disk.end()
        disk.log.close()
