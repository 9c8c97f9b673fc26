"""The host's two files, the buckets in them, and their digests."""

import hashlib
from dataclasses import dataclass, field
from pathlib import Path

from trials.formats.ciphers import siphash, xored
from trials.formats.pair_files import joined
from trials.formats.reader import Misread, Reader
from trials.formats.sizes import node_of


@dataclass
class Shape:
    """The shape of a tree, and the place of its first cell."""

    depth: int
    record_len: int
    place: int

    def cell_len(self):
        return 1 + self.record_len + (self.record_len + 1) % 2

    def end(self):
        return self.place + self.cell_len() * (2 ** (self.depth + 1) - 1)


@dataclass
class Buckets:
    """What a bucket file and its log hold together, beside what a client has: the STOREs that wait, near records, and the records that it makes."""

    data: bytes
    shapes: dict
    later: dict = field(default_factory=dict)
    made: dict = field(default_factory=dict)

    def cell(self, tree, node):
        shape = self.shapes[tree]
        at = shape.place + shape.cell_len() * node
        return self.data[at : at + shape.cell_len()]

    def lay_near(self, records):
        """The records that a client keeps of the top levels of tree 0 take the place of those in the file."""
        self.later.update({(0, node): record for node, record in enumerate(records)})

    def lay(self, store):
        """The records of a STORE that the host may not have yet take the place of those in the file, and of near records."""
        shape = self.shapes[store.tree]
        for level in range(shape.depth + 1):
            at = level * shape.record_len
            self.later[store.tree, node_of(shape.depth, store.leaf, level)] = store.records[at : at + shape.record_len]

    def kept(self, tree, node):
        """A node's record at the host; None if there is none."""
        cell = self.cell(tree, node)
        return cell[1 : 1 + self.shapes[tree].record_len] if cell[:1] == b"\1" else None

    def record(self, tree, node):
        """A node's record, wherever it is; None if there is none."""
        return self.later.get((tree, node)) or self.kept(tree, node) or self.made.get((tree, node))

    def nodes(self, tree):
        """The nodes of a tree of which the host has a record."""
        count = 2 ** (self.shapes[tree].depth + 1) - 1
        return {node for node in range(count) if self.kept(tree, node) is not None}

    def digests_below(self, tree, node):
        """The digests that a node's record has to end with: those of its children, or zeros."""
        if node >= 2 ** self.shapes[tree].depth - 1:
            return bytes(64)
        return b"".join(hashlib.sha256(self.record(tree, child)).digest() for child in (2 * node + 1, 2 * node + 2))


def read_buckets(name):
    """A bucket file with its log, whose entries are put at their places."""
    # A host has written a generation by now, and with it the length.
    data = joined(Path(name).read_bytes(), Path(f"{name}-log").read_bytes(), (b"VIDLAQEB", b"VIDLAQEL"), 3, 8192)
    return Buckets(data, read_shapes(data[4096:8192]))


def read_shapes(entries):
    """The shapes of the trees, by their numbers."""
    reader, shapes = Reader(entries, "little"), {}
    for tree in range(256):
        entry = reader.take(16)
        if entry != bytes(16):
            fields = Reader(entry, "little")
            fields.expect(b"\1", "an entry of a tree begins so")
            depth, check = fields.number(1), fields.number(2)
            if check != siphash(entry[1:2] + entry[4:]) % 2**16:
                raise Misread("the checksum of a tree's entry")
            shapes[tree] = Shape(depth, fields.number(4), fields.number(8))
    return shapes


def blocks_in(bucket, sizes):
    """The blocks of a bucket, each with its address and its leaf."""
    reader, found, empty = Reader(bucket), [], False
    for _ in range(sizes.slots):
        slot = reader.take(8 + sizes.block_bytes)
        address, leaf = int.from_bytes(slot[:4], "big") - 1, int.from_bytes(slot[4:8], "big")
        if address < 0:
            empty = True
            if slot != bytes(len(slot)):
                raise Misread("an empty slot that isn't zeros")
        elif empty or found and found[-1][0] >= address:
            raise Misread("the order of the slots")
        else:
            found.append((address, leaf, slot[8:]))
    return found


def opened(record, sizes, key):
    """The nonce of a record and the blocks of its bucket."""
    sealed = record[: sizes.overhead() + sizes.bucket_len()]
    if not sizes.is_sealed:
        return None, blocks_in(sealed, sizes)
    nonce = int.from_bytes(sealed[:8], "big")
    return nonce, blocks_in(xored(key, nonce, sealed[8:]), sizes)
