"""The messages to a bucket host, and a model of such a host."""

import struct

from trials.connections import LONGEST_BODY

FETCH, STORE, PUT, SHAPE, RECORDS, FETCH_LEVELS, STORE_LEVELS = 1, 2, 3, 4, 5, 6, 7
# Its second byte asks for the records that the host has now.
NOW = 0
DONE = b"\x80"
NO_SHAPE, BAD_LEAF, BAD_NODE, BAD_LENGTH, SHAPE_TAKEN, MISSING, BAD_OP, NO_ROOM = range(1, 9)
LARGEST_DEPTH = 24
# The tree with the identity of a disk.
IDENTITY_TREE = 255


def refused(code):
    """The answer by which a host refuses a message."""
    return bytes([0x81, code])


def fetch(tree, leaf):
    return struct.pack(">BBI", FETCH, tree, leaf)


def store(tree, leaf, records):
    return struct.pack(">BBI", STORE, tree, leaf) + b"".join(records)


def put(tree, node, record):
    return struct.pack(">BBI", PUT, tree, node) + record


def shape(tree, depth, record_len):
    return struct.pack(">BBBI", SHAPE, tree, depth, record_len)


def records(tree, first, count):
    """Asks for the records of nodes in a row, from `first` on."""
    return struct.pack(">BBBII", RECORDS, NOW, tree, first, count)


def fetch_levels(tree, first, last, leaf):
    """Asks for the records of a path from level `first` to level `last`."""
    return struct.pack(">BBBBI", FETCH_LEVELS, tree, first, last, leaf)


def store_levels(tree, first, leaf, records):
    """Replaces the records of a path from level `first` to that of the leaf."""
    return struct.pack(">BBBI", STORE_LEVELS, tree, first, leaf) + b"".join(records)


def is_a(kind, body):
    """Whether a message is of this kind."""
    return body[:1] == bytes([kind])


def is_store(body):
    """Whether a message stores a path, or some levels of one."""
    return is_a(STORE, body) or is_a(STORE_LEVELS, body)


def path(depth, leaf):
    """The nodes from the root to a leaf."""
    return [(1 << level) - 1 + (leaf >> (depth - level)) for level in range(depth + 1)]


class Model:
    """A bucket host, as its contract describes it."""

    def __init__(self):
        self.shapes, self.records = {}, {}

    def answer(self, body):
        """The answer to a message."""
        if not body or not FETCH <= body[0] <= SHAPE:
            return refused(BAD_OP)
        if not (len(body) == 6 if body[0] == FETCH else len(body) == 7 if body[0] == SHAPE else len(body) >= 6):
            return refused(BAD_LENGTH)
        if body[0] == SHAPE:
            return self.answer_shape(body[1], body[2], struct.unpack(">I", body[3:])[0])
        tree, place, rest = body[1], struct.unpack(">I", body[2:6])[0], body[6:]
        if tree not in self.shapes:
            return refused(NO_SHAPE)
        if tree == IDENTITY_TREE and 0 in self.shapes and body[0] != FETCH:
            return refused(SHAPE_TAKEN)
        return [self.answer_fetch, self.answer_store, self.answer_put][body[0] - FETCH](tree, place, rest)

    def answer_shape(self, tree, depth, record_len):
        if depth > LARGEST_DEPTH or record_len == 0 or (depth + 1) * record_len + 6 > LONGEST_BODY:
            return refused(BAD_LENGTH)
        if tree in self.shapes:
            return refused(SHAPE_TAKEN)
        self.shapes[tree] = (depth, record_len)
        return DONE

    def answer_fetch(self, tree, leaf, _rest):
        depth, _ = self.shapes[tree]
        if leaf >= 1 << depth:
            return refused(BAD_LEAF)
        found = [self.records.get((tree, node)) for node in path(depth, leaf)]
        return refused(MISSING) if None in found else DONE + b"".join(found)

    def answer_store(self, tree, leaf, rest):
        depth, record_len = self.shapes[tree]
        if leaf >= 1 << depth:
            return refused(BAD_LEAF)
        if len(rest) != (depth + 1) * record_len:
            return refused(BAD_LENGTH)
        for level, node in enumerate(path(depth, leaf)):
            self.records[tree, node] = rest[level * record_len : (level + 1) * record_len]
        return DONE

    def answer_put(self, tree, node, rest):
        depth, record_len = self.shapes[tree]
        if node >= (1 << (depth + 1)) - 1:
            return refused(BAD_NODE)
        if len(rest) != record_len:
            return refused(BAD_LENGTH)
        self.records[tree, node] = rest
        return DONE

    def all_fetches(self):
        """A FETCH of each path of each tree."""
        return [fetch(tree, leaf) for tree, (depth, _) in self.shapes.items() for leaf in range(1 << depth)]


class DiskModel(Model):
    """The host of a disk, which also gives the records of nodes in a row, and those of some levels of a path."""

    def answer(self, body):
        own = {RECORDS: self.answer_records, FETCH_LEVELS: self.answer_fetch_levels, STORE_LEVELS: self.answer_store_levels}
        return own.get(body[0] if body else 0, super().answer)(body)

    def answer_records(self, body):
        if len(body) != 11 or body[1] != NOW:
            return refused(BAD_LENGTH)
        tree, first, count = struct.unpack(">BII", body[2:])
        if tree not in self.shapes:
            return refused(NO_SHAPE)
        depth, record_len = self.shapes[tree]
        if first + count > (2 << depth) - 1:
            return refused(BAD_NODE)
        if count == 0 or 1 + count * (1 + record_len) > LONGEST_BODY:
            return refused(BAD_LENGTH)
        found = [self.records.get((tree, node)) for node in range(first, first + count)]
        return DONE + b"".join(b"\x00" if record is None else b"\x01" + record for record in found)

    def answer_fetch_levels(self, body):
        if len(body) != 8:
            return refused(BAD_LENGTH)
        tree, first, last, leaf = struct.unpack(">BBBI", body[1:])
        if tree not in self.shapes:
            return refused(NO_SHAPE)
        depth, _ = self.shapes[tree]
        if leaf >= 1 << depth:
            return refused(BAD_LEAF)
        if last > depth:
            return refused(BAD_NODE)
        if first > last:
            return refused(BAD_LENGTH)
        found = [self.records.get((tree, node)) for node in path(depth, leaf)[first : last + 1]]
        there = found[: found.index(None)] if None in found else found
        return DONE + bytes([len(there)]) + b"".join(there)

    def answer_store_levels(self, body):
        if len(body) < 7:
            return refused(BAD_LENGTH)
        tree, first, leaf = struct.unpack(">BBI", body[1:7])
        if tree not in self.shapes:
            return refused(NO_SHAPE)
        if tree == IDENTITY_TREE and 0 in self.shapes:
            return refused(SHAPE_TAKEN)
        depth, record_len = self.shapes[tree]
        if leaf >= 1 << depth:
            return refused(BAD_LEAF)
        if first > depth:
            return refused(BAD_NODE)
        if len(body) - 7 != (depth + 1 - first) * record_len:
            return refused(BAD_LENGTH)
        for level, node in enumerate(path(depth, leaf)[first:]):
            self.records[tree, node] = body[7 + level * record_len : 7 + (level + 1) * record_len]
        return DONE

    def all_levels(self):
        """A FETCH of the levels of each path of each tree, from each level on."""
        shapes = ((tree, depth) for tree, (depth, _) in self.shapes.items())
        return [fetch_levels(tree, first, depth, leaf) for tree, depth in shapes for leaf in range(1 << depth) for first in range(depth + 1)]

    def all_records(self, step):
        """Requests for all records of each tree, of at most `step` nodes each."""
        nodes = ((tree, (2 << depth) - 1) for tree, (depth, _) in self.shapes.items())
        return [records(tree, first, min(step, end - first)) for tree, end in nodes for first in range(0, end, step)]
