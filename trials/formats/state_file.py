"""The two files of a disk's state."""

from dataclasses import dataclass, field

from trials.formats.ciphers import siphash
from trials.formats.pair_files import joined
from trials.formats.reader import Misread, Reader
from trials.formats.sizes import Sizes

# The letters of the file and of its log, and their version.
LETTERS, VERSION = (b"VIDLAQEC", b"VIDLAQCL"), 2
# Where the head stands, and the pages behind it, each with up to so many bytes of the table or of the records.
HEAD_AT, PAGES_AT, PAGE_LEN, ON_PAGE = 4096, 8192, 1024, 1016
# How many bytes the salt, the key check and the sealer have, and how many fields of a core that hasn't failed stand before its table.
TITLE, BEFORE_TABLE = 65, 45
# The kind of a command that writes.
WRITE_BLOCK = 0x12
# A state that has failed keeps no trees, and one that is at work has the commands that wait.
FAILED, AT_WORK = 1, (2, 3)


@dataclass
class Command:
    """A command that waits."""

    kind: int
    address: int
    data: bytes
    words: list


@dataclass
class Store:
    """A STORE that the host may not have yet."""

    tree: int
    leaf: int
    records: bytes


@dataclass
class State:
    """What the file says."""

    salt: bytes
    check: bytes
    sizes: Sizes
    lifetime: int
    mode: int
    accepted: int
    nonce: int
    table: list = field(default_factory=list)
    roots: list = field(default_factory=list)
    stashes: list = field(default_factory=list)
    stores: list = field(default_factory=list)
    note: bytes = b""
    process_check: int = 0
    waiting: list = field(default_factory=list)
    outstanding: int = -1
    message: bytes = b""
    near: list = field(default_factory=list)
    digests: list = field(default_factory=list)


@dataclass
class Parts:
    """The text that the file holds: what stands before the table, the table's numbers in four bytes each, what stands behind it, and the records."""

    before: bytes
    table: bytes
    after: bytes
    records: bytes


def summed(data, check, what):
    """These bytes, if this is their checksum."""
    if siphash(data) != check:
        raise Misread(what)
    return data


def read_parts(data):
    """The parts of the text that the bytes of a file hold."""
    head = Reader(data[HEAD_AT : HEAD_AT + 48], "little")
    before_len, numbers, after_len, records_len, check = (head.number(8) for _ in range(5))
    summed(head.data[:40], head.number(8), "the checksum of the head")
    table, at = read_pages(data, PAGES_AT, 4 * numbers)
    records, at = read_pages(data, at, records_len)
    reader = Reader(data[at:])
    parts = Parts(reader.take(before_len), table, reader.take(after_len), records)
    summed(parts.before + parts.after, check, "the checksum of the text around the table")
    return parts


def read_pages(data, at, length):
    """So many bytes, from the pages that begin at this place, and the place behind the last of these pages."""
    said = b""
    while len(said) < length:
        reader = Reader(data[at:], "little")
        on_page = reader.take(min(ON_PAGE, length - len(said)))
        said, at = said + summed(on_page, reader.number(8), "the checksum of a page"), at + PAGE_LEN
    return said, at


def read_state(records, log):
    """The state that a file and its log keep."""
    parts = read_parts(joined(records, log, LETTERS, VERSION, PAGES_AT))
    text = parts.before + parts.table + parts.after
    head = Reader(text)
    salt, check, sealer = head.take(32), head.take(32), head.number(1)
    stores = [read_store(head.take(head.number(8))) for _ in range(head.number(8))]
    note = head.take(head.number(8))
    if head.number(8) != len(parts.records):
        raise Misread("how many bytes the records have")
    reader = Reader(text[head.at :])
    blocks, block_bytes = reader.number(4), reader.number(4)
    leaf_load, slots, table = reader.number(2) + 1, reader.number(2), reader.number(4)
    sizes = Sizes(blocks, block_bytes, slots, leaf_load, table, is_sealed=sealer == 1)
    lifetime, overhead = reader.number(8), reader.number(4)
    if overhead != sizes.overhead():
        raise Misread("the bytes that the sealer adds")
    mode = reader.number(1)
    state = State(salt, check, sizes, lifetime, mode, reader.number(8), reader.number(8), stores=stores, note=note)
    if mode != FAILED:
        read_trees(reader, state)
    if mode in AT_WORK:
        read_work(reader, state)
    if (len(parts.before), len(parts.table)) != (head.at + BEFORE_TABLE, 4 * len(state.table)):
        raise Misread("the place of the table")
    state.process_check = siphash(parts.before[TITLE:] + parts.after)
    state.near, state.digests = read_records(parts.records, sizes)
    if mode != FAILED and not reader.is_at_end():
        raise Misread("there is more after the state")
    return state


def read_records(data, sizes):
    """The near records, by their nodes, and the two digests that are kept of each upper node of each tree. There are as many near records as a
    number of whole levels has."""
    reader = Reader(data)
    near_len = len(data) - sizes.digests_len()
    if near_len not in map(sizes.near_len, range(sizes.depths()[0] + 1)):
        raise Misread("how many bytes the near records have")
    near = [reader.take(sizes.record_len()) for _ in range(near_len // sizes.record_len())]
    return near, [[reader.take(64) for _ in range(count)] for count in sizes.upper_counts()]


def read_store(body):
    """A STORE of a path."""
    reader = Reader(body)
    reader.expect(b"\2", "a STORE begins so")
    return Store(reader.number(1), reader.number(4), body[reader.at :])


def read_trees(reader, state):
    """The table, and the root digest and the stash of each tree."""
    sizes = state.sizes
    state.table = [reader.number(4) for _ in range(sizes.trees()[-1])]
    for _ in sizes.trees():
        state.roots.append(reader.take(32))
        blocks = [(reader.number(4), reader.number(4), reader.take(sizes.block_bytes)) for _ in range(reader.number(4))]
        state.stashes.append(blocks)


def read_work(reader, state):
    """The commands that wait, and how far the first of them is."""
    sizes, trees = state.sizes, len(state.sizes.trees())
    for _ in range(reader.number(4)):
        _session, kind, address = reader.number(4), reader.number(1), reader.number(4)
        data = reader.take(sizes.block_bytes) if kind == WRITE_BLOCK else b""
        words = [(reader.number(8), reader.number(8)) for _ in range(trees)]
        state.waiting.append(Command(kind, address, data, words))
    state.outstanding = reader.number(4)
    reader.number(4)
    if state.outstanding == 2 * trees - 1:
        reader.take(sizes.block_bytes)
    state.message = reader.take(reader.number(4))
