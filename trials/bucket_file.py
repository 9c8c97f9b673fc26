"""The two files in which a host keeps its buckets."""

import os
import struct


def log_of(file):
    """The log beside a file of buckets."""
    return file.with_name(f"{file.name}-log")


class BucketFile:
    """A host's file of buckets and the log beside it, as docs/formats.md describes them; no process has them open."""

    ENTRIES, LOG_START = 4096, 4096

    # The first byte of an entry of the log, the byte after the last entry, and the bytes of an entry besides those of its patch,
    # before them and after them.
    OPEN, SHUT, HEAD_LEN, CHECK_LEN = b"\xff", b"\x0f", 13, 8

    def __init__(self, file):
        self.file, self.log = file, log_of(file)

    def trees(self):
        """The trees' depths, the lengths of their records, and where their cells begin. The file ends after the last byte written."""
        whole = self.file.read_bytes()[self.ENTRIES : 2 * self.ENTRIES].ljust(self.ENTRIES, b"\0")
        entries = {number: struct.unpack_from("<BBxxIQ", whole, 16 * number) for number in range(256)}
        return {number: entry[1:] for number, entry in entries.items() if entry[0] == 1}

    def replay(self):
        """Puts what the log holds into the file, as opening it does, and leaves the log empty."""
        log, at = self.log.read_bytes(), self.LOG_START
        with open(self.file, "r+b") as file:
            while log[at : at + 1] == self.OPEN:
                place, length = struct.unpack_from("<QI", log, at + 1)
                file.seek(place)
                file.write(log[at + self.HEAD_LEN : at + self.HEAD_LEN + length])
                at += self.HEAD_LEN + length + self.CHECK_LEN
        with open(self.log, "r+b") as file:
            file.seek(self.LOG_START)
            file.write(self.SHUT)

    def entries(self):
        """The places in the log at which its entries begin, with their lengths, and the place at which the log ends."""
        log, at, found = self.log.read_bytes(), self.LOG_START, []
        while log[at : at + 1] == self.OPEN:
            length = self.HEAD_LEN + struct.unpack_from("<I", log, at + 9)[0] + self.CHECK_LEN
            found.append((at, length))
            at += length
        return found, at

    def records(self):
        """The records that the file has, by tree and node."""
        found = {}
        with open(self.file, "rb") as file:
            for tree, (depth, record_len, base) in self.trees().items():
                for node in range((2 << depth) - 1):
                    file.seek(base + node * self.cell_len(record_len))
                    cell = file.read(1 + record_len)
                    if cell[:1] == b"\1":
                        found[tree, node] = cell[1:]
        return found

    @staticmethod
    def cell_len(record_len):
        """The length of a node's cell: a byte that says that there is a record, and the record; an even number."""
        return (record_len + 2) // 2 * 2

    def set_there(self, tree, node, is_there):
        """From now on the file has the record that lies in a node's cell, or has none of that node."""
        _, record_len, base = self.trees()[tree]
        with open(self.file, "r+b") as file:
            file.seek(base + node * self.cell_len(record_len))
            file.write(bytes([is_there]))

    def flip(self, tree, node):
        """Changes one bit of a node's record."""
        _, record_len, base = self.trees()[tree]
        with open(self.file, "r+b") as file:
            file.seek(base + node * self.cell_len(record_len) + 1 + min(50, record_len - 1))
            byte = file.read(1)[0]
            file.seek(-1, os.SEEK_CUR)
            file.write(bytes([byte ^ 1]))
