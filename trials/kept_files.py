"""The two files in which a disk's client keeps it, as docs/formats.md describes them: a file, and its redo log beside it."""

import os
import struct

from trials.bucket_file import BucketFile, log_of
from trials.formats.ciphers import siphash
from trials.formats.reader import Misread

# What the two files begin with, where the head stands, and the pages of the table behind it.
LETTERS, LOG_LETTERS = b"VIDLAQEC\x02" + bytes(7), b"VIDLAQCL\x02" + bytes(7)
HEAD_AT, TABLE_AT, PAGE_LEN, NUMBERS = 4096, 8192, 1024, 254
# How many bytes of the table or of the records a page has at most, before their checksum.
ON_PAGE = 4 * NUMBERS
# A log whose entries have more bytes is emptied before the next keeping.
LONG_LOG = 64 << 20
# The names of the two files of a state.
STATE = ["disk.state", "disk.state-log"]
# The salt, the key check and the sealer's byte, which stand before the text of the process.
TITLE_LEN = 65


class KeptFiles:
    """What the files of a state hold. Nothing here changes them."""

    def __init__(self, state):
        self.state, self.log = state, log_of(state)

    def read(self):
        """The bytes of both files."""
        return {file: file.read_bytes() for file in (self.state, self.log)}

    def put(self, files):
        """Puts these bytes in place of both files."""
        for file, whole in files.items():
            file.write_bytes(whole)

    def longest_log(self):
        """The most bytes that the log may have: it is emptied before a keeping once its entries have more than 64 MiB, and no keeping adds more
        than the file has, but for the heads of a few entries. It grows by a mebibyte at a time."""
        return LONG_LOG + self.state.stat().st_size + (1 << 20)

    def left(self):
        """The names of what is in the place of these files, or lies where they are made or copied."""
        return sorted(path.name for file in (self.state, self.log) for path in (file, file.with_name(f"{file.name}.unfinished")) if os.path.lexists(path))

    def records_len(self):
        """How many bytes the records have: near records, and digests of the formatting."""
        return struct.unpack_from("<Q", replayed(self.state.read_bytes(), self.log.read_bytes()), HEAD_AT + 24)[0]

    def text(self):
        """The title, and the text of the process behind it: what the file holds once the entries of the log are written to their places."""
        return text_in(replayed(self.state.read_bytes(), self.log.read_bytes()))


def replayed(records, log):
    """The bytes of a file after the entries of its log are written to their places."""
    if (records[:16], log[:16]) != (LETTERS, LOG_LETTERS) or records[16:32] != log[16:32]:
        raise Misread("the files of a state begin so, with one identity")
    whole, at = bytearray(records), BucketFile.LOG_START
    while log[at : at + 1] == BucketFile.OPEN:
        place, length = struct.unpack_from("<QI", log, at + 1)
        begin = at + BucketFile.HEAD_LEN
        said, check = log[at + 1 : begin + length], log[begin + length : begin + length + BucketFile.CHECK_LEN]
        check_sum(said, check, "the checksum of an entry")
        whole.extend(bytes(max(0, place + length - len(whole))))
        whole[place : place + length] = log[begin : begin + length]
        at = begin + length + BucketFile.CHECK_LEN
    if log[at : at + 1] != BucketFile.SHUT:
        raise Misread("the gate at the end of the log")
    return bytes(whole)


def check_sum(text, check, what):
    if siphash(text).to_bytes(8, "little") != check:
        raise Misread(what)


def text_in(data):
    """The text that the bytes of a file hold."""
    head = data[HEAD_AT : HEAD_AT + 48]
    check_sum(head[:40], head[40:], "the checksum of the head")
    before_len, numbers, after_len, records_len, check = struct.unpack("<5Q", head[:40])
    table, at = pages_in(data, TABLE_AT, 4 * numbers)
    records, at = pages_in(data, at, records_len)
    before, after = data[at : at + before_len], data[at + before_len : at + before_len + after_len]
    if (len(before), len(after)) != (before_len, after_len) or siphash(before + after) != check:
        raise Misread("the checksum of the text around the table")
    return before + table + after + records


def pages_in(data, at, length):
    """So many bytes, from the pages that begin at this place, and the place behind the last of these pages."""
    said = b""
    while len(said) < length:
        on_page = min(ON_PAGE, length - len(said))
        text = data[at : at + on_page]
        check_sum(text, data[at + on_page : at + on_page + 8], "the checksum of a page")
        said, at = said + text, at + PAGE_LEN
    return said, at
