"""A file and its redo log: what their fronts say, and the entries of the log."""

from trials.formats.ciphers import siphash
from trials.formats.reader import Misread, Reader

# Where the list of entries begins, and where the generations stand in the fronts.
LOG_START, GENERATIONS = 4096, (32, 48)


def log_entries(log):
    """The entries of a log: places, and the bytes that belong there."""
    reader = Reader(log, "little")
    reader.take(LOG_START)
    while (gate := reader.number(1)) == 255:
        head = reader.take(12)
        place, count = int.from_bytes(head[:8], "little"), int.from_bytes(head[8:], "little")
        patch = reader.take(count)
        if reader.number(8) != siphash(head + patch):
            raise Misread("the checksum of an entry")
        yield place, patch
    if gate != 15:
        raise Misread("the byte after the last entry")


def generation_of(front):
    """The greatest number in the sound fields of a front. An even number stands in the first field, and an odd one in the second."""
    numbers = []
    for place, rest in zip(GENERATIONS, range(2)):
        number, check = front[place : place + 8], front[place + 8 : place + 16]
        if siphash(front[:32] + number) == int.from_bytes(check, "little"):
            numbers.append(int.from_bytes(number, "little"))
            if numbers[-1] % 2 != rest:
                raise Misread("the field of a generation")
    if not numbers:
        raise Misread("the fields of generations")
    return max(numbers)


def least_length_of(front):
    """The length that a file has at least, as its front says; 0 if it says none."""
    length, check = front[64:72], front[72:80]
    return int.from_bytes(length, "little") if siphash(length) == int.from_bytes(check, "little") else 0


def joined(records, log, letters, version, least):
    """The bytes of a file once the entries of its log are put at their places. Both begin with their letters and this version, and have one
    identity; the file says a length above the least one."""
    file, other = Reader(records, "little"), Reader(log, "little")
    file.expect(letters[0], "a file begins so")
    other.expect(letters[1], "its log begins so")
    if (file.number(8), other.number(8)) != (version, version) or file.take(16) != other.take(16):
        raise Misread("the versions, or the identities")
    if not least < least_length_of(records) <= len(records):
        raise Misread("the length of the file")
    data, entries = bytearray(records), list(log_entries(log))
    ahead = generation_of(log) - generation_of(records)
    if ahead not in ([0] if entries else [0, 1]):
        raise Misread("the generations")
    for place, patch in entries:
        data.extend(bytes(max(0, place + len(patch) - len(data))))
        data[place : place + len(patch)] = patch
    return bytes(data)
