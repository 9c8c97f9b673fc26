"""Reading bytes from the front."""


class Misread(Exception):
    """Bytes that aren't as the page says."""


class Reader:
    """Takes numbers and bytes from the front of a string of bytes."""

    def __init__(self, data, order="big"):
        self.data, self.order, self.at = data, order, 0

    def take(self, count):
        if self.at + count > len(self.data):
            raise Misread(f"{count} bytes wanted at {self.at} of {len(self.data)}")
        self.at += count
        return self.data[self.at - count : self.at]

    def number(self, count):
        return int.from_bytes(self.take(count), self.order)

    def expect(self, wanted, what):
        if self.take(len(wanted)) != wanted:
            raise Misread(what)

    def is_at_end(self):
        return self.at == len(self.data)
