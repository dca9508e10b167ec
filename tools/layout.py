"""Files that are read by a layout of bytes."""
from common import Fault


class Bytes:
    """The bytes of a file, read from front to end."""

    def __init__(self, content):
        self.content, self.at = content, 0

    def take(self, count):
        part = self.content[self.at:self.at + count]
        if len(part) < count:
            raise Fault('it ends at byte %d, where more has to come' % len(self.content))
        self.at += count
        return part

    def number(self, size):
        return int.from_bytes(self.take(size), 'big')
