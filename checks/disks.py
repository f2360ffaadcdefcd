"""Disks as lists of the calls that were made of them, and what a crash leaves (docs/STORAGE.md)."""
import re


class Failed(Exception):
    """A device call failed."""


def overwritten(file, at, data):
    return file[:at] + bytes(max(0, at - len(file))) + data + file[at + len(data):]


def torn(old, at, data, whole, choice):
    """A file after a write that a crash has torn, and what is left of the choice."""
    if choice == 0:
        return overwritten(old, at, data) if whole else old, 0
    after = at + len(data)
    greatest = max(len(old), after)
    choice, less = divmod(choice, greatest - len(old) + 1)
    front, back = old[:at], old[after:]
    base = overwritten(old, at, data) if whole else old
    middle = []
    for place in range(len(front), (greatest - less if whole else len(old) + less) - len(back)):
        choice, digit = divmod(choice, 256)
        middle.append(((base[place] if place < len(base) else 0) + digit) % 256)
    return front + bytes(middle) + back, choice


def packed(data):
    """Bytes in hexadecimal, in which 16 and more zeros in a row stand as their number in brackets."""
    parts = re.split(b'(\0{16,})', data)
    return ''.join('(%d)' % len(part) if at % 2 else part.hex() for at, part in enumerate(parts))


class Disk:
    """What a disk holds, and its calls. Those of the numbers `failing` fail."""

    def __init__(self, held=b'', failing=()):
        self.start = self.held = held
        self.failing, self.calls, self.starved = set(failing), [], 0

    def call(self, *call):
        done = len(self.calls) not in self.failing
        self.calls.append((done,) + call)
        if not done:
            raise Failed

    def faults(self):
        return self.starved + sum(not done for done, *_ in self.calls)

    def length(self):
        self.call('look')
        return len(self.held)

    def read(self, at, count):
        """Bytes past the end read as 0."""
        self.call('look')
        return self.held[at:at + count].ljust(count, b'\0')

    def write(self, at, data):
        """A range that doesn't fit 64 bits fails, and is counted as starved where the call isn't to fail."""
        if at + len(data) >= 1 << 64:
            self.call('look')
            self.starved += 1
            raise Failed
        self.call('write', at, data)
        self.held = overwritten(self.held, at, data)

    def sync(self):
        self.call('sync')

    def write_sure(self, at, data):
        self.write(at, data)
        self.sync()

    def crashed(self, count, choice):
        """The bytes that a crash after so many calls leaves, as a number picks them."""
        moves, whole = divmod(choice, 2)
        image, reads, left = self.start, self.start, moves
        for done, what, *where in self.calls[:count]:
            if what == 'write':
                image, left = torn(image, *where, whole, left)
                reads = overwritten(reads, *where) if done else reads
            elif what == 'sync' and done:
                image, left = reads, moves
        return image


class Disks:
    """The three disks of a store."""

    def __init__(self, first=None, second=None, blobs=None):
        self.first, self.second, self.blobs = first or Disk(), second or Disk(), blobs or Disk()

    def all(self):
        return self.first, self.second, self.blobs

    def held(self):
        return tuple(disk.held for disk in self.all())

    def faults(self):
        return sum(disk.faults() for disk in self.all())

    def calls(self):
        return tuple(len(disk.calls) for disk in self.all())

    def crashed(self, choices):
        """Disks that hold what a crash now leaves, with a choice for each."""
        return Disks(*(Disk(disk.crashed(len(disk.calls), choice)) for disk, choice in zip(self.all(), choices)))


# Choices of what a crash leaves of the two journals and the blob file: what was sure; all that was written; all of the
# journals, and of the blob file what was sure; and torn bytes.
CHOICES = (0, 0, 0), (1, 1, 1), (1, 1, 0), (2, 2, 3)
