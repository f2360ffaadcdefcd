"""A plain model of `ddc init` and `ddc replay`: each definition of docs/DEFINITIONS.md, computed on small inputs by the
simplest means.

Nothing here is taken from the program: the hash follows the BLAKE3 specification's recursion, objects follow
CompactBinary.h, heads the grammar of RFC 9112 as httparse reads it, and the store is dictionaries over three disks that
list their calls (checks/disks.py).
"""
from disks import Failed

# ---- the tree hash (BLAKE3 specification, section 2)

IV = [0x6A09E667, 0xBB67AE85, 0x3C6EF372, 0xA54FF53A, 0x510E527F, 0x9B05688C, 0x1F83D9AB, 0x5BE0CD19]
PERMUTATION = [2, 6, 3, 10, 7, 0, 4, 13, 1, 11, 12, 5, 9, 14, 15, 8]
CHUNK_START, CHUNK_END, PARENT, ROOT = 1, 2, 4, 8
LANES = [(0, 4, 8, 12), (1, 5, 9, 13), (2, 6, 10, 14), (3, 7, 11, 15),
         (0, 5, 10, 15), (1, 6, 11, 12), (2, 7, 8, 13), (3, 4, 9, 14)]


def rotated(word, count):
    return ((word >> count) | (word << (32 - count))) & 0xFFFFFFFF


def compress(chaining, block, counter, length, flags):
    v = chaining + IV[:4] + [counter & 0xFFFFFFFF, counter >> 32, length, flags]
    block = block + bytes(64 - len(block))
    m = [int.from_bytes(block[4 * i:4 * i + 4], 'little') for i in range(16)]
    for _ in range(7):
        for k, (a, b, c, d) in enumerate(LANES):
            for word, first, second in ((m[2 * k], 16, 12), (m[2 * k + 1], 8, 7)):
                v[a] = (v[a] + v[b] + word) & 0xFFFFFFFF
                v[d] = rotated(v[d] ^ v[a], first)
                v[c] = (v[c] + v[d]) & 0xFFFFFFFF
                v[b] = rotated(v[b] ^ v[c], second)
        m = [m[i] for i in PERMUTATION]
    return [v[i] ^ v[i + 8] for i in range(8)]


def tree_value(data, number, flag):
    if len(data) <= 1024:
        value = IV
        blocks = [data[i:i + 64] for i in range(0, len(data), 64)] or [b'']
        for i, block in enumerate(blocks):
            flags = (CHUNK_START if i == 0 else 0) | (CHUNK_END | flag if i == len(blocks) - 1 else 0)
            value = compress(value, block, number, len(block), flags)
        return value
    chunks = 1
    while 2 * chunks * 1024 < len(data):
        chunks *= 2
    halves = tree_value(data[:chunks * 1024], number, 0) + tree_value(data[chunks * 1024:], number + chunks, 0)
    block = b''.join(word.to_bytes(4, 'little') for word in halves)
    return compress(IV, block, 0, 64, PARENT | flag)


def io_hash(data):
    return b''.join(word.to_bytes(4, 'little') for word in tree_value(data, 0, ROOT))[:20]


# ---- names

LETTERS = b'ABCDEFGHIJKLMNOPQRSTUVWXYZabcdefghijklmnopqrstuvwxyz0123456789'


def name_fault(text):
    """The least place at which a text is no name of 1 to 64 bytes, or None."""
    for at, byte in enumerate(text):
        if at == 64 or byte not in (LETTERS if at == 0 else LETTERS + b'-_.'):
            return at
    return None if text else 0


def digits_fault(text):
    """The least place at which a text isn't 40 hexadecimal digits, or None."""
    for at, byte in enumerate(text):
        if at == 40 or byte not in b'0123456789abcdefABCDEF':
            return at
    return None if len(text) == 40 else len(text)


def is_name(text):
    return name_fault(text) is None


def hash_of(text):
    return bytes.fromhex(text.decode()) if digits_fault(text) is None else None


# ---- objects (CompactBinary.h)

class NoObject(Exception):
    def __init__(self, at):
        self.at = at


FIXED = {0x01: 0, 0x0c: 0, 0x0d: 0, 0x0a: 4, 0x0b: 8, 0x12: 8, 0x13: 8, 0x10: 20, 0x11: 16, 0x14: 12, 0x0e: 20, 0x0f: 20}
ALLOWED = set(FIXED) | {0x02, 0x03, 0x04, 0x05, 0x06, 0x07, 0x08, 0x09, 0x1e, 0x1f}


def varuint(data, at, end):
    """The number at a place and the place behind it, or None where the bytes end first."""
    if at >= end:
        return None
    first, more = data[at], 0
    while more < 8 and first & (0x80 >> more):
        more += 1
    if at + 1 + more > end:
        return None
    value = first & (0xFF >> (more + 1)) if more < 8 else 0
    for byte in data[at + 1:at + 1 + more]:
        value = value << 8 | byte
    return value, at + 1 + more


def is_allowed(type_byte):
    return not type_byte & 0x40 and type_byte & 0x3F in ALLOWED


def read_field(data, at, end, given, links):
    """Reads a field up to `end`; in a uniform container `given` is its type byte. Gives the place behind it."""
    start = at
    if given is None:
        if at >= end or not is_allowed(data[at]):
            raise NoObject(start)
        given, at = data[at], at + 1
    if given & 0x80:
        name = varuint(data, at, end)
        if name is None or name[0] > end - name[1]:
            raise NoObject(start)
        at = name[1] + name[0]
    code = given & 0x3F
    if code in FIXED:
        if FIXED[code] > end - at:
            raise NoObject(start)
        if code in (0x0e, 0x0f):
            links.append((code == 0x0e, bytes(data[at:at + 20])))
        return at + FIXED[code]
    size = varuint(data, at, end)
    if size is None:
        raise NoObject(start)
    if code in (0x08, 0x09):
        return size[1]
    size, at = size
    if size > end - at:
        raise NoObject(start)
    inside = at + size
    if code in (0x06, 0x07, 0x1e, 0x1f):
        return inside
    count = None
    if code in (0x04, 0x05):
        count = varuint(data, at, inside)
        if count is None:
            raise NoObject(start)
        count, at = count
    kind = None
    if code in (0x03, 0x05):
        if at == inside:
            if code == 0x03 and size == 0 or count == 0:
                return inside
            raise NoObject(start)
        kind, at = data[at], at + 1
        if not is_allowed(kind):
            raise NoObject(start)
        if kind in (0x01, 0x0c, 0x0d):
            if at != inside:
                raise NoObject(at)
            return inside
    while at < inside if count is None else count > 0:
        if at == inside:
            raise NoObject(inside)
        at = read_field(data, at, inside, kind, links)
        count = None if count is None else count - 1
    if at != inside:
        raise NoObject(at)
    return inside


def read_object(data):
    """The links of an object, in order; raises NoObject with the place of the first fault."""
    if not data or data[0] & 0x7F not in (0x02, 0x03):
        raise NoObject(0)
    links = []
    at = read_field(data, 0, len(data), None, links)
    if at != len(data):
        raise NoObject(at)
    return links


def links_of(data):
    try:
        return read_object(data)
    except NoObject:
        return []


# ---- requests (RFC 9112, as httparse reads a head)

TOKEN = set(LETTERS + b"!#$%&'*+-.^_`|~")
TARGET = set(range(0x21, 0x7F)) | set(range(0x80, 0x100))
VALUE = set(range(0x20, 0x7F)) | set(range(0x80, 0x100)) | {9}


def parse_head(data):
    """`(length, method, target, fields)` of the head at the front, 'more' where one can still come, or 'never'."""
    at = 0
    while data[at:at + 1] == b'\n' or data[at:at + 2] == b'\r\n':
        at += 1 if data[at:at + 1] == b'\n' else 2
    if data[at:] == b'\r':
        return 'more'

    def word(at, allowed):
        start = at
        while at < len(data) and data[at] in allowed:
            at += 1
        if at == len(data):
            return 'more'
        if at == start or data[at] != 0x20:
            return 'never'
        return at

    start = at
    at = word(start, TOKEN)
    if at in ('more', 'never'):
        return at
    method, start = data[start:at], at + 1
    at = word(start, TARGET)
    if at in ('more', 'never'):
        return at
    target, at = data[start:at], at + 1
    try:
        target.decode()
    except UnicodeDecodeError:
        return 'never'
    version = data[at:at + 8]
    if len(version) < 8:
        return 'more' if any(v.startswith(version) for v in (b'HTTP/1.0', b'HTTP/1.1')) else 'never'
    if version not in (b'HTTP/1.0', b'HTTP/1.1'):
        return 'never'
    at += 8
    fields = []
    while True:
        end = 1 if data[at:at + 1] == b'\n' else 2 if data[at:at + 2] == b'\r\n' else 0
        if not end:
            return 'more' if data[at:] in (b'', b'\r') else 'never'
        at += end
        end = 1 if data[at:at + 1] == b'\n' else 2 if data[at:at + 2] == b'\r\n' else 0
        if end:
            return at + end, method, target, fields
        if data[at:] in (b'', b'\r'):
            return 'more'
        if len(fields) == 64:
            return 'never'
        start = at
        while at < len(data) and data[at] in TOKEN:
            at += 1
        if at == len(data):
            return 'more'
        if at == start or data[at:at + 1] != b':':
            return 'never'
        name, at = data[start:at], at + 1
        start = at
        while at < len(data) and data[at] in VALUE:
            at += 1
        if at == len(data):
            return 'more'
        fields.append((name, data[start:at].strip(b' \t')))


def values_of(name, fields):
    return [value for field, value in fields if field.lower() == name]


def put_length(values, most):
    if len(values) != 1 or not 1 <= len(values[0]) <= 19 or not values[0].isdigit():
        return None
    return int(values[0]) if int(values[0]) <= most else None


def form_of(method, target, fields):
    """What a head asks for: `(form, names, length of the body)`, or None."""
    if values_of(b'transfer-encoding', fields) or values_of(b'x-jupiter-iohash', fields):
        return None
    lengths, types = values_of(b'content-length', fields), values_of(b'content-type', fields)
    bare = lengths in ([], [b'0'])
    if target.startswith(b'/api/v1/blobs/'):
        parts = target[14:].split(b'/')
        if len(parts) != 2 or not is_name(parts[0]) or hash_of(parts[1]) is None:
            return None
        names = parts[0], hash_of(parts[1])
        put, get, kind, most = 'put_blob', 'get_blob', b'application/octet-stream', 67108864
    elif target.startswith(b'/api/v1/refs/'):
        parts = target[13:].split(b'/')
        if len(parts) not in (3, 5) or not is_name(parts[0]) or not is_name(parts[1]) or hash_of(parts[2]) is None:
            return None
        name = parts[0], parts[1], hash_of(parts[2])
        if len(parts) == 5:
            if method != b'POST' or parts[3] != b'finalize' or hash_of(parts[4]) is None or not bare:
                return None
            return 'finalise', (name, hash_of(parts[4])), 0
        names, put, get, kind, most = (name,), 'put_ref', 'get_ref', b'application/x-ue-cb', 16777216
    else:
        return None
    if method == b'PUT' and types[:1] in ([], [kind]):
        size = put_length(lengths, most)
        return None if size is None else (put, names, size)
    if method == b'GET' and bare:
        return get, names, 0
    return None


def item_of(form, names, body):
    """What is answered before the next request is read."""
    if form == 'put_blob':
        found = io_hash(body)
        return ('put_blob', names[0], body) if found == names[1] else ('mismatch', names[1], found)
    if form == 'put_ref':
        try:
            read_object(body)
        except NoObject as fault:
            return 'not_object', fault.at
        return 'put_ref', names[0], body
    return (form,) + names


def cut(data):
    """The items of a stream, the place of its end, and the end."""
    items, at = [], 0
    while len(items) < 10000:
        rest = data[at:]
        if not rest:
            return items, at, 'closed'
        head = parse_head(rest[:16384])
        if head == 'never' or head == 'more' and len(rest) >= 16384:
            return items, at, 'unread'
        if head == 'more':
            return items, at, 'cut'
        form = form_of(head[1], head[2], head[3])
        if form is None:
            return items, at, 'unread'
        if len(rest) < head[0] + form[2]:
            return items, at, 'cut'
        items.append(item_of(form[0], form[1], rest[head[0]:head[0] + form[2]]))
        at += head[0] + form[2]
    return items, at, 'spent'


# ---- entries and the journal

UNIT = 4096


def four(number):
    return number.to_bytes(4, 'little')


def eight(number):
    return number.to_bytes(8, 'little')


def spelled_text(text):
    return bytes([len(text)]) + text


def spelled_name(name):
    return spelled_text(name[0]) + spelled_text(name[1]) + name[2]


def spelled_row(named, length, start, links):
    spelled = b''.join((b'\x00' if is_object else b'\x01') + other for is_object, other in links)
    return named + eight(length) + eight(start) + four(len(links)) + spelled


KINDS = ('space', 'upload', 'repin', 'put', 'finalise', 'delete', 'touch', 'expire', 'swept', 'cursor', 'base_hour', 'base_slot', 'base_event')
BY_SPACE = 'space', 'upload', 'repin', 'expire', 'swept', 'cursor'
BY_NAME = 'put', 'finalise', 'delete', 'touch', 'base_slot'
WITH_HOUR = 'upload', 'repin', 'put', 'finalise', 'delete', 'touch', 'expire', 'base_hour'


def spelled_spot(spot):
    return spelled_text(spot[0]) + spot[1]


def spelled_option(data):
    return b'\x00' if data is None else b'\x01' + data


def spelled_entry(kind, *fields):
    """The body of an entry of a kind with its fields, as a reader gives them."""
    front = bytes([KINDS.index(kind) + 1])
    front += spelled_text(fields[0]) if kind in BY_SPACE else spelled_name(fields[0]) if kind in BY_NAME else b''
    if kind == 'expire':
        return front + bytes([len(fields[1])]) + b''.join(map(spelled_spot, fields[1])) + four(fields[2])
    if kind == 'swept':
        return front + bytes([len(fields[1])]) + b''.join(fields[1])
    if kind == 'cursor':
        _, walking, after, top, spot = fields
        return front + bytes([walking]) + eight(after) + eight(top) + spelled_option(spot and spelled_spot(spot))
    if kind == 'base_hour':
        return front + four(fields[0])
    if kind == 'base_slot':
        return front + spelled_option(fields[1]) + spelled_option(fields[2]) + four(fields[3])
    if kind == 'base_event':
        (space, *spot), number, added = fields
        return front + spelled_text(space) + eight(number) + spelled_spot(spot) + (b'\x01' if added is None else b'\x00' + added)
    if kind == 'space':
        return front + four(fields[1]) + four(fields[2])
    if kind == 'upload':
        return front + spelled_row(*fields[1]) + four(fields[2])
    if kind == 'put':
        _, root, blob, whole, hour = fields
        return front + root + (b'\x01' + spelled_row(*blob) if blob else b'\x00') + bytes([whole]) + four(hour)
    return front + b''.join(fields[1:-1]) + four(fields[-1])


def space_of(entry):
    """The namespace of an entry; a state's hour has none."""
    return None if entry[0] == 'base_hour' else entry[1] if entry[0] in BY_SPACE else entry[1][0]


def fresh_of(entry):
    """The hash, the length, the first unit and the links of the blob that an entry adds, or None."""
    return entry[2] if entry[0] == 'upload' else entry[3] if entry[0] == 'put' else None


class NoEntry(Exception):
    pass


class Reader:
    """Takes the fields of an entry from the front of a body."""

    def __init__(self, data):
        self.data, self.at = data, 0

    def take(self, count):
        if count > len(self.data) - self.at:
            raise NoEntry
        self.at += count
        return self.data[self.at - count:self.at]

    def number(self, width):
        return int.from_bytes(self.take(width), 'little')

    def text(self):
        text = self.take(self.number(1))
        if not is_name(text):
            raise NoEntry
        return text

    def spot(self):
        return self.text(), self.take(20)

    def name(self):
        return (self.text(), *self.spot())

    def flag(self):
        flag = self.number(1)
        if flag > 1:
            raise NoEntry
        return flag

    def blob(self):
        named, length, start, count = self.take(20), self.number(8), self.number(8), self.number(4)
        if count > len(self.data):
            raise NoEntry
        return named, length, start, [(self.flag() == 0, self.take(20)) for _ in range(count)]

    def option(self, take):
        return take() if self.flag() else None

    def several(self, take):
        count = self.number(1)
        if not 1 <= count <= 64:
            raise NoEntry
        return [take() for _ in range(count)]

    def hash(self):
        return self.take(20)

    def event(self):
        """The name, the number, and the object that is added, or None where one is taken away."""
        space, number, spot = self.text(), self.number(8), self.spot()
        return (space, *spot), number, None if self.flag() else self.take(20)

    def entry(self):
        """The entry at the front, as its kind and its fields."""
        kind = self.number(1)
        if kind == 8:
            return 'expire', self.text(), self.several(self.spot), self.number(4)
        if kind == 9:
            return 'swept', self.text(), self.several(self.hash)
        if kind == 10:
            return 'cursor', self.text(), self.flag(), self.number(8), self.number(8), self.option(self.spot)
        if kind == 11:
            return 'base_hour', self.number(4)
        if kind == 12:
            return 'base_slot', self.name(), self.option(self.hash), self.option(self.hash), self.number(4)
        if kind == 13:
            return ('base_event', *self.event())
        return self.change(kind)

    def change(self, kind):
        """The fields of an entry that a command makes."""
        if kind == 1:
            return 'space', self.text(), self.number(4), self.number(4)
        if kind == 2:
            return 'upload', self.text(), self.blob(), self.number(4)
        if kind == 3:
            return 'repin', self.text(), self.take(20), self.number(4)
        if kind == 4:
            return 'put', self.name(), self.take(20), self.blob() if self.flag() else None, self.flag(), self.number(4)
        if kind == 5:
            return 'finalise', self.name(), self.take(20), self.number(4)
        if kind == 6:
            return 'delete', self.name(), self.number(4)
        if kind == 7:
            return 'touch', self.name(), self.number(4)
        raise NoEntry


def entry_of(body):
    """The entry that a body spells, with nothing after it."""
    reader = Reader(body)
    entry = reader.entry()
    if reader.at != len(body):
        raise NoEntry
    return entry


MAGIC, VERSION = b'DDCJLOG\n', 1


def journal(bodies, generation=1, version=VERSION, gate=1):
    """The file of a journal."""
    items = b''.join(b'\x01' + four(len(body)) + body for body in bodies)
    return MAGIC + four(version) + eight(generation) + bytes([gate]) + items + b'\x00'


class Unopened(Exception):
    """Why there is no store, in the words of the note."""


def rank(data):
    """The generation of a file whose gate is open, and else 0."""
    return int.from_bytes(data[12:20], 'little') if data[20:21] == b'\x01' else 0


WINDOW = 65536


def open_head(front, number):
    """Refuses the front of a journal file, which goes up to its first item's gate."""
    if rank(front) == 0:
        raise Unopened('not made')
    if front[:8] != MAGIC:
        raise Unopened('corrupt file %d at 0' % number)
    if front[8:12] != four(VERSION):
        raise Unopened('version %d' % int.from_bytes(front[8:12], 'little'))
    if len(front) < 22:
        raise Unopened('corrupt file %d at 20' % number)


def whole_items(window, at):
    """The whole items at the front of a window from a place on, the place after them, and how many bytes the next one
    needs with the gate behind it, or None where no item comes."""
    items, place = [], 0
    while window[place] == 1:
        size = window[place + 1:place + 5]
        need = 6 + (int.from_bytes(size, 'little') if len(size) == 4 else 0)
        if place + need > len(window):
            return items, at + place, need
        items.append((at + place, window[place + 5:place + need - 1]))
        place += need - 1
    return items, at + place, None


def item_bodies(disk, number=0):
    """The bodies of the journal file of this number, with the places of their gates. They are read a window at a time; of
    an item that is longer than a window the body is read by itself."""
    length = disk.length()
    open_head(disk.read(0, min(22, length)), number)
    bodies, at = [], 21
    while True:
        items, at, need = whole_items(disk.read(at, min(WINDOW, length - at)), at)
        bodies += items
        if need is None:
            return bodies
        if length - at < need:
            raise Unopened('corrupt file %d at %d' % (number, at))
        if need > WINDOW:
            bodies.append((at, disk.read(at + 5, need - 6)))
            at += need - 1


# ---- a state, and what entries do to it

MOST = {'spaces': 64, 'blobs': 2097152, 'refs': 1048576, 'links': 16777216, 'units': 268435456, 'kept': 16384,
        'entries': 4194304, 'entry_links': 16777216}
MOST_BYTES, MOST_LINKS = 67108864, 4194304


class Refused(Exception):
    """A refusal of a store, by its code and what is told of it."""

    def __init__(self, code, **fields):
        self.code, self.fields = code, fields


def units_of(length):
    return (length + UNIT - 1) // UNIT


class Blob:
    def __init__(self, length, start, links, at):
        self.length, self.start, self.links, self.at = length, start, links, at

    def end(self):
        return self.start + units_of(self.length)


class Slot:
    def __init__(self, done, pending, seen):
        self.done, self.pending, self.seen = done, pending, seen


class Log:
    """The number of a namespace's last event, and the events that are kept, oldest first: the number, the reference, and the
    object that it serves from then on, or None where it serves none."""

    def __init__(self):
        self.last, self.events = 0, []

    def can_follow(self, number):
        return number == self.last + 1 or not self.events and number >= 1

    def append(self, number, spot, added, kept):
        self.last, self.events = number, (self.events + [(number, spot, added)])[-kept:]

    def oldest(self):
        """The number of the oldest event that is kept, or of the next one."""
        return self.events[0][0] if self.events else self.last + 1

    def after(self, number, count):
        return [event for event in self.events if event[0] > number][:count]


def ascend(names):
    return all(one < other for one, other in zip(names, names[1:]))


class State:
    """Namespaces, blobs by namespace and hash, references with their finalised and pending objects, the hour, and by
    namespace its log of events and how far a follower has come: whether it goes through pages, the number of the last event,
    the greatest number of a page, and the reference after which the next page begins, or None."""

    def __init__(self, most=MOST):
        self.spaces, self.blobs, self.slots, self.hour, self.most = {}, {}, {}, 0, most
        self.logs, self.cursors = {}, {}

    def log(self, space):
        return self.logs.get(space, Log())

    def done(self, name):
        """The object that a reference serves, or None."""
        return self.slots[name].done if name in self.slots else None

    # ---- the units of the blob file

    def is_free(self, start, units):
        """Whether units lie below the limit and none of them is a blob's."""
        return start + units <= self.most['units'] and not any(
            max(start, blob.start) < min(start + units, blob.end()) for blob in self.blobs.values())

    def free_run(self, length):
        """The first unit of the first free run that holds so many bytes, or None. Such a run begins at 0 or where a blob
        ends: one that begins elsewhere can begin a unit earlier."""
        if length == 0:
            return 0
        starts = sorted({0} | {blob.end() for blob in self.blobs.values()})
        return next((start for start in starts if self.is_free(start, units_of(length))), None)

    def row(self, data):
        """A blob of these bytes, as it is added."""
        return io_hash(data), len(data), self.free_run(len(data)) or 0, links_of(data)

    # ---- closures

    def needs(self, space, root, fresh=None):
        """What is missing of an object's closure: ascending, each once. A root that is added has the links `fresh`."""
        reached, seen, missing = [(True, root)], set(), set()
        while reached:
            node = reached.pop()
            if node in seen:
                continue
            seen.add(node)
            blob = self.blobs.get((space, node[1]))
            links = fresh if blob is None and node[1] == root else blob.links if blob else None
            if links is None:
                missing.add(node[1])
            elif node[0]:
                reached += links
        return sorted(missing)

    def first_unsound(self):
        """The first reference, by name, that is finalised while a blob of its closure isn't there."""
        for name in sorted(self.slots):
            done = self.slots[name].done
            if done is not None and self.needs(name[0], done):
                return name
        return None

    # ---- entries

    def is_fresh(self, space, blob):
        named, length, start, links = blob
        return (space, named) not in self.blobs and length <= MOST_BYTES and len(links) <= MOST_LINKS \
            and self.is_free(start, units_of(length))

    def events(self, entry):
        """The events that an entry notes, as names of references with what they serve from then on. One is noted where a
        reference serves another object than before, or served one and is taken away."""
        kind, where, *rest = entry
        if kind == 'finalise' or kind == 'put' and rest[2]:
            return [] if self.done(where) == rest[0] else [(where, rest[0])]
        gone = [where] if kind == 'delete' else [(where, *spot) for spot in rest[0]] if kind == 'expire' else []
        return [(name, None) for name in gone if self.done(name) is not None]

    def has_numbers(self, entry):
        """Whether the numbers of events, which have 64 bits, have room for those that an entry notes."""
        events = self.events(entry)
        return not events or self.log(space_of(entry)).last + len(events) < 2 ** 64

    def is_legal(self, entry):
        kind, where, *rest = entry
        if kind == 'base_hour':
            return True
        if kind == 'space':
            return all(1 <= time <= 1000000 for time in rest)
        return space_of(entry) in self.spaces and self.has_numbers(entry) and self.is_in_place(space_of(entry), *entry)

    def is_in_place(self, space, kind, where, *rest):
        """Whether an entry is about what is there, and adds what isn't."""
        slot = self.slots.get(where)
        if kind == 'upload':
            return self.is_fresh(space, rest[0])
        if kind == 'put' and rest[1]:
            return rest[1][0] == rest[0] and self.is_fresh(space, rest[1])
        if kind in ('repin', 'put'):
            return (space, rest[0]) in self.blobs
        if kind == 'finalise':
            return slot is not None and slot.pending == rest[0]
        if kind == 'expire':
            return ascend(rest[0]) and all((space, *spot) in self.slots for spot in rest[0])
        if kind == 'swept':
            return ascend(rest[0]) and all((space, named) in self.blobs for named in rest[0])
        if kind == 'cursor':
            return True
        if kind == 'base_slot':
            return slot is None and any(rest[:2])
        if kind == 'base_event':
            return self.log(space).can_follow(rest[0])
        return slot is not None and (kind == 'delete' or slot.done is not None)

    def follow(self, entry):
        """Makes the change of an entry; raises NoEntry where it isn't legal."""
        if not self.is_legal(entry):
            raise NoEntry
        for name, added in self.events(entry):
            self.note(name, self.log(name[0]).last + 1, added)
        self.change(*entry)
        if entry[0] in WITH_HOUR:
            self.hour = max(self.hour, entry[-1])

    def note(self, name, number, added):
        self.logs.setdefault(name[0], Log()).append(number, name[1:], added, self.most['kept'])

    def change(self, kind, where, *rest):
        """What an entry leaves but for the events that it notes and the hour."""
        entry, hour = (kind, where, *rest), rest[-1] if rest else where
        space, blob = space_of(entry), fresh_of(entry)
        if blob:
            self.blobs[space, blob[0]] = Blob(*blob[1:], hour)
        elif kind in ('repin', 'put'):
            self.blobs[space, rest[0]].at = max(self.blobs[space, rest[0]].at, hour)
        if kind == 'space':
            self.spaces[space] = tuple(rest)
        elif kind == 'put':
            self.slots[where] = Slot(rest[0], None, hour) if rest[2] else Slot(self.done(where), rest[0], hour)
        elif kind == 'finalise':
            self.slots[where] = Slot(rest[0], None, hour)
        elif kind == 'touch':
            self.slots[where].seen = hour
        elif kind == 'delete':
            del self.slots[where]
        elif kind == 'expire':
            for spot in rest[0]:
                del self.slots[(space, *spot)]
        elif kind == 'swept':
            for named in rest[0]:
                del self.blobs[space, named]
        elif kind == 'cursor':
            self.cursors[space] = tuple(rest)
        elif kind == 'base_slot':
            self.slots[where] = Slot(*rest)
        elif kind == 'base_event':
            self.note(where, *rest)

    def fits(self, entry):
        """Refuses an entry that would pass a limit."""
        blob, links = fresh_of(entry), sum(len(blob.links) for blob in self.blobs.values())
        counts = [('spaces', len(self.spaces), entry[0] == 'space' and entry[1] not in self.spaces),
                  ('blobs', len(self.blobs), blob is not None),
                  ('refs', len(self.slots), entry[0] == 'put' and entry[1] not in self.slots),
                  ('links', links, len(blob[3]) if blob else 0)]
        for what, count, more in counts:
            if more and count + more > self.most[what]:
                raise Refused('full', limit=self.most[what], what=what)
        if blob and self.free_run(blob[1]) is None:
            raise Refused('full', limit=self.most['units'], what='units')


# ---- a store: three disks, and the state that they lead to

def close(disk):
    """Closes a journal file."""
    if disk.length() < 21:
        disk.write_sure(0, bytes(20))
        disk.write_sure(20, b'\x00')
    elif disk.read(20, 1) == b'\x01':
        disk.write_sure(20, b'\x00')


def sync_all(disks):
    for disk in disks.blobs, disks.first, disks.second:
        disk.sync()


def create(disks, most=MOST):
    """An empty store, made over whatever the disks held."""
    sync_all(disks)
    close(disks.second)
    close(disks.first)
    empty = journal([])
    disks.first.write(0, empty[:20])
    disks.first.write_sure(21, empty[21:])
    disks.first.write_sure(20, b'\x01')
    return Store(disks, disks.first, State(most), [])


def load(disks, most=MOST):
    """The store that the disks hold; raises Unopened."""
    sync_all(disks)
    first, second = (disk.read(0, 21) for disk in (disks.first, disks.second))
    number = int(rank(first) < rank(second))
    active = disks.all()[number]
    items, state = item_bodies(active, number), State(most)
    for at, body in items:
        try:
            state.follow(entry_of(body))
        except NoEntry:
            raise Unopened('corrupt file %d at %d' % (number, at)) from None
    name = state.first_unsound()
    if name is not None:
        raise Unopened('unsound %s/%s/%s' % (name[0].decode(), name[1].decode(), name[2].hex()))
    return Store(disks, active, state, [body for _, body in items])


class Store:
    """An open store. Each command makes at most one entry. The steps are those since before the opening."""

    def __init__(self, disks, active, state, bodies):
        self.disks, self.active, self.state = disks, active, state
        self.end = len(journal(bodies)) - 1
        self.entries, self.links, self.broken = 0, 0, None
        self.steps = ['change'] * len(bodies) + ['loaded:%d' % disks.faults()]

    # ---- entries and reads

    def in_history(self, entry):
        """Refuses an entry for which the history has no room, or the numbers of events have none for its events."""
        links = len(fresh_of(entry)[3]) if fresh_of(entry) else 0
        if self.state.most['entries'] < self.entries + 1 or self.state.most['entry_links'] < self.links + links \
                or not self.state.has_numbers(entry):
            raise Refused('history_full', entries=self.entries, links=self.links)
        return links

    def breaks(self, before, changed):
        self.broken = self.disks.faults()
        self.steps.append('broke:%s:%d:%d' % (str(changed).lower(), before, self.broken))
        raise Refused('disk_failed')

    def make(self, *entry, data=b''):
        """Makes an entry, with the bytes of the blob that it adds: the step, the new state, and then the calls."""
        self.state.fits(entry)
        self.links += self.in_history(entry)
        self.entries += 1
        self.state.follow(entry)
        self.steps.append('change')
        body, before = spelled_entry(*entry), self.disks.faults()
        try:
            if data:
                self.disks.blobs.write_sure(UNIT * fresh_of(entry)[2], data)
            self.active.write_sure(self.end + 1, four(len(body)) + body + b'\x00')
            self.active.write_sure(self.end, b'\x01')
        except Failed:
            self.breaks(before, True)
        self.end += 5 + len(body)

    def serves(self, space):
        if self.broken is not None:
            raise Refused('broken', faults=self.broken)
        if space not in self.state.spaces:
            raise Refused('unknown_namespace')

    def blob(self, space, named):
        if (space, named) not in self.state.blobs:
            raise Refused('not_found')
        return self.state.blobs[space, named]

    def served(self, space, named):
        """The bytes of a blob, by one read."""
        blob, before = self.blob(space, named), self.disks.faults()
        try:
            data = self.disks.blobs.read(UNIT * blob.start, blob.length)
        except Failed:
            self.breaks(before, False)
        if io_hash(data) != named:
            raise Refused('damaged', found=io_hash(data).hex(), named=named.hex())
        return data

    def slot(self, name):
        self.serves(name[0])
        if name not in self.state.slots:
            raise Refused('not_found')
        return self.state.slots[name]

    def done(self, name):
        done = self.slot(name).done
        if done is None:
            raise Refused('not_finalised')
        return done

    # ---- the commands

    def set_space(self, space, ttl, pin):
        if self.broken is not None:
            raise Refused('broken', faults=self.broken)
        self.make('space', space, ttl, pin)

    def upload(self, hour, space, data):
        self.serves(space)
        named, hour = io_hash(data), max(hour, self.state.hour)
        blob = self.state.blobs.get((space, named))
        if blob is None:
            self.make('upload', space, self.state.row(data), hour, data=data)
        elif blob.at < hour:
            self.make('repin', space, named, hour)
        return named

    def put(self, hour, name, data):
        self.serves(name[0])
        root, hour = io_hash(data), max(hour, self.state.hour)
        if (name[0], root) in self.state.blobs:
            fresh, data = None, b''
        else:
            fresh = self.state.row(data)
        missing = self.state.needs(name[0], root, fresh and fresh[3])
        self.make('put', name, root, fresh, int(not missing), hour, data=data)
        return missing

    def finalise(self, hour, name, named):
        slot = self.slot(name)
        if slot.done == named:
            return []
        if slot.pending != named:
            raise Refused('not_pending')
        missing = self.state.needs(name[0], named)
        if not missing:
            self.make('finalise', name, named, max(hour, self.state.hour))
        return missing

    def get_ref(self, hour, name):
        done, hour = self.done(name), max(hour, self.state.hour)
        data, entry = self.served(name[0], done), ('touch', name, hour)
        if self.state.slots[name].seen < hour:
            try:
                self.in_history(entry)
            except Refused:
                return done, data
            self.make(*entry)
        return done, data

    def delete(self, hour, name):
        self.slot(name)
        self.make('delete', name, max(hour, self.state.hour))

    def peek_ref(self, name):
        return self.done(name), self.blob(name[0], self.done(name)).length

    def has_blob(self, space, named):
        self.serves(space)
        return self.blob(space, named).length

    def get_blob(self, space, named):
        self.serves(space)
        return self.served(space, named)

    def exist(self, space, hashes):
        self.serves(space)
        return sorted({named for named in hashes if (space, named) not in self.state.blobs})


# ---- replies

PHRASES = {200: 'OK', 400: 'Bad Request', 404: 'Not Found', 409: 'Conflict', 500: 'Internal Server Error', 503: 'Service Unavailable', 507: 'Insufficient Storage'}


def reply(status, kind, body, close, named=None):
    lines = ['HTTP/1.1 %d %s' % (status, PHRASES[status]), 'Content-Type: ' + kind]
    lines += ['X-Jupiter-IoHash: ' + named.hex()] if named is not None else []
    lines += ['Content-Length: %d' % len(body)]
    lines += ['Connection: close'] if close else []
    return '\r\n'.join(lines + ['', '']).encode() + body


def json_text(value):
    if isinstance(value, list):
        return '[' + ','.join(json_text(one) for one in value) + ']'
    return '"%s"' % value if isinstance(value, str) else str(value)


def json_reply(status, close, **body):
    pairs = ','.join('"%s":%s' % (key, json_text(body[key])) for key in sorted(body))
    return reply(status, 'application/json', ('{' + pairs + '}').encode(), close)


STATUS = {'unknown_namespace': 404, 'not_found': 404, 'not_finalised': 404, 'not_pending': 409, 'full': 507,
          'history_full': 503, 'disk_failed': 503, 'broken': 503, 'damaged': 500}
CLOSING = 'disk_failed', 'broken', 'damaged'


def refusal(refused, close):
    return json_reply(STATUS[refused.code], close or refused.code in CLOSING, error=refused.code, **refused.fields)


def answer(store, hour, item, close):
    """The reply to a request; raises Refused with the faults that close."""
    kind, rest = item[0], item[1:]
    try:
        if kind == 'put_blob':
            return json_reply(200, close, identifier=store.upload(hour, *rest).hex())
        if kind == 'get_blob':
            return reply(200, 'application/octet-stream', store.get_blob(*rest), close, rest[1])
        if kind == 'put_ref':
            return json_reply(200, close, needs=[need.hex() for need in store.put(hour, *rest)])
        if kind == 'finalise':
            return json_reply(200, close, needs=[need.hex() for need in store.finalise(hour, *rest)])
        if kind == 'get_ref':
            done, data = store.get_ref(hour, *rest)
            return reply(200, 'application/x-ue-cb', data, close, done)
    except Refused as refused:
        if refused.code in CLOSING:
            raise
        return refusal(refused, close)
    if kind == 'mismatch':
        return json_reply(400, close, error='hash_mismatch', found=rest[1].hex(), named=rest[0].hex())
    return json_reply(400, close, at=rest[0], error='not_an_object')


# ---- the runs on disks: the exit status and the note. `put` takes what is written, and may raise Unwritten

class Unwritten(Exception):
    pass


WRITE_FAILED, DISK_FAILED = (4, b'ddc: write failed\n'), (5, b'ddc: disk failed\n')


def init(disks, put, space, ttl, pin):
    """`ddc init DIR NS TTL PIN`."""
    try:
        try:
            store = load(disks)
        except Unopened as fault:
            if str(fault) != 'not made':
                return 2, ('ddc: cannot open store: %s\n' % fault).encode()
            store = create(disks)
        store.set_space(space, ttl, pin)
        put(b'namespace %s ttl %d pin %d\n' % (space, ttl, pin))
        return 0, b''
    except Failed:
        return DISK_FAILED
    except Refused as refused:
        return DISK_FAILED if refused.code == 'disk_failed' else (8, ('ddc: refused: %s\n' % refused.code).encode())
    except Unwritten:
        return WRITE_FAILED


def put_reply(put, text):
    """A reply is written as its head and its body."""
    head, body = text.split(b'\r\n\r\n', 1)
    put(head + b'\r\n\r\n')
    put(body)


def replay(disks, put, hour, stream, fails=False):
    """`ddc replay DIR` for an input at an hour; at its end a read fails, or none does."""
    try:
        store = load(disks)
    except Unopened as fault:
        return 2, ('ddc: cannot open store: %s\n' % fault).encode()
    except Failed:
        return DISK_FAILED
    items, at, end = cut(stream)
    try:
        for count, item in enumerate(items):
            try:
                put_reply(put, answer(store, hour, item, count == 9999))
            except Refused as refused:
                return last_reply(put, refused)
        if fails and end in ('closed', 'cut'):
            return 4, b'ddc: read failed\n'
        if end == 'unread':
            put_reply(put, json_reply(400, True, error='unread'))
    except Unwritten:
        return WRITE_FAILED
    code = {'closed': None, 'cut': 'cut', 'unread': 'unread', 'spent': 'too_many_requests'}[end]
    return (3, ('ddc: bad input at %d: %s\n' % (at, code)).encode()) if code else (0, b'')


def last_reply(put, refused):
    """A disk that failed ends the session whatever becomes of the reply."""
    try:
        put_reply(put, refusal(refused, True))
    except Unwritten:
        return WRITE_FAILED if refused.code == 'damaged' else DISK_FAILED
    return (7, b'ddc: damaged blobs 1\n') if refused.code == 'damaged' else DISK_FAILED
