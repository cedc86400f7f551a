"""The calls that a program made, as record_calls.c writes them down, and the images that a crash between or within them
may leave: of what isn't synced each part may be lost, kept, kept in part, or be anything, in any order."""

import collections
import struct

KINDS = ['', 'open', 'read', 'write', 'pread', 'pwrite', 'fdatasync', 'fsync', 'rename', 'link', 'unlink', 'flock', 'statx']
DATABASE = ['face.log', 'face.flash', 'face.disk']
NAMES = DATABASE + ['face.log.new', 'face.flash.new', 'face.disk.new', '.', 'input', 'output', '']
FOLDER = '.'
CREATES = 1
HEADER = struct.Struct('<IIqqqQ')

Call = collections.namedtuple('Call', 'kind file offset asked result octets')


def read_calls(path):
    with open(path, 'rb') as trace:
        content = trace.read()
    calls, place = [], 0
    while place < len(content):
        kind, file, offset, asked, result, length = HEADER.unpack_from(content, place)
        place += HEADER.size
        calls.append(Call(KINDS[kind], NAMES[file], offset, asked, result, content[place:place + length]))
        place += length
    return calls


class File:
    """The octets of a file that are stable, and the writes that aren't."""

    def __init__(self, content=b''):
        self.stable = bytearray(content)
        self.loose = []

    def put(self, content, offset, octets):
        if offset + len(octets) > len(content):
            content.extend(bytes(offset + len(octets) - len(content)))
        content[offset:offset + len(octets)] = octets

    def sync(self):
        for offset, octets in self.loose:
            self.put(self.stable, offset, octets)
        self.loose = []

    def left(self, random, way):
        content = bytearray(self.stable)
        loose = list(self.loose)
        if way != 'kept':
            random.shuffle(loose)
        for offset, octets in loose:
            for start, part in parts(random, way, octets):
                self.put(content, offset + start, part)
        return content


WAYS = ['lost', 'kept', 'whole', 'torn', 'torn', 'any']


def parts(random, way, octets):
    """The parts of a write that stand after a crash, each with its start."""
    if way == 'mixed':
        way = random.choice(WAYS[:5])
    if way == 'lost' or (way == 'whole' and random.random() < 0.5):
        return []
    if way in ('kept', 'whole'):
        return [(0, octets)]
    if way == 'any':
        return [(0, random.randbytes(len(octets)))]
    return torn(random, octets)


def torn(random, octets):
    """A front, a back, a piece, some sectors, or some octets."""
    length = len(octets)
    start, end = sorted([random.randint(0, length), random.randint(0, length)])
    cut = random.randrange(5)
    if cut == 0:
        return [(0, octets[:end])]
    if cut == 1:
        return [(start, octets[start:])]
    if cut == 2:
        return [(start, octets[start:end])]
    step = 512 if cut == 3 else random.choice([1, 3, 16])
    return [(at, octets[at:at + step]) for at in range(0, length, step) if random.random() < 0.5]


class Disk:
    """A folder and its files, as they stand between two calls, and what a crash leaves of them."""

    def __init__(self, files):
        self.names = {name: File(content) for name, content in files.items()}
        self.stable_names = dict(self.names)
        self.loose_names = []
        self.written = False
        self.told = b''

    def make(self, call):
        """Takes over a call that has been made."""
        if call.result < 0:
            return
        if call.kind == 'open' and call.offset == CREATES:
            self.rename_to(call.file, File())
        elif call.kind == 'write' and call.file == 'output':
            self.told += call.octets
        elif call.kind in ('write', 'pwrite') and call.file in self.names:
            self.names[call.file].loose.append((call.offset, call.octets))
            self.written = True
        elif call.kind in ('fdatasync', 'fsync') and call.file == FOLDER:
            self.stable_names = dict(self.names)
            self.loose_names = []
        elif call.kind in ('fdatasync', 'fsync') and call.file in self.names:
            self.names[call.file].sync()
        elif call.kind == 'rename':
            moved = self.names[call.file]
            self.rename_to(call.file, None)
            self.rename_to(NAMES[call.offset], moved)
        elif call.kind == 'link':
            self.rename_to(NAMES[call.offset], self.names[call.file])
        elif call.kind == 'unlink':
            self.rename_to(call.file, None)

    def rename_to(self, name, file):
        if file is None:
            self.names.pop(name, None)
        else:
            self.names[name] = file
        self.loose_names.append((name, file))

    def now(self):
        """The files as they read now, by name."""
        return {name: bytes(file.left(None, 'kept')) for name, file in self.names.items()}

    def left(self, random):
        """The files that a crash leaves, by name. Of changes of names that aren't stable some first ones stand, or any."""
        names = dict(self.stable_names)
        some = random.random() < 0.5
        count = random.randint(0, len(self.loose_names))
        for number, (name, file) in enumerate(self.loose_names):
            if (random.random() < 0.5) if some else (number < count):
                if file is None:
                    names.pop(name, None)
                else:
                    names[name] = file
        way = random.choice(['mixed', 'mixed', 'mixed'] + WAYS)
        return {name: bytes(file.left(random, way)) for name, file in names.items()}
