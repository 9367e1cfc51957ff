"""Prints crates/fal_wire_tests/src/digests.rt: what another implementation answers to the records that drawn.rt beside it draws.

usage: python3 bench/digests.py FOLDER > digests.rt    (FOLDER holds that implementation, as a package `oracle` with a module `wire`)

The records are drawn here as there, by the same steps. Each answer is written as Rust's `{:?}` writes it.
"""
import pathlib
import re
import sys

sys.path.insert(0, sys.argv[1])
from oracle import wire

OFFSET, PRIME, BITS = 14695981039346656037, 1099511628211, 2**64
SOURCES = pathlib.Path(__file__).parent.parent / 'crates/fal_wire_tests/src'
TABLES = ''.join((SOURCES / name).read_text() for name in ('table.rt', 'table/calls.rt', 'table/operations.rt'))


def valid_records():
    """The samples, and the records of the other tables that are read: a row there begins with the answer's form and place."""
    samples, *others = [text.split() for text in re.findall(r'"\\\n(.*?)"', TABLES, re.S)]
    return [bytes.fromhex(row) for row in samples + [row[4:] for rows in others for row in rows if row.startswith('0000')]]


# --- drawing -----------------------------------------------------------------------------------

class Draws:
    def __init__(self, seed):
        self.state = seed

    def below(self, bound):
        self.state = (self.state * 6364136223846793005 + 1442695040888963407) % BITS
        return (self.state >> 33) % bound

    def telling_byte(self):
        choice = self.below(6)
        return b'\0\1\2/\xff'[choice] if choice < 5 else self.below(256)

    def mutate(self, record):
        if not record:
            return
        way, at, byte = self.below(6), self.below(len(record)), self.telling_byte()
        if way == 0:
            del record[at:]
        elif way == 1:
            record.append(byte)
        elif way == 2:
            record[at] ^= 1 << byte % 8
        elif way == 3:
            record[at] = byte
        elif way == 4:
            record.insert(at, byte)
        else:
            del record[at]

    def random_record(self):
        record = bytearray((self.below(20), 1, 0, 0, 0, 0))
        for _ in range(self.below(40)):
            record.append(self.telling_byte())
        return record

    def record(self, samples):
        if self.below(8) == 0:
            record = self.random_record()
        else:
            record = bytearray(samples[self.below(len(samples))])
            for _ in range(self.below(2) + 1):
                self.mutate(record)
        if self.below(4) > 0 and len(record) >= 6:
            record[5] = (len(record) - 6) % 256
        return bytes(record)


# --- answers as text ---------------------------------------------------------------------------

def fields(form, parts):
    return '%s { %s }' % (form, ', '.join('%s: %s' % part for part in parts))


def items(list_):
    return 'Items { items: [%s] }' % ', '.join(list_)


def item(value):
    """A row under a key, a row of a known name, or any other item of a list."""
    if type(value) is tuple:
        if isinstance(value[0], int):
            return fields('NamedRow', [('parent', value[0]), ('inode', shown(value[1]))])
        row = 'None' if value[1] is None else 'Some(%s)' % shown(value[1])
        return fields('Update', [('key', shown(value[0])), ('row', row)])
    return shown(value)


def rule(value):
    return {'hash': 'Hash', 'parent': 'ByParent'}.get(value.kind) or 'Node(%d)' % value.node


def reply(value):
    if value.kind == 'fail':
        return 'Fail(%s)' % value.value.capitalize()
    return 'Fine' if value.kind == 'ok' else 'Stat(%s)' % shown(value.value)


def operation(value):
    paths = ['Good(Path { names: %s })' % items(map(shown, path.names)) for path in value.paths]
    names = {0: (), 1: ('path',), 2: ('old', 'new')}[len(paths)]
    others = [(name, shown(getattr(value, name))) for name in wire.OP_FIELDS[value.kind]]
    return fields(value.kind.capitalize(), [*zip(names, paths), *others])


def found(value):
    return {'none': 'Nothing', 'file': 'File'}.get(value) or 'Dir(%s)' % shown(value)


def shown(value):
    form = type(value).__name__
    if isinstance(value, bytes):
        return 'Name { bytes: [%s] }' % ', '.join(map(str, value))
    if isinstance(value, int):
        return str(value)
    if type(value) is tuple:
        return items(map(item, value))
    if form == 'Rule':
        return rule(value)
    if form == 'Reply':
        return reply(value)
    if form == 'Op':
        return operation(value)
    own = {('Inode', 'kind'): lambda kind: ('File', 'Dir')[kind], ('FetchGot', 'found'): found}
    parts = [(name, own.get((form, name), shown)(part)) for name, part in value._asdict().items()]
    return fields(form.rstrip('_'), parts)


def folded(digest, data):
    for byte in data:
        digest = (digest ^ byte) * PRIME % BITS
    return digest


def answered(digest, record):
    """The text of the answer, and of a message what it is written as."""
    try:
        message = wire.decode(record)
    except wire.WireFault as fault:
        return folded(digest, b'Err(%s { at: %d })' % (fault.kind.encode(), fault.at))
    text = 'Call(%s)' % shown(message) if record[0] == 1 else shown(message)
    return folded(folded(digest, b'Ok(%s)' % text.encode()), wire.encode(message))


def main():
    samples, draws = valid_records(), Draws(54)
    print('//! Made by `bench/digests.py`.\n')
    print('/// What reading the drawn records answers: FNV-1a of each hundred of answers, one a line.')
    print('pub fn of_hundreds() -> &\'static str {\n    "\\')
    for _ in range(200):
        digest = OFFSET
        for _ in range(100):
            digest = answered(digest, draws.record(samples))
        print('%016x' % digest)
    print('"\n}')


main()
