"""What the comparisons with CPython share: cpython.py for UTF-8, cesu8.py for CESU-8, packets.py for lines in packets,
reason.py for reasons, index.py for an index."""

import codecs
import ctypes
import itertools
import subprocess
import sys

LAST, SURRO, STRICT, SHOW = 1, 2, 4, 8
MOST_DIFFERENCES = 10
MOST_CALLS = 300  # many more than a run of these needs

BORDER_CODES = [0, 0x41, 0x7F, 0x80, 0x7FF, 0x800, 0xD7FF, 0xD800, 0xDBFF, 0xDC00, 0xDC7F, 0xDC80, 0xDCFF, 0xDD00, 0xDFFF,
                0xE000, 0xFFFD, 0xFFFF, 0x10000, 0x10FFFF, 0x110000, 0x80000000, 0xFFFFFFFF]

compared = differences = 0
seed = 88172645463325252


def below(n):
    """A random number, the same ones in every run (xorshift)."""
    global seed
    seed ^= seed << 13 & 0xFFFFFFFFFFFFFFFF
    seed ^= seed >> 7
    seed ^= seed << 17 & 0xFFFFFFFFFFFFFFFF
    return (seed >> 32) % n


def shown(value):
    if isinstance(value, bytes):
        return value.hex(' ').upper() or 'nothing'
    if isinstance(value, (tuple, list)):
        return ', '.join(map(shown, value))
    return str(value)


def compare(expected, answer, *what, by='CPython'):
    """Counts one comparison; what is said of it is only put together for a difference."""
    global compared, differences
    compared += 1
    if expected == answer:
        return
    differences += 1
    print('difference:', *map(shown, what))
    print(f'  {by}:', shown(expected))
    print('  here:   ', shown(answer))
    if differences == MOST_DIFFERENCES:
        sys.exit('too many differences')


def total(*parts):
    """Says how much was compared, and what is said of parts of it; the exit status."""
    print(f'{compared} comparisons', *parts, f'{differences} differences', sep=', ')
    return differences != 0


# The library.

class Library:
    ROOM = 1 << 17

    def __init__(self, path, form=''):
        library = ctypes.CDLL(path)
        self.out = ctypes.create_string_buffer(self.ROOM)
        self.report = ctypes.create_string_buffer(9)
        self.reader = self.entry(library[f'utf8b_{form}decode'])
        self.writer = self.entry(library[f'utf8b_{form}encode'])

    @staticmethod
    def entry(function):
        size, pointer = ctypes.c_size_t, ctypes.c_char_p
        function.argtypes = [pointer, size, ctypes.c_void_p, size, ctypes.c_uint32, ctypes.c_void_p, size]
        function.restype = ctypes.c_int64
        return function

    def call(self, entry, data, flags, item, room):
        """The answer, the consumed count, the length of the bad stretch, and the output as bytes."""
        answer = entry(data, len(data), self.out, room, flags, self.report, 9)
        made = ctypes.string_at(self.out, answer * item) if answer > 0 else b''
        report = self.report.raw
        return answer, int.from_bytes(report[:8], 'little'), report[8], made

    def read(self, data, flags, room=ROOM):
        return self.call(self.reader, data, flags, 4, room)

    def write(self, codes, flags, room=ROOM):
        return self.call(self.writer, codes, flags, 1, room)


def packed(codes):
    return b''.join(code.to_bytes(4, 'little') for code in codes)


def wide(text):
    return text.encode('utf-32-le', 'surrogatepass')


def answer_of(items, bad):
    return -1 if bad and items == 0 else items


def surrogate_begins(data):
    """ED A0..BF. With SURRO it begins a sequence; for CPython's 'surrogatepass' it does so only where the third byte is
    there, and else ED alone is bad."""
    return data[:1] == b'\xED' and b'\xA0' <= data[1:2] <= b'\xBF'


def bad_length(error, flags):
    """Of the stretch that CPython's decoder calls bad."""
    return 2 if flags & SURRO and surrogate_begins(error.object[error.start:]) else error.end - error.start


def piece_length():
    return below(100 if below(4) else 4000)


def read_in_pieces(library, data, flags, length_of_next=piece_length):
    """The unread rest goes before the next piece; only the last piece has LAST."""
    rest, at, codes, consumed = b'', 0, b'', 0
    while True:
        piece = data[at:at + length_of_next()]
        at += len(piece)
        rest += piece
        ends = at == len(data)
        answer, used, length, made = library.read(rest, flags if ends else flags & ~LAST)
        codes += made
        consumed += used
        rest = rest[used:]
        if ends or length > 0:
            return answer_of(len(codes) // 4, answer < 0), consumed, length, codes


def compare_refused(library, flags, reader_flags, writer_flags):
    if flags not in reader_flags:
        compare(-4, library.read(b'40\xE2', flags)[0], 'read, refused flags', flags)
    if flags not in writer_flags:
        compare(-4, library.write(b'4\0\0\0', flags)[0], 'write, refused flags', flags)


def write_surrogate(error):
    """One surrogate: a byte if it is an escape, else three."""
    one = UnicodeEncodeError(error.encoding, error.object, error.start, error.start + 1, error.reason)
    try:
        return codecs.lookup_error('surrogateescape')(one)
    except UnicodeEncodeError:
        return codecs.lookup_error('surrogatepass')(one)


codecs.register_error('write surrogate', write_surrogate)


# Inputs.

def short_strings(border, narrow_border):
    every = [bytes([b]) for b in range(256)]
    yield b''
    yield from every
    yield from (a + b for a in every for b in every)
    yield from map(bytes, itertools.product(border, repeat=3))
    yield from map(bytes, itertools.product(narrow_border, repeat=4))


def random_code():
    return below((0x80, 0x800, 0xD800, 0x110000)[below(4)])


def random_text(length):
    codes = (random_code() for _ in range(length))
    return ''.join(chr(code) if not 0xD800 <= code <= 0xDFFF else '′' for code in codes)


def damage(data):
    """One byte dropped, changed or doubled."""
    place = below(len(data)) if data else 0
    with_byte = (b'', bytes([below(256)]), data[place:place + 1] * 2)[below(3)]
    return data[:place] + with_byte + data[place + 1:]


def damaged(length, encode=str.encode):
    data = encode(random_text(length))
    for _ in range(below(1 + length // 3) + 1):
        data = damage(data)
    return data


def of_pieces(pieces, length):
    return b''.join(pieces[below(len(pieces))] for _ in range(length))


def texts(pieces, count, length):
    """Well-formed, damaged, of these pieces, and any bytes."""
    for _ in range(count):
        text = random_text(below(length)).encode()
        yield text
        yield damage(text)
        yield damaged(below(length))
        yield of_pieces(pieces, below(length))
        yield bytes(below(256) for _ in range(below(length)))


def random_strings(count, border, encode=str.encode):
    for _ in range(count):
        yield bytes(below(256) if below(3) else border[below(len(border))] for _ in range(below(16)))
    for _ in range(count):
        yield damaged(below(16), encode)


def code_lists():
    yield []
    yield from ([code] for code in BORDER_CODES)
    yield from map(list, itertools.product(BORDER_CODES, repeat=2))
    for _ in range(12000):
        yield [BORDER_CODES[below(20 + below(8) // 5)] if below(3) else random_code() for _ in range(below(12))]


def code_blocks():
    for first in range(0, 0x110000, 1024):
        yield list(range(first, first + 1024))


# Steps, by way of probe. All runs go on together: a batch has one command of each.

def ask(probe, commands):
    done = subprocess.run([probe], input='\n'.join(commands) + '\n', capture_output=True, encoding='ascii', check=True)
    answers = done.stdout.splitlines()
    if len(answers) != len(commands):
        sys.exit(f'probe: {len(commands)} commands, {len(answers)} answers')
    return [answer.split(' ') for answer in answers]


def record_of(kind, data):
    """As probe writes it: the kind, the number of data bytes, the data bytes; no data bytes is the starting state."""
    record = bytes([kind, len(data)]) + data if data else b''
    return record.ljust(16, b'\0').hex().upper()


class Run:
    """Units of a text, or bytes of units, made call by call."""

    def __init__(self, source):
        self.source = source
        self.at = 0
        self.record = record_of(0, b'')
        self.made = b''
        self.bad = None
        self.length = None
        self.over = False


def step_on(command, run, lengths):
    piece = run.source[run.at:run.at + below(lengths)]
    return f'{command} {run.record} {piece.hex() or "-"}'


def pending(run):
    """8-bit units or a 16-bit unit."""
    return run.record[:2] in ('02', '03')


def step_take(run, fields, size=2):
    answer, _, unit, consumed, held, length, run.record = fields
    run.at += int(consumed)
    if unit != '-':
        run.made += int(unit, 16).to_bytes(size, 'little')
    if answer not in ('unit', 'null', 'continuation', 'incomplete'):
        run.bad = run.at - int(held) if answer == 'bad' else answer
    run.length = None if length == '-' else int(length)
    run.over = run.bad is not None or (run.at == len(run.source) and not pending(run))


def compare_runs(probe, sources, on, take, expected, start=Run, by='CPython'):
    runs = [start(source) for source in sources]
    live = [run for run in runs if run.source]
    for _ in range(MOST_CALLS):
        if not live:
            break
        for run, fields in zip(live, ask(probe, [on(run) for run in live])):
            try:
                take(run, fields)
            except ValueError:
                run.bad, run.over = ' '.join(fields), True
        live = [run for run in live if not run.over]
    for run in live:
        run.bad = 'no end'
    for run in runs:
        compare(expected(run.source), (run.made, run.bad, run.length, run.record), 'run of steps over', run.source,
                by=by)
