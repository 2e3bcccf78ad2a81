"""The CESU-8 entries and their 16-bit step against CPython, by way of UTF-16 and 'surrogatepass'.

CPython has no CESU-8. Unicode Technical Report 26 makes it from UTF-16, each unit written as UTF-8 writes a code: so
CPython can write it. What it writes for the scalar values is all that is well-formed, and reading looks bytes up there.

usage: cesu8.py LIBRARY PROBE
"""

import functools
import itertools
import struct
import sys

from peer import (LAST, SHOW, STRICT, Library, answer_of, ask, below, code_lists, compare, compare_refused, compare_runs,
                  damage, damaged, packed, random_strings, random_text, read_in_pieces, record_of, short_strings, step_on,
                  step_take, total, wide)

READER_FLAGS = [0, LAST, STRICT, STRICT | LAST, SHOW, SHOW | LAST]
WRITER_FLAGS = [0, LAST, STRICT, STRICT | LAST]
HIGH_BITS = [0, *(1 << bit for bit in range(4, 32)), 0x7FFFFFF0, 0xFFFFFFF0]

BORDER = bytes.fromhex('00417F808F909FA0AFB0BFC0C1C2DFE0E1ECEDEEEFF0F4F5FF')
NARROW_BORDER = bytes.fromhex('41809FA0AFB0BFC2E0EDF0')
ROW_ENDS = '\0\x7F\x80\u07FF\u0800\u0FFF\u1000\uCFFF\uD000\uD7FF\uE000\uFFFF\U00010000\U0010FFFF'
PAIRS = '\U00010000\U0001F4A7\U0010FFFF'
TOO_HIGH = [0x110000, 0x110001, 0x1FFFFF, 0x200000, 0x7FFFFFFF, 0x80000000, 0xFFFFFFFF]
UNTOUCHED = b'\xA5' * 256  # longer than any output of compare_rooms

with_show = 0


# CPython's side of the writer.

UNITS = [chr(unit).encode('utf-8', 'surrogatepass') for unit in range(0x10000)]


def cesu8(text):
    units = text.encode('utf-16-be')
    return b''.join([UNITS[unit] for unit in struct.unpack(f'>{len(units) // 2}H', units)])


def surrogate(code):
    return 0xD800 <= code <= 0xDFFF


def item_by_peer(code, flags):
    """The bytes of a code, or None if it is refused. A surrogate that stands as a code is written as in UTF-8."""
    if code > 0x10FFFF or (surrogate(code) and flags & STRICT):
        return None
    return chr(code).encode('utf-8', 'write surrogate') if surrogate(code) else cesu8(chr(code))


def write_by_peer(codes, flags, room=Library.ROOM):
    made = b''
    for count, code in enumerate(codes):
        item = item_by_peer(code, flags)
        if item is None or len(made + item) > room:
            return answer_of(len(made), item is None), count, 0, made
        made += item
    return len(made), len(codes), 0, made


# CPython's side of the reader.

def beginnings(sequences):
    """Neither empty nor the whole."""
    return {sequence[:length] for sequence in sequences for length in range(1, len(sequence))}


SCALARS = ''.join(chr(code) for code in range(0x110000) if not surrogate(code))
SEQUENCES = {cesu8(char): ord(char) for char in SCALARS}
BEGINNINGS = beginnings(SEQUENCES)
UTF8_BEGINNINGS = beginnings(map(str.encode, SCALARS))
LONGEST = max(map(len, SEQUENCES))


@functools.lru_cache(1 << 16)
def first_stretch(rest):
    """The longest beginning of a sequence, or the whole of one, or else one byte."""
    for length in range(len(rest), 1, -1):
        if rest[:length] in BEGINNINGS or rest[:length] in SEQUENCES:
            return rest[:length]
    return rest[:1]


def turn(rest, flags):
    """The code of the next item and its length; where reading stops None, and the length of the bad stretch or 0."""
    first = first_stretch(rest)
    if first in SEQUENCES:
        return SEQUENCES[first], len(first)
    if rest in BEGINNINGS and not flags & LAST:
        return None, 0
    if flags & STRICT:
        return None, len(first)
    return (0xFFFD, len(first)) if flags & SHOW else (0xDC00 + rest[0], 1)


def read_by_peer(data, flags, room=Library.ROOM):
    codes, at, bad = [], 0, 0
    while at < len(data):
        code, length = turn(data[at:at + LONGEST], flags)
        if code is None:
            bad = length
            break
        if len(codes) == room // 4:
            break
        codes.append(code)
        at += length
    return answer_of(len(codes), bad > 0), at, bad, struct.pack(f'<{len(codes)}I', *codes)


def text_by_peer(data):
    """The text of well-formed bytes, else None. Here nothing is looked up: CPython reads the units and joins the pairs."""
    try:
        units = data.decode('utf-8', 'surrogatepass')
        if max(units, default='') > '\uFFFF':
            return None
        return units.encode('utf-16-be', 'surrogatepass').decode('utf-16-be')
    except UnicodeDecodeError:
        return None


def compare_read(flags, expected, answer, *what):
    global with_show
    with_show += flags & SHOW != 0
    compare(expected, answer, 'read, flags', flags, *what)


def compare_write(flags, expected, answer, *what):
    compare(expected, answer, 'write, flags', flags, *what)


# Inputs.

def with_other_byte(data):
    return {data[:place] + bytes([b]) + data[place + 1:] for place in range(len(data)) for b in BORDER}


def with_other_length(data):
    dropped = {data[:place] + data[place + 1:] for place in range(len(data))}
    doubled = {data[:place + 1] + data[place:] for place in range(len(data))}
    return dropped | doubled


def once_or_twice(change, data):
    """Sorted, since a set has another order in every run."""
    once = change(data)
    return sorted(once.union(*map(change, once)))


def broken_pairs():
    for pair in map(cesu8, PAIRS):
        yield from once_or_twice(with_other_byte, pair)
        yield from once_or_twice(with_other_length, pair)
    yield from once_or_twice(with_other_length, cesu8(PAIRS))


def row_cuts():
    return sorted(beginnings(map(cesu8, ROW_ENDS)))


def cuts():
    """Every cut, and those of every row's first and last sequence with another sequence behind or before."""
    yield from sorted(BEGINNINGS)
    for cut, other in itertools.product(row_cuts(), map(cesu8, ROW_ENDS)):
        yield cut + other
        yield other + cut


def random_byte():
    return bytes([NARROW_BORDER[below(len(NARROW_BORDER))]])


def random_half():
    return UNITS[0xD800 + below(0x800)]


def random_sequence():
    return cesu8(random_text(1))


def random_mix():
    return b''.join((random_byte, random_half, random_sequence)[below(3)]() for _ in range(below(8)))


# Comparisons of the entries.

def compare_scalars(library):
    for first in range(0, len(SCALARS), 1024):
        text = SCALARS[first:first + 1024]
        codes, data, place = wide(text), cesu8(text), f'{ord(text[0]):X}'
        for flags in WRITER_FLAGS:
            compare_write(flags, (len(data), len(text), 0, data), library.write(codes, flags), '1024 codes from', place)
        for flags in READER_FLAGS:
            compare_read(flags, (len(text), len(data), 0, codes), library.read(data, flags), '1024 codes from', place)


def compare_writes(library):
    alone = ([code] for code in [*range(0xD800, 0xE000), *TOO_HIGH])
    for codes in itertools.chain(alone, code_lists()):
        for flags in WRITER_FLAGS:
            compare_write(flags, write_by_peer(codes, flags), library.write(packed(codes), flags), 'codes',
                          [f'{code:X}' for code in codes])


def compare_text(library, data):
    text = text_by_peer(data)
    length, made = library.read(data, STRICT | LAST)[2:]
    compare('bad' if text is None else wide(text), 'bad' if length > 0 else made, 'text of bytes', data)


def compare_reads(library):
    mixes = (random_mix() for _ in range(6000))
    for data in itertools.chain(short_strings(BORDER, NARROW_BORDER), broken_pairs(), cuts(), mixes,
                                random_strings(4000, BORDER, cesu8)):
        compare_text(library, data)
        for flags in READER_FLAGS:
            compare_read(flags, read_by_peer(data, flags), library.read(data, flags), 'bytes', data)


def small_piece_length():
    return below(5)


def compare_pieces(library):
    for data in (random_mix() for _ in range(1000)):
        for flags in READER_FLAGS:
            answer = read_in_pieces(library, data, flags, small_piece_length)
            compare_read(flags, read_by_peer(data, flags), answer, 'small pieces of', data)
    for _ in range(10):
        text = cesu8(random_text(1500 + below(1500)))
        for data in (text, damage(text), damaged(2000, cesu8)):
            for flags in READER_FLAGS:
                compare_read(flags, read_by_peer(data, flags), read_in_pieces(library, data, flags), 'pieces of', data[:64])


def in_room(library, call, data, flags, room):
    """The answer, and what lies behind the output, in the room and beyond it."""
    library.out[:len(UNTOUCHED)] = UNTOUCHED
    answer = call(data, flags, room)
    return answer, library.out[len(answer[3]):len(UNTOUCHED)]


def untouched(expected):
    return expected, UNTOUCHED[len(expected[3]):]


def compare_rooms(library):
    for data in (random_mix() for _ in range(100)):
        for flags, room in itertools.product(READER_FLAGS, range(4 * len(data) + 5)):
            compare_read(flags, untouched(read_by_peer(data, flags, room)), in_room(library, library.read, data, flags, room),
                         'room', room, 'bytes', data)
    for codes in itertools.islice(code_lists(), 0, None, 100):
        data = packed(codes)
        for flags, room in itertools.product(WRITER_FLAGS, range(6 * len(codes) + 2)):
            compare_write(flags, untouched(write_by_peer(codes, flags, room)), in_room(library, library.write, data, flags, room),
                          'room', room, 'codes', data)


def compare_refusals(library):
    for high, low in itertools.product(HIGH_BITS, range(16)):
        compare_refused(library, high | low, READER_FLAGS, WRITER_FLAGS)


# Comparisons of the steps.

def steps_on(run):
    return step_on('cesu8-step16', run, 8)


def steps_expected(data):
    """The units, the first bad place, the length of the bad stretch, and the state after the last byte."""
    _, consumed, length, codes = read_by_peer(data, STRICT)
    units = codes.decode('utf-32-le').encode('utf-16-le')
    if length > 0:
        return units, consumed, length, record_of(0, b'')
    return units, None, None, record_of(1, data[consumed:])


def pause_take(run, fields):
    step_take(run, fields)
    run.over = run.over or run.at == len(run.source)


def pause_expected(data):
    """When the last byte is consumed, the low surrogate that it completes is still pending."""
    units, bad, length, record = steps_expected(data)
    if bad is None and record == record_of(0, b'') and 0xDC <= (b'\0' + units)[-1] <= 0xDF:
        return units[:-2], None, None, record_of(3, units[-2:])
    return units, bad, length, record


def compare_steps(probe):
    strings = [cesu8(random_text(below(8))) for _ in range(1500)]
    strings += [damaged(below(8), cesu8) for _ in range(1500)]
    strings += [random_mix() for _ in range(1500)]
    strings += [cut + bytes([b]) for cut in row_cuts() for b in BORDER]
    compare_runs(probe, strings, steps_on, step_take, steps_expected)
    compare_runs(probe, strings, steps_on, pause_take, pause_expected)


def compare_held(probe):
    """A step takes held bytes that begin a sequence of its own form, and refuses all others."""
    others = map(bytes, itertools.product(BORDER, repeat=2))
    strings = sorted({*UTF8_BEGINNINGS, *BEGINNINGS, *map(cesu8, ROW_ENDS), *others})
    records = [record_of(1, data) for data in strings]
    for command, known in {'step8': UTF8_BEGINNINGS, 'step16': UTF8_BEGINNINGS, 'step32': UTF8_BEGINNINGS,
                           'cesu8-step16': BEGINNINGS}.items():
        answers = ask(probe, [f'{command} {record} -' for record in records])
        for data, record, fields in zip(strings, records, answers):
            expected = 'incomplete' if data in known else 'refused'
            compare((expected, record), (fields[0], fields[-1]), command, 'with held', data)


def main(library, probe):
    library = Library(library, 'cesu8_')
    compare_scalars(library)
    compare_writes(library)
    compare_reads(library)
    compare_pieces(library)
    compare_rooms(library)
    compare_refusals(library)
    compare_steps(probe)
    compare_held(probe)
    return total(f'{with_show} of them with SHOW')


sys.exit(main(*sys.argv[1:]))
