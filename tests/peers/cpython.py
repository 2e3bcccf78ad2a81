"""The UTF-8 entries and the 16-bit steps against CPython's codecs.

usage: cpython.py LIBRARY PROBE
"""

import codecs
import itertools
import sys

from peer import (LAST, SHOW, STRICT, SURRO, Library, answer_of, bad_length, below, code_blocks, code_lists, compare,
                  compare_refused, compare_runs, damage, damaged, packed, random_strings, random_text, read_in_pieces,
                  record_of, short_strings, step_on, step_take, total, wide)

READER_FLAGS = [flags for flags in range(16) if flags & (STRICT | SHOW) != STRICT | SHOW]
WRITER_FLAGS = range(8)
REFUSED_FLAGS = [16, 31, 32, 256, 65536, 0x7FFFFFFF, 0x80000000, 0xFFFFFFFF]

BORDER = bytes.fromhex('00417F808F909FA0B2BFC0C1C2DFE0E1ECEDEEEFF0F1F3F4F5F7F8FF')
NARROW_BORDER = bytes.fromhex('41808F909FA0BFC2E0EDF0F4')

with_show = 0


# CPython's side of the reader.

def escape_byte(error):
    return chr(0xDC00 + error.object[error.start]), error.start + 1


def surrogate_or(other):
    surrogate = codecs.lookup_error('surrogatepass')

    def handle(error):
        try:
            return surrogate(error)
        except UnicodeDecodeError:
            return other(error)
    return handle


def mark_subpart(error):
    return '\uFFFD', error.start + bad_length(error, SURRO)


codecs.register_error('surrogate or escape', surrogate_or(escape_byte))
codecs.register_error('surrogate or mark', surrogate_or(mark_subpart))
READER_ERRORS = {0: 'surrogateescape', SURRO: 'surrogate or escape', STRICT: 'strict', STRICT | SURRO: 'surrogatepass',
                 SHOW: 'replace', SHOW | SURRO: 'surrogate or mark'}


def read_by_peer(data, flags):
    errors = READER_ERRORS[flags & ~LAST]
    try:
        text, consumed = codecs.utf_8_decode(data, errors, bool(flags & LAST))
        length = 0
    except UnicodeDecodeError as error:
        text, consumed = codecs.utf_8_decode(data[:error.start], errors, True)
        length = bad_length(error, flags)
    return answer_of(len(text), length > 0), consumed, length, wide(text)


def kept_back(data, flags):
    """CPython waits after a final ED A0..BF whatever the error handler; only SURRO has such a sequence."""
    return not flags & (LAST | SURRO) and data[-2:-1] == b'\xED' and 0xA0 <= data[-1] <= 0xBF


def compare_read(library, data, flags):
    global with_show
    if not kept_back(data, flags):
        with_show += flags & SHOW != 0
        compare(read_by_peer(data, flags), library.read(data, flags), 'read, flags', flags, 'bytes', data)


# CPython's side of the writer.

def writer_errors(flags):
    if flags & SURRO:
        return 'surrogatepass'
    return 'strict' if flags & STRICT else 'write surrogate'


def write_by_peer(codes, flags):
    """No str has a code above 10FFFF: there the writing stops, as bad."""
    legal = list(itertools.takewhile(lambda code: code <= 0x10FFFF, codes))
    text = ''.join(map(chr, legal))
    bad = len(legal) < len(codes)
    try:
        made = text.encode('utf-8', writer_errors(flags))
    except UnicodeEncodeError as error:
        text = text[:error.start]
        made = text.encode('utf-8', writer_errors(flags))
        bad = True
    return answer_of(len(made), bad), len(text), 0, made


def compare_write(library, codes, flags):
    compare(write_by_peer(codes, flags), library.write(packed(codes), flags), 'write, flags', flags, 'codes',
            [f'{code:X}' for code in codes])


# Comparisons of the entries.

def compare_reads(library):
    for data in short_strings(BORDER, NARROW_BORDER):
        for flags in READER_FLAGS:
            compare_read(library, data, flags)
    for data in random_strings(20000, BORDER):
        compare_read(library, data, READER_FLAGS[below(len(READER_FLAGS))])


def compare_lossy(library):
    """The whole of bytes.decode with 'replace'."""
    global with_show
    for data in map(bytes, itertools.chain(itertools.product(BORDER, repeat=4), itertools.product(NARROW_BORDER, repeat=5))):
        text = data.decode('utf-8', 'replace')
        with_show += 1
        compare((len(text), len(data), 0, wide(text)), library.read(data, SHOW | LAST), "decode with 'replace', bytes", data)


def compare_pieces(library):
    for _ in range(40):
        text = random_text(1500 + below(1500)).encode()
        for data in (text, damage(text), damaged(2000)):
            for flags in READER_FLAGS:
                if not kept_back(data, flags):
                    compare(read_by_peer(data, flags), read_in_pieces(library, data, flags), 'pieces, flags', flags,
                            'bytes', data[:64])


def compare_writes(library):
    for codes in itertools.chain(code_lists(), code_blocks()):
        for flags in WRITER_FLAGS:
            compare_write(library, codes, flags)


def compare_refusals(library):
    for bit in range(16):
        for flags in [*range(16), *REFUSED_FLAGS, *(flags | 16 << bit for flags in range(16))]:
            compare_refused(library, flags, READER_FLAGS, WRITER_FLAGS)


# Comparisons of the steps.

def steps_on(run):
    return step_on('step16', run, 6)


def steps_expected(data):
    """The units, the first bad place, the length of the bad stretch, and the state after the last byte."""
    try:
        text, consumed = codecs.utf_8_decode(data, 'strict', False)
        bad, length, rest = None, None, data[consumed:]
    except UnicodeDecodeError as error:
        text, bad, length, rest = data[:error.start].decode(), error.start, error.end - error.start, b''
    return text.encode('utf-16-le'), bad, length, record_of(1, rest)


def back_on(run):
    unit = int.from_bytes(run.source[run.at:run.at + 2], 'little')
    return f'back {run.record} {unit:X}'


def back_take(run, fields):
    answer, _, made, count, held, run.record = fields
    made = bytes.fromhex(made)
    run.made += made[:int(count)]
    if any(made[int(count):]):
        answer = 'an unused place is not zero'
    if answer not in ('bytes', 'held'):
        run.bad = run.at - 2 * int(held) if answer == 'bad' else answer
    run.at += 2
    run.over = run.bad is not None or run.at == len(run.source)


def back_expected(units):
    try:
        text, consumed = codecs.utf_16_le_decode(units, 'strict', False)
        bad, rest = None, units[consumed:]
    except UnicodeDecodeError as error:
        text, bad, rest = units[:error.start].decode('utf-16-le'), error.start, b''
    return text.encode(), bad, None, record_of(4, rest)


def random_units():
    units = [(0xD83D, 0xDCA7, 0x41, 0xD800, 0xDFFF, 0xFFFF, 0xE000)[below(7)] for _ in range(below(8))]
    return b''.join(unit.to_bytes(2, 'little') for unit in units)


def compare_steps(probe):
    texts = [random_text(below(10)) for _ in range(3000)]
    strings = [text.encode() for text in texts] + [damaged(below(10)) for _ in range(3000)]
    strings = [s for s in strings if not kept_back(s, 0)]
    compare_runs(probe, strings, steps_on, step_take, steps_expected)
    units = [text.encode('utf-16-le') for text in texts] + [random_units() for _ in range(3000)]
    compare_runs(probe, units, back_on, back_take, back_expected)


def main(library, probe):
    library = Library(library)
    compare_reads(library)
    compare_lossy(library)
    compare_pieces(library)
    compare_writes(library)
    compare_refusals(library)
    compare_steps(probe)
    return total(f'{with_show} of them with SHOW')


sys.exit(main(*sys.argv[1:]))
