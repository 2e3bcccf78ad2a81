"""Lines that come in packets, against CPython's incremental decoder, and against the line at once (request C-18).

CPython's decoder keeps the unread tail by itself, so each packet is compared. It waits after a final ED A0..BF whatever
the error handler. Without SURRO these bytes are bad, whatever follows: where the decoder holds them, CPython is asked
for them besides, with nothing behind them. So nothing is left out; the last line says how often that was done.

usage: packets.py LIBRARY PROBE
"""

import codecs
import functools
import itertools
import sys

from peer import (LAST, SHOW, STRICT, SURRO, Library, Run, answer_of, bad_length, below, compare, compare_runs,
                  damage, of_pieces, packed, pending, record_of, step_take, surrogate_begins, texts, total, wide)

ERRORS = {0: 'surrogateescape', SHOW: 'replace', STRICT: 'strict', STRICT | SURRO: 'surrogatepass'}
PEER_FLAGS = [flags | last for flags in ERRORS for last in (0, LAST)]
TRIED_FLAGS = range(17)
UTF8_FLAGS = [flags for flags in range(16) if flags & (STRICT | SHOW) != STRICT | SHOW]
CESU8_FLAGS = [flags for flags in UTF8_FLAGS if not flags & SURRO]
REFUSED = -4, 0, 0, b''

# Of each step the bytes of a unit, and CPython's name for such units.
UTF8_STEPS = {'step8': (1, 'utf-8'), 'step16': (2, 'utf-16-le'), 'step32': (4, 'utf-32-le')}
CESU8_STEPS = {'cesu8-step16': (2, 'utf-16-le')}
STEPS = {**UTF8_STEPS, **CESU8_STEPS}

# Flags, packets with '/' between; the codes, the bytes consumed, and the length of the bad stretch.
UTF8_LINES = [
    (LAST, '3430E280//B2', [0x34, 0x30, 0x2032], 5, 0),
    (LAST, 'ED/A0/80', [0xDCED, 0xDCA0, 0xDC80], 3, 0),
    (LAST | SURRO, 'ED/A0/80', [0xD800], 3, 0),
    (SHOW, 'E1/80/E2', [0xFFFD], 2, 0),
    (SHOW | LAST, 'E1/80/E2', [0xFFFD, 0xFFFD], 3, 0),
    (SHOW | LAST, 'ED/A0/41', [0xFFFD, 0xFFFD, 0x41], 3, 0),
    (SHOW | LAST | SURRO, 'ED/A0/41', [0xFFFD, 0x41], 3, 0),
    (STRICT, 'E1/80/E2', [], 0, 2),
    (STRICT, '41F09F/92/', [0x41], 1, 0),
    (STRICT | LAST, '41F09F/92/', [0x41], 1, 3),
]
CESU8_LINES = [
    (LAST, 'EDA0BDED//B2/A7', [0x1F4A7], 6, 0),
    (0, '41EDA080/ED//B0', [0x41], 1, 0),
    (LAST, 'EDA080ED/9FBF', [0xDCED, 0xDCA0, 0xDC80, 0xD7FF], 6, 0),
    (SHOW | LAST, 'EDA080ED/9FBF', [0xFFFD, 0xFFFD, 0xFFFD], 6, 0),
    (STRICT, '41EDA080ED/9FBF', [0x41], 1, 4),
    (STRICT | LAST, '41EDA080/ED//B0', [0x41], 1, 5),
]

# Steps, packets; the units, the first bad place and the length there, and what is held at the end.
STEP_LINES = [
    (UTF8_STEPS, '', [], None, None, ''),
    (UTF8_STEPS, '41E2/34', [0x41], 1, 1, ''),
    (UTF8_STEPS, '00E2/34', [0], 1, 1, ''),
    (UTF8_STEPS, 'F09F92', [], None, None, 'F09F92'),
    (UTF8_STEPS, '41//E1/80//41', [0x41], 1, 2, ''),
    (['step8'], '/F09F//92A7/', [0xF0, 0x9F, 0x92, 0xA7], None, None, ''),
    (['step16'], '/F09F//92A7/', [0xD83D, 0xDCA7], None, None, ''),
    (['step32'], '/F09F//92A7/', [0x1F4A7], None, None, ''),
    (['step8'], 'E280B234/C3', [0xE2, 0x80, 0xB2, 0x34], None, None, 'C3'),
    (['step16'], 'F09F92A734/C3', [0xD83D, 0xDCA7, 0x34], None, None, 'C3'),
    (CESU8_STEPS, 'EDA0/BDED//B2A7/', [0xD83D, 0xDCA7], None, None, ''),
    (CESU8_STEPS, 'EDA0/BDED//B2A734/C3', [0xD83D, 0xDCA7, 0x34], None, None, 'C3'),
    (CESU8_STEPS, '41EDA080/ED//B0', [0x41], None, None, 'EDA080EDB0'),
    (CESU8_STEPS, '41EDA080/ED//9FBF', [0x41], 1, 4, ''),
    (CESU8_STEPS, '00F0/9F', [0], 1, 1, ''),
]

BORDER = bytes.fromhex('41 80 9F A0 C3 E0 ED F0 F4')
NARROW_BORDER = bytes.fromhex('41 80 A0 E0 ED F0')
CESU8_BORDER = bytes.fromhex('41 80 A0 B0 E2 ED')

GOOD = '00 41 C3A9 E280B2 ED9FBF'
BAD = 'C3 E2 E280 F0 F09F F09F92 80 C080 F5 FF E080 E09FBF F08F ED EDA0 EDBF EDA080 EDBFBF F490 F4BF'
PIECES = list(map(bytes.fromhex, f'{GOOD} F09F92A7 {BAD}'.split()))

# In CESU-8: pairs, six bytes that are none, and cut ones.
PAIRS = 'EDA080EDB080 EDA0BDEDB2A7 EDAFBFEDBFBF'
NO_PAIRS = 'EDA080EDB041 EDA080ED9FBF EDA080EDA080 EDA080E28080 EDA041EDB080 EDB080EDA080'
CUT_PAIRS = 'ED EDA0 EDA080 EDA080ED EDA080EDB0'
PAIR_LINES = list(map(bytes.fromhex, f'{PAIRS} {NO_PAIRS} {CUT_PAIRS}'.split()))
CESU8_BAD = 'EDAFBFEDBF EDB080 EDBFBF E2 E280 80 BF F09F92A7'
CESU8_PIECES = list(map(bytes.fromhex, f'{GOOD} {PAIRS} {PAIRS} {NO_PAIRS} {CUT_PAIRS} {CESU8_BAD}'.split()))

waited = 0


# Inputs.

def packets_of(digits):
    return [bytes.fromhex(packet) for packet in digits.split('/')]


def cut(line):
    """Packets of 0 to 24 bytes, short ones above all; empty ones behind the line too."""
    packets = []
    while line or not packets or below(4) == 0:
        length = below((2, 5, 25)[below(3)])
        packets.append(line[:length])
        line = line[length:]
    return packets


def every_cut(line):
    """Every cut into as many packets as there are bytes, and two at least; so some are empty."""
    for places in itertools.combinations_with_replacement(range(len(line) + 1), max(len(line), 2) - 1):
        yield [line[start:end] for start, end in zip((0, *places), (*places, len(line)))]


def short_lines(border, lengths):
    for length in lengths:
        yield from map(bytes, itertools.product(border, repeat=length))


def lines_of(pieces, count, length):
    yield from texts(pieces, count, length)
    yield from (damage(of_pieces(pieces, below(length))) for _ in range(count))


# The reader.

class Reader(Library):
    """Before each call the report is zeros, and after a refused one it still is."""

    def __init__(self, path, form=''):
        super().__init__(path, form)
        self.coding, self.flags = ('CESU-8', CESU8_FLAGS) if form else ('UTF-8', UTF8_FLAGS)

    def read(self, data, flags, room=Library.ROOM):
        self.report.raw = bytes(9)
        return super().read(data, flags, room)


def with_last(packets, flags):
    """Each packet with its flags: only the last has LAST."""
    return [*((packet, flags & ~LAST) for packet in packets[:-1]), (packets[-1], flags)]


def read_packets(reader, packets, flags):
    """What each call tells, with room for a code a byte, up to a bad stretch or a refusal.

    What a packet leaves unread goes before the next."""
    unread = b''
    for packet, packet_flags in with_last(packets, flags):
        unread += packet
        answer, consumed, length, codes = reader.read(unread, packet_flags, 4 * len(unread))
        yield answer, consumed, length, codes
        if length > 0 or answer < -1:
            return
        unread = unread[consumed:]


def read_in_all(reader, packets, flags):
    """As one call tells it. An answer that does not fit the rest of its call stands for them all, as a refusal does."""
    told = list(read_packets(reader, packets, flags))
    codes = b''.join(made for *_, made in told)
    length = told[-1][2]
    odd = [answer for answer, _, bad, made in told if answer != answer_of(len(made) // 4, bad > 0)]
    answer = odd[0] if odd else answer_of(len(codes) // 4, length > 0)
    return answer, sum(consumed for _, consumed, _, _ in told), length, codes


# CPython's side of the reader.

class Decoder:
    """CPython's incremental decoder."""

    def __init__(self, flags):
        self.surro = flags & SURRO
        self.errors = ERRORS[flags & ~LAST]
        self.decoder = codecs.getincrementaldecoder('utf-8')(self.errors)
        self.unread = b''
        self.ahead = ''  # what was said of bytes that it still holds

    def held(self):
        """What it keeps for the next packet, and the text of a final ED A0..BF, which is not kept but with SURRO."""
        global waited
        held, _ = self.decoder.getstate()
        if self.surro or not surrogate_begins(held):
            return held, ''
        waited += 1
        return b'', held.decode('utf-8', self.errors)

    def read(self, packet, last):
        """As a call of the entry tells it that is given what was unread, and the packet."""
        given, known, text = len(self.unread + packet), len(self.ahead), ''
        try:
            text = self.decoder.decode(packet, last)
            self.unread, self.ahead = self.held()
        except UnicodeDecodeError as error:
            text += error.object[:error.start].decode('utf-8', self.errors)
            place = given - len(error.object) + error.start
            return answer_of(len(text), True), place, bad_length(error, self.surro), wide(text)
        text = (text + self.ahead)[known:]
        return len(text), given - len(self.unread), 0, wide(text)


def read_by_peer(packets, flags):
    decoder = Decoder(flags)
    for packet, packet_flags in with_last(packets, flags):
        told = decoder.read(packet, bool(packet_flags & LAST))
        yield told
        if told[2] > 0:
            return


# Comparisons of the reader.

def compare_packets(reader, packets, flags):
    both = itertools.zip_longest(read_by_peer(packets, flags), read_packets(reader, packets, flags))
    for number, (expected, told) in enumerate(both, 1):
        compare(expected, told, 'flags', flags, 'packet', number, 'of', packets)


def compare_with_decoder(reader):
    for line in short_lines(BORDER, range(4)):
        for packets, flags in itertools.product(every_cut(line), PEER_FLAGS):
            compare_packets(reader, packets, flags)
    for line in short_lines(NARROW_BORDER, [4]):
        for packets in every_cut(line):
            compare_packets(reader, packets, PEER_FLAGS[below(len(PEER_FLAGS))])
    for line in lines_of(PIECES, 200, 60):
        for flags in PEER_FLAGS:
            compare_packets(reader, cut(line), flags)


def compare_in_all(reader, packets, flags, expected, by):
    compare(expected, read_in_all(reader, packets, flags), reader.coding, 'flags', flags, 'packets', packets, by=by)


def compare_written_out(reader, lines):
    for flags, digits, codes, consumed, length in lines:
        expected = answer_of(len(codes), length > 0), consumed, length, packed(codes)
        compare_in_all(reader, packets_of(digits), flags, expected, 'written out')


def compare_at_once(reader, line, cuts):
    for flags in TRIED_FLAGS:
        expected = reader.read(line, flags) if flags in reader.flags else REFUSED
        for packets in cuts:
            compare_in_all(reader, packets, flags, expected, 'at once')


def compare_utf8(reader):
    compare_written_out(reader, UTF8_LINES)
    for line in itertools.chain(short_lines(NARROW_BORDER, [4]), lines_of(PIECES, 120, 60)):
        compare_at_once(reader, line, [cut(line), cut(line)])


def compare_cesu8(reader):
    compare_written_out(reader, CESU8_LINES)
    for line in PAIR_LINES:
        compare_at_once(reader, line, list(every_cut(line)))
    for line in itertools.chain(short_lines(CESU8_BORDER, [4]), lines_of(CESU8_PIECES, 120, 60)):
        compare_at_once(reader, line, [cut(line), cut(line)])


# Runs of the steps.

class StepRun(Run):
    """The source is the step, and then the packets."""

    def __init__(self, source):
        super().__init__(source)
        self.step, *self.packets = source
        self.given = b''

    def left(self):
        """Of the first packet; behind the last one nothing."""
        return self.packets[0] if self.packets else b''

    def give(self, given):
        self.given = given
        return f'{self.step} {self.record} {given.hex() or "-"}'


def give_packet(run):
    return run.give(run.left())


def give_some(run):
    """Any beginning: none, some or all."""
    return run.give(run.left()[:below((2, 5, len(run.left()) + 1)[below(3)])])


def take(run, fields):
    before = run.at
    step_take(run, fields, STEPS[run.step][0])
    consumed = run.at - before
    if consumed > len(run.given) or (fields[0] == 'incomplete' and consumed < len(run.given)):
        run.bad = f'{fields[0]}, {consumed} consumed of {len(run.given)}'
    left = run.left()[consumed:]
    run.packets[:1] = [left] if left else []
    run.over = run.bad is not None or not (run.packets or pending(run))


# Comparisons of the steps. Of a run: the units, the first bad place, the length there, and the record at the end.

def step_lines():
    """Each source with what it must give."""
    for steps, digits, units, place, length, held in STEP_LINES:
        for step in steps:
            source = (step, *packets_of(digits))
            made = b''.join(unit.to_bytes(STEPS[step][0], 'little') for unit in units)
            yield source, (made, place, length, record_of(1, bytes.fromhex(held)))


def told_at_once(reader, source):
    """By one call of the reader with STRICT over the whole line, with its codes in CPython's units."""
    step, *packets = source
    line = b''.join(packets)
    _, consumed, length, codes = reader.read(line, STRICT)
    units = codes.decode('utf-32-le', 'surrogatepass').encode(STEPS[step][1], 'surrogatepass')
    if length > 0:
        return units, consumed, length, record_of(0, b'')
    return units, None, None, record_of(1, line[consumed:])


def compare_step_lines(probe):
    lines = dict(step_lines())
    compare_runs(probe, lines, give_packet, take, lines.get, StepRun, 'written out')


def compare_steps(reader, probe, steps, short, lines):
    """Short lines in every cut, the others in some; and of these, runs that are given any beginning of what is left."""
    told = functools.partial(told_at_once, reader)
    every = [(step, *packets) for line in short for packets in every_cut(line) for step in steps]
    some = [(step, *cut(line)) for line in lines for step in steps for _ in range(3)]
    whole = [(step, line) for line in lines for step in steps for _ in range(2)]
    compare_runs(probe, every + some, give_packet, take, told, StepRun, 'at once')
    compare_runs(probe, whole, give_some, take, told, StepRun, 'at once')


def compare_utf8_steps(reader, probe):
    """The runs are compared with the reader, and the reader with CPython: each line at once."""
    short = [*short_lines(NARROW_BORDER, range(4)), *short_lines(b'\x41\xA0\xF0', [4])]
    lines = list(lines_of(PIECES, 200, 12))
    for line in short + lines:
        compare_packets(reader, [line], STRICT)
    compare_steps(reader, probe, UTF8_STEPS, short, lines)


def compare_cesu8_steps(reader, probe):
    short = [*short_lines(CESU8_BORDER, range(4)), *PAIR_LINES]
    compare_steps(reader, probe, CESU8_STEPS, short, list(lines_of(CESU8_PIECES, 300, 12)))


def main(library, probe):
    reader, cesu8_reader = Reader(library), Reader(library, 'cesu8_')
    compare_with_decoder(reader)
    compare_utf8(reader)
    compare_cesu8(cesu8_reader)
    compare_step_lines(probe)
    compare_utf8_steps(reader, probe)
    compare_cesu8_steps(cesu8_reader, probe)
    return total(f'{waited} of them where CPython waits after ED A0..BF')


sys.exit(main(*sys.argv[1:]))
