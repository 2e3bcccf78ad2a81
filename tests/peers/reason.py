"""Why bytes are bad, against CPython.

What CPython's strict decoder says of the bytes from a place on tells the reasons 1 to 3, 4 to 7 and 8 from each other,
and the length of the bad stretch. The exact reason is told from the sequences that CPython's encoder makes.

CPython judges as the request does: E0 80, ED A0 and F4 90 at the end are an 'invalid continuation byte', and no
'unexpected end of data'. Only its incremental decoder waits after a final ED A0..BF (cpython.py has that), and it is
not asked here, since a reason is of an input with nothing after it. So nothing is left out.

usage: reason.py LIBRARY
"""

import ctypes
import itertools
import sys

from peer import LAST, STRICT, Library, below, compare, of_pieces, random_strings, short_strings, texts, total

GOOD, LONE, NEVER, BEYOND, TOO_LONG, SURROGATE, TOO_HIGH, CUT_SHORT, UNFINISHED, END = range(10)
MOST = 2 ** 64 - 1
FAR = [2 ** 31, 2 ** 32 - 1, 2 ** 32, 2 ** 32 + 1, 2 ** 63 - 1, 2 ** 63, MOST - 3, MOST - 2, MOST - 1, MOST]

# In CPython's words.
START, LATER, CUT = 'invalid start byte', 'invalid continuation byte', 'unexpected end of data'
SAID = {GOOD: 'a character', LONE: START, NEVER: START, BEYOND: START, TOO_LONG: LATER, SURROGATE: LATER, TOO_HIGH: LATER,
        CUT_SHORT: LATER, UNFINISHED: CUT, END: 'nothing'}

BORDER = bytes.fromhex('00417F808F909FA0B2BFC0C1C2DFE0E1ECEDEEEFF0F1F3F4F5F7F8FF')
NARROW_BORDER = bytes.fromhex('41808F909FA0BFC2E0EDF0F4')
BAD = 'C3 E280 F09F F09F92 80 C080 C1 F5 FF E080 E09FBF F08F F08FBFBF EDA0 EDBFBF F490 F4BF'
PIECES = [piece.encode() for piece in 'A\u00E9\u2032\U0001F4A7'] + list(map(bytes.fromhex, BAD.split()))


# CPython's side.

def said_by_peer(rest):
    """What the decoder says of the front of the bytes, and how many bytes it says that of."""
    try:
        return ('a character', len(rest.decode()[0].encode())) if rest else ('nothing', 0)
    except UnicodeDecodeError as error:
        if error.start > 0:
            return 'a character', len(rest[:error.start].decode()[0].encode())
        return error.reason, error.end


def beginnings():
    """All beginnings of sequences, each with the length of the sequence: the last of its bytes is any of 80..BF."""
    sequences = [chr(code).encode() for code in range(0, 0x110000, 64) if not 0xD800 <= code <= 0xDFFF]
    return {s[:k]: len(s) for s in sequences for k in range(1, len(s))}


BEGINNINGS = beginnings()


def refused_code(first, second):
    """Why no code has these bits: those of a first byte of three or four bytes, and of a second byte."""
    length = 3 if first < 0xF0 else 4
    code = ((first & 0xFF >> length + 1) << 6 | second & 0x3F) << 6 * (length - 2)
    if code < (0x800 if length == 3 else 0x10000):
        return TOO_LONG
    return SURROGATE if code < 0xE000 else TOO_HIGH


def reason_by_codes(rest):
    """Byte by byte, up to the first that leaves no sequence; and the length of the bad stretch."""
    if not rest:
        return END, 0
    if rest[0] < 0x80:
        return GOOD, 1
    if rest[:1] not in BEGINNINGS:
        return (LONE if rest[0] < 0xC0 else NEVER if rest[0] < 0xE0 else BEYOND), 1
    for k in range(1, BEGINNINGS[rest[:1]]):
        if k == len(rest):
            return UNFINISHED, k
        if rest[k] & 0xC0 != 0x80:
            return CUT_SHORT, k
        if k + 1 < BEGINNINGS[rest[:k]] and rest[:k + 1] not in BEGINNINGS:
            return refused_code(*rest[:k + 1]), k
    return GOOD, BEGINNINGS[rest[:1]]


# The library.

class Reasons(Library):
    def __init__(self, path):
        super().__init__(path)
        self.reason = ctypes.CDLL(path).utf8b_reason
        self.reason.argtypes = [ctypes.c_char_p, ctypes.c_size_t, ctypes.c_size_t]
        self.reason.restype = ctypes.c_uint32


# Comparisons.

def compare_place(reasons, data, place):
    rest = data[place:]
    answer = reasons.reason(data, len(data), place)
    said, length = said_by_peer(rest)
    compare(said, SAID.get(answer), 'what is said at', place, 'of', data)
    compare(reason_by_codes(rest), (answer, length), 'the reason and the length at', place, 'of', data)
    if LONE <= answer <= TOO_HIGH:
        compare(1, length, 'one bad byte at', place, 'of', data)


def compare_places(reasons, data):
    for place in range(len(data) + 1):
        compare_place(reasons, data, place)


def compare_stretches(reasons, data):
    """Where the reader with STRICT stops there is a reason, with a stretch of that length; before it there is none."""
    at = 0
    while at < len(data):
        _, consumed, length, _ = reasons.read(data[at:], LAST | STRICT)
        for place in range(at, at + consumed):
            inside = data[place] & 0xC0 == 0x80
            compare(LONE if inside else GOOD, reasons.reason(data, len(data), place), 'good bytes at', place, 'of', data)
        at += consumed
        if length:
            answer = reasons.reason(data, len(data), at)
            compare(reason_by_codes(data[at:]), (answer, length), 'bad bytes at', at, 'of', data)
        at += length


def compare_past(reasons, data):
    """At and past the end; of no bytes also by a null pointer."""
    for place in itertools.chain(range(len(data), len(data) + 9), FAR):
        compare(END, reasons.reason(data or None, len(data), place), 'past the end, at', place, 'of', data)


def compare_long(reasons, data):
    """More bytes than the readers and writers take."""
    for _ in range(300):
        compare_place(reasons, data, below(len(data)))
    for back in range(6):
        compare_place(reasons, data, len(data) - back)


def main(library):
    reasons = Reasons(library)
    for data in itertools.chain(short_strings(BORDER, NARROW_BORDER), random_strings(2000, BORDER), texts(PIECES, 200, 40)):
        compare_places(reasons, data)
    for data in itertools.chain(texts(PIECES, 100, 200), texts(PIECES, 4, 3000)):
        compare_stretches(reasons, data)
    for data in itertools.chain([b''], texts(PIECES, 40, 30)):
        compare_past(reasons, data)
    compare_long(reasons, of_pieces(PIECES, 1000) * 700)
    return total()


sys.exit(main(*sys.argv[1:]))
