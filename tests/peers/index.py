"""The calls on an index against CPython.

With 'surrogateescape' CPython reads as UTF8B_LAST alone does: each bad byte b is the character U+DC00 + b. Where a
character stands follows from the bytes that those before it are written as.

usage: index.py LIBRARY
"""

import ctypes
import functools
import itertools
import sys

from peer import below, compare, of_pieces, random_strings, short_strings, texts, total

EVERY, RECORD = 64, 8
DONE, NO_ROOM, OUTSIDE = 0, 1, 15
KEPT, KEPT_CODE = 0xA5A5A5A5A5A5A5A5, 0xA5A5A5A5
MOST = 2 ** 64 - 1
FAR = [2 ** 32, 2 ** 32 + 1, 2 ** 38, 2 ** 61 - 1, 2 ** 61, 2 ** 61 + 1, 2 ** 63, MOST - EVERY, MOST]

BORDER = bytes.fromhex('00417F808F909FA0B2BFC0C1C2DFE0E1ECEDEEEFF0F1F3F4F5F7F8FF')
NARROW_BORDER = bytes.fromhex('41808F909FA0BFC2E0EDF0F4')
PIECES = [piece.encode() for piece in 'a\u00E9\u2032\U0001F4A7'] + [b'\xF0\x9F\x92', b'\xE2\x80', b'\xC3', b'\x80']


# CPython's side.

@functools.cache
def length_of(char):
    return len(char.encode('utf-8', 'surrogateescape'))


def items_by_peer(data):
    """The place, the length and the code of each item."""
    text = data.decode('utf-8', 'surrogateescape')
    lengths = list(map(length_of, text))
    return list(zip(itertools.accumulate([0, *lengths]), lengths, map(ord, text)))


def places_by_peer(data, first=0):
    return [first + place for place, _, _ in items_by_peer(data[first:])]


def covers_by_peer(data):
    """Of each byte, what covers it; then that nothing covers the end."""
    items = items_by_peer(data)
    return [(DONE, *item) for item in items for _ in range(item[1])] + [(OUTSIDE, KEPT, KEPT, KEPT_CODE)]


def laid(records):
    return b''.join(place.to_bytes(RECORD, 'little') for place in records)


def index_by_peer(records, index, room):
    """Records laid over the bytes of an index, of which the first so many are its room."""
    if RECORD * len(records) > room:
        return NO_ROOM, KEPT, index
    return DONE, len(records), laid(records) + index[RECORD * len(records):]


def find_by_peer(data, records, k):
    """The items from the place recorded on are read afresh."""
    record = records[k // EVERY:][:1]
    place = places_by_peer(data, *record)[k % EVERY:][:1] if record else []
    return (DONE, *place) if place else (OUTSIDE, KEPT)


def update_by_peer(data, old_len, old, index, room):
    if old_len > len(data) or RECORD * len(old) > room:
        return OUTSIDE, KEPT, index
    standing = list(itertools.takewhile(lambda place: place + 3 < old_len, old))
    return index_by_peer(standing[:-1] + places_by_peer(data, *standing[-1:])[::EVERY], index, room)


# The library.

class Index:
    """The calls. Numbers that they do not set stay KEPT; of the index also what lies behind the room is answered."""
    ROOM = 1 << 18
    BEHIND = 16

    def __init__(self, path):
        size, number, code = ctypes.c_size_t, ctypes.POINTER(ctypes.c_size_t), ctypes.POINTER(ctypes.c_uint32)
        log, index = [ctypes.c_char_p, size], [ctypes.c_void_p, size]
        library = ctypes.CDLL(path)
        self.build_entry = self.entry(library.utf8b_index_build, *log, *index, number)
        self.find_entry = self.entry(library.utf8b_index_find, *log, *log, size, number)
        self.cover_entry = self.entry(library.utf8b_index_cover, *log, size, number, number, code)
        self.update_entry = self.entry(library.utf8b_index_update, *log, size, size, *index, number)
        self.index = ctypes.create_string_buffer(self.ROOM + self.BEHIND)
        self.number, self.length, self.code = ctypes.c_size_t(), ctypes.c_size_t(), ctypes.c_uint32()

    @staticmethod
    def entry(function, *parameters):
        function.argtypes = parameters
        function.restype = ctypes.c_uint32
        return function

    def lay(self, entry, log, old, index, room):
        self.index[:len(index)] = index
        self.number.value = KEPT
        answer = entry(log, len(log), *old, self.index, room, self.number)
        return answer, self.number.value, self.index[:len(index)]

    def build(self, log, index, room):
        return self.lay(self.build_entry, log, (), index, room)

    def update(self, log, old_len, old_records, index, room):
        return self.lay(self.update_entry, log, (old_len, old_records), index, room)

    def find(self, log, index, k):
        self.number.value = KEPT
        return self.find_entry(log, len(log), index, len(index), k, self.number), self.number.value

    def cover(self, log, p):
        self.number.value, self.length.value, self.code.value = KEPT, KEPT, KEPT_CODE
        answer = self.cover_entry(log, len(log), p, self.number, self.length, self.code)
        return answer, self.number.value, self.length.value, self.code.value


# Inputs.

def scrap(room):
    """The bytes of an index before it is built, and those behind it."""
    return (bytes(range(1, 250)) * (1 + (room + Index.BEHIND) // 249))[:room + Index.BEHIND]


def multiples():
    """A piece a multiple of 64 times, and once less or more."""
    for piece, records, more in itertools.product(PIECES, range(1, 6), (-1, 0, 1)):
        yield piece * (EVERY * records + more)


# Comparisons.

def compare_covers(index, data):
    for p, expected in enumerate(covers_by_peer(data)):
        compare(expected, index.cover(data, p), 'cover byte', p, 'of', data)


def compare_builds(index, data):
    records = places_by_peer(data)[::EVERY]
    need = RECORD * len(records)
    for room in (0, max(need - 1, 0), need, need + 1 + below(30)):
        held = scrap(room)
        compare(index_by_peer(records, held, room), index.build(data, held, room), 'build, room', room, 'of', data)


def some_codes(count):
    """All if they are few, else those about the records and the end; then past the end and far."""
    yield from (k for k in range(count + 3) if count < 300 or (k + 1) % EVERY < 3 or k > count - 3)
    yield from (count + EVERY, *FAR)


def compare_finds(index, data):
    places = places_by_peer(data)
    records = laid(places[::EVERY])
    for k in some_codes(len(places)):
        expected = (DONE, places[k]) if k < len(places) else (OUTSIDE, KEPT)
        compare(expected, index.find(data, records, k), 'find code', k, 'of', data)


def false_place(length):
    """Anywhere, about the end, about 2^64, or just above 2^32."""
    anywhere, about_end = below(length + 1), max(length - 4, 0) + below(6)
    return (anywhere, anywhere, about_end, MOST - below(9), 2 ** 32 + below(99))[below(5)]


def compare_false(index, data):
    records = [false_place(len(data)) for _ in range(below(5))]
    for _ in range(4):
        k = below(EVERY * (len(records) + 1))
        compare(find_by_peer(data, records, k), index.find(data, laid(records) + bytes(below(RECORD)), k), 'find code', k,
                'by', records, 'of', data)


def compare_update(index, data, old_len, old, held, room):
    """Answers the bytes of the index as they are then."""
    answer = index.update(data, old_len, len(old), held, room)
    compare(update_by_peer(data, old_len, old, held, room), answer, 'update, old length', old_len, 'old records', old,
            'room', room, 'of', data)
    return answer[2]


def compare_packets(index, data):
    """Packets, empty ones too: the records are always those of a fresh index. At times fewer are handed over."""
    room = RECORD * (1 + len(data) // EVERY) + below(20)
    held, length, old = scrap(room), 0, []
    while length < len(data):
        old_len, length = length, min(length + below(1 + below(200)), len(data))
        held = compare_update(index, data[:length], old_len, old, held, room)
        fresh = places_by_peer(data[:length])[::EVERY]
        compare(laid(fresh), held[:RECORD * len(fresh)], 'a fresh index of', data[:length])
        old = fresh[:len(fresh) if below(4) else below(len(fresh) + 1)]


def compare_false_updates(index, data):
    for _ in range(3):
        old_len = below(len(data) + 2)
        old = places_by_peer(data[:old_len])[::EVERY]
        old += [false_place(old_len) for _ in range(below(3))]
        if old:
            old[below(len(old))] = false_place(old_len)
        room = RECORD * below(len(old) + 4) + below(RECORD)
        held = (laid(old) + scrap(room)[RECORD * len(old):])[:room + Index.BEHIND]
        compare_update(index, data, old_len, old, held, room)


def compare_refusals(index, data):
    """Old lengths and old records that are far too many, with room and without."""
    for far, room in itertools.product(FAR, (0, 8, 40)):
        held = scrap(room)
        compare((OUTSIDE, KEPT, held), index.update(data, far, 0, held, room), 'update, old length', far, 'of', data)
        compare((OUTSIDE, KEPT, held), index.update(data, 0, far, held, room), 'update, old records', far, 'of', data)


def compare_long(index, data):
    """More bytes than the readers and writers take."""
    places, covers = places_by_peer(data), covers_by_peer(data)
    records = laid(places[::EVERY])
    room = len(records)
    held = scrap(room)
    compare(index_by_peer(places[::EVERY], held, room), index.build(data, held, room), 'build of a long log')
    for _ in range(2000):
        k, p = below(len(places)), below(len(data))
        compare((DONE, places[k]), index.find(data, records, k), 'find code', k, 'of a long log')
        compare(covers[p], index.cover(data, p), 'cover byte', p, 'of a long log')


def main(library):
    index = Index(library)
    for data in itertools.chain(short_strings(BORDER, NARROW_BORDER), random_strings(2000, BORDER)):
        compare_covers(index, data)
    for data in itertools.chain(multiples(), texts(PIECES, 40, 400), texts(PIECES, 4, 3000), random_strings(500, BORDER)):
        compare_builds(index, data)
        compare_finds(index, data)
        compare_covers(index, data)
    for data in texts(PIECES, 400, 300):
        compare_false(index, data)
        compare_packets(index, data)
        compare_false_updates(index, data)
    compare_refusals(index, of_pieces(PIECES, 100))
    compare_long(index, of_pieces(PIECES, 600000))
    return total()


sys.exit(main(*sys.argv[1:]))
