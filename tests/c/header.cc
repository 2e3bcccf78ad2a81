// The header from C++: `40′` is read and written back, asked why it would be bad, and found in an index.
#include "utf8b.h"

#include <cstdio>
#include <cstring>

static int differences = 0;

static void same(long long expected, long long answer, const char *what)
{
    if (expected == answer)
        return;
    std::printf("%s: expected %lld, the answer is %lld\n", what, expected, answer);
    differences++;
}

int main()
{
    const uint8_t line[] = {0x34, 0x30, 0xE2, 0x80, 0xB2};
    const uint8_t expected[] = {0x34, 0, 0, 0, 0x30, 0, 0, 0, 0x32, 0x20, 0, 0};
    uint8_t codes[sizeof line * 4], back[sizeof codes], report[UTF8B_REPORT];

    same(3, utf8b_decode(line, sizeof line, codes, sizeof codes, UTF8B_LAST, report, sizeof report), "codes read");
    same(5, (long long)utf8b_consumed(report), "bytes consumed");
    same(0x2032, utf8b_code(codes, 2), "the last code");
    same(0, std::memcmp(codes, expected, sizeof expected), "codes");
    same(5, utf8b_encode(codes, sizeof expected, back, sizeof back, 0, report, sizeof report), "bytes written");
    same(3, (long long)utf8b_consumed(report), "codes consumed");
    same(0, std::memcmp(back, line, sizeof line), "bytes");

    same(UTF8B_BAD, utf8b_decode(line + 3, 2, codes, sizeof codes, UTF8B_STRICT, report, sizeof report), "bad");
    same(0, (long long)utf8b_consumed(report), "bytes consumed of bad ones");
    same(1, (long long)utf8b_bad_length(report), "bad length");
    same(UTF8B_REFUSED_FLAGS, utf8b_decode(line, 5, codes, 20, UTF8B_STRICT | UTF8B_SHOW, report, UTF8B_REPORT), "flags");
    same(UTF8B_REFUSED_FLAGS, utf8b_encode(codes, 4, back, 20, UTF8B_SURRO | UTF8B_SHOW, report, UTF8B_REPORT), "flags");
    same(UTF8B_REFUSED_REPORT, utf8b_encode(codes, 4, back, 20, 0, report, UTF8B_REPORT - 1), "report");
    same(UTF8B_REFUSED_CODES, utf8b_encode(codes, 5, back, 20, 0, report, UTF8B_REPORT), "codes");
    const uint8_t pair[] = {0xED, 0xA0, 0xBD, 0xED, 0xB2, 0xA7};
    same(1, utf8b_cesu8_decode(pair, sizeof pair, codes, sizeof codes, UTF8B_LAST, report, sizeof report), "a pair read");
    same(0x1F4A7, utf8b_code(codes, 0), "its code");
    same(6, utf8b_cesu8_encode(codes, 4, back, sizeof back, 0, report, sizeof report), "a pair written");
    same(0, std::memcmp(back, pair, sizeof pair), "its bytes");
    same(UTF8B_REFUSED_FLAGS, utf8b_cesu8_encode(codes, 4, back, 20, UTF8B_SURRO, report, UTF8B_REPORT), "flags");
    static uint8_t long_input[UTF8B_LIMIT + 1];
    same(UTF8B_REFUSED_LENGTH, utf8b_decode(long_input, sizeof long_input, codes, 20, 0, report, UTF8B_REPORT), "length");

    uint8_t index[UTF8B_INDEX_RECORD];
    size_t records = 9, place = 9, start = 9, length = 9;
    uint32_t code = 9;
    same(UTF8B_NO_ROOM, utf8b_index_build(line, 4, index, sizeof index - 1, &records), "no room for an index");
    same(UTF8B_DONE, utf8b_index_build(line, 4, index, sizeof index, &records), "an index");
    same(UTF8B_DONE, utf8b_index_update(line, sizeof line, 4, records, index, sizeof index, &records), "an index updated");
    same(1, (long long)records, "its records");
    same(0, (long long)utf8b_index_place(index, 0), "its record");
    same(UTF8B_DONE, utf8b_index_find(line, sizeof line, index, sizeof index, 2, &place), "a code found");
    same(2, (long long)place, "its place");
    same(UTF8B_OUTSIDE, utf8b_index_find(line, sizeof line, index, sizeof index, 3, &place), "a code past the end");
    same(UTF8B_DONE, utf8b_index_cover(line, sizeof line, 3, &start, &length, &code), "a byte covered");
    same(2, (long long)start, "its item's start");
    same(3, (long long)length, "its item's length");
    same(0x2032, code, "its item's code");
    same(16, (long long)utf8b_index_room(65), "room for an index");

    same(UTF8B_REASON_GOOD, utf8b_reason(line, sizeof line, 2), "a good place");
    same(UTF8B_REASON_LONE, utf8b_reason(line, sizeof line, 3), "a place inside a sequence");
    same(UTF8B_REASON_UNFINISHED, utf8b_reason(line, 4, 2), "a sequence cut off");
    same(UTF8B_REASON_END, utf8b_reason(line, sizeof line, sizeof line), "the end");
    same(0, std::strcmp(utf8b_reason_text(UTF8B_REASON_UNFINISHED), "the end of the input cuts it off"), "its words");
    if (differences == 0)
        std::puts("38 answers compared, 0 differences");
    return differences != 0;
}
