/* The C entries. This is linked with a copy of them four times, each time with the functions in another place. */
#include "contender.h"

#include "utf8b.h"

#include <string.h>

/* The entries of all forms are alike. */
typedef int64_t entry(const uint8_t *in, size_t in_len, uint8_t *out, size_t out_len, uint32_t flags, uint8_t *report,
                      size_t report_len);

/* The archive is for x86-64, which has the report's order of bytes. */
static size_t consumed(const uint8_t *report)
{
    uint64_t count;

    memcpy(&count, report, sizeof count);
    return (size_t)count;
}

static size_t lesser(size_t a, size_t b)
{
    return a < b ? a : b;
}

/* An entry takes at most UTF8B_LIMIT bytes a buffer. The whole rest is lent to each call, so each has UTF8B_LAST. */
static inline size_t read_by(entry *decode, uint32_t flags, const void *in, size_t len, void *out, size_t room)
{
    const uint8_t *src = in;
    uint8_t *codes = out, report[UTF8B_REPORT];
    size_t made = 0;

    while (len > 0) {
        size_t bytes = lesser(4 * (room - made), UTF8B_LIMIT);
        int64_t count = decode(src, len, codes + 4 * made, bytes, UTF8B_LAST | flags, report, sizeof report);

        if (count <= 0)
            break;
        made += (size_t)count;
        src += consumed(report);
        len -= consumed(report);
    }
    return made;
}

static inline size_t write_by(entry *encode, const void *in, size_t len, void *out, size_t room)
{
    const uint8_t *codes = in;
    uint8_t *dst = out, report[UTF8B_REPORT];
    size_t made = 0;

    while (len > 0) {
        size_t bytes = lesser(4 * len, UTF8B_LIMIT);
        int64_t count = encode(codes, bytes, dst + made, room - made, 0, report, sizeof report);

        if (count <= 0)
            break;
        made += (size_t)count;
        codes += 4 * consumed(report);
        len -= consumed(report);
    }
    return made;
}

static size_t utf8_read(const void *in, size_t len, void *out, size_t room)
{
    return read_by(utf8b_decode, 0, in, len, out, room);
}

static size_t utf8_show(const void *in, size_t len, void *out, size_t room)
{
    return read_by(utf8b_decode, UTF8B_SHOW, in, len, out, room);
}

static size_t utf8_write(const void *in, size_t len, void *out, size_t room)
{
    return write_by(utf8b_encode, in, len, out, room);
}

static size_t cesu8_read(const void *in, size_t len, void *out, size_t room)
{
    return read_by(utf8b_cesu8_decode, 0, in, len, out, room);
}

static size_t cesu8_write(const void *in, size_t len, void *out, size_t room)
{
    return write_by(utf8b_cesu8_encode, in, len, out, room);
}

const struct entries entries = {
    .reader = {[UTF8] = {.name = "entry", .run = utf8_read}, [CESU8] = {.name = "entry", .run = cesu8_read}},
    .writer = {[UTF8] = {.name = "entry", .run = utf8_write}, [CESU8] = {.name = "entry", .run = cesu8_write}},
    .show_reader = {.name = "entry", .run = utf8_show},
};
