/* utf8proc, which is called code by code. */
#include "contender.h"

#include <utf8proc.h>

static size_t utf8proc_read(const void *in, size_t len, void *out, size_t room)
{
    const uint8_t *src = in, *end = src + len;
    uint32_t *codes = out;
    size_t made = 0;

    while (src < end && made < room) {
        utf8proc_int32_t code;
        utf8proc_ssize_t count = utf8proc_iterate(src, end - src, &code);

        if (count < 0) {
            code = 0xDC00 + *src;
            count = 1;
        }
        codes[made++] = (uint32_t)code;
        src += count;
    }
    return made;
}

/* It writes surrogates as three bytes, so escapes are found before. It is not told the room. */
static size_t utf8proc_write(const void *in, size_t len, void *out, size_t room)
{
    const uint32_t *codes = in;
    uint8_t *dst = out;
    size_t made = 0;

    (void)room;
    for (size_t i = 0; i < len; i++)
        if (codes[i] >= 0xDC80 && codes[i] <= 0xDCFF)
            dst[made++] = (uint8_t)codes[i];
        else
            made += (size_t)utf8proc_encode_char((utf8proc_int32_t)codes[i], dst + made);
    return made;
}

const struct contender utf8proc_reader = {.name = "utf8proc", .run = utf8proc_read};
const struct contender utf8proc_writer = {.name = "utf8proc", .run = utf8proc_write};
