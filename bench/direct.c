/* The proved reader and writer directly. */
#include "contender.h"

#include "utf8b.h"

/* crates/direct: the reader and the writer over 32-bit codes. They answer how much they produced. */
size_t direct_decode(const uint8_t *src, size_t src_len, uint32_t *codes, size_t codes_len, uint32_t flags);
size_t direct_encode(const uint32_t *codes, size_t codes_len, uint8_t *dst, size_t dst_len, uint32_t flags);

static size_t direct_read(const void *in, size_t len, void *out, size_t room)
{
    return direct_decode(in, len, out, room, UTF8B_LAST);
}

static size_t direct_write(const void *in, size_t len, void *out, size_t room)
{
    return direct_encode(in, len, out, room, 0);
}

const struct contender direct_reader = {.name = "direct", .is_apart = 1, .run = direct_read};
const struct contender direct_writer = {.name = "direct", .is_apart = 1, .run = direct_write};
