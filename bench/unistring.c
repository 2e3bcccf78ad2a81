/* libunistring. It stops at a bad byte or an escape, and does not tell where. */
#include "contender.h"

#include <unistr.h>

/* An output that does not fit would be put elsewhere. */
static size_t unistring_read(const void *in, size_t len, void *out, size_t room)
{
    return u8_to_u32(in, len, out, &room) == out ? room : 0;
}

static size_t unistring_write(const void *in, size_t len, void *out, size_t room)
{
    return u32_to_u8(in, len, out, &room) == out ? room : 0;
}

const struct contender unistring_reader = {.name = "unistring", .only_well_formed = 1, .run = unistring_read};
const struct contender unistring_writer = {.name = "unistring", .only_well_formed = 1, .run = unistring_write};
