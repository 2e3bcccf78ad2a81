/* ICU: its converters, and loops over the macros of its header. */
#include "contender.h"

#include <unicode/ucnv.h>
#include <unicode/utf8.h>

#define MACRO_LOOP "ICU macro loop*"

enum { PIVOT = 1024 };

static UConverter *utf8, *cesu8, *utf32;

static int start(void)
{
    UErrorCode error = U_ZERO_ERROR;

    if (!utf32) {
        utf8 = ucnv_open("UTF-8", &error);
        cesu8 = ucnv_open("CESU-8", &error);
        utf32 = ucnv_open("UTF-32LE", &error);
    }
    return U_SUCCESS(error);
}

/* By way of UTF-16, as between any two of ICU's converters. Answers how many bytes it has put. */
static size_t convert(UConverter *from, UConverter *to, const char *src, size_t len, char *dst, size_t room)
{
    static UChar pivot[PIVOT];
    UChar *taken = pivot, *put = pivot;
    UErrorCode error = U_ZERO_ERROR;
    char *at = dst;

    ucnv_convertEx(to, from, &at, dst + room, &src, src + len, pivot, &taken, &put, pivot + PIVOT, 1, 1, &error);
    return (size_t)(at - dst);
}

static size_t utf8_read(const void *in, size_t len, void *out, size_t room)
{
    return convert(utf8, utf32, in, len, out, 4 * room) / 4;
}

static size_t utf8_write(const void *in, size_t len, void *out, size_t room)
{
    return convert(utf32, utf8, in, 4 * len, out, room);
}

static size_t cesu8_read(const void *in, size_t len, void *out, size_t room)
{
    return convert(cesu8, utf32, in, len, out, 4 * room) / 4;
}

static size_t cesu8_write(const void *in, size_t len, void *out, size_t room)
{
    return convert(utf32, cesu8, in, 4 * len, out, room);
}

static size_t macro_read(const void *in, size_t len, void *out, size_t room)
{
    const uint8_t *src = in;
    uint32_t *codes = out;
    size_t at = 0, made = 0;

    while (at < len && made < room) {
        size_t start_of_code = at;
        UChar32 code;

        U8_NEXT(src, at, len, code);
        if (code < 0) {
            code = 0xDC00 + src[start_of_code];
            at = start_of_code + 1;
        }
        codes[made++] = (uint32_t)code;
    }
    return made;
}

/* No code above 10FFFF comes here, and the room is enough, so what is refused is an escape. */
static size_t macro_write(const void *in, size_t len, void *out, size_t room)
{
    const uint32_t *codes = in;
    uint8_t *dst = out;
    size_t made = 0;

    for (size_t i = 0; i < len; i++) {
        UBool is_refused = 0;

        U8_APPEND(dst, made, room, codes[i], is_refused);
        if (is_refused)
            dst[made++] = (uint8_t)codes[i];
    }
    return made;
}

const struct contender icu_reader = {.name = "ICU", .only_well_formed = 1, .start = start, .run = utf8_read};
const struct contender icu_writer = {.name = "ICU", .only_well_formed = 1, .start = start, .run = utf8_write};
const struct contender icu_cesu8_reader = {.name = "ICU", .only_well_formed = 1, .start = start, .run = cesu8_read};
const struct contender icu_cesu8_writer = {.name = "ICU", .only_well_formed = 1, .start = start, .run = cesu8_write};
const struct contender icu_macro_reader = {.name = MACRO_LOOP, .is_apart = 1, .run = macro_read};
const struct contender icu_macro_writer = {.name = MACRO_LOOP, .is_apart = 1, .run = macro_write};
