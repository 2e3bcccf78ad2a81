/* The C library: its multibyte functions in the locale C.UTF-8, and iconv. */
#define _GNU_SOURCE
#include "contender.h"

#include <errno.h>
#include <iconv.h>
#include <locale.h>
#include <string.h>
#include <wchar.h>

#define FAILED ((size_t)-1)

static iconv_t to_codes, to_bytes;

static int start_locale(void)
{
    return setlocale(LC_CTYPE, "C.UTF-8") != NULL;
}

static int start_iconv(void)
{
    if (!to_codes) {
        to_codes = iconv_open("UTF-32LE", "UTF-8");
        to_bytes = iconv_open("UTF-8", "UTF-32LE");
    }
    return to_codes != (iconv_t)-1 && to_bytes != (iconv_t)-1;
}

/* At a bad byte it does not tell how many codes it has put. */
static size_t mbsnrtowcs_read(const void *in, size_t len, void *out, size_t room)
{
    const char *src = in;
    mbstate_t state;

    memset(&state, 0, sizeof state);
    return mbsnrtowcs(out, &src, len, room, &state);
}

/* At an escape it does not tell how many bytes it has put. */
static size_t wcsnrtombs_write(const void *in, size_t len, void *out, size_t room)
{
    const wchar_t *codes = in;
    mbstate_t state;

    memset(&state, 0, sizeof state);
    return wcsnrtombs(out, &codes, len, room, &state);
}

/* iconv stops before a bad byte, with all that comes before it put. */
static size_t iconv_read(const void *in, size_t len, void *out, size_t room)
{
    char *src = (char *)in, *codes = out;
    size_t left = 4 * room;

    while (iconv(to_codes, &src, &len, &codes, &left) == FAILED && errno != E2BIG && left >= 4) {
        uint32_t escape = 0xDC00u + (unsigned char)*src;

        memcpy(codes, &escape, 4);
        codes += 4;
        left -= 4;
        src++;
        len--;
    }
    return room - left / 4;
}

/* Its input is in bytes as well; the low byte of an escape is the byte that it stands for. */
static size_t iconv_write(const void *in, size_t len, void *out, size_t room)
{
    char *codes = (char *)in, *dst = out;
    size_t left = room, bytes = 4 * len;

    while (iconv(to_bytes, &codes, &bytes, &dst, &left) == FAILED && errno != E2BIG && left >= 1) {
        *dst++ = *codes;
        left--;
        codes += 4;
        bytes -= 4;
    }
    return room - left;
}

const struct contender mbsnrtowcs_reader = {
    .name = "mbsnrtowcs", .only_well_formed = 1, .start = start_locale, .run = mbsnrtowcs_read};
const struct contender wcsnrtombs_writer = {
    .name = "wcsnrtombs", .only_well_formed = 1, .start = start_locale, .run = wcsnrtombs_write};
const struct contender iconv_reader = {.name = "iconv", .start = start_iconv, .run = iconv_read};
const struct contender iconv_writer = {.name = "iconv", .start = start_iconv, .run = iconv_write};
