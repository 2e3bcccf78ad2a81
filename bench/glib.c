/* glib, whose results are in memory of its own, which each run allocates anew. */
#include "contender.h"

#include <glib.h>
#include <string.h>

static void *last;
static size_t last_size;

/* It takes the bytes to be well-formed. */
static size_t glib_read(const void *in, size_t len, void *out, size_t room)
{
    glong count = 0;

    (void)out;
    (void)room;
    g_free(last);
    last = g_utf8_to_ucs4_fast(in, (glong)len, &count);
    last_size = sizeof(gunichar) * (size_t)count;
    return (size_t)count;
}

static size_t glib_write(const void *in, size_t len, void *out, size_t room)
{
    glong count = 0;

    (void)out;
    (void)room;
    g_free(last);
    last = g_ucs4_to_utf8(in, (glong)len, NULL, &count, NULL);
    last_size = (size_t)count;
    return last_size;
}

/* What comes here has the length that was expected, so it fits. */
static void fetch(void *out, size_t room)
{
    (void)room;
    memcpy(out, last, last_size);
}

const struct contender glib_reader = {.name = "glib", .only_well_formed = 1, .run = glib_read, .fetch = fetch};
const struct contender glib_writer = {.name = "glib", .only_well_formed = 1, .run = glib_write, .fetch = fetch};
