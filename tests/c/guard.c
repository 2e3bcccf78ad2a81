#define _DEFAULT_SOURCE
#include "guard.h"

#include <stdio.h>
#include <stdlib.h>
#include <string.h>
#include <sys/mman.h>
#include <unistd.h>

static uint8_t *pattern;
static size_t pattern_size;

static void pattern_grow(size_t size)
{
    if (size <= pattern_size)
        return;
    pattern = realloc(pattern, size);
    if (!pattern)
        abort();
    for (size_t i = pattern_size; i < size; i++)
        pattern[i] = (uint8_t)(i * 167 + i / 256 + 90);
    pattern_size = size;
}

struct guarded guarded_new(size_t size)
{
    size_t page = (size_t)sysconf(_SC_PAGESIZE);
    struct guarded g;
    uint8_t *map;

    g.size = (size + page - 1) / page * page;
    map = mmap(NULL, g.size + 2 * page, PROT_READ | PROT_WRITE, MAP_PRIVATE | MAP_ANONYMOUS, -1, 0);
    if (map == MAP_FAILED || mprotect(map, page, PROT_NONE) || mprotect(map + page + g.size, page, PROT_NONE)) {
        perror("guarded memory");
        exit(1);
    }
    g.base = map + page;
    pattern_grow(g.size);
    return g;
}

struct guarded guarded_amid(size_t before, size_t after)
{
    size_t page = (size_t)sysconf(_SC_PAGESIZE);
    struct guarded g = {NULL, page};
    uint8_t *map = mmap(NULL, before + page + after, PROT_NONE, MAP_PRIVATE | MAP_ANONYMOUS | MAP_NORESERVE, -1, 0);

    if (map == MAP_FAILED)
        return g;
    if (mprotect(map + before, page, PROT_READ | PROT_WRITE)) {
        perror("guarded memory");
        exit(1);
    }
    g.base = map + before;
    pattern_grow(g.size);
    return g;
}

uint8_t *guarded_place(const struct guarded *g, size_t len, enum side side)
{
    return side == AT_END ? g->base + g->size - len : g->base;
}

void guarded_fill(const struct guarded *g)
{
    memcpy(g->base, pattern, g->size);
}

int guarded_holds(const struct guarded *g, const uint8_t *place, const uint8_t *expected, size_t n)
{
    size_t before = (size_t)(place - g->base);
    size_t after = before + n;

    return memcmp(g->base, pattern, before) == 0
        && (n == 0 || memcmp(place, expected, n) == 0)
        && memcmp(g->base + after, pattern + after, g->size - after) == 0;
}
