#include "log.h"

#include "utf8b.h"

#include <stdio.h>
#include <stdlib.h>

void expect(int holds, const struct log *log, const char *what)
{
    if (holds)
        return;
    fprintf(stderr, "bench: %s, %zu bytes: %s\n", log->corpus->name, log->len, what);
    exit(1);
}

static size_t lesser(size_t a, size_t b)
{
    return a < b ? a : b;
}

/* The room is full before a piece ends that is not the log's last, so each call has UTF8B_LAST. */
struct position walk_on(const struct log *log, struct position at, size_t code)
{
    static uint8_t codes[4 * 4096];
    uint8_t report[UTF8B_REPORT];

    while (at.code < code && at.place < log->len) {
        size_t bytes = lesser(log->len - at.place, UTF8B_LIMIT), room = lesser(sizeof codes / 4, code - at.code);
        int64_t count = utf8b_decode(log->bytes + at.place, bytes, codes, 4 * room, UTF8B_LAST, report, sizeof report);

        expect(count > 0, log, "the walk does not go on");
        at.code += (size_t)count;
        at.place += utf8b_consumed(report);
    }
    return at;
}

size_t walk_to_code(const struct log *log, size_t k)
{
    struct position start = {0, 0};

    return walk_on(log, start, k).place;
}

size_t find_code(const struct log *log, size_t k)
{
    size_t place = 0, len = UTF8B_INDEX_RECORD * log->records;
    uint32_t number = utf8b_index_find(log->bytes, log->len, log->index, len, k, &place);

    expect(number == UTF8B_DONE, log, "a code is not found");
    return place;
}

size_t build_index(const struct log *log, size_t len, uint8_t *index)
{
    size_t records = 0;

    expect(utf8b_index_build(log->bytes, len, index, log->index_len, &records) == UTF8B_DONE, log, "no index");
    return records;
}

size_t update_index(const struct log *log, const struct old_index *old)
{
    size_t records = 0;
    uint32_t number =
        utf8b_index_update(log->bytes, log->len, old->len, old->records, old->index, log->index_len, &records);

    expect(number == UTF8B_DONE, log, "no update");
    return records;
}

void make_log(struct log *log, const struct corpus *c, size_t len)
{
    log->corpus = c;
    log->len = len;
    log->bytes = new_memory(len);
    fill(c, log->bytes, len);
    log->index_len = utf8b_index_room(len);
    log->index = new_memory(log->index_len);
    log->records = build_index(log, len, log->index);
}

void free_log(struct log *log)
{
    free(log->bytes);
    free(log->index);
}

void make_old_index(struct old_index *old, const struct log *log, size_t len)
{
    old->len = len;
    old->index = new_memory(log->index_len);
    old->records = build_index(log, len, old->index);
}
