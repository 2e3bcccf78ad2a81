/* A log with an index beside it: packets are appended as they come, and any code is found without reading up to it. */
#include <stdio.h>
#include <stdlib.h>
#include <string.h>
#include <utf8b.h>

enum { CHUNK = 4096, LINE = 80 };

struct log {
    uint8_t *bytes, *index;
    size_t len, index_len, records;
};

static void check(int is_well, const char *what)
{
    if (is_well)
        return;
    fprintf(stderr, "log: %s\n", what);
    exit(1);
}

/* For more bytes, and for whatever index they will have. */
static void make_room(struct log *log, size_t more)
{
    log->index_len = utf8b_index_room(log->len + more);
    log->bytes = (uint8_t *)realloc(log->bytes, log->len + more);
    log->index = (uint8_t *)realloc(log->index, log->index_len);
    check(log->bytes && log->index, "no memory");
}

static void open_log(struct log *log, FILE *file)
{
    size_t count = 1;

    for (; count > 0; log->len += count) {
        make_room(log, CHUNK);
        count = fread(log->bytes + log->len, 1, CHUNK, file);
    }
    check(!ferror(file), "the file cannot be read");
    check(utf8b_index_build(log->bytes, log->len, log->index, log->index_len, &log->records) == UTF8B_DONE, "no index");
}

/* Tells the item of the packet's first byte: it may have begun in the packet before. */
static void append(struct log *log, const char *packet)
{
    size_t at = log->len, start, length;
    uint32_t code;

    make_room(log, strlen(packet));
    memcpy(log->bytes + at, packet, strlen(packet));
    log->len += strlen(packet);
    check(utf8b_index_update(log->bytes, log->len, at, log->records,
                             log->index, log->index_len, &log->records) == UTF8B_DONE, "no update");
    check(utf8b_index_cover(log->bytes, log->len, at, &start, &length, &code) == UTF8B_DONE, "no such byte");
    printf("%u bytes, %u records; byte %u is in U+%04lX, bytes %u to %u\n", (unsigned)log->len, (unsigned)log->records,
           (unsigned)at, (unsigned long)code, (unsigned)start, (unsigned)(start + length - 1));
}

/* From code k to the end of its line.  Of the index only the records are handed on: old ones may stand behind them. */
static void show(const struct log *log, size_t k)
{
    uint8_t codes[4 * LINE], report[UTF8B_REPORT];
    size_t place, len, i;
    int64_t count;

    if (utf8b_index_find(log->bytes, log->len, log->index, 8 * log->records, k, &place) != UTF8B_DONE) {
        printf("code %u is not there\n", (unsigned)k);
        return;
    }
    len = log->len - place < sizeof codes ? log->len - place : sizeof codes; /* LINE codes have no more bytes */
    count = utf8b_decode(log->bytes + place, len, codes, sizeof codes, UTF8B_LAST, report, sizeof report);
    check(count >= 0, "no codes");
    printf("code %u is at byte %u:", (unsigned)k, (unsigned)place);
    for (i = 0; i < (size_t)count && utf8b_code(codes, i) != '\n'; i++)
        printf(" U+%04lX", (unsigned long)utf8b_code(codes, i));
    printf("\n");
}

int main(void)
{
    struct log log = {NULL, NULL, 0, 0, 0};
    FILE *file = tmpfile();

    check(file != NULL, "no file");
    for (int hour = 6; hour < 12; hour++)
        fprintf(file, "%02d:00 pump %d: %d\xE2\x80\xB2\n", hour, 1 + hour % 4, 10 * hour - 50);
    fputs("12:00 pump 3: ", file);
    check(!ferror(file) && fseek(file, 0, SEEK_SET) == 0, "the file cannot be written");
    open_log(&log, file);
    append(&log, "40\xE2\x80");
    append(&log, "\xB2 \xF0\x9F\x92");
    show(&log, 128);
    append(&log, "\xA7"); /* three codes become one */
    show(&log, 128);
    show(&log, 122);
    free(log.bytes);
    free(log.index);
    return fclose(file) == 0 ? 0 : 1;
}
