#include "index_model.h"

#include "model.h"
#include "utf8b.h"

#include <stdlib.h>
#include <string.h>

static size_t length_at(const uint8_t *log, size_t log_len, size_t at)
{
    uint32_t code;

    return front_item(log + at, log_len - at, UTF8B_LAST, &code);
}

const struct reading *read_log(const uint8_t *log, size_t log_len)
{
    static struct reading r;
    static size_t room;

    if (room < log_len) {
        room = log_len;
        r.items = realloc(r.items, room * sizeof *r.items);
        if (!r.items)
            abort();
    }
    r.count = 0;
    for (size_t at = 0; at < log_len; r.count++) {
        struct item *i = &r.items[r.count];

        i->start = at;
        i->length = front_item(log + at, log_len - at, UTF8B_LAST, &i->code);
        at += i->length;
    }
    return &r;
}

size_t record_at(const uint8_t *index, size_t i)
{
    size_t place = 0;

    for (size_t k = RECORD; k > 0; k--)
        place = place * 256 + index[RECORD * i + k - 1];
    return place;
}

void set_record(uint8_t *index, size_t i, size_t place)
{
    for (size_t k = 0; k < RECORD; k++, place /= 256)
        index[RECORD * i + k] = (uint8_t)(place % 256);
}

/* Every 64th item of the full reading. */
static uint32_t build(const struct index_call *c, struct index_outcome *o)
{
    const struct reading *r = read_log(c->log, c->log_len);
    size_t records = r->count / EVERY + (r->count % EVERY ? 1 : 0);

    if (RECORD * records > c->index_len)
        return NO_ROOM;
    for (size_t i = 0; i < records; i++)
        set_record(o->index, i, r->items[EVERY * i].start);
    o->number = records;
    return DONE;
}

/* The place is tested at the record and after every item, the last one too. */
static uint32_t find(const struct index_call *c, struct index_outcome *o)
{
    size_t at;

    if (c->k / EVERY >= c->index_len / RECORD)
        return OUTSIDE;
    at = record_at(c->index, c->k / EVERY);
    if (at >= c->log_len)
        return OUTSIDE;
    for (size_t i = 0; i < c->k % EVERY; i++) {
        at += length_at(c->log, c->log_len, at);
        if (at >= c->log_len)
            return OUTSIDE;
    }
    o->number = at;
    return DONE;
}

/* By the full reading, never by a part of the log. */
static uint32_t cover(const struct index_call *c, struct index_outcome *o)
{
    const struct reading *r = read_log(c->log, c->log_len);

    for (size_t i = 0; i < r->count; i++)
        if (r->items[i].start <= c->k && c->k < r->items[i].start + r->items[i].length) {
            o->number = r->items[i].start;
            o->length = r->items[i].length;
            o->code = r->items[i].code;
            return DONE;
        }
    return OUTSIDE;
}

/* Whether place + 3 reaches the old length; the sum can pass 2^64. */
static int reaches(size_t place, size_t old_len)
{
    return place > SIZE_MAX - 3 || place + 3 >= old_len;
}

static int more_than_room(size_t old_records, size_t index_len)
{
    return old_records > SIZE_MAX / RECORD || RECORD * old_records > index_len;
}

/* Lays the records from number i on, of items from a place on; answers how many there are then, with room or not. */
static size_t lay_records(const struct index_call *c, size_t at, size_t i, uint8_t *index)
{
    for (size_t items = 0; at < c->log_len; items++) {
        if (items % EVERY == 0) {
            if (RECORD * (i + 1) <= c->index_len)
                set_record(index, i, at);
            i++;
        }
        at += length_at(c->log, c->log_len, at);
    }
    return i;
}

static void keep_index(const struct index_call *c, struct index_outcome *o)
{
    if (c->index_len)
        memcpy(o->index, c->index, c->index_len);
}

static uint32_t update(const struct index_call *c, struct index_outcome *o)
{
    size_t stand = 0, records;

    if (c->old_len > c->log_len || more_than_room(c->old_records, c->index_len))
        return OUTSIDE;
    while (stand < c->old_records && !reaches(record_at(c->index, stand), c->old_len))
        stand++;
    records = stand ? lay_records(c, record_at(c->index, stand - 1), stand - 1, o->index) : lay_records(c, 0, 0, o->index);
    if (RECORD * records > c->index_len) {
        keep_index(c, o);
        return NO_ROOM;
    }
    o->number = records;
    return DONE;
}

void index_model(const struct index_call *c, struct index_outcome *o)
{
    static uint32_t (*const entries[])(const struct index_call *, struct index_outcome *) = {build, find, cover, update};

    keep_index(c, o);
    o->number = 0;
    o->length = 0;
    o->code = 0;
    o->answer = entries[c->entry](c, o);
}
