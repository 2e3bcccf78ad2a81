/* A line in packets, cut anywhere, against the line at once: by the model, and by a call. */
#include "tests.h"
#include "utf8b.h"

#include <inttypes.h>
#include <stdio.h>
#include <string.h>

enum { MOST = 4000, RADIO = 24 };

/* A line, and where its packets end; the last ends with the line, and packets may be empty. */
struct cut {
    uint32_t flags;
    const uint8_t *s;
    size_t n;
    size_t packets;
    size_t ends[2 * MOST];
    int scant; /* little room in every call but the last */
};

/* What a caller has of a line. */
struct reading {
    int64_t refused; /* the answer where it is a refusal, else 0 */
    uint64_t consumed;
    uint8_t bad_length;
    size_t made; /* bytes of codes */
    uint8_t codes[4 * MOST];
};

static struct cut cut;
static struct reading whole, joined;

static void show_reading(const char *name, const struct reading *r)
{
    printf("  %s: refused %" PRId64 ", consumed %" PRIu64 ", bad length %d\n", name, r->refused, r->consumed, r->bad_length);
    show_bytes("codes", r->codes, r->made);
}

static void show_cut(const void *call)
{
    const struct cut *c = call;

    printf("  %s, flags %" PRIu32 ", %s, packets that end at", cesu8 ? "CESU-8" : "UTF-8", c->flags,
           c->scant ? "little room" : "room enough");
    for (size_t i = 0; i < c->packets && i < 40; i++)
        printf(" %zu", c->ends[i]);
    puts("");
    show_bytes("line", c->s, c->n);
}

static void expect(int holds, const char *what)
{
    if (holds)
        return;
    check_failed(what);
    show_cut(&cut);
    show_reading("at once", &whole);
    show_reading("in packets", &joined);
    check_go_on();
}

static int same(const struct reading *a, const struct reading *b)
{
    return a->refused == b->refused && a->consumed == b->consumed && a->bad_length == b->bad_length && a->made == b->made &&
           memcmp(a->codes, b->codes, a->made) == 0;
}

/* Takes up an answer and its report; false where the reading ends with it. */
static int take(struct reading *r, int64_t answer, const uint8_t *report)
{
    if (answer < UTF8B_BAD) {
        r->refused = answer;
        return 0;
    }
    r->made += answer > 0 ? 4 * (size_t)answer : 0;
    r->consumed += consumed_in(report);
    r->bad_length = report[8];
    return r->bad_length == 0;
}

static void start(struct reading *r)
{
    r->refused = 0;
    r->consumed = 0;
    r->bad_length = 0;
    r->made = 0;
}

/* The model's reading of the line, and that of one call. */
static void read_at_once(void)
{
    static struct reading called;
    struct call c = {DECODE, cut.flags, cut.s, cut.n, 4 * cut.n, REPORT};
    struct outcome o = {.out = whole.codes};
    uint8_t report[REPORT];

    model(&c, &o);
    start(&whole);
    whole.refused = o.answer < UTF8B_BAD ? o.answer : 0;
    whole.consumed = o.consumed;
    whole.bad_length = o.bad_length;
    whole.made = o.written;
    start(&called);
    take(&called, enter(DECODE, cut.s, cut.n, called.codes, 4 * cut.n, cut.flags, report, REPORT), report);
    expect(same(&whole, &called), "one call is not as the model");
}

/* The loop that a caller has: what a packet leaves unread goes before the next, and only the last has LAST. */
static void read_packets(void)
{
    static uint8_t line[MOST];
    size_t unread = 0, at = 0;

    start(&joined);
    for (size_t i = 0; i < cut.packets; i++) {
        int last = i + 1 == cut.packets;
        uint8_t report[REPORT];
        size_t room;

        memcpy(line + unread, cut.s + at, cut.ends[i] - at);
        unread += cut.ends[i] - at;
        at = cut.ends[i];
        room = cut.scant && !last ? below(unread + 1) : unread;
        if (!take(&joined, enter(DECODE, line, unread, joined.codes + joined.made, 4 * room,
                                 last ? cut.flags : cut.flags & ~UTF8B_LAST, report, REPORT), report))
            return;
        unread -= consumed_in(report);
        memmove(line, line + consumed_in(report), unread);
        expect(cut.scant || unread <= (cesu8 ? 5 : 3), "more is unread than a partial sequence");
    }
}

static void compare_cut(void)
{
    check_enter(&cut, show_cut);
    read_packets();
    check_leave();
    expect(same(&whole, &joined), "packets matter");
}

/* Bit i of the mask cuts behind byte i.  An empty packet stands at some of the cuts, and sometimes at the end. */
static void cut_by(size_t mask)
{
    cut.packets = 0;
    for (size_t i = 0; i < cut.n; i++)
        if (i + 1 < cut.n && mask >> i & 1) {
            cut.ends[cut.packets++] = i + 1;
            if (below(3) == 0)
                cut.ends[cut.packets++] = i + 1;
        }
    if (below(3) == 0)
        cut.ends[cut.packets++] = cut.n;
    cut.ends[cut.packets++] = cut.n;
}

/* Packets of up to most bytes, some of them empty. */
static void cut_at_random(size_t most)
{
    size_t at = 0;

    cut.packets = 0;
    while (at < cut.n && cut.packets < 2 * MOST - 2) {
        at += below(most + 1);
        cut.ends[cut.packets++] = at < cut.n ? at : cut.n;
    }
    cut.ends[cut.packets++] = cut.n;
}

/* All cuts of s, with every flag number that a reader knows and some that it refuses. */
static void compare_cuts(const uint8_t *s, size_t n)
{
    cut.s = s;
    cut.n = n;
    for (cut.flags = 0; cut.flags < 17; cut.flags++) {
        cut.scant = 0;
        read_at_once();
        for (size_t mask = 0; mask < (size_t)1 << (n ? n - 1 : 0); mask++) {
            cut_by(mask);
            cut.scant = below(2) != 0;
            compare_cut();
        }
    }
}

static void compare_random(const uint8_t *s, size_t n, size_t most)
{
    cut.s = s;
    cut.n = n;
    cut.flags = random32() % 16;
    cut.scant = below(2) != 0;
    read_at_once();
    for (int i = 0; i < 3; i++) {
        cut_at_random(most);
        compare_cut();
    }
}

/* Every cut of every line of at most three bytes between the borders, and some of those of four. */
static void test_short_lines(void)
{
    uint8_t s[4];

    check_begin("packets of short lines");
    for (size_t n = 0; n <= 3; n++)
        for (size_t k = 0; k < border_strings(n); k += small ? 1 + border_strings(n) / 40 : 1) {
            border_string(s, n, k);
            compare_cuts(s, n);
        }
    for (size_t k = 0; k < border_strings(4); k += small ? 9001 : 1) {
        border_string(s, 4, k);
        compare_random(s, 4, 2);
    }
}

/* Every cut of a sequence of each length between letters, whole and with one byte changed. */
static void test_cut_sequences(void)
{
    static const char *const lines[] = {"\xC3\xA9z", "\xE2\x80\xB2z", "\xF0\x9F\x92\xA7z", "\xED\xA0\xBD\xED\xB2\xA7z"};

    check_begin("packets of one sequence");
    for (size_t l = 0; l < sizeof lines / sizeof lines[0]; l++)
        for (size_t i = 0; lines[l][i]; i++)
            for (size_t k = 0; k < BORDER; k += small ? 9 : 1) {
                uint8_t s[8];
                size_t n = strlen(lines[l]);

                memcpy(s, lines[l], n);
                compare_cuts(s, n);
                s[i] = border[k];
                compare_cuts(s, n);
                compare_cuts(s, n - 1);
            }
}

static void test_random_lines(void)
{
    static uint8_t s[MOST];

    check_begin("packets of random lines");
    for (long i = 0; i < (small ? 200 : 100000); i++) {
        size_t n = below(64);

        if (i % 2)
            damaged_text(s, n);
        else
            fill_samples(s, n);
        compare_random(s, n, 1 + below(10));
    }
    for (int i = 0; i < (small ? 2 : 1000); i++) {
        size_t n = below(MOST);

        fill_samples(s, n);
        compare_random(s, n, RADIO);
    }
}

/* The request's own line, E1 80 E2 in three packets, with what it must give written out; and the sign of 40 minutes. */
static void test_packet_lines(void)
{
    static const struct {
        uint32_t flags;
        const char *s;
        uint64_t consumed;
        uint8_t bad_length;
        size_t made;
        const char *codes;
    } lines[] = {
        {9, "\xE1\x80\xE2", 3, 0, 8, "\xFD\xFF\0\0\xFD\xFF\0\0"},
        {8, "\xE1\x80\xE2", 2, 0, 4, "\xFD\xFF\0\0"},
        {5, "\xE1\x80\xE2", 0, 2, 0, ""},
        {4, "\xE1\x80\xE2", 0, 2, 0, ""},
        {1, "40\xE2\x80\xB2", 5, 0, 12, "4\0\0\0" "0\0\0\0" "\x32\x20\0\0"},
        {0, "40\xE2\x80", 2, 0, 8, "4\0\0\0" "0\0\0\0"},
    };

    check_begin("packets of lines written out");
    for (size_t l = 0; l < sizeof lines / sizeof lines[0]; l++) {
        start(&whole);
        whole.consumed = lines[l].consumed;
        whole.bad_length = lines[l].bad_length;
        whole.made = lines[l].made;
        memcpy(whole.codes, lines[l].codes, whole.made);
        cut.s = (const uint8_t *)lines[l].s;
        cut.n = strlen(lines[l].s);
        cut.flags = lines[l].flags;
        cut.scant = 0;
        cut_by(~(size_t)0);
        compare_cut();
    }
}

void test_packets(void)
{
    test_packet_lines();
    test_short_lines();
    test_cut_sequences();
    test_random_lines();
}
