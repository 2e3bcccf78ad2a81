/*
 * The line `40′` (34 30 E2 80 B2) comes over a radio link that cuts it inside its sign.
 *
 * What a packet leaves unread is put before the next one, so that the codes are those of the
 * line in one piece.  UTF8B_LAST is given once, when the link has ended: after a silence the
 * rest of a sign may still come.
 */
#include <utf8b.h>

#include <stdio.h>
#include <string.h>

/* The bytes of the longest packet, and the most that a call leaves unread. */
enum { PACKET = 24, UNREAD = 3, MOST = UNREAD + PACKET };

struct line {
    uint8_t unread[MOST];
    size_t len;
};

/* Reads on with a packet.  codes has room for MOST codes; the answer is how many there are, or below 0. */
static int64_t receive(struct line *line, const uint8_t *packet, size_t len, uint32_t flags, uint8_t *codes)
{
    uint8_t report[UTF8B_REPORT];
    int64_t count;

    if (len > MOST - line->len)
        return UTF8B_REFUSED_LENGTH;
    for (size_t i = 0; i < len; i++)
        line->unread[line->len++] = packet[i];
    count = utf8b_decode(line->unread, line->len, codes, 4 * MOST, flags, report, sizeof report);
    if (count >= 0) {
        line->len -= utf8b_consumed(report);
        memmove(line->unread, line->unread + utf8b_consumed(report), line->len);
    }
    return count;
}

static void show(const uint8_t *codes, int64_t count)
{
    if (count == 0)
        printf(" nothing");
    if (count < 0)
        printf(" the answer %ld", (long)count);
    for (int64_t i = 0; i < count; i++)
        printf(" U+%04lX", (unsigned long)utf8b_code(codes, (size_t)i));
}

static void show_packet(struct line *line, const char *name, const uint8_t *packet, size_t len, uint32_t flags)
{
    uint8_t codes[4 * MOST];

    printf("%s gives", name);
    show(codes, receive(line, packet, len, flags, codes));
    printf(", unread: %u\n", (unsigned)line->len);
}

static const uint8_t first[] = {0x34, 0x30, 0xE2, 0x80}, second[] = {0xB2};

/*
 * Each packet read by itself gives a clean list.  The two lists end to end are not clean: once
 * they are written, they are read as other codes.
 */
static void show_wrong_way(void)
{
    uint8_t codes[4 * MOST], bytes[MOST], report[UTF8B_REPORT];
    int64_t count = utf8b_decode(first, sizeof first, codes, sizeof codes, UTF8B_LAST, report, sizeof report);

    count += utf8b_decode(second, sizeof second, codes + 4 * count, sizeof codes - 4 * (size_t)count,
                          UTF8B_LAST, report, sizeof report);
    printf("each packet with LAST gives");
    show(codes, count);
    count = utf8b_encode(codes, 4 * (size_t)count, bytes, sizeof bytes, 0, report, sizeof report);
    count = utf8b_decode(bytes, (size_t)count, codes, sizeof codes, UTF8B_LAST, report, sizeof report);
    printf("\nwhich written and read again is");
    show(codes, count);
    puts("");
}

int main(void)
{
    struct line line = {{0}, 0};

    show_packet(&line, "packet 34 30 E2 80", first, sizeof first, 0);
    show_packet(&line, "a silence", NULL, 0, 0);
    show_packet(&line, "packet B2", second, sizeof second, 0);
    show_packet(&line, "the end of the link", NULL, 0, UTF8B_LAST);
    show_wrong_way();
    return 0;
}
